//! The files of `examples/`: what is accepted runs alike as circuit, flat circuit and program, and reaches the bads that
//! its design says; what is refused is refused with the number that the README's table gives.
#![cfg(all(
    feature = "read",
    feature = "flatten",
    feature = "translate",
    feature = "run_circuit",
    feature = "run_program",
    feature = "name"
))]
#![allow(dead_code)]

mod generator;
mod independent;

use generator::Random;
use gofeshan::{FirstBad, MOST_RECORDS, PROGRAM_RECORD, RECORD};

fn file(name: &str) -> Vec<u8> {
    let path = std::path::Path::new(env!("CARGO_MANIFEST_DIR")).join("../examples").join(name);
    std::fs::read(&path).unwrap_or_else(|e| panic!("{}: {e}", path.display()))
}

/// The operations run with the stack that is said to be enough for them.
fn on_stack(work: impl FnOnce() + Send + 'static) {
    let thread = std::thread::Builder::new().stack_size(gofeshan::STACK).spawn(work).unwrap();
    if let Err(panic) = thread.join() {
        std::panic::resume_unwind(panic);
    }
}

struct Example {
    text: Vec<u8>,
    table: Vec<u64>,
    count: usize,
    flat: (Vec<u64>, usize),
    program: (Vec<u64>, usize),
    lines: independent::rules::Lines,
}

impl Example {
    fn new(name: &str) -> Example {
        Example::of(name, file(name))
    }

    fn of(name: &str, text: Vec<u8>) -> Example {
        let mut table = vec![0; RECORD * 1000];
        let count = gofeshan::read(&text, &mut table).unwrap_or_else(|e| panic!("{name}: {e}"));
        let (mut flat, mut program) = (vec![0; RECORD * MOST_RECORDS], vec![0; PROGRAM_RECORD * MOST_RECORDS]);
        let flat_count = gofeshan::flatten(&table, count, &mut flat).unwrap();
        let program_count = gofeshan::translate(&flat, flat_count, &mut program).unwrap();
        let lines = independent::rules::check_table(&table, count).unwrap();
        println!("{name}: {count} records, {flat_count} flat, {program_count} in the program");
        Example { text, table, count, flat: (flat, flat_count), program: (program, program_count), lines }
    }

    fn program_kinds(&self) -> &[u64] {
        &self.program.0[..self.program.1]
    }

    /// The first counted bad of a run, the same for circuit, flat circuit and program as their signals are.
    fn run(&self, steps: usize, starts: &[u64], inputs: &[u64]) -> Option<FirstBad> {
        let expected = self.lines.run(steps, starts, inputs);
        let bad = self.lines.first_bad(steps, &expected).map(|(step, place)| FirstBad { step, place });
        let (flat, program) = (&self.flat, &self.program);
        for (i, (table, count)) in
            [(&self.table, self.count), (&flat.0, flat.1), (&program.0, program.1)].into_iter().enumerate()
        {
            let run = if i < 2 { gofeshan::run_circuit } else { gofeshan::run_program };
            let (mut signals, mut work) = (vec![7; expected.len()], vec![7; 100_000]);
            assert_eq!(run(table, count, steps, starts, inputs, &mut signals, &mut work), Ok(bad));
            assert!(signals == expected && work.iter().all(|&w| w == 0));
        }
        bad
    }

    /// The names of a row's words: those of the inputs, and then those of the free states, for each of their cells. yosys names
    /// a line `uext` by 0 bits over a free state, and not the state.
    fn row_names(&self) -> Vec<&[u8]> {
        let name = |place: usize| gofeshan::name(&self.text, self.lines.ids[place]);
        let state_name = |place: usize| {
            let over = self.lines.records.iter().position(|r| (r[0], r[2], r[3]) == (19, place as u64 + 1, 0));
            over.filter(|_| name(place).is_empty()).map_or(name(place), name)
        };
        let lines = || self.lines.lines.iter().enumerate();
        let inputs = lines().filter(|(_, line)| line.kind == 4).map(|(place, _)| name(place));
        let free = lines().filter(|(_, line)| line.is_free());
        inputs.chain(free.flat_map(|(place, l)| vec![state_name(place); l.sort.unwrap().cells()])).collect()
    }

    /// Rows whose words are given by their names and the step.
    fn rows(&self, steps: usize, word: impl Fn(&[u8], u64) -> u64) -> Vec<u64> {
        let names = self.row_names();
        (0..steps as u64)
            .flat_map(|k| names.iter().map(move |name| (k, *name)))
            .map(|(k, name)| word(name, k))
            .collect()
    }

    /// A run from start words 0 on such rows.
    fn driven(&self, steps: usize, word: impl Fn(&[u8], u64) -> u64) -> Option<(u64, u64)> {
        let rows = self.rows(steps, word);
        self.run(steps, &vec![0; self.lines.state_cells()], &rows).map(|bad| (bad.step, bad.place))
    }

    /// Runs on any words.
    fn tried(&self) {
        let mut random = Random::new(self.count as u64);
        for steps in [0, 1, 2, 50, 300] {
            let (starts, rows) = (random.words(self.lines.state_cells()), random.words(steps * self.lines.row_words()));
            self.run(steps, &starts, &rows);
        }
    }
}

#[test]
fn accepted() {
    on_stack(|| {
        let on = |names: &'static [&'static str]| {
            move |name: &[u8], _: u64| u64::from(names.iter().any(|n| n.as_bytes() == name))
        };
        let letters = |name: &[u8], _: u64| if name == b"letter" || name == b"typed" { 65 } else { 0 };

        let counter = Example::new("verilog/counter.btor2");
        assert_eq!(counter.driven(300, on(&["enable"])), Some((200, 2)));
        assert_eq!(counter.driven(300, on(&["reset"])), None);
        // Both at once break the constraint, and nothing counts from then on.
        assert_eq!(counter.driven(300, |name, k| u64::from(name == b"enable" || name == b"reset" && k == 7)), None);

        let fifo = Example::new("verilog/fifo.btor2");
        assert_eq!(fifo.driven(100, on(&["push"])), Some((9, 1)));
        assert_eq!(fifo.driven(100, on(&["push", "pop"])), None);

        let lfsr = Example::new("verilog/lfsr.btor2");
        let (mut word, mut step) = (0xACE1u64, 0);
        while word != 0x7CB9 {
            let back = (word ^ word >> 2 ^ word >> 3 ^ word >> 5) & 1;
            (word, step) = (back << 15 | word >> 1, step + 1);
        }
        assert_eq!(lfsr.driven(step as usize + 1, on(&["step"])), Some((step, 2)));
        assert_eq!(lfsr.driven(300, on(&[])), None);

        let caption = Example::new("verilog/caption.btor2");
        assert_eq!(caption.driven(200, letters), Some((65, 1)));
        assert_eq!(caption.driven(65, letters), None);
        let own = Example::new("caption.btor2");
        assert_eq!(own.driven(200, letters), Some((64, 1)));

        let (alu, registers) = (Example::new("verilog/alu.btor2"), Example::new("verilog/registers.btor2"));
        let mixed = |name: &[u8], k: u64| (k + 1).wrapping_mul(0x9e37_79b9_7f4a_7c15 + name.len() as u64) >> 7;
        assert_eq!(alu.driven(1000, mixed), None);
        assert_eq!(registers.driven(1000, mixed), None);

        let worked = Example::new("worked.btor2");
        assert_eq!(worked.run(3, &[0, 0], &[0, 0, 1]), Some(FirstBad { step: 1, place: 1 }));

        // The worked example with gaps in its ids: the same circuit, whose names go by the ids.
        let gaps = Example::new("gaps.btor2");
        assert_eq!(gaps.lines.records, worked.lines.records);
        assert_eq!(gaps.lines.ids, [5, 9, 10, 40, 41, 50, 70, 71, 90, 100, 4_294_967_295]);
        assert_eq!((&gaps.flat, &gaps.program), (&worked.flat, &worked.program));
        assert_eq!((gofeshan::name(&gaps.text, 71), gofeshan::name(&gaps.text, 8)), (&b"store"[..], &b""[..]));
        assert_eq!(gaps.run(3, &[0, 0], &[0, 0, 1]), Some(FirstBad { step: 1, place: 1 }));

        // Minus operands: the table has a not record of the id 0 for each, and the flat circuit a not line.
        let minus = Example::new("minus.btor2");
        let nots = minus.lines.records.iter().zip(&minus.lines.ids).filter(|(r, id)| (r[0], **id) == (11, 0));
        let complemented: Vec<u64> = nots.map(|(r, _)| minus.lines.ids[r[2] as usize - 1]).collect();
        assert_eq!(complemented, [30, 30, 21, 50, 60, 63, 65]);
        assert_eq!((gofeshan::name(&minus.text, 64), gofeshan::name(&minus.text, 40)), (&b"overload"[..], &b""[..]));
        // A page of eight lamps is drawn at step 0 and shown from step 1 on, unless the display is blank then.
        let full = |swap: u64, blank: u64| {
            move |name: &[u8], k: u64| match name {
                b"drawn" => 255,
                b"swap" => u64::from(k == swap),
                _ => u64::from(k == blank),
            }
        };
        assert_eq!(minus.driven(9, full(0, 9)), Some((1, 2)));
        assert_eq!(minus.driven(9, full(3, 4)), Some((5, 2)));
        assert_eq!(minus.driven(9, full(9, 9)), None);
        // Seven lamps are not too many; a swap of a blank display breaks the constraint.
        assert_eq!(minus.driven(9, |name, _| if name == b"drawn" { 254 } else { u64::from(name == b"swap") }), None);
        assert_eq!(minus.driven(9, full(0, 0)), None);

        // Overflow detectors: places of captions are unsigned bytes, ways are signed ones.
        let overflow = Example::new("overflow.btor2");
        let masks = overflow.program_kinds().iter().filter(|&&kind| kind == 56).count();
        assert_eq!((overflow.flat.1, overflow.program.1, masks), (overflow.count, overflow.count - 2 + masks, 4));
        let captions = |length: u64, speed: u64| {
            move |name: &[u8], _: u64| match name {
                b"length" => length,
                _ => speed,
            }
        };
        // 255 and 1 are 256; 192 and 64 are.
        assert_eq!(overflow.driven(300, captions(1, 0)), Some((255, 1)));
        assert_eq!(overflow.driven(300, captions(64, 0)), Some((3, 1)));
        // 16 times 8 is 128, which is no signed byte; -16 times 8 is one.
        assert_eq!(overflow.driven(300, captions(0, 16)), Some((8, 2)));
        assert_eq!(overflow.driven(300, captions(0, 256 - 16)), Some((9, 2)));
        assert_eq!(overflow.driven(300, captions(64, 100)), Some((2, 2)));
        assert_eq!(overflow.driven(300, captions(0, 0)), None);
        assert_eq!((gofeshan::name(&overflow.text, 31), gofeshan::name(&overflow.text, 30)), (&b"full"[..], &b""[..]));
        for example in [counter, fifo, lfsr, caption, own, alu, registers, worked, gaps, minus, overflow] {
            example.tried();
        }
    });
}

/// Free states: a design with `$anyseq`, which yosys writes as a state without a next line, and `$anyconst`, which it writes as
/// a state that is its own next value.
#[test]
fn left_open() {
    on_stack(|| {
        let watch = Example::new("verilog/watch.btor2");
        assert_eq!(watch.row_names(), [&b"clk"[..], b"", b"", b"place", b"letter"]);
        assert_eq!((watch.lines.inputs(), watch.lines.free_cells()), (3, 2));
        let typed = |place: fn(u64) -> u64, letter: fn(u64) -> u64| {
            move |name: &[u8], k: u64| match name {
                b"place" => place(k),
                b"letter" => letter(k),
                _ => k,
            }
        };
        // From start words 0 the cell 0 is watched, and the letter 0 is typed there at step 0. Another letter is typed there
        // when the place comes again, which is 16 modulo 16 at step 16.
        assert_eq!(watch.driven(300, typed(|k| k, |k| 65 + k)), Some((16, 2)));
        assert_eq!(watch.driven(16, typed(|k| k, |k| 65 + k)), None);
        // Where the letter is the same in all steps, or the place does not come again, nothing is typed over it.
        assert_eq!(watch.driven(300, typed(|k| k, |_| 256)), None);
        assert_eq!(watch.driven(300, typed(|k| 1 + k % 15, |k| k)), None);
        // The first claim holds on any rows; the second does not.
        let mixed = |name: &[u8], k: u64| (k + 1).wrapping_mul(0x9e37_79b9_7f4a_7c15 + name.len() as u64) >> 7;
        let (rows, starts) = (watch.rows(1000, mixed), vec![0; watch.lines.state_cells()]);
        assert!(watch.run(1000, &starts, &rows).is_some_and(|bad| bad.place == 2));
        assert!(watch.lines.run(1000, &starts, &rows).chunks(2).all(|claims| claims[0] == 0));
        // It holds because the watched cell stays the same. Without the next line of its place, that is free too: at step 2
        // another cell is watched, where another letter is.
        let moved = |name: &[u8], k: u64| match name {
            b"watched" => [0, 3][usize::from(k == 2)],
            b"place" => [5, 3][usize::from(k == 1)],
            _ => 65,
        };
        assert_eq!(watch.driven(300, moved), None);
        let text = String::from_utf8(watch.text.clone()).unwrap().replace("\n9 next 5 8 8\n", "\n");
        let unkept = Example::of("watch without a next line", text.into_bytes());
        assert_eq!(unkept.row_names(), [&b"clk"[..], b"", b"", b"watched", b"place", b"letter"]);
        assert_eq!(unkept.driven(300, moved), Some((2, 1)));

        // Four tables whose wishes are left open, of which one is served; the wish for 13 is shown a step later.
        let free = Example::new("free.btor2");
        assert_eq!(free.row_names(), [&b"pause"[..], b"wished", b"wished", b"wished", b"wished"]);
        assert_eq!(free.program_kinds().iter().filter(|&&kind| kind == 56).count(), 1);
        let pauses = |pause: u64| -> Vec<u64> {
            let wishes = [[13, 13, 13, 13], [13, 13, 0, 13], [0, 0, 13, 0], [0, 0, 29, 0], [0; 4]];
            wishes.iter().zip([0, 0, 1, pause, 0]).flat_map(|(wish, pause)| [&[pause], &wish[..]].concat()).collect()
        };
        for (served, pause, bad) in [(2, 0, Some(4)), (6, 2, Some(4)), (2, 1, None), (1, 0, Some(2)), (4, 1, Some(2))] {
            let told = free.run(5, &[13, 13, 13, 13, served, 13], &pauses(pause));
            assert_eq!(told.map(|bad| bad.step), bad, "{served} {pause}");
        }
        [watch, unkept, free].iter().for_each(Example::tried);
    });
}

#[test]
fn refused() {
    on_stack(|| {
        for (name, number, line) in [("rom", 8, 22), ("deep", 9, 9), ("wide", 7, 4), ("registers_as_written", 22, 119)]
        {
            let mut table = [7; RECORD * 1000];
            let told = gofeshan::read(&file(&format!("verilog/{name}.btor2")), &mut table);
            assert_eq!(told.map_err(|r| (r.number, r.line)), Err((number, line)), "{name}");
            assert!(table.iter().all(|&word| word == 0), "{name}");
        }
    });
}

/// What yosys wrote of the registers differs from what is accepted in the name of one next line, which is that of its state;
/// it can be asked for all the same.
#[test]
fn names_of_next_lines() {
    let (written, made) = (file("verilog/registers_as_written.btor2"), file("verilog/registers.btor2"));
    for (id, name, left) in
        [(11, "file", "file"), (118, "file", ""), (39, "registers.v:18.50-18.69", "registers.v:18.50-18.69")]
    {
        assert_eq!(gofeshan::name(&written, id), name.as_bytes());
        assert_eq!(gofeshan::name(&made, id), left.as_bytes());
    }
    let text = |file: Vec<u8>| String::from_utf8(file).unwrap();
    assert_eq!(text(written).replace("118 next 10 11 117 file ;", "118 next 10 11 117 ;"), text(made));
}

const CAPTION_256: &str = "1 sort bitvec 1
2 sort bitvec 8
3 sort array 2 2
4 zero 2
5 constd 2 7
6 state 3
7 init 3 6 5
8 state 2
9 init 2 8 4
10 inc 2 8
11 next 2 8 10
12 input 2
13 write 3 6 10 12
14 next 3 6 13
15 read 2 6 4
16 neq 1 15 5
17 bad 16
";

/// Lists of 7,800 words, as the flat program has them, hold 1,300 records.
#[test]
fn the_flat_programs_lists() {
    on_stack(|| {
        let told = |text: &str| {
            let (mut table, mut target) = ([0; 7800], [0; 7800]);
            let flat = gofeshan::read(text.as_bytes(), &mut table)
                .and_then(|count| gofeshan::flatten(&table, count, &mut target));
            flat.map_err(|r| (r.number, r.line))
        };
        let inputs = |lines: u64| -> String {
            let line = |id| format!("{id} input 1\n");
            std::iter::once("1 sort bitvec 1\n".to_string()).chain((2..=lines).map(line)).collect()
        };
        assert_eq!(told(&inputs(1300)), Ok(1300));
        assert_eq!(told(&inputs(1301)), Err((4, 1301)));
        // An array sort of two cells is three records.
        assert_eq!(told(&(inputs(1297) + "1298 sort array 1 1\n")), Ok(1300));
        assert_eq!(told(&(inputs(1298) + "1299 sort array 1 1\n")), Err((12, 0)));
        // The caption memory of 64 bytes, and one of 256 bytes, which has 1,548 flat records.
        assert_eq!(told(&String::from_utf8(file("caption.btor2")).unwrap()), Ok(398));
        assert_eq!(told(CAPTION_256), Err((12, 0)));
        let (mut table, mut target) = ([0; 7800], [0; RECORD * 1548]);
        let count = gofeshan::read(CAPTION_256.as_bytes(), &mut table).unwrap();
        assert_eq!(gofeshan::flatten(&table, count, &mut target), Ok(1548));
    });
}
