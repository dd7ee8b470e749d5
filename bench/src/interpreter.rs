//! Two plain interpreters to compare runs with; the step loop of neither allocates anything. One decodes the lines once
//! into a table of instructions. The other has the shape of the proved one: it walks the table's columns and looks up
//! places and widths in lists.

use crate::independent::kinds::{is_value, row, Place};
use crate::independent::rules::{check_program, check_table, Lines};
use crate::independent::MOST_STEPS;
use gofeshan::{PROGRAM_RECORD, RECORD};

/// What a word operator needs besides its operands.
#[derive(Clone, Copy, Default)]
struct Operator {
    kind: u8,
    /// The line's width and those of its first two operands.
    w: u8,
    wa: u8,
    wb: u8,
    /// A constant, or the low bound of a slice.
    number: u64,
}

/// One line. Cells are places in the list of values.
#[derive(Clone, Copy, Default)]
struct Instruction {
    of: Operator,
    /// The number of cells of the line, of a state or of an array operand.
    cells: u32,
    to: u32,
    a: u32,
    b: u32,
    c: u32,
}

fn ones(w: u8) -> u64 {
    u64::MAX >> (64 - w)
}

fn signed(x: u64, w: u8) -> i64 {
    ((x << (64 - w)) as i64) >> (64 - w)
}

/// Whether the result of a detector of kinds 57 to 63 lies outside the width of its operands.
#[inline(always)]
fn overflows(kind: u8, a: u64, b: u64, w: u8) -> bool {
    let m = ones(w);
    let (x, y, sx, sy) = (a & m, b & m, signed(a, w), signed(b, w));
    let above = |result: Option<u64>| result.is_none_or(|n| n > m);
    let outside = |result: Option<i64>| result.is_none_or(|n| signed(n as u64, w) != n);
    match kind {
        57 => above(x.checked_add(y)),
        58 => outside(sx.checked_add(sy)),
        59 => x < y,
        60 => outside(sx.checked_sub(sy)),
        61 => above(x.checked_mul(y)),
        62 => outside(sx.checked_mul(sy)),
        _ => sy != 0 && outside(sx.checked_div(sy)),
    }
}

/// The word of an operator. `P`: in a program.
#[inline(always)]
fn word<const P: bool>(i: &Operator, a: u64, b: u64) -> u64 {
    let (w, m) = (i.w, ones(i.w));
    let cut = |x: u64| if P { x } else { x & m };
    let (sa, sb) = (|| signed(a, i.wa), || signed(b, i.wb));
    match i.kind {
        11 => cut(!a),
        12 => cut(a.wrapping_neg()),
        13 => cut(a.wrapping_add(1)),
        14 => cut(a.wrapping_sub(1)),
        15 => u64::from(a == ones(i.wa)),
        16 => u64::from(a != 0),
        17 => u64::from(a.count_ones() & 1),
        18 => cut(a >> i.number),
        19 => a,
        20 => sa() as u64 & m,
        21 => u64::from(a == b),
        22 => u64::from(a != b),
        23 => u64::from(a < b),
        24 => u64::from(a <= b),
        25 => u64::from(a > b),
        26 => u64::from(a >= b),
        27 => u64::from(sa() < sb()),
        28 => u64::from(sa() <= sb()),
        29 => u64::from(sa() > sb()),
        30 => u64::from(sa() >= sb()),
        31 | 38 => cut(!(a ^ b)),
        32 => cut(!a | b),
        33 => a & b,
        34 => a | b,
        35 => a ^ b,
        36 => cut(!(a & b)),
        37 => cut(!(a | b)),
        39 => cut(a.wrapping_add(b)),
        40 => cut(a.wrapping_sub(b)),
        41 => cut(a.wrapping_mul(b)),
        42 => a.checked_div(b).unwrap_or(m),
        43 => a.checked_rem(b).unwrap_or(a),
        44 => {
            let (x, y) = (sa(), sb());
            (if y == 0 {
                if x >= 0 {
                    -1
                } else {
                    1
                }
            } else {
                x.wrapping_div(y)
            }) as u64
                & m
        }
        45 => {
            let (x, y) = (sa(), sb());
            (if y == 0 { x } else { x.wrapping_rem(y) }) as u64 & m
        }
        46 => {
            let (x, y) = (sa(), sb());
            let r = if y == 0 { x } else { x.wrapping_rem(y) };
            (if y != 0 && r != 0 && (r < 0) != (y < 0) { r + y } else { r }) as u64 & m
        }
        47 => {
            if b >= u64::from(w) {
                0
            } else {
                cut(a << b)
            }
        }
        48 => {
            if b >= u64::from(w) {
                0
            } else {
                a >> b
            }
        }
        49 => (sa() >> (b & m).min(63)) as u64 & m,
        50 | 51 => {
            let (a, n) = (a & m, (b & m) % u64::from(w));
            let n = if i.kind == 50 { n } else { (u64::from(w) - n) % u64::from(w) };
            if n == 0 {
                a
            } else {
                (a << n | a >> (u64::from(w) - n)) & m
            }
        }
        52 => cut(a << i.wb | b),
        56 => a & m,
        57..=63 => u64::from(overflows(i.kind, a, b, i.wa)),
        kind => unreachable!("kind {kind} is no operator on words"),
    }
}

struct Machine {
    instructions: Vec<Instruction>,
    table: Vec<u64>,
    /// For each line, from 1: the place of its cells, its width, the number of its cells, the place of a state's words.
    places: Vec<u32>,
    widths: Vec<u8>,
    numbers: Vec<u32>,
    stores: Vec<u32>,
    values: Vec<u64>,
    states: Vec<u64>,
    /// The places of the free states' words, and the masks of their widths, in the order of a row.
    free: Vec<(u32, u64)>,
    signals: usize,
    inputs: usize,
}

impl Machine {
    fn new(lines: &Lines, starts: &[u64]) -> Machine {
        let (mut at, mut state) = (0u32, 0u32);
        let mut places = Vec::with_capacity(lines.lines.len());
        let mut instructions = Vec::with_capacity(lines.lines.len());
        for (r, line) in lines.records.iter().zip(&lines.lines) {
            let of = Operator { kind: r[0] as u8, w: 1, wa: 1, wb: 1, number: 0 };
            let mut i = Instruction { of, cells: 1, to: at, ..Instruction::default() };
            if let Some(sort) = line.sort {
                i.of.w = sort.width() as u8;
                i.cells = sort.cells() as u32;
            }
            for (j, &place) in row(r[0]).operands.iter().enumerate() {
                if matches!(place, Place::Number | Place::WordSort) {
                    continue;
                }
                let operand = r[2 + j] as usize - 1;
                let sort = lines.lines[operand].sort.unwrap();
                let cell: u32 = places[operand];
                match j {
                    0 => (i.a, i.of.wa) = (cell, sort.width() as u8),
                    1 => (i.b, i.of.wb) = (cell, sort.width() as u8),
                    _ => i.c = cell,
                }
                if matches!(place, Place::Array | Place::Value | Place::State) {
                    i.cells = sort.cells() as u32;
                }
            }
            match r[0] {
                3 => i.of.number = r[2],
                18 => i.of.number = r[4],
                5 => i.a = state,
                6 | 7 => i.a = instructions[r[2] as usize - 1..][..1].iter().map(|s: &Instruction| s.a).next().unwrap(),
                _ => {}
            }
            if r[0] == 5 {
                state += i.cells;
            }
            places.push(at);
            if is_value(r[0]) {
                at += if matches!(r[0], 21 | 22 | 54) { 1 } else { i.cells };
            }
            instructions.push(i);
        }
        let first = |of: &dyn Fn(&Instruction) -> u32| -> Vec<u32> {
            std::iter::once(0).chain(instructions.iter().map(of)).collect()
        };
        let cells = |n: usize| lines.lines[n].sort.map_or(1, |s| s.cells() as u32);
        let free = instructions.iter().zip(&lines.lines).filter(|(_, line)| line.is_free());
        let free = free.flat_map(|(i, _)| (i.a..i.a + i.cells).map(|place| (place, ones(i.of.w)))).collect();
        let mut machine = Machine {
            table: lines.words(),
            places: first(&|i| i.to),
            widths: std::iter::once(1).chain(instructions.iter().map(|i| i.of.w)).collect(),
            numbers: std::iter::once(1).chain((0..instructions.len()).map(cells)).collect(),
            stores: first(&|i| i.a),
            instructions,
            values: vec![0; at as usize],
            states: starts.to_vec(),
            free,
            signals: lines.signals(),
            inputs: lines.inputs(),
        };
        for i in &machine.instructions {
            if i.of.kind == 5 {
                machine.states[i.a as usize..][..i.cells as usize].iter_mut().for_each(|x| *x &= ones(i.of.w));
            }
        }
        machine
    }

    /// The values of all lines; init or next lines store, signals are emitted in a step.
    fn walk_decoded<const P: bool>(&mut self, stores: u8, row: &[u64], signals: &mut [u8]) {
        let (values, states) = (&mut self.values[..], &mut self.states[..]);
        let (mut input, mut signal) = (0, 0);
        for i in &self.instructions {
            let (to, a, b, c, n) = (i.to as usize, i.a as usize, i.b as usize, i.c as usize, i.cells as usize);
            match i.of.kind {
                0..=2 | 10 => {}
                3 => values[to] = i.of.number,
                4 => {
                    values[to] = if P { row[input] } else { row[input] & ones(i.of.w) };
                    input += 1;
                }
                5 if n == 1 => values[to] = states[a],
                5 => values[to..to + n].copy_from_slice(&states[a..a + n]),
                6 | 7 => {
                    if i.of.kind == stores {
                        if i.of.kind == 6 {
                            states[a..a + n].fill(values[b]);
                        } else if n == 1 {
                            states[a] = values[b];
                        } else {
                            states[a..a + n].copy_from_slice(&values[b..b + n]);
                        }
                    }
                }
                8 | 9 => {
                    if stores == 7 {
                        signals[signal] = u8::from(values[a] != 0);
                        signal += 1;
                    }
                }
                21 if n > 1 => values[to] = u64::from(values[a..a + n] == values[b..b + n]),
                22 if n > 1 => values[to] = u64::from(values[a..a + n] != values[b..b + n]),
                53 => {
                    let from = if values[a] != 0 { b } else { c };
                    if n == 1 {
                        values[to] = values[from];
                    } else {
                        values.copy_within(from..from + n, to);
                    }
                }
                54 => values[to] = values[a + values[b] as usize],
                55 => {
                    values.copy_within(a..a + n, to);
                    values[to + values[b] as usize] = values[c];
                }
                11..=20 | 56 => values[to] = word::<P>(&i.of, values[a], 0),
                _ => values[to] = word::<P>(&i.of, values[a], values[b]),
            }
        }
    }

    /// The same from the columns of the table.
    fn walk_columns<const P: bool>(&mut self, stores: u8, row: &[u64], signals: &mut [u8]) {
        let (values, states) = (&mut self.values[..], &mut self.states[..]);
        let (places, widths, numbers) = (&self.places[..], &self.widths[..], &self.numbers[..]);
        let (mut input, mut signal) = (0, 0);
        let count = self.table.len() / if P { PROGRAM_RECORD } else { RECORD };
        let column = |j: usize| self.table[count * j..count * (j + 1)].iter();
        let operands = column(2).zip(column(3)).zip(column(4));
        for (line, (&kind, ((&first, &second), &third))) in (1..).zip(column(0).zip(operands)) {
            let r = [kind, 0, first, second, third];
            let (to, w) = (places[line] as usize, widths[line]);
            let at = |operand: usize| places[r[1 + operand] as usize] as usize;
            match r[0] as u8 {
                0..=2 | 10 => {}
                3 => values[to] = r[2],
                4 => {
                    values[to] = if P { row[input] } else { row[input] & ones(w) };
                    input += 1;
                }
                5 => {
                    let (a, n) = (self.stores[line] as usize, numbers[line] as usize);
                    if n == 1 {
                        values[to] = states[a];
                    } else {
                        values[to..to + n].copy_from_slice(&states[a..a + n]);
                    }
                }
                kind @ (6 | 7) => {
                    if kind == stores {
                        let (a, b, n) = (self.stores[r[2] as usize] as usize, at(2), numbers[r[2] as usize] as usize);
                        if kind == 6 {
                            states[a..a + n].fill(values[b]);
                        } else if n == 1 {
                            states[a] = values[b];
                        } else {
                            states[a..a + n].copy_from_slice(&values[b..b + n]);
                        }
                    }
                }
                8 | 9 => {
                    if stores == 7 {
                        signals[signal] = u8::from(values[at(1)] != 0);
                        signal += 1;
                    }
                }
                kind @ (21 | 22) => {
                    let (a, b, n) = (at(1), at(2), numbers[r[2] as usize] as usize);
                    let same = if n == 1 { values[a] == values[b] } else { values[a..a + n] == values[b..b + n] };
                    values[to] = u64::from(same == (kind == 21));
                }
                53 => {
                    let (from, n) = (if values[at(1)] != 0 { at(2) } else { at(3) }, numbers[line] as usize);
                    if n == 1 {
                        values[to] = values[from];
                    } else {
                        values.copy_within(from..from + n, to);
                    }
                }
                54 => values[to] = values[at(1) + values[at(2)] as usize],
                55 => {
                    let (a, n) = (at(1), numbers[line] as usize);
                    values.copy_within(a..a + n, to);
                    values[to + values[at(2)] as usize] = values[at(3)];
                }
                kind @ (11..=20 | 56) => {
                    let a = values[at(1)];
                    values[to] = word::<P>(&Operator { kind, w, wa: widths[r[2] as usize], wb: 1, number: r[4] }, a, 0);
                }
                kind => {
                    let (a, b) = (values[at(1)], values[at(2)]);
                    let (wa, wb) = (widths[r[2] as usize], widths[r[3] as usize]);
                    values[to] = word::<P>(&Operator { kind, w, wa, wb, number: 0 }, a, b);
                }
            }
        }
    }

    /// The free states take the words of a row behind its inputs.
    fn feed(&mut self, words: &[u64]) {
        for (&(place, mask), &word) in self.free.iter().zip(words) {
            self.states[place as usize] = word & mask;
        }
    }

    fn walk<const P: bool, const D: bool>(&mut self, stores: u8, row: &[u64], signals: &mut [u8]) {
        if D {
            self.walk_decoded::<P>(stores, row, signals);
        } else {
            self.walk_columns::<P>(stores, row, signals);
        }
    }
}

fn run<const P: bool, const D: bool>(
    lines: &Lines,
    steps: usize,
    starts: &[u64],
    inputs: &[u64],
    signals: &mut [u8],
    answer: &mut [u64],
) {
    let mut machine = Machine::new(lines, starts);
    let (n, s) = (machine.inputs, machine.signals);
    let row = n + machine.free.len();
    machine.walk::<P, D>(6, &vec![0; n], &mut []);
    let kinds: Vec<u64> = lines.lines.iter().map(|l| l.kind).filter(|k| matches!(k, 8 | 9)).collect();
    let mut held = true;
    for k in 0..steps {
        let bytes = &mut signals[k * s..(k + 1) * s];
        let (ins, fresh) = inputs[k * row..(k + 1) * row].split_at(n);
        if k > 0 {
            machine.feed(fresh);
        }
        machine.walk::<P, D>(7, ins, bytes);
        if answer[0] == 0 && held {
            held = kinds.iter().zip(bytes.iter()).all(|(&kind, &b)| kind == 8 || b == 1);
            let mut bads = kinds.iter().zip(bytes.iter()).filter(|(&kind, _)| kind == 8);
            if let (true, Some(place)) = (held, bads.position(|(_, &b)| b == 1)) {
                answer.copy_from_slice(&[1, k as u64, place as u64 + 1]);
            }
        }
    }
}

/// A run of a circuit or a program, with the checks that the proved one makes; the work area is its own. `D`: decoded.
#[allow(clippy::too_many_arguments)]
pub fn run_table<const D: bool>(
    program: bool,
    table: &[u64],
    count: usize,
    steps: usize,
    starts: &[u64],
    inputs: &[u64],
    signals: &mut [u8],
    answer: &mut [u64],
) -> u64 {
    signals.fill(0);
    answer.fill(0);
    let Some(lines) = (if program { check_program(table, count) } else { check_table(table, count) }) else {
        return 11;
    };
    if steps > MOST_STEPS
        || starts.len() != lines.state_cells()
        || inputs.len() != steps * lines.row_words()
        || signals.len() != steps * lines.signals()
    {
        return 13;
    }
    if program {
        run::<true, D>(&lines, steps, starts, inputs, signals, answer);
    } else {
        run::<false, D>(&lines, steps, starts, inputs, signals, answer);
    }
    0
}
