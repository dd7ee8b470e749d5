//! A seeded generator: valid circuits as tables and as texts, and what is wrong with texts, tables and lists.
//!
//! Records are made, and damaged, one behind the other (`rows`); a list of them is laid out in columns when it is whole.
#![allow(dead_code)]

pub mod detectors;
pub mod free_states;
pub mod minus;
pub mod minus_edges;
pub mod names;
pub mod zero_ids;

use crate::independent::kinds::{in_circuits, is_value, row, Place, KINDS};
use crate::independent::rules::{check_program, check_table, ones, Lines, Sort};
use crate::independent::{columns, ids, layout, records, size as record_size, Record, MOST_ID, MOST_RECORDS};
use names::Names;

/// Numbers from a seed (splitmix64).
pub struct Random(u64);

impl Random {
    pub fn new(seed: u64) -> Random {
        let mut r = Random(seed);
        r.next();
        r
    }

    pub fn next(&mut self) -> u64 {
        self.0 = self.0.wrapping_add(0x9e37_79b9_7f4a_7c15);
        let mut z = self.0;
        z = (z ^ (z >> 30)).wrapping_mul(0xbf58_476d_1ce4_e5b9);
        z = (z ^ (z >> 27)).wrapping_mul(0x94d0_49bb_1331_11eb);
        z ^ (z >> 31)
    }

    /// From 0 to n - 1.
    pub fn below(&mut self, n: usize) -> usize {
        (self.next() % n.max(1) as u64) as usize
    }

    /// True once in n times.
    pub fn one_in(&mut self, n: usize) -> bool {
        self.below(n) == 0
    }

    pub fn pick<T: Copy>(&mut self, from: &[T]) -> T {
        from[self.below(from.len())]
    }

    /// A word, often at an edge.
    pub fn word(&mut self) -> u64 {
        let bit = 1u64 << self.below(64);
        match self.below(10) {
            0 => 0,
            1 => 1,
            2 => u64::MAX,
            3 => bit,
            4 => bit - 1,
            5 => self.next() % 4,
            6 => self.next() % 256,
            7 => !bit,
            _ => self.next(),
        }
    }

    /// A word of width w, often at an edge.
    pub fn word_of(&mut self, w: u64) -> u64 {
        self.word() & ones(w)
    }

    pub fn words(&mut self, n: usize) -> Vec<u64> {
        (0..n).map(|_| self.word()).collect()
    }

    pub fn bytes(&mut self, n: usize) -> Vec<u8> {
        (0..n).map(|_| self.next() as u8).collect()
    }

    fn width(&mut self) -> u64 {
        match self.below(10) {
            0..=2 => 1,
            3..=4 => self.pick(&[2, 3, 4, 8]),
            5 => self.pick(&[63, 64]),
            6 => self.pick(&[31, 32, 33]),
            7 => 64,
            _ => 1 + self.next() % 64,
        }
    }

    fn index_width(&mut self) -> u64 {
        match self.below(40) {
            0..=17 => 1,
            18..=29 => 2,
            30..=35 => 3,
            36..=37 => 4,
            38 => 5,
            _ => 1 + self.next() % 8,
        }
    }
}

/// How large circuits are to be, and whether they have arrays.
#[derive(Clone, Copy)]
pub struct Size {
    pub lines: usize,
    pub arrays: bool,
}

/// Builds a circuit line by line; every line obeys the rules.
struct Builder<'a> {
    random: &'a mut Random,
    lines: Lines,
    arrays: bool,
    /// Of a register file.
    cones: Option<Cones>,
}

/// The value lines of a register file. Lines are made of fixed words, but for planted operands.
#[derive(Default)]
struct Cones {
    /// Their cones hold no input and no state.
    fixed: Vec<u64>,
    /// Inputs and states.
    sources: Vec<u64>,
    /// Operators with an input or a state in their cones.
    others: Vec<u64>,
    /// An operand of the next operator is to be a source or one of the others.
    plant: bool,
}

impl Builder<'_> {
    fn emit(&mut self, mut record: Record) -> u64 {
        if record[0] >= 11 && self.cones.as_mut().is_some_and(|cones| std::mem::take(&mut cones.plant)) {
            self.plant(&mut record);
        }
        assert!(self.lines.classes_fit(&record) && self.lines.states_fit(&record), "the generator made {record:?}");
        self.put(record)
    }

    /// Adds a line that may break rule 10.
    fn put(&mut self, record: Record) -> u64 {
        let fits = self.lines.classes_fit(&record) && self.lines.widths_fit(&record);
        assert!(fits, "the generator made {record:?}");
        self.lines.add(record);
        let line = self.lines.lines.len() as u64;
        if let Some(cones) = self.cones.as_mut().filter(|_| is_value(record[0])) {
            match record[0] {
                4 | 5 => cones.sources.push(line),
                _ if self.lines.has_fixed_cone(line) => cones.fixed.push(line),
                _ => cones.others.push(line),
            }
        }
        line
    }

    /// The numbers of the lines that pass a test.
    fn those(&self, test: impl Fn(u64, &crate::independent::rules::Line) -> bool) -> Vec<u64> {
        (1u64..).zip(&self.lines.lines).filter(|(n, l)| test(*n, l)).map(|(n, _)| n).collect()
    }

    /// One of some lines, more often a late one.
    fn choose(&mut self, from: &[u64]) -> Option<u64> {
        if from.is_empty() {
            return None;
        }
        let n = from.len();
        let late = self.random.below(3) > 0;
        let i = if late { n - 1 - self.random.below(n.min(6)) } else { self.random.below(n) };
        Some(from[i])
    }

    /// A sort line, an old or a new one.
    fn sort_line(&mut self, sort: Sort) -> u64 {
        let old = self.those(|_, l| l.kind <= 2 && l.sort == Some(sort));
        if !old.is_empty() && !self.random.one_in(12) {
            return self.random.pick(&old);
        }
        match sort {
            Sort::Word(w) => self.emit([1, 0, w, 0, 0]),
            Sort::Array(i, e) => {
                let (i, e) = (self.sort_line(Sort::Word(i)), self.sort_line(Sort::Word(e)));
                self.emit([2, 0, i, e, 0])
            }
        }
    }

    fn values(&self, sort: Sort) -> Vec<u64> {
        match (&self.cones, sort) {
            (Some(cones), Sort::Word(_)) => self.among(&cones.fixed, |s| s == sort),
            _ => self.those(|_, l| l.kind > 2 && l.sort == Some(sort)),
        }
    }

    /// Those of some value lines whose sort passes a test.
    fn among(&self, lines: &[u64], test: impl Fn(Sort) -> bool) -> Vec<u64> {
        lines.iter().copied().filter(|&n| test(self.lines.sort(n))).collect()
    }

    fn words_among(&self, lines: &[u64]) -> Vec<u64> {
        self.among(lines, |sort| matches!(sort, Sort::Word(_)))
    }

    fn constant(&mut self, w: u64) -> u64 {
        let (sort, value) = (self.sort_line(Sort::Word(w)), self.random.word_of(w));
        self.emit([3, sort, value, 0, 0])
    }

    /// A value of a sort, an old or a new one.
    fn value(&mut self, sort: Sort) -> u64 {
        let old = self.values(sort);
        if !self.random.one_in(8) {
            if let Some(line) = self.choose(&old) {
                return line;
            }
        }
        let kind = match sort {
            Sort::Word(w) if self.cones.is_some() || self.random.one_in(3) => return self.constant(w),
            Sort::Word(_) => self.random.pick(&[4, 4, 5]),
            Sort::Array(..) => 5,
        };
        let line = self.sort_line(sort);
        self.emit([kind, line, 0, 0, 0])
    }

    fn word(&mut self, w: u64) -> u64 {
        self.value(Sort::Word(w))
    }

    /// A word of any width.
    fn any_word(&mut self) -> (u64, u64) {
        let old = match &self.cones {
            Some(cones) if cones.plant => {
                let others = self.words_among(&cones.others);
                if let Some(line) = self.choose(&others) {
                    let w = self.lines.sort(line).width();
                    return (self.word(w), w);
                }
                vec![]
            }
            Some(cones) => cones.fixed.clone(),
            None => self.those(|_, l| l.kind > 2 && matches!(l.sort, Some(Sort::Word(_)))),
        };
        match self.choose(&old) {
            Some(line) if !self.random.one_in(6) => (line, self.lines.sort(line).width()),
            _ => {
                let w = self.random.width();
                (self.word(w), w)
            }
        }
    }

    fn any_array(&mut self) -> (u64, Sort) {
        let old = self.those(|_, l| l.kind > 2 && matches!(l.sort, Some(Sort::Array(..))));
        match self.choose(&old) {
            Some(line) if !self.random.one_in(10) => (line, self.lines.sort(line)),
            _ => {
                let sort = Sort::Array(self.random.index_width(), self.random.width());
                (self.value(sort), sort)
            }
        }
    }

    /// An index, often a constant.
    fn index(&mut self, w: u64) -> u64 {
        if self.random.one_in(3) {
            return self.constant(w);
        }
        self.word(w)
    }

    fn array_line(&mut self) {
        let (array, sort) = self.any_array();
        let Sort::Array(i, e) = sort else { unreachable!() };
        match self.random.below(8) {
            0..=2 => {
                let (index, own) = (self.index(i), self.sort_line(Sort::Word(e)));
                self.emit([54, own, array, index, 0]);
            }
            3..=5 => {
                let (index, value, own) = (self.index(i), self.word(e), self.sort_line(sort));
                self.emit([55, own, array, index, value]);
            }
            6 => {
                let (condition, other, own) = (self.word(1), self.value(sort), self.sort_line(sort));
                self.emit([53, own, condition, array, other]);
            }
            _ => {
                let (other, own, kind) = (self.value(sort), self.sort_line(Sort::Word(1)), self.random.pick(&[21, 22]));
                self.emit([kind, own, array, other, 0]);
            }
        }
    }

    fn init_line(&mut self) {
        // A state without an init, and a fixed word below it; a new pair where there is none.
        let states = self.those(|_, l| l.kind == 5 && !l.init);
        if let Some(state) = self.choose(&states) {
            let word = Sort::Word(self.lines.sort(state).width());
            let mut fixed = self.values(word);
            fixed.retain(|&n| n < state && self.lines.has_fixed_cone(n));
            if let Some(value) = self.choose(&fixed) {
                let own = self.sort_line(self.lines.sort(state));
                self.emit([6, own, state, value, 0]);
                return;
            }
        }
        let w = self.random.width();
        let mut value = self.constant(w);
        if self.random.one_in(2) {
            let (kind, own) = (self.random.pick(&[11, 12, 13, 14]), self.sort_line(Sort::Word(w)));
            value = self.emit([kind, own, value, 0, 0]);
        }
        let init = self.register(value);
        self.emit(init);
    }

    /// A new state, and an init line for it with a value.
    fn register(&mut self, value: u64) -> Record {
        let w = self.lines.sort(value).width();
        let sort = if self.arrays && self.random.one_in(3) {
            Sort::Array(self.random.index_width(), w)
        } else {
            Sort::Word(w)
        };
        let line = self.sort_line(sort);
        let state = self.emit([5, line, 0, 0, 0]);
        let own = self.sort_line(sort);
        [6, own, state, value, 0]
    }

    /// An operand of an operator becomes a line whose cone holds an input or a state.
    fn plant(&mut self, record: &mut Record) {
        let places = (2..).zip(row(record[0]).operands);
        let lines: Vec<usize> = places.filter(|(_, &place)| place != Place::Number).map(|(at, _)| at).collect();
        let at = self.random.pick(&lines);
        let sort = self.lines.sort(record[at]);
        let cones = self.cones.as_ref().unwrap();
        let (sources, others) = (self.among(&cones.sources, |s| s == sort), self.among(&cones.others, |s| s == sort));
        record[at] = match (self.choose(&others), self.choose(&sources)) {
            (Some(line), _) if !self.random.one_in(12) => line,
            (_, Some(line)) if !self.random.one_in(3) => line,
            _ => {
                let (line, word) = (self.sort_line(sort), matches!(sort, Sort::Word(_)));
                let kind = if word { self.random.pick(&[4, 5]) } else { 5 };
                self.emit([kind, line, 0, 0, 0])
            }
        };
    }

    /// An operator whose cone holds an input or a state, by way of one operand alone where it has no arrays.
    fn planted_line(&mut self) {
        self.cones.as_mut().unwrap().plant = true;
        if self.arrays && self.random.one_in(4) {
            self.array_line();
        } else {
            self.word_line();
        }
    }

    /// A state and its init, or the init of a state that has none yet.
    fn right_init(&mut self) {
        let fixed = self.cones.as_ref().unwrap().fixed.clone();
        match self.choose(&fixed) {
            Some(value) if !self.random.one_in(4) => {
                let init = self.register(value);
                self.emit(init);
            }
            _ => self.init_line(),
        }
    }

    /// An init that breaks rule 10: most often by an input or a state in its value's cone. Seldom it breaks no rule.
    fn wrong_init(&mut self) {
        let cones = self.cones.as_ref().unwrap();
        let (sources, others) = (self.words_among(&cones.sources), self.words_among(&cones.others));
        let fixed = cones.fixed.clone();
        let inits: Vec<Record> = self.lines.records.iter().copied().filter(|r| r[0] == 6).collect();
        let way = self.random.below(9);
        let from = match way {
            0 => &fixed,
            1 => &sources,
            _ => &others,
        };
        let init = match self.choose(from) {
            Some(value) if way < 7 => {
                let mut init = self.register(value);
                if way == 0 {
                    // A fixed value behind its state.
                    let own = self.sort_line(self.lines.sort(value));
                    init[3] = self.emit([11, own, value, 0, 0]);
                }
                Some(init)
            }
            _ if way == 7 && !inits.is_empty() => Some(self.random.pick(&inits)),
            _ => any_init(self.random, &self.lines),
        };
        if let Some(init) = init {
            self.put(init);
        }
    }

    fn next_line(&mut self) {
        let states = self.those(|_, l| l.kind == 5 && !l.next);
        if let Some(state) = self.choose(&states) {
            let sort = self.lines.sort(state);
            let value = if self.random.one_in(6) { state } else { self.value(sort) };
            let own = self.sort_line(sort);
            self.emit([7, own, state, value, 0]);
        }
    }

    fn signal_line(&mut self) {
        let (kind, mut value) = (self.random.pick(&[8, 8, 8, 9, 10]), self.word(1));
        if kind == 9 && self.random.below(4) > 0 {
            // Most constraints hold most of the time.
            let (other, own) = (self.word(1), self.sort_line(Sort::Word(1)));
            value = self.emit([34, own, value, other, 0]);
            value = self.emit([36, own, value, self.lines.records[value as usize - 1][2], 0]);
        }
        if kind == 10 {
            value = self.any_word().0;
        }
        self.emit([kind, 0, value, 0, 0]);
    }

    fn word_line(&mut self) {
        let (a, w) = self.any_word();
        // A register file has more of the lines with three operands.
        let three = self.cones.is_some() && self.random.one_in(6);
        // Kinds 11 to 53 and 57 to 63.
        let any = 11 + self.random.below(50) as u64;
        let kind = if three { 53 } else { any + if any > 53 { 3 } else { 0 } };
        let bit = Sort::Word(1);
        match kind {
            11..=14 => {
                let own = self.sort_line(Sort::Word(w));
                self.emit([kind, own, a, 0, 0]);
            }
            15..=17 => {
                let own = self.sort_line(bit);
                self.emit([kind, own, a, 0, 0]);
            }
            18 => {
                let upper = self.random.next() % w;
                let lower = self.random.next() % (upper + 1);
                let own = self.sort_line(Sort::Word(upper - lower + 1));
                self.emit([18, own, a, upper, lower]);
            }
            19 | 20 => {
                let extra = self.random.next() % (65 - w);
                let own = self.sort_line(Sort::Word(w + extra));
                self.emit([kind, own, a, extra, 0]);
            }
            21..=30 => {
                let (b, own) = (self.word(w), self.sort_line(bit));
                self.emit([kind, own, a, b, 0]);
            }
            31 | 32 => {
                let (a, b, own) = (self.word(1), self.word(1), self.sort_line(bit));
                self.emit([kind, own, a, b, 0]);
            }
            33..=51 => {
                let (mut b, own) = (self.word(w), self.sort_line(Sort::Word(w)));
                if kind >= 47 && self.random.one_in(2) {
                    // An amount near the width.
                    let sort = self.sort_line(Sort::Word(w));
                    let amount = (w + 2).saturating_sub(self.random.next() % 5) & ones(w);
                    b = self.emit([3, sort, amount, 0, 0]);
                }
                self.emit([kind, own, a, b, 0]);
            }
            52 => {
                let (a, w) = if w < 64 { (a, w) } else { (self.word(1), 1) };
                let u = 1 + self.random.next() % (64 - w);
                let b = self.word(u);
                let own = self.sort_line(Sort::Word(w + u));
                let (a, b) = if self.random.one_in(2) { (a, b) } else { (b, a) };
                self.emit([52, own, a, b, 0]);
            }
            53 => {
                let (condition, b, own) = (self.word(1), self.word(w), self.sort_line(Sort::Word(w)));
                self.emit([53, own, condition, a, b]);
            }
            _ => self.detector(kind, a, w),
        }
    }
}

/// Ids for so many lines: 1, 2, 3 half of the time, else with gaps.
pub fn rising_ids(random: &mut Random, n: usize) -> Vec<u64> {
    let most = MOST_ID - n as u64;
    match random.below(10) {
        0..=4 => (1..=n as u64).collect(),
        5 => {
            // One hole.
            let hole = random.below(n + 1) as u64;
            (1..=n as u64).map(|i| if i > hole { i + 1 } else { i }).collect()
        }
        6 => {
            // A first id above 1, up to the largest that leaves room; then no holes.
            let first = random.pick(&[2, 3, 10, 1000, 1 << 31, most, most + 1]);
            (0..n as u64).map(|i| first + i).collect()
        }
        7 => (1..=n as u64).map(|i| 1000 + 3 * i).collect(),
        8 => {
            let rise = |id: &mut u64, _| {
                *id += 1 + random.next() % 4;
                Some(*id)
            };
            (0..n).scan(0, rise).collect()
        }
        _ => {
            // Anywhere, often up to the last.
            let mut ids: Vec<u64> = (0..n).map(|_| 1 + random.next() % MOST_ID).collect();
            if n > 0 && random.one_in(2) {
                ids[0] = MOST_ID;
            }
            ids.sort_unstable();
            if ids.windows(2).all(|pair| pair[0] < pair[1]) {
                ids
            } else {
                (0..n as u64).map(|i| most + 1 + i).collect()
            }
        }
    }
}

/// A valid circuit.
pub fn circuit(random: &mut Random, size: Size) -> Lines {
    let mut b = Builder { random, lines: Lines::default(), arrays: size.arrays, cones: None };
    while b.lines.lines.len() < size.lines {
        match b.random.below(20) {
            0..=10 => b.word_line(),
            11..=14 if size.arrays => b.array_line(),
            15 => b.init_line(),
            16 | 17 => b.next_line(),
            18 | 19 => b.signal_line(),
            _ => b.word_line(),
        }
    }
    b.late_next_lines();
    let ids = rising_ids(b.random, b.lines.records.len());
    Lines { ids, ..b.lines }
}

/// A register file: words made of constants, and many inits that share their cones. Beside them stand words with inputs and
/// states in their cones. Rule 10 is all that some lines break.
pub fn register_file(random: &mut Random, arrays: bool) -> Lines {
    let steps = match random.below(60) {
        0 => 400 + random.below(400),
        1..=5 => 100 + random.below(200),
        _ => 10 + random.below(80),
    };
    let wrong = random.pick(&[None, None, Some(3), Some(12), Some(40)]);
    let mut b = Builder { random, lines: Lines::default(), arrays, cones: Some(Cones::default()) };
    for _ in 0..steps {
        match b.random.below(16) {
            0..=3 => b.word_line(),
            4..=6 => b.planted_line(),
            7..=12 if wrong.is_some_and(|n| b.random.one_in(n)) => b.wrong_init(),
            7..=12 => b.right_init(),
            13 | 14 => b.next_line(),
            _ => b.signal_line(),
        }
    }
    let ids = rising_ids(b.random, b.lines.records.len());
    Lines { ids, ..b.lines }
}

pub fn size(random: &mut Random) -> Size {
    let lines = match random.below(8) {
        0 => random.below(4),
        1..=5 => 5 + random.below(30),
        6 => 40 + random.below(60),
        _ => 100 + random.below(150),
    };
    Size { lines, arrays: random.below(4) > 0 }
}

/// The text of records in some style: constants in any form, names that all differ, comments, blank lines, spaces.
pub fn text(random: &mut Random, lines: &Lines) -> Vec<u8> {
    let names = Names::apart(random);
    text_by(random, lines, names, |_, _| {})
}

/// The same with names of which some may be used twice.
pub fn named_text(random: &mut Random, lines: &Lines) -> Vec<u8> {
    let names = Names::any(random);
    text_by(random, lines, names, |_, _| {})
}

/// The same with names that are given, and with tokens that a function changes: it is given a line's number, from 0, and its
/// tokens up to the operands.
fn text_by(random: &mut Random, lines: &Lines, mut names: Names, change: impl Fn(usize, &mut Vec<Vec<u8>>)) -> Vec<u8> {
    let style = random.below(3);
    let mut text = Vec::new();
    for (i, r) in lines.records.iter().enumerate() {
        while style > 0 && random.one_in(9) {
            text.extend(random.pick(&[&b"\n"[..], b"; a comment\n", b"   \n", b"  ;\n", b";;1 2 3\n"]));
        }
        let mut tokens = tokens(&lines.ids, i, r);
        if r[0] == 3 {
            constant_form(random, &mut tokens, r[2], lines.sort(r[1]).width());
        }
        change(i, &mut tokens);
        if style > 0 {
            tokens.extend(names.next(random));
        }
        let space =
            |random: &mut Random| vec![b' '; if style == 2 && random.one_in(4) { 1 + random.below(4) } else { 1 }];
        if style == 2 && random.one_in(6) {
            text.push(b' ');
        }
        for (j, token) in tokens.iter().enumerate() {
            if j > 0 {
                text.extend(space(random));
            }
            text.extend(token);
        }
        if style > 0 && random.one_in(8) {
            text.extend(random.pick(&[&b" ;x"[..], b";1 2", b"  ", b" ", b";"]));
        }
        if style > 0 && random.one_in(8) {
            // In a comment it is no name.
            text.extend(random.pick(&[&b" ;"[..], b";", b" ; "]));
            text.extend(names.earlier(random).unwrap_or_default());
        }
        if i + 1 < lines.records.len() || style == 0 || random.one_in(2) {
            text.push(b'\n');
        }
    }
    text
}

/// The tokens of record i, from 0. A place that no record has is printed as it is.
fn tokens(ids: &[u64], i: usize, r: &Record) -> Vec<Vec<u8>> {
    let kind = row(r[0]);
    let mut tokens: Vec<Vec<u8>> = vec![ids[i].to_string().into_bytes()];
    tokens.extend(kind.word.split(' ').map(|w| w.as_bytes().to_vec()));
    let places = kind.sort.iter().chain(kind.operands);
    let words = &r[if kind.sort.is_some() { 1 } else { 2 }..];
    tokens.extend(places.zip(words).map(|(&place, &x)| {
        let named = usize::try_from(x).ok().and_then(|x| ids.get(x.wrapping_sub(1)));
        let x = named.filter(|_| place != Place::Number).unwrap_or(&x);
        x.to_string().into_bytes()
    }));
    tokens
}

/// The tokens of all records.
fn all_tokens(records: &[Record], ids: &[u64]) -> Vec<Vec<Vec<u8>>> {
    records.iter().enumerate().map(|(i, r)| tokens(ids, i, r)).collect()
}

fn constant_form(random: &mut Random, tokens: &mut Vec<Vec<u8>>, value: u64, w: u64) {
    match random.below(5) {
        0 => {
            tokens[1] = b"const".to_vec();
            tokens[3] = format!("{value:0width$b}", width = w as usize).into_bytes();
        }
        1 => {
            tokens[1] = b"consth".to_vec();
            let width = random.below(17);
            let hex = format!("{value:0width$x}");
            tokens[3] = if random.one_in(2) { hex.to_uppercase() } else { hex }.into_bytes();
        }
        2 if value == 0 || value == 1 || value == ones(w) => {
            let words: Vec<&str> = [("zero", 0), ("one", 1), ("ones", ones(w))]
                .into_iter()
                .filter(|&(_, v)| v == value)
                .map(|(word, _)| word)
                .collect();
            tokens[1] = random.pick(&words).as_bytes().to_vec();
            tokens.truncate(3);
        }
        _ => {}
    }
}

/// Tokens that may stand in for others.
pub const STRANGE: &[&[u8]] = &[
    b"0",
    b"00",
    b"01",
    b"1",
    b"2",
    b"-1",
    b"+1",
    b"64",
    b"65",
    b"9",
    b"18446744073709551615",
    b"18446744073709551616",
    b"99999999999999999999999",
    b"sort",
    b"bitvec",
    b"array",
    b"const",
    b"constd",
    b"consth",
    b"zero",
    b"one",
    b"ones",
    b"justice",
    b"fair",
    b"mask",
    b"udivo",
    b"sddivo",
    b"SADDO",
    b"uaddo",
    b"ADD",
    b"x",
    b"\t",
    b"\r",
    b"5.",
    b"1\t",
    b"0x1",
    b"ffffffffffffffff",
    b"0ffffffffffffffff",
    b"1111111111111111111111111111111111111111111111111111111111111111",
    b"11111111111111111111111111111111111111111111111111111111111111111",
    b"\xc3\xa4",
    b"a;b",
    b"bad",
    b"state",
    b"next",
];

/// A text that most often is refused: one or two faults in a valid one.
pub fn damaged_text(random: &mut Random, lines: &Lines) -> Vec<u8> {
    let mut lines = lines.clone();
    if random.one_in(6) {
        return text_with_wrong_ids(random, &lines);
    }
    if random.one_in(2) {
        // A fault of the records, in valid syntax.
        let mut rows = lines.rows();
        damage_records(random, &mut rows, false);
        let (table, n) = (columns(&rows, false), rows.len() / record_size(false));
        let records = records(&table, n, false);
        if records.iter().all(|r| in_circuits(r[0])) {
            let mut printed = all_tokens(&records, &ids(&table, n));
            for line in &mut printed {
                if line[1] == b"constd" && random.one_in(4) {
                    line[1] = random.pick(&[&b"const"[..], b"consth"]).to_vec();
                }
            }
            add_names(random, &mut printed);
            return join(&printed);
        }
    }
    let n = lines.records.len();
    if n > 0 && random.one_in(2) {
        lines.records.truncate(1 + random.below(n));
        lines.ids.truncate(lines.records.len());
    }
    let mut text = if random.one_in(3) { named_text(random, &lines) } else { text(random, &lines) };
    for _ in 0..1 + random.below(2) {
        damage_text(random, &mut text);
    }
    text
}

/// Puts names behind the tokens of lines, in two texts of five; some may be used twice.
fn add_names(random: &mut Random, printed: &mut [Vec<Vec<u8>>]) {
    if random.below(5) < 2 {
        let mut names = Names::any(random);
        printed.iter_mut().for_each(|line| line.extend(names.next(random)));
    }
}

/// An id that a line after `last` may not have, or seldom one that it may.
fn wrong_id(random: &mut Random, last: u64) -> Vec<u8> {
    let id = match random.below(9) {
        0 | 1 => last,
        2 => last.saturating_sub(1),
        3 => random.next() % (last + 1),
        4 => 0,
        5 => MOST_ID,
        6 => random.pick(&[MOST_ID + 1, MOST_ID + 2, (MOST_ID + 1) + last + 1, u64::MAX]),
        _ => last + 1,
    };
    let many = random.pick(&["18446744073709551616", "18446744073709551617", "36893488147419103232"]);
    match random.below(8) {
        0 => many.to_string(),
        1 => format!("{}{id}", random.pick(&["0", "+", "-", "00"])),
        2 => format!("{id}{}", random.pick(&["\r", "\t", "x", "."])),
        _ => id.to_string(),
    }
    .into_bytes()
}

/// A number that names no earlier line of the line `at`, from 0, or seldom one that does.
fn wrong_operand(random: &mut Random, ids: &[u64], at: usize) -> Vec<u8> {
    let holes: Vec<u64> = ids[..at].iter().map(|id| id + 1).filter(|id| !ids.contains(id)).collect();
    let id = match random.below(8) {
        0..=2 if !holes.is_empty() => random.pick(&holes),
        3 => ids[at],
        4 => ids[at + random.below(ids.len() - at)],
        5 => 0,
        6 => random.pick(&[u64::MAX, MOST_ID, MOST_ID + 1, at as u64, at as u64 + 1]),
        // Right modulo 2^32.
        7 => ids[random.below(at + 1)] + MOST_ID + 1,
        _ => ids[at],
    };
    if random.one_in(12) {
        return b"18446744073709551616".to_vec();
    }
    id.to_string().into_bytes()
}

/// A valid text but for the ids of some lines or of some operands.
fn text_with_wrong_ids(random: &mut Random, lines: &Lines) -> Vec<u8> {
    let (mut printed, ids) = (all_tokens(&lines.records, &lines.ids), &lines.ids);
    for _ in 0..if ids.is_empty() { 0 } else { 1 + random.below(2) } {
        let at = random.below(ids.len());
        let kind = row(lines.records[at][0]);
        // The tokens of the id, the sort and the operands.
        let first = 1 + kind.word.split(' ').count();
        let places = kind.sort.iter().chain(kind.operands).enumerate();
        let named: Vec<usize> = places.filter(|(_, &place)| place != Place::Number).map(|(i, _)| first + i).collect();
        if named.is_empty() || random.one_in(2) {
            printed[at][0] = wrong_id(random, if at == 0 { 0 } else { ids[at - 1] });
        } else {
            printed[at][random.pick(&named)] = wrong_operand(random, ids, at);
        }
    }
    add_names(random, &mut printed);
    join(&printed)
}

/// Ids that a text of small vocabulary has again and again, some of which no right text has.
pub const ODD_IDS: &[u64] = &[0, 1, 2, 3, 20, MOST_ID, MOST_ID + 1, u64::MAX];

/// Lines of a few tokens from a small vocabulary: ids that come again, words without operands, names of all sorts.
pub fn babble(random: &mut Random) -> Vec<u8> {
    const WORDS: &[&str] = &[
        "sort",
        "bitvec",
        "array",
        "const",
        "constd",
        "consth",
        "zero",
        "one",
        "ones",
        "input",
        "state",
        "init",
        "bad",
        "add",
        "slice",
        "ite",
        "read",
        "not",
        "foo",
        "sort bitvec",
        "sort array",
        "output",
        "smulo",
        "sdivo",
        "mask",
    ];
    let mut text = Vec::new();
    for line in 0..random.below(12) as u64 {
        let id = if random.one_in(2) { line + 1 } else { random.pick(ODD_IDS) };
        text.extend(if random.one_in(9) { b"01".to_vec() } else { id.to_string().into_bytes() });
        text.extend(random.pick(&[&b" "[..], b" ", b"  ", b";", b"\t"]));
        text.extend(random.pick(WORDS).bytes());
        for _ in 0..random.below(7) {
            text.extend(random.pick(&[&b" "[..], b" ", b" ", b" ", b"  ", b";", b""]));
            text.extend(random.pick(&[&b"1"[..], b"2", b"1", b"0", b"64", b"x", b"3", b"name", b"\xff"]));
        }
        text.extend(random.pick(&[&b"\n"[..], b"\n", b" \n", b"\n\n", b" ;c\n", b"\r\n"]));
    }
    if random.one_in(3) {
        text.pop();
    }
    text
}

/// The text of a circuit with its own ids, as writing prints one with the ids 1, 2, 3.
pub fn plain_text(lines: &Lines) -> Vec<u8> {
    join(&all_tokens(&lines.records, &lines.ids))
}

fn join(lines: &[Vec<Vec<u8>>]) -> Vec<u8> {
    lines.iter().flat_map(|l| [l.join(&b' '), b"\n".to_vec()].concat()).collect()
}

fn damage_text(random: &mut Random, text: &mut Vec<u8>) {
    let n = text.len();
    match random.below(7) {
        // A byte changed, put in, taken away; the end cut off.
        0 if n > 0 => {
            let at = random.below(n);
            text[at] = random.pick(b" \n;019a\tz\r\0\xff");
        }
        1 => text.insert(random.below(n + 1), random.pick(b" \n;0159a\tz\r\0\xff-+")),
        2 if n > 0 => {
            text.remove(random.below(n));
        }
        3 => text.truncate(random.below(n + 1)),
        // A token or a line changed.
        _ => {
            let mut lines: Vec<Vec<Vec<u8>>> =
                text.split(|&b| b == b'\n').map(|l| l.split(|&b| b == b' ').map(|t| t.to_vec()).collect()).collect();
            let at = random.below(lines.len());
            let other = lines[random.below(lines.len())].clone();
            let line = &mut lines[at];
            let token = random.below(line.len());
            let strange = random.pick(STRANGE).to_vec();
            match random.below(12) {
                0..=2 => line[token] = strange,
                3 => line.insert(token, strange),
                4 => line.push(strange),
                5 => {
                    line.push(strange.clone());
                    line.push(strange);
                }
                6 => {
                    line.remove(token);
                }
                7 => line.insert(token, line[token].clone()),
                8 => line[token].insert(0, b'0'),
                // Kind 56 has no word.
                9 if line.len() > 1 => line[1] = KINDS[random.below(63)].word.as_bytes().to_vec(),
                10 => lines.insert(at, other),
                _ => {
                    lines.remove(at);
                }
            }
            *text = rejoin(&lines);
        }
    }
}

fn rejoin(lines: &[Vec<Vec<u8>>]) -> Vec<u8> {
    let joined: Vec<Vec<u8>> = lines.iter().map(|l| l.join(&b' ')).collect();
    joined.join(&b'\n')
}

/// Adds a record behind the others, in a circuit with an id above the last or, seldom, with another.
fn extend(random: &mut Random, rows: &mut Vec<u64>, record: Record, program: bool) {
    let last = if program { 0 } else { rows.last().copied().unwrap_or(0) };
    rows.extend(record);
    if !program {
        rows.push(last.wrapping_add(u64::from(!random.one_in(9))));
    }
}

/// The id of a circuit's record is broken, or seldom is not.
fn damage_id(random: &mut Random, rows: &mut [u64], record: usize) {
    let size = record_size(false);
    let at = size * record + 5;
    let last = if record == 0 { 0 } else { rows[at - size] };
    let other = size * random.below(rows.len() / size) + 5;
    match random.below(9) {
        0 | 1 => rows[at] = last,
        2 => rows[at] = last.saturating_sub(1),
        3 => rows[at] = 0,
        4 => rows[at] = MOST_ID + 1,
        5 => rows[at] = MOST_ID,
        6 => rows[at] = rows[at].wrapping_add(MOST_ID + 1),
        7 => rows.swap(at, other),
        _ => rows[at] = random.word(),
    }
}

/// Faults of a circuit's or a program's records, one behind the other; some are none.
pub fn damage_records(random: &mut Random, rows: &mut Vec<u64>, program: bool) {
    let size = record_size(program);
    let n = rows.len() / size;
    if n == 0 {
        let kind = random.word() % 66;
        extend(random, rows, [kind, 0, 1, 0, 0], program);
        return;
    }
    for _ in 0..1 + random.below(2) {
        let (record, other) = (random.below(n), size * random.below(n));
        let at = size * record;
        let word = at + 1 + random.below(4);
        match random.below(if program { 16 } else { 18 }) {
            0 => rows[at] = random.pick(&[0, 1, 2, 3, 53, 54, 55, 56, 57, 63, 64, 255, 256, 311, u64::MAX]),
            1 => rows[at] = 1 + random.next() % 64,
            2..=4 => rows[word] = 1 + random.next() % n as u64,
            5 => rows[word] = random.word(),
            6 => rows[word] = rows[word].wrapping_add(random.pick(&[1, u64::MAX, 256, 1 << 32])),
            7 => rows.swap(at + 2, at + 3),
            8 => rows[at + 1] = rows[other + 1],
            9 => rows[at + 2 + random.below(3)] = rows[other + 2],
            10 => (0..5).for_each(|i| rows.swap(at + i, other + i)),
            11 => {
                // A record once more: a second init or next.
                let again: Record = rows[at..at + 5].try_into().unwrap();
                extend(random, rows, again, program);
            }
            12 => late_init(random, rows, program),
            13 => detectors::damage(random, rows, program),
            14 => free_states::damage(random, rows, program),
            16 | 17 => damage_id(random, rows, record),
            _ => {
                // Among inits and nexts only.
                let held: Vec<usize> = (0..n).filter(|i| matches!(rows[size * i], 6 | 7)).collect();
                if !held.is_empty() {
                    let at = size * random.pick(&held);
                    rows[at + random.pick(&[2, 3])] = 1 + random.next() % n as u64;
                }
            }
        }
    }
}

/// An init behind the lines of a table that breaks no rule yet.
fn late_init(random: &mut Random, rows: &mut Vec<u64>, program: bool) {
    let (check, n) = (if program { check_program } else { check_table }, rows.len() / record_size(program));
    let Some(lines) = check(&columns(rows, program), n) else { return };
    if let Some(record) = any_init(random, &lines) {
        extend(random, rows, record, program);
    }
}

/// An init whose value fits the state in its sort, with any cone and any place; the state may have an init.
fn any_init(random: &mut Random, lines: &Lines) -> Option<Record> {
    let n = lines.lines.len();
    let states: Vec<usize> = (0..n).filter(|&i| lines.lines[i].kind == 5).collect();
    if states.is_empty() {
        return None;
    }
    let state = random.pick(&states);
    let w = lines.lines[state].sort.unwrap().width();
    let values: Vec<usize> =
        (0..n).filter(|&i| lines.lines[i].kind > 2 && lines.lines[i].sort == Some(Sort::Word(w))).collect();
    if values.is_empty() {
        return None;
    }
    let value = random.pick(&values);
    Some([6, lines.records[state][1], state as u64 + 1, value as u64 + 1, 0])
}

/// A length near the exact one.
pub fn length(random: &mut Random, exact: usize) -> usize {
    match random.below(12) {
        0 => exact + 1,
        1 => exact.saturating_sub(1),
        2 => exact + 1 + random.below(40),
        3 => random.below(exact + 1),
        _ => exact,
    }
}

/// A length of a list of records, from the records that it should hold.
pub fn table_length(random: &mut Random, exact: usize, program: bool) -> usize {
    let (size, other) = (record_size(program), record_size(!program));
    match random.below(14) {
        0 => size * exact + 1 + random.below(size - 1),
        1 => (size * exact).saturating_sub(1),
        2 => size * exact.saturating_sub(1),
        3 => size * (exact + random.below(30)),
        4 => size * random.below(exact + 1),
        5 => size * (exact + 1),
        6 | 7 => {
            // A length of the other lists, and none of these.
            let length = other * (size * (exact + random.below(3)) / other + 1);
            if length % size == 0 {
                length + other
            } else {
                length
            }
        }
        _ => size * exact,
    }
}

/// A count near the exact one, or far off.
pub fn count(random: &mut Random, exact: usize) -> usize {
    match random.below(20) {
        0 => exact + 1,
        1 => exact.saturating_sub(1),
        2 => random.below(exact + 1),
        3 => {
            let (fifth, sixth) = (usize::MAX / 5, usize::MAX / 6);
            random.pick(&[16_384, 16_385, usize::MAX, fifth, fifth + 2, sixth, sixth + 1, sixth + 2, 1 << 32, 1 << 63])
        }
        _ => exact,
    }
}

/// The list of some lines, often with room for more records, and any words or zeros past them in each column.
pub fn roomy(random: &mut Random, lines: &Lines) -> Vec<u64> {
    let (size, mut rows) = (record_size(lines.program), lines.rows());
    let more = match random.below(8) {
        0..=2 => 0,
        3 => 1,
        4 => lines.records.len(),
        _ => random.below(40),
    };
    let clean = random.one_in(3);
    rows.extend((0..size * more).map(|_| if clean { 0 } else { random.word() }));
    columns(&rows, lines.program)
}

/// The words of records, given one behind the other, in places of a list that are not theirs; seldom they are.
pub fn misplaced(random: &mut Random, rows: &[u64], program: bool) -> Vec<u64> {
    let (size, mut list) = (record_size(program), columns(rows, program));
    let (n, other) = (rows.len() / size, record_size(!program));
    let (a, b) = (n * random.below(size), n * random.below(size));
    let some = size * (1 + random.below(n.min(6)));
    match random.below(9) {
        // One record behind the other.
        0 | 1 => list = rows.to_vec(),
        // Two columns, or two words, exchanged.
        2 => (0..n).for_each(|i| list.swap(a + i, b + i)),
        3 if n > 0 => list.swap(a + random.below(n), b + random.below(n)),
        // A list with zeros behind it, a list cut, the columns of a longer list.
        4 => list.extend(vec![0; some]),
        5 => list.truncate(list.len().saturating_sub(some)),
        6 => list = layout::spread(rows, list.len() + some, size)[..list.len()].to_vec(),
        // Five columns for six, or six for five.
        7 if list.len() % other == 0 => list = layout::spread(rows, list.len(), other),
        // Every word a place on.
        _ if n > 0 => list.rotate_right(1),
        _ => {}
    }
    list
}

/// A table or a program with a count: valid, damaged, cut, misplaced, or with other words past the count.
pub fn table_of(random: &mut Random, lines: &Lines) -> (Vec<u64>, usize) {
    let (mut rows, program) = (lines.rows(), lines.program);
    let size = record_size(program);
    if random.one_in(8) {
        let list = misplaced(random, &rows, program);
        let held = lines.records.len().min(list.len() / size);
        return (list, count(random, held));
    }
    if random.one_in(3) {
        damage_records(random, &mut rows, program);
    }
    let n = rows.len() / size;
    if n > 0 && !program && random.one_in(12) {
        // Ids that are broken past the count alone.
        let at = random.below(n);
        (at..n).for_each(|i| rows[size * i + 5] = random.word());
        return (columns(&rows, program), at);
    }
    let length = match random.below(8) {
        0 => table_length(random, n, program),
        1 if random.one_in(60) => size * (MOST_RECORDS + random.below(40)),
        1..=3 => size * (n + random.below(20)),
        _ => size * n,
    };
    rows.resize_with(length, || random.word());
    let list = if length % size == 0 { columns(&rows, program) } else { rows };
    (list, count(random, n))
}

/// A list of any words, a count and the length of a target, for a conversion.
pub fn conversion(random: &mut Random, program: bool) -> (Vec<u64>, usize, usize) {
    let n = match random.below(200) {
        0 => random.pick(&[16_383, 16_384, 16_385, 16_400]),
        1..=30 => random.below(3),
        _ => random.below(60),
    };
    let length = |random: &mut Random, held: usize| match random.below(3) {
        0 => table_length(random, held, program),
        1 => record_size(program) * (held + random.below(20)),
        _ => record_size(program) * held,
    };
    let (count, from) = (count(random, n), length(random, n));
    let (list, held) = (random.words(from), if random.one_in(3) { n } else { count.min(n) });
    (list, count, length(random, held))
}

/// The length of an answer list: three, or seldom another.
pub fn answer_length(random: &mut Random) -> usize {
    if random.one_in(40) {
        random.pick(&[0, 1, 2, 4, 5])
    } else {
        3
    }
}

/// A program of a circuit without arrays, with masks anywhere or nowhere: its words need not be clean.
pub fn wild_program(random: &mut Random, lines: &Lines) -> Vec<Record> {
    let masks = random.below(3);
    let mut number = vec![0u64; lines.records.len()];
    let mut out: Vec<Record> = Vec::new();
    for (n, r) in lines.records.iter().enumerate().filter(|(_, r)| r[0] != 1) {
        let kind = row(r[0]);
        let mut copy = *r;
        if kind.sort.is_some() {
            copy[1] = lines.sort(r[1]).width();
        }
        for (i, place) in kind.operands.iter().enumerate() {
            if *place != Place::Number {
                copy[2 + i] = number[r[2 + i] as usize - 1];
            }
        }
        out.push(copy);
        number[n] = out.len() as u64;
        // A state is used by its own number.
        if is_value(r[0]) && r[0] != 5 {
            while masks > 0 && random.one_in(4) {
                out.push([56, copy[1], number[n], 0, 0]);
                number[n] = out.len() as u64;
            }
        }
    }
    out
}
