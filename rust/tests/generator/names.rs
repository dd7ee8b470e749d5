//! Names of lines: names that differ, often hardly, and names that stand on an earlier line already.

use super::*;

/// Names as they come: numbers, words, bytes of all sorts.
const NAMES: &[&[u8]] = &[
    b"name",
    b"Name",
    b"7",
    b"07",
    b"0",
    b"\t",
    b"\r",
    b"\xff\x00",
    b"\xff",
    b"bad",
    b"next",
    b"bitvec",
    b"1",
    b"20",
    b"a_long_name.with[4]",
    b"-7",
    b"-",
    b"--x",
];

/// The lengths of long names: below and above what can be looked at in one go.
const LENGTHS: &[usize] = &[7, 8, 9, 15, 16, 17, 31, 32, 33, 63, 64, 65, 200];

/// The bytes that a name can have.
pub fn is_name_byte(byte: u8) -> bool {
    !b"\n ;".contains(&byte)
}

/// The names of the lines of one text, made one by one.
pub struct Names {
    /// One line in so many has a name.
    share: usize,
    /// One name in so many is one that was there before; where it is None, all differ.
    again: Option<usize>,
    used: Vec<Vec<u8>>,
}

impl Names {
    /// Names that all differ.
    pub fn apart(random: &mut Random) -> Names {
        Names { share: random.pick(&[2, 3, 8]), again: None, used: vec![] }
    }

    /// Names of which some, few or none are used twice.
    pub fn any(random: &mut Random) -> Names {
        Names { again: Some(random.pick(&[2, 10, 40])), ..Names::apart(random) }
    }

    /// The name of the next line, where it has one.
    pub fn next(&mut self, random: &mut Random) -> Option<Vec<u8>> {
        if !random.one_in(self.share) {
            return None;
        }
        let name = match self.again {
            Some(again) if random.one_in(again) => self.earlier(random).unwrap_or_else(|| new(random)),
            Some(_) => self.other(random),
            None => loop {
                let name = self.other(random);
                if !self.used.contains(&name) {
                    break name;
                }
            },
        };
        self.used.push(name.clone());
        Some(name)
    }

    pub fn earlier(&self, random: &mut Random) -> Option<Vec<u8>> {
        (!self.used.is_empty()).then(|| self.used[random.below(self.used.len())].clone())
    }

    /// A new name, or one that hardly differs from one before; seldom it is one of those.
    fn other(&self, random: &mut Random) -> Vec<u8> {
        match self.earlier(random) {
            Some(name) if random.one_in(3) => near(random, &name),
            _ => new(random),
        }
    }
}

fn new(random: &mut Random) -> Vec<u8> {
    match random.below(6) {
        0 => random.pick(NAMES).to_vec(),
        1 => (0..1 + random.below(3)).map(|_| random.pick(b"aAbB0-")).collect(),
        2 => {
            let mut name = vec![random.pick(b"aA\xe4"); random.pick(LENGTHS)];
            change_byte(random, &mut name);
            name
        }
        3 => format!("top.u{}.sum_q{}", random.below(9), random.below(99)).into_bytes(),
        _ => (0..1 + random.below(6))
            .map(|_| random.next() as u8)
            .map(|b| if is_name_byte(b) { b } else { b'x' })
            .collect(),
    }
}

/// The first byte, the last or one between becomes another.
fn change_byte(random: &mut Random, name: &mut [u8]) {
    let n = name.len();
    let any = random.below(n);
    let at = random.pick(&[0, n / 2, n - 1, any]);
    name[at] = random.pick(b"aAbzZ019\xe4\xff");
}

/// A name that differs in one byte, in its case, in its length, or in the order of its bytes.
fn near(random: &mut Random, name: &[u8]) -> Vec<u8> {
    let (mut name, n) = (name.to_vec(), name.len());
    match random.below(8) {
        0 => name = name.to_ascii_uppercase(),
        1 => name.push(random.pick(b"a0\xff")),
        2 if n > 1 => _ = name.pop(),
        3 => name.insert(0, random.pick(b"0a-")),
        4 if n > 1 => _ = name.remove(0),
        5 => name.reverse(),
        6 => {
            if let Some(other) = alike(&name) {
                name = other;
            }
        }
        _ => change_byte(random, &mut name),
    }
    name
}

/// The hash by which the library finds a name (`crates/names`).
pub fn hash(name: &[u8]) -> usize {
    let step = name.len() / 32 + 1;
    let bytes = name.iter().rev().step_by(step).take(name.len() / step);
    bytes.fold(name.len() % 1024, |h, &byte| (h * 37 + usize::from(byte)) % 1024)
}

/// A name of another first and second byte that has the same hash, where there is one.
fn alike(name: &[u8]) -> Option<Vec<u8>> {
    let (first, second) = (name.first()?.checked_add(37)?, name.get(1)?.checked_sub(1)?);
    let other = [&[first, second], &name[2..]].concat();
    (hash(&other) == hash(name) && other.iter().all(|&byte| is_name_byte(byte))).then_some(other)
}

/// Names that all differ, in an order.
pub type Series = fn() -> Box<dyn Iterator<Item = Vec<u8>>>;

/// All lists of so many of some bytes.
fn lists(bytes: Vec<u8>, length: usize) -> impl Iterator<Item = Vec<u8>> {
    let (n, mut at) = (bytes.len(), 0);
    std::iter::from_fn(move || {
        let digit = |place: usize| bytes[at / n.pow((length - 1 - place) as u32) % n];
        let list = (at < n.pow(length as u32)).then(|| (0..length).map(digit).collect());
        at += 1;
        list
    })
}

fn name_bytes(from: u8, to: u8) -> Vec<u8> {
    (from..=to).filter(|&byte| is_name_byte(byte)).collect()
}

/// Series of names that a text may be full of.
pub const SERIES: [(&str, Series); 5] = [
    ("shortest", || Box::new((1..=3).flat_map(|length| lists(name_bytes(33, 126), length)))),
    ("last byte", || Box::new(name_bytes(1, 255).into_iter().map(|byte| [vec![b'p'; 240], vec![byte]].concat()))),
    ("one length", || Box::new(lists((b'a'..=b'z').collect(), 4).map(|letters| [b"name".to_vec(), letters].concat()))),
    ("one letter", || Box::new((1..).map(|length| vec![b'a'; length]))),
    ("one hash", || Box::new(lists(name_bytes(0, 255), 3).filter(|name| hash(name) == 77))),
];

/// Lines `n bad 2` behind a sort and an input, each with its name; an empty one is none.
pub fn bad_lines(names: &[Vec<u8>]) -> Vec<u8> {
    let lines = (3..).zip(names).map(|(id, name)| bad_line(id, name));
    [b"1 sort bitvec 1\n2 input 1\n".to_vec(), lines.flatten().collect()].concat()
}

fn bad_line(id: usize, name: &[u8]) -> Vec<u8> {
    let space = if name.is_empty() { "" } else { " " };
    [format!("{id} bad 2{space}").as_bytes(), name, b"\n"].concat()
}

/// As many names of a series as such lines have in so many bytes.
pub fn fitting(series: Series, bytes: usize) -> Vec<Vec<u8>> {
    let mut length = bad_lines(&[]).len();
    let fits = |(id, name): &(usize, Vec<u8>)| {
        length += bad_line(*id, name).len();
        length <= bytes
    };
    (3..).zip(series()).take_while(fits).map(|(_, name)| name).collect()
}
