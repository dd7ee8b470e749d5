//! The rules for tables and programs: 8 (classes), 9 (widths and bounds),
//! 10 (second init or next, the init rule), the ids, and the checks 11 and 20.

use super::kinds::{in_circuits, in_programs, is_value, row, Place};
use super::{columns, ids, records, room, Record, MOST_ID};

#[derive(Clone, Copy, PartialEq, Eq, Debug)]
pub enum Sort {
    Word(u64),
    /// Index width, element width.
    Array(u64, u64),
}

impl Sort {
    /// The width of a word or of an element.
    pub fn width(self) -> u64 {
        match self {
            Sort::Word(w) | Sort::Array(_, w) => w,
        }
    }

    pub fn cells(self) -> usize {
        match self {
            Sort::Word(_) => 1,
            Sort::Array(i, _) => 1 << i,
        }
    }
}

/// 2^w - 1.
pub fn ones(w: u64) -> u64 {
    ((1u128 << w) - 1) as u64
}

/// What later lines have to know of a line.
#[derive(Clone, Copy, Debug)]
pub struct Line {
    pub kind: u64,
    /// The sort that a sort line defines, or that a value line has.
    pub sort: Option<Sort>,
    /// A state with an init line, with a next line.
    pub init: bool,
    pub next: bool,
}

/// The lines so far. Line n stands at n - 1: lines are told by their places, whatever their ids are.
#[derive(Clone, Default)]
pub struct Lines {
    pub lines: Vec<Line>,
    pub records: Vec<Record>,
    /// The ids as written, rising; 0 for the not record of a minus operand. A program's are of no use.
    pub ids: Vec<u64>,
    /// The last id that is not 0.
    pub last_id: u64,
    /// The sort words are widths, as in programs.
    pub program: bool,
}

impl Lines {
    pub fn line(&self, number: u64) -> Option<&Line> {
        self.lines.get(usize::try_from(number.checked_sub(1)?).ok()?)
    }

    /// Whether the next line of a text may have this id: above the one before, and not too large.
    pub fn id_rises(&self, id: u64) -> bool {
        self.last_id < id && id <= MOST_ID
    }

    /// Whether the next record of a table may have this id: 0 is for not records alone.
    pub fn id_fits(&self, kind: u64, id: u64) -> bool {
        if id == 0 {
            kind == 11
        } else {
            self.id_rises(id)
        }
    }

    /// The records of the lines one behind the other, a circuit's with their ids.
    pub fn rows(&self) -> Vec<u64> {
        if self.program {
            self.records.concat()
        } else {
            super::rows(&self.records, &self.ids)
        }
    }

    /// The words of a list in columns that has room for just these lines.
    pub fn words(&self) -> Vec<u64> {
        columns(&self.rows(), self.program)
    }

    /// The sort of a sort line or value line that is known to exist.
    pub fn sort(&self, number: u64) -> Sort {
        self.line(number).unwrap().sort.unwrap()
    }

    fn stands(&self, place: Place, number: u64) -> bool {
        if place == Place::Number {
            return true;
        }
        let Some(line) = self.line(number) else { return false };
        let word = matches!(line.sort, Some(Sort::Word(_)));
        match place {
            Place::Number => true,
            Place::WordSort => line.kind == 1,
            Place::ArraySort => line.kind == 2,
            Place::AnySort => line.kind <= 2,
            Place::State => line.kind == 5,
            Place::Word => is_value(line.kind) && word,
            Place::Array => is_value(line.kind) && !word,
            Place::Value => is_value(line.kind),
        }
    }

    /// The sort of a line to be added.
    fn own_sort(&self, r: &Record) -> Option<Sort> {
        match row(r[0]).sort {
            None => None,
            Some(_) if self.program => Some(Sort::Word(r[1])),
            Some(_) => Some(self.sort(r[1])),
        }
    }

    /// Rule 8: every operand is an earlier line of the right class.
    pub fn classes_fit(&self, r: &Record) -> bool {
        let kind = row(r[0]);
        let sort = match kind.sort {
            Some(place) if !self.program => self.stands(place, r[1]),
            _ => true,
        };
        sort && kind.operands.iter().enumerate().all(|(i, &place)| self.stands(place, r[2 + i]))
    }

    /// Rule 9: sorts, widths, bounds and constants fit. Rule 8 holds already.
    pub fn widths_fit(&self, r: &Record) -> bool {
        let own = self.own_sort(r);
        let w = own.map_or(0, Sort::width);
        let sort = |i: usize| self.sort(r[1 + i]);
        let width = |i: usize| sort(i).width();
        match r[0] {
            1 => (1..=64).contains(&r[2]),
            2 => width(1) <= 8,
            3 => r[2] <= ones(w),
            4 | 5 => true,
            6 => own == Some(sort(1)) && width(2) == w,
            7 => own == Some(sort(1)) && sort(1) == sort(2),
            8 | 9 => width(1) == 1,
            10 => true,
            11..=14 | 56 => width(1) == w,
            15..=17 => w == 1,
            18 => r[4] <= r[3] && r[3] < width(1) && w == r[3] - r[4] + 1,
            19 | 20 => u128::from(w) == u128::from(width(1)) + u128::from(r[3]),
            21 | 22 => w == 1 && sort(1) == sort(2),
            23..=30 | 57..=63 => w == 1 && width(1) == width(2),
            31 | 32 => w == 1 && width(1) == 1 && width(2) == 1,
            33..=51 => width(1) == w && width(2) == w,
            52 => w == width(1) + width(2),
            53 => width(1) == 1 && own == Some(sort(2)) && own == Some(sort(3)),
            54 => matches!(sort(1), Sort::Array(i, e) if width(2) == i && w == e),
            55 => own == Some(sort(1)) && matches!(sort(1), Sort::Array(i, e) if width(2) == i && width(3) == e),
            _ => unreachable!("kinds are 1 to 63"),
        }
    }

    /// The operands of a value line that are lines, and not plain numbers.
    pub fn operands(&self, line: u64) -> impl Iterator<Item = u64> + '_ {
        let r = &self.records[line as usize - 1];
        let places = row(r[0]).operands.iter().zip(&r[2..]);
        places.filter(|(&place, _)| place != Place::Number).map(|(_, &operand)| operand)
    }

    /// The cone of a value line, itself and the lines it depends on: a search, depth first, that visits each line once.
    pub fn cone(&self, value: u64) -> Vec<u64> {
        let (mut cone, mut ahead, mut visited) = (vec![], vec![value], vec![false; value as usize + 1]);
        while let Some(line) = ahead.pop() {
            if !std::mem::replace(&mut visited[line as usize], true) {
                cone.push(line);
                ahead.extend(self.operands(line));
            }
        }
        cone
    }

    /// Whether the cone of a value line holds no input and no state.
    pub fn has_fixed_cone(&self, value: u64) -> bool {
        self.cone(value).iter().all(|&line| !matches!(self.line(line).unwrap().kind, 4 | 5))
    }

    /// Rule 10: no second init or next, and the init rule.
    pub fn states_fit(&self, r: &Record) -> bool {
        match r[0] {
            6 => !self.line(r[2]).unwrap().init && r[3] < r[2] && self.has_fixed_cone(r[3]),
            7 => !self.line(r[2]).unwrap().next,
            _ => true,
        }
    }

    /// Adds a line that breaks no rule, with the next number as its id.
    pub fn add(&mut self, r: Record) {
        self.add_as(r, self.last_id + 1);
    }

    /// Adds a line that breaks no rule.
    pub fn add_as(&mut self, r: Record, id: u64) {
        let sort = match r[0] {
            1 => Some(Sort::Word(r[2])),
            2 => Some(Sort::Array(self.sort(r[2]).width(), self.sort(r[3]).width())),
            k if is_value(k) => self.own_sort(&r),
            _ => None,
        };
        match r[0] {
            6 => self.lines[r[2] as usize - 1].init = true,
            7 => self.lines[r[2] as usize - 1].next = true,
            _ => {}
        }
        self.lines.push(Line { kind: r[0], sort, init: false, next: false });
        self.records.push(r);
        self.ids.push(id);
        if id > 0 {
            self.last_id = id;
        }
    }

    fn accepts(&self, r: &Record) -> bool {
        let known = if self.program { in_programs } else { in_circuits };
        if !known(r[0]) {
            return false;
        }
        let kind = row(r[0]);
        let sort_word = match kind.sort {
            None => r[1] == 0,
            Some(_) => !self.program || (1..=64).contains(&r[1]),
        };
        sort_word
            && r[2 + kind.operands.len()..].iter().all(|&x| x == 0)
            && self.classes_fit(r)
            && self.widths_fit(r)
            && self.states_fit(r)
    }
}

fn check(list: &[u64], count: usize, program: bool) -> Option<Lines> {
    if count > room(list, program) {
        return None;
    }
    let mut lines = Lines { program, ..Lines::default() };
    let ids = if program { (1..=count as u64).collect() } else { ids(list, count) };
    for (r, id) in records(list, count, program).into_iter().zip(ids) {
        if !lines.id_fits(r[0], id) || !lines.accepts(&r) {
            return None;
        }
        lines.add_as(r, id);
    }
    Some(lines)
}

/// The lines of an accepted table with its count, or nothing where 11 holds.
pub fn check_table(table: &[u64], count: usize) -> Option<Lines> {
    check(table, count, false)
}

/// The lines of an accepted program with its count, or nothing where 20 holds.
pub fn check_program(table: &[u64], count: usize) -> Option<Lines> {
    check(table, count, true)
}
