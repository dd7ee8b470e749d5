//! One line of each kind, with a minus before any of its tokens, behind lines of every class.

use super::minus::{formed, roles, sign, token_of, Minus, Role, FORMS};
use super::*;
use std::collections::BTreeSet;

/// The lines before, the last of which has a minus operand, and the id of the line behind them. The ids have gaps or not.
pub struct Edge {
    before: Minus,
    id: u64,
}

impl Edge {
    pub fn new(random: &mut Random) -> Edge {
        let mut lines = Lines::default();
        for r in [
            [1, 0, 1, 0, 0],
            [1, 0, 2, 0, 0],
            [2, 0, 1, 2, 0],
            [4, 1, 0, 0, 0],
            [4, 2, 0, 0, 0],
            [3, 1, 1, 0, 0],
            [3, 2, 1, 0, 0],
            [5, 1, 0, 0, 0],
            [5, 2, 0, 0, 0],
            [5, 3, 0, 0, 0],
            // The second state has a next.
            [7, 2, 9, 5, 0],
            [8, 0, 4, 0, 0],
        ] {
            lines.add(r);
        }
        let n = lines.records.len();
        lines.ids = rising_ids(random, n + 1);
        let id = lines.ids.pop().unwrap();
        let mut signs = vec![[false; 5]; n];
        signs[n - 1][2] = true;
        Edge { before: Minus { lines, signs }, id }
    }

    /// How many records there are before the line.
    pub fn count(&self) -> usize {
        self.before.lines.records.len() + 1
    }

    /// Records of a kind: some that break no rule, some that break 9, some that break 10, and one that breaks 8.
    pub fn records(&self, random: &mut Random, kind: u64) -> Vec<Record> {
        let lines = &self.before.lines;
        let mut found: [Vec<Record>; 4] = Default::default();
        for _ in 0..4000 {
            let mut r = [kind, 0, 0, 0, 0];
            for (at, role) in roles(lines, &r) {
                r[at] = match role {
                    Role::Number => random.next() % 3,
                    Role::Sort => 1 + random.next() % 3,
                    _ => 1 + random.next() % lines.records.len() as u64,
                };
            }
            // Rule 10 is about inits and nexts alone.
            let (most, found) = match lines.classes_fit(&r) {
                true if !lines.widths_fit(&r) => (3, &mut found[1]),
                true if !lines.states_fit(&r) => (20, &mut found[2]),
                true => (4, &mut found[0]),
                false => (1, &mut found[3]),
            };
            if found.len() < most && !found.contains(&r) {
                found.push(r);
            }
        }
        found.concat()
    }

    /// The texts with a record's line: with a minus before any choice of the tokens that name lines; and with each form of
    /// each token, of the id and the word too, the words beside it having a minus or not.
    pub fn texts(&self, r: &Record) -> (Vec<Vec<u8>>, Vec<Vec<u8>>) {
        let (start, lines) = (self.before.plain_text(), &self.before.lines);
        let ids = [&lines.ids[..], &[self.id]].concat();
        let (bare, roles) = (tokens(&ids, lines.records.len(), r), roles(lines, r));
        let text = |tokens: &[Vec<u8>]| [start.clone(), tokens.join(&b' ')].concat();
        let signed_tokens = |signed: &dyn Fn(usize, Role) -> bool| {
            let (mut tokens, mut signs) = (bare.clone(), [false; 5]);
            roles.iter().for_each(|&(at, role)| signs[at] = role != Role::Number && signed(at, role));
            sign(&mut tokens, r, &signs);
            tokens
        };
        let choices = (0..32).map(|choice| text(&signed_tokens(&|at, _| choice >> at & 1 == 1)));
        let signed: BTreeSet<Vec<u8>> = choices.collect();
        let mut strange = Vec::new();
        for all in [false, true] {
            for at in 0..bare.len() {
                let mut tokens = signed_tokens(&|_, role| all && role == Role::Operand);
                let named = at >= token_of(r, if row(r[0]).sort.is_some() { 1 } else { 2 });
                for form in &FORMS[..if named { FORMS.len() } else { 2 }] {
                    tokens[at] = formed(form, &bare[at]);
                    strange.push(text(&tokens));
                }
            }
        }
        (signed.into_iter().collect(), strange)
    }
}
