//! Runs of circuits and programs, the first counted bad, and peek.

use super::kinds::{is_value, row, Place};
use super::rules::{check_program, check_table, ones, Line, Lines};
use super::{is_whole, meaning, words, MOST_STEPS};

/// A step, from 0, and a bad line's place among the bad lines, from 1.
pub type FirstBad = Option<(u64, u64)>;

impl Line {
    /// A state is free where no line, a later one neither, is a next line of it.
    pub fn is_free(&self) -> bool {
        self.kind == 5 && !self.next
    }
}

impl Lines {
    pub fn state_cells(&self) -> usize {
        self.lines.iter().filter(|l| l.kind == 5).map(|l| l.sort.unwrap().cells()).sum()
    }

    pub fn inputs(&self) -> usize {
        self.lines.iter().filter(|l| l.kind == 4).count()
    }

    pub fn free_cells(&self) -> usize {
        self.lines.iter().filter(|l| l.is_free()).map(|l| l.sort.unwrap().cells()).sum()
    }

    /// The words of a row: first all inputs, then the cells of the free states.
    pub fn row_words(&self) -> usize {
        self.inputs() + self.free_cells()
    }

    /// The bad and constraint lines.
    pub fn signals(&self) -> usize {
        self.lines.iter().filter(|l| matches!(l.kind, 8 | 9)).count()
    }

    /// The least work area: one word for each cell of each value line plus each state cell.
    pub fn work(&self) -> usize {
        let cells = self.lines.iter().filter(|l| is_value(l.kind)).map(|l| l.sort.unwrap().cells());
        cells.sum::<usize>() + self.state_cells()
    }

    /// Where the cells of each state line stand among the state words.
    fn state_places(&self) -> Vec<usize> {
        let mut at = 0;
        let mut places = Vec::new();
        for line in &self.lines {
            places.push(at);
            if line.kind == 5 {
                at += line.sort.unwrap().cells();
            }
        }
        places
    }

    /// The cells of every line, from the state words and a row, of which the inputs alone are read. Lines without a value have
    /// none.
    pub fn evaluate(&self, states: &[u64], row_words: &[u64]) -> Vec<Vec<u64>> {
        let places = self.state_places();
        let mut inputs = row_words.iter();
        let mut values: Vec<Vec<u64>> = Vec::with_capacity(self.lines.len());
        for (i, (r, line)) in self.records.iter().zip(&self.lines).enumerate() {
            if !is_value(r[0]) {
                values.push(Vec::new());
                continue;
            }
            let sort = line.sort.unwrap();
            let w = sort.width();
            let cells = |operand: usize| &values[r[1 + operand] as usize - 1];
            let own = match r[0] {
                3 => vec![r[2]],
                4 => {
                    let word = *inputs.next().unwrap();
                    vec![if self.program { word } else { word & ones(w) }]
                }
                5 => states[places[i]..places[i] + sort.cells()].to_vec(),
                21 => vec![u64::from(cells(1) == cells(2))],
                22 => vec![u64::from(cells(1) != cells(2))],
                53 => {
                    let taken = if cells(1)[0] != 0 { 2 } else { 3 };
                    cells(taken).clone()
                }
                54 => vec![cells(1)[cells(2)[0] as usize]],
                55 => {
                    let mut array = cells(1).clone();
                    array[cells(2)[0] as usize] = cells(3)[0];
                    array
                }
                kind => {
                    let (mut x, mut widths) = ([0; 3], [0; 3]);
                    for (j, &place) in row(kind).operands.iter().enumerate() {
                        if place == Place::Number {
                            x[j] = r[2 + j];
                        } else {
                            x[j] = cells(j + 1)[0];
                            widths[j] = self.sort(r[2 + j]).width();
                        }
                    }
                    let apply = if self.program { words::apply } else { meaning::apply };
                    vec![apply(kind, w, widths, x)]
                }
            };
            values.push(own);
        }
        values
    }

    /// The state words of step 0.
    pub fn start(&self, starts: &[u64]) -> Vec<u64> {
        let places = self.state_places();
        let mut states = starts.to_vec();
        for (i, line) in self.lines.iter().enumerate().filter(|(_, l)| l.kind == 5) {
            let sort = line.sort.unwrap();
            states[places[i]..places[i] + sort.cells()].iter_mut().for_each(|x| *x &= ones(sort.width()));
        }
        // The cone of an init value holds no state and no input, so that any words serve for them.
        let values = self.evaluate(&states, &vec![0; self.inputs()]);
        for r in self.records.iter().filter(|r| r[0] == 6) {
            let state = r[2] as usize - 1;
            let cells = self.lines[state].sort.unwrap().cells();
            states[places[state]..places[state] + cells].fill(values[r[3] as usize - 1][0]);
        }
        states
    }

    /// The state words of a later step: those that the last step left, but for the free states, whose words are those of the
    /// row behind its inputs.
    pub fn later(&self, left: &[u64], row_words: &[u64]) -> Vec<u64> {
        let mut fresh = row_words[self.inputs()..].iter();
        let mut states = left.to_vec();
        for (line, at) in self.lines.iter().zip(self.state_places()).filter(|(l, _)| l.is_free()) {
            let sort = line.sort.unwrap();
            states[at..at + sort.cells()].fill_with(|| fresh.next().unwrap() & ones(sort.width()));
        }
        states
    }

    /// One step: the signal bytes, and the state words that the next lines leave.
    pub fn step(&self, states: &[u64], row_words: &[u64]) -> (Vec<u8>, Vec<u64>) {
        let places = self.state_places();
        let values = self.evaluate(states, row_words);
        let mut next = states.to_vec();
        let mut signals = Vec::new();
        for r in &self.records {
            match r[0] {
                7 => {
                    let at = places[r[2] as usize - 1];
                    let cells = &values[r[3] as usize - 1];
                    next[at..at + cells.len()].copy_from_slice(cells);
                }
                8 | 9 => signals.push(u8::from(values[r[2] as usize - 1][0] != 0)),
                _ => {}
            }
        }
        (signals, next)
    }

    /// All signal bytes of a run.
    pub fn run(&self, steps: usize, starts: &[u64], inputs: &[u64]) -> Vec<u8> {
        let mut states = self.start(starts);
        let mut signals = Vec::new();
        let n = self.row_words();
        for k in 0..steps {
            let row = &inputs[k * n..(k + 1) * n];
            if k > 0 {
                states = self.later(&states, row);
            }
            let (bytes, left) = self.step(&states, row);
            signals.extend(bytes);
            states = left;
        }
        signals
    }

    pub fn first_bad(&self, steps: usize, signals: &[u8]) -> FirstBad {
        let kinds: Vec<u64> = self.lines.iter().map(|l| l.kind).filter(|k| matches!(k, 8 | 9)).collect();
        for k in 0..steps {
            let bytes = &signals[k * kinds.len()..(k + 1) * kinds.len()];
            if kinds.iter().zip(bytes).any(|(&kind, &b)| kind == 9 && b == 0) {
                return None;
            }
            let bads = kinds.iter().zip(bytes).filter(|(&kind, _)| kind == 8);
            if let Some(place) = bads.map(|(_, &b)| b).position(|b| b == 1) {
                return Some((k as u64, place as u64 + 1));
            }
        }
        None
    }
}

#[allow(clippy::too_many_arguments)]
fn run(
    program: bool,
    table: &[u64],
    count: usize,
    steps: usize,
    starts: &[u64],
    inputs: &[u64],
    signals: &mut [u8],
    work: &mut [u64],
    answer: &mut [u64],
) -> u64 {
    signals.fill(0);
    work.fill(0);
    answer.fill(0);
    if answer.len() != 3 || !is_whole(table, program) {
        return 1;
    }
    let lines = match if program { check_program(table, count) } else { check_table(table, count) } {
        Some(lines) => lines,
        None => return if program { 20 } else { 11 },
    };
    if steps > MOST_STEPS {
        return 13;
    }
    if starts.len() != lines.state_cells() {
        return 14;
    }
    if inputs.len() != steps * lines.row_words() {
        return 15;
    }
    if signals.len() != steps * lines.signals() {
        return 16;
    }
    if work.len() < lines.work() {
        return 17;
    }
    signals.copy_from_slice(&lines.run(steps, starts, inputs));
    if let Some((step, place)) = lines.first_bad(steps, signals) {
        answer.copy_from_slice(&[1, step, place]);
    }
    0
}

/// answer is 1, step, place where a bad is counted, else three zeros.
#[allow(clippy::too_many_arguments)]
pub fn run_circuit(
    table: &[u64],
    count: usize,
    steps: usize,
    starts: &[u64],
    inputs: &[u64],
    signals: &mut [u8],
    work: &mut [u64],
    answer: &mut [u64],
) -> u64 {
    run(false, table, count, steps, starts, inputs, signals, work, answer)
}

/// As `run_circuit`, of a program.
#[allow(clippy::too_many_arguments)]
pub fn run_program(
    table: &[u64],
    count: usize,
    steps: usize,
    starts: &[u64],
    inputs: &[u64],
    signals: &mut [u8],
    work: &mut [u64],
    answer: &mut [u64],
) -> u64 {
    run(true, table, count, steps, starts, inputs, signals, work, answer)
}

/// answer[0] is the value of a line's cell at step 0; the line is told by its record's place.
pub fn peek(
    table: &[u64],
    count: usize,
    line: usize,
    cell: usize,
    starts: &[u64],
    row_words: &[u64],
    answer: &mut [u64],
) -> u64 {
    answer.fill(0);
    if answer.len() != 3 || !is_whole(table, false) {
        return 1;
    }
    let Some(lines) = check_table(table, count) else { return 11 };
    if starts.len() != lines.state_cells() {
        return 14;
    }
    if row_words.len() != lines.row_words() {
        return 15;
    }
    if count > 64 {
        return 18;
    }
    let values = lines.evaluate(&lines.start(starts), row_words);
    match line.checked_sub(1).and_then(|i| values.get(i)).and_then(|cells| cells.get(cell)) {
        Some(&value) => {
            answer[0] = value;
            0
        }
        None => 18,
    }
}
