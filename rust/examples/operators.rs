//! The operators of circuits and programs against z3: `bash rust/outside.sh` in the repository's root.
//!
//! Every kind from 11 to 53 and from 57 to 63 runs on all operands of widths 1 to 4 and on random and edge operands at widths
//! 8, 63 and 64, the overflow detectors also on operands whose result is near a limit, as a circuit and as that circuit's
//! program. z3 evaluates the same term of SMT-LIB's theory of bit vectors; a detector's term works out the result on operands
//! that are so much wider that it fits.

use std::collections::BTreeMap;
use std::io::{BufRead, BufReader, Write};
use std::process::{Command, Stdio};

/// An operator with the widths of its operands, its plain numbers and the width of its result.
struct Operator {
    kind: u64,
    widths: Vec<u64>,
    numbers: Vec<u64>,
    result: u64,
}

fn ones(w: u64) -> u64 {
    u64::MAX >> (64 - w)
}

fn bits(x: u64, w: u64) -> String {
    format!("#b{x:0width$b}", width = w as usize)
}

/// The words of the binary operators that SMT-LIB has under its own names.
const NAMES: [(u64, &str); 19] = [
    (33, "bvand"),
    (34, "bvor"),
    (35, "bvxor"),
    (36, "bvnand"),
    (37, "bvnor"),
    (38, "bvxnor"),
    (39, "bvadd"),
    (40, "bvsub"),
    (41, "bvmul"),
    (42, "bvudiv"),
    (43, "bvurem"),
    (44, "bvsdiv"),
    (45, "bvsrem"),
    (46, "bvsmod"),
    (47, "bvshl"),
    (48, "bvlshr"),
    (49, "bvashr"),
    (50, "ext_rotate_left"),
    (51, "ext_rotate_right"),
];

const COMPARISONS: [&str; 8] = ["bvult", "bvule", "bvugt", "bvuge", "bvslt", "bvsle", "bvsgt", "bvsge"];

/// The operators of the detectors 57 to 63, and how their operands are extended.
const DETECTED: [(&str, &str); 7] = [
    ("bvadd", "zero"),
    ("bvadd", "sign"),
    ("bvsub", "zero"),
    ("bvsub", "sign"),
    ("bvmul", "zero"),
    ("bvmul", "sign"),
    ("bvsdiv", "sign"),
];

/// Whether the result on extended operands is another than its own low bits extended: by w bits for a product, by one bit for
/// all others. A division by 0 has no result.
fn overflow(kind: u64, w: u64, a: &str, b: &str) -> String {
    let (operator, how) = DETECTED[kind as usize - 57];
    let more = if operator == "bvmul" { w } else { 1 };
    let extended = |x: &str| format!("((_ {how}_extend {more}) {x})");
    let result = format!("({operator} {} {})", extended(a), extended(b));
    let back = extended(&format!("((_ extract {} 0) r)", w - 1));
    let claim = format!("(let ((r {result})) (distinct r {back}))");
    if operator == "bvsdiv" {
        format!("(and (distinct {b} {}) {claim})", bits(0, w))
    } else {
        claim
    }
}

/// The operator's term on some operands.
fn term(o: &Operator, x: &[u64]) -> String {
    let of = |i: usize| bits(x[i], o.widths[i]);
    let a = of(0);
    let truth = |claim: String| format!("(ite {claim} #b1 #b0)");
    match o.kind {
        11 => format!("(bvnot {a})"),
        12 => format!("(bvneg {a})"),
        13 => format!("(bvadd {a} {})", bits(1, o.result)),
        14 => format!("(bvsub {a} {})", bits(1, o.result)),
        15 => truth(format!("(= {a} {})", bits(ones(o.widths[0]), o.widths[0]))),
        16 => truth(format!("(not (= {a} {}))", bits(0, o.widths[0]))),
        17 => (1..o.widths[0])
            .fold(format!("((_ extract 0 0) {a})"), |t, i| format!("(bvxor {t} ((_ extract {i} {i}) {a}))")),
        18 => format!("((_ extract {} {}) {a})", o.numbers[0], o.numbers[1]),
        19 => format!("((_ zero_extend {}) {a})", o.numbers[0]),
        20 => format!("((_ sign_extend {}) {a})", o.numbers[0]),
        21 => truth(format!("(= {a} {})", of(1))),
        22 => truth(format!("(distinct {a} {})", of(1))),
        23..=30 => truth(format!("({} {a} {})", COMPARISONS[o.kind as usize - 23], of(1))),
        31 => truth(format!("(= (= {a} #b1) (= {} #b1))", of(1))),
        32 => truth(format!("(=> (= {a} #b1) (= {} #b1))", of(1))),
        52 => format!("(concat {a} {})", of(1)),
        53 => format!("(ite (= {a} #b1) {} {})", of(1), of(2)),
        57..=63 => truth(overflow(o.kind, o.widths[0], &a, &of(1))),
        kind => format!("({} {a} {})", NAMES.iter().find(|n| n.0 == kind).unwrap().1, of(1)),
    }
}

/// All forms of a kind at a width; plain numbers and the second width of a concat are all that there are where the width
/// is small, and some elsewhere.
fn forms(kind: u64, w: u64) -> Vec<Operator> {
    let form = |widths: &[u64], numbers: &[u64], result| Operator {
        kind,
        widths: widths.to_vec(),
        numbers: numbers.to_vec(),
        result,
    };
    let some: Vec<u64> = if w <= 4 { (0..=4).collect() } else { vec![0, 1, 7, 31, 55, 56, 62, 63] };
    match kind {
        11..=14 => vec![form(&[w], &[], w)],
        15..=17 => vec![form(&[w], &[], 1)],
        18 => {
            let below: Vec<u64> = some.iter().copied().filter(|&b| b < w).collect();
            let pairs = below.iter().flat_map(|&u| below.iter().map(move |&l| (u, l))).filter(|(u, l)| l <= u);
            pairs.map(|(u, l)| form(&[w], &[u, l], u - l + 1)).collect()
        }
        19 | 20 => some.iter().filter(|&&n| w + n <= 64).map(|&n| form(&[w], &[n], w + n)).collect(),
        21..=30 | 57..=63 => vec![form(&[w, w], &[], 1)],
        31 | 32 if w > 1 => vec![],
        31 | 32 => vec![form(&[1, 1], &[], 1)],
        52 => some.iter().filter(|&&n| n > 0 && w + n <= 64).map(|&n| form(&[w, n], &[], w + n)).collect(),
        53 => vec![form(&[1, w, w], &[], w)],
        _ => vec![form(&[w, w], &[], w)],
    }
}

/// All operands of small widths, else random ones and edges.
fn rows(o: &Operator, random: &mut impl FnMut() -> u64) -> Vec<Vec<u64>> {
    let total: u64 = o.widths.iter().sum();
    if total <= 12 && o.widths.iter().all(|&w| w <= 4) {
        let split = |mut x: u64| {
            let word = |&w: &u64| {
                let word = x & ones(w);
                x >>= w;
                word
            };
            o.widths.iter().map(word).collect()
        };
        return (0..1u64 << total).map(split).collect();
    }
    let mut word = |w: u64| {
        let edge = 1u64 << (random() % w);
        let x = match random() % 8 {
            0 => random() % 3,
            1 => ones(w) - random() % 3,
            2 => 1 << (w - 1),
            3 => edge,
            4 => random() % (2 * w),
            _ => random(),
        };
        x & ones(w)
    };
    let mut rows: Vec<Vec<u64>> = (0..300).map(|_| o.widths.iter().map(|&w| word(w)).collect()).collect();
    if matches!(o.kind, 57..=63) {
        rows.extend(near_limits(o.widths[0], random));
    }
    rows
}

/// Pairs of edges, and numbers of all sizes, each with those that make a product, a sum and a difference near each limit.
fn near_limits(w: u64, random: &mut impl FnMut() -> u64) -> Vec<Vec<u64>> {
    let limits = [(1i128 << w) - 1, (1 << (w - 1)) - 1, -1 << (w - 1)];
    let edges: Vec<i128> = [0].iter().chain(&limits).flat_map(|edge| (-2..=2).map(move |d| edge + d)).collect();
    let mut pairs: Vec<(i128, i128)> = edges.iter().flat_map(|&x| edges.iter().map(move |&y| (x, y))).collect();
    for _ in 0..12 {
        let size = i128::from(random() & ones(1 + random() % w)).max(1);
        for (x, limit) in [size, -size].into_iter().flat_map(|x| limits.map(|limit| (x, limit))) {
            let exact = [limit / x, limit - x, x - limit];
            pairs.extend(exact.into_iter().flat_map(|near| (-1..=2).map(move |d| (x, near + d))));
        }
    }
    pairs.into_iter().map(|(x, y)| vec![x as u64 & ones(w), y as u64 & ones(w)]).collect()
}

/// The table of inputs, the operator, and a bad line for each bit of its result, with room for them alone.
fn circuit(o: &Operator) -> Vec<u64> {
    let mut table: Vec<[u64; 5]> = Vec::new();
    let mut operands = Vec::new();
    for &w in &o.widths {
        table.push([1, 0, w, 0, 0]);
        table.push([4, table.len() as u64, 0, 0, 0]);
        operands.push(table.len() as u64);
    }
    operands.extend(&o.numbers);
    operands.resize(3, 0);
    table.push([1, 0, o.result, 0, 0]);
    table.push([o.kind, table.len() as u64, operands[0], operands[1], operands[2]]);
    let line = table.len() as u64;
    table.push([1, 0, 1, 0, 0]);
    let bit = table.len() as u64;
    for i in 0..o.result {
        table.push([18, bit, line, i, i]);
        table.push([8, 0, table.len() as u64, 0, 0]);
    }
    let with_id = |(id, [kind, sort, a, b, c]): (u64, [u64; 5])| [kind, sort, a, b, c, id];
    let records: Vec<u64> = (1..).zip(table).flat_map(with_id).collect();
    let mut target = vec![0; records.len()];
    gofeshan::circuit_to_columns(&records, records.len() / gofeshan::RECORD, &mut target).unwrap();
    target
}

/// The results of a run for each row of operands, of the circuit or of its program.
fn results(o: &Operator, rows: &[Vec<u64>], program: bool) -> Vec<u64> {
    let mut table = circuit(o);
    let mut count = table.len() / gofeshan::RECORD;
    let mut run: fn(&[u64], usize, usize, &[u64], &[u64], &mut [u8], &mut [u64]) -> _ = gofeshan::run_circuit;
    if program {
        let mut target = vec![0; gofeshan::PROGRAM_RECORD * 2 * count];
        count = gofeshan::translate(&table, count, &mut target).unwrap();
        (table, run) = (target, gofeshan::run_program);
    }
    let (inputs, mut work) = (rows.concat(), vec![0; 2 * count]);
    let mut signals = vec![0; rows.len() * o.result as usize];
    run(&table, count, rows.len(), &[], &inputs, &mut signals, &mut work).unwrap();
    signals
        .chunks(o.result as usize)
        .map(|bytes| bytes.iter().rev().fold(0, |word, &bit| word << 1 | u64::from(bit)))
        .collect()
}

fn main() {
    let mut seed = std::env::var("GOFESHAN_SEED").map_or(1, |s| s.parse().expect("GOFESHAN_SEED is no number"));
    let mut random = move || {
        seed = u64::wrapping_add(seed, 0x9e37_79b9_7f4a_7c15);
        let z = (seed ^ (seed >> 30)).wrapping_mul(0xbf58_476d_1ce4_e5b9);
        let z = (z ^ (z >> 27)).wrapping_mul(0x94d0_49bb_1331_11eb);
        z ^ (z >> 31)
    };
    let mut script = String::new();
    // What the tool gave: the kind, the operands as text, the results of circuit and program.
    let mut given: Vec<(u64, String, [u64; 2])> = Vec::new();
    for w in [1, 2, 3, 4, 8, 63, 64] {
        for kind in (11..=53).chain(57..=63) {
            for o in forms(kind, w) {
                let rows = rows(&o, &mut random);
                let both = [results(&o, &rows, false), results(&o, &rows, true)];
                for (i, row) in rows.iter().enumerate() {
                    let term = term(&o, row);
                    script += &format!("(simplify {term})\n");
                    given.push((kind, term, [both[0][i], both[1][i]]));
                }
            }
        }
    }
    let mut z3 = Command::new("z3")
        .args(["-smt2", "-in"])
        .stdin(Stdio::piped())
        .stdout(Stdio::piped())
        .spawn()
        .expect("z3 is not installed");
    let (mut input, output) = (z3.stdin.take().unwrap(), z3.stdout.take().unwrap());
    let writer = std::thread::spawn(move || input.write_all(script.as_bytes()).unwrap());
    // How many results of each kind, and how many of them were 1.
    let mut compared: BTreeMap<u64, [u64; 2]> = BTreeMap::new();
    let mut lines = BufReader::new(output).lines();
    let mut wrong = 0;
    for (kind, term, ours) in &given {
        let line = lines.next().expect("z3 ended early").unwrap();
        let theirs = match line.split_at(2) {
            ("#b", digits) => u64::from_str_radix(digits, 2),
            ("#x", digits) => u64::from_str_radix(digits, 16),
            _ => panic!("z3 says {line} for {term}"),
        }
        .unwrap();
        if ours != &[theirs; 2] {
            println!("kind {kind}: {term}: z3 {theirs}, circuit {}, program {}", ours[0], ours[1]);
            wrong += 1;
        }
        let [all, ones] = compared.entry(*kind).or_default();
        (*all, *ones) = (*all + 1, *ones + u64::from(theirs == 1));
    }
    writer.join().unwrap();
    assert!(z3.wait().unwrap().success());
    assert_eq!(compared.len(), 50, "a kind was left out");
    let detectors: Vec<[u64; 2]> = compared.range(57..).map(|(_, counts)| *counts).collect();
    println!("overflow detectors, results and those of 1: {detectors:?}");
    assert!(detectors.iter().all(|[all, ones]| *ones > 10 && all - ones > 500), "too few results of 0 or of 1");
    println!("{} results of 50 kinds compared with z3, in circuits and programs; {wrong} differ", given.len());
    std::process::exit(i32::from(wrong > 0));
}
