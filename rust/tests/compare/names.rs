//! Names used twice: the proved tool against the independent implementation.

use super::generator::minus::{minus_circuit, minus_room};
use super::generator::minus_edges::Edge;
use super::generator::names::*;
use super::*;

/// The names of some lines are asked for too. 100 stands for an accepted text of which one was found.
#[cfg(all(feature = "read", feature = "name"))]
fn read_case(random: &mut Random) -> u64 {
    let size = size(random);
    let minus = minus_circuit(random, size);
    let names = if random.one_in(4) { Names::apart(random) } else { Names::any(random) };
    let text = minus.text_with(random, names);
    let exact = minus.written_out().0.records.len();
    let room = if random.one_in(4) { minus_room(random, exact) } else { exact };
    let number = both_read(random, &text, RECORD * room, 3);
    let ids = &minus.lines.ids;
    let asked = (0..ids.len().min(8)).map(|_| random.pick(ids)).collect::<Vec<u64>>();
    let named = asked.into_iter().filter(|&id| both_name(random, &text, id, 3) == 100).count();
    if number == 0 && named > 0 {
        100
    } else {
        number
    }
}

#[cfg(all(feature = "read", feature = "name"))]
#[test]
fn reading_names() {
    many_cases("read names", 8_000, &[4, 22, 100], 5, read_case);
}

/// What may stand behind the last line's operands: U for a name that is used, u for it in the other case.
#[cfg(feature = "read")]
const ENDS: [&str; 12] = [" U", "  U  ", " U;", " U ;U", " new", " U U", " U x", " x U", ";U", " ;U", " u", " Ux"];

/// The text with a name on each line but the last, and something behind the last.
#[cfg(feature = "read")]
fn named_lines(random: &mut Random, text: &[u8], end: &str) -> Vec<u8> {
    let mut lines: Vec<Vec<u8>> = text.split(|&byte| byte == b'\n').map(<[u8]>::to_vec).collect();
    let last = lines.len() - 1;
    (0..).zip(&mut lines[..last]).for_each(|(i, line)| line.extend(format!(" name{i}").bytes()));
    let used = format!("name{}", random.below(last));
    lines[last].extend(end.replace('u', &used.to_uppercase()).replace('U', &used).bytes());
    lines.join(&b'\n')
}

/// A line of every kind behind named lines of every class, right and wrong in every way, with a name that is used, with one
/// that is not, and with what is no name; in tables with room for all its records and for fewer.
#[cfg(feature = "read")]
#[test]
fn reading_names_at_the_edges() {
    on_stack(|| {
        let (mut random, mut answers) = (Random::new(13), BTreeMap::new());
        for kind in (1..=63).filter(|&kind| independent::kinds::in_circuits(kind)) {
            let edge = Edge::new(&mut random);
            let n = edge.count();
            for r in edge.records(&mut random, kind) {
                let (signed, strange) = edge.texts(&r);
                let all = signed.iter().flat_map(|text| ENDS.map(|end| (text, end)));
                let one: Vec<_> = strange.iter().map(|text| (text, random.pick(&ENDS))).collect();
                for (text, end) in all.chain(one) {
                    let text = named_lines(&mut random, text, end);
                    let room = n + random.pick(&[0, 1, 1, 2, 3, 4]);
                    *answers.entry(both_read(&mut random, &text, RECORD * room, 3)).or_insert(0) += 1;
                }
            }
        }
        println!("reading names at the edges: answers {answers:?}");
        assert!([0, 3, 4, 5, 6, 7, 8, 9, 10, 22].iter().all(|number| answers.get(number) > Some(&30)), "{answers:?}");
    });
}

/// Texts full of names, all different; then with the first, the last or any of them once more, or hardly another, on the last
/// line or on any.
#[cfg(feature = "read")]
#[test]
fn reading_many_names() {
    on_stack(|| {
        let (mut random, mut answers) = (Random::new(14), BTreeMap::new());
        for (_, series) in SERIES {
            for bytes in [60, 500, 1023, 1024, 1025, 4095, 4096, 4097, 16_383, 16_384, 16_385, 65_535, 65_536] {
                let names = fitting(series, bytes);
                let n = names.len();
                let length = RECORD * (n + 2);
                if n == 0 {
                    continue;
                }
                assert_eq!(both_read(&mut random, &bad_lines(&names), length, 3), 0);
                for _ in 0..12 {
                    let mut again = names.clone();
                    let (any, other) = (random.below(n), random.below(n));
                    let to = random.pick(&[n - 1, n - 1, any]);
                    let from = random.pick(&[0, to.saturating_sub(1), other]);
                    again[to] = names[from].clone();
                    if random.one_in(3) {
                        let at = random.below(again[to].len());
                        again[to][at] = random.pick(b"aAp\x01\xff");
                    }
                    *answers.entry(both_read(&mut random, &bad_lines(&again), length, 3)).or_insert(0) += 1;
                }
            }
        }
        println!("reading many names: answers {answers:?}");
        assert!([0, 22].iter().all(|number| answers.get(number) > Some(&50)), "{answers:?}");
    });
}
