//! Runs of the designs in `examples/verilog`, by the proved library, by the plain interpreter, and by yosys' `sim` and a
//! simulator that verilator compiles, where these are installed.

use crate::independent::rules::{check_program, check_table, Lines};
use crate::{clock, interpreter, measure, Random};
use gofeshan::interface as proved;
use gofeshan::{MOST_RECORDS, PROGRAM_RECORD, RECORD};
use std::path::{Path, PathBuf};
use std::process::Command;

const DESIGNS: [&str; 6] = ["counter", "fifo", "registers", "lfsr", "alu", "caption"];
const STEPS: usize = 4096;

fn folder() -> PathBuf {
    Path::new(env!("CARGO_MANIFEST_DIR")).join("../examples/verilog")
}

/// Nanoseconds for a step, by the proved library and by the two interpreters.
fn run(program: bool, lines: &Lines) -> [f64; 3] {
    let (table, n) = (lines.words(), lines.records.len());
    let mut random = Random::new(3);
    let (starts, inputs) = (random.words(lines.state_cells()), random.words(STEPS * lines.row_words()));
    let length = STEPS * lines.signals();
    let (mut a, mut b, mut c) = (vec![1; length], vec![2; length], vec![3; length]);
    let (mut x, mut y, mut z, mut work) = ([1; 3], [2; 3], [3; 3], vec![3; lines.work()]);
    let run = if program { proved::run_program } else { proved::run_circuit };
    let times = measure([
        &mut || assert_eq!(run(&table, n, STEPS, &starts, &inputs, &mut a, &mut work, &mut x), 0),
        &mut || {
            let told = interpreter::run_table::<true>(program, &table, n, STEPS, &starts, &inputs, &mut b, &mut y);
            assert_eq!(told, 0)
        },
        &mut || {
            let told = interpreter::run_table::<false>(program, &table, n, STEPS, &starts, &inputs, &mut c, &mut z);
            assert_eq!(told, 0)
        },
    ]);
    assert!(a == b && x == y && a == c && x == z, "a plain interpreter disagrees");
    times.map(|t| t * 1e9 / STEPS as f64)
}

/// Nanoseconds for a step of yosys' `sim`, with its inputs at rest: a long run without a short one.
fn yosys(name: &str) -> Option<f64> {
    let time = |cycles: usize| {
        let script = format!(
            "read_verilog -formal {name}.v; prep -top {name}; memory_nordff; sim -clock clk -zinit -n {cycles}"
        );
        let began = clock::children();
        let done = Command::new("yosys").args(["-q", "-p", &script]).current_dir(folder()).output().ok()?;
        done.status.success().then_some(clock::children() - began)
    };
    let (short, long) = (time(1)?, time(1 + STEPS)?);
    Some((long - short) * 1e9 / STEPS as f64)
}

/// Nanoseconds for a step of the simulator that verilator compiles, random inputs.
fn verilator(name: &str, inputs: &[(String, u64)]) -> Option<f64> {
    Command::new("verilator").arg("--version").output().ok()?;
    let target = std::env::temp_dir().join(format!("gofeshan-{}-{name}", std::process::id()));
    std::fs::create_dir_all(&target).ok()?;
    let others = inputs.iter().filter(|i| i.0 != "clk");
    let set: String = others.map(|(i, w)| format!("top.{i} = next() & {}u;\n", u64::MAX >> (64 - w))).collect();
    let main = format!(
        "#include \"V{name}.h\"\n#include <ctime>\n#include <cstdint>\n#include <cstdio>\nstatic uint64_t seed = 1;\nstatic uint64_t next() {{ seed ^= seed << 13; seed ^= seed >> 7; seed ^= seed << 17; return seed; }}\nint main() {{\nV{name} top;\nlong steps = 2000000;\nclock_t began = clock();\nfor (long k = 0; k < steps; k++) {{\n{set}top.clk = 0; top.eval(); top.clk = 1; top.eval();\n}}\ndouble took = (clock() - began) * (1e9 / CLOCKS_PER_SEC);\nprintf(\"%f\\n\", took / steps);\n}}\n"
    );
    std::fs::write(target.join("main.cpp"), main).ok()?;
    let source = std::fs::canonicalize(folder().join(format!("{name}.v"))).ok()?;
    let built = Command::new("verilator")
        .args([
            "--cc",
            "--exe",
            "--build",
            "-O3",
            "--x-assign",
            "fast",
            "-Wno-fatal",
            "-MAKEFLAGS",
            "OPT_FAST=-O3 OPT_SLOW=-O3 OPT_GLOBAL=-O3",
            "--top-module",
            name,
        ])
        .args(["--Mdir", "made", "main.cpp"])
        .arg(source)
        .current_dir(&target)
        .output()
        .ok()?;
    let told = if built.status.success() {
        Command::new(target.join("made").join(format!("V{name}"))).output().ok()
    } else {
        println!("{}", String::from_utf8_lossy(&built.stderr));
        None
    };
    std::fs::remove_dir_all(&target).ok()?;
    String::from_utf8(told?.stdout).ok()?.trim().parse().ok()
}

pub fn rows() {
    println!("The designs of examples/verilog, {STEPS} steps, nanoseconds for a step. yosys' inputs are at rest, all others random.\n");
    println!(
        "{:<10} {:>7} {:>9} {:>6} {:>6} {:>7} {:>9} {:>6} {:>6} {:>10} {:>9} {:>9} {:>9}",
        "design",
        "records",
        "circuit",
        "/plain",
        "/shape",
        "records",
        "program",
        "/plain",
        "/shape",
        "yosys",
        "/circuit",
        "verilator",
        "/program"
    );
    for name in DESIGNS {
        let text = std::fs::read(folder().join(format!("{name}.btor2"))).unwrap();
        let mut table = vec![0; RECORD * 1000];
        let count = gofeshan::read(&text, &mut table).unwrap();
        let (mut flat, mut program) = (vec![0; RECORD * MOST_RECORDS], vec![0; PROGRAM_RECORD * MOST_RECORDS]);
        let flat_count = gofeshan::flatten(&table, count, &mut flat).unwrap();
        let program_count = gofeshan::translate(&flat, flat_count, &mut program).unwrap();
        let lines = check_table(&table, count).unwrap();
        let [circuit, plain, shape] = run(false, &lines);
        let [of_program, plain_program, shape_program] = run(true, &check_program(&program, program_count).unwrap());
        let of_kind_4 = lines.ids.iter().zip(&lines.records).filter(|(_, r)| r[0] == 4);
        let inputs: Vec<(String, u64)> = of_kind_4
            .map(|(&id, r)| (String::from_utf8_lossy(gofeshan::name(&text, id)).into_owned(), lines.sort(r[1]).width()))
            .filter(|input| !input.0.is_empty())
            .collect();
        let show = |x: Option<f64>| x.map_or("-".to_string(), |x| format!("{x:.1}"));
        let (sim, compiled) = (yosys(name), verilator(name, &inputs));
        println!(
            "{name:<10} {count:>7} {circuit:>9.1} {:>6.2} {:>6.2} {program_count:>7} {of_program:>9.1} {:>6.2} {:>6.2} {:>10} {:>9} {:>9} {:>9}",
            circuit / plain,
            circuit / shape,
            of_program / plain_program,
            of_program / shape_program,
            show(sim),
            show(sim.map(|s| s / circuit)),
            show(compiled),
            show(compiled.map(|c| c / of_program))
        );
    }
}
