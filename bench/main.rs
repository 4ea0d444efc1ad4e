//! The proved checker, as a static library, beside a plain one: first compared on many inputs, then timed on five workloads.
//! Neither side clears its areas between calls. Then the open operations on lent memory are timed, by the program `lent_calls`.

mod inputs;
mod plain;

use inputs::{Input, Random};
use plain::Checker;
use std::collections::BTreeMap;
use std::fs;
use std::hint::black_box;
use std::path::Path;
use std::process::Command;
use std::time::Instant;

unsafe extern "C" {
    fn ittavluna_check(problem: *const u8, problem_len: usize, steps: *const u8, steps_len: usize, out: *mut u8, out_len: usize) -> usize;
    fn ittavluna_code(problem: *const u8, problem_len: usize, out: *mut u8, out_len: usize) -> usize;
}

/// Bytes that hold every report.
const AREA: usize = 2_449_984;

/// The report's length. The promises of both functions ask nothing of the caller but slices that are what they say.
fn proved_check(input: &Input, out: &mut [u8]) -> usize {
    let (p, s) = (&input.problem, &input.steps);
    unsafe { ittavluna_check(p.as_ptr(), p.len(), s.as_ptr(), s.len(), out.as_mut_ptr(), out.len()) }
}

fn proved_code(input: &Input, out: &mut [u8]) -> usize {
    let p = &input.problem;
    unsafe { ittavluna_code(p.as_ptr(), p.len(), out.as_mut_ptr(), out.len()) }
}

// ---- comparing

/// What a report comes to: its last line without the numbers that differ from input to input.
fn verdict(report: &[u8]) -> String {
    let text = std::str::from_utf8(report).unwrap();
    let last = text.lines().last().unwrap();
    if last.starts_with("confirmed") { "confirmed".into() } else { last.split(" at ").next().unwrap().into() }
}

/// Every verdict that a program can print. A filing's weights cannot reach 10^12 in 8,192 bytes, so 11 is a derivation's alone; 1, 2, 14, 16
/// and 17 are refusals of lent areas, direct steps and listing lines.
fn verdicts() -> impl Iterator<Item = String> {
    let filing = [3, 4, 5, 6, 7, 8, 10, 15, 18].map(|n| format!("problem refused {n}"));
    let check = [3, 4, 6, 7, 8, 9, 10, 11, 12, 13, 15, 19].map(|n| format!("refused {n}"));
    let others = ["confirmed", "problem too long", "steps too long"].map(String::from);
    filing.into_iter().chain(check).chain(others)
}

struct Sides {
    checker: Box<Checker>,
    area: Vec<u8>,
    text: Vec<u8>,
}

impl Sides {
    /// The report, where both sides give the same, and leave what stands behind it.
    fn same(&mut self, input: &Input) -> Option<&[u8]> {
        self.text.clear();
        self.checker.code(&input.problem, &mut self.text);
        self.area[..80].fill(0xA5);
        let size = proved_code(input, &mut self.area);
        if self.area[..size] != self.text || self.area[size..80].iter().any(|&b| b != 0xA5) {
            return None;
        }
        self.text.clear();
        self.checker.check(&input.problem, &input.steps, &mut self.text);
        let end = self.text.len() + 64;
        self.area[self.text.len()..end].fill(0xA5);
        let size = proved_check(input, &mut self.area);
        let alike = self.area[..size] == self.text && self.area[size..end].iter().all(|&b| b == 0xA5);
        if alike { Some(&self.text) } else { None }
    }
}

/// Areas that are too short are refused with 0 and left as they were.
fn short_areas_refused(input: &Input) -> bool {
    let (mut area, mut line) = (vec![7; AREA - 1], [7; 63]);
    let untouched = proved_check(input, &mut area) == 0 && proved_code(input, &mut line) == 0;
    untouched && area.iter().chain(&line).all(|&b| b == 7)
}

/// Compares on so many random inputs and on the workloads; the number of differences.
fn compare(sides: &mut Sides, many: usize, workloads: &[Workload]) -> usize {
    let start = Instant::now();
    let mut random = Random(1);
    let mut maker = Checker::new();
    let (mut differ, mut bytes) = (0, 0);
    let mut seen: BTreeMap<String, usize> = BTreeMap::new();
    let timed: Vec<&Input> = workloads.iter().flat_map(|w| &w.inputs).collect();
    for i in 0..many + timed.len() {
        let made;
        let input = if i < many {
            made = inputs::any(&mut random, &mut maker);
            &made
        } else {
            timed[i - many]
        };
        bytes += input.problem.len() + input.steps.len();
        match sides.same(input) {
            Some(report) => *seen.entry(verdict(report)).or_default() += 1,
            None => {
                differ += 1;
                println!("input {i} differs: problem {:02x?} steps {:02x?}", input.problem, input.steps);
            }
        }
    }
    if !short_areas_refused(timed[0]) {
        differ += 1;
        println!("a short area is not refused as promised");
    }
    println!("compared {} inputs ({bytes} bytes, both programs) in {:.1} s: {differ} differ", many + timed.len(), start.elapsed().as_secs_f64());
    for (verdict, times) in &seen {
        println!("  {times:>7}  {verdict}");
    }
    for verdict in verdicts().filter(|v| !seen.contains_key(v)) {
        println!("    never  {verdict}");
    }
    differ
}

// ---- timing

/// Inputs of one kind. Where steps differ from each other several are timed in turn: one alone the processor's branch prediction learns by heart.
struct Workload {
    name: String,
    inputs: Vec<Input>,
}

/// Nanoseconds for one call of each side: the least of many short rounds, taken in turn, so that other work on the machine weighs little. The
/// inputs alternate from call to call; where there is one, a round is many calls.
fn nanoseconds(inputs: &[Input], mut sides: [&mut dyn FnMut(&Input); 2]) -> [f64; 2] {
    let calls = if inputs.len() == 1 { 100 } else { 1 };
    let mut least = vec![[f64::INFINITY; 2]; inputs.len()];
    for _ in 0..100 {
        for (side, call) in sides.iter_mut().enumerate() {
            for (input, least) in inputs.iter().zip(&mut least) {
                let start = Instant::now();
                (0..calls).for_each(|_| call(black_box(input)));
                least[side] = least[side].min(start.elapsed().as_nanos() as f64 / calls as f64);
            }
        }
    }
    [0, 1].map(|side| least.iter().map(|l| l[side]).sum::<f64>() / inputs.len() as f64)
}

/// The records of an accepted derivation, and those among them that are steps.
fn records(steps: &[u8]) -> (usize, usize) {
    let (mut at, mut all, mut taken) = (0, 0, 0);
    while at < steps.len() {
        all += 1;
        taken += matches!(steps[at], b'S' | b'P' | b'E') as usize;
        at += match steps[at] {
            b'M' => 5,
            b'S' | b'P' | b'B' => 9,
            b'E' => 10,
            _ => 1,
        };
    }
    (all, taken)
}

/// Nanoseconds for a whole check on both sides: the proved one, the plain one.
fn both(sides: &mut Sides, inputs: &[Input]) -> [f64; 2] {
    let Sides { checker, area, text } = sides;
    let proved = &mut |input: &Input| {
        black_box(proved_check(input, area));
    };
    let plain = &mut |input: &Input| {
        text.clear();
        checker.check(&input.problem, &input.steps, text);
        black_box(text.len());
    };
    nanoseconds(inputs, [proved, plain])
}

/// One row of the table. What a step costs alone is the whole check less one of the same problem without steps.
fn time(sides: &mut Sides, workload: &Workload) {
    let inputs = &workload.inputs;
    let [proved, plain] = both(sides, inputs);
    let [less_proved, less_plain] = both(sides, &inputs.iter().map(inputs::without_steps).collect::<Vec<Input>>());
    let mean = |count: &dyn Fn(&Input) -> usize| inputs.iter().map(count).sum::<usize>() as f64 / inputs.len() as f64;
    sides.checker.file(&inputs[0].problem).unwrap();
    let lines = sides.checker.lines.count;
    let (filing, steps) = (mean(&|i| i.problem.len()), mean(&|i| i.steps.len()));
    let (all, taken) = (mean(&|i| records(&i.steps).0), mean(&|i| records(&i.steps).1));
    let rate = |t: f64| (filing + steps) * 1000.0 / t;
    println!(
        "{:<17}{lines:>5}{filing:>8.0}{steps:>6.0}{all:>6.0}{taken:>6.0}{proved:>12.0}{plain:>11.0}{:>10.0}{:>9.0}{:>10.0}{:>9.0}{:>9.2}{:>9.2}{:>8.2}",
        workload.name,
        proved / taken,
        plain / taken,
        (proved - less_proved) / taken,
        (plain - less_plain) / taken,
        rate(proved),
        rate(plain),
        proved / plain
    );
}

// ---- timing on lent memory

/// Nanoseconds that one run of the program `lent_calls` takes in a folder, for each of the thousand times that it makes its calls.
fn run_calls(program: &Path, folder: &Path, calls: &str) -> f64 {
    fs::write(folder.join("calls"), calls).expect("a file of calls");
    let start = Instant::now();
    let ended = Command::new(program).current_dir(folder).output().expect("the program lent_calls");
    let taken = start.elapsed().as_nanos() as f64 / 1000.0;
    let said = String::from_utf8_lossy(&ended.stdout);
    assert!(ended.status.success() && (said.starts_with("accepted") || said.starts_with("confirmed")), "lent_calls says '{said}' of {calls}");
    taken
}

/// One row: what a filing, a check and a direct step take in memory that is lent, each as what so many more of them take. The lists of calls are
/// run in turn, and the least of each counts, so that other work on the machine does not fall on one of them.
fn time_lent(workload: &Workload) {
    let folder = Path::new("target/bench/lent");
    fs::create_dir_all(folder).expect("a folder");
    fs::write(folder.join("problem.bin"), &workload.inputs[0].problem).expect("the problem's file");
    fs::write(folder.join("steps.bin"), &workload.inputs[0].steps).expect("the derivation's file");
    let program = fs::canonicalize("crates/lent_calls/out/lent_calls").expect("the program lent_calls");
    let mut least = [f64::INFINITY; 4];
    for _ in 0..40 {
        for (calls, least) in ["F", "FFFFF", "FCFCFCFC", "FSRSR"].iter().zip(&mut least) {
            *least = least.min(run_calls(&program, folder, calls));
        }
    }
    let [one, filings, checks, steps] = least;
    let filing = (filings - one) / 4.0;
    let (check, step) = ((checks - one - 3.0 * filing) / 4.0, (steps - one) / 4.0);
    println!("{:<17}{filing:>10.0}{check:>10.0}{step:>10.0}", workload.name);
}

fn main() {
    let words: Vec<String> = std::env::args().collect();
    let many = words.get(1).map_or(50_000, |w| w.parse().expect("a number of inputs"));
    let mut sides = Sides { checker: Checker::new(), area: vec![0; AREA], text: Vec::with_capacity(AREA) };
    let checker = &mut sides.checker;
    let several = 1..=16;
    let mut workloads = vec![
        Workload { name: "(a) whole case".into(), inputs: vec![inputs::whole_case()] },
        Workload { name: "(b) short lines".into(), inputs: several.clone().map(|seed| inputs::many_short_lines(seed, false, checker)).collect() },
        Workload { name: "(c) 6 variables".into(), inputs: several.clone().map(|seed| inputs::long_lines(seed, false)).collect() },
        Workload { name: "(c) 18 variables".into(), inputs: several.clone().map(|seed| inputs::long_lines(seed, true)).collect() },
    ];
    for lines in [8, 16, 32, 64, 96, 120] {
        workloads.push(Workload { name: format!("(d) {lines} lines"), inputs: vec![inputs::lines_held(lines)] });
    }
    workloads.extend([
        Workload { name: "(e) short lines".into(), inputs: several.clone().map(|seed| inputs::many_short_lines(seed, true, checker)).collect() },
        Workload { name: "(e) 6 variables".into(), inputs: several.clone().map(|seed| inputs::long_hard(seed, false)).collect() },
        Workload { name: "(e) 18 variables".into(), inputs: several.map(|seed| inputs::long_hard(seed, true)).collect() },
    ]);
    // one workload over and over, for a profiler
    if let Some(wanted) = words.get(2) {
        let workload = workloads.iter().find(|w| w.name.contains(wanted.as_str())).expect("a workload's name");
        let rounds = words.get(3).map_or(1000, |w| w.parse().expect("a number of rounds"));
        let plain = words.get(4).is_some_and(|w| w == "plain");
        for input in workload.inputs.iter().cycle().take(rounds) {
            sides.text.clear();
            if plain {
                sides.checker.check(&input.problem, &input.steps, &mut sides.text);
            } else {
                black_box(proved_check(black_box(input), &mut sides.area));
            }
        }
        return;
    }
    for input in workloads.iter().flat_map(|w| &w.inputs) {
        sides.text.clear();
        sides.checker.check(&input.problem, &input.steps, &mut sides.text);
        assert!(verdict(&sides.text) == "confirmed", "a workload is not confirmed");
    }
    let differ = compare(&mut sides, many, &workloads);
    println!();
    println!("{:<24}{:>12}{:>12}{:>23}{:>19}{:>19}{:>18}", "", "bytes", "records", "ns a check", "ns, by steps", "ns a step alone", "MB a second");
    println!(
        "{:<17}{:>5}{:>8}{:>6}{:>6}{:>6}{:>12}{:>11}{:>10}{:>9}{:>10}{:>9}{:>9}{:>9}{:>8}",
        "", "lines", "filing", "steps", "all", "taken", "proved", "plain", "proved", "plain", "proved", "plain", "proved", "plain", "ratio"
    );
    for workload in &workloads {
        time(&mut sides, workload);
    }
    println!("\n{:<17}{:>10}{:>10}{:>10}", "ns on lent memory", "a filing", "a check", "a step");
    for workload in workloads.iter().filter(|w| w.inputs.len() == 1) {
        time_lent(workload);
    }
    if differ != 0 {
        std::process::exit(1);
    }
}
