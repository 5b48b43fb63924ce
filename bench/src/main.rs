//! How fast the engine is: each operation beside a plain optimised Rust program that does the same, on the same input in the same run.
//!
//! Prints a table in Markdown, as docs/BENCHMARKS.md has it. Before anything is timed the two programs' answers are compared.

mod lessons;
mod plain;
mod timing;

use lessons::{Lesson, Walk};
use oracle::making::Random;
use pizwoter::Construction::{self, Deterministic, Nondeterministic};
use pizwoter::{Ending, Figures, Fraction, Mark, Outcome, Run, Verdict};
use std::process::ExitCode;
use timing::{side_by_side, Timed};

const OPERATIONS: [&str; 11] =
    ["validate", "draw", "step", "split", "run", "judge", "solve", "run deterministic", "judge deterministic", "solve deterministic", "figures"];

/// The first version whose calls take a graph. An earlier engine is timed too, by bench/before: it has document 01's graph alone.
const WITH_GRAPHS: u32 = 3;

fn main() -> ExitCode {
    let words: Vec<String> = std::env::args().skip(1).collect();
    let only = words.concat();
    if words.len() > 1 || !OPERATIONS.iter().any(|name| name.contains(&only)) {
        eprintln!("bench: no operation's name has '{}'; the operations are {}", words.join(" "), OPERATIONS.join(", "));
        return ExitCode::from(2);
    }
    let has_graphs = pizwoter::version() >= WITH_GRAPHS;
    table(|name| name.contains(&only) && (has_graphs || !name.contains("deterministic")));
    ExitCode::SUCCESS
}

/// The operations that are wanted.
fn table(wanted: impl Fn(&str) -> bool) {
    println!("Machine: {}.\n", machine());
    println!("| operation | input | engine | plain Rust | ratio | |\n|---|---|---:|---:|---:|---|");
    for lesson in lessons::files() {
        if wanted("validate") {
            row("validate", lesson.title, validate(&lesson));
        }
    }
    for lesson in lessons::files() {
        if wanted("draw") {
            row("draw", lesson.title, draw(&lesson));
        }
    }
    for lesson in lessons::files() {
        if wanted("step") {
            row("one step", lesson.title, step(&lesson));
        }
    }
    for lesson in lessons::files() {
        for (places, below) in [("a place below 12,288", 12_288), ("any place", 1 << 32)] {
            if wanted("split") {
                row("split", &format!("{}, {places}", lesson.title), split(&lesson, below));
            }
        }
    }
    for lesson in lessons::endless() {
        for budget in [1_000, 8_000, 65_535] {
            if wanted("run") {
                row("run", &format!("{}, {} steps", lesson.title, grouped(budget)), run(&lesson, Nondeterministic, budget as u16));
            }
        }
    }
    for walk in lessons::walks() {
        for records in [16, 256, 4096] {
            if wanted("judge") {
                row("judge", &format!("{}, {} records", walk.title, grouped(records)), judge(&walk, Nondeterministic, records));
            }
        }
    }
    for walk in lessons::walks() {
        for records in [16, 256, 4096] {
            if wanted("solve") {
                row("solve", &format!("{}, {} records", walk.title, grouped(records)), solve(&walk, Nondeterministic, records));
            }
        }
    }
    for lesson in lessons::endless_choices() {
        for budget in [1_000, 65_535] {
            if wanted("run deterministic") {
                row("run deterministic", &format!("{}, {} steps", lesson.title, grouped(budget)), run(&lesson, Deterministic, budget as u16));
            }
        }
    }
    for walk in lessons::choices() {
        for records in [256, 4096] {
            if wanted("judge deterministic") {
                row("judge deterministic", &format!("{}, {} records", walk.title, grouped(records)), judge(&walk, Deterministic, records));
            }
        }
    }
    for walk in lessons::choices() {
        for records in [256, 4096] {
            if wanted("solve deterministic") {
                row("solve deterministic", &format!("{}, {} records", walk.title, grouped(records)), solve(&walk, Deterministic, records));
            }
        }
    }
    for (marks, many) in [(1, "a mark"), (30, "30 marks"), (4096, "4,096 marks")] {
        if wanted("figures") {
            row("figures", many, figures(marks));
        }
    }
    for marks in [30, 2048] {
        if wanted("figures") {
            row("figures", &format!("two classes of {} marks joined", grouped(marks)), join(marks));
        }
    }
}

/// A number with a comma before its last three digits.
fn grouped(n: usize) -> String {
    match n / 1000 {
        0 => n.to_string(),
        thousands => format!("{thousands},{:03}", n % 1000),
    }
}

fn machine() -> String {
    let cpu = std::fs::read_to_string("/proc/cpuinfo").unwrap_or_default();
    let model = cpu.lines().find_map(|line| line.strip_prefix("model name")).map_or("unknown", |rest| rest.trim_start_matches([' ', '\t', ':']));
    let cores = std::thread::available_parallelism().map_or(1, |n| n.get());
    format!("{model}, {cores} cores")
}

fn time(nanoseconds: f64) -> String {
    match nanoseconds {
        t if t < 1e3 => format!("{t:.0} ns"),
        t if t < 1e4 => format!("{:.2} µs", t / 1e3),
        t if t < 1e6 => format!("{:.1} µs", t / 1e3),
        t => format!("{:.2} ms", t / 1e6),
    }
}

/// A line of the table: its bar has ten blocks where the two are as fast.
fn row(operation: &str, input: &str, timed: Timed) {
    let ratio = timed.ratio;
    let bar = "█".repeat(((ratio * 10.0).round() as usize).clamp(1, 40));
    println!("| {operation} | {input} | {} | {} | {ratio:.2} | {bar} |", time(timed.engine), time(timed.plain));
}

fn validate(lesson: &Lesson) -> Timed {
    let file = &lesson.file[..];
    assert!(pizwoter::validate(file).is_ok() && plain::validate(file).is_ok());
    side_by_side(|| pizwoter::validate(file), || plain::validate(file))
}

fn draw(lesson: &Lesson) -> Timed {
    let file = &lesson.file[..];
    let (mut ours, mut theirs) = ([170; 2000], [170; 2000]);
    let on = the_same(Nondeterministic);
    let drawn = pizwoter::draw_on(file, Nondeterministic, &mut ours).unwrap();
    assert_eq!(plain::draw(file, on, &mut theirs), Ok((drawn.nodes as u16, drawn.arrows as u16)));
    assert_eq!(ours, theirs);
    side_by_side(|| pizwoter::draw_on(file, Nondeterministic, &mut ours).is_ok(), || plain::draw(file, on, &mut theirs).is_ok())
}

/// The first arrow, from a fresh run.
fn step(lesson: &Lesson) -> Timed {
    let file = &lesson.file[..];
    let (mut ours, mut theirs) = (memory(file), memory(file));
    let on = the_same(Nondeterministic);
    let stepped = Run::FRESH.step_on(file, Nondeterministic, 0, &mut ours).unwrap();
    match plain::step(file, on, 0, 0, 0, &mut theirs).unwrap() {
        Ok((node, count)) => assert_eq!((stepped.outcome, stepped.run), (Outcome::Taken, Run { node, count })),
        Err(reason) => assert!(matches!(stepped.outcome, Outcome::Undefined(r) if r.number() == reason)),
    }
    assert_eq!(ours, theirs);
    side_by_side(|| Run::FRESH.step_on(file, Nondeterministic, 0, &mut ours), || plain::step(file, on, 0, 0, 0, &mut theirs).is_ok())
}

/// Places in no order, so that no branch of a splitter can be learnt.
fn split(lesson: &Lesson, below: usize) -> Timed {
    let (file, mut random) = (&lesson.file[..], Random(20_261_116));
    let places: Vec<u32> = (0..4096).map(|_| random.below(below) as u32).collect();
    for &place in &places {
        let split = pizwoter::split(file, place).unwrap();
        assert_eq!(plain::split(file, place), Ok((split.record, split.column)));
    }
    let (mut ours, mut theirs) = (places.iter().cycle(), places.iter().cycle());
    side_by_side(|| pizwoter::split(file, *ours.next().unwrap()), || plain::split(file, *theirs.next().unwrap()))
}

/// Small numbers in no order.
fn memory(file: &[u8]) -> Vec<i32> {
    let cells = pizwoter::cells(file).unwrap() as i32;
    (0..cells).map(|k| (k * 7 + 5) % 9).collect()
}

/// The plain program's construction of the same graph.
fn the_same(construction: Construction) -> plain::Construction {
    match construction {
        Nondeterministic => plain::Construction::Nondeterministic,
        Deterministic => plain::Construction::Deterministic,
    }
}

fn run(lesson: &Lesson, construction: Construction, budget: u16) -> Timed {
    let (file, memory, on) = (&lesson.file[..], memory(&lesson.file), the_same(construction));
    let (mut ours, mut theirs) = (memory.clone(), memory.clone());
    let ended = pizwoter::run_on(file, construction, budget, &mut ours).unwrap();
    assert_eq!((ended.ending, ended.run.count), (Ending::Spent, budget), "{}", lesson.title);
    assert_eq!(plain::run(file, on, budget, &mut theirs), Ok((1, ended.run.node, ended.run.count)));
    assert_eq!(ours, theirs);
    let anew = |kept: &mut Vec<i32>| kept.copy_from_slice(&memory);
    side_by_side(
        || {
            anew(&mut ours);
            pizwoter::run_on(file, construction, budget, &mut ours).is_ok()
        },
        || {
            anew(&mut theirs);
            plain::run(file, on, budget, &mut theirs).is_ok()
        },
    )
}

/// The solver's sheet of a walk, with as many records as are wanted.
fn solved(walk: &Walk, construction: Construction, records: usize) -> (Vec<u8>, Vec<u8>) {
    let start = walk.starts(records / walk.each);
    let mut sheet = vec![0; walk.width() * records];
    assert_eq!(pizwoter::solve_on(&walk.file, construction, &start, &mut sheet), Ok(records), "{}", walk.title);
    (start, sheet)
}

fn judge(walk: &Walk, construction: Construction, records: usize) -> Timed {
    let (start, sheet) = solved(walk, construction, records);
    let (file, on) = (&walk.file[..], the_same(construction));
    assert_eq!(pizwoter::judge_on(file, construction, &start, &sheet), Ok(Verdict::Accepted(Mark::Clean)));
    assert_eq!(plain::judge(file, on, &start, &sheet), [0]);
    side_by_side(|| pizwoter::judge_on(file, construction, &start, &sheet).is_ok(), || plain::judge(file, on, &start, &sheet)[0])
}

fn solve(walk: &Walk, construction: Construction, records: usize) -> Timed {
    let (start, mut ours) = solved(walk, construction, records);
    let (file, on) = (&walk.file[..], the_same(construction));
    let mut theirs = vec![0; ours.len()];
    assert_eq!(plain::solve(file, on, &start, &mut theirs), [0, records as u32]);
    assert_eq!(ours, theirs);
    side_by_side(|| pizwoter::solve_on(file, construction, &start, &mut ours).is_ok(), || plain::solve(file, on, &start, &mut theirs)[0])
}

/// Marks all over the range, in no order.
fn marks(count: usize) -> Vec<i32> {
    let mut random = Random(20_261_117);
    (0..count).map(|_| random.below(20_001) as i32 - 10_000).collect()
}

/// The engine's figures as the plain program's.
fn told(f: Figures) -> plain::Figures {
    let fraction = |f: Fraction| (f.numerator, f.denominator);
    Ok(((f.totals.count, f.totals.sum, f.totals.squares), fraction(f.mean), fraction(f.variance)))
}

fn figures(count: usize) -> Timed {
    let marks = marks(count);
    let expected = plain::figures(&marks);
    assert_eq!(told(pizwoter::figures(&marks).unwrap()), expected);
    side_by_side(|| pizwoter::figures(&marks), || plain::figures(&marks))
}

/// Two classes, the halves of a list.
fn join(count: usize) -> Timed {
    let marks = marks(2 * count);
    let [first, second] = [&marks[..count], &marks[count..]].map(|half| pizwoter::figures(half).unwrap().totals);
    let [a, b]: [plain::Totals; 2] = [first, second].map(|t| (t.count, t.sum, t.squares));
    let expected = plain::join(a, b);
    assert_eq!(told(pizwoter::join(first, second).unwrap()), expected);
    side_by_side(|| pizwoter::join(first, second), || plain::join(a, b))
}
