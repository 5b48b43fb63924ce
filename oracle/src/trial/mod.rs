//! The random run: files from a seed go through every operation of the compiled engine, and each answer is compared with the oracle's.

mod cases;
mod compare;
mod count;
mod engine;
pub mod kinds;
pub mod needs;
mod progress;

use cases::{Asked, Operation, Program, CONTAINED};
use compare::{compare, Difference};
use count::Counts;
use engine::{Engine, Printed};
use progress::Progress;
use std::path::{Path, PathBuf};
use std::sync::atomic::{AtomicBool, AtomicU64, Ordering};
use std::sync::mpsc;
use std::{env, fs, io, thread};

/// What is to be run.
pub struct Plan {
    pub seed: u64,
    pub first: u64,
    pub count: u64,
    /// The folder of the compiled programs.
    pub engine: PathBuf,
    /// Where what differs is saved.
    pub differences: PathBuf,
}

/// Files whose cases share a container.
const BATCH: u64 = 250;

/// The run ends after so many differences.
const MOST_DIFFERENCES: u64 = 20;

/// Runs all files, and says how many answers differ.
pub fn run(plan: &Plan) -> io::Result<u64> {
    let engine = Engine::new(&plan.engine)?;
    let scratch = Scratch::new()?;
    let (next, stop) = (AtomicU64::new(0), AtomicBool::new(false));
    let mut counts = Counts::default();
    thread::scope(|scope| -> io::Result<()> {
        let (sender, reports) = mpsc::channel();
        for worker in 0..thread::available_parallelism()?.get() {
            let worker = Worker { plan, engine: &engine, scratch: scratch.folder(worker)?, next: &next, stop: &stop };
            let sender = sender.clone();
            scope.spawn(move || worker.work(&sender));
        }
        drop(sender);
        let collected = collect(plan, reports, &mut counts);
        stop.store(true, Ordering::Relaxed);
        collected
    })?;
    print!("{}", counts.table());
    Ok(counts.differences)
}

/// Takes in what the workers report, until all is done or enough differs.
fn collect(plan: &Plan, reports: mpsc::Receiver<io::Result<Report>>, counts: &mut Counts) -> io::Result<()> {
    let mut progress = Progress::new(plan.count);
    for report in reports {
        let report = report?;
        counts.add(report.counts);
        for Differing { case, got, ended } in report.differing {
            if counts.differences < MOST_DIFFERENCES {
                counts.differences += 1;
                progress.clear();
                tell(plan, &case, &got, &ended);
                save(plan, &case, &got)?;
            }
        }
        progress.show(counts.files);
        if counts.differences >= MOST_DIFFERENCES {
            break;
        }
    }
    progress.end(counts.files);
    Ok(())
}

/// A case that differs, what was printed of it, and how its program ended, if not well.
struct Differing {
    case: Asked,
    got: String,
    ended: String,
}

/// What a batch came to.
struct Report {
    counts: Counts,
    differing: Vec<Differing>,
}

struct Worker<'a> {
    plan: &'a Plan,
    engine: &'a Engine,
    scratch: PathBuf,
    next: &'a AtomicU64,
    stop: &'a AtomicBool,
}

impl Worker<'_> {
    fn work(&self, reports: &mpsc::Sender<io::Result<Report>>) {
        while !self.stop.load(Ordering::Relaxed) {
            let start = self.next.fetch_add(BATCH, Ordering::Relaxed);
            if start >= self.plan.count {
                return;
            }
            let end = (start + BATCH).min(self.plan.count);
            // Where nobody listens any more the run is over.
            if reports.send(self.batch(start, end)).is_err() {
                return;
            }
        }
    }

    fn batch(&self, start: u64, end: u64) -> io::Result<Report> {
        let mut counts = Counts::default();
        let mut all: Vec<Asked> = Vec::new();
        for k in start..end {
            let cases = cases::cases(self.plan.seed, self.plan.first + k);
            counts.count(&cases);
            all.extend(cases);
        }
        let mut differing = Vec::new();
        for program in CONTAINED {
            let (of_program, others) = all.into_iter().partition(|case| case.way.operation.program() == program);
            all = others;
            differing.extend(self.contained(program, of_program)?);
        }
        for case in all {
            differing.extend(self.listed(case)?);
        }
        Ok(Report { counts, differing })
    }

    /// The cases of a program that reads a container. Where it ends too early it is started again, with the cases after the one at which it ended.
    fn contained(&self, program: Program, mut cases: Vec<Asked>) -> io::Result<Vec<Differing>> {
        let mut differing = Vec::new();
        while !cases.is_empty() && differing.len() < MOST_DIFFERENCES as usize {
            let container: Vec<u8> = cases.iter().flat_map(|case| case.bytes.iter().copied()).collect();
            let printed = self.engine.answer(program, &container, &self.scratch)?;
            let found = compare(&cases, &printed);
            let left = cases.split_off(found.answered);
            differing.extend(take(cases, found.differences, &printed));
            cases = left;
        }
        Ok(differing)
    }

    /// The sheet program on one input.
    fn listed(&self, case: Asked) -> io::Result<Option<Differing>> {
        debug_assert!(case.way.operation == Operation::Listing);
        let printed = self.engine.list(&case.bytes, &self.scratch)?;
        if printed.text == case.expected && printed.status.success() {
            return Ok(None);
        }
        let ended = ending(&printed);
        Ok(Some(Differing { case, got: printed.text, ended }))
    }
}

/// The cases that differ, out of all.
fn take(cases: Vec<Asked>, differences: Vec<Difference>, printed: &Printed) -> Vec<Differing> {
    let mut cases: Vec<Option<Asked>> = cases.into_iter().map(Some).collect();
    let taken = differences.into_iter().map(|Difference { place, got }| Differing { case: cases[place].take().unwrap(), got, ended: ending(printed) });
    taken.collect()
}

fn ending(printed: &Printed) -> String {
    if printed.status.success() {
        String::new()
    } else {
        format!(" (the program ended with {})", printed.status)
    }
}

fn tell(plan: &Plan, case: &Asked, got: &str, ended: &str) {
    let Asked { number, kind, way, expected, .. } = case;
    println!("difference: seed {} file {number}, {}: {}{ended}", plan.seed, kind.name(), way.name());
    let (expected, got): (Vec<&str>, Vec<&str>) = (expected.lines().collect(), got.lines().collect());
    // Of many lines, those from the first that differs on.
    let same = expected.iter().zip(&got).take_while(|(e, g)| e == g).count();
    for (word, lines) in [("expected", &expected), ("got", &got)] {
        let from = &lines[same.min(lines.len())..];
        println!("  {word}, from line {}: {}", same + 1, from.iter().take(3).copied().collect::<Vec<_>>().join(" / "));
    }
    println!("  again: oracle/run {} 1 {number}", plan.seed);
}

/// The file, what the program was given, what is expected and what was printed, each as a file. A container or an input can be handed to the program again by itself.
fn save(plan: &Plan, case: &Asked, got: &str) -> io::Result<()> {
    let folder = plan.differences.join(format!("{}-{}-{}", plan.seed, case.number, case.way.folder()));
    fs::create_dir_all(&folder)?;
    fs::write(folder.join("file"), cases::file_bytes(plan.seed, case.number))?;
    fs::write(folder.join(case.way.operation.program().container()), &case.bytes)?;
    fs::write(folder.join("expected"), &case.expected)?;
    fs::write(folder.join("got"), got)
}

/// A temporary folder that is removed at the end.
struct Scratch(PathBuf);

impl Scratch {
    fn new() -> io::Result<Scratch> {
        // In memory, where there is such a folder and nobody asks for another.
        let memory = Path::new("/dev/shm");
        let parent = if env::var_os("TMPDIR").is_none() && memory.is_dir() { memory.to_path_buf() } else { env::temp_dir() };
        let folder = parent.join(format!("oracle-{}", std::process::id()));
        fs::create_dir_all(&folder)?;
        Ok(Scratch(folder))
    }

    fn folder(&self, worker: usize) -> io::Result<PathBuf> {
        let folder = self.0.join(worker.to_string());
        fs::create_dir_all(&folder)?;
        Ok(folder)
    }
}

impl Drop for Scratch {
    fn drop(&mut self) {
        let _ = fs::remove_dir_all(&self.0);
    }
}

/// The programs that a folder lacks.
pub fn missing(folder: &Path) -> Option<PathBuf> {
    let programs = CONTAINED.into_iter().chain([Program::Sheet]);
    programs.map(|program| folder.join(program.name())).find(|path| !path.is_file())
}
