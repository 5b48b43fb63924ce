//! The plain program against the oracle, on random files, fit and damaged.

use super::*;
use oracle::language::{self, List, No, Outcome, Refusal, Verdict, FRESH};
use oracle::making::Random;
use oracle::trial::kinds::{random_file, Made};
use oracle::trial::needs;

const FILES: u64 = 20_000;

/// Each random file has a random state of its own, and a check is handed both.
fn on_files(check: impl Fn(&mut Random, &Made)) {
    for k in 1..=FILES {
        let mut random = Random(k.wrapping_mul(0x9E37_79B9_7F4A_7C15));
        let made = random_file(&mut random);
        check(&mut random, &made);
    }
}

fn told(No(number, place): No) -> (u32, usize) {
    (number, place)
}

/// A refusal in document 01's numbers.
fn numbers(refusal: Refusal) -> Vec<u32> {
    match refusal {
        Refusal::Number(No(number, place)) => vec![number, place as u32],
        Refusal::WrongByte(List::Start, place) => vec![17, 1, place as u32],
        Refusal::WrongByte(List::Sheet, place) => vec![17, 2, place as u32],
    }
}

/// Both constructions, as the oracle has them.
const BOTH: [(Construction, language::Construction); 2] =
    [(Construction::Nondeterministic, language::Nondeterministic), (Construction::Deterministic, language::Deterministic)];

#[test]
fn files() {
    on_files(|r, made| {
        let file = &made.file.bytes;
        assert_eq!(validate(file), made.file.lesson().map(|_| ()).map_err(told));
        for (construction, theirs) in BOTH {
            let mut buffer = [170; 2000];
            let graph = made.file.on(theirs).map(|l| &l.graph).map_err(told);
            assert_eq!(draw(file, construction, &mut buffer), graph.map(|g| (g.nodes, g.arrows.len() as u16)));
            let arrows = graph.map_or(Vec::new(), |g| g.bytes());
            assert!(buffer.starts_with(&arrows) && buffer[arrows.len()..].iter().all(|&byte| byte == 170));
        }
        for place in needs::places(r, made) {
            assert_eq!(split(file, place), language::split(&made.file, place).map_err(told));
        }
    });
}

#[test]
fn runs() {
    on_files(|r, made| {
        let file = &made.file.bytes;
        let memory = needs::any_memory(r, made);
        let budget = needs::budget(r).min(2000);
        for (construction, of) in BOTH {
            let (mut ours, mut theirs, mut expected) = (memory.clone(), memory.clone(), FRESH);
            for arrow in needs::calls(r, made, of, &memory) {
                let stepped = step(file, construction, expected.node, expected.count, arrow, &mut ours);
                match language::step(&made.file, of, &mut expected, arrow, &mut theirs) {
                    Outcome::Taken => assert_eq!(stepped, Ok(Ok((expected.node, expected.count)))),
                    Outcome::Undefined(reason) => assert_eq!(stepped, Ok(Err(reason))),
                    Outcome::Refused(no) => assert_eq!(stepped, Err(told(no))),
                }
                assert_eq!(ours, theirs);
            }
            let (mut ours, mut theirs) = (memory.clone(), memory.clone());
            let (answer, ended) = language::budgeted(&made.file, of, budget, &mut theirs);
            assert_eq!(run(file, construction, budget, &mut ours), answer.map(|answer| (answer, ended.node, ended.count)).map_err(told));
            assert_eq!(ours, theirs);
        }
    });
}

/// Solves a start list, compares, and gives the oracle's sheet.
fn solved(made: &Made, (construction, of): (Construction, language::Construction), start: &[u8]) -> Vec<u8> {
    let (mut ours, mut theirs) = (vec![170; 20_000], vec![170; 20_000]);
    let (answer, length) = language::solve(&made.file, of, start, &mut theirs);
    let records = length / made.file.lesson().map_or(1, |l| l.width(List::Sheet));
    let expected = match answer {
        Ok(()) => vec![0, records as u32],
        Err(Refusal::Number(No(18, _))) => vec![18, records as u32],
        Err(refused) => [numbers(refused), vec![0]].concat(),
    };
    assert_eq!((solve(&made.file.bytes, construction, start, &mut ours), &ours), (expected, &theirs));
    theirs.truncate(length);
    theirs
}

/// A sheet of each graph, mostly, is judged on both.
#[test]
fn sheets() {
    on_files(|r, made| {
        let start = needs::start_list(r, made);
        for both in BOTH {
            let sheet = needs::any_sheet(r, made, &solved(made, both, &start));
            for (construction, of) in BOTH {
                let expected = match language::judge(&made.file, of, &start, &sheet) {
                    Ok(Verdict::StartMissing(record)) => vec![41, record as u32],
                    Ok(Verdict::ResultMissing(record, arrow)) => vec![42, record as u32, arrow as u32],
                    Ok(Verdict::Accepted(None)) => vec![0],
                    Ok(Verdict::Accepted(Some((record, arrow)))) => vec![0, record as u32, arrow as u32],
                    Err(refused) => numbers(refused),
                };
                assert_eq!(judge(&made.file.bytes, construction, &start, &sheet), expected);
            }
        }
    });
}
