//! Every function of the crate on random files, fit and damaged, against the oracle, which is written from document 01 and orders 7 and 8 of document 02 alone. What is
//! about a graph is tried on both by name, and with none named, which is document 01's.

use oracle::language::{self, Loaded, No};
use oracle::making::Random;
use oracle::trial::kinds::{random_file, Made};
use oracle::trial::needs;
use pizwoter::{
    Action, Construction, Drawn, Ended, Ending, Graph, Input, List, Mark, Outcome, Place, Question, Refusal, Run, Split, Stepped, Unsolved, Verdict,
};
use std::collections::HashMap;

const FILES: u64 = 20_000;

/// A graph as a caller names it, or doesn't.
type Named = Option<Construction>;

const NAMED: [Named; 3] = [None, Some(Construction::Nondeterministic), Some(Construction::Deterministic)];

/// What the oracle calls it.
fn oracles(named: Named) -> language::Construction {
    match named {
        None | Some(Construction::Nondeterministic) => language::Nondeterministic,
        Some(Construction::Deterministic) => language::Deterministic,
    }
}

// The functions that are about a graph, with or without its name.

fn draw(file: &[u8], named: Named, buffer: &mut [u8]) -> Result<Drawn, Refusal> {
    match named {
        None => pizwoter::draw(file, buffer),
        Some(construction) => pizwoter::draw_on(file, construction, buffer),
    }
}

fn graph(file: &[u8], named: Named) -> Result<Graph, Refusal> {
    match named {
        None => pizwoter::graph(file),
        Some(construction) => pizwoter::graph_on(file, construction),
    }
}

fn step(run: Run, file: &[u8], named: Named, arrow: u16, memory: &mut [i32]) -> Result<Stepped, Refusal> {
    match named {
        None => run.step(file, arrow, memory),
        Some(construction) => run.step_on(file, construction, arrow, memory),
    }
}

fn run(file: &[u8], named: Named, budget: u16, memory: &mut [i32]) -> Result<Ended, Refusal> {
    match named {
        None => pizwoter::run(file, budget, memory),
        Some(construction) => pizwoter::run_on(file, construction, budget, memory),
    }
}

fn solve(file: &[u8], named: Named, start: &[u8], buffer: &mut [u8]) -> Result<usize, Unsolved> {
    match named {
        None => pizwoter::solve(file, start, buffer),
        Some(construction) => pizwoter::solve_on(file, construction, start, buffer),
    }
}

fn judge<'a>(file: &[u8], named: Named, start: &'a [u8], sheet: &'a [u8]) -> Result<Verdict<'a>, Refusal> {
    match named {
        None => pizwoter::judge(file, start, sheet),
        Some(construction) => pizwoter::judge_on(file, construction, start, sheet),
    }
}

fn question(No(number, place): No) -> Refusal {
    let of_the_file = number <= 11 || number == 20;
    assert!(of_the_file || place == 0);
    Refusal { question: Question::numbered(number).unwrap(), place: if of_the_file { Place::Byte(place) } else { Place::None } }
}

fn list(of: language::List) -> List {
    match of {
        language::List::Start => List::Start,
        language::List::Sheet => List::Sheet,
    }
}

fn refusal(refusal: language::Refusal) -> Refusal {
    match refusal {
        language::Refusal::Number(no) => question(no),
        language::Refusal::WrongByte(of, place) => Refusal { question: Question::Record, place: Place::InList(list(of), place) },
    }
}

fn mark(mark: language::Mark) -> Mark {
    mark.map_or(Mark::Clean, |(record, arrow)| Mark::At { record, arrow })
}

/// Each random file has a random state of its own, and a check is handed both.
fn on_files(check: impl Fn(&mut Random, &Made)) {
    for k in 1..=FILES {
        let mut random = Random(k.wrapping_mul(0x9E37_79B9_7F4A_7C15));
        let made = random_file(&mut random);
        check(&mut random, &made);
    }
}

#[test]
fn files_are_validated_and_drawn() {
    on_files(|r, made| {
        let file = &made.file.bytes;
        let lesson = made.file.lesson().map_err(question);
        assert_eq!(pizwoter::validate(file), lesson.map(|_| ()));
        assert_eq!(pizwoter::cells(file), lesson.map(|l| l.cells));
        let room = usize::from(needs::arrow_room(r, made));
        for named in NAMED {
            let expected = made.file.on(oracles(named)).map_err(question).map(|l| &l.graph);
            let (mut ours, mut theirs) = (vec![170; room], vec![170; room]);
            let drawn = draw(file, named, &mut ours);
            let fits = expected.and_then(|g| {
                let bytes = g.bytes();
                if bytes.len() > room {
                    return Err(question(No(13, 0)));
                }
                theirs[..bytes.len()].copy_from_slice(&bytes);
                Ok(Drawn { nodes: usize::from(g.nodes), arrows: bytes.len() / 7 })
            });
            assert_eq!((drawn, ours), (fits, theirs));
            same_graph(graph(file, named), expected);
        }
    });
}

/// A graph's arrows, each with its action; and the earlier guards of each, whose guarded entries the oracle tells by their conditions.
fn same_graph(ours: Result<Graph, Refusal>, expected: Result<&language::Graph, Refusal>) {
    let (ours, expected) = match (ours, expected) {
        (Ok(ours), Ok(expected)) => (ours, expected),
        (ours, expected) => return assert_eq!(ours.err(), expected.err()),
    };
    assert_eq!((ours.nodes, ours.arrows.len()), (usize::from(expected.nodes), expected.arrows.len()));
    let mut conditions = HashMap::new();
    for (k, (arrow, theirs)) in ours.arrows.iter().zip(&expected.arrows).enumerate() {
        let (action, earlier) = match &theirs.action {
            language::Action::Command(n) => (Action::Command(*n), &[][..]),
            language::Action::Condition(n) => (Action::Condition(*n), &[][..]),
            language::Action::Exit(n) => (Action::Exit(*n), &[][..]),
            language::Action::Guard { guarded, earlier, own } => {
                conditions.insert(*guarded, *own);
                (Action::Guard(*guarded), &earlier[..])
            }
        };
        assert_eq!((arrow.from, arrow.to, arrow.action), (theirs.from, theirs.to, action));
        assert_eq!(ours.earlier_guards(k).iter().map(|guarded| conditions[guarded]).collect::<Vec<_>>(), earlier);
    }
}

#[test]
fn inputs_are_taken_apart() {
    on_files(|r, made| {
        let start = needs::start_list(r, made);
        let input = needs::input(r, made, &start);
        let expected = language::read(&input, 5).map_err(question);
        assert_eq!(pizwoter::validate_input(&input), expected.as_ref().map(|_| ()).map_err(|x| *x));
        let parts = expected.map(|_| {
            let last = &language::fields(&input, 5).ok().unwrap()[4];
            Input { program: &input[..last.at - 3], start: &input[last.at..last.at + last.length] }
        });
        assert_eq!(pizwoter::input_parts(&input), parts);
    });
}

/// A step's answer, as the oracle gives it.
fn outcome(outcome: language::Outcome) -> Result<u32, Refusal> {
    match outcome {
        language::Outcome::Taken => Ok(0),
        language::Outcome::Undefined(reason) => Ok(reason),
        language::Outcome::Refused(no) => Err(question(no)),
    }
}

fn number(stepped: Stepped) -> u32 {
    match stepped.outcome {
        Outcome::Taken => 0,
        Outcome::Undefined(reason) => reason.number(),
    }
}

/// Step calls from a run on a graph, each compared.
fn follow(file: &Loaded, named: Named, from: language::Run, calls: &[u16], memory: &[i32]) {
    let (mut ours, mut theirs) = (memory.to_vec(), memory.to_vec());
    let (mut at, mut expected) = (Run { node: from.node, count: from.count }, from);
    for &arrow in calls {
        let stepped = step(at, &file.bytes, named, arrow, &mut ours);
        assert_eq!(stepped.map(number), outcome(language::step(file, oracles(named), &mut expected, arrow, &mut theirs)));
        at = stepped.map_or(at, |s| s.run);
        assert_eq!((at.node, at.count, &ours), (expected.node, expected.count, &theirs));
    }
}

#[test]
fn programs_are_stepped_and_run() {
    on_files(|r, made| {
        let memory = needs::any_memory(r, made);
        let (from, any_calls, budget) = (needs::any_run(r, made), needs::any_calls(r, made), needs::budget(r).min(2000));
        for named in NAMED {
            let calls = needs::calls(r, made, oracles(named), &memory);
            follow(&made.file, named, language::FRESH, &calls, &memory);
            follow(&made.file, named, from, &any_calls, &memory);
            let (mut ours, mut theirs) = (memory.clone(), memory.clone());
            let (answer, ended) = language::budgeted(&made.file, oracles(named), budget, &mut theirs);
            let expected = answer.map_err(question).map(|answer| Ended {
                ending: [Ending::Arrived, Ending::Spent, Ending::Stuck][answer as usize],
                run: Run { node: ended.node, count: ended.count },
            });
            assert_eq!((run(&made.file.bytes, named, budget, &mut ours), ours), (expected, theirs));
        }
    });
}

/// The sheet that the oracle solves of a file's source.
fn solved(made: &Made, named: Named, start: &[u8]) -> Vec<u8> {
    let mut whole = vec![0; 20_000];
    let (_, length) = language::solve(&made.source, oracles(named), start, &mut whole);
    whole.truncate(length);
    whole
}

fn is_solved(r: &mut Random, made: &Made, named: Named, start: &[u8]) {
    let room = needs::sheet_room(r, made, &solved(made, named, start)).min(20_000);
    let (mut ours, mut theirs) = (vec![170; room], vec![170; room]);
    let (answer, written) = language::solve(&made.file, oracles(named), start, &mut theirs);
    let width = made.file.lesson().map_or(1, |l| l.width(language::List::Sheet));
    let expected = answer.map(|()| written / width).map_err(|refused| match refused {
        language::Refusal::Number(No(18, _)) => Unsolved::NoRoom { records: written / width },
        other => Unsolved::Refused(refusal(other)),
    });
    assert_eq!((solve(&made.file.bytes, named, start, &mut ours), ours), (expected, theirs));
}

fn is_judged(made: &Made, named: Named, start: &[u8], sheet: &[u8]) {
    let judged = language::judge(&made.file, oracles(named), start, sheet);
    let offending = language::offending(&made.file, &judged, start, sheet);
    let expected = judged.map_err(refusal).map(|verdict| match verdict {
        language::Verdict::StartMissing(record) => Verdict::StartMissing { record, offending },
        language::Verdict::ResultMissing(record, arrow) => Verdict::ResultMissing { record, arrow, offending },
        language::Verdict::Accepted(of) => Verdict::Accepted(mark(of)),
    });
    let verdict = judge(&made.file.bytes, named, start, sheet);
    assert_eq!(verdict, expected);
    // The offending record is the very bytes of the list that it lies in.
    if let Some((list, record)) = verdict.ok().and_then(|v| v.offending()) {
        let within = if list == List::Start { start } else { sheet };
        assert!(within.as_ptr_range().contains(&record.as_ptr()) && record == offending);
    }
}

/// A sheet of each graph, mostly, is judged on both: one may be accepted on the deterministic graph and not on document 01's.
#[test]
fn sheets_are_solved_judged_and_marked() {
    on_files(|r, made| {
        let start = needs::start_list(r, made);
        for named in NAMED {
            is_solved(r, made, named, &start);
        }
        for of in [Some(Construction::Nondeterministic), Some(Construction::Deterministic)] {
            let sheet = needs::any_sheet(r, made, &solved(made, of, &start));
            for named in NAMED {
                is_judged(made, named, &start, &sheet);
            }
            assert_eq!(pizwoter::index_mark(&made.file.bytes, &sheet), language::index_mark(&made.file, &sheet).map(mark).map_err(refusal));
        }
    });
}

#[test]
fn places_are_split() {
    on_files(|r, made| {
        for place in needs::places(r, made) {
            let expected = language::split(&made.file, place).map_err(question).map(|(record, column)| Split { record, column });
            assert_eq!(pizwoter::split(&made.file.bytes, place), expected);
        }
    });
}
