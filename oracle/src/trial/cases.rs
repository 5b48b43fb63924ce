//! A random file's cases: one for each operation of the engine, with the answer expected.

use super::kinds::{random_file, Kind, Made};
use super::needs;
use crate::answers::files::Mode;
use crate::answers::sheets::{marking, solved, Ask, Chunks};
use crate::answers::{classes, number, on_graph, runs, Case, Named, Told, UNNAMED};
use crate::language::*;
use crate::making::Random;

/// The engine's programs: each answers the cases of a container, but the sheet program, which reads one input.
#[derive(Clone, Copy, PartialEq, Eq, Debug)]
pub enum Program {
    Files,
    Runs,
    Sheets,
    Classes,
    Sheet,
}

/// The programs that read a container.
pub const CONTAINED: [Program; 4] = [Program::Files, Program::Runs, Program::Sheets, Program::Classes];

impl Program {
    pub fn name(self) -> &'static str {
        match self {
            Program::Files => "program_files",
            Program::Runs => "semantics_runs",
            Program::Sheets => "analysis_sheets",
            Program::Classes => "figures_classes",
            Program::Sheet => "sheet",
        }
    }

    /// The container that it reads in its current directory.
    pub fn container(self) -> &'static str {
        match self {
            Program::Files => "files.bin",
            Program::Runs => "runs.bin",
            Program::Sheets => "sheets.bin",
            Program::Classes => "classes.bin",
            Program::Sheet => "input.in",
        }
    }
}

#[derive(Clone, Copy, PartialEq, Eq, PartialOrd, Ord, Debug)]
pub enum Operation {
    Draw,
    Edges,
    Readings,
    Input,
    Parts,
    Budget,
    Steps,
    StepsFrom,
    Judge,
    Mark,
    Solve,
    Split,
    Follow,
    Listing,
    Marks,
    Join,
}

impl Operation {
    pub const ALL: [Operation; 16] = [
        Operation::Draw,
        Operation::Edges,
        Operation::Readings,
        Operation::Input,
        Operation::Parts,
        Operation::Budget,
        Operation::Steps,
        Operation::StepsFrom,
        Operation::Judge,
        Operation::Mark,
        Operation::Solve,
        Operation::Split,
        Operation::Follow,
        Operation::Listing,
        Operation::Marks,
        Operation::Join,
    ];

    pub fn name(self) -> &'static str {
        match self {
            Operation::Draw => "graph drawn into a room",
            Operation::Edges => "graph, arrow by arrow",
            Operation::Readings => "names, cells and entries read",
            Operation::Input => "the sheet program's input asked",
            Operation::Parts => "its parts, and the field reader",
            Operation::Budget => "budgeted run",
            Operation::Steps => "step calls from a fresh run",
            Operation::StepsFrom => "step calls from any run",
            Operation::Judge => "sheet judged",
            Operation::Mark => "index mark",
            Operation::Solve => "start list solved into a room",
            Operation::Split => "places split",
            Operation::Follow => "third term tried",
            Operation::Listing => "sheet program",
            Operation::Marks => "figures of a list",
            Operation::Join => "figures of a join",
        }
    }

    pub fn program(self) -> Program {
        match self {
            Operation::Draw | Operation::Edges | Operation::Readings | Operation::Input | Operation::Parts => Program::Files,
            Operation::Budget | Operation::Steps | Operation::StepsFrom => Program::Runs,
            Operation::Judge | Operation::Mark | Operation::Solve | Operation::Split | Operation::Follow => Program::Sheets,
            Operation::Listing => Program::Sheet,
            Operation::Marks | Operation::Join => Program::Classes,
        }
    }

    /// Whether a case may name the construction of the graph that it is about.
    fn may_name(self) -> bool {
        use Operation::*;
        matches!(self, Draw | Edges | Budget | Steps | StepsFrom | Judge | Solve | Follow)
    }

    /// A letter for titles, which are to be short.
    fn letter(self) -> char {
        (b'a' + Operation::ALL.iter().position(|&other| other == self).unwrap() as u8) as char
    }
}

/// An operation, and the construction that is named, if one is.
#[derive(Clone, Copy, PartialEq, Eq, PartialOrd, Ord, Debug)]
pub struct Way {
    pub operation: Operation,
    pub named: Named,
}

impl Way {
    pub fn all() -> impl Iterator<Item = Way> {
        let named = |operation: Operation| if operation.may_name() { vec![None, Some(Nondeterministic), Some(Deterministic)] } else { vec![None] };
        Operation::ALL.into_iter().flat_map(move |operation| named(operation).into_iter().map(move |named| Way { operation, named }))
    }

    pub fn name(self) -> String {
        match self.named {
            None => self.operation.name().to_string(),
            Some(Nondeterministic) => format!("{}, document 01's graph by name", self.operation.name()),
            Some(Deterministic) => format!("{}, the deterministic graph", self.operation.name()),
        }
    }

    /// A short name that no other case of the file has.
    fn mark(self) -> String {
        match self.named {
            None => self.operation.letter().to_string(),
            named => format!("{}{}", self.operation.letter(), number(named)),
        }
    }

    /// The name of a folder.
    pub fn folder(self) -> String {
        format!("{:?}{}", self.operation, if self.named.is_none() { String::new() } else { number(self.named).to_string() })
    }
}

/// A case of a random file: what its program reads, and what it must print.
pub struct Asked {
    pub number: u64,
    pub kind: Kind,
    pub way: Way,
    /// What the program's first line of this case begins with, or nothing where there is no title.
    pub title: String,
    /// A record of the program's container, or the sheet program's input.
    pub bytes: Vec<u8>,
    pub expected: String,
    pub answers: Vec<String>,
}

/// A state of its own for each file, mixed from the seed and its number (as in SplitMix64), so that any one can be made again alone.
fn random_state(seed: u64, number: u64) -> Random {
    let mixed = |x: u64| {
        let x = x.wrapping_add(0x9E37_79B9_7F4A_7C15);
        let x = (x ^ (x >> 30)).wrapping_mul(0xBF58_476D_1CE4_E5B9);
        let x = (x ^ (x >> 27)).wrapping_mul(0x94D0_49BB_1331_11EB);
        x ^ (x >> 31)
    };
    // Zero is the one state that a xorshift never leaves.
    Random(mixed(mixed(seed).wrapping_add(number)).max(1))
}

/// All cases of the file of a number.
pub fn cases(seed: u64, number: u64) -> Vec<Asked> {
    let r = &mut random_state(seed, number);
    let made = random_file(r);
    let mut maker = Maker { number, made: &made, asked: Vec::new() };
    let list = needs::start_list(r, &made);
    maker.of_files(r, &list);
    maker.of_runs(r, None);
    maker.of_sheets(r, &list);
    maker.of_classes(r);
    maker.of_graphs_by_name(r, &list);
    if made.file.lesson().is_ok() {
        assert_alike(&made.file);
    }
    maker.asked
}

/// The most records that are looked through for one list of step calls, if it has more than four.
const MOST_LOOKUPS: usize = 1000;

/// The most steps of a run that is tried on both graphs.
const MOST_STEPS: u16 = 300;

/// The bytes of the file of a number.
pub fn file_bytes(seed: u64, number: u64) -> Vec<u8> {
    random_file(&mut random_state(seed, number)).file.bytes
}

struct Maker<'a> {
    number: u64,
    made: &'a Made,
    asked: Vec<Asked>,
}

/// The construction that a case names: mostly the deterministic one.
fn a_name(r: &mut Random) -> Named {
    Some(if r.chance(8) { Nondeterministic } else { Deterministic })
}

impl Maker<'_> {
    /// Asks a case of a file that names no construction.
    fn ask(&mut self, operation: Operation, file: &Loaded, case: &impl Case) {
        self.ask_on(operation, None, file, case);
    }

    fn ask_on(&mut self, operation: Operation, named: Named, file: &Loaded, case: &impl Case) {
        let case = on_graph(named, case);
        self.add(Way { operation, named }, case.told(file), |title| case.record(title, &file.bytes));
    }

    fn add(&mut self, way: Way, told: Told, record: impl Fn(&str) -> Vec<u8>) {
        let title = format!("{}{}", self.number, way.mark());
        let bytes = record(&title);
        let expected = format!("{title}: {}\n", told.line);
        self.asked.push(Asked { number: self.number, kind: self.made.kind, way, title, bytes, expected, answers: told.answers });
    }

    fn of_files(&mut self, r: &mut Random, list: &[u8]) {
        let made = self.made;
        self.ask(Operation::Draw, &made.file, &Mode::Sum(needs::arrow_room(r, made)));
        self.ask(Operation::Edges, &made.file, &Mode::Edges);
        self.ask(Operation::Readings, &made.file, &Mode::Readings);
        let input = Loaded::of(&needs::input(r, made, list));
        self.ask(Operation::Input, &input, &Mode::Input);
        self.ask(Operation::Parts, &input, &Mode::Parts);
        self.ask_listing(input.bytes);
    }

    fn ask_listing(&mut self, input: Vec<u8>) {
        let expected = listing(&input);
        let answers = listing_answers(&expected);
        let (title, way) = (String::new(), Way { operation: Operation::Listing, named: None });
        self.asked.push(Asked { number: self.number, kind: self.made.kind, way, title, bytes: input, expected, answers });
    }

    /// The operations on a graph once more, on one that is named.
    fn of_graphs_by_name(&mut self, r: &mut Random, list: &[u8]) {
        let made = self.made;
        self.ask_on(Operation::Draw, a_name(r), &made.file, &Mode::Sum(needs::arrow_room(r, made)));
        self.ask_on(Operation::Edges, a_name(r), &made.file, &Mode::Edges);
        let named = a_name(r);
        self.of_runs(r, named);
        self.of_sheets_by_name(r, list);
    }

    /// A run, and step calls from a fresh run and from any.
    fn of_runs(&mut self, r: &mut Random, named: Named) {
        let made = self.made;
        let memory = needs::any_memory(r, made);
        let budget = needs::budget(r);
        self.ask_on(Operation::Budget, named, &made.file, &runs::on(&memory, &runs::Ask::Budget(budget)));
        if made.file.lesson().is_ok_and(|lesson| lesson.cells == memory.len()) {
            assert_deterministic(&made.file, &memory);
            assert_same_run(&made.file, budget.min(MOST_STEPS), &memory);
        }
        let memory = needs::any_memory(r, made);
        let calls = runs::Ask::Calls(FRESH, needs::calls(r, made, named.unwrap_or(UNNAMED), &memory));
        self.ask_on(Operation::Steps, named, &made.file, &runs::on(&memory, &calls));
        let memory = needs::any_memory(r, made);
        let calls = runs::Ask::Calls(needs::any_run(r, made), needs::any_calls(r, made));
        self.ask_on(Operation::StepsFrom, named, &made.file, &runs::on(&memory, &calls));
    }

    fn of_sheets(&mut self, r: &mut Random, list: &[u8]) {
        let made = self.made;
        let (_, solved) = solved(&made.source, UNNAMED, list);
        let sheet = Chunks::of(&needs::any_sheet(r, made, &solved));
        self.ask(Operation::Judge, &made.file, &Ask::Judge(needs::any_start_list(r, made, list), sheet));
        self.ask(Operation::Mark, &made.file, &marking(&needs::any_sheet(r, made, &solved)));
        let room = needs::sheet_room(r, made, &solved);
        self.ask(Operation::Solve, &made.file, &Ask::Solve(needs::any_start_list(r, made, list), room));
        self.ask(Operation::Split, &made.file, &Ask::Split(needs::places(r, made)));
        self.ask_follow(r, None, list, &solved);
    }

    /// A sheet is judged on the graph that it was solved on, or on the other one.
    fn of_sheets_by_name(&mut self, r: &mut Random, list: &[u8]) {
        let made = self.made;
        let sheets = CONSTRUCTIONS.map(|construction| solved(&made.source, construction, list));
        if sheets[0].0.is_ok() {
            assert_covers(&made.source, list, &sheets[0].1, &sheets[1].1);
        }
        let either = &sheets[r.below(2)].1;
        let sheet = Chunks::of(&needs::any_sheet(r, made, either));
        self.ask_on(Operation::Judge, a_name(r), &made.file, &Ask::Judge(needs::any_start_list(r, made, list), sheet));
        let of = |named: Named| &sheets[named.unwrap_or(UNNAMED) as usize].1;
        let named = a_name(r);
        let room = needs::sheet_room(r, made, of(named));
        self.ask_on(Operation::Solve, named, &made.file, &Ask::Solve(needs::any_start_list(r, made, list), room));
        let named = a_name(r);
        self.ask_follow(r, named, list, of(named));
    }

    /// These have nothing to do with the file.
    fn of_classes(&mut self, r: &mut Random) {
        let list = classes::Ask::List(needs::marks(r));
        self.add(Way { operation: Operation::Marks, named: None }, list.told(), |title| list.record(title));
        let (first, second) = needs::two_totals(r);
        let join = classes::Ask::Join(first, second);
        self.add(Way { operation: Operation::Join, named: None }, join.told(), |title| join.record(title));
    }

    /// The memory is one that the file's script takes, and its record is mostly in the start list.
    fn ask_follow(&mut self, r: &mut Random, named: Named, list: &[u8], solved: &[u8]) {
        let made = self.made;
        let lesson = made.file.lesson().unwrap_or(made.source.fit());
        let memory = needs::memory(r, made, lesson);
        let mut calls = needs::calls(r, made, named.unwrap_or(UNNAMED), &memory);
        // The program looks a configuration up after each call, and in a long sheet that takes long.
        let records = solved.len() / made.source.fit().width(List::Sheet);
        calls.truncate((MOST_LOOKUPS / records.max(1)).clamp(4, 20));
        let mut list = list.to_vec();
        if !r.chance(6) {
            list.extend(record_of(lesson, &memory));
        }
        let list = needs::any_start_list(r, made, &list);
        self.ask_on(Operation::Follow, named, &made.file, &Ask::Follow(list, memory, calls));
        let asked = self.asked.last().unwrap();
        assert!(third_term_holds(&asked.expected), "the third term, file {}: {}", self.number, asked.expected);
    }
}

/// What must hold of any answer to mode 5: where the solver's sheet has the memory's record at node 0 it has every later configuration, and where its mark is clean no call is undefined for 34.
fn third_term_holds(expected: &str) -> bool {
    let mut parts = expected.trim_end().split("; ");
    let is_finished = parts.next().is_some_and(|first| first.contains(": finished with "));
    if !is_finished || parts.next() != Some("has") {
        return true;
    }
    let is_clean = expected.ends_with("; index clean\n");
    !parts.any(|part| part.ends_with(" has not") || is_clean && part.starts_with("undefined 34"))
}

/// What of a listing is counted: a refusal by its number; or which index line it has, and whether it is long.
fn listing_answers(text: &str) -> Vec<String> {
    if let Some(rest) = text.strip_prefix("refused ") {
        return vec![format!("refused {}", rest.split(' ').next().unwrap())];
    }
    let index = if text.ends_with("index clean\n") { "index clean" } else { "index record" };
    // The counts and the index line are two more.
    let length = match text.lines().count() - 2 {
        0..=99 => "short",
        100..=999 => "of a hundred records or more",
        _ => "of a thousand records or more",
    };
    vec![format!("listing, {index}"), format!("listing {length}")]
}

#[cfg(test)]
mod tests {
    use super::*;
    use std::collections::HashSet;

    #[test]
    fn each_file_goes_through_all_operations_and_those_on_graphs_again_by_name() {
        let mut numbers = [0; 3];
        for file in 0..200 {
            let cases = cases(8, file);
            let titles: HashSet<&str> = cases.iter().map(|case| &case.title[..]).collect();
            assert_eq!((cases.len(), titles.len()), (24, 24));
            for Asked { way, title, bytes, .. } in cases.iter().filter(|case| !case.title.is_empty()) {
                numbers[usize::from(number(way.named))] += 1;
                assert_eq!(bytes[0] / 16, number(way.named), "{title}");
                assert!(way.named.is_none() || way.operation.may_name());
            }
        }
        assert!(numbers[0] == 3000 && numbers[1] + numbers[2] == 1600 && numbers[1] > 100 && numbers[2] > 1000, "{numbers:?}");
    }
}
