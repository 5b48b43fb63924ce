//! The third term, tried.

use super::*;

/// How much of the third term was tried.
#[derive(Default)]
struct Trials {
    lists: usize,
    calls: usize,
    clean: usize,
    /// Of these, with an index expression that is asked about.
    clean_indexed: usize,
    clean_calls: usize,
    /// Undefined for 34 where the mark is not clean.
    below_zero: usize,
    unfinished: usize,
    longest: usize,
}

/// "A sheet has a memory's record at a node": asked before the first call and after each, of the solver's sheet on a graph. And where the mark is clean, no call and no other
/// arrow out of the run's node meets an index below zero.
fn tried(trials: &mut Trials, construction: Construction, following: &Following) -> bool {
    let Following { file, initial, memory, calls } = following;
    let lesson = file.fit_on(construction);
    let (answer, sheet) = solved(file, construction, initial);
    if answer.is_err() {
        trials.unfinished += 1;
        return false;
    }
    let listed = lesson.listed(&sheet);
    let is_clean = lesson.mark(&sheet) == CLEAN;
    let (mut run, mut memory) = (FRESH, memory.clone());
    let ask_has = |run: Run, memory: &[i32]| assert!(listed.contains(&at_node(run.node, &record_of(lesson, memory))[..]));
    ask_has(run, &memory);
    for &arrow in calls {
        // Every arrow out of the node is tried as well, on a copy.
        for (other, _) in lesson.leaving(run.node) {
            let outcome = step(file, construction, &mut run.clone(), other as u16, &mut memory.clone());
            assert!(!(is_clean && matches!(outcome, Outcome::Undefined(INDEX_BELOW_ZERO))));
        }
        if let Outcome::Undefined(INDEX_BELOW_ZERO) = step(file, construction, &mut run, arrow, &mut memory) {
            assert!(!is_clean);
            trials.below_zero += 1;
        }
        ask_has(run, &memory);
    }
    trials.lists += 1;
    trials.calls += calls.len();
    trials.clean += usize::from(is_clean);
    trials.clean_indexed += usize::from(is_clean && is_indexed(lesson, &sheet));
    trials.longest = trials.longest.max(sheet.len() / lesson.width(List::Sheet));
    trials.clean_calls += if is_clean { calls.len() } else { 0 };
    true
}

/// Whether some arrow out of a node of a sheet holds an index expression.
fn is_indexed(lesson: &Lesson, sheet: &[u8]) -> bool {
    let mut records = sheet.chunks(lesson.width(List::Sheet));
    records.any(|record| lesson.leaving(word(record, 0)).any(|(_, arrow)| !lesson.indices(arrow).is_empty()))
}

pub fn third_term(out: &mut Out) {
    out.group("third term");
    let file = factorial().bytes();
    let calls = [0, 4, 1, 2, 3, 1, 2, 9, 3, 1, 2, 3, 4, 0];
    out.known(
        "factorial",
        &file,
        &Ask::Follow(Chunks::of(&[4, 2]), vec![3, 0], calls.to_vec()),
        "finished with 8; has; taken has; undefined 31 has; taken has; taken has; taken has; taken has; taken has; refused 15 at 0 has; taken has; taken has; taken has; taken has; taken has; refused 15 at 0 has; index clean",
    );
    // From a memory whose record is not in the start list, the sheet need not have it.
    out.known(
        "factorial from another",
        &file,
        &Ask::Follow(Chunks::of(&[4, 2]), vec![0, 5], vec![0, 4]),
        "finished with 8; has not; taken has; taken has; index clean",
    );
    out.known(
        "factorial from nothing",
        &file,
        &Ask::Follow(Chunks::of(&[]), vec![3, 0], vec![0, 1, 2]),
        "finished with 0; has not; taken has not; taken has not; taken has not; index clean",
    );
    out.known("no call", &file, &Ask::Follow(Chunks::of(&[1, 1]), vec![-1, -2147483648], vec![]), "finished with 3; has; index clean");
    let below = file_of("j A3", "if j > 0 and A[j - 1] > A[j] -> skip fi");
    out.known(
        "an index below zero",
        &below,
        &Ask::Follow(Chunks::of(&[2, 4]), vec![0, 2, 3, 7], vec![0, 0]),
        "finished with 1; has; undefined 34 has; undefined 34 has; index record 0 arrow 0",
    );
    through_jumps(out);
    let mut r = Random(20_260_301_003);
    let (mut trials, mut written, mut k) = (Trials::default(), 0, 0);
    while written < 260 {
        let following = random_following(&mut r, Nondeterministic, k);
        k += 1;
        let is_short = following.file.bytes.len() <= 1500;
        if is_short && tried(&mut trials, Nondeterministic, &following) {
            let Following { file, initial, memory, calls } = following;
            out.put(&k.to_string(), &file.bytes, &Ask::Follow(Chunks::of(&initial), memory, calls));
            written += 1;
        }
    }
    println!("third term, written: {}", trials.said());
    // Many more that are not written.
    let mut trials = Trials::default();
    for k in 0..6000 {
        tried(&mut trials, Nondeterministic, &random_following(&mut r, Nondeterministic, k));
    }
    println!("third term, not written: {}", trials.said());
}

/// The same on graphs by name, mostly the deterministic one, of lessons whose guards overlap or are undefined.
pub fn by_name(out: &mut Out) {
    out.group("third term by name");
    let mut r = Random(20_260_601_004);
    let graph = |k: usize| if k.is_multiple_of(8) { Nondeterministic } else { Deterministic };
    let random = |r: &mut Random, k: usize| {
        let file = random_choice_script(r).loaded();
        following(r, graph(k), file)
    };
    let (mut trials, mut written, mut k) = (Trials::default(), 0, 0);
    while written < 120 {
        k += 1;
        let following = random(&mut r, k);
        let is_short = following.file.bytes.len() <= 1000;
        if is_short && tried(&mut trials, graph(k), &following) {
            let Following { file, initial, memory, calls } = following;
            let ask = Ask::Follow(Chunks::of(&initial), memory, calls);
            out.put(&format!("{k}, {:?}", graph(k)), &file.bytes, &answers::by_name(graph(k), &ask));
            written += 1;
        }
    }
    println!("third term by name, written: {}", trials.said());
    let mut trials = Trials::default();
    for k in 0..3000 {
        let following = random(&mut r, k);
        tried(&mut trials, graph(k), &following);
    }
    println!("third term by name, not written: {}", trials.said());
}

/// All elements are below zero: the book's Example 2.25 meets its jump, arrow 9, in the first round.
fn through_jumps(out: &mut Out) {
    let memory = [vec![0; 3], vec![-1; 10]].concat();
    let list = || Chunks::of(&[2, 2, 2, 1]);
    let follow = |out: &mut Out, jump: &str, calls: &[u16], expected: &str| {
        out.known(&format!("adding and counting, {jump}"), &adding_and_counting(jump).bytes(), &Ask::Follow(list(), memory.clone(), calls.to_vec()), expected);
    };
    let taken = |times: usize| "taken has; ".repeat(times);
    let expected = format!("finished with 8; has; {}undefined 31 has; {}refused 15 at 0 has; index clean", taken(4), taken(3));
    follow(out, "break", &[0, 1, 2, 3, 4, 7, 8, 9, 3], &expected);
    let expected = format!("finished with 11; has; {}undefined 31 has; index clean", taken(11));
    follow(out, "continue", &[0, 1, 2, 3, 7, 8, 9, 3, 7, 8, 9, 11], &expected);
    let no = "refused 20 at 14";
    out.known(
        "a loose jump",
        &draft_of("x", "break").bytes(),
        &Ask::Follow(Chunks::of(&[4]), vec![2], vec![0]),
        &format!("{no} with 0; has not; {no} has not; {no}"),
    );
}

impl Trials {
    fn said(&self) -> String {
        format!(
            "{} lists, {} configurations, {} marks clean ({} of sheets with an index) with {} calls, {} calls undefined for 34 under other marks, {} sheets not finished, the longest of {} records",
            self.lists,
            self.lists + self.calls,
            self.clean,
            self.clean_indexed,
            self.clean_calls,
            self.below_zero,
            self.unfinished,
            self.longest
        )
    }
}
