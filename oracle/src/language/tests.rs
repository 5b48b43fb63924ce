//! Document 01's worked cases, those marked (P) and those to be run; order 7's break and continue; and order 8's deterministic graph.

use super::*;
use crate::making::*;

/// One step of a fresh run: where it ends and the memory, or why it is undefined.
fn stepped(names: &str, text: &str, memory: &[i32]) -> Result<(u16, Vec<i32>), Reason> {
    let (file, mut run, mut memory) = (script_of(names, text).loaded(), FRESH, memory.to_vec());
    match step(&file, Nondeterministic, &mut run, 0, &mut memory) {
        Outcome::Taken => Ok((run.node, memory)),
        Outcome::Undefined(reason) => Err(reason),
        Outcome::Refused(no) => panic!("{}", refused(no)),
    }
}

/// The value of an expression of numbers.
fn value(expression: &str) -> Result<i32, Reason> {
    stepped("x", &format!("x := {expression}"), &[5]).map(|(_, memory)| memory[0])
}

fn asked(script: &Script) -> String {
    read(&script.bytes(), 4).map_or_else(refused, |_| "fit".to_string())
}

#[test]
fn quotients() {
    assert_eq!((value("-7 / 2"), value("7 / -2")), (Ok(-3), Ok(-3)));
    assert_eq!(value("-2147483648 / -1"), Err(36));
    assert_eq!((value("1 / 2"), value("1 / 0"), value("-2147483648 / 0")), (Ok(0), Err(32), Err(32)));
}

#[test]
fn powers() {
    assert_eq!((value("0 ^ 0"), value("2 ^ 30"), value("2 ^ 31")), (Ok(1), Ok(1073741824), Err(36)));
    assert_eq!((value("1 ^ 2147483647"), value("2 ^ -1"), value("-2 ^ 31")), (Ok(1), Err(33), Ok(i32::MIN)));
}

#[test]
fn an_element_in_a_sum() {
    let after = stepped("z x i A4", "z := x + A[i]", &[0, 12, 2, 2, 3, 7, 5]).unwrap().1;
    assert_eq!(after[0], 19);
}

#[test]
fn and_hides_nothing() {
    let memory = [0, 2, 3, 7];
    assert_eq!(stepped("j A3", "if (j > 0) and (A[j - 1] > A[j]) -> skip fi", &memory), Err(34));
    assert_eq!(stepped("j A3", "if (j > 0) && (A[j - 1] > A[j]) -> skip fi", &memory), Err(31));
}

#[test]
fn the_factorial_lesson_is_written_as_its_text() {
    assert_eq!(factorial().bytes(), file_of("x y", "y := 1; do x > 0 -> y := x * y; x := x - 1 od"));
}

#[test]
fn its_five_arrows() {
    let graph = Graph::of(&factorial(), Nondeterministic);
    let arrows: Vec<_> = graph.arrows.iter().map(|a| (a.from, a.to, a.action.kind())).collect();
    assert_eq!((graph.nodes, arrows), (5, vec![(0, 2, 1), (2, 3, 2), (3, 4, 1), (4, 2, 1), (2, 1, 3)]));
}

#[test]
fn its_run() {
    let mut memory = [3, 0];
    let (answer, run) = budgeted(&factorial().loaded(), Nondeterministic, 11, &mut memory);
    assert_eq!((answer.ok(), run.node, run.count, memory), (Some(0), 1, 11, [0, 6]));
}

const EIGHT: [[u8; 4]; 8] = [[0, 0, 4, 2], [0, 2, 4, 4], [0, 3, 4, 4], [0, 4, 4, 4], [0, 2, 1, 4], [0, 2, 2, 4], [0, 1, 1, 4], [0, 1, 2, 4]];

#[test]
fn its_eight_records() {
    let mut buffer = [0; 40];
    let (answer, length) = solve(&factorial().loaded(), Nondeterministic, &[4, 2], &mut buffer);
    assert!(answer.is_ok());
    assert_eq!(buffer[..length], EIGHT.concat());
}

#[test]
fn its_listing() {
    let rows = "0 0 4 2\n1 2 4 4\n2 3 4 4\n3 4 4 4\n4 2 1 4\n5 2 2 4\n6 1 1 4\n7 1 2 4\n";
    let input = [factorial().bytes(), field(5, &[4, 2])].concat();
    assert_eq!(listing(&input), format!("nodes 5 arrows 5 records 8\n{rows}index clean\n"));
}

#[test]
fn its_sheet_without_record_7() {
    let file = factorial().loaded();
    let sheet = EIGHT[..7].concat();
    let verdict = judge(&file, Nondeterministic, &[4, 2], &sheet);
    assert!(matches!(verdict, Ok(Verdict::ResultMissing(5, 4))));
    assert_eq!(offending(&file, &verdict, &[4, 2], &sheet), EIGHT[5]);
    assert!(matches!(judge(&file, Nondeterministic, &[4, 2], &EIGHT.concat()), Ok(Verdict::Accepted(CLEAN))));
}

#[test]
fn a_store_of_sign_zero_at_index_zero() {
    let lesson = Lesson::of(script_of("A3", "A[0] := 0"), Nondeterministic);
    assert_eq!(lesson.results(&lesson.graph.arrows[0], &[4]), [[6], [2]]);
}

#[test]
fn plus_divided_by_plus_may_be_zero() {
    assert_eq!(operate_sets(6, PLUS, PLUS), ZERO | PLUS);
}

#[test]
fn an_if_that_is_stuck() {
    let file = script_of("x", "if x > 0 -> skip fi").loaded();
    let (answer, run) = budgeted(&file, Nondeterministic, 1, &mut [0]);
    assert_eq!((answer.ok(), run.node, run.count), (Some(2), 0, 0));
}

#[test]
fn names_sizes_and_cells_at_their_ends() {
    assert_eq!((asked(&skip_over(&[0; 32])), asked(&skip_over(&[0; 33]))), ("fit".into(), "refused 3 at 0".into()));
    assert_eq!((asked(&skip_over(&[64])), asked(&skip_over(&[65]))), ("fit".into(), "refused 6 at 3".into()));
    let nine = [64, 64, 64, 64, 64, 64, 64, 64, 0];
    assert_eq!((asked(&skip_over(&nine[..8])), asked(&skip_over(&nine))), ("fit".into(), "refused 6 at 19".into()));
}

#[test]
fn a_loop_is_left_where_all_guards_are_false() {
    let file = script_of("x y", "do x > 0 -> skip [] y > 0 -> skip od").loaded();
    let left = |mut memory: [i32; 2]| matches!(step(&file, Nondeterministic, &mut FRESH.clone(), 4, &mut memory), Outcome::Taken);
    assert_eq!((left([1, 0]), left([0, 1]), left([0, 0])), (false, false, true));
}

#[test]
fn a_place_in_a_sheet() {
    let file = factorial().loaded();
    assert_eq!(split(&file, 31).ok(), Some((7, 3)));
    assert_eq!(split(&file, u32::MAX).ok(), Some((1073741823, 3)));
}

/// How many nodes, and the arrows: from, to, action kind and entry.
type Drawn = (u16, Vec<(u16, u16, u8, u16)>);

fn drawn(script: &Script) -> Drawn {
    drawn_on(Nondeterministic, script)
}

fn drawn_on(construction: Construction, script: &Script) -> Drawn {
    let graph = Graph::of(script, construction);
    (graph.nodes, graph.arrows.iter().map(Arrow::written).collect())
}

/// The graph of a text over x and y.
fn arrows(text: &str) -> Drawn {
    drawn(&script_of("x y", text))
}

/// The book's Example 2.25. The three assignments make the nodes 2 to 4, and the do goes from 4 to 1. Its guard makes 5; its body is a sequence with 6 in its
/// middle; the first arm of the if goes from 5 over 7 and 8 to 6, and the second over 9 to 10, where the jump is.
#[test]
fn adding_and_counting_with_a_jump() {
    for (jump, target) in [("break", 1), ("continue", 4), ("skip", 6)] {
        let (nodes, arrows) = drawn(&adding_and_counting(jump));
        let expected = [
            (0, 2, 1, 0),
            (2, 3, 1, 1),
            (3, 4, 1, 2),
            (4, 5, 2, 0),
            (5, 7, 2, 1),
            (7, 8, 1, 3),
            (8, 6, 1, 4),
            (5, 9, 2, 2),
            (9, 10, 1, 7),
            (10, target, 1, 8),
            (6, 4, 1, 13),
            (4, 1, 3, 15),
        ];
        assert_eq!((nodes, &arrows[..]), (11, &expected[..]), "{jump}");
    }
}

/// A break ends the loop at the first element below zero; a continue leaves it out of sum and count; a skip leaves it out of the sum alone.
#[test]
fn its_runs() {
    let elements = [3, 4, -1, 5, 0, -2, 0, 0, 0, 6];
    for (jump, steps, i, x, y) in [("break", 17, 3, 7, 2), ("continue", 52, 10, 18, 8), ("skip", 54, 10, 18, 10)] {
        let mut memory = [&[9, 9, 9], &elements[..]].concat();
        let (answer, run) = budgeted(&adding_and_counting(jump).loaded(), Nondeterministic, 1000, &mut memory);
        assert_eq!((answer.ok(), run.node, run.count, &memory[..3]), (Some(0), 1, steps, &[i, x, y][..]), "{jump}");
        assert_eq!(memory[3..], elements);
    }
}

#[test]
fn a_jump_as_a_whole_body() {
    assert_eq!(arrows("do true -> break od"), (3, vec![(0, 2, 2, 0), (2, 1, 1, 0), (0, 1, 3, 1)]));
    assert_eq!(arrows("do true -> continue od"), (3, vec![(0, 2, 2, 0), (2, 0, 1, 0), (0, 1, 3, 1)]));
    // Between two commands the loop goes from 2 to 3, and its guard's node is 4.
    let (nodes, between) = arrows("skip; do true -> break od; skip");
    assert_eq!((nodes, between), (5, vec![(0, 2, 1, 0), (2, 4, 2, 0), (4, 3, 1, 1), (2, 3, 3, 2), (3, 1, 1, 4)]));
    assert_eq!(arrows("skip; do true -> continue od; skip").1[2], (4, 2, 1, 1));
}

/// The outer loop goes from 0 to 1, the inner one from 2 to 3.
#[test]
fn the_innermost_do_counts() {
    let inner = "do y > 0 -> if y > 1 -> break [] true -> continue fi od";
    let expected = vec![
        (0, 2, 2, 0),
        (2, 4, 2, 1),
        (4, 5, 2, 2),
        (5, 3, 1, 0),
        (4, 6, 2, 3),
        (6, 2, 1, 2),
        (2, 3, 3, 6),
        (3, 7, 2, 4),
        (7, 1, 1, 8),
        (3, 8, 2, 5),
        (8, 0, 1, 10),
        (0, 1, 3, 15),
    ];
    assert_eq!(arrows(&format!("do x > 0 -> {inner}; if x > 1 -> break [] true -> continue fi od")), (9, expected));
    // A loop that is the whole body of another goes from 2 to 0.
    let whole = |jump: &str| arrows(&format!("do true -> do true -> {jump} od od"));
    assert_eq!(whole("break"), (4, vec![(0, 2, 2, 0), (2, 3, 2, 1), (3, 0, 1, 0), (2, 0, 3, 1), (0, 1, 3, 3)]));
    assert_eq!(whole("continue").1[2], (3, 2, 1, 0));
}

#[test]
fn a_jump_in_an_if_in_a_do() {
    let expected = vec![(0, 2, 2, 0), (2, 3, 2, 1), (3, 1, 1, 0), (2, 4, 2, 2), (4, 0, 1, 2), (0, 1, 3, 6)];
    assert_eq!(arrows("do true -> if x > 0 -> break [] true -> continue fi od"), (5, expected));
}

/// The node after the jump is not reached, and stays.
#[test]
fn a_command_after_a_jump() {
    let (nodes, broken) = arrows("do true -> break; x := 1 od");
    assert_eq!((nodes, broken), (4, vec![(0, 2, 2, 0), (2, 1, 1, 0), (3, 0, 1, 1), (0, 1, 3, 3)]));
    let file = script_of("x y", "do true -> break; x := 1 od").loaded();
    let (answer, run) = budgeted(&file, Nondeterministic, 9, &mut [5, 5]);
    assert_eq!((answer.ok(), run.node, run.count), (Some(0), 1, 2));
}

/// The first command's place is 14 where there are one name and no expressions, and 21 where there is one condition.
#[test]
fn a_jump_outside_every_do() {
    let asked = |text: &str| asked(&draft_of("x", text));
    for jump in ["break", "continue"] {
        assert_eq!(asked(jump), "refused 20 at 14");
        assert_eq!(asked(&format!("skip; {jump}")), "refused 20 at 21");
        assert_eq!(asked(&format!("if true -> {jump} fi")), "refused 20 at 21");
        // Entries: jump, guard, do, jump, sequence.
        assert_eq!(asked(&format!("do true -> {jump} od; {jump}")), "refused 20 at 42");
        assert_eq!(asked(&format!("{jump}; do true -> {jump} od")), "refused 20 at 21");
        assert_eq!(asked(&format!("do true -> if true -> {jump} fi od")), "fit");
        assert_eq!(asked(&format!("if true -> do true -> {jump} od fi")), "fit");
    }
}

#[test]
fn the_lowest_of_two_jumps() {
    assert_eq!(asked(&draft_of("x", "break; continue")), "refused 20 at 14");
    assert_eq!(asked(&draft_of("x", "skip; continue; break")), "refused 20 at 21");
    // The lower entry comes later in the script.
    let mut s = Script::new(&[0]);
    let (later, sooner, skip) = (s.jump(CONTINUE), s.jump(BREAK), s.skip());
    let rest = s.then(skip, later);
    s.then(sooner, rest);
    assert_eq!(asked(&s), "refused 20 at 14");
}

#[test]
fn questions_beside_20() {
    // 7, 8 and 9 of a later entry, and 10 of one that is not used, all come before.
    let mut s = draft_of("x", "break; skip");
    for (e, expected) in [(entry(10, 0, 0, 0), 7), (entry(8, 0, 1, 0), 8), (entry(9, 0, 0, 1), 8), (entry(3, 0, 1, 0), 9), (entry(0, 0, 0, 0), 20)] {
        s.tables[COMMANDS][1] = e;
        assert_eq!(asked(&s), format!("refused {expected} at {}", if expected == 20 { 14 } else { 21 }));
    }
    let mut s = draft_of("x", "break");
    s.skip();
    s.skip();
    let (first, last) = (s.place(COMMANDS, 0), s.place(COMMANDS, 1));
    s.then(0, 2);
    assert_eq!((first, asked(&s)), (14, format!("refused 10 at {last}")));
    // 11: true -> break by itself.
    let mut s = Script::new(&[0]);
    let (b, c) = (s.truth(), s.jump(BREAK));
    s.guard(b, c);
    assert_eq!(asked(&s), "refused 11 at 28");
    // 12 comes after.
    let file = draft_of("x", "break").loaded();
    assert!(matches!(budgeted(&file, Nondeterministic, 9, &mut []).0, Err(No(20, 14))));
    assert!(matches!(step(&file, Nondeterministic, &mut FRESH.clone(), 0, &mut []), Outcome::Refused(No(20, 14))));
}

/// The sheet program asks 20 before 17, and after 1 to 5 of the fifth field.
#[test]
fn an_input_with_a_loose_jump() {
    let input = |list: &[u8]| [draft_of("x", "continue").bytes(), field(5, list)].concat();
    assert_eq!(listing(&input(&[4])), "refused 20 at 14\n");
    assert_eq!(listing(&input(&[3])), "refused 20 at 14\n");
    assert_eq!(listing(&[input(&[4]), vec![0]].concat()), "refused 5 at 25\n");
}

/// A break acts as skip on signs too: the record at its node is one of its results at the loop's last node.
#[test]
fn a_sheet_past_a_break() {
    let file = script_of("x", "do x > 0 -> x := x - 1; break od").loaded();
    let mut buffer = [0; 40];
    let (answer, length) = solve(&file, Nondeterministic, &[4], &mut buffer);
    assert!(answer.is_ok());
    let expected = [[0, 0, 4], [0, 2, 4], [0, 3, 1], [0, 3, 2], [0, 3, 4], [0, 1, 1], [0, 1, 2], [0, 1, 4]];
    assert_eq!(buffer[..length], expected.concat());
    assert!(matches!(judge(&file, Nondeterministic, &[4], &buffer[..length]), Ok(Verdict::Accepted(CLEAN))));
    assert!(matches!(judge(&file, Nondeterministic, &[4], &buffer[..length - 3]), Ok(Verdict::ResultMissing(4, 2))));
}

/// The third term, on random lessons and both graphs: the solver's sheet has each configuration, and where it is clean no arrow on the way meets an index below zero.
#[test]
fn the_third_term() {
    let mut r = Random(2026);
    for k in 0..600 {
        let construction = CONSTRUCTIONS[k % 2];
        let Following { file, initial, mut memory, calls } = random_following(&mut r, construction, k);
        let (lesson, mut buffer, mut run) = (file.fit_on(construction), vec![0; 140_000], FRESH);
        let (answer, length) = solve(&file, construction, &initial, &mut buffer);
        if answer.is_err() {
            continue;
        }
        let sheet = &buffer[..length];
        let (listed, mark) = (lesson.listed(sheet), lesson.mark(sheet));
        for arrow in calls {
            let outcome = step(&file, construction, &mut run, arrow, &mut memory);
            assert!(mark != CLEAN || !matches!(outcome, Outcome::Undefined(INDEX_BELOW_ZERO)));
            assert!(listed.contains(&at_node(run.node, &record_of(lesson, &memory))[..]));
        }
    }
}

/// The deterministic graph of a text over x and y.
fn deterministic(text: &str) -> Drawn {
    drawn_on(Deterministic, &script_of("x y", text))
}

/// The earlier guards of each guard of a deterministic graph, in arrow order: boolean entries, which are numbered as the text has them.
fn earlier(script: &Script) -> Vec<Vec<u16>> {
    let arrows = Graph::of(script, Deterministic).arrows;
    arrows.into_iter().filter_map(|arrow| if let Action::Guard { earlier, .. } = arrow.action { Some(earlier) } else { None }).collect()
}

fn earlier_of(text: &str) -> Vec<Vec<u16>> {
    earlier(&script_of("x y", text))
}

/// Its one guard is the first of its loop, and of kind 4 all the same, with entry 4, the guarded command. What it does is unchanged.
#[test]
fn the_factorials_deterministic_graph() {
    let expected = vec![(0, 2, 1, 0), (2, 3, 4, 4), (3, 4, 1, 1), (4, 2, 1, 2), (2, 1, 3, 4)];
    assert_eq!(drawn_on(Deterministic, &factorial()), (5, expected));
    let (file, mut memory, mut buffer) = (factorial().loaded(), [3, 0], [0; 40]);
    let (answer, run) = budgeted(&file, Deterministic, 11, &mut memory);
    assert_eq!((answer.ok(), run.node, run.count, memory), (Some(0), 1, 11, [0, 6]));
    let (answer, length) = solve(&file, Deterministic, &[4, 2], &mut buffer);
    assert!(answer.is_ok());
    assert_eq!(buffer[..length], EIGHT.concat());
    assert!(matches!(judge(&file, Deterministic, &[4, 2], &EIGHT[..7].concat()), Ok(Verdict::ResultMissing(5, 4))));
}

/// Document 002's example: of three guards that overlap, all arrows are defined for 12, and on the deterministic graph the first alone.
#[test]
fn ten_five_or_zero() {
    let text = "if x >= 10 -> y := 10 [] x >= 5 -> y := 5 [] x >= 0 -> y := 0 fi";
    assert_eq!(arrows(text).1, [(0, 2, 2, 0), (2, 1, 1, 0), (0, 3, 2, 1), (3, 1, 1, 2), (0, 4, 2, 2), (4, 1, 1, 5)]);
    assert_eq!(deterministic(text), (5, vec![(0, 2, 4, 1), (2, 1, 1, 0), (0, 3, 4, 3), (3, 1, 1, 2), (0, 4, 4, 6), (4, 1, 1, 5)]));
    assert_eq!(earlier_of(text), [vec![], vec![0], vec![0, 1]]);
    let file = script_of("x y", text).loaded();
    let defined = |construction, x| [0, 2, 4].map(|arrow| matches!(step(&file, construction, &mut FRESH.clone(), arrow, &mut [x, 9]), Outcome::Taken));
    for (x, old, new) in [
        (12, [true, true, true], [true, false, false]),
        (10, [true, true, true], [true, false, false]),
        (9, [false, true, true], [false, true, false]),
        (4, [false, false, true], [false, false, true]),
        (-1, [false, false, false], [false, false, false]),
    ] {
        assert_eq!((defined(Nondeterministic, x), defined(Deterministic, x)), (old, new), "{x}");
    }
}

/// "Earlier in the same if or do": to the left in its choices, however they are nested and numbered. The body of a guard begins with none.
#[test]
fn earlier_guards() {
    assert_eq!(earlier_of("if x > 0 -> skip [] { x > 1 -> skip [] x > 2 -> skip } fi"), [vec![], vec![0], vec![0, 1]]);
    let halves = "do { x > 0 -> skip [] x > 1 -> skip } [] { x > 2 -> skip [] x > 3 -> skip } od";
    assert_eq!(earlier_of(halves), [vec![], vec![0], vec![0, 1], vec![0, 1, 2]]);
    // The outer guards are 0 and 3; arrow order is that of the text.
    assert_eq!(earlier_of("if x > 0 -> if y > 0 -> skip [] y > 1 -> skip fi [] x > 1 -> skip fi"), [vec![], vec![], vec![1], vec![0]]);
    assert_eq!(earlier_of("do x > 0 -> do y > 0 -> skip [] y > 1 -> skip od [] x > 1 -> skip od"), [vec![], vec![], vec![1], vec![0]]);
    assert_eq!(earlier_of("if x > 0 -> skip [] x > 1 -> skip fi; do y > 0 -> skip [] y > 1 -> skip od"), [vec![], vec![0], vec![], vec![2]]);
    // The later entries come first in the text.
    let mut s = Script::new(&[0]);
    let g: Vec<u16> = (0..3).map(|_| s.true_skip()).collect();
    let both = s.choice(g[1], g[0]);
    let all = s.choice(g[2], both);
    s.if_fi(all);
    assert_eq!(earlier(&s), [vec![], vec![2], vec![2, 1]]);
    let guards: Vec<_> = drawn_on(Deterministic, &s).1.into_iter().filter(|arrow| arrow.2 == 4).collect();
    assert_eq!(guards, [(0, 2, 4, g[2]), (0, 3, 4, g[1]), (0, 4, 4, g[0])]);
}

/// Every arrow of loops in one another, with jumps: kind 4 where document 01's graph has kind 2, and exits as they are.
#[test]
fn a_deterministic_graph_with_loops_and_jumps() {
    let text = "do x > 0 -> if y > 0 -> break [] true -> continue fi [] y > 0 -> do x > 1 -> skip od od";
    let expected =
        vec![(0, 2, 4, 6), (2, 3, 4, 1), (3, 1, 1, 0), (2, 4, 4, 3), (4, 0, 1, 2), (0, 5, 4, 10), (5, 6, 4, 8), (6, 5, 1, 7), (5, 0, 3, 8), (0, 1, 3, 11)];
    assert_eq!(deterministic(text), (7, expected));
    assert_eq!(earlier_of(text), [vec![], vec![], vec![1], vec![0], vec![]]);
}

/// A guard that is true, false or undefined, for two reasons, over x, which is 1, and A of 4.
const GUARDS: [(&str, Result<bool, Reason>); 4] = [("x > 0", Ok(true)), ("0 > x", Ok(false)), ("A[-1] = 0", Err(34)), ("x / 0 = 0", Err(32))];

/// Each arrow out of node 0 of an if with some guards, on a graph: none where it is taken, else the reason.
fn reasons(construction: Construction, guards: &[usize]) -> Vec<Option<Reason>> {
    let arms: Vec<String> = guards.iter().map(|&g| format!("{} -> skip", GUARDS[g].0)).collect();
    let file = script_of("x A4", &format!("if {} fi", arms.join(" [] "))).loaded();
    let ask = |k: usize| match step(&file, construction, &mut FRESH.clone(), 2 * k as u16, &mut [1, 0, 0, 0, 0]) {
        Outcome::Taken => None,
        Outcome::Undefined(reason) => Some(reason),
        Outcome::Refused(no) => panic!("{}", refused(no)),
    };
    (0..guards.len()).map(ask).collect()
}

#[test]
fn all_earlier_guards_are_worked_out() {
    let (t, f, below, zero) = (0, 1, 2, 3);
    for (guards, expected) in [
        (vec![t, t], vec![None, Some(31)]),
        (vec![f, t], vec![Some(31), None]),
        (vec![t, f], vec![None, Some(31)]),
        // A later guard that is undefined gives its reason, although an earlier one is true; and an earlier one's comes first.
        (vec![t, below], vec![None, Some(34)]),
        (vec![below, t], vec![Some(34), Some(34)]),
        (vec![f, below, t], vec![Some(31), Some(34), Some(34)]),
        (vec![below, zero], vec![Some(34), Some(34)]),
        (vec![zero, below], vec![Some(32), Some(32)]),
        (vec![t, zero, below, t], vec![None, Some(32), Some(32), Some(32)]),
        (vec![t, t, f, zero], vec![None, Some(31), Some(31), Some(32)]),
        (vec![f, f, f, t], vec![Some(31), Some(31), Some(31), None]),
    ] {
        assert_eq!(reasons(Deterministic, &guards), expected, "{guards:?}");
        let alone: Vec<Option<Reason>> = guards.iter().map(|&g| GUARDS[g].1.map_or_else(Some, |holds| if holds { None } else { Some(31) })).collect();
        assert_eq!(reasons(Nondeterministic, &guards), alone, "{guards:?}");
    }
}

/// A run whose first guard is undefined goes on by the second on document 01's graph, and is stuck on the other.
#[test]
fn a_run_past_an_undefined_guard() {
    let file = script_of("x", "if 1 / x > 0 -> x := 1 [] true -> x := 2 fi").loaded();
    for (construction, x, expected) in
        [(Nondeterministic, 0, (2, 1, 2)), (Deterministic, 0, (0, 0, 0)), (Nondeterministic, 1, (1, 1, 2)), (Deterministic, -1, (2, 1, 2))]
    {
        let mut memory = [x];
        let (_, run) = budgeted(&file, construction, 9, &mut memory);
        assert_eq!((memory[0], run.node, run.count), expected, "{construction:?} from {x}");
    }
}

/// On signs: the second guard may hold only where the first may fail, and has no answer where that has none.
#[test]
fn sheets_on_both_graphs() {
    let sheet = |construction, text: &str, start: &[u8]| {
        let mut buffer = [0; 60];
        let (answer, length) = solve(&script_of("x A4", text).loaded(), construction, start, &mut buffer);
        assert!(answer.is_ok());
        buffer[..length].chunks(4).map(|record| (record[1], record[2])).collect::<Vec<_>>()
    };
    let text = "if x > 0 -> skip [] true -> x := 0 fi";
    assert_eq!(sheet(Nondeterministic, text, &[4, 7]), [(0, 4), (2, 4), (3, 4), (1, 4), (1, 2)]);
    assert_eq!(sheet(Deterministic, text, &[4, 7]), [(0, 4), (2, 4), (1, 4)]);
    assert_eq!(sheet(Deterministic, text, &[1, 7]), [(0, 1), (3, 1), (1, 2)]);
    // May hold and may fail.
    let text = "if x > 1 -> skip [] true -> x := 0 fi";
    assert_eq!(sheet(Deterministic, text, &[4, 7]), [(0, 4), (2, 4), (3, 4), (1, 4), (1, 2)]);
    let text = "if A[-1] > 0 -> skip [] true -> x := 0 fi";
    assert_eq!(sheet(Nondeterministic, text, &[4, 7]), [(0, 4), (3, 4), (1, 2)]);
    assert_eq!(sheet(Deterministic, text, &[4, 7]), [(0, 4)]);
    // Accepted on the one graph, and not on the other.
    let file = script_of("x", "if x > 0 -> skip [] true -> x := 0 fi").loaded();
    let sheet = [0, 0, 4, 0, 2, 4, 0, 1, 4];
    assert!(matches!(judge(&file, Deterministic, &[4], &sheet), Ok(Verdict::Accepted(CLEAN))));
    assert!(matches!(judge(&file, Nondeterministic, &[4], &sheet), Ok(Verdict::ResultMissing(0, 2))));
}

/// A guard's action holds the index expressions of the earlier guards too. The lowest arrow with one stays the same.
#[test]
fn indices_of_earlier_guards() {
    let file = script_of("x y A4", "if A[x] > 0 -> skip [] y > 0 -> skip [] A[y] > 0 -> skip fi").loaded();
    let counts = |construction| {
        let lesson = file.fit_on(construction);
        [0, 2, 4].map(|k| lesson.indices(&lesson.graph.arrows[k]).len())
    };
    assert_eq!((counts(Nondeterministic), counts(Deterministic)), ([1, 0, 1], [1, 1, 2]));
    let below = |construction, record: &[u8]| {
        let lesson = file.fit_on(construction);
        [0, 2, 4].map(|k| lesson.may_be_below_zero(&lesson.graph.arrows[k], record))
    };
    assert_eq!((below(Nondeterministic, &[1, 4, 7]), below(Deterministic, &[1, 4, 7])), ([true, false, false], [true, true, true]));
    assert_eq!((below(Nondeterministic, &[4, 1, 7]), below(Deterministic, &[4, 1, 7])), ([false, false, true], [false, false, true]));
    for (record, mark) in [([0, 0, 1, 4, 7], Some((0, 0))), ([0, 0, 4, 1, 7], Some((0, 4))), ([0, 0, 4, 4, 7], CLEAN)] {
        assert_eq!(index_mark(&file, &record).ok().unwrap(), mark);
    }
}

/// What must hold of both graphs, of random scripts in random memories.
#[test]
fn both_graphs_of_random_scripts() {
    let mut r = Random(2027);
    for k in 0..1500 {
        let file = random_lesson(&mut r, k);
        assert_alike(&file);
        for _ in 0..4 {
            let memory = random_memory(&mut r, file.fit().cells);
            assert_deterministic(&file, &memory);
            assert_same_run(&file, 300, &memory);
        }
    }
}
