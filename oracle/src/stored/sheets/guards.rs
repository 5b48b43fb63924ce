//! Every list of one to three guards with each of the truth answers, on each graph.

use super::operators::CONDITIONS;
use super::*;

pub fn guards(out: &mut Out) {
    out.group("guards");
    let mut lists: Vec<Vec<usize>> = vec![Vec::new()];
    for _ in 0..3 {
        lists = lists.iter().flat_map(|list| (0..4).map(move |k| [list.clone(), vec![k]].concat())).collect();
        for list in &lists {
            for construction in CONSTRUCTIONS {
                solved_in(out, construction, list, "if", "left");
                solved_in(out, construction, list, "do", "left");
            }
            if list.len() == 3 {
                solved_in(out, Deterministic, list, "do", "right");
            }
            judged_on_both(out, list);
        }
    }
}

/// Which guards have a result on a graph: those that may be true, and on the deterministic graph only where each earlier one may be false.
fn reached(construction: Construction, list: &[usize]) -> Vec<usize> {
    let answers: Vec<&str> = list.iter().map(|&k| CONDITIONS[k].1).collect();
    let is_reached = |k: &usize| answers[*k].contains('T') && (construction == Nondeterministic || answers[..*k].iter().all(|guard| guard.contains('F')));
    (0..list.len()).filter(is_reached).collect()
}

fn file(list: &[usize], word: &str, shape: &str) -> Vec<u8> {
    let arms: Vec<String> = list.iter().map(|&k| format!("{} -> skip", CONDITIONS[k].0)).collect();
    let joined = if shape == "right" { format!("{} [] {{ {} [] {} }}", arms[0], arms[1], arms[2]) } else { arms.join(" [] ") };
    file_of("x A4", &format!("{word} {joined} {}", if word == "if" { "fi" } else { "od" }))
}

/// The answers of each guard, or a dash.
fn title(list: &[usize]) -> String {
    list.iter().map(|&k| if CONDITIONS[k].1.is_empty() { "-" } else { CONDITIONS[k].1 }).collect::<Vec<_>>().join(" ")
}

/// The sheet of an if or a do from x plus: the start, the guards' nodes, and the end, by an arm of the if or by the exit of the do.
fn sheet(construction: Construction, list: &[usize], word: &str) -> Vec<u8> {
    let reached = reached(construction, list);
    let ends = if word == "if" { !reached.is_empty() } else { list.iter().all(|&k| CONDITIONS[k].1.contains('F')) };
    let nodes = [0].into_iter().chain(reached.iter().map(|&k| k as u16 + 2)).chain(ends.then_some(1));
    nodes.flat_map(|node| at_node(node, &[PLUS, 7])).collect()
}

fn solved_in(out: &mut Out, construction: Construction, list: &[usize], word: &str, shape: &str) {
    // The arrow of the first guard with an index comes before all others that have it.
    let mark = list.iter().position(|&k| k == 3).map(|k| (0, 2 * k));
    let title = format!("{} {word}, nested {shape}", title(list));
    finishes_on(out, construction, &title, &file(list, word, shape), &[PLUS, 7], &sheet(construction, list, word), mark);
}

/// The sheet of each graph judged on the other one. On document 01's the first guard that is not reached on the deterministic one lacks its result.
fn judged_on_both(out: &mut Out, list: &[usize]) {
    let [old, new] = CONSTRUCTIONS.map(|construction| sheet(construction, list, "if"));
    let accepted = format!("accepted {}; offending", told_mark(list.iter().position(|&k| k == 3).map(|k| (0, 2 * k))));
    let file = file(list, "if", "left");
    known_on(out, Deterministic, &format!("{} if, document 01's sheet judged", title(list)), &file, &judging(&[PLUS, 7], &old), &accepted);
    let listed = reached(Deterministic, list);
    let expected = match reached(Nondeterministic, list).iter().find(|k| !listed.contains(k)) {
        Some(k) => format!("42 record 0 arrow {}; offending 0 0 4 7", 2 * k),
        None => accepted,
    };
    known_on(out, Nondeterministic, &format!("{} if, the deterministic sheet judged", title(list)), &file, &judging(&[PLUS, 7], &new), &expected);
}
