//! What must hold of a script's two graphs, asserted of random scripts: a test of the oracle itself.

use super::*;

/// "Nodes, arrow order and numbers are unchanged; action kind 4 with the guarded entry marks every guard's arrow." The earlier guards are found in another way: they are
/// the conditions of the lower arrows out of the same node, for no two ifs or dos begin at one node.
pub fn assert_alike(file: &Loaded) {
    let [old, new] = CONSTRUCTIONS.map(|construction| &file.fit_on(construction).graph);
    assert_eq!((old.nodes, old.arrows.len()), (new.nodes, new.arrows.len()));
    for (k, (before, after)) in old.arrows.iter().zip(&new.arrows).enumerate() {
        assert_eq!((before.from, before.to), (after.from, after.to));
        match (&before.action, &after.action) {
            (Action::Condition(b), Action::Guard { guarded, earlier, own }) => {
                let lower = old.arrows[..k].iter().filter(|arrow| arrow.from == before.from);
                let conditions: Vec<u16> = lower.map(|arrow| arrow.action.entry()).collect();
                assert_eq!((b, earlier), (own, &conditions));
                let e = file.fit().command(*guarded);
                assert_eq!((e.kind, e.operands[0]), (6, *own));
            }
            (Action::Command(_) | Action::Exit(_), _) => assert_eq!(before.action, after.action),
            _ => panic!("arrow {k}"),
        }
    }
}

/// "In it at most one arrow is defined at any node in any memory": asked at each node. What is defined is so on document 01's graph too, with the same effect.
pub fn assert_deterministic(file: &Loaded, memory: &[i32]) {
    let [old, new] = CONSTRUCTIONS.map(|construction| file.fit_on(construction));
    for node in 0..new.graph.nodes {
        let defined: Vec<usize> = new.leaving(node).filter(|(_, arrow)| new.effect(arrow, memory).is_ok()).map(|(k, _)| k).collect();
        assert!(defined.len() <= 1, "node {node}: {defined:?}");
        for k in defined {
            assert_eq!(new.effect(&new.graph.arrows[k], memory), old.effect(&old.graph.arrows[k], memory));
        }
    }
}

/// A run on the deterministic graph takes the arrows that a run on document 01's takes, for those are the lowest defined: until it is stuck, it is the same run.
pub fn assert_same_run(file: &Loaded, budget: u16, memory: &[i32]) {
    let [mut before, mut after] = [memory.to_vec(), memory.to_vec()];
    let (new_answer, new) = budgeted(file, Deterministic, budget, &mut after);
    let budget = if new_answer.is_ok_and(|answer| answer == 2) { new.count } else { budget };
    let (_, old) = budgeted(file, Nondeterministic, budget, &mut before);
    assert_eq!((old.node, old.count, before), (new.node, new.count, after));
}

/// A sheet that is finished on document 01's graph is accepted on the deterministic one, and has all that is listed there.
pub fn assert_covers(file: &Loaded, initial: &[u8], old: &[u8], new: &[u8]) {
    assert!(matches!(judge(file, Deterministic, initial, old), Ok(Verdict::Accepted(_))));
    let lesson = file.fit();
    assert!(lesson.listed(new).is_subset(&lesson.listed(old)));
}
