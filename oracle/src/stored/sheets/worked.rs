//! What document 01 works out about sheets, and its near misses.

use super::*;

/// What document 01 works out about sheets, and its near misses.
pub fn worked(out: &mut Out) {
    out.group("worked");
    let file = factorial().bytes();
    finishes(out, "factorial", &file, &[4, 2], &sheet_of(FACTORIAL), CLEAN);
    out.put("factorial, 65536 bytes", &file, &solving(&[4, 2], 65536));
    judges(out, "factorial", &file, "4 2", FACTORIAL, "accepted index clean; offending");
    let without = [
        "41 record 0; offending 4 2",
        "42 record 0 arrow 0; offending 0 0 4 2",
        "42 record 1 arrow 1; offending 0 2 4 4",
        "42 record 2 arrow 2; offending 0 3 4 4",
        "42 record 3 arrow 3; offending 0 4 4 4",
        "42 record 3 arrow 3; offending 0 4 4 4",
        "42 record 4 arrow 4; offending 0 2 1 4",
        "42 record 5 arrow 4; offending 0 2 2 4",
    ];
    for (k, expected) in without.iter().enumerate() {
        let mut records: Vec<&str> = FACTORIAL.split("; ").collect();
        records.remove(k);
        judges(out, &format!("factorial without record {k}"), &file, "4 2", &records.join("; "), expected);
    }
    solves(out, "A3", "A[0] := 0", "4", "0 4; 1 6; 1 2", CLEAN);
    // Leaving a loop when one guard is false rather than all.
    let both = "do x > 0 -> skip [] y > 0 -> skip od";
    solves(out, "x y", both, "4 1", "0 4 1; 2 4 1", CLEAN);
    solves(out, "x y", both, "1 4", "0 1 4; 3 1 4", CLEAN);
    solves(out, "x y", both, "1 1", "0 1 1; 1 1 1", CLEAN);
    // Treating ∧ as &&: without an answer on the right, ∧ has none, and && is false where the left is.
    solves(out, "x A4", "if !(x > 0 and A[-1] > 0) -> skip fi", "1 7", "0 1 7", Some((0, 0)));
    solves(out, "x A4", "if !(x > 0 && A[-1] > 0) -> skip fi", "1 7", "0 1 7; 2 1 7; 1 1 7", Some((0, 0)));
    // Letting a store replace the array's set, or never drop a sign.
    solves(out, "A3", "A[0] := 1", "1", "0 1; 1 5; 1 4", CLEAN);
    solves(out, "A3", "A[0] := 1", "4", "0 4; 1 4", CLEAN);
    solves(out, "A3", "A[0] := -1", "7", "0 7; 1 7; 1 5; 1 3", CLEAN);
    // Plus divided by plus as plus only: 1 / 2 is 0.
    solves(out, "x y", "x := x / y", "4 4", "0 4 4; 1 2 4; 1 4 4", CLEAN);
    let skip = |names: &[u16]| skip_over(names).bytes();
    let many = |names: &[u16]| [at_node(0, &vec![2; names.len()]), at_node(1, &vec![2; names.len()])].concat();
    for (title, names) in [("32 names", vec![0; 32]), ("size 64", vec![64]), ("512 cells", vec![64; 8])] {
        finishes(out, title, &skip(&names), &vec![2; names.len()], &many(&names), CLEAN);
    }
    for (title, names, no) in [
        ("33 names", vec![0; 33], "refused 3 at 0"),
        ("size 65", vec![65], "refused 6 at 3"),
        ("513 cells", vec![64, 64, 64, 64, 64, 64, 64, 64, 0], "refused 6 at 19"),
    ] {
        refuses(out, title, &skip(&names), &vec![2; names.len()], &many(&names), no);
    }
}
