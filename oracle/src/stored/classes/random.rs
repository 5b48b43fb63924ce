//! Lists and joins from a fixed seed.

use super::joins::joined;
use super::*;

/// From one mark to hundreds, most often few.
fn length(r: &mut Random, k: usize) -> usize {
    1 + r.below([6, 12, 40, 100, 300][k % 5])
}

pub fn lists(out: &mut Out) {
    let mut r = Random(20_260_217_001);
    out.group("random list");
    for k in 0..400 {
        let count = if k % 50 == 49 { 1 + r.below(MOST_MARKS) } else { length(&mut r, k) };
        let marks = random_marks(&mut r, count);
        let title = format!("{k}, of {count}");
        if r.chance(5) {
            let mut spoiled = marks.clone();
            spoil_marks(&mut r, &mut spoiled);
            let place = (0..count).find(|&place| spoiled[place] != marks[place]).unwrap();
            known(out, &title, &Ask::List(spoiled), &outside(place));
        } else {
            by_differences(out, &title, &marks);
        }
    }
}

/// Two lists' totals, and the totals that are replied of them with a third list's.
pub fn joins(out: &mut Out) {
    let mut r = Random(20_260_217_002);
    out.group("random join");
    for k in 0..150 {
        let [first, second, third] = [0, 1, 2].map(|_| {
            let count = if k % 10 == 9 { r.below(1400) } else { length(&mut r, k) };
            random_marks(&mut r, count)
        });
        joined(out, &format!("{k}"), &first, &second);
        joined(out, &format!("{k}, joined again"), &[first, second].concat(), &third);
    }
}

pub fn damaged(out: &mut Out) {
    let mut r = Random(20_260_217_003);
    out.group("random damage");
    for k in 0..500 {
        let mut totals = [0, 1].map(|_| {
            let count = length(&mut r, k);
            Totals::of(&random_marks(&mut r, count))
        });
        for _ in 0..1 + r.below(2) {
            damage_totals(&mut r, &mut totals[k % 2]);
        }
        put(out, &k.to_string(), &Ask::Join(totals[0], totals[1]));
    }
}
