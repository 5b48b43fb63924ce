//! The limits of files and graphs.

use super::*;

pub fn limits(out: &mut Out) {
    out.group("limit");
    out.known("empty input", &[], &Mode::Edges, "refused 1 at 0");
    names_and_cells(out);
    tables(out);
    longest_graphs(out);
}

fn names_and_cells(out: &mut Out) {
    for count in [1, 31, 32, 33, 64] {
        out.put(&format!("{count} names"), &skip_over(&vec![0; count]).bytes(), &Mode::Edges);
        out.put(&format!("{count} names, read"), &skip_over(&vec![0; count]).bytes(), &Mode::Readings);
    }
    for size in [0, 1, 63, 64, 65, 66, 255, 256, 65535] {
        out.put(&format!("size {size}"), &skip_over(&[size]).bytes(), &Mode::Readings);
        out.put(&format!("size {size}, second"), &skip_over(&[3, size, 0]).bytes(), &Mode::Readings);
    }
    let eight = [64u16; 8];
    out.known("512 cells, eight arrays", &skip_over(&eight).bytes(), &Mode::Edges, "nodes 2 arrows 1");
    let nine: Vec<u16> = eight.iter().copied().chain([0]).collect();
    out.known("513 cells, a variable last", &skip_over(&nine).bytes(), &Mode::Edges, "refused 6 at 19");
    let nine: Vec<u16> = [0].into_iter().chain(eight).collect();
    out.known("513 cells, a variable first", &skip_over(&nine).bytes(), &Mode::Edges, "refused 6 at 19");
    let nine: Vec<u16> = eight.iter().copied().chain([1]).collect();
    out.known("513 cells, an array of one last", &skip_over(&nine).bytes(), &Mode::Edges, "refused 6 at 19");
    let mut sixteen = vec![16u16; 32];
    out.known("512 cells, 32 arrays of 16", &skip_over(&sixteen).bytes(), &Mode::Edges, "nodes 2 arrows 1");
    out.put("512 cells, 32 arrays of 16, read", &skip_over(&sixteen).bytes(), &Mode::Readings);
    sixteen[31] = 17;
    out.known("513 cells, 32 arrays", &skip_over(&sixteen).bytes(), &Mode::Edges, "refused 6 at 65");
    out.put("512 cells, variables and arrays", &skip_over(&full_names()).bytes(), &Mode::Readings);
    out.known("2048 cells", &skip_over(&[64; 32]).bytes(), &Mode::Edges, "refused 6 at 19");
}

/// Tables of as many entries as can be, and one more.
fn tables(out: &mut Out) {
    let names = [0, 9];
    for count in [0, 1, 2, 511, 512] {
        let s = exact(&names, count, 0, 1);
        out.put(&format!("{count} arithmetic entries"), &s.bytes(), &Mode::Edges);
    }
    out.known("513 arithmetic entries", &exact(&names, 513, 0, 1).bytes(), &Mode::Edges, "refused 3 at 7");
    for count in [1, 2, 255, 256] {
        out.put(&format!("{count} boolean entries"), &exact(&names, 0, count, 3).bytes(), &Mode::Edges);
    }
    out.known("257 boolean entries", &exact(&names, 0, 257, 3).bytes(), &Mode::Edges, "refused 3 at 10");
    out.known("0 commands", &Script::new(&names).bytes(), &Mode::Edges, "refused 3 at 13");
    for count in [1, 255, 257] {
        out.put(&format!("{count} commands in sequence"), &exact(&names, 0, 0, count).bytes(), &Mode::Sum(2000));
    }
    out.put("256 commands", &exact(&names, 0, 2, 256).bytes(), &Mode::Sum(2000));
    let largest = exact(&full_names(), 512, 256, 256);
    assert_eq!(largest.bytes().len(), 7244);
    out.put("largest file", &largest.bytes(), &Mode::Sum(2000));
    out.put("largest file, read", &largest.bytes(), &Mode::Readings);
    let mut longer = largest.bytes();
    longer.push(0);
    out.known("largest file and a byte", &longer, &Mode::Edges, "refused 5 at 7244");
}

/// 129 nodes, 255 arrows.
fn longest_graphs(out: &mut Out) {
    for (shape, word) in [(0, "left"), (1, "right"), (2, "in halves")] {
        let s = sequence(128, shape);
        out.known(&format!("129 nodes, 128 skips nested {word}"), &s.bytes(), &Mode::Edges, "nodes 129 arrows 128");
    }
    out.known("255 edges, 127 loops", &loops(127).bytes(), &Mode::Edges, "nodes 129 arrows 255");
    out.known("255 edges, room for them", &loops(127).bytes(), &Mode::Sum(1785), "nodes 129 arrows 255");
    out.put("126 loops", &loops(126).bytes(), &Mode::Edges);
    let mut s = loops(126);
    let c = s.tables[2].len() as u16 - 1;
    let d = s.skip();
    s.then(c, d);
    out.put("126 loops, then a skip", &s.bytes(), &Mode::Edges);
    // Loops one after another: 64 of them, with 63 sequences, are 255 entries.
    let mut s = Script::new(&[0]);
    let mut c = None;
    for _ in 0..64 {
        let g = s.true_skip();
        let d = s.do_od(g);
        c = Some(match c {
            None => d,
            Some(c) => s.then(c, d),
        });
    }
    out.put("64 loops in sequence", &s.bytes(), &Mode::Edges);
    // One loop with as many arms as fit: 3 n entries with its choices.
    let mut s = Script::new(&[0]);
    let g: Vec<u16> = (0..85).map(|_| s.true_skip()).collect();
    let c = g[1..].iter().fold(g[0], |p, &q| s.choice(p, q));
    s.do_od(c);
    out.put("a loop of 85 arms", &s.bytes(), &Mode::Edges);
}
