//! The inputs of the sheet program, and what it must print of each. Listings that are short enough have been worked out by hand, and stand beside their inputs.

use crate::language::*;
use crate::making::*;
use std::path::Path;
use std::{fs, io};

/// The factorial lesson goes to `sheet`, all other inputs to `sheet_inputs`.
pub fn store(sheet: &Path, sheet_inputs: &Path) -> io::Result<()> {
    let lesson = input(&factorial(), &[4, 2]);
    assert_eq!(listing(&lesson), FACTORIAL);
    fs::write(sheet.join("stdin"), lesson)?;
    fs::write(sheet.join("stdout"), FACTORIAL)?;

    let mut inputs = Inputs(Vec::new());
    fields_refused(&mut inputs);
    entries_refused(&mut inputs);
    records_refused(&mut inputs);
    no_room(&mut inputs);
    listed(&mut inputs);
    jumping(&mut inputs);
    marked(&mut inputs);
    many(&mut inputs);
    largest(&mut inputs);
    inputs.write(sheet_inputs)
}

/// Document 01's listing.
const FACTORIAL: &str = "nodes 5 arrows 5 records 8
0 0 4 2
1 2 4 4
2 3 4 4
3 4 4 4
4 2 1 4
5 2 2 4
6 1 1 4
7 1 2 4
index clean
";

/// Inputs by their names.
struct Inputs(Vec<(String, Vec<u8>)>);

impl Inputs {
    /// An input, of whose listing the first line and the last are known.
    fn put(&mut self, name: &str, input: &[u8], first: &str, last: &str) {
        let text = listing(input);
        assert_eq!((text.lines().next(), text.lines().last()), (Some(first), Some(last)), "{name}");
        self.0.push((name.to_string(), input.to_vec()));
    }

    /// An input, of which all that is printed has been worked out by hand.
    fn known(&mut self, name: &str, input: &[u8], printed: &str) {
        assert_eq!(listing(input), printed, "{name}");
        self.0.push((name.to_string(), input.to_vec()));
    }

    fn refused(&mut self, name: &str, input: &[u8], number: u32, place: usize) {
        self.known(&format!("refused-{number:02}-{name}"), input, &format!("refused {number} at {place}\n"));
    }

    /// A file for each input; the names in order, a line each; and of each in turn its name and what is printed of it.
    fn write(&self, folder: &Path) -> io::Result<()> {
        let data = folder.join("data");
        if data.exists() {
            fs::remove_dir_all(&data)?;
        }
        fs::create_dir_all(&data)?;
        let (mut arguments, mut text, mut size) = (String::new(), String::new(), 0);
        for (name, input) in &self.0 {
            fs::write(data.join(format!("{name}.in")), input)?;
            arguments += &format!("{name}.in\n");
            text += &format!("{name}.in:\n{}", listing(input));
            size += input.len();
        }
        fs::write(folder.join("args"), arguments)?;
        fs::write(folder.join("stdout"), &text)?;
        println!("{}: {} inputs of {size} bytes, {} bytes printed", folder.display(), self.0.len(), text.len());
        Ok(())
    }
}

/// A script and a start list as five fields.
fn input(script: &Script, list: &[u8]) -> Vec<u8> {
    [script.bytes(), field(5, list)].concat()
}

/// Questions 1 to 5: each in the fifth field, and of inputs that are too short or too long for any.
fn fields_refused(inputs: &mut Inputs) {
    let lesson = factorial();
    let whole = input(&lesson, &[4, 2]);
    // 7 bytes of names, 66 of arithmetic, 10 of boolean and 52 of command entries: the fifth head is at 135.
    assert_eq!(lesson.head(5), 135);
    inputs.refused("empty", &[], 1, 0);
    inputs.refused("no-second-field", &whole[..7], 1, 7);
    inputs.refused("no-fifth-field", &whole[..135], 1, 135);
    inputs.refused("two-bytes-of-fifth-head", &whole[..137], 1, 135);
    inputs.refused("fifth-tag", &[lesson.bytes(), field(6, &[4, 2])].concat(), 2, 135);
    inputs.refused("half-a-record", &input(&lesson, &[4, 2, 4]), 3, 135);
    inputs.refused("513-records", &input(&lesson, &[4, 2].repeat(513)), 3, 135);
    inputs.refused("33-names", &input(&skips(&[0; 33], 1), &[4; 33]), 3, 0);
    inputs.refused("list-cut", &whole[..139], 4, 135);
    inputs.refused("commands-cut", &whole[..134], 4, 83);
    inputs.refused("a-byte-more", &[whole.clone(), vec![5]].concat(), 5, 140);
    // Longer than any fit input, and than the program's array.
    inputs.refused("long", &[whole, vec![0; 33_000]].concat(), 5, 140);
    inputs.refused("long", &[0; 33_000], 2, 0);
    // The largest fit input has 23,631 bytes, and the program's array 9,137 more.
    let largest = largest_input();
    assert_eq!(largest.len(), 23_631);
    inputs.refused("largest-and-a-byte", &[largest.clone(), vec![0]].concat(), 5, 23_631);
    inputs.refused("largest-and-long", &[largest.clone(), vec![0; 9_137]].concat(), 5, 23_631);
    inputs.refused("largest-and-longer", &[largest.clone(), vec![0; 9_138]].concat(), 5, 23_631);
    inputs.refused("largest-without-a-byte", &largest[..23_630], 4, 7244);
}

/// The largest fit input: all tables full, and 512 records of 32 names, 20 variables and 12 arrays.
fn largest_input() -> Vec<u8> {
    let list = [vec![4; 20], vec![7; 12]].concat().repeat(512);
    input(&exact(&full_names(), 512, 256, 256), &list)
}

/// Questions 6 to 11 and 20, which come after 5 of the fifth field: one entry of the lesson is another.
fn entries_refused(inputs: &mut Inputs) {
    let lesson = factorial();
    let mut names = lesson.clone();
    names.names[1] = 65;
    inputs.refused("size-65", &input(&names, &[4, 2]), 6, 5);
    inputs.refused("513-cells", &input(&skips(&[64, 64, 64, 64, 64, 64, 64, 64, 0], 1), &[]), 6, 19);
    // The arithmetic entries begin at 10, the boolean ones at 76, the command ones at 86; an entry has seven bytes.
    let changed = |t: usize, i: usize, e: Entry| input(&with_entry(&lesson, t, i, e), &[4, 2]);
    inputs.refused("kind-8", &changed(0, 1, entry(8, 0, 0, 0)), 7, 17);
    inputs.refused("kind-10-of-the-last-command", &changed(2, 6, entry(10, 0, 0, 0)), 7, 128);
    inputs.refused("variable-2-of-2", &changed(0, 1, entry(1, 2, 0, 0)), 8, 17);
    inputs.refused("an-array-that-is-none", &changed(2, 0, entry(2, 1, 0, 0)), 8, 86);
    inputs.refused("entry-that-is-not-there", &changed(1, 0, entry(2, 1, 9, 0)), 9, 76);
    inputs.refused("itself", &changed(2, 6, entry(3, 0, 6, 0)), 9, 128);
    inputs.refused("used-twice-and-never", &changed(1, 0, entry(2, 1, 1, 0)), 10, 17);
    // A break in place of the last sequence: all other commands are left unused, which is asked about before 20.
    inputs.refused("a-break-last", &changed(2, 6, entry(BREAK, 0, 0, 0)), 10, 86);
    inputs.refused("a-command-never-used", &changed(2, 6, entry(0, 0, 0, 0)), 10, 86);
    // true -> skip by itself.
    let mut guarded = Script::new(&[0, 0]);
    guarded.true_skip();
    inputs.refused("guarded-last", &input(&guarded, &[4, 2]), 11, 30);
    // A wrong byte of the list is asked about last.
    inputs.refused("guarded-last-and-a-wrong-record", &input(&guarded, &[4, 3]), 11, 30);
    jumps_refused(inputs);
}

/// Question 20. The first command is at 16, with a condition at 23.
fn jumps_refused(inputs: &mut Inputs) {
    let loose = |text: &str| draft_of("x y", text);
    inputs.refused("break", &input(&loose("break"), &[4, 2]), 20, 16);
    inputs.refused("continue-in-an-if", &input(&loose("if true -> continue fi"), &[4, 2]), 20, 23);
    inputs.refused("break-after-a-loop", &input(&loose("do true -> break od; break"), &[4, 2]), 20, 44);
    inputs.refused("the-lower-of-two", &input(&loose("skip; continue; break"), &[4, 2]), 20, 23);
    // A wrong byte of the list, and a list that there is no room for, are asked about later.
    inputs.refused("break-and-a-wrong-record", &input(&loose("break"), &[4, 3]), 20, 16);
    let mut wide = sequence(46, 1);
    wide.names = vec![1; 32];
    wide.tables[COMMANDS][0].kind = BREAK;
    inputs.refused("break-and-no-room", &input(&wide, &records(32, 42)), 20, wide.place(COMMANDS, 0));
    // true -> break by itself: a guarded command last is asked about sooner.
    let mut guarded = Script::new(&[0, 0]);
    let (b, c) = (guarded.truth(), guarded.jump(BREAK));
    guarded.guard(b, c);
    inputs.refused("guarded-last-and-a-break", &input(&guarded, &[4, 2]), 11, 30);
}

/// Question 17: its place counts from the start list's first byte.
fn records_refused(inputs: &mut Inputs) {
    let lesson = factorial();
    inputs.refused("variable-of-two-signs", &input(&lesson, &[4, 2, 4, 3]), 17, 3);
    inputs.refused("variable-of-no-sign", &input(&lesson, &[0, 2]), 17, 0);
    inputs.refused("the-first-of-two", &input(&lesson, &[4, 2, 9, 2, 4, 0]), 17, 2);
    let array = script_of("x A4", "skip");
    inputs.refused("array-of-set-8", &input(&array, &[4, 7, 1, 8]), 17, 3);
    inputs.refused("array-of-no-sign", &input(&array, &[4, 7, 1, 0]), 17, 3);
    let last = [[4, 2].repeat(511), vec![4, 7]].concat();
    inputs.refused("the-last-of-512-records", &input(&lesson, &last), 17, 1023);
    let wide = [vec![4; 512 * 32 - 1], vec![5]].concat();
    inputs.refused("the-last-of-512-records-of-32-names", &input(&skips(&[0; 32], 1), &wide), 17, 16_383);
    inputs.refused("the-first-of-32-names", &input(&skips(&[0; 32], 1), &[vec![4; 32], vec![0; 32]].concat()), 17, 32);
}

/// So many skips in sequence: each record is listed once at each node on the way, which are one more than the skips.
fn skips(names: &[u16], count: usize) -> Script {
    let mut s = sequence(count, 1);
    s.names = names.to_vec();
    s
}

/// The same after a guard that no record passes whose last array is below zero: one that doesn't is listed once.
fn guarded_skips(names: &[u16], count: usize) -> Script {
    let mut s = Script::new(names);
    let zero = s.number(0);
    let (element, other) = (s.element(names.len() as u16 - 1, zero), s.number(0));
    let test = s.compare(3, element, other);
    let inside = s.skip();
    let guard = s.guard(test, inside);
    let first = s.if_fi(guard);
    (0..count).fold(first, |before, _| {
        let skip = s.skip();
        s.then(before, skip)
    });
    s
}

/// So many different records of arrays, the last of which may be zero.
fn records(names: usize, count: usize) -> Vec<u8> {
    let sets = |k: usize| {
        let first = 2 + k % 6;
        let others = (1..names as u32).map(move |place| 1 + k / 6 / 7usize.pow((place - 1).min(5)) % 7);
        others.rev().chain([first]).map(|set| set as u8).collect::<Vec<u8>>()
    };
    (0..count).flat_map(sets).collect()
}

/// `a := x - x; b := x - x; ..` for `count` names after x: as x is plus, the records of each node are three times those of the node before.
fn threefold(count: usize, others: usize) -> Vec<u8> {
    let mut s = Script::new(&vec![0; 1 + count + others]);
    let mut whole = None;
    for name in 1..=count as u16 {
        let (left, right) = (s.variable(0), s.variable(0));
        let value = s.operator(4, left, right);
        let one = s.assign(name, value);
        whole = Some(match whole {
            None => one,
            Some(before) => s.then(before, one),
        });
    }
    let list = vec![4; 1 + count + others];
    input(&s, &list)
}

/// Question 18: a list has room for 4,096 records, or as many as 65,536 bytes hold.
fn no_room(inputs: &mut Inputs) {
    // 1 + 3 + .. + 3^8 = 9,841 records of 11 bytes: more than 4,096.
    inputs.refused("9841-records", &threefold(8, 0), 18, 0);
    // 1 + 3 + .. + 3^7 = 3,280 records of 34 bytes: more than the 1,927 that the buffer holds.
    inputs.refused("3280-records-of-32-names", &threefold(7, 24), 18, 0);
    // 42 start records, of which 41 are also listed at 46 nodes more, and one, whose last array is below zero, is not.
    let stuck = [vec![7; 31], vec![1]].concat();
    let list = [records(32, 41), stuck].concat();
    inputs.refused("1928-records-of-32-names", &input(&guarded_skips(&[1; 32], 44), &list), 18, 0);
    // The same of two names, 33 start records, 32 of them at 127 nodes more.
    let list = [records(2, 32), vec![7, 1]].concat();
    inputs.refused("4097-records", &input(&guarded_skips(&[1; 2], 125), &list), 18, 0);
}

/// Listings that are short enough to be worked out by hand.
fn listed(inputs: &mut Inputs) {
    // No start record: nothing is found.
    inputs.known("listing-of-nothing", &input(&factorial(), &[]), "nodes 5 arrows 5 records 0\nindex clean\n");
    inputs.known("listing-of-the-smallest", &input(&script_of("x", "skip"), &[2]), "nodes 2 arrows 1 records 2\n0 0 2\n1 1 2\nindex clean\n");
    // The same start record twice is listed once.
    inputs.known("repeated-start-record", &input(&script_of("x", "skip"), &[2, 2, 1]), "nodes 2 arrows 1 records 4\n0 0 2\n1 0 1\n2 1 2\n3 1 1\nindex clean\n");
    // Nothing gets past a guard that is false.
    inputs.known("listing-of-the-stuck", &input(&script_of("x", "if x > 0 -> skip fi"), &[2]), "nodes 3 arrows 2 records 1\n0 0 2\nindex clean\n");
    // A store of sign zero into the set 4: 6, then 2.
    inputs.known("listing-of-a-store", &input(&script_of("A3", "A[0] := 0"), &[4]), "nodes 2 arrows 1 records 3\n0 0 4\n1 1 6\n2 1 2\nindex clean\n");
}

/// What is listed of the book's Example 2.25 where i, x and y are zero and A has elements below and above zero: node, then signs of i, x, y and A. Its jump's
/// arrow is from 10, where the first has x and y still zero.
const WITH_BREAK: &str = "0 2 2 2 5; 2 2 2 2 5; 3 2 2 2 5; 4 2 2 2 5; 5 2 2 2 5; 7 2 2 2 5; 9 2 2 2 5; 8 2 1 2 5; 8 2 4 2 5; 10 4 2 2 5; \
    6 4 1 2 5; 6 4 4 2 5; 1 4 2 2 5; 4 4 1 4 5; 4 4 4 4 5; 5 4 1 4 5; 1 4 1 4 5; 5 4 4 4 5; 1 4 4 4 5; 7 4 1 4 5; \
    9 4 1 4 5; 7 4 4 4 5; 9 4 4 4 5; 8 4 1 4 5; 8 4 2 4 5; 8 4 4 4 5; 10 4 1 4 5; 10 4 4 4 5; 6 4 1 4 5; 6 4 2 4 5; \
    6 4 4 4 5; 4 4 2 4 5; 5 4 2 4 5; 1 4 2 4 5; 7 4 2 4 5; 9 4 2 4 5; 10 4 2 4 5";

const WITH_CONTINUE: &str = "0 2 2 2 5; 2 2 2 2 5; 3 2 2 2 5; 4 2 2 2 5; 5 2 2 2 5; 7 2 2 2 5; 9 2 2 2 5; 8 2 1 2 5; 8 2 4 2 5; 10 4 2 2 5; \
    6 4 1 2 5; 6 4 4 2 5; 4 4 2 2 5; 4 4 1 4 5; 4 4 4 4 5; 5 4 2 2 5; 1 4 2 2 5; 5 4 1 4 5; 1 4 1 4 5; 5 4 4 4 5; \
    1 4 4 4 5; 7 4 2 2 5; 9 4 2 2 5; 7 4 1 4 5; 9 4 1 4 5; 7 4 4 4 5; 9 4 4 4 5; 8 4 1 2 5; 8 4 4 2 5; 8 4 1 4 5; \
    8 4 2 4 5; 8 4 4 4 5; 10 4 1 4 5; 10 4 4 4 5; 6 4 1 4 5; 6 4 2 4 5; 6 4 4 4 5; 4 4 2 4 5; 5 4 2 4 5; 1 4 2 4 5; \
    7 4 2 4 5; 9 4 2 4 5; 10 4 2 4 5";

/// The same lesson with a break and with a continue: a break takes the records of node 10 to node 1, a continue takes them to node 4.
fn jumping(inputs: &mut Inputs) {
    for (jump, count, records) in [("break", 37, WITH_BREAK), ("continue", 43, WITH_CONTINUE)] {
        let rows: String = records.split("; ").enumerate().map(|(i, record)| format!("{i} {record}\n")).collect();
        let printed = format!("nodes 11 arrows 12 records {count}\n{rows}index clean\n");
        inputs.known(&format!("listing-with-{jump}"), &input(&adding_and_counting(jump), &[2, 2, 2, 5]), &printed);
    }
    // Loops in a loop: 0 to 2 x > 0; 2 to 4 y > 0; 4 to 3 the break; 2 to 3 the inner exit; 3 to 0 x := x - 1; 0 to 1 the exit.
    let nested = script_of("x y", "do x > 0 -> do y > 0 -> break od; x := x - 1 od");
    let rows = "0 0 4 4\n1 2 4 4\n2 4 4 4\n3 3 4 4\n4 0 1 4\n5 0 2 4\n6 1 1 4\n7 1 2 4\n";
    inputs.known("listing-with-break-in-two-loops", &input(&nested, &[4, 4]), &format!("nodes 5 arrows 6 records 8\n{rows}index clean\n"));
}

/// Index lines that name a record and an arrow.
fn marked(inputs: &mut Inputs) {
    // The index is minus at the start, so that no result follows and the mark names record 0.
    inputs.known("index-record-0", &input(&script_of("i A4", "i := A[i]"), &[1, 4]), "nodes 2 arrows 1 records 1\n0 0 1 4\nindex record 0 arrow 0\n");
    // Arrows: 0 to 2 i := i - 1; 2 to 3 i >= 0; 3 to 1 the store; 2 to 4 true; 4 to 1 i := A[i]. Plus less plus is any sign; the store of plus into the set
    // 2 gives 6 and 4. Only arrow 4 can meet an index below zero, first at record 4.
    let walk = script_of("i A4", "i := i - 1 ; if i >= 0 -> A[i] := 1 [] true -> i := A[i] fi");
    let rows = "0 0 4 2\n1 2 1 2\n2 2 2 2\n3 2 4 2\n4 4 1 2\n5 3 2 2\n6 4 2 2\n7 3 4 2\n8 4 4 2\n9 1 2 6\n10 1 2 4\n11 1 2 2\n12 1 4 6\n13 1 4 4\n";
    inputs.known("index-record-4", &input(&walk, &[4, 2]), &format!("nodes 5 arrows 5 records 14\n{rows}index record 4 arrow 4\n"));
    // A sort's inner loop: at j plus the guard's index j - 1 may be below zero. Arrows: 0 to 2 the guard; 2 to 3 the store; 3 to 0 j := j - 1; 0 to 1 the exit.
    let sort = script_of("j A4", "do j > 0 && A[j - 1] > A[j] -> A[j] := A[j - 1]; j := j - 1 od");
    let rows = "0 0 4 4\n1 2 4 4\n2 1 4 4\n3 3 4 4\n4 0 1 4\n5 0 2 4\n6 1 1 4\n7 1 2 4\n";
    inputs.known("index-of-a-sort", &input(&sort, &[4, 4]), &format!("nodes 4 arrows 4 records 8\n{rows}index record 0 arrow 0\n"));
    // 85 arms make two arrows each, of which only the last arm's guard has an index.
    let arms: Vec<String> = (0..85).map(|k| format!("{} > 0 -> skip", if k == 84 { "A[x]" } else { "x" })).collect();
    let loops = script_of("x A4", &format!("do {} od", arms.join(" [] ")));
    inputs.known("index-arrow-168", &input(&loops, &[1, 7]), "nodes 87 arrows 171 records 1\n0 0 1 7\nindex record 0 arrow 168\n");
    // The index stands in the last arrow, and the last of ten start records is the only one that has minus there: 120 skips before.
    let late = script_of("A4 B4", &format!("{}; A[0] := A[B[0]]", vec!["skip"; 120].join("; ")));
    let list: Vec<u8> = [(1..=9).flat_map(|k| [1 + k % 7, 2 + 2 * (k % 3)]).collect(), vec![7, 7]].concat();
    let (first, last) = (counts(&late, &list), "index record 1209 arrow 120");
    inputs.put("index-record-1209-arrow-120", &input(&late, &list), &first, last);
    // Without it the sheet is clean.
    let late = script_of("A4 B4", &format!("{}; A[0] := A[B[0]]", vec!["skip"; 20].join("; ")));
    inputs.put("index-clean-of-many", &input(&late, &list[..18]), &counts(&late, &list[..18]), "index clean");
    // 4,096 records: 32 at each of 125 skips' nodes, then at the guard's two nodes and at the end. The second of the 32 is the first with a minus in B.
    let guard = "if A[B[0]] >= A[B[0]] -> skip fi";
    let late = script_of("A4 B4", &format!("{}; {guard}", vec!["skip"; 125].join("; ")));
    let (first, last) = ("nodes 128 arrows 127 records 4096", "index record 4001 arrow 125");
    inputs.put("index-record-4001-arrow-125", &input(&late, &records(2, 32)), first, last);
}

/// The counts of a sheet whose last records are not counted by hand.
fn counts(script: &Script, list: &[u8]) -> String {
    let (file, mut buffer) = (script.loaded(), vec![0; 65536]);
    let (lesson, length) = (file.fit(), solve(&file, Nondeterministic, list, &mut buffer).1);
    format!("nodes {} arrows {} records {}", lesson.graph.nodes, lesson.graph.arrows.len(), length / lesson.width(List::Sheet))
}

/// Listings of many records. Each skip lists all records again at its node.
fn many(inputs: &mut Inputs) {
    let counts = |nodes: usize, records: usize| format!("nodes {nodes} arrows {} records {records}", nodes - 1);
    let clean = "index clean";
    inputs.put("listing-of-100", &input(&skips(&[4, 4], 9), &records(2, 10)), &counts(10, 100), clean);
    inputs.put("listing-of-1000", &input(&skips(&[4, 4], 24), &records(2, 40)), &counts(25, 1000), clean);
    // One array has seven records at each of 129 nodes: the most of width 3.
    inputs.put("listing-of-903-of-one-name", &input(&skips(&[4], 128), &[1, 2, 3, 4, 5, 6, 7]), &counts(129, 903), clean);
    inputs.put("listing-of-364", &threefold(5, 0), &counts(6, 364), clean);
    // Exactly 4,096 records, of two names and of four: there is room for no more.
    inputs.put("listing-of-4096", &input(&skips(&[1, 1], 127), &records(2, 32)), &counts(128, 4096), clean);
    inputs.put("listing-of-4096-from-512", &input(&skips(&[1; 4], 7), &records(4, 512)), &counts(8, 4096), clean);
    // 1,927 records of 34 bytes are 65,518 bytes: 18 are left.
    inputs.put("listing-of-1927-of-32-names", &input(&skips(&[1; 32], 46), &records(32, 41)), &counts(47, 1927), clean);
}

/// The largest fit input is answered. 127 guards make a node each, and 127 arrows; 125 loops have an exit each; an assignment and a skip are the leaves: 129 nodes
/// and 254 arrows. The outermost guard, 129 negations of true, is false, so the start record, which the list has 512 times, leaves the loop at once, and
/// neither arrow out of node 0 holds an index.
fn largest(inputs: &mut Inputs) {
    let signs = format!("{}{}", " 4".repeat(20), " 7".repeat(12));
    inputs.known("listing-of-the-largest", &largest_input(), &format!("nodes 129 arrows 254 records 2\n0 0{signs}\n1 1{signs}\nindex clean\n"));
}
