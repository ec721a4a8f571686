//! Cases with a list that two groups share (document 02, C-20) with answers worked
//! out by hand: list texts of form 2 for either group, what the other group's lines
//! are to a check, a move and a writing. Location 7 is a register of group 1,
//! location 9 one of group 2, and location 11 one of both in most of them.

use crate::cases::{filled, matching, raw, text, trace, Known, List, Triple, ALL, DONE};
use crate::forms::{coded, KnownMove, KnownWriting, Moves, Writings, CODED, PLENTY};
use crate::lists::{list, KnownList};
use crate::peer::{Form, ListFor, Word, MAX_LIST, NO_LOCATIONS};

const GROUPS: &str = "regs\t2\n";

/// The list of most cases.
const SHARED: &str = "reg 1 7; reg 1 11; reg 2 9; reg 2 11";

/// A list of form 2 for a group.
fn shared(lines: &str, group: Word) -> ListFor {
    ListFor { text: text(GROUPS, lines), group }
}

struct Texts {
    known: Vec<KnownList>,
}

impl Texts {
    /// What a text lists for groups 1 and 2; no other group has a line.
    fn good(&mut self, name: &str, text: Vec<u8>, groups: [&[usize]; 2]) {
        for (group, locations) in (1..).zip(groups).chain([(0, &[][..]), (3, &[]), (Word::MAX, &[])]) {
            let mut listed = NO_LOCATIONS;
            locations.iter().for_each(|&location| listed[location] = true);
            let list = ListFor { text: text.clone(), group };
            self.known.push(KnownList { name: format!("{name}, group {group}"), list, answer: DONE, listed });
        }
    }

    /// A text that is refused to every group.
    fn bad(&mut self, name: &str, text: Vec<u8>, number: u32, place: u32) {
        for group in [1, 2, 3] {
            let list = ListFor { text: text.clone(), group };
            self.known.push(KnownList { name: format!("{name}, group {group}"), list, answer: (number, 4, place), listed: NO_LOCATIONS });
        }
    }
}

/// Lines for so many registers of a group, each three above the one before.
fn many(group: Word, registers: usize) -> String {
    (0..registers).map(|register| format!("reg {group} {};", 3 * register)).collect()
}

fn good_texts(texts: &mut Texts) {
    let mut good = |name: &str, lines: &str, groups: [&[usize]; 2]| texts.good(name, text(GROUPS, lines), groups);
    good("header alone", "", [&[], &[]]);
    good("one group", "reg 1 0; reg 1 255", [&[0, 255], &[]]);
    good("the other group", "reg 2 0; reg 2 255", [&[], &[0, 255]]);
    good("both groups", SHARED, [&[7, 11], &[9, 11]]);
    good("one location for both", "reg 1 7; reg 2 7", [&[7], &[7]]);
    good("from last to first", "reg 1 255; reg 2 0", [&[255], &[0]]);
    good("numbers ascend, not texts", "reg 1 2; reg 1 10; reg 1 100; reg 2 9; reg 2 11", [&[2, 10, 100], &[9, 11]]);
    let all: Vec<usize> = (0..32).map(|register| 3 * register).collect();
    good("32 registers each", &(many(1, 32) + &many(2, 32)), [&all, &all]);
    good("32 registers of group 2", &many(2, 32), [&[], &all]);
    texts.good("form 1 is group 1's", list("reg 7; reg 9"), [&[7, 9], &[]]);
    texts.good("form 1, header alone", list(""), [&[], &[]]);
}

fn bad_lines(texts: &mut Texts) {
    for head in ["regs\t2", "regs\t02\n", "regs\t2\t\n", "regs\t2\r\n", "regs 2\n", "Regs\t2\n", "regs\t3\n", "regs\t12\n", "\nregs\t2\n"] {
        texts.bad(&format!("first line {}", head.escape_debug()), raw(head, b""), 2, 1);
    }
    for line in [
        "", "reg", "reg\t", "reg\t7", "reg\t1", "reg\t1\t", "reg\t0\t7", "reg\t3\t7", "reg\t12\t7", "reg\t01\t7", "reg\t1\t07", "reg\t1\t256", "reg\t2\t256", "reg\t1\t7\t", "reg\t1\t7\t8",
        "reg\t7\t1", "reg\t-1\t7", "reg\t1 7", "reg 1\t7", "reg\t1\t7\r", "Reg\t1\t7", "regs\t1\t7", "reg\t\t7", "reg\t18446744073709551617\t7", "init\t7\t1", "regs\t2",
    ] {
        let name = format!("no register {}", line.escape_debug());
        texts.bad(&name, raw(GROUPS, format!("{line}\n").as_bytes()), 2, 2);
        texts.bad(&format!("{name}, later"), raw(GROUPS, format!("reg\t1\t5\n{line}\nreg\t2\t9\n").as_bytes()), 2, 3);
    }
    texts.bad("a line of form 2 in form 1", list("reg 1 7"), 2, 2);
    texts.bad("no final LF", raw(GROUPS, b"reg\t1\t7"), 2, 2);
    texts.bad("no final LF before 22", raw(GROUPS, b"reg\t2\t7\nreg\t1\t7"), 2, 3);
}

fn out_of_order(texts: &mut Texts) {
    let mut refused = |name: &str, lines: &str, number: u32, place: u32| texts.bad(name, text(GROUPS, lines), number, place);
    refused("equal", "reg 1 5; reg 1 5", 22, 3);
    refused("equal in group 2", "reg 1 5; reg 2 5; reg 2 5", 22, 4);
    refused("descending", "reg 1 5; reg 1 3", 22, 3);
    refused("descending in group 2", "reg 2 10; reg 2 9", 22, 3);
    refused("group 2 first", "reg 2 5; reg 1 7", 22, 3);
    refused("back to group 1", "reg 1 5; reg 2 5; reg 1 7", 22, 4);
    refused("ascending by location", "reg 1 1; reg 2 2; reg 1 3; reg 2 4", 22, 4);
    refused("2 before 22", "reg 2 5; reg 3 6; reg 1 3", 2, 3);
    refused("22 before 2", "reg 2 5; reg 1 3; reg 3 6", 22, 3);
    refused("33 registers of group 1", &many(1, 33), 22, 34);
    refused("33 registers of group 2", &many(2, 33), 22, 34);
    refused("33 registers of group 2 behind 1", &(many(1, 1) + &many(2, 33)), 22, 35);
    refused("33 registers of group 2 behind 32", &(many(1, 32) + &many(2, 33)), 22, 66);
    refused("33 registers of group 1 before 1", &(many(1, 33) + &many(2, 1)), 22, 34);
    refused("33rd malformed", &(many(1, 32) + "reg 1 256"), 2, 34);
    refused("33rd of group 2 malformed", &(many(1, 32) + &many(2, 32) + "reg 2 256"), 2, 66);
    refused("33rd goes back", &(many(2, 32) + "reg 1 1"), 22, 34);
    texts.bad("over the limit", filled(GROUPS, "reg\t1\t1\n", MAX_LIST + 1), 1, 0);
    texts.bad("at the limit", filled(GROUPS, "\n", MAX_LIST), 2, 2);
}

/// All list texts that are known by hand.
pub fn texts() -> Vec<KnownList> {
    let mut texts = Texts { known: vec![] };
    for part in [good_texts, bad_lines, out_of_order] {
        part(&mut texts);
    }
    texts.known
}

/// One triple for each group, and for one that no line names.
fn each(known: &mut List, name: &str, source: &str, target: &str, entries: &str, answers: [Triple; 3]) {
    for (group, answer) in (1..).zip(answers) {
        known.list = Some(shared(SHARED, group));
        known.run(&format!("{name}, group {group}"), source, target, entries, answer);
    }
}

/// A check uses the lines of its group alone.
fn own_lines(known: &mut List) {
    for (location, listed) in [(7, [true, false]), (9, [false, true]), (11, [true, true]), (8, [false, false])] {
        let by_group = |register: Triple, plain: Triple| [listed[0], listed[1], false].map(|listed| if listed { register } else { plain });
        let at = |lines: &str| lines.replace('*', &location.to_string());
        let mut each = |name: &str, source: &str, target: &str, entries: &str, register: Triple, plain: Triple| {
            each(known, &format!("{name} at {location}"), &at(source), &at(target), entries, by_group(register, plain));
        };
        each("a value that is not the latest", "load * 3 used", "load * 3 used", "keep 1", DONE, (6, 1, 1));
        each("a load gone", "load * 0 used; load * 0 used", "load * 0 used", "keep 1; gone", (11, 1, 2), DONE);
        each("a store gone", "store * 1; store * 2", "store * 2", "gone; keep 1", (11, 1, 1), DONE);
        each("crossed", "store * 5; store 1 6", "store 1 6; store * 5", "keep 2; keep 1", (12, 1, 2), DONE);
        each("a load inserted", "load * 0 used", "load * 0 used; load * 0 used", "keep 1", (16, 2, 2), DONE);
        each("a store inserted", "store * 1", "store * 1; store * 1", "keep 1", (15, 2, 2), (15, 2, 2));
        each("other starts", "init * 1", "init * 2", "", DONE, (7, 2, location));
        each("an atomic use", "aload * rlx 0", "aload * rlx 0", "keep 1", (5, 1, 1), DONE);
        each("13 across it", "load 1 0 used; load * 0 used; load 1 0 used", "load 1 0 used; load * 0 used", "keep 1; keep 2; gone", (13, 1, 3), DONE);
        each("14 across it", "store 1 5; load * 0 used; store 1 7", "load * 0 used; store 1 7", "gone; keep 1; keep 2", (14, 1, 1), DONE);
    }
}

/// Lists that agree on a group's lines give it the same answers.
fn agreeing(known: &mut List) {
    let lists = [
        shared(SHARED, 1),
        shared("reg 1 7; reg 1 11", 1),
        shared("reg 1 7; reg 1 11; reg 2 0; reg 2 1; reg 2 255", 1),
        ListFor { text: list("reg 7; reg 11"), group: 1 },
        shared("reg 2 7; reg 2 11", 2),
        shared("reg 1 1; reg 2 7; reg 2 11", 2),
    ];
    for list in lists {
        known.list = Some(list);
        known.run("agreeing, accepted", "load 7 3 used; load 1 0 used; load 1 0 used", "load 7 3 used; load 1 0 used", "keep 1; keep 2; gone", DONE);
        known.run("agreeing, 11", "load 7 3 used; load 11 0 used", "load 7 3 used", "keep 1; gone", (11, 1, 2));
        known.run("agreeing, 6", "load 7 3 used; load 1 9 used", "", "", (6, 1, 2));
        known.run("agreeing, 5 of the target", "", "lock 7; aload 11 rlx 0", "", (5, 2, 2));
        known.bad_matching("agreeing, 2 of the matching", matching("kept"), 2, 2);
    }
}

/// The other group's lines refuse too, ahead of everything.
fn ahead(known: &mut List) {
    let good = trace("load 1 0 used");
    for group in [1, 2, 3] {
        for (name, lines, number, place) in [
            ("a malformed line of group 1", "reg 1 256; reg 2 7".to_string(), 2, 2),
            ("a malformed line of group 2", "reg 1 7; reg 2 256".to_string(), 2, 3),
            ("group 2 before group 1", "reg 2 7; reg 1 7".to_string(), 22, 3),
            ("33 registers of group 1", many(1, 33), 22, 34),
            ("33 registers of group 2", many(2, 33), 22, 34),
        ] {
            known.list = Some(shared(&lines, group));
            for (what, source) in [("a good source", good.clone()), ("no source", vec![]), ("a bad source", trace("lock"))] {
                known.add(&format!("{name}, {what}, group {group}"), source, good.clone(), matching("keep 1"), [ALL; 3], (number, 4, place));
            }
            known.add(&format!("{name}, no room, group {group}"), good.clone(), good.clone(), matching("keep 1"), [0; 3], (number, 4, place));
        }
    }
}

/// Traces of form 2, with their code lines.
fn form_2(known: &mut List) {
    let two = text(CODED, "init 9 0; load 9 3 used 41; load 9 3 used 42");
    let one = text(CODED, "init 9 0; load 9 3 used 41");
    for (group, answer) in [(1, (6, 1, 1)), (2, (11, 1, 2))] {
        known.list = Some(shared(SHARED, group));
        known.add(&format!("11 in form 2, group {group}"), two.clone(), one.clone(), matching("keep 1; gone"), [ALL; 3], answer);
    }
    known.list = Some(shared(SHARED, 2));
    known.bad_trace("20 at a register of group 2", text(CODED, "load 9 3 used 5"), 20, 1);
    known.bad_trace("21 of a register of group 2", text(CODED, "init 9 0; lock 9 5"), 21, 2);
}

/// All checks that are known by hand.
pub fn checks() -> Vec<Known> {
    let mut known = List::default();
    for part in [own_lines, agreeing, ahead, form_2] {
        part(&mut known);
    }
    known.known
}

/// The example for either group.
pub fn examples() -> Vec<Known> {
    let mut known = List::default();
    for (group, answer) in [(2, DONE), (1, (6, 1, 1))] {
        known.list = Some(ListFor { text: include_bytes!("../examples/gateway/list").to_vec(), group });
        known.add(
            "example gateway",
            include_bytes!("../examples/gateway/source").to_vec(),
            include_bytes!("../examples/gateway/target").to_vec(),
            include_bytes!("../examples/gateway/matching").to_vec(),
            [ALL; 3],
            answer,
        );
    }
    known.known
}

/// The moves that are known by hand.
pub fn moves() -> Vec<KnownMove> {
    let mut moves = Moves { list: Some(shared(SHARED, 2)), ..Moves::default() };
    moves.there_and_back("a register of group 2", &trace("load 9 3 used"), &text(CODED, "init 9 0; load 9 3 used 0"));
    moves.refused("6 at a register of group 1", Form::Two, trace("load 7 3 used"), PLENTY, (6, 1, 1));
    moves.refused("5 of a register of both", Form::Two, trace("aload 11 rlx 0"), PLENTY, (5, 1, 1));
    moves.there_and_back("an atomic use of a register of group 1", &trace("aload 7 rlx 0"), &text(CODED, "init 7 0; aload 7 rlx 0 0"));
    moves.refused("19 at a register of group 2", Form::One, text(CODED, "init 9 0; load 9 3 used 9"), PLENTY, (19, 1, 1));
    for (lines, number, place) in [("reg 1 256; reg 2 9", 2, 2), ("reg 2 9; reg 1 7", 22, 3)] {
        moves.list = Some(shared(lines, 2));
        for text in [trace("load 9 3 used"), trace("lock"), vec![]] {
            moves.refused("a list refused", Form::Two, text.clone(), PLENTY, (number, 4, place));
            moves.refused("a list refused, no bytes", Form::Two, text, 0, (number, 4, place));
        }
    }
    moves.known
}

/// The writings that are known by hand: a load with another value put in the room,
/// atomic uses, and lists that are refused.
pub fn writings() -> Vec<KnownWriting> {
    let mut known = Writings::default();
    let read: (usize, Word) = (3, 8);
    for (form, size) in [(Form::One, 8 + 14), (Form::Two, 8 + 9 + 16)] {
        let mut changed = |lines: &str, name: &str, events: &str, change, answer| {
            known.list = Some(shared(lines, 2));
            known.changed(name, form, events, 6, change, answer);
        };
        changed(SHARED, "a register's value, group 2", "load 9 0 used 0", read, (0, 0, size));
        changed(SHARED, "6 at a register of group 1", "load 7 0 used 0", read, (6, 0, 1));
        changed(SHARED, "a register for an atomic location", "aload 8 rlx 0 0", (1, 9), (5, 0, 1));
        changed("reg 2 9; reg 2 9", "a list refused before 18", "load 9 0 used 0", (0, 12), (22, 4, 3));
        changed("reg 3 9", "a list refused before 6", "load 9 0 used 0", read, (2, 4, 2));
        known.list = Some(shared(SHARED, 2));
        known.add("17 for group 2", form, coded("load 9 0 used 0"), 6, 0, (17, 0, size));
        known.add("an atomic use of a register of group 1", form, coded("aload 7 rlx 0 0"), 6, 0, (17, 0, if form == Form::One { 8 + 14 } else { 8 + 9 + 16 }));
    }
    known.known
}
