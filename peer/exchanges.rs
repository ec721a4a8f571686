//! Cases of exchanges that fail (document 02, C-17) with answers worked out by
//! hand, in both forms: lines, what they read and leave, every answer of a check;
//! moves and writings. At a listed location `lists.rs` has them among the atomic
//! uses.

use crate::cases::{matching, trace, Known, List, Triple, DONE};
use crate::forms::{both_forms, coded, Both, KnownMove, KnownWriting, Moves, Writings, PLENTY};
use crate::peer::{Form, Word};
use crate::texts;

const ORDERS: [&str; 3] = ["rlx", "acq", "sc"];

/// The line of `cmpfail`: an `aload`'s fields and orders.
fn lines(both: &mut Both) {
    for order in ORDERS {
        both.good("order of cmpfail", &format!("cmpfail 1 {order} 0"));
        both.good("order of cmpfail, later", &format!("init 1 3; lock 1; cmpfail 1 {order} 3; unlock 1"));
    }
    for order in ["rel", "ar", "used", "unused", "con", "0", "", "rl", "SC", "acqrel"] {
        both.bad("no order of cmpfail", &format!("cmpfail 1 {order} 0"), 2, 2);
        both.bad("no order of cmpfail, later", &format!("init 1 3; cmpfail 1 rlx 3; cmpfail 1 {order} 3"), 2, 4);
    }
    for place in ["0", "9", "10", "99", "100", "255"] {
        both.good("place of cmpfail", &format!("cmpfail {place} rlx 0"));
    }
    for bad in [
        "cmpfail", "cmpfail 1", "cmpfail 1 rlx", "cmpfail 1 rlx 0 0 0", "cmpfail rlx 1 0", "cmpfail 1 0 rlx", "cmpfail 1 0", "cmpfail 1 0 used",
        "cmpfail 256 rlx 0", "cmpfail 01 rlx 0", "cmpfail -1 rlx 0", "cmpfail 1 rlx 00", "cmpfail 1 rlx -1", "cmpfail 1 rlx x", "cmpfai 1 rlx 0",
        "cmpfaill 1 rlx 0", "cmpfails 1 rlx 0", "cmpfail0 1 rlx 0", "cmp 1 rlx 0", "fail 1 rlx 0", "xcmpfail 1 rlx 0", "Cmpfail 1 rlx 0",
        "CMPFAIL 1 rlx 0", "cmp fail 1 rlx 0", "cmpxchg 1 rlx 0 0", "rmwfail 1 rlx 0", "cmpfail64 1 rlx 0",
    ] {
        both.bad("nearly cmpfail", bad, 2, 2);
    }
    both.0.bad_trace("cmpfail with old and new", trace("cmpfail 1 rlx 0 0"), 2, 2);
    both.0.bad_trace("cmpfail with old and new in form 2", coded("init 1 0; cmpfail 1 rlx 0 0 7"), 2, 3);
    both.0.bad_trace("cmpfail without its code line", coded("cmpfail 1 rlx 0"), 2, 2);
    both.0.bad_trace("cmpfail of form 1 with a code line", trace("cmpfail 1 rlx 0 7"), 2, 2);
}

/// What is read is the latest value, of 64 bits, and the cell stays as found.
fn memory(both: &mut Both) {
    let values = ["1", "7", "4294967295", "4294967296", "9223372036854775808", "18446744073709551615"];
    for (value, order) in values.into_iter().zip(ORDERS.into_iter().cycle()) {
        both.good("value of cmpfail", &format!("init 1 {value}; cmpfail 1 {order} {value}"));
        both.good("the cell as found", &format!("init 1 {value}; cmpfail 1 {order} {value}; cmpfail 1 rlx {value}; aload 1 sc {value}"));
        both.bad("0 for the value", &format!("init 1 {value}; cmpfail 1 {order} 0"), 6, 1);
        both.bad("the value for 0", &format!("lock 1; cmpfail 1 {order} {value}"), 6, 2);
        both.bad("0 behind it", &format!("init 1 {value}; cmpfail 1 {order} {value}; aload 1 rlx 0"), 6, 2);
        both.bad("the value of another cell", &format!("init 1 {value}; cmpfail 2 {order} {value}"), 6, 1);
    }
    for value in ["18446744073709551616", "99999999999999999999", "018446744073709551615"] {
        both.bad("no value of cmpfail", &format!("cmpfail 1 rlx {value}"), 2, 2);
    }
    both.bad("its low half", "init 1 4294967297; cmpfail 1 rlx 1", 6, 1);
    both.bad("its high half", "init 1 1; cmpfail 1 rlx 4294967297", 6, 1);
    for (write, held) in [("astore 1 rel 5", "5"), ("rmw 1 ar 3 5", "5"), ("add 1 sc 3 4294967295", "2"), ("add64 1 acq 3 4294967295", "4294967298")] {
        both.good("behind a write", &format!("init 1 3; cmpfail 1 rlx 3; {write}; cmpfail 1 acq {held}; aload 1 rlx {held}"));
        both.bad("the value before a write", &format!("init 1 3; {write}; cmpfail 1 acq 3"), 6, 2);
    }
    for order in ["rlx", "acq", "rel", "ar", "sc"] {
        both.good("a write of the same value", &format!("init 1 3; rmw 1 {order} 3 3; cmpfail 1 rlx 3"));
        both.bad("a write of another value that was read", &format!("init 1 3; rmw 1 {order} 4 4"), 6, 1);
    }
}

/// It is atomic: 5 beside a plain access of its location.
fn uses(both: &mut Both) {
    for plain in ["load 1 0 used", "load 1 0 unused", "store 1 0"] {
        both.bad("plain and cmpfail", &format!("{plain}; cmpfail 1 rlx 0"), 5, 2);
        both.bad("cmpfail and plain", &format!("cmpfail 1 sc 0; {plain}"), 5, 2);
        both.bad("plain and cmpfail, apart", &format!("{plain}; lock 1; aload 2 rlx 0; cmpfail 1 acq 0"), 5, 4);
        both.bad("5 before its 6", &format!("{plain}; cmpfail 1 rlx 9"), 5, 2);
    }
    both.bad("6 before a later 5", "cmpfail 1 rlx 9; load 1 0 used", 6, 1);
    both.good("beside other atomic uses", "aload 1 acq 0; cmpfail 1 rlx 0; astore 1 rel 0; rmw 1 ar 0 0; add 1 sc 0 0; add64 1 sc 0 0; cmpfail 1 sc 0");
    both.good("beside a mutex of its number", "lock 1; cmpfail 1 rlx 0; unlock 1");
}

/// It matches only a `cmpfail` with equal fields.
fn kept(both: &mut Both) {
    let one = "cmpfail 1 rlx 0";
    for order in ORDERS {
        let same = format!("cmpfail 1 {order} 0");
        both.run("kept", &same, &same, "keep 1", DONE);
        for other in ORDERS.into_iter().filter(|other| *other != order) {
            both.run("10 of its order", &same, &format!("cmpfail 1 {other} 0"), "keep 1", (10, 1, 1));
        }
        both.run("10 of cmpfail and aload", &same, &format!("aload 1 {order} 0"), "keep 1", (10, 1, 1));
        both.run("10 of aload and cmpfail", &format!("aload 1 {order} 0"), &same, "keep 1", (10, 1, 1));
        both.run("10 of cmpfail and rmw", &same, &format!("rmw 1 {order} 0 0"), "keep 1", (10, 1, 1));
        both.run("10 of rmw and cmpfail", &format!("rmw 1 {order} 0 0"), &same, "keep 1", (10, 1, 1));
    }
    for other in ["cmpfail 2 rlx 0", "add 1 rlx 0 0", "add64 1 rlx 0 0", "astore 1 rlx 0", "load 1 0 used", "store 1 0", "lock 1", "fence acq"] {
        both.run("10 of another event", one, other, "keep 1", (10, 1, 1));
        both.run("10 of another source", other, one, "keep 1", (10, 1, 1));
    }
    let three = "cmpfail 1 rlx 0; rmw 1 rlx 0 1; cmpfail 1 rlx 1";
    both.run("kept around a write", three, three, "keep 1; keep 2; keep 3", DONE);
    both.run("10 of its value", three, three, "keep 3; keep 2; keep 1", (10, 1, 1));
    both.run("10 of its value behind a write", "init 1 5; cmpfail 1 rlx 5", "init 1 5; astore 1 rlx 6; cmpfail 1 rlx 6", "keep 2", (10, 1, 1));
    let [form_1, form_2] = both_forms(one);
    both.0.add("kept from form 1 to form 2", form_1.clone(), form_2.clone(), matching("keep 1"), [1; 3], DONE);
    both.0.add("kept from form 2 to form 1", form_2, form_1, matching("keep 1"), [1; 3], DONE);
}

/// It is synchronising: never gone, swapped, inserted or spanned.
fn stays(both: &mut Both) {
    let one = "cmpfail 1 rlx 0";
    let two = "cmpfail 1 rlx 0; cmpfail 1 rlx 0";
    for order in ORDERS {
        both.run("gone", &format!("cmpfail 1 {order} 0"), "", "gone", (11, 1, 1));
        both.run("gone behind a plain event", &format!("store 2 5; cmpfail 1 {order} 0"), "store 2 5", "keep 1; gone", (11, 1, 2));
    }
    both.run("the second gone", two, one, "keep 1; gone", (11, 1, 2));
    both.run("the first gone", two, one, "gone; keep 1", (11, 1, 1));
    both.run("gone behind an aload of its value", "aload 1 rlx 0; cmpfail 1 rlx 0", "aload 1 rlx 0", "keep 1; gone", (11, 1, 2));
    both.run("a write of the same value gone", "cmpfail 1 rlx 0; rmw 1 rlx 0 0", one, "keep 1; gone", (11, 1, 2));
    for plain in ["store 2 5", "load 2 0 used", "load 2 0 unused", "aload 2 acq 0", "lock 1", "fence sc", "cmpfail 2 rlx 0"] {
        let (before, behind) = (format!("{plain}; {one}"), format!("{one}; {plain}"));
        both.run("in order", &before, &before, "keep 1; keep 2", DONE);
        both.run("crossed by what was before it", &before, &behind, "keep 2; keep 1", (12, 1, 2));
        both.run("crossed by what was behind it", &behind, &before, "keep 2; keep 1", (12, 1, 2));
    }
    both.run("two crossed", two, two, "keep 2; keep 1", (12, 1, 2));
    both.run("15 alone", "", one, "", (15, 2, 1));
    both.run("15 behind its like", one, two, "keep 1", (15, 2, 2));
    both.run("15 before its like", one, two, "keep 2", (15, 2, 1));
    both.run("15 behind an aload of its value", "aload 1 rlx 0", "aload 1 rlx 0; cmpfail 1 rlx 0", "keep 1", (15, 2, 2));
    both.run("13 across it", "load 2 0 used; cmpfail 1 rlx 0; load 2 0 used", "load 2 0 used; cmpfail 1 rlx 0", "keep 1; keep 2; gone", (13, 1, 3));
    both.run("14 across it", "store 2 5; cmpfail 1 rlx 0; store 2 7", "cmpfail 1 rlx 0; store 2 7", "gone; keep 1; keep 2", (14, 1, 1));
    both.run("16 across it", "store 2 5; cmpfail 1 rlx 0", "store 2 5; cmpfail 1 rlx 0; load 2 5 used", "keep 1; keep 2", (16, 2, 3));
    both.run("a load gone before it", "store 2 5; load 2 5 used; cmpfail 1 rlx 0", "store 2 5; cmpfail 1 rlx 0", "keep 1; gone; keep 2", DONE);
    both.run("a load inserted behind it", "cmpfail 1 rlx 0; store 2 5", "cmpfail 1 rlx 0; store 2 5; load 2 5 used", "keep 1; keep 2", DONE);
    both.run("stores swapped behind it", "cmpfail 1 rlx 0; store 2 5; store 3 6", "cmpfail 1 rlx 0; store 3 6; store 2 5", "keep 1; keep 3; keep 2", DONE);
    for [source, target] in [both_forms(two), both_forms(two)] {
        let keep = matching("keep 1; keep 2");
        both.0.add("source room", source.clone(), target.clone(), keep.clone(), [1, 2, 2], (17, 1, 2));
        both.0.add("target room", source.clone(), target.clone(), keep.clone(), [2, 1, 2], (17, 2, 2));
        both.0.add("room exactly", source, target, keep, [2, 2, 2], DONE);
    }
}

/// All checks of C-17 that are known by hand.
pub fn checks() -> Vec<Known> {
    let mut list = List::default();
    for part in [lines, memory, uses, kept, stays] {
        part(&mut Both(&mut list));
    }
    list.known
}

/// The moves that are known by hand.
pub fn moves() -> Vec<KnownMove> {
    let mut moves = Moves::default();
    let lines = "init 1 18446744073709551615; cmpfail 1 sc 18446744073709551615; cmpfail 2 rlx 0; lock 3; cmpfail 1 acq 18446744073709551615";
    moves.there_and_back("cmpfail", &trace(lines), &texts::with_codes(&trace(lines), || 0));
    for to in [Form::One, Form::Two] {
        let text = |lines: &str| match to {
            Form::One => texts::with_codes(&trace(lines), || 0),
            Form::Two => trace(lines),
        };
        let mut refused = |name: &str, lines: &str, answer: Triple| moves.refused(name, to, text(lines), PLENTY, answer);
        refused("rel of cmpfail", "lock 0; cmpfail 1 rel 0", (2, 1, 3));
        refused("ar of cmpfail", "cmpfail 1 ar 0", (2, 1, 2));
        refused("plain and cmpfail", "store 1 0; cmpfail 1 rlx 0", (5, 1, 2));
        refused("cmpfail not the latest", "cmpfail 1 rlx 0; cmpfail 1 rlx 1", (6, 1, 2));
    }
    moves.refused("a code line of cmpfail", Form::One, coded("cmpfail 1 rlx 0 9"), PLENTY, (19, 1, 1));
    moves.known
}

const FAILED: &str = "init 1 7; cmpfail 1 rlx 7 0; lock 0 0";

/// The writer of a text of 40 bytes in form 1, by the word that is changed.
fn writings_of(list: &mut Writings, form: Form) {
    let size = |bytes: u32| (0, 0, if form == Form::One { bytes } else { bytes + 4 });
    list.add("cmpfail", form, coded(FAILED), 12, PLENTY, size(40));
    let mut changed = |name: &str, at: usize, word: Word, answer: Triple| list.changed(name, form, FAILED, 12, (at, word), answer);
    changed("an aload", 0, 3, size(38));
    changed("kind 12", 0, 12, (18, 0, 1));
    changed("kind 2^32 + 11", 0, (1 << 32) + 11, (18, 0, 1));
    changed("an acquire", 2, 2, size(40));
    changed("a seq_cst", 2, 5, size(39));
    for order in [0, 3, 4, 6, 7, 8] {
        changed("no order of cmpfail", 2, order, (18, 0, 1));
    }
    changed("a value that is not the latest", 3, 8, (6, 0, 1));
    for new in [1, 7, Word::MAX] {
        changed("a new value", 4, new, (18, 0, 1));
    }
    changed("another place", 1, 2, (6, 0, 1));
    changed("place 256", 1, 256, (18, 0, 1));
    list.changed("an rmw turned to a cmpfail", form, "init 1 7; rmw 1 rlx 7 0 0; lock 0 0", 12, (0, 11), size(40));
    list.changed("an rmw of another value turned to a cmpfail", form, "init 1 7; rmw 1 rlx 7 7 0; lock 0 0", 12, (0, 11), (18, 0, 1));
    list.changed("a release turned to a cmpfail", form, "init 1 7; rmw 1 rel 7 0 0; lock 0 0", 12, (0, 11), (18, 0, 1));
}

/// The writings that are known by hand.
pub fn writings() -> Vec<KnownWriting> {
    let mut list = Writings::default();
    writings_of(&mut list, Form::One);
    writings_of(&mut list, Form::Two);
    list.known
}
