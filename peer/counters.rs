//! Cases of counters of 64 bits (document 02, C-13) with answers worked out by
//! hand, in both forms: values, `add` and `add64`, limits; moves and writings.

use crate::cases::{filled, matching, trace, Known, List, Triple, ALL, DONE, TRACE};
use crate::forms::{both_forms, coded, fullest, Both, KnownMove, KnownWriting, Moves, Writings, CODED, PLENTY};
use crate::peer::{Form, Word};
use crate::texts;

/// 2^32 - 1, 2^32, 2^64 - 1, and 2^64, which is no value.
const LAST_32: &str = "4294967295";
const OVER_32: &str = "4294967296";
const LAST_64: &str = "18446744073709551615";
const OVER_64: &str = "18446744073709551616";

/// Lines with a value left open, which may be any.
const WRITTEN: [&str; 4] = ["store 1 {}", "astore 1 rel {}", "rmw 1 ar 0 {}", "add64 1 sc 0 {}"];
/// The same, where the value must be the one that is there.
const READ: [&str; 4] = ["load 1 {} used", "aload 1 acq {}", "rmw 1 rlx {} 0", "add64 1 acq {} 1"];

fn values(both: &mut Both) {
    let good = ["0", LAST_32, OVER_32, "4294967297", "9223372036854775808", "18446744073709551614", LAST_64];
    let bad = [
        OVER_64, "18446744073709551617", "18446744073709551625", "18446744073709551700", "20000000000000000000",
        "99999999999999999999", "100000000000000000000", "184467440737095516150", "340282366920938463463374607431768211456",
        "018446744073709551615", "+18446744073709551615",
    ];
    for line in WRITTEN {
        for value in good {
            both.good("value written", &line.replace("{}", value));
        }
        for value in bad {
            both.bad("no value", &line.replace("{}", value), 2, 2);
        }
    }
    for line in READ {
        for value in &good[1..] {
            both.good("value read", &format!("init 1 {value}; {}", line.replace("{}", value)));
        }
        both.bad("no value to read", &line.replace("{}", OVER_64), 2, 2);
        both.bad("a value read in its low half", &format!("init 1 4294967297; {}", line.replace("{}", "1")), 6, 1);
        both.bad("a value read in its high half", &format!("init 1 1; {}", line.replace("{}", "4294967297")), 6, 1);
    }
    for value in &good[1..] {
        both.good("starting value", &format!("init 1 {value}; init 255 {value}"));
    }
    for value in bad {
        both.bad("no starting value", &format!("init 1 {value}"), 2, 2);
    }
    both.bad("a value for a place", &format!("store {OVER_32} 0"), 2, 2);
    both.bad("a value for a mutex", &format!("lock {OVER_32}"), 2, 2);
    for code in [OVER_32, LAST_64, OVER_64] {
        both.0.bad_trace("a value for a code line", coded(&format!("lock 0 {code}")), 2, 2);
    }
}

/// `add` wants old and operand of 32 bits.
fn narrow(both: &mut Both) {
    for (old, operand) in [(OVER_32, "0"), ("0", OVER_32), (OVER_32, OVER_32), (LAST_64, "1"), ("1", LAST_64), ("0", OVER_64), (OVER_64, "0")] {
        both.bad("add out of range", &format!("add 1 rlx {old} {operand}"), 2, 2);
        both.bad("add out of range, later", &format!("lock 0; add 1 ar {old} {operand}; lock 0"), 2, 3);
    }
    both.bad("add out of range, though right", &format!("init 1 {OVER_32}; add 1 rlx {OVER_32} 1"), 2, 3);
    both.good("add in range", &format!("init 1 {LAST_32}; add 1 rlx {LAST_32} {LAST_32}"));
    both.bad("a cell out of add's range", &format!("init 1 {OVER_32}; add 1 rlx 0 1"), 6, 1);
    both.bad("a cell that add64 left", &format!("init 1 {LAST_32}; add64 1 rlx {LAST_32} 1; add 1 rlx 0 1"), 6, 2);
}

/// Where the sums wrap.
fn sums(both: &mut Both) {
    let good = [
        "add 1 rlx 0 4294967295; add 1 rlx 4294967295 0; add 1 rlx 4294967295 1; aload 1 rlx 0",
        "init 1 4294967295; add 1 sc 4294967295 4294967295; add 1 sc 4294967294 3; aload 1 sc 1",
        "init 1 4294967295; add64 1 rlx 4294967295 1; add64 1 rlx 4294967296 4294967295; aload 1 rlx 8589934591",
        "init 1 18446744073709551615; add64 1 rlx 18446744073709551615 1; aload 1 rlx 0",
        "init 1 18446744073709551615; add64 1 ar 18446744073709551615 18446744073709551615; aload 1 rlx 18446744073709551614",
        "init 1 9223372036854775808; add64 1 acq 9223372036854775808 9223372036854775808; add 1 rel 0 1; aload 1 rlx 1",
        "init 1 18446744073709551615; add64 1 rlx 18446744073709551615 4294967296; add 1 rlx 4294967295 1; add64 1 rlx 0 0",
    ];
    for lines in good {
        both.good("sum", lines);
    }
    both.bad("add does not wrap at 64", "init 1 4294967295; add 1 rlx 4294967295 1; aload 1 rlx 4294967296", 6, 2);
    both.bad("add64 does not wrap at 32", "init 1 4294967295; add64 1 rlx 4294967295 1; aload 1 rlx 0", 6, 2);
    both.bad("add64 wraps", "init 1 18446744073709551615; add64 1 rlx 18446744073709551615 2; aload 1 rlx 18446744073709551615", 6, 2);
    both.bad("add64 reads", "init 1 18446744073709551615; add64 1 rlx 18446744073709551614 1", 6, 1);
    both.bad("add64 reads 0", "lock 0; add64 1 rlx 1 1", 6, 2);
}

/// The line of `add64`: `add`'s fields and orders.
fn lines(both: &mut Both) {
    for order in ["rlx", "acq", "rel", "ar", "sc"] {
        both.good("order of add64", &format!("add64 1 {order} 0 3"));
    }
    for order in ["used", "unused", "con", "0", "rl", "SC", "acqrel"] {
        both.bad("no order of add64", &format!("add64 1 {order} 0 3"), 2, 2);
    }
    for place in ["0", "9", "10", "99", "100", "255"] {
        both.good("place of add64", &format!("add64 {place} rlx 0 3"));
    }
    for bad in [
        "add64", "add64 1", "add64 1 rlx", "add64 1 rlx 0", "add64 1 rlx 0 1 2 3", "add64 256 rlx 0 1", "add64 01 rlx 0 1", "add64 1 0 rlx 1",
        "add64 1 rlx 00 1", "add64 1 rlx 0 01", "add64 1 rlx 0 -1", "add6 1 rlx 0 1", "add644 1 rlx 0 1", "add32 1 rlx 0 1", "add 64 rlx 0",
        "Add64 1 rlx 0 1", "ADD64 1 rlx 0 1", "xadd64 1 rlx 0 1", "load64 1 0 used", "rmw64 1 rlx 0 1",
    ] {
        both.bad("nearly add64", bad, 2, 2);
    }
    both.0.bad_trace("add64 without its code line", coded("add64 1 rlx 0 1"), 2, 2);
    both.0.bad_trace("add64 of form 1 with a code line", trace("add64 1 rlx 0 1 2"), 2, 2);
}

/// Every answer of a check that a value or `add64` can have.
fn answers(both: &mut Both) {
    both.bad("plain and add64", "store 1 0; add64 1 rlx 0 1", 5, 2);
    both.bad("add64 and plain", "add64 1 rlx 0 1; lock 0; load 1 1 used", 5, 3);
    both.run("starts differ in the high half", "init 3 1", "init 3 4294967297", "", (7, 2, 3));
    both.run("starts differ in the low half", "init 3 18446744073709551615", "init 3 18446744073709551614", "", (7, 2, 3));
    both.run("10 in the high half", "store 1 1", "store 1 4294967297", "keep 1", (10, 1, 1));
    both.run("10 in the low half", "store 1 18446744073709551615", "store 1 18446744073709551614", "keep 1", (10, 1, 1));
    both.run("10 of add and add64", "add 1 rlx 0 1", "add64 1 rlx 0 1", "keep 1", (10, 1, 1));
    both.run("10 of rmw and add64", "rmw 1 rlx 0 1", "add64 1 rlx 0 1", "keep 1", (10, 1, 1));
    both.run("10 of add64's operand", "add64 1 rlx 0 1", "add64 1 rlx 0 4294967297", "keep 1", (10, 1, 1));
    both.run("10 of add64's order", "add64 1 rlx 0 1", "add64 1 acq 0 1", "keep 1", (10, 1, 1));
    both.run("add64 kept", "add64 1 rlx 0 1", "add64 1 rlx 0 1", "keep 1", DONE);
    both.run("add64 gone", "add64 1 rlx 0 0", "", "gone", (11, 1, 1));
    both.run("12 across add64", "store 1 5; add64 2 rlx 0 1", "add64 2 rlx 0 1; store 1 5", "keep 2; keep 1", (12, 1, 2));
    both.run("13 across add64", "load 1 0 used; add64 2 rlx 0 1; load 1 0 used", "load 1 0 used; add64 2 rlx 0 1", "keep 1; keep 2; gone", (13, 1, 3));
    both.run("14 across add64", "store 1 5; add64 2 rlx 0 1; store 1 7", "add64 2 rlx 0 1; store 1 7", "gone; keep 1; keep 2", (14, 1, 1));
    both.run("a load gone", "store 1 18446744073709551615; load 1 18446744073709551615 used", "store 1 18446744073709551615", "keep 1; gone", DONE);
    both.run("a store overwritten", "store 1 4294967296; store 1 4294967297", "store 1 4294967297", "gone; keep 1", DONE);
    both.run(
        "a witness of 64 bits",
        "init 1 4294967296; load 1 4294967296 used; store 1 0; store 1 4294967296",
        "init 1 4294967296; load 1 4294967296 used",
        "keep 1; gone; gone",
        DONE,
    );
    both.run("no witness in its low half", "load 1 0 used; store 1 4; store 1 4294967296", "load 1 0 used", "keep 1; gone; gone", (14, 1, 3));
    both.run("15 of add64", "", "add64 1 rlx 0 0", "", (15, 2, 1));
    both.run("16 after add64", "store 1 1; add64 2 rlx 0 1", "store 1 1; add64 2 rlx 0 1; load 1 1 used", "keep 1; keep 2", (16, 2, 3));
    both.run("a load inserted", "store 1 18446744073709551615", "store 1 18446744073709551615; load 1 18446744073709551615 used", "keep 1", DONE);
    let (two, keep) = ("add64 1 rlx 0 18446744073709551615; add64 1 rlx 18446744073709551615 1", "keep 1; keep 2");
    for [source, target] in [both_forms(two), both_forms(two)] {
        both.0.add("source room of add64", source.clone(), target.clone(), matching(keep), [1, 2, 2], (17, 1, 2));
        both.0.add("target room of add64", source.clone(), target.clone(), matching(keep), [2, 1, 2], (17, 2, 2));
        both.0.add("room for add64 exactly", source, target, matching(keep), [2, 2, 2], DONE);
    }
}

/// Texts that only the limits of document 01 and C-11 refused.
fn lengths(both: &mut Both) {
    let all = [ALL; 3];
    both.0.good_trace("longest lawful text", fullest(Form::One, 800, ""), 800);
    both.0.add("form 1 over document 01's limit", filled(TRACE, "lock\t0\n", 32_401), vec![], vec![], all, (3, 1, 802));
    both.0.add("form 2 over C-11's limit", trace(""), filled(CODED, "lock\t0\t7\n", 37_201), vec![], all, (3, 2, 802));
}

/// All checks of C-13 that are known by hand.
pub fn checks() -> Vec<Known> {
    let mut list = List::default();
    for part in [values, narrow, sums, lines, answers, lengths] {
        part(&mut Both(&mut list));
    }
    list.known
}

/// The moves that are known by hand.
pub fn moves() -> Vec<KnownMove> {
    let mut moves = Moves::default();
    let lines = "init 1 18446744073709551615; add64 1 ar 18446744073709551615 1; add 1 rlx 0 4294967295; rmw 1 sc 4294967295 4294967296";
    moves.there_and_back("counters", &trace(lines), &texts::with_codes(&trace(lines), || 0));
    for to in [Form::One, Form::Two] {
        let text = |lines: &str| match to {
            Form::One => texts::with_codes(&trace(lines), || 0),
            Form::Two => trace(lines),
        };
        let mut refused = |name: &str, lines: &str, answer: Triple| moves.refused(name, to, text(lines), PLENTY, answer);
        refused("2^64 in a store", "lock 0; store 1 18446744073709551616", (2, 1, 3));
        refused("2^64 in an init", "init 1 18446744073709551616", (2, 1, 2));
        refused("add out of range", "add 1 rlx 0 4294967296", (2, 1, 2));
        refused("add64 not the latest", "add64 1 rlx 0 1; add64 1 rlx 4294967297 1", (6, 1, 2));
        refused("plain and add64", "store 1 0; add64 1 rlx 0 1", (5, 1, 2));
    }
    moves.known
}

const COUNT: &str = "init 1 7; add 1 rlx 7 1 0; lock 0 0";

/// The writer of a text of so many bytes in form 1, by the word that is changed.
fn writings_of(list: &mut Writings, form: Form) {
    let size = |bytes: u32| (0, 0, if form == Form::One { bytes } else { bytes + 4 });
    let mut changed = |name: &str, at: usize, word: Word, answer: Triple| list.changed(name, form, COUNT, 12, (at, word), answer);
    changed("an operand of 32 bits", 4, (1 << 32) - 1, size(47));
    changed("an operand of 33 bits", 4, 1 << 32, (18, 0, 1));
    changed("the greatest operand of an add", 4, Word::MAX, (18, 0, 1));
    changed("an old value of 33 bits", 3, 1 << 32, (18, 0, 1));
    changed("an old value of 33 bits, its low half right", 3, (1 << 32) + 7, (18, 0, 1));
    changed("an old value that is not the latest", 3, 8, (6, 0, 1));
    changed("add64", 0, 10, size(40));
    changed("kind 12", 0, 12, (18, 0, 1));
    changed("kind 2^32 + 6", 0, (1 << 32) + 6, (18, 0, 1));
    changed("place 2^32 + 1", 1, (1 << 32) + 1, (18, 0, 1));
    changed("order 2^32 + 1", 2, (1 << 32) + 1, (18, 0, 1));
    changed("code line 2^32", 5, 1 << 32, (18, 0, 1));
    changed("a value that the kind lacks", 9, 1 << 32, (18, 0, 2));
    for (value, digits) in [((1 << 32) - 1, 10), (1 << 32, 10), (1 << 63, 19), (Word::MAX - 1, 20), (Word::MAX, 20)] {
        list.changed("a store's value", form, "init 1 7; store 1 8 0; lock 0 0", 12, (3, value), size(8 + 9 + 9 + digits + 7));
        list.changed("add64's operand", form, "init 1 7; add64 1 sc 7 8 0; lock 0 0", 12, (4, value), size(8 + 9 + 14 + digits + 7));
    }
}

/// The writings that are known by hand.
pub fn writings() -> Vec<KnownWriting> {
    let mut list = Writings::default();
    writings_of(&mut list, Form::One);
    writings_of(&mut list, Form::Two);
    list.known
}
