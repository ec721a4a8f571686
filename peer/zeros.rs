//! Cases of starting values in form 2 (document 02, C-15) with answers worked out
//! by hand: touched locations without an `init` line (20), zero lines for others
//! (21), what comes before them and after; moves and writings. Nothing is added
//! to these texts: they stand as they are written.

use crate::cases::{matching, raw, text, trace, Known, List, Triple, ALL, DONE};
use crate::forms::{KnownMove, KnownWriting, Moves, Writings, CODED, PLENTY};
use crate::peer::Form;

/// A trace of form 2 as it stands.
fn bare(lines: &str) -> Vec<u8> {
    text(CODED, lines)
}

/// Every kind that touches location 1, which is 0 before.
const TOUCHING: [&str; 8] = [
    "load 1 0 used 7", "store 1 5 7", "aload 1 rlx 0 7", "astore 1 rel 5 7", "rmw 1 ar 0 5 7", "add 1 sc 0 5 7", "add64 1 acq 0 5 7",
    "cmpfail 1 rlx 0 7",
];

/// Every kind that touches no location.
const IDLE: [&str; 3] = ["lock 1 7", "unlock 1 7", "fence sc 7"];

fn each_kind(list: &mut List) {
    for event in TOUCHING {
        list.bad_trace("touched without a line", bare(event), 20, 1);
        list.bad_trace("touched with the line of another", bare(&format!("init 0 1; init 2 1; {event}")), 20, 1);
        list.good_trace("touched with a zero line", bare(&format!("init 1 0; {event}")), 1);
        list.bad_trace("a zero line beside it", bare(&format!("init 0 0; init 1 0; {event}")), 21, 2);
        list.bad_trace("a zero line behind it", bare(&format!("init 1 0; init 2 0; {event}")), 21, 3);
    }
    for event in IDLE {
        list.good_trace("nothing touched", bare(event), 1);
        list.good_trace("a start of a location that nothing touches", bare(&format!("init 1 7; {event}")), 1);
        list.bad_trace("a zero line of a mutex", bare(&format!("init 1 0; {event}")), 21, 2);
        list.bad_trace("a zero line of location 0", bare(&format!("init 0 0; {event}")), 21, 2);
        list.bad_trace("touched behind it", bare(&format!("{event}; store 1 5 7")), 20, 2);
    }
}

/// Which event and which line it is.
fn places(list: &mut List) {
    list.bad_trace("zero line alone", bare("init 2 0"), 21, 2);
    list.bad_trace("the first of two events", bare("store 1 1 0; store 2 1 0"), 20, 1);
    list.bad_trace("events are counted, not lines", bare("init 1 3; init 4 0; lock 0 0; load 4 0 used 0; store 2 5 0; store 3 5 0"), 20, 3);
    list.bad_trace("the second location", bare("init 1 0; store 1 1 0; load 1 1 used 0; load 2 0 used 0"), 20, 3);
    list.bad_trace("touched again", bare("init 1 0; store 2 1 0; store 2 1 0"), 20, 1);
    list.bad_trace("the first of two zero lines", bare("init 1 0; init 2 0; lock 0 0"), 21, 2);
    list.bad_trace("the second zero line", bare("init 1 0; init 2 0; store 1 1 0"), 21, 3);
    list.bad_trace("lines are counted, not zero lines", bare("init 0 1; init 1 0; init 2 0; init 3 4; store 2 1 0"), 21, 3);
    list.bad_trace("a code line is no location", bare("init 7 0; store 5 1 7"), 20, 1);
    list.bad_trace("a value is no location", bare("init 7 0; store 5 7 5"), 20, 1);
    list.good_trace("location 0 and location 255", bare("init 0 0; init 255 0; load 0 0 used 1; aload 255 sc 0 1"), 2);
    list.bad_trace("255 without a line", bare("init 0 0; load 0 0 used 1; load 255 0 used 1"), 20, 2);
    list.bad_trace("0 without a line", bare("init 255 0; load 255 0 used 1; load 0 0 used 1"), 20, 2);
    let every = |line: &dyn Fn(usize) -> String, but: usize| -> String { (0..256).filter(|&at| at != but).map(line).collect() };
    let start = |at: usize| format!("init {at} 0;");
    let load = |at: usize| format!("load {at} 0 used 1;");
    list.good_trace("256 zero lines", bare(&(every(&start, 256) + &every(&load, 256))), 256);
    for but in [0, 1, 100, 255] {
        let place = but as u32;
        list.bad_trace("256 zero lines but one", bare(&(every(&start, but) + &every(&load, 256))), 20, place + 1);
        list.bad_trace("256 zero lines, one location untouched", bare(&(every(&start, 256) + &every(&load, but))), 21, place + 2);
    }
}

/// Each before the others that follow it, and behind those that come before.
fn order(list: &mut List) {
    list.bad_trace("20 before 21", bare("init 1 0; store 2 1 0"), 20, 1);
    list.bad_trace("20 at the last event before 21", bare("init 1 0; lock 1 0; fence ar 0; store 2 1 0"), 20, 3);
    list.bad_trace("2 before 20", bare("store 1 1 0; lock 0"), 2, 3);
    list.bad_trace("2 before 21", bare("init 1 0; lock 0 0; lock 0"), 2, 4);
    list.bad_trace("2 of the last LF before 20", raw(CODED, b"store\t1\t1\t0\nlock\t0\t0"), 2, 3);
    list.bad_trace("2 of the last LF before 21", raw(CODED, b"init\t1\t0"), 2, 2);
    list.bad_trace("3 before 20", bare(&"store 1 1 0;".repeat(801)), 3, 802);
    list.bad_trace("3 before 21", bare(&("init 1 0;".to_string() + &"lock 0 0;".repeat(801))), 3, 803);
    list.bad_trace("20 at event 800", bare(&("init 1 0;".to_string() + &"store 1 1 0;".repeat(799) + "store 2 1 0")), 20, 800);
    list.bad_trace("4 before 20", bare("store 1 1 0; init 1 1"), 4, 3);
    list.bad_trace("a zero line after an event", bare("store 1 1 0; init 1 0"), 4, 3);
    list.bad_trace("a zero line after an event, idle", bare("lock 1 0; init 1 0"), 4, 3);
    list.bad_trace("zero lines descending", bare("init 2 0; init 1 0; load 1 0 used 0; load 2 0 used 0"), 4, 3);
    list.bad_trace("zero line repeated", bare("init 2 0; init 2 0; load 2 0 used 0"), 4, 3);
    list.bad_trace("a start repeated with 0", bare("init 2 1; init 2 0; load 2 1 used 0"), 4, 3);
    list.bad_trace("4 before 21", bare("init 1 0; init 3 1; init 2 1"), 4, 4);
    list.bad_trace("20 before 5", bare("store 1 0 0; aload 1 rlx 0 0"), 20, 1);
    list.bad_trace("20 at 3 before 5 at 2", bare("init 1 0; store 1 0 0; aload 1 rlx 0 0; store 2 1 0"), 20, 3);
    list.bad_trace("20 before 6", bare("load 1 9 used 0"), 20, 1);
    list.bad_trace("20 at 2 before 6 at 1", bare("init 1 0; load 1 9 used 0; load 2 0 used 0"), 20, 2);
    list.bad_trace("21 before 5", bare("init 1 0; init 2 0; store 1 0 0; aload 1 rlx 0 0"), 21, 3);
    list.bad_trace("21 before 6", bare("init 1 0; init 2 0; load 1 9 used 0"), 21, 3);
    list.bad_trace("5 behind zero lines", bare("init 1 0; store 1 0 0; aload 1 rlx 0 0"), 5, 2);
    list.bad_trace("6 behind zero lines", bare("init 1 0; init 2 0; load 2 0 used 0; load 1 1 used 0"), 6, 2);
    list.bad_trace("6 at a location that has lost its value", bare("init 1 0; load 1 3 used 0"), 6, 1);
}

/// The line itself, in both forms.
fn lines(list: &mut List) {
    for bad in ["init 1 00", "init 1 -0", "init 1 +0", "init 1 0 0", "init 1 0 7", "init 1", "init 256 0", "init 01 0", "init 1 0x0", "Init 1 0"] {
        list.bad_trace("nearly a zero line", bare(&format!("{bad}; load 1 0 used 0")), 2, 2);
    }
    list.bad_trace("zero line of form 1", trace("init 1 0; load 1 0 used"), 2, 2);
    list.bad_trace("zero line of form 1, untouched", trace("init 1 0"), 2, 2);
    list.bad_trace("zero line of form 1 after an event", trace("lock 0; init 1 0"), 2, 3);
    list.good_trace("form 1 has no line for 0", trace("load 1 0 used; store 2 1; add 3 sc 0 1"), 3);
    list.good_trace("a start that nothing touches", bare("init 3 1; init 4 18446744073709551615"), 0);
    list.good_trace("starts and zero lines", bare("init 1 0; init 2 5; init 3 0; init 4 1; load 3 0 used 1; load 2 5 used 2; store 1 2 3"), 3);
}

/// Whole checks: which text comes first, rooms, starting values.
fn checks_of_both(list: &mut List) {
    let all = [ALL; 3];
    let mut check = |name: &str, source: Vec<u8>, target: Vec<u8>, entries: &str, rooms: [usize; 3], answer: Triple| {
        list.add(name, source, target, matching(entries), rooms, answer);
    };
    let (lost, idle, good) = ("store 1 5 0", "init 1 0; lock 1 0", "init 1 0; store 1 5 0");
    check("20 of the source before 2 of the target", bare(lost), bare("lock"), "keep 1", all, (20, 1, 1));
    check("20 of the source before 20 of the target", bare(lost), bare(lost), "keep 1", all, (20, 1, 1));
    check("21 of the source before 20 of the target", bare(idle), bare(lost), "keep 1", all, (21, 1, 2));
    check("20 of the target behind a good source", bare(good), bare(lost), "keep 1", all, (20, 2, 1));
    check("21 of the target behind a good source", bare(good), bare(idle), "keep 1", all, (21, 2, 2));
    check("20 of a target of form 2 alone", trace("store 1 5"), bare(lost), "keep 1", all, (20, 2, 1));
    check("21 of a target of form 2 alone", trace("lock 1"), bare(idle), "keep 1", all, (21, 2, 2));
    check("20 of a source of form 2 alone", bare(lost), trace("store 1 5"), "keep 1", all, (20, 1, 1));
    check("20 before 17", bare(lost), bare(good), "keep 1", [0; 3], (20, 1, 1));
    check("21 before 17", bare(idle), bare(good), "keep 1", [0; 3], (21, 1, 2));
    check("17 behind zero lines", bare(good), bare(good), "keep 1", [0; 3], (17, 1, 1));
    check("17 of the source before 20 of the target", bare(good), bare(lost), "keep 1", [0, 1, 1], (17, 1, 1));
    check("20 of the target before 2 of the matching", bare(good), bare(lost), "kept 1", all, (20, 2, 1));
    check("21 of the target before 17 of the matching", bare(good), bare(idle), "keep 1", [1, 1, 0], (21, 2, 2));
    check("room exactly, zero lines need none", bare(good), bare(good), "keep 1", [1, 1, 1], DONE);
    check("20 before 7", bare("init 1 3; store 2 5 0"), bare("store 2 5 0"), "keep 1", all, (20, 1, 1));
    check("a start is 0 said or unsaid", bare(good), trace("store 1 5"), "keep 1", all, DONE);
    check("a start is 0 unsaid or said", trace("store 1 5"), bare(good), "keep 1", all, DONE);
    check("7 of a zero line", bare(good), bare("init 1 3; store 1 5 0"), "keep 1", all, (7, 2, 1));
    check("7 of a zero line in the target", bare("init 1 3; store 1 5 0"), bare(good), "keep 1", all, (7, 2, 1));
    check("7 of a zero line beside form 1", trace("init 1 3; store 1 5"), bare(good), "keep 1", all, (7, 2, 1));
    check("a location that the target no longer touches", bare("init 1 0; load 1 0 unused 0; store 1 0 0"), bare(""), "gone; gone", all, DONE);
    check("its zero line left behind", bare("init 1 0; load 1 0 unused 0; store 1 0 0"), bare("init 1 0"), "gone; gone", all, (21, 2, 2));
    check("its start left behind", bare("init 1 4; load 1 4 unused 0"), bare("init 1 4"), "gone", all, DONE);
    check("14 behind zero lines", bare("init 1 0; store 1 0 0"), bare(""), "gone", all, (14, 1, 1));
    check("13 behind zero lines", bare("init 1 0; init 2 0; store 2 1 8; load 1 0 used 9"), bare("init 2 0; store 2 1 0"), "keep 1; gone", all, (13, 1, 2));
    check("15 behind zero lines", bare("init 1 1; load 1 1 used 0"), bare("init 1 1; init 2 0; load 1 1 used 0; store 2 0 0"), "keep 1", all, (15, 2, 2));
    check("16 behind zero lines", bare("init 1 1; load 1 1 used 0"), bare("init 1 1; init 2 0; load 1 1 used 0; load 2 0 unused 0"), "keep 1", all, (16, 2, 2));
    check("12 behind zero lines", bare("init 1 0; store 1 5 4; unlock 0 5"), bare("init 1 0; unlock 0 4; store 1 5 5"), "keep 2; keep 1", all, (12, 1, 2));
    check("10 behind zero lines", bare(good), bare("init 1 0; store 1 6 0"), "keep 1", all, (10, 1, 1));
}

/// All checks of C-15 that are known by hand.
pub fn checks() -> Vec<Known> {
    let mut list = List::default();
    for part in [each_kind, places, order, lines, checks_of_both] {
        part(&mut list);
    }
    list.known
}

/// The moves that are known by hand.
pub fn moves() -> Vec<KnownMove> {
    let mut moves = Moves::default();
    let mut both = |name: &str, one: &str, two: &str| moves.there_and_back(name, &trace(one), &bare(two));
    both("a zero line", "store 3 4", "init 3 0; store 3 4 0");
    both(
        "zero lines among starts",
        "init 2 5; init 4 6; load 5 0 used; load 3 0 used; load 2 5 used; load 1 0 unused",
        "init 1 0; init 2 5; init 3 0; init 4 6; init 5 0; load 5 0 used 0; load 3 0 used 0; load 2 5 used 0; load 1 0 unused 0",
    );
    both("one zero line for two events", "load 3 0 used; store 3 4", "init 3 0; load 3 0 used 0; store 3 4 0");
    both("none for a mutex or a fence", "lock 7; fence sc; unlock 7", "lock 7 0; fence sc 0; unlock 7 0");
    both("none for a mutex of a location's number", "lock 7; store 8 1; unlock 7", "init 8 0; lock 7 0; store 8 1 0; unlock 7 0");
    both("none for an untouched start", "init 9 1; lock 9", "init 9 1; lock 9 0");
    both("location 0 and location 255", "aload 255 sc 0; load 0 0 used", "init 0 0; init 255 0; aload 255 sc 0 0; load 0 0 used 0");
    both("starting at 0, whatever it ends at", "add 1 rlx 0 7; add64 1 rlx 7 1", "init 1 0; add 1 rlx 0 7 0; add64 1 rlx 7 1 0");
    let mut refused = |name: &str, lines: &str, bytes: usize, answer: Triple| moves.refused(name, Form::One, bare(lines), bytes, answer);
    refused("20", "lock 0 0; store 1 1 0", PLENTY, (20, 1, 2));
    refused("21", "init 1 1; init 2 0; lock 2 0", PLENTY, (21, 1, 3));
    refused("20 before 21", "init 2 0; store 1 1 0", PLENTY, (20, 1, 1));
    refused("20 before 19", "lock 0 5; store 1 1 0", PLENTY, (20, 1, 2));
    refused("21 before 19", "init 2 0; lock 2 5", PLENTY, (21, 1, 2));
    refused("20 before 6", "load 1 1 used 0", PLENTY, (20, 1, 1));
    refused("21 before 5", "init 1 0; init 2 0; store 1 0 0; aload 1 rlx 0 0", PLENTY, (21, 1, 3));
    refused("20 before 17", "store 1 1 0", 0, (20, 1, 1));
    refused("21 before 17", "init 2 0", 0, (21, 1, 2));
    refused("2 before 20", "store 1 1 0; store 1 1", PLENTY, (2, 1, 3));
    refused("4 before 20", "store 1 1 0; init 1 0", PLENTY, (4, 1, 3));
    refused("4 before 21", "init 2 0; init 1 0", PLENTY, (4, 1, 3));
    refused("19 behind zero lines", "init 1 0; store 1 1 0; store 1 2 9", PLENTY, (19, 1, 2));
    moves.refused("already, with 20", Form::Two, bare("store 1 1 0"), PLENTY, (2, 1, 1));
    moves.refused("already, with 21", Form::Two, bare("init 1 0"), PLENTY, (2, 1, 1));
    moves.refused("a zero line of form 1", Form::Two, trace("init 1 0; load 1 0 used"), PLENTY, (2, 1, 2));
    moves.known
}

/// The writings that are known by hand. A zero line takes 9 bytes, an event of
/// those below 10 to 12, and 2 more with its code line.
pub fn writings() -> Vec<KnownWriting> {
    let mut list = Writings::default();
    let one = bare("init 1 0; store 1 8 0");
    for text in [&one, &trace("store 1 8")] {
        for (form, size) in [(Form::One, 8 + 10), (Form::Two, 8 + 9 + 12)] {
            list.add("a zero line", form, text.clone(), 6, PLENTY, (0, 0, size));
            list.add("a zero line, bytes exactly", form, text.clone(), 6, size as usize, (0, 0, size));
            list.add("a zero line, a byte too few", form, text.clone(), 6, size as usize - 1, (17, 0, size));
        }
    }
    let mutexes = "lock 5 0; fence sc 0; unlock 5 0";
    list.add("none for a mutex or a fence", Form::Two, bare(mutexes), 18, PLENTY, (0, 0, 8 + 9 + 11 + 11));
    let starts = bare("init 1 0; init 2 5; init 3 0; init 4 6; load 3 0 used 0; load 2 5 used 0; store 1 2 0");
    list.add("zero lines among starts", Form::Two, starts.clone(), 18, PLENTY, (0, 0, 8 + 4 * 9 + 16 + 16 + 12));
    list.add("starts alone", Form::One, starts.clone(), 18, PLENTY, (0, 0, 8 + 2 * 9 + 14 + 14 + 10));
    list.add("a location that is cut off", Form::Two, starts.clone(), 12, PLENTY, (0, 0, 8 + 3 * 9 + 16 + 16));
    list.add("a start whose event is cut off", Form::Two, starts.clone(), 6, PLENTY, (0, 0, 8 + 3 * 9 + 16));
    list.add("no event left", Form::Two, starts, 0, PLENTY, (0, 0, 8 + 2 * 9));
    let mut changed = |name: &str, change, size| list.changed(name, Form::Two, "init 1 7; init 2 0; load 1 7 used 0; store 2 0 0", 12, change, (0, 0, size));
    changed("a touched location of three digits", (7, 255), 8 + 9 + 11 + 16 + 14);
    changed("a touched location that starts at 7", (7, 1), 8 + 9 + 16 + 12);
    changed("location 0", (7, 0), 8 + 9 + 9 + 16 + 12);
    changed("a mutex for a location", (6, 8), 8 + 9 + 16 + 9);
    changed("another value stored", (9, 3), 8 + 9 + 9 + 16 + 12);
    list.known
}
