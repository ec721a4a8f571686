//! Cases with a list of registers (document 02, C-16) with answers worked out by
//! hand: list texts, what a register is to every answer of a check, atomic uses,
//! form 2; moves and writings. Location 7 is a register in most of them.

use crate::cases::{filled, matching, raw, runs, text, trace, Known, List, Triple, ALL, DONE, TRACE};
use crate::forms::{coded, KnownMove, KnownWriting, Moves, Writings, CODED, PLENTY};
use crate::peer::{Form, ListFor, Locations, Word, MAX_LIST, MAX_TEXT, NO_LOCATIONS};

const REGS: &str = "regs\t1\n";

pub fn list(lines: &str) -> Vec<u8> {
    text(REGS, lines)
}

/// A list of a call, for group 1.
fn first(text: Vec<u8>) -> ListFor {
    ListFor { text, group: 1 }
}

/// A trace of form 2 as it stands.
fn bare(lines: &str) -> Vec<u8> {
    text(CODED, lines)
}

/// A list, the answer that it must get, and the locations that it lists for its group.
#[derive(Clone)]
pub struct KnownList {
    pub name: String,
    pub list: ListFor,
    pub answer: Triple,
    pub listed: Locations,
}

struct Texts {
    known: Vec<KnownList>,
}

impl Texts {
    fn good(&mut self, name: &str, locations: &[usize]) {
        let lines: String = locations.iter().map(|location| format!("reg {location};")).collect();
        let mut listed = NO_LOCATIONS;
        locations.iter().for_each(|&location| listed[location] = true);
        self.known.push(KnownList { name: name.to_string(), list: first(list(&lines)), answer: DONE, listed });
    }

    fn bad(&mut self, name: &str, text: Vec<u8>, number: u32, place: u32) {
        self.known.push(KnownList { name: name.to_string(), list: first(text), answer: (number, 4, place), listed: NO_LOCATIONS });
    }
}

/// Lines for so many registers, each three above the one before.
fn many(registers: usize) -> String {
    (0..registers).map(|register| format!("reg {};", 3 * register)).collect()
}

fn good_texts(texts: &mut Texts) {
    texts.good("header alone", &[]);
    texts.good("location 0", &[0]);
    texts.good("location 255", &[255]);
    texts.good("first and last location", &[0, 255]);
    texts.good("numbers ascend, not texts", &[1, 2, 9, 10, 11, 99, 100, 199, 200]);
    texts.good("31 registers", &(0..31).collect::<Vec<_>>());
    texts.good("32 registers", &(0..32).map(|register| 3 * register).collect::<Vec<_>>());
    texts.good("the last 32 locations", &(224..256).collect::<Vec<_>>());
}

fn bad_lines(texts: &mut Texts) {
    texts.bad("empty text", vec![], 2, 1);
    for head in [
        "\n", "regs\t1", "regs\t2", "regs\t3\n", "regs\t01\n", "regs\t1\t\n", "regs\t1\r\n", "regs 1\n", "regs\n", "Regs\t1\n", "reg\t1\n", "\nregs\t1\n", "trace\t1\n",
        "match\t1\n", "regs\t1 \n", "regs\t1\treg\t1\n",
    ] {
        texts.bad(&format!("first line {}", head.escape_debug()), raw(head, b""), 2, 1);
    }
    for line in [
        "", "reg", "reg\t", "reg\t256", "reg\t300", "reg\t00", "reg\t07", "reg\t-1", "reg\t+7", "reg\t7\t", "reg\t7\t7", "reg\t1\t7", "reg\t7\r", "reg\t7 ", " reg\t7",
        "reg 7", "reg\t\t7", "regs\t7", "regs\t1", "Reg\t7", "re\t7", "reg\ta", "reg\t0x7", "reg\t4294967296", "reg\t18446744073709551616", "init\t7\t1", "load\t7\t0\tused",
        "gone", "reg\t\u{ff17}", "reg\t7\0",
    ] {
        let name = format!("no register {}", line.escape_debug());
        texts.bad(&name, raw(REGS, format!("{line}\n").as_bytes()), 2, 2);
        texts.bad(&format!("{name}, later"), raw(REGS, format!("reg\t5\n{line}\nreg\t9\n").as_bytes()), 2, 3);
    }
    texts.bad("a byte over 127", raw(REGS, b"reg\t\xff\n"), 2, 2);
    texts.bad("no final LF", raw(REGS, b"reg\t7"), 2, 2);
    texts.bad("no final LF, later", raw(REGS, b"reg\t7\nreg\t8"), 2, 3);
    texts.bad("no final LF before 22", raw(REGS, b"reg\t7\nreg\t7"), 2, 3);
}

fn out_of_order(texts: &mut Texts) {
    let mut refused = |name: &str, lines: &str, number: u32, place: u32| texts.bad(name, list(lines), number, place);
    refused("equal", "reg 5; reg 5", 22, 3);
    refused("descending", "reg 5; reg 3", 22, 3);
    refused("descending as numbers", "reg 10; reg 9", 22, 3);
    refused("from last to first", "reg 255; reg 0", 22, 3);
    refused("location 0 twice", "reg 0; reg 0", 22, 3);
    refused("at the third", "reg 1; reg 3; reg 2; reg 4", 22, 4);
    refused("back to the first", "reg 1; reg 2; reg 1", 22, 4);
    refused("2 before 22", "reg 5; reg 256; reg 3", 2, 3);
    refused("22 before 2", "reg 5; reg 3; reg 256", 22, 3);
    refused("33 registers", &many(33), 22, 34);
    refused("34 registers", &many(34), 22, 34);
    refused("85 registers", &many(85), 22, 34);
    refused("33rd repeated", &(many(32) + "reg 93"), 22, 34);
    refused("33rd descending", &(many(32) + "reg 1"), 22, 34);
    refused("33rd malformed", &(many(32) + "reg 256"), 2, 34);
    refused("33rd blank", &(many(32) + "reg"), 2, 34);
    refused("34th malformed", &(many(33) + "reg 256"), 22, 34);
    refused("32nd descending", &(many(31) + "reg 1"), 22, 33);
    refused("32nd malformed", &(many(31) + "reg 256"), 2, 33);
    texts.bad("33rd without LF", raw(&(REGS.to_string() + &many(32).replace(' ', "\t").replace(';', "\n")), b"reg\t200"), 2, 34);
}

fn lengths(texts: &mut Texts) {
    texts.bad("over the limit", filled(REGS, "reg\t1\n", MAX_LIST + 1), 1, 0);
    texts.bad("over the limit, no list at all", vec![0xff; MAX_LIST + 1], 1, 0);
    texts.bad("at the limit", filled(REGS, "reg\t1\n", MAX_LIST), 22, 3);
    texts.bad("at the limit, blank lines", filled(REGS, "\n", MAX_LIST), 2, 2);
}

/// All list texts that are known by hand.
pub fn texts() -> Vec<KnownList> {
    let mut texts = Texts { known: vec![] };
    for part in [good_texts, bad_lines, out_of_order, lengths] {
        part(&mut texts);
    }
    texts.known
}

/// Cases under the list of these lines.
fn under(known: &mut List, lines: &str) {
    known.list = Some(first(list(lines)));
}

/// What a register is, beside the same location without a list.
fn both(known: &mut List, name: &str, source: &str, target: &str, entries: &str, listed: Triple, plain: Triple) {
    under(known, "reg 7");
    known.run(&format!("{name}, listed"), source, target, entries, listed);
    known.list = None;
    known.run(&format!("{name}, no list"), source, target, entries, plain);
    under(known, "reg 6; reg 8");
    known.run(&format!("{name}, others listed"), source, target, entries, plain);
    under(known, "");
    known.run(&format!("{name}, header alone"), source, target, entries, plain);
}

/// A register's reads return anything.
fn reads(known: &mut List) {
    let mut read = |name: &str, lines: &str, entries: &str, plain: Triple| both(known, name, lines, lines, entries, DONE, plain);
    read("a read of 3", "load 7 3 used", "keep 1", (6, 1, 1));
    read("two reads that differ", "load 7 0 used; load 7 5 used", "keep 1; keep 2", (6, 1, 2));
    read("a read beside its start", "init 7 4; load 7 9 unused", "keep 1", (6, 1, 1));
    read("a read beside what was stored", "store 7 1; load 7 9 used; load 7 1 used", "keep 1; keep 2; keep 3", (6, 1, 2));
    read("the greatest value", "load 7 18446744073709551615 used", "keep 1", (6, 1, 1));
    read("a read in a lock of its number", "lock 7; load 7 3 used; unlock 7", "keep 1; keep 2; keep 3", (6, 1, 2));
    under(known, "reg 7");
    known.bad_trace("6 beside a register", trace("load 7 3 used; load 8 1 used"), 6, 2);
    known.bad_trace("a register's value is no other's", trace("load 7 3 used; load 8 3 used"), 6, 2);
    known.bad_trace("2 at a register", trace("load 7 18446744073709551616 used"), 2, 2);
    under(known, &many(32));
    known.good_trace("32 registers read", trace(&(0..32).map(|register| format!("load {} 5 used;", 3 * register)).collect::<String>()), 32);
}

/// Kept, gone, crossed, inserted.
fn synchronising(known: &mut List) {
    let one = "load 7 0 used";
    let two = "load 7 0 used; load 7 0 used";
    both(known, "the second load gone", two, one, "keep 1; gone", (11, 1, 2), DONE);
    both(known, "the first load gone", two, one, "gone; keep 1", (11, 1, 1), (13, 1, 1));
    both(known, "an unused load gone", "load 7 0 unused", "", "gone", (11, 1, 1), DONE);
    both(known, "an overwritten store gone", "store 7 1; store 7 2", "store 7 2", "gone; keep 1", (11, 1, 1), DONE);
    both(known, "a repeated store gone", "store 7 1; store 7 1", "store 7 1", "keep 1; gone", (11, 1, 2), DONE);
    both(known, "a load of what was stored gone", "store 7 1; load 7 1 used", "store 7 1", "keep 1; gone", (11, 1, 2), DONE);
    both(known, "a store crossed", "store 7 5; store 1 6", "store 1 6; store 7 5", "keep 2; keep 1", (12, 1, 2), DONE);
    both(known, "crossed by a store", "store 1 6; store 7 5", "store 7 5; store 1 6", "keep 2; keep 1", (12, 1, 2), DONE);
    both(known, "a load crossed", "load 7 0 used; load 1 0 used", "load 1 0 used; load 7 0 used", "keep 2; keep 1", (12, 1, 2), DONE);
    both(
        known,
        "crossed by both neighbours",
        "store 1 5; load 7 0 used; store 2 6",
        "store 2 6; load 7 0 used; store 1 5",
        "keep 3; keep 2; keep 1",
        (12, 1, 2),
        DONE,
    );
    both(known, "neighbours crossed beside it", "store 1 5; store 2 6; load 7 0 used", "store 2 6; store 1 5; load 7 0 used", "keep 2; keep 1; keep 3", DONE, DONE);
    both(known, "a load inserted", one, two, "keep 1", (16, 2, 2), DONE);
    both(known, "a load inserted behind a store", "store 7 1", "store 7 1; load 7 1 unused", "keep 1", (16, 2, 2), DONE);
    both(known, "a load inserted first", "", one, "", (16, 2, 1), (16, 2, 1));
    both(known, "a store inserted", "store 7 1", "store 7 1; store 7 1", "keep 1", (15, 2, 2), (15, 2, 2));
    both(known, "a store inserted first", "", "store 7 1", "", (15, 2, 1), (15, 2, 1));
    under(known, "reg 7");
    known.run("a load of another value inserted", one, "load 7 0 used; load 7 9 unused", "keep 1", (16, 2, 2));
    known.run("a store before a load inserted", one, "load 7 0 used; store 7 1; load 7 3 used", "keep 1", (15, 2, 2));
    known.run("13 before 11", "load 1 0 used; load 7 3 used", "", "gone; gone", (13, 1, 1));
    known.run("11 before 13", "load 7 3 used; load 1 0 used", "", "gone; gone", (11, 1, 1));
    known.run("11 before 15", "load 7 3 used", "store 1 0", "gone", (11, 1, 1));
    under(known, "reg 7; reg 9");
    known.run("two registers crossed", "store 7 5; store 9 6", "store 9 6; store 7 5", "keep 2; keep 1", (12, 1, 2));
    known.run("two registers kept", "store 7 5; load 9 6 used", "store 7 5; load 9 6 unused", "keep 1; keep 2", DONE);
}

/// Near accesses do not span a register's access.
fn near(known: &mut List) {
    for (access, what) in [("load 7 0 used", "a load"), ("load 7 0 unused", "an unused load"), ("store 7 0", "a store")] {
        let mut across = |name: &str, source: &str, target: &str, entries: &str, listed: Triple, plain: Triple| {
            let [source, target] = [source, target].map(|lines| lines.replace('*', access));
            both(known, &format!("{name} across {what}"), &source, &target, entries, listed, plain);
        };
        across("13", "load 1 0 used; *; load 1 0 used", "load 1 0 used; *", "keep 1; keep 2; gone", (13, 1, 3), DONE);
        across("13 after a store", "store 1 5; *; load 1 5 used", "store 1 5; *", "keep 1; keep 2; gone", (13, 1, 3), DONE);
        across("14, overwritten", "store 1 5; *; store 1 7", "*; store 1 7", "gone; keep 1; keep 2", (14, 1, 1), DONE);
        across("14, written again", "store 1 5; *; store 1 5", "store 1 5; *", "keep 1; keep 2; gone", (14, 1, 3), DONE);
        across("14, written back", "load 1 0 used; *; store 1 0", "load 1 0 used; *", "keep 1; keep 2; gone", (14, 1, 3), DONE);
        across("16", "store 1 5; *", "store 1 5; *; load 1 5 used", "keep 1; keep 2", (16, 2, 3), DONE);
        across("an unused load gone", "*; load 1 0 unused", "*", "keep 1; gone", DONE, DONE);
        across("a removal before", "store 1 5; store 1 6; *", "store 1 6; *", "gone; keep 1; keep 2", DONE, DONE);
        across("a removal behind", "*; store 1 5; load 1 5 used", "*; store 1 5", "keep 1; keep 2; gone", DONE, DONE);
        across("an insertion behind", "*; store 1 5", "*; store 1 5; load 1 5 used", "keep 1; keep 2", DONE, DONE);
    }
    under(known, "reg 7");
    known.run("near across another location", "store 1 5; load 8 0 used; store 1 7", "load 8 0 used; store 1 7", "gone; keep 1; keep 2", DONE);
    known.run("near between two reads", "load 7 1 used; store 1 5; store 1 6; load 7 2 used", "load 7 1 used; store 1 6; load 7 2 used", "keep 1; gone; keep 2; keep 3", DONE);
}

/// A kept access still equals its target, marks apart.
fn kept(known: &mut List) {
    under(known, "reg 7; reg 9");
    known.run("10, another value", "load 7 3 used", "load 7 4 used", "keep 1", (10, 1, 1));
    known.run("10, another value stored", "store 7 3", "store 7 4", "keep 1", (10, 1, 1));
    known.run("10, a store for a load", "load 7 3 used", "store 7 3", "keep 1", (10, 1, 1));
    known.run("10, another register", "load 7 3 used", "load 9 3 used", "keep 1", (10, 1, 1));
    known.run("10, no register", "load 7 0 used", "load 8 0 used", "keep 1", (10, 1, 1));
    known.run("10 before 12", "load 7 3 used; load 9 4 used", "load 9 5 used; load 7 3 used", "keep 2; keep 1", (10, 1, 2));
    known.run("marks apart", "load 7 3 used; load 9 4 unused", "load 7 3 unused; load 9 4 used", "keep 1; keep 2", DONE);
    known.run("8 with a list", "load 7 3 used", "load 7 3 used", "", (8, 3, 0));
    known.run("9 with a list", "load 7 3 used; load 7 3 used", "load 7 3 used", "keep 1; keep 1", (9, 3, 2));
}

/// Starting values of registers are set apart.
fn starts(known: &mut List) {
    both(known, "other starts", "init 7 1", "init 7 2", "", DONE, (7, 2, 7));
    both(known, "a start in the source alone", "init 7 1", "", "", DONE, (7, 2, 7));
    both(known, "a start in the target alone", "", "init 7 1", "", DONE, (7, 2, 7));
    both(known, "other starts, a store kept", "init 7 1; store 7 5", "init 7 2; store 7 5", "keep 1", DONE, (7, 2, 7));
    both(known, "7 before a register", "init 5 1; init 7 1", "init 7 2", "", (7, 2, 5), (7, 2, 5));
    both(known, "7 behind a register", "init 7 1; init 9 1", "init 7 2; init 9 2", "", (7, 2, 9), (7, 2, 7));
    both(known, "7 before 8", "init 7 1; init 9 1", "init 7 2; init 9 2", "keep 1", (7, 2, 9), (7, 2, 7));
    both(known, "8 where a start differs", "init 7 1", "", "keep 1", (8, 3, 1), (7, 2, 7));
    under(known, "reg 0; reg 255");
    known.run("other starts at 0 and 255", "init 0 1; init 255 1", "init 0 2", "", DONE);
    known.run("7 at 254", "init 0 1; init 254 1; init 255 1", "init 0 2", "", (7, 2, 254));
}

/// Every atomic use of location 7, which holds 0.
const ATOMIC: [&str; 6] = ["aload 7 rlx 0", "astore 7 rel 5", "rmw 7 ar 0 5", "add 7 sc 0 5", "add64 7 acq 0 5", "cmpfail 7 rlx 0"];

fn atomic_uses(known: &mut List) {
    for event in ATOMIC {
        known.list = None;
        known.good_trace("an atomic use, no list", trace(event), 1);
        under(known, "reg 6; reg 8");
        known.good_trace("an atomic use, others listed", trace(event), 1);
        under(known, "reg 7");
        known.bad_trace("an atomic use", trace(event), 5, 1);
        known.bad_trace("an atomic use after a plain one", trace(&format!("load 7 3 used; lock 7; {event}")), 5, 3);
        known.bad_trace("an atomic use before a plain one", trace(&format!("{event}; load 7 3 used")), 5, 1);
        known.bad_trace("5 before a later 6", trace(&format!("{event}; load 8 1 used")), 5, 1);
        known.bad_trace("6 before a later 5", trace(&format!("load 8 1 used; {event}")), 6, 1);
        known.bad_trace("2 before 5 of a register", trace(&format!("{event}; lock")), 2, 3);
        known.bad_trace("an atomic use in form 2", coded(&format!("{event} 0")), 5, 1);
    }
    known.bad_trace("5 and 6 at one event", trace("aload 7 rlx 9"), 5, 1);
    known.bad_trace("5 at another location", trace("load 7 3 used; store 8 1; aload 8 rlx 1"), 5, 3);
    known.bad_trace("5 at another location, atomic first", trace("aload 8 rlx 0; store 8 1; aload 7 rlx 0"), 5, 2);
    known.good_trace("an atomic use beside a register", trace("astore 8 rel 1; load 7 3 used; aload 8 acq 1; store 7 2"), 4);
}

/// A mutex is no location, and a fence has none.
fn no_locations(known: &mut List) {
    under(known, "reg 0; reg 7");
    for event in ["lock 7", "unlock 7", "lock 0", "fence sc", "fence rel"] {
        known.good_trace("no location", trace(event), 1);
        known.run("no location, gone", event, "", "gone", (11, 1, 1));
        known.run("no location, without a source", "", event, "", (15, 2, 1));
        let [there, crossed] = [format!("{event}; store 1 5"), format!("store 1 5; {event}")];
        known.run("no location, crossed", &there, &crossed, "keep 2; keep 1", (12, 1, 2));
        known.bad_trace("no location before a register", trace(&format!("{event}; aload 7 rlx 0")), 5, 2);
    }
}

/// Starting values of form 2 are wanted of registers too.
fn form_2(known: &mut List) {
    under(known, "reg 7");
    known.bad_trace("20 at a register", bare("load 7 3 used 5"), 20, 1);
    known.bad_trace("20 at a register, stored", bare("lock 7 1; store 7 3 5"), 20, 2);
    known.bad_trace("20 before 5 of a register", bare("aload 7 rlx 0 5"), 20, 1);
    known.bad_trace("21 of a register", bare("init 7 0; lock 7 5"), 21, 2);
    known.bad_trace("4 of a register", bare("init 7 0; init 7 0; load 7 3 used 1"), 4, 3);
    known.good_trace("a zero line of a register", bare("init 7 0; load 7 3 used 5; load 7 4 used 5"), 2);
    known.good_trace("a start of a register", bare("init 7 9; load 7 3 used 5"), 1);
    known.good_trace("a start of a register that nothing touches", bare("init 7 9"), 0);
    known.bad_trace("6 in form 2 beside a register", bare("init 7 0; init 8 0; load 7 3 used 1; load 8 3 used 2"), 6, 2);
    let all = [ALL; 3];
    let mut check = |name: &str, source: Vec<u8>, target: Vec<u8>, entries: &str, answer: Triple| known.add(name, source, target, matching(entries), all, answer);
    check("other starts in both forms", bare("init 7 3; load 7 9 used 1"), trace("load 7 9 used"), "keep 1", DONE);
    check("other starts in form 2", bare("init 7 3; load 7 9 used 1"), bare("init 7 0; load 7 9 used 2"), "keep 1", DONE);
    check("11 in form 2", bare("init 7 0; load 7 3 used 41; load 7 3 used 42"), bare("init 7 0; load 7 3 used 41"), "keep 1; gone", (11, 1, 2));
    check("16 in form 2", bare("init 7 0; load 7 3 used 41"), bare("init 7 0; load 7 3 used 41; load 7 3 used 42"), "keep 1", (16, 2, 2));
}

/// The list comes before everything.
fn ahead(known: &mut List) {
    let good = trace("load 7 3 used");
    let refused = [
        ("an empty list", vec![], (2, 4, 1)),
        ("another list's form", raw("regs\t3\n", b""), (2, 4, 1)),
        ("a malformed list", list("reg 7; reg 256"), (2, 4, 3)),
        ("a list out of order", list("reg 7; reg 7"), (22, 4, 3)),
        ("33 registers", list(&many(33)), (22, 4, 34)),
    ];
    for (name, list, answer) in refused {
        known.list = Some(first(list));
        for (what, source) in [("a good source", &good), ("no source", &vec![]), ("a bad source", &trace("lock"))] {
            known.add(&format!("{name}, {what}"), source.clone(), good.clone(), matching("keep 1"), [ALL; 3], answer);
        }
        known.add(&format!("{name}, no room"), good.clone(), good.clone(), matching("keep 1"), [0; 3], answer);
        known.add(&format!("{name}, all bad"), trace("lock"), trace("lock"), matching("kept"), [0; 3], answer);
    }
    known.add("33 registers, a long source", filled(TRACE, "lock\t0\n", MAX_TEXT + 1), good.clone(), matching(""), [ALL; 3], (22, 4, 34));
    known.list = Some(first(filled(REGS, "reg\t1\n", MAX_LIST + 1)));
    known.add("a list over its limit", trace("lock"), vec![], vec![], [0; 3], (1, 4, 0));
    under(known, "reg 7");
    let mut rooms = |name: &str, rooms: [usize; 3], answer: Triple| known.add(name, good.clone(), good.clone(), matching("keep 1"), rooms, answer);
    rooms("17 of the source with a list", [0, 1, 1], (17, 1, 1));
    rooms("17 of the target with a list", [1, 0, 1], (17, 2, 1));
    rooms("17 of the matching with a list", [1, 1, 0], (17, 3, 1));
    rooms("room exactly with a list", [1, 1, 1], DONE);
    known.bad_matching("2 of a matching with a list", matching("kept"), 2, 2);
    known.run("5 of the target with a list", "load 7 3 used", "aload 7 rlx 0", "keep 1", (5, 2, 1));
    known.bad_trace("3 with a list", trace(&"lock 0;".repeat(801)), 3, 802);
    known.add("1 of the source with a list", filled(TRACE, "lock\t0\n", MAX_TEXT + 1), vec![], vec![], [ALL; 3], (1, 1, 0));
}

/// The runs of the requirement beside a register that they do not use.
fn runs_beside(known: &mut List) {
    under(known, "reg 200");
    for Known { name, case, answer } in runs().into_iter().filter(|known| known.case.source.len() + known.case.target.len() < 1_000) {
        known.add(&format!("{name}, beside a register"), case.source, case.target, case.matching, case.rooms, answer);
    }
}

/// The texts of an example.
macro_rules! example {
    ($name:literal) => {
        [
            include_bytes!(concat!("../examples/", $name, "/source")).to_vec(),
            include_bytes!(concat!("../examples/", $name, "/target")).to_vec(),
            include_bytes!(concat!("../examples/", $name, "/matching")).to_vec(),
        ]
    };
}

/// The examples with their list, and without one, where a register's load that is
/// gone would be accepted.
pub fn examples() -> Vec<Known> {
    let mut known = List::default();
    let lists = [Some(first(include_bytes!("../examples/sensor/list").to_vec())), None];
    let mut add = |name: &str, [source, target, matching]: [Vec<u8>; 3], answers: [Triple; 2]| {
        for (list, answer) in lists.iter().zip(answers) {
            known.list = list.clone();
            known.add(name, source.clone(), target.clone(), matching.clone(), [ALL; 3], answer);
        }
    };
    add("example sensor", example!("sensor"), [(11, 1, 3), DONE]);
    add("example poll", example!("poll"), [DONE, (6, 1, 4)]);
    known.known
}

/// All checks with a list that are known by hand, and some beside them without one.
pub fn checks() -> Vec<Known> {
    let mut known = List::default();
    for part in [reads, synchronising, near, kept, starts, atomic_uses, no_locations, form_2, ahead, runs_beside] {
        part(&mut known);
    }
    known.known
}

/// The moves that are known by hand.
pub fn moves() -> Vec<KnownMove> {
    let mut moves = Moves { list: Some(first(list("reg 7"))), ..Moves::default() };
    moves.there_and_back("a register", &trace("load 7 3 used"), &bare("init 7 0; load 7 3 used 0"));
    moves.there_and_back(
        "a register's start",
        &trace("init 7 4; load 7 9 used; store 7 1; load 7 5 unused"),
        &bare("init 7 4; load 7 9 used 0; store 7 1 0; load 7 5 unused 0"),
    );
    moves.there_and_back("a lock of its number", &trace("lock 7; load 7 1 used; unlock 7"), &bare("init 7 0; lock 7 0; load 7 1 used 0; unlock 7 0"));
    moves.refused("5 of a register", Form::Two, trace("lock 7; aload 7 rlx 0"), PLENTY, (5, 1, 2));
    moves.refused("6 beside a register", Form::Two, trace("load 7 3 used; load 8 3 used"), PLENTY, (6, 1, 2));
    moves.refused("20 at a register", Form::One, bare("load 7 3 used 0"), PLENTY, (20, 1, 1));
    moves.refused("21 of a register", Form::One, bare("init 7 0; lock 7 0"), PLENTY, (21, 1, 2));
    moves.refused("5 before 19", Form::One, bare("init 7 0; aload 7 rlx 0 9"), PLENTY, (5, 1, 1));
    moves.refused("19 at a register", Form::One, bare("init 7 0; load 7 3 used 9"), PLENTY, (19, 1, 1));
    for (lines, number, place) in [("reg 7; reg 7", 22, 3), ("reg 256", 2, 2)] {
        moves.list = Some(first(list(lines)));
        for to in [Form::One, Form::Two] {
            for text in [trace("load 7 3 used"), bare("init 7 0; load 7 3 used 0"), trace("lock"), vec![]] {
                moves.refused("a list refused", to, text.clone(), PLENTY, (number, 4, place));
                moves.refused("a list refused, no bytes", to, text, 0, (number, 4, place));
            }
        }
    }
    for lines in ["", "reg 8"] {
        moves.list = Some(first(list(lines)));
        moves.refused("6 at no register", Form::Two, trace("load 7 3 used"), PLENTY, (6, 1, 1));
        moves.there_and_back("an atomic use of no register", &trace("aload 7 rlx 0"), &bare("init 7 0; aload 7 rlx 0 0"));
    }
    moves.known
}

/// The writings that are known by hand: a load of location 7 with another value put
/// in the room, atomic uses, and lists that are refused.
pub fn writings() -> Vec<KnownWriting> {
    let mut known = Writings::default();
    let read: (usize, Word) = (3, 9);
    for (form, size) in [(Form::One, 8 + 14), (Form::Two, 8 + 9 + 16)] {
        let mut changed = |lines: Option<&str>, name: &str, events: &str, words: usize, change, answer| {
            known.list = lines.map(list).map(first);
            known.changed(name, form, events, words, change, answer);
        };
        changed(Some("reg 7"), "a register's value", "load 7 0 used 0", 6, read, (0, 0, size));
        changed(None, "no list", "load 7 0 used 0", 6, read, (6, 0, 1));
        changed(Some(""), "header alone", "load 7 0 used 0", 6, read, (6, 0, 1));
        changed(Some("reg 8"), "no register", "load 7 0 used 0", 6, read, (6, 0, 1));
        changed(Some("reg 7"), "6 beside a register", "load 8 0 used 0; load 7 0 used 0", 12, read, (6, 0, 1));
        changed(Some("reg 7"), "a register for an atomic location", "aload 8 rlx 0 0", 6, (1, 7), (5, 0, 1));
        changed(Some("reg 7"), "6 before a later 5", "load 8 0 used 0; aload 7 rlx 0 0", 12, read, (6, 0, 1));
        changed(Some("reg 7"), "5 before a later 6", "aload 7 rlx 0 0; load 8 0 used 0", 12, (9, 9), (5, 0, 1));
        changed(Some("reg 7"), "18 before 5", "aload 7 rlx 0 0; lock 0 0", 12, (6, 12), (18, 0, 2));
        changed(Some("reg 7; reg 7"), "a list refused before 18", "load 7 0 used 0", 6, (0, 12), (22, 4, 3));
        changed(Some("reg 07"), "a list refused before 6", "load 7 0 used 0", 6, read, (2, 4, 2));
        known.list = Some(first(list("reg 7")));
        known.add("a mutex of its number", form, coded("lock 7 0"), 6, PLENTY, (0, 0, if form == Form::One { 8 + 7 } else { 8 + 9 }));
        known.add("an atomic use", form, coded("aload 7 rlx 0 0"), 6, PLENTY, (5, 0, 1));
        known.add("17 with a list", form, coded("load 7 0 used 0"), 6, 0, (17, 0, size));
        known.add("cut short", form, coded("aload 7 rlx 0 0"), 5, PLENTY, (18, 0, 1));
        known.list = Some(first(list(&many(33))));
        known.add("a list refused before 17", form, coded("load 7 0 used 0"), 6, 0, (22, 4, 34));
        known.add("a list refused, 801 events", form, coded(""), 4_801, PLENTY, (22, 4, 34));
    }
    known.list = Some(first(list("reg 7")));
    known.add("19 at a register", Form::One, coded("load 7 0 used 4"), 6, PLENTY, (19, 0, 1));
    known.add("5 before 19", Form::One, coded("aload 7 rlx 0 4"), 6, PLENTY, (5, 0, 1));
    known.known
}
