//! Cases with answers worked out by hand: the runs of the requirement, and the
//! limits of every number, count, line and room. `forms.rs` has those of form 2,
//! `counters.rs` those of counters of 64 bits, `lists.rs` those with registers.

use crate::peer::{ListFor, MAX_MATCHING, MAX_TEXT};

pub type Triple = (u32, u32, u32);

pub const ALL: usize = 800;

/// What a check is handed, with a list or without one; the rooms as events, events
/// and entries.
#[derive(Clone)]
pub struct Case {
    pub list: Option<ListFor>,
    pub source: Vec<u8>,
    pub target: Vec<u8>,
    pub matching: Vec<u8>,
    pub rooms: [usize; 3],
}

impl Case {
    pub fn texts(&self) -> [&[u8]; 3] {
        [&self.source, &self.target, &self.matching]
    }

    pub fn list(&self) -> Option<&ListFor> {
        self.list.as_ref()
    }
}

/// A case with the answer that it must get.
#[derive(Clone)]
pub struct Known {
    pub name: String,
    pub case: Case,
    pub answer: Triple,
}

pub const DONE: Triple = (0, 0, 0);
pub const TRACE: &str = "trace\t1\n";
pub const MATCH: &str = "match\t1\n";

/// The text of lines written as in the requirement: fields parted by a blank,
/// lines by `;`.
pub fn text(head: &str, lines: &str) -> Vec<u8> {
    let mut text = head.to_string();
    for line in lines.split(';').map(str::trim).filter(|line| !line.is_empty()) {
        text += &line.replace(' ', "\t");
        text.push('\n');
    }
    text.into_bytes()
}

pub fn trace(lines: &str) -> Vec<u8> {
    text(TRACE, lines)
}

pub fn matching(lines: &str) -> Vec<u8> {
    text(MATCH, lines)
}

/// A matching that keeps `count` events where they are.
pub fn keep_all(count: usize) -> Vec<u8> {
    let mut text = MATCH.to_string();
    for number in 1..=count {
        text += &format!("keep\t{number}\n");
    }
    text.into_bytes()
}

pub fn raw(head: &str, rest: &[u8]) -> Vec<u8> {
    [head.as_bytes(), rest].concat()
}

/// Cases being listed, all with the same list of registers or none.
#[derive(Default)]
pub struct List {
    pub known: Vec<Known>,
    pub list: Option<ListFor>,
}

impl List {
    pub fn add(&mut self, name: &str, source: Vec<u8>, target: Vec<u8>, matching: Vec<u8>, rooms: [usize; 3], answer: Triple) {
        let case = Case { list: self.list.clone(), source, target, matching, rooms };
        self.known.push(Known { name: name.to_string(), case, answer });
    }

    /// A case in the notation of the requirement, with all the room there is.
    pub fn run(&mut self, name: &str, source: &str, target: &str, entries: &str, answer: Triple) {
        self.add(name, trace(source), trace(target), matching(entries), [ALL; 3], answer);
    }

    /// A source text that is refused, and the same text as a target.
    pub fn bad_trace(&mut self, name: &str, text: Vec<u8>, number: u32, place: u32) {
        self.add(&format!("{name}, source"), text.clone(), trace(""), matching(""), [ALL; 3], (number, 1, place));
        self.add(&format!("{name}, target"), trace(""), text, matching(""), [ALL; 3], (number, 2, place));
    }

    pub fn bad_matching(&mut self, name: &str, text: Vec<u8>, number: u32, place: u32) {
        self.add(name, trace(""), trace(""), text, [ALL; 3], (number, 3, place));
    }

    /// A lawful trace of so many events, kept as it is.
    pub fn good_trace(&mut self, name: &str, text: Vec<u8>, events: usize) {
        self.add(name, text.clone(), text, keep_all(events), [ALL; 3], DONE);
    }

    /// A line that is not of the layout, among good ones, as line 3.
    fn bad_line(&mut self, line: &[u8]) {
        let name = format!("bad line {}", String::from_utf8_lossy(line).escape_debug());
        let text = [b"trace\t1\nstore\t9\t5\n".as_slice(), line, b"\nstore\t9\t6\n"].concat();
        self.bad_trace(&name, text, 2, 3);
    }

    fn bad_entry(&mut self, line: &[u8]) {
        let name = format!("bad entry {}", String::from_utf8_lossy(line).escape_debug());
        let text = [b"match\t1\ngone\n".as_slice(), line, b"\nkeep\t1\n"].concat();
        self.bad_matching(&name, text, 2, 3);
    }
}

/// The runs of the requirement.
pub fn runs() -> Vec<Known> {
    let mut list = List::default();
    list.run("P1", "", "", "", DONE);
    list.run("P2", "load 1 0 used; load 1 0 used", "load 1 0 used", "keep 1; gone", DONE);
    list.run("P3", "load 1 0 used; load 1 0 used", "load 1 0 used", "gone; keep 1", (13, 1, 1));
    list.run("P4", "store 1 5; store 1 7", "store 1 7", "gone; keep 1", DONE);
    list.run("P5", "store 1 5; lock 0; store 1 7", "lock 0; store 1 7", "gone; keep 1; keep 2", (14, 1, 1));
    list.run("P6", "load 1 0 used; store 1 4; store 1 0", "load 1 0 used", "keep 1; gone; gone", DONE);
    list.run("P7", "store 1 0", "", "gone", (14, 1, 1));
    list.run("P8", "load 1 0 unused; store 1 0", "", "gone; gone", DONE);
    list.run("P9", "store 1 5; store 2 6", "store 2 6; store 1 5", "keep 2; keep 1", DONE);
    list.run("P10", "store 1 5; unlock 0", "unlock 0; store 1 5", "keep 2; keep 1", (12, 1, 2));
    list.run("P11", "init 1 1; load 1 1 used", "init 1 1; load 1 1 used; store 2 0", "keep 1", (15, 2, 2));
    let unused = "init 1 1; load 1 1 used; load 2 0 unused; store 2 0";
    list.run("P11 with a load before", "init 1 1; load 1 1 used", unused, "keep 1", (16, 2, 2));
    list.run("P12", "store 1 5", "store 1 5; load 1 5 used", "keep 1", DONE);
    list.run(
        "run: the start is no witness, 14 at 1",
        "init 1 1; store 1 1; load 1 1 used; store 1 2",
        "init 1 1; load 1 1 used; store 1 2",
        "gone; keep 1; keep 2",
        (14, 1, 1),
    );
    let stores = |range: std::ops::RangeInclusive<u32>| -> String { range.map(|place| format!("store {place} 7;")).collect() };
    let keeps: String = (1..=8).map(|number| format!("keep {number};")).collect();
    list.run(
        "run: ninth and tenth exchanged, 12 at 10",
        &(stores(1..=9) + "unlock 0"),
        &(stores(1..=8) + "unlock 0; store 9 7"),
        &(keeps + "keep 10; keep 9"),
        (12, 1, 10),
    );
    let wrap = "init 3 4294967295; add 3 rlx 4294967295 2; aload 3 rlx 1";
    list.run("run: the sum wraps", wrap, wrap, "keep 1; keep 2", DONE);
    list.bad_trace("run: plain and atomic, 5 at 2", trace("store 3 1; aload 3 rlx 1"), 5, 2);
    list.run("run: both kept as 1, 9 at 2", "load 1 0 used; load 1 0 used", "load 1 0 used", "keep 1; keep 1", (9, 3, 2));
    list.good_trace("run: 800 events", trace(&"lock 0;".repeat(800)), 800);
    list.bad_trace("run: 801 events, 3", trace(&"lock 0;".repeat(801)), 3, 802);
    list.good_trace("run: value 4294967295", trace("store 1 4294967295"), 1);
    list.good_trace("run: value 4294967296, which document 02 reads", trace("store 1 4294967296"), 1);
    list.bad_trace("run: value 007, 2", trace("store 1 007"), 2, 2);
    list.known
}

fn numbers(list: &mut List) {
    for line in ["load\t{}\t0\tused", "store\t{}\t0", "aload\t{}\trlx\t0", "astore\t{}\trel\t0", "rmw\t{}\tar\t0\t0", "add\t{}\tsc\t0\t0", "lock\t{}", "unlock\t{}"] {
        for good in ["0", "9", "10", "99", "100", "199", "254", "255"] {
            list.good_trace("place", text(TRACE, &line.replace("{}", good)), 1);
        }
        for bad in ["256", "00", "01", "007", "0255", "1000", "65536", "4294967296", "+1", "-1", ""] {
            list.bad_line(line.replace("{}", bad).as_bytes());
        }
    }
    for (line, narrow) in [("store\t9\t{}", false), ("astore\t8\trlx\t{}", false), ("rmw\t8\tsc\t0\t{}", false), ("add\t8\tacq\t0\t{}", true)] {
        for good in ["0", "1", "10", "2147483648", "4294967290", "4294967294", "4294967295"] {
            list.good_trace("value", text(TRACE, &line.replace("{}", good)), 1);
        }
        for wide in ["4294967296", "4294967300", "5000000000", "9999999999", "10000000000", "42949672950", "18446744073709551615"] {
            let line = line.replace("{}", wide);
            if narrow {
                list.bad_line(line.as_bytes());
            } else {
                list.good_trace("value of 64 bits", text(TRACE, &line), 1);
            }
        }
        for bad in [
            "18446744073709551616", "18446744073709551617", "99999999999999999999999999999999999999999", "00", "007",
            "04294967295", "+1", "-1", "-0", "+0", " 1", "1 ", "", "0x1", "1.0", "1e3", "1,000", "1_000", "a", "/", ":",
            "\u{ff11}",
        ] {
            list.bad_line(line.replace("{}", bad).as_bytes());
        }
    }
    for (line, start) in [("load\t9\t{}\tunused", 9), ("aload\t9\tsc\t{}", 9), ("rmw\t9\trel\t{}\t1", 9), ("add\t9\tar\t{}\t1", 9)] {
        for value in ["1", "4294967295"] {
            let text = format!("init\t{start}\t{value};{}", line.replace("{}", value));
            list.good_trace("value read", trace(&text), 1);
        }
        for bad in ["18446744073709551616", "01", "", "+0"] {
            list.bad_line(line.replace("{}", bad).as_bytes());
        }
    }
}

/// Every kind with every order, lawful or not.
fn orders(list: &mut List) {
    let words = ["rlx", "acq", "rel", "ar", "sc", "used", "unused", "con", "acqrel", "", "RLX", "rl", "rlxx", "s", "a"];
    let table = [
        ("load\t1\t0\t{}", "used unused"),
        ("aload\t1\t{}\t0", "rlx acq sc"),
        ("astore\t1\t{}\t0", "rlx rel sc"),
        ("rmw\t1\t{}\t0\t3", "rlx acq rel ar sc"),
        ("add\t1\t{}\t0\t3", "rlx acq rel ar sc"),
        ("fence\t{}", "acq rel ar sc"),
        ("store\t1\t{}\t0", ""),
        ("lock\t{}", ""),
    ];
    for (line, suiting) in table {
        for word in words {
            let line = line.replace("{}", word);
            if suiting.split(' ').any(|suits| suits == word && !word.is_empty()) {
                list.good_trace("order", text(TRACE, &line), 1);
            } else {
                list.bad_line(line.as_bytes());
            }
        }
    }
}

fn layouts(list: &mut List) {
    let bad_lines: &[&[u8]] = &[
        b"", b"\t", b" ", b"\r", b"\0", b"\xff", b"load", b"load\t", b"load\t1", b"load\t1\t0", b"load\t1\t0\t",
        b"load\t1\t0\tused\t", b"load\t1\t0\tused\t1", b"load\t1\t0\tused ", b"load\t1\t0\tused\r", b"load\t1\t0\tused\0",
        b"load\t1\t0\tuse", b"load\t1\t0\tuseds", b"load\t1\t\tused", b"load\t\t0\tused", b"load\t\t1\t0\tused",
        b"\tload\t1\t0\tused", b"load 1 0 used", b"Load\t1\t0\tused", b"LOAD\t1\t0\tused", b"loads\t1\t0\tused",
        b"loa\t1\t0\tused", b"load\t1\t0\tused\xff", b"load\t1\xff\t0\tused", b"\xffload\t1\t0\tused", b"load\x001\t0\tused",
        b"store\t1", b"store\t1\t", b"store\t1\t0\t", b"store\t1\t0\tused", b"store\t1\t0\r", b"store\t1\t0\0", b"store1\t0",
        b"store\t\t1\t0", b"store\t1\t\t0", b"aload\t1\t0", b"aload\t1\t0\trlx", b"aload\t1\trlx", b"aload\t1\trlx\t0\t",
        b"aload\t1\trlx\t0\t0", b"astore\t1\trlx", b"astore\t1\trlx\t", b"astore\t1\t0\trlx", b"rmw\t1\trlx\t0",
        b"rmw\t1\trlx\t0\t", b"rmw\t1\trlx\t0\t1\t", b"rmw\t1\trlx\t0\t1\t2", b"rmw\t1\t0\t1\trlx", b"add\t1\trlx\t0",
        b"add\t1\trlx\t0\t1\t", b"add\t1\trlx", b"fence", b"fence\t", b"fence\t0\tsc", b"fence\tsc\t", b"fence\tsc\t0",
        b"fence\tsc\r", b"lock", b"lock\t", b"lock\t0\t", b"lock\t0\t0", b"lock\t0\r", b"unlock", b"unlock\t0\t",
        b"unlock\t0 ", b"unlocks\t0", b"init", b"init\t1", b"init\t1\t", b"init\t1\t2\t", b"init\t1\t2\t3", b"init\t256\t1",
        b"init\t01\t1", b"init\t1\t01", b"init\t1\t18446744073709551616", b"init\t1\t+1", b"trace\t1", b"match\t1", b"gone", b"keep\t1",
        b"cmpfail\t1\trlx\t0\t1", b"nop", b"0", b"#",
    ];
    for line in bad_lines {
        list.bad_line(line);
    }
    let bad_heads: &[&[u8]] = &[
        b"", b"\n", b"\n\n", b"trace\t1", b"trace", b"t", b"trace\t3\n", b"trace\t1\t\n", b"trace\t01\n", b"trace 1\n",
        b"Trace\t1\n", b"trace\t1\r\n", b"\ntrace\t1\n", b"trace\t1\0\n", b"\xef\xbb\xbftrace\t1\n", b"match\t1\n",
        b"trace\t1 \n", b"trace\t10\n", b"trace\n1\n", b"trace\t\n", b"\0", b"\xff", b"\r\n",
    ];
    for head in bad_heads {
        list.bad_trace("bad first line", head.to_vec(), 2, 1);
    }
    list.bad_trace("first line repeated", b"trace\t1\ntrace\t1\n".to_vec(), 2, 2);
    list.bad_trace("blank line after the first", b"trace\t1\n\nlock\t0\n".to_vec(), 2, 2);
    list.bad_trace("blank line at the end", b"trace\t1\nlock\t0\n\n".to_vec(), 2, 3);
    list.bad_trace("CR LF everywhere but first", b"trace\t1\nlock\t0\r\nlock\t0\r\n".to_vec(), 2, 2);
    list.bad_trace("LF CR", b"trace\t1\n\rlock\t0\n".to_vec(), 2, 2);
    list.bad_trace("the lower of two bad lines", b"trace\t1\nlock\t0\nlock\nlock\n".to_vec(), 2, 3);
    for line in ["lock\t0", "load\t1\t0\tused", "load\t1\t0\tuse", "store\t1\t0", "rmw\t1\trlx\t0\t1", "fence\tsc", "init\t1\t1", "l", "\t"] {
        list.bad_trace("no final LF", raw(TRACE, line.as_bytes()), 2, 2);
        let after = [b"trace\t1\nfence\tacq\n".as_slice(), line.as_bytes()].concat();
        list.bad_trace("no final LF", after, 2, 3);
    }
}

fn inits(list: &mut List) {
    list.good_trace("init alone", trace("init 0 1"), 0);
    list.good_trace("init ascending", trace("init 0 1; init 1 1; init 255 4294967295"), 0);
    list.bad_trace("init descending", trace("init 2 1; init 1 1"), 4, 3);
    list.bad_trace("init repeated", trace("init 2 1; init 2 1"), 4, 3);
    list.bad_trace("init 9 after 10", trace("init 10 1; init 9 1"), 4, 3);
    list.bad_trace("init repeated, 0", trace("init 0 1; init 0 1"), 4, 3);
    list.bad_trace("init repeated, 255", trace("init 255 1; init 255 1"), 4, 3);
    list.bad_trace("init of 0", trace("init 2 0"), 2, 2);
    list.bad_trace("init of 0, descending", trace("init 2 1; init 1 0"), 2, 3);
    list.bad_trace("init after an event", trace("lock 0; init 2 1"), 4, 3);
    list.bad_trace("init of 0 after an event", trace("lock 0; init 2 0"), 2, 3);
    list.bad_trace("init bad after an event", trace("lock 0; init 256 1"), 2, 3);
    list.bad_trace("init late, no LF", b"trace\t1\nlock\t0\ninit\t2\t1".to_vec(), 2, 3);
    list.bad_trace("init late, then a bad line", trace("lock 0; init 2 1; lock"), 4, 3);
    list.bad_trace("bad line, then init late", trace("lock 0; lock; init 2 1"), 2, 3);
    list.bad_trace("init descending before 6", trace("init 2 1; init 1 1; load 2 0 used"), 4, 3);
    let full: String = (0..256).map(|location| format!("init {location} {};", location + 1)).collect();
    list.good_trace("256 init lines", trace(&full), 0);
    list.bad_trace("257 init lines", trace(&(full.clone() + "init 255 1")), 4, 258);
    list.good_trace("256 init lines and events", trace(&(full + "load 255 256 used; load 0 1 used")), 2);
    list.run("starts differ at 0", "init 0 1", "", "", (7, 2, 0));
    list.run("starts differ at 255", "", "init 255 1", "", (7, 2, 255));
    list.run("starts differ, lowest of two", "init 3 1; init 9 1", "init 3 2; init 10 1", "", (7, 2, 3));
    list.run("starts differ before 8", "init 3 1; lock 0", "", "", (7, 2, 3));
    list.run("starts differ, though overwritten", "init 3 1; store 3 0", "store 3 0", "keep 1", (7, 2, 3));
}

fn values(list: &mut List) {
    list.run("6 at 1 before 5 at 2", "load 1 9 used; aload 1 rlx 0", "", "", (6, 1, 1));
    list.run("5 before 6 at one event", "load 1 0 used; aload 1 rlx 9", "", "", (5, 1, 2));
    list.run("5 at 2 before 6 at 3", "load 1 0 used; aload 1 rlx 0; load 1 9 used", "", "", (5, 1, 2));
    list.run("5, atomic first", "astore 7 sc 1; lock 7; store 7 1", "", "", (5, 1, 3));
    list.run("6 of a target", "", "init 4 2; lock 4; load 4 0 unused", "", (6, 2, 2));
    list.run("2 before 6", "load 1 9 used; lock", "", "", (2, 1, 3));
    list.run("source 6 before target 2", "load 1 9 used", "lock", "", (6, 1, 1));
    list.run("mutex and location of one number", "lock 1; store 1 2; unlock 1; load 1 2 used", "lock 1; store 1 2; unlock 1; load 1 2 used", "keep 1; keep 2; keep 3; keep 4", DONE);
    for (good, bad) in [
        ("store 1 5; load 1 5 used", "store 1 5; load 1 4 used"),
        ("astore 1 rel 5; aload 1 acq 5", "astore 1 rel 5; aload 1 acq 0"),
        ("rmw 1 ar 0 7; aload 1 sc 7", "rmw 1 ar 0 7; aload 1 sc 0"),
        ("add 1 rlx 0 7; rmw 1 rel 7 7", "add 1 rlx 0 7; rmw 1 rel 0 7"),
        ("rmw 1 sc 0 4294967295; add 1 acq 4294967295 1; aload 1 sc 0", "rmw 1 sc 0 4294967295; add 1 acq 0 1; aload 1 sc 0"),
    ] {
        let events = good.split(';').count();
        list.good_trace("latest value", trace(good), events);
        list.bad_trace("not the latest value", trace(bad), 6, 2);
    }
    let over = "astore 1 rlx 4294967295; add 1 sc 4294967295 4294967295; aload 1 rlx 4294967294";
    list.good_trace("sum of the highest", trace(over), 3);
}

fn matchings(list: &mut List) {
    let bad_heads: &[&[u8]] = &[
        b"", b"\n", b"match\t1", b"match", b"match\t2\n", b"match\t1\t\n", b"match 1\n", b"trace\t1\n", b"match\t1\r\n",
        b"match\t01\n", b"Match\t1\n", b"\nmatch\t1\n", b"match\t1\0\n",
    ];
    for head in bad_heads {
        list.bad_matching("bad first line", head.to_vec(), 2, 1);
    }
    let bad_entries: &[&[u8]] = &[
        b"", b"keep", b"keep\t", b"keep\t0", b"keep\t00", b"keep\t01", b"keep\t801", b"keep\t1000", b"keep\t4294967297",
        b"keep\t18446744073709551617", b"keep\t+1", b"keep\t-1", b"keep\t1\t", b"keep\t1 ", b"keep 1", b"keep\t1\r",
        b"keep\t1\0", b"keep\t\xff", b"Keep\t1", b"kept\t1", b"\tkeep\t1", b"gone\t", b"gone\t1", b"gone ", b"gone\r",
        b"Gone", b"gon", b"goned", b"match\t1", b"\xff", b"\0", b"keep\t\t1", b"keep\ta",
    ];
    for line in bad_entries {
        list.bad_entry(line);
    }
    for line in ["gone", "keep\t1", "keep\t", "g"] {
        list.bad_matching("no final LF", raw(MATCH, line.as_bytes()), 2, 2);
    }
    let one = "lock 0";
    list.run("no entries", one, one, "", (8, 3, 0));
    list.run("one entry too many", one, one, "keep 1; gone", (8, 3, 2));
    list.run("8 before 9", one, one, "keep 2; keep 2", (8, 3, 2));
    list.run("beyond the target by one", one, one, "keep 2", (9, 3, 1));
    list.run("beyond the target, 800", one, one, "keep 800", (9, 3, 1));
    list.run("beyond an empty target", one, "", "keep 1", (9, 3, 1));
    list.run("9 at 2 before 11 at 1", "lock 0; lock 0", "lock 0", "gone; keep 2", (9, 3, 2));
    list.run("the later entry is at fault", "lock 0; lock 0; lock 0", "lock 0; lock 0; lock 0", "keep 3; keep 1; keep 3", (9, 3, 3));
    let many = "lock 0;".repeat(800);
    list.add("801 entries", trace(""), trace(""), matching(&"gone;".repeat(801)), [ALL; 3], (3, 3, 802));
    list.add("801 entries, the last bad", trace(""), trace(""), matching(&("gone;".repeat(800) + "gome")), [ALL; 3], (2, 3, 802));
    list.add("801 entries, no LF", trace(""), trace(""), raw(MATCH, "gone\n".repeat(801).trim_end().as_bytes()), [ALL; 3], (2, 3, 802));
    list.add("800 entries for 799", trace(&"lock 0;".repeat(799)), trace(&many), keep_all(800), [ALL; 3], (8, 3, 800));
    let backwards: String = (1..=800).rev().map(|number| format!("keep {number};")).collect();
    list.add("800 backwards", trace(&many), trace(&many), matching(&backwards), [ALL; 3], (12, 1, 2));
}

/// The order of the tests of one event and between events.
fn judgements(list: &mut List) {
    list.run("10 of the order", "aload 1 rlx 0", "aload 1 acq 0", "keep 1", (10, 1, 1));
    list.run("10 of the mutex", "lock 0", "lock 1", "keep 1", (10, 1, 1));
    list.run("10 of the kind", "lock 0", "unlock 0", "keep 1", (10, 1, 1));
    list.run("10 of rmw and add", "rmw 1 rlx 0 0", "add 1 rlx 0 0", "keep 1", (10, 1, 1));
    list.run("10 of the operand", "add 1 rlx 0 1", "add 1 rlx 0 2", "keep 1", (10, 1, 1));
    list.run("10 of the location", "store 1 1", "store 2 1", "keep 1", (10, 1, 1));
    list.run("10 of the value", "store 1 1", "store 1 2", "keep 1", (10, 1, 1));
    list.run("10 of load and store", "load 1 0 used", "store 1 0", "keep 1", (10, 1, 1));
    list.run("marks apart", "load 1 0 used; load 1 0 unused", "load 1 0 unused; load 1 0 used", "keep 1; keep 2", DONE);
    list.run("10 before 12", "lock 0; lock 1", "lock 2; lock 0", "keep 2; keep 1", (10, 1, 2));
    for gone in ["aload 1 rlx 0", "astore 1 rlx 0", "rmw 1 rlx 0 0", "add 1 rlx 0 0", "fence acq", "lock 0", "unlock 255"] {
        list.run("11", gone, "", "gone", (11, 1, 1));
    }
    list.run("12 of one location", "load 1 0 used; load 1 0 used", "load 1 0 used; load 1 0 used", "keep 2; keep 1", (12, 1, 2));
    list.run("12 across a third", "store 1 1; store 2 1; store 1 1", "store 1 1; store 2 1; store 1 1", "keep 3; keep 2; keep 1", (12, 1, 3));
    list.run("12 of a plain over a fence", "fence sc; store 1 1", "store 1 1; fence sc", "keep 2; keep 1", (12, 1, 2));
    list.run("three exchanged", "store 1 1; store 2 1; store 3 1", "store 3 1; store 2 1; store 1 1", "keep 3; keep 2; keep 1", DONE);
    list.run("12 at 2 before 13 at 3", "lock 0; lock 0; load 1 0 used", "lock 0; lock 0", "keep 2; keep 1; gone", (12, 1, 2));
    list.run("13 at 1 before 11 at 2", "load 1 0 used; lock 0", "", "gone; gone", (13, 1, 1));
    list.run("13 after a sync", "load 1 0 used; lock 0; load 1 0 used", "load 1 0 used; lock 0", "keep 1; keep 2; gone", (13, 1, 3));
    list.run("used load after a gone store", "store 1 5; load 1 5 used; store 1 6", "store 1 6", "gone; gone; keep 1", DONE);
    list.run("unused first load", "load 1 0 unused; load 1 0 used", "", "gone; gone", DONE);
    list.run("kept load bars overwriting", "store 1 0; load 1 0 used; store 1 2", "load 1 0 used; store 1 2", "gone; keep 1; keep 2", (14, 1, 1));
    list.run("gone load does not", "store 1 0; load 1 0 used; store 1 2", "store 1 2", "gone; gone; keep 1", DONE);
    list.run("overwritten by one that goes", "store 1 1; store 1 2; store 1 1", "store 1 1", "keep 1; gone; gone", DONE);
    list.run("witness of another value", "store 1 1; store 1 2; load 1 2 used", "store 1 1", "keep 1; gone; gone", (14, 1, 2));
    list.run("last store closes", "store 1 1; store 1 2", "store 1 1", "keep 1; gone", (14, 1, 2));
    list.run("first store is no witness", "store 1 0; store 1 0", "", "gone; gone", (14, 1, 2));
    list.run("first load hidden by a kept store", "load 1 0 unused; store 1 1; store 1 0", "store 1 1", "gone; keep 1; gone", (14, 1, 3));
    list.run("second load is no first", "store 1 3; load 1 3 unused; store 1 3", "", "gone; gone; gone", (14, 1, 3));
    list.run("witness before a sync", "store 1 3; lock 0; store 1 3", "store 1 3; lock 0", "keep 1; keep 2; gone", (14, 1, 3));
    list.run("other location between", "store 1 3; store 2 9; store 1 3", "store 1 3; store 2 9", "keep 1; keep 2; gone", DONE);
    list.run("15 of a lock", "", "lock 0", "", (15, 2, 1));
    list.run("15 of an aload", "", "aload 1 rlx 0", "", (15, 2, 1));
    list.run("15 of a store that changes nothing", "store 1 1", "store 1 1; store 1 1", "keep 1", (15, 2, 2));
    list.run("16 at the start", "", "load 1 0 unused", "", (16, 2, 1));
    list.run("16 after a sync", "store 1 1; lock 0", "store 1 1; lock 0; load 1 1 used", "keep 1; keep 2", (16, 2, 3));
    list.run("16 at 1, though 2 is kept", "load 1 0 used", "load 1 0 used; load 1 0 used", "keep 2", (16, 2, 1));
    list.run("loads upon inserted loads", "store 1 1", "store 1 1; load 1 1 used; load 1 1 unused", "keep 1", DONE);
    list.run("15 at 1 before 16 at 2", "", "lock 0; load 1 0 used", "", (15, 2, 1));
    list.run("14 before 16", "store 1 0", "load 2 0 used", "gone", (14, 1, 1));
}

fn rooms(list: &mut List) {
    let (two, keep) = ("store 1 1; store 2 1", "keep 1; keep 2");
    let mut room = |name: &str, source: &str, target: &str, entries: &str, rooms: [usize; 3], answer: Triple| {
        list.add(name, trace(source), trace(target), matching(entries), rooms, answer);
    };
    room("no room needed", "", "", "", [0, 0, 0], DONE);
    room("room exactly", two, two, keep, [2, 2, 2], DONE);
    room("source room", two, two, keep, [1, 2, 2], (17, 1, 2));
    room("source room, none", two, two, keep, [0, 0, 0], (17, 1, 2));
    room("target room", two, two, keep, [2, 1, 2], (17, 2, 2));
    room("target room, none", two, two, keep, [2, 0, 0], (17, 2, 2));
    room("entry room", two, two, keep, [2, 2, 1], (17, 3, 2));
    room("entry room, none", two, two, keep, [2, 2, 0], (17, 3, 2));
    room("6 before 17", "lock 0; load 1 9 used", two, keep, [1, 2, 2], (6, 1, 2));
    room("5 before 17", "store 1 0; aload 1 rlx 0", two, keep, [1, 2, 2], (5, 1, 2));
    room("2 before 17", "lock 0; lock", two, keep, [0, 2, 2], (2, 1, 3));
    room("source 17 before target 2", two, "lock", keep, [1, 2, 2], (17, 1, 2));
    room("source 17 before target 6", two, "load 1 9 used", keep, [1, 2, 2], (17, 1, 2));
    room("target 17 before matching 2", two, two, "keep 1; keep 0", [2, 1, 2], (17, 2, 2));
    room("matching 2 before 17", two, two, "keep 1; keep 0", [2, 2, 0], (2, 3, 3));
    room("17 before 7", "init 1 1", "lock 0", "gone; gone", [0, 1, 1], (17, 3, 2));
    room("17 before 8", two, two, "gone; gone; gone", [2, 2, 2], (17, 3, 3));
    let many = "lock 0;".repeat(800);
    room("800 events in 799", &many, "", "", [799, ALL, ALL], (17, 1, 800));
    room("800 entries in 799", "", "", &"gone;".repeat(800), [ALL, ALL, 799], (17, 3, 800));
}

/// A text of `length` bytes that begins with its first line; the rest is one
/// lawful line again and again, cut off where the length is reached.
pub fn filled(head: &str, line: &str, length: usize) -> Vec<u8> {
    let mut text = head.as_bytes().to_vec();
    text.extend(line.as_bytes().iter().cycle().take(length - head.len()));
    text
}

fn lengths(list: &mut List) {
    let longest = MAX_TEXT;
    let all = [ALL; 3];
    list.add("source one byte over", filled(TRACE, "lock\t0\n", longest + 1), vec![], vec![], all, (1, 1, 0));
    list.add("target one byte over", trace(""), filled(TRACE, "lock\t0\n", longest + 1), vec![], all, (1, 2, 0));
    list.add("matching one byte over", trace(""), trace(""), filled(MATCH, "gone\n", MAX_MATCHING + 1), all, (1, 3, 0));
    list.add("target of 0xff, over", trace(""), vec![0xff; longest + 7], vec![], all, (1, 2, 0));
    list.add("source at the limit", filled(TRACE, "lock\t0\n", longest), trace(""), matching(""), all, (3, 1, 802));
    list.add("matching at the limit", trace(""), trace(""), filled(MATCH, "\n", MAX_MATCHING), all, (2, 3, 2));
    let full: String = (0..256).map(|location| format!("init {location} 4294967295;")).collect();
    let fullest = full + &"rmw 255 rlx 4294967295 4294967295;".repeat(800);
    list.good_trace("longest lawful text of 32 bits", trace(&fullest), 800);
}

fn counts(list: &mut List) {
    let many = "lock 0;".repeat(800);
    list.bad_trace("801st event bad", trace(&(many.clone() + "lock")), 2, 802);
    list.bad_trace("801st event without LF", raw(TRACE, "lock\t0\n".repeat(801).trim_end().as_bytes()), 2, 802);
    list.add("init after 800 events", trace(&(many.clone() + "init 1 1")), trace(""), matching(""), [ALL; 3], (4, 1, 802));
    list.bad_trace("6 gives way to 3", trace(&("load 1 9 used;".to_string() + &many)), 3, 802);
    list.bad_trace("3 with init lines", trace(&("init 1 1; init 2 1;".to_string() + &many + "lock 0; lock")), 3, 804);
    list.add("3 of entries before 17", trace(""), trace(""), matching(&"gone;".repeat(801)), [0, 0, 0], (3, 3, 802));
    list.bad_matching("801 entries, kept ones", matching(&"keep 1;".repeat(801)), 3, 802);
    list.add("3 before 17", trace(""), trace(&(many.clone() + "lock 0")), matching(""), [0, 0, 0], (3, 2, 802));
    list.add("801 events of the target, source 17", trace("lock 0"), trace(&(many.clone() + "lock 0")), matching(""), [0, 0, 0], (17, 1, 1));
    let stores: String = (0..800).map(|index| format!("store {} {};", index % 256, index % 3)).collect();
    list.add("first of 800 gone", trace(&many), trace(&many[7..]), matching(&("gone;".repeat(800))), [ALL; 3], (11, 1, 1));
    list.add("800 stores, none kept", trace(&stores), trace(""), matching(&"gone;".repeat(800)), [ALL; 3], (14, 1, 545));
}

/// All cases of document 01 that are known by hand.
pub fn all() -> Vec<Known> {
    let mut list = List { known: runs(), list: None };
    for part in [numbers, orders, layouts, inits, values, matchings, judgements, rooms, lengths, counts] {
        part(&mut list);
    }
    list.known
}
