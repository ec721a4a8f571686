//! Cases of form 2 (document 02, C-11) with answers worked out by hand: checks of
//! its traces, moves between the forms, and the writer in both. The zero lines
//! that C-15 wants are added to them; `zeros.rs` has what those are about.

use crate::cases::{filled, matching, raw, runs, text, trace, Known, List, Triple, ALL, DONE, MATCH, TRACE};
use crate::peer::{self, Form, ListFor, Memory, Word, EVENT_WORDS, MAX_CODED_TEXT, MAX_MATCHING, MAX_TEXT};
use crate::texts;

pub const CODED: &str = "trace\t2\n";

/// A trace of form 2, with the zero lines that it needs.
pub fn coded(lines: &str) -> Vec<u8> {
    texts::with_zeros(&text(CODED, lines))
}

/// A trace of form 1, and the same in form 2 with a code line at each event.
pub fn both_forms(lines: &str) -> [Vec<u8>; 2] {
    let one = trace(lines);
    let two = texts::with_codes(&one, || 7);
    [one, two]
}

/// Cases in both forms.
pub struct Both<'a>(pub &'a mut List);

impl Both<'_> {
    pub fn good(&mut self, name: &str, lines: &str) {
        let events = lines.split(';').filter(|line| !line.trim().starts_with("init")).count();
        for text in both_forms(lines) {
            self.0.good_trace(name, text, events);
        }
    }

    /// A trace that is refused.
    pub fn bad(&mut self, name: &str, lines: &str, number: u32, place: u32) {
        for text in both_forms(lines) {
            self.0.bad_trace(name, text, number, place);
        }
    }

    pub fn run(&mut self, name: &str, source: &str, target: &str, entries: &str, answer: Triple) {
        for (source, target) in both_forms(source).into_iter().zip(both_forms(target)) {
            self.0.add(name, source, target, matching(entries), [ALL; 3], answer);
        }
    }
}

/// The runs of the requirement with one trace or both in form 2: the answers
/// are the same, whatever the code lines are.
fn coded_runs(list: &mut List) {
    for Known { name, case, answer } in runs() {
        for (which, source, target) in [("source", true, false), ("target", false, true), ("both", true, true)] {
            let mut code = 0;
            let mut in_form = |text: &Vec<u8>, form_2: bool| match form_2 {
                true => texts::with_codes(text, || {
                    code = (code * 5 + 3) % 65_536;
                    code
                }),
                false => text.clone(),
            };
            let (source, target) = (in_form(&case.source, source), in_form(&case.target, target));
            list.add(&format!("{name}, {which} of form 2"), source, target, case.matching.clone(), case.rooms, answer);
        }
    }
}

const EACH_KIND: [&str; 11] = [
    "load\t1\t0\tused", "store\t1\t0", "aload\t1\trlx\t0", "astore\t1\trel\t0", "rmw\t1\tar\t0\t0", "add\t1\tsc\t0\t0", "fence\tacq",
    "lock\t0", "unlock\t0", "add64\t1\tsc\t0\t0", "cmpfail\t1\tacq\t0",
];

fn code_lines(list: &mut List) {
    for line in EACH_KIND {
        for good in ["0", "9", "10", "99", "100", "999", "1000", "9999", "10000", "65535"] {
            list.good_trace("code line", texts::with_zeros(&raw(CODED, format!("{line}\t{good}\n").as_bytes())), 1);
        }
        let bad_code = |list: &mut List, code: &str| {
            let name = format!("bad code line {}{}", line.escape_debug(), code.escape_debug());
            list.bad_trace(&name, [b"trace\t2\nstore\t9\t5\t1\n", line.as_bytes(), code.as_bytes(), b"\nlock\t9\t6\n"].concat(), 2, 3);
        };
        for bad in ["", "\t", "\t65536", "\t00", "\t1\t", "\t1\t1", "\t1\r"] {
            bad_code(list, bad);
        }
        // A line of form 2 is none of form 1.
        list.bad_trace("code line in form 1", raw(TRACE, format!("{line}\t0\n").as_bytes()), 2, 2);
    }
    for bad in [
        "65537", "65545", "65600", "70000", "99999", "100000", "655350", "4294967295", "4294967296", "4295032831",
        "18446744073709551616", "01", "007", "065535", "+1", "-1", "-0", " 1", "1 ", "0x1", "1.0", "a", "/", ":", "used", "\u{ff11}",
    ] {
        list.bad_trace("no code line", raw(CODED, format!("lock\t0\t{bad}\n").as_bytes()), 2, 2);
    }
    list.bad_trace("code line of an init", coded("init 1 1 7"), 2, 2);
    list.bad_trace("code line before the mark", coded("load 1 0 7 used"), 2, 2);
    list.bad_trace("code line after the word", coded("lock 7 0 1"), 2, 2);
    for head in [
        "trace\t2", "trace\t2\t\n", "trace\t02\n", "trace\t2\r\n", "trace\t22\n", "trace\t2 \n", "trace 2\n", "Trace\t2\n", "match\t2\n",
        "\ntrace\t2\n",
    ] {
        list.bad_trace("bad first line, nearly form 2", head.as_bytes().to_vec(), 2, 1);
    }
    list.bad_trace("first line repeated, form 2", b"trace\t2\ntrace\t2\n".to_vec(), 2, 2);
    list.bad_trace("first line of form 1 after that of form 2", b"trace\t2\ntrace\t1\n".to_vec(), 2, 2);
    list.bad_trace("blank line, form 2", b"trace\t2\n\nlock\t0\t1\n".to_vec(), 2, 2);
    for line in ["lock\t0\t65535", "lock\t0\t", "lock\t0", "init\t1\t1"] {
        list.bad_trace("no final LF, form 2", raw(CODED, line.as_bytes()), 2, 2);
    }
    list.bad_trace("a number of a matching is no form", b"match\t2\nlock\t0\t1\n".to_vec(), 2, 1);
    list.bad_matching("a matching has one form", b"match\t2\n".to_vec(), 2, 1);
    list.bad_matching("a code line of an entry", matching("gone 7"), 2, 2);
}

/// Every answer of a reading and of a check, with code lines about.
fn coded_answers(list: &mut List) {
    list.good_trace("form 2 without events", coded(""), 0);
    list.good_trace("init of form 2", coded("init 0 1; init 255 4294967295; load 255 4294967295 used 65535"), 1);
    list.bad_trace("init descending, form 2", coded("init 2 1; init 1 1"), 4, 3);
    list.bad_trace("init after an event, form 2", coded("lock 0 3; init 2 1"), 4, 3);
    list.bad_trace("plain and atomic, form 2", coded("store 3 1 7; lock 3 8; aload 3 rlx 1 9"), 5, 3);
    list.bad_trace("not the latest value, form 2", coded("init 4 2; lock 4 65535; load 4 0 unused 12"), 6, 2);
    list.bad_trace("the code line is no value", coded("store 1 5 6; load 1 6 used 5"), 6, 2);
    list.bad_trace("2 before 6, form 2", coded("load 1 9 used 1; lock 0"), 2, 3);
    let mut check = |name: &str, source: Vec<u8>, target: Vec<u8>, entries: &str, rooms: [usize; 3], answer: Triple| {
        list.add(name, source, target, matching(entries), rooms, answer);
    };
    let all = [ALL; 3];
    let (two, keep) = ("store 1 1 10; store 2 1 20", "keep 1; keep 2");
    check("code lines apart", coded(two), coded("store 1 1 7; store 2 1 0"), keep, all, DONE);
    check("code lines exchanged", coded(two), coded("store 2 1 10; store 1 1 20"), "keep 2; keep 1", all, DONE);
    check("marks and code lines apart", coded("load 1 0 used 5"), coded("load 1 0 unused 6"), "keep 1", all, DONE);
    check("form 1 to form 2", trace("lock 0"), coded("lock 0 65535"), "keep 1", all, DONE);
    check("form 2 to form 1", coded("lock 0 65535"), trace("lock 0"), "keep 1", all, DONE);
    check("equal code lines save nothing", coded("store 1 1 9"), coded("store 1 2 9"), "keep 1", all, (10, 1, 1));
    check("the code line is no operand", coded("add 1 rlx 0 1 2"), coded("add 1 rlx 0 2 1"), "keep 1", all, (10, 1, 1));
    check("a code line is no witness", coded("store 1 3 5; store 1 5 3"), coded("store 1 3 5"), "keep 1; gone", all, (14, 1, 2));
    check("7 in mixed forms", coded("init 3 1"), trace("init 3 2"), "", all, (7, 2, 3));
    check("8 in form 2", coded(two), coded(two), "keep 1", all, (8, 3, 1));
    check("9 in form 2", coded(two), coded(two), "keep 1; keep 1", all, (9, 3, 2));
    check("11 in form 2", coded("fence sc 65535"), coded(""), "gone", all, (11, 1, 1));
    check("12 in mixed forms", coded("store 1 5 41; unlock 0 42"), trace("unlock 0; store 1 5"), "keep 2; keep 1", all, (12, 1, 2));
    check("13 in form 2", coded("lock 0 1; load 1 0 used 2"), coded("lock 0 1"), "keep 1; gone", all, (13, 1, 2));
    check("14 in form 2", coded("store 1 0 65535"), trace(""), "gone", all, (14, 1, 1));
    check("15 in form 2", trace("lock 0"), coded("lock 0 1; store 1 1 77"), "keep 1", all, (15, 2, 2));
    check("16 in form 2", trace("lock 0"), coded("lock 0 1; load 1 0 used 78"), "keep 1", all, (16, 2, 2));
    check("room exactly, form 2", coded(two), coded(two), keep, [2, 2, 2], DONE);
    check("source room, form 2", coded(two), coded(two), keep, [1, 2, 2], (17, 1, 2));
    check("target room, form 2", trace(""), coded(two), keep, [0, 1, 2], (17, 2, 2));
    check("entry room, form 2", coded(two), trace(""), keep, [2, 2, 1], (17, 3, 2));
    check("source 17 before target 2, form 2", coded(two), coded("lock 0"), keep, [1, 2, 2], (17, 1, 2));
}

/// The longest trace of so many events: every field of every line is full.
pub fn fullest(form: Form, events: usize, code: &str) -> Vec<u8> {
    let inits: String = (0..256).map(|location| format!("init {location} {};", Word::MAX)).collect();
    let lines = |code: &str| -> String {
        // The sum is one less each time.
        let olds = (0..events as Word).map(|event| Word::MAX - event);
        olds.map(|old| format!("add64 255 rlx {old} {}{code};", Word::MAX)).collect()
    };
    match form {
        Form::One => trace(&(inits + &lines(""))),
        Form::Two => coded(&(inits + &lines(&format!(" {code}")))),
    }
}

/// Form 2's limit is that of texts that begin with its first line, LF included.
fn coded_lengths(list: &mut List) {
    let (all, longest, longest_coded) = ([ALL; 3], MAX_TEXT, MAX_CODED_TEXT);
    let line = "lock\t0\t77\n";
    list.good_trace("longest lawful text, form 2", fullest(Form::Two, 800, "65535"), 800);
    list.add("form 2 at its limit", filled(CODED, line, longest_coded), trace(""), matching(""), all, (3, 1, 802));
    list.add("form 2 over form 1's limit", trace(""), filled(CODED, "\n", longest + 1), matching(""), all, (2, 2, 2));
    list.add("form 2 over its limit", filled(CODED, line, longest_coded + 1), vec![], vec![], all, (1, 1, 0));
    list.add("target of form 2 over its limit", coded(""), filled(CODED, line, longest_coded + 1), vec![], all, (1, 2, 0));
    for head in ["trace\t2\r\n", "trace\t2\t\n", "trace\t1\n", "Trace\t2\n", "\ntrace\t2\n"] {
        let name = format!("over form 1's limit, not quite form 2, {}", head.escape_debug());
        list.add(&name, filled(head, line, longest + 1), vec![], vec![], all, (1, 1, 0));
    }
    list.add("at form 1's limit, not quite form 2", filled("trace\t2\r\n", line, longest), vec![], vec![], all, (2, 1, 1));
    list.add("form 2 in name only, over", trace(""), filled("trace\t2", "2", longest + 1), vec![], all, (1, 2, 0));
    list.add("matching over its limit", coded(""), coded(""), filled(MATCH, "gone\n", MAX_MATCHING + 1), all, (1, 3, 0));
    let many = "lock 0 1;".repeat(800);
    list.bad_trace("801 events of form 2", coded(&(many.clone() + "lock 0 1")), 3, 802);
    list.bad_trace("801st event of form 2 bad", coded(&(many + "lock 0")), 2, 802);
}

/// All checks of form 2 that are known by hand.
pub fn checks() -> Vec<Known> {
    let mut list = List::default();
    for part in [coded_runs, code_lines, coded_answers, coded_lengths] {
        part(&mut list);
    }
    list.known
}

/// So many bytes hold every text.
pub const PLENTY: usize = Form::Two.limit();

/// What a move is handed: a list or none, the form that is wanted, a text, and so
/// many bytes.
#[derive(Clone)]
pub struct Move {
    pub list: Option<ListFor>,
    pub to: Form,
    pub text: Vec<u8>,
    pub bytes: usize,
}

/// A move, the answer that it must get, and the text that it must write.
#[derive(Clone)]
pub struct KnownMove {
    pub name: String,
    pub handed: Move,
    pub answer: Triple,
    pub moved: Vec<u8>,
}

/// Moves being listed, all with the same list or none.
#[derive(Default)]
pub struct Moves {
    pub known: Vec<KnownMove>,
    pub list: Option<ListFor>,
}

impl Moves {
    pub fn done(&mut self, name: &str, to: Form, text: &[u8], bytes: usize, moved: &[u8]) {
        let handed = Move { list: self.list.clone(), to, text: text.to_vec(), bytes };
        let answer = (0, 0, moved.len() as u32);
        self.known.push(KnownMove { name: format!("{name}, to {to:?}"), handed, answer, moved: moved.to_vec() });
    }

    pub fn refused(&mut self, name: &str, to: Form, text: Vec<u8>, bytes: usize, answer: Triple) {
        let handed = Move { list: self.list.clone(), to, text, bytes };
        self.known.push(KnownMove { name: format!("{name}, to {to:?}"), handed, answer, moved: vec![] });
    }

    /// A trace in both forms, moved there and back, into bytes that are enough,
    /// just enough, too few, none; and into the form that it has.
    pub fn there_and_back(&mut self, name: &str, one: &[u8], two: &[u8]) {
        for (to, text, moved) in [(Form::Two, one, two), (Form::One, two, one)] {
            let needed = moved.len();
            self.done(name, to, text, PLENTY, moved);
            self.done(&format!("{name}, bytes exactly"), to, text, needed, moved);
            for bytes in [needed - 1, 0] {
                self.refused(&format!("{name}, {bytes} bytes"), to, text.to_vec(), bytes, (17, 0, needed as u32));
            }
            self.refused(&format!("{name}, already"), to, moved.to_vec(), PLENTY, (2, 1, 1));
        }
    }

    /// A trace of form 2 that form 1 refuses.
    fn lost(&mut self, name: &str, lines: &str, bytes: usize, answer: Triple) {
        self.refused(name, Form::One, coded(lines), bytes, answer);
    }
}

fn moves_done(moves: &mut Moves) {
    moves.there_and_back("no events", &trace(""), &coded(""));
    let inits = "init 0 1; init 255 4294967295";
    moves.there_and_back("init lines", &trace(inits), &coded(inits));
    for line in EACH_KIND {
        let one = raw(TRACE, format!("{line}\n").as_bytes());
        moves.there_and_back("each kind", &one, &texts::with_codes(&one, || 0));
    }
    moves.there_and_back(
        "a trace",
        &trace("init 1 7; lock 0; load 1 7 used; store 1 0; unlock 0; add 2 sc 0 4294967295; rmw 2 rlx 4294967295 0; fence ar"),
        &coded("init 1 7; init 2 0; lock 0 0; load 1 7 used 0; store 1 0 0; unlock 0 0; add 2 sc 0 4294967295 0; rmw 2 rlx 4294967295 0 0; fence ar 0"),
    );
    let (one, two) = (fullest(Form::One, 800, ""), fullest(Form::Two, 800, "0"));
    moves.done("longest text", Form::Two, &one, two.len(), &two);
    moves.done("longest text", Form::One, &two, one.len(), &one);
}

/// The refusals of the reading, to either form.
fn moves_refused(moves: &mut Moves, to: Form) {
    let mut refused = |name: &str, text: Vec<u8>, answer: Triple| moves.refused(name, to, text, PLENTY, answer);
    refused("empty text", vec![], (2, 1, 1));
    refused("bad first line", b"trace\t3\n".to_vec(), (2, 1, 1));
    refused("nearly form 2", b"trace\t2".to_vec(), (2, 1, 1));
    refused("matching", matching("gone"), (2, 1, 1));
    // A text of the other form.
    let (other, head, line) = match to {
        Form::One => (Form::Two, CODED, "lock\t0\t0\n"),
        Form::Two => (Form::One, TRACE, "lock\t0\n"),
    };
    let text = |lines: &str| match other {
        Form::One => trace(lines),
        Form::Two => texts::with_codes(&trace(lines), || 0),
    };
    refused("bad line", text("lock 0; lock"), (2, 1, 3));
    refused("no final LF", text("lock 0; lock 1").strip_suffix(b"\n").expect("a line").to_vec(), (2, 1, 3));
    refused("801 events", text(&"lock 0;".repeat(801)), (3, 1, 802));
    refused("init descending", text("init 2 1; init 1 1"), (4, 1, 3));
    refused("init late", text("lock 0; init 1 1"), (4, 1, 3));
    refused("plain and atomic", text("astore 1 rel 1; load 1 1 used"), (5, 1, 2));
    refused("not the latest", text("lock 0; load 1 1 used"), (6, 1, 2));
    refused("2 before 6", text("load 1 1 used; lock"), (2, 1, 3));
    let limit = other.limit();
    refused("one byte over", filled(head, line, limit + 1), (1, 1, 0));
    refused("at the limit", filled(head, line, limit), (3, 1, 802));
    refused("over form 1's limit, not quite form 2", filled("trace\t2\t\n", line, MAX_TEXT + 1), (1, 1, 0));
    let mut already = |name: &str, length: usize, answer: Triple| {
        moves.refused(name, other, filled(head, line, length), PLENTY, answer);
    };
    already("already, over its limit", limit + 1, (1, 1, 0));
    already("already, at its limit", limit, (2, 1, 1));
    moves.refused("2 before 17", to, text("lock"), 0, (2, 1, 2));
    moves.refused("6 before 17", to, text("load 1 1 used"), 0, (6, 1, 1));
}

fn moves_lost(moves: &mut Moves) {
    moves.lost("code line 1", "lock 0 1", PLENTY, (19, 1, 1));
    moves.lost("code line 65535", "lock 0 0; lock 0 65535; lock 0 1", PLENTY, (19, 1, 2));
    moves.lost("lost at the last", "init 1 1; load 1 1 used 0; store 1 2 0; load 1 2 unused 9", PLENTY, (19, 1, 3));
    moves.lost("19 before 17", "lock 0 0; lock 0 1", 0, (19, 1, 2));
    moves.lost("6 before 19", "lock 0 5; load 1 1 used 0", PLENTY, (6, 1, 2));
    moves.lost("5 before 19", "store 1 0 5; aload 1 rlx 0 6", PLENTY, (5, 1, 2));
    moves.lost("4 before 19", "lock 0 5; init 1 1", PLENTY, (4, 1, 3));
    moves.lost("2 before 19", "lock 0 5; lock 0", PLENTY, (2, 1, 3));
    moves.lost("value and mark are no code line", "store 1 9 0; load 1 9 unused 0; load 1 9 used 10", PLENTY, (19, 1, 3));
    moves.refused("longest text of form 2", Form::One, fullest(Form::Two, 800, "65535"), PLENTY, (19, 1, 1));
}

/// The moves that are known by hand.
pub fn moves() -> Vec<KnownMove> {
    let mut moves = Moves::default();
    moves_done(&mut moves);
    moves_refused(&mut moves, Form::One);
    moves_refused(&mut moves, Form::Two);
    moves_lost(&mut moves);
    moves.known
}

/// The words that the reader of a writing has: one event more than a trace.
pub const WRITING_WORDS: usize = (ALL + 1) * EVENT_WORDS;

/// What the writer is handed: a list or none, the form, and the starting memory and
/// the words of a trace that is lawful without a list, with words of 0 behind them,
/// one word changed, cut to so many words; and so many bytes.
#[derive(Clone)]
pub struct Writing {
    pub list: Option<ListFor>,
    pub form: Form,
    pub text: Vec<u8>,
    pub words: usize,
    pub change: Option<(usize, Word)>,
    pub bytes: usize,
}

impl Writing {
    /// The memory and the words.
    pub fn read(&self) -> (Memory, Vec<Word>) {
        let mut words = vec![0; WRITING_WORDS];
        let read = peer::read_trace(None, &self.text, &mut words);
        assert_eq!(read.answer.number, 0, "the trace is lawful");
        if let Some((at, word)) = self.change {
            words[at] = word;
        }
        words.truncate(self.words);
        (read.memory, words)
    }
}

/// A writing, and the answer that it must get.
#[derive(Clone)]
pub struct KnownWriting {
    pub name: String,
    pub handed: Writing,
    pub answer: Triple,
}

/// Writings being listed, all with the same list or none.
#[derive(Default)]
pub struct Writings {
    pub known: Vec<KnownWriting>,
    pub list: Option<ListFor>,
}

impl Writings {
    pub fn add(&mut self, name: &str, form: Form, text: Vec<u8>, words: usize, bytes: usize, answer: Triple) {
        let handed = Writing { list: self.list.clone(), form, text, words, change: None, bytes };
        self.known.push(KnownWriting { name: format!("{name}, {form:?}"), handed, answer });
    }

    /// One word changed, and as many bytes as there can be.
    pub fn changed(&mut self, name: &str, form: Form, lines: &str, words: usize, change: (usize, Word), answer: Triple) {
        let handed = Writing { list: self.list.clone(), form, text: coded(lines), words, change: Some(change), bytes: PLENTY };
        self.known.push(KnownWriting { name: format!("{name}, {form:?}"), handed, answer });
    }
}

const THREE: &str = "init 1 7; load 1 7 used 0; store 1 8 0; lock 0 0";

/// The writer in either form.
fn writings_of(list: &mut Writings, form: Form) {
    let size = if form == Form::One { 8 + 9 + 14 + 10 + 7 } else { 8 + 9 + 16 + 12 + 9 };
    for bytes in [PLENTY, size] {
        list.add("written", form, coded(THREE), 18, bytes, (0, 0, size as u32));
    }
    for bytes in [size - 1, 0] {
        list.add("too few bytes", form, coded(THREE), 18, bytes, (17, 0, size as u32));
    }
    list.add("no events", form, coded(""), 0, PLENTY, (0, 0, 8));
    list.add("cut short", form, coded(THREE), 17, PLENTY, (18, 0, 3));
    list.add("a cleared event", form, coded(THREE), 24, PLENTY, (18, 0, 4));
    list.add("801 events", form, coded(&"lock 0 1;".repeat(800)), 4_801, PLENTY, (3, 0, 801));
    list.changed("kind 12", form, THREE, 18, (6, 12), (18, 0, 2));
    list.changed("code line 65536", form, THREE, 18, (5, 65_536), (18, 0, 1));
    list.changed("the greatest word as a code line", form, THREE, 18, (17, Word::MAX), (18, 0, 3));
    list.changed("18 before 6", form, "load 1 0 used 0", 12, (3, 9), (18, 0, 2));
    list.changed("18 before 19", form, "lock 0 65535; lock 0 9", 12, (11, 65_536), (18, 0, 2));
    list.changed("6 before 19", form, "lock 0 7; load 1 0 used 9", 12, (9, 1), (6, 0, 2));
    list.changed("5 before 19", form, "store 1 0 7; aload 2 rlx 0 9", 12, (7, 1), (5, 0, 2));
}

/// The writings that are known by hand.
pub fn writings() -> Vec<KnownWriting> {
    let mut list = Writings::default();
    writings_of(&mut list, Form::One);
    writings_of(&mut list, Form::Two);
    for code in [1, 9, 10, 99, 100, 65_534, 65_535] {
        let digits = code.to_string().len() as u32;
        list.changed("code line", Form::Two, THREE, 18, (17, code), (0, 0, 8 + 9 + 16 + 12 + 8 + digits));
        list.changed("code line", Form::One, THREE, 18, (17, code), (19, 0, 3));
    }
    list.add("the first code line that is lost", Form::One, coded("lock 0 0; lock 0 3; lock 0 4"), 18, PLENTY, (19, 0, 2));
    list.add("19 before 17", Form::One, coded("lock 0 3"), 6, 0, (19, 0, 1));
    list.add("form 1 read", Form::Two, trace("lock 0; store 3 4"), 12, PLENTY, (0, 0, 8 + 9 + 9 + 12));
    list.add("longest text", Form::One, fullest(Form::One, 800, ""), 4_800, 52_378, (0, 0, 52_378));
    list.add("longest text", Form::Two, fullest(Form::Two, 800, "65535"), 4_800, 57_178, (0, 0, 57_178));
    list.known
}
