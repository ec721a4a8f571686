//! The slow checker on traces of both forms. `naive.rs` stays at document 01; a
//! trace of form 2 is put to it as the text of form 1 that is left when every
//! event line loses its code line and zero lines are dropped. A line whose last
//! field is no code line is there a line that is bad. Where the lines are asked
//! about, a zero line goes as one of 1, so that it counts and keeps its place;
//! 20 and 21 are found on the lines as they stand. A text that document 01 reads
//! otherwise than document 02 does, by a value of more than 32 bits, an `add64`
//! or a length between the limits of both, is not put to it: there is no slow
//! answer then. A failed exchange is put to it as an atomic load, in checks whose
//! traces have no other. Document 01 has no registers. Under a list each access to one is put
//! to it as an atomic store, which synchronises and whose value is not asked about,
//! and the starts of registers are left out; 5 of a register, and 16 for 15 of its
//! load, are found here.

use crate::naive::{self, Trace, Triple};
use crate::peer::ListFor;

const FORM_1: &[u8] = b"trace\t1\n";
const FORM_2: &[u8] = b"trace\t2\n";
const FORM_1_LIMIT: usize = 52_500;
const FORM_2_LIMIT: usize = 57_300;
/// The limit of document 01, and of lists.
const OLD_LIMIT: usize = 32_400;
/// The most registers of a group.
const MOST_REGISTERS: usize = 32;
/// How the lines of a failed exchange and of an atomic load begin.
const FAILED: &[u8] = b"cmpfail\t";
const LOADED: &[u8] = b"aload\t";

/// What is left of a trace text for document 01.
struct Plain {
    /// With 1 for 0 in zero lines.
    lines: Vec<u8>,
    /// Without zero lines.
    text: Vec<u8>,
    /// The code lines of the events.
    codes: Vec<u32>,
}

/// What is left of that under a list.
struct Walled {
    text: Vec<u8>,
    codes: Vec<u32>,
    /// The starts of registers, which the text lacks.
    starts: Vec<(usize, u64)>,
    /// The kind and the order word of each event that is a register's.
    accesses: Vec<Option<[u64; 2]>>,
    /// The first event that uses a register atomically.
    atomic: Option<u32>,
}

/// The locations that a list names, as texts; its refusal.
fn listed(list: Option<&ListFor>) -> Result<Vec<String>, Triple> {
    let Some(ListFor { text, group: wanted }) = list else {
        return Ok(vec![]);
    };
    if text.len() > OLD_LIMIT {
        return Err((1, 4, 0));
    }
    let text = String::from_utf8_lossy(text).into_owned();
    let lines: Vec<&str> = text.split_inclusive('\n').collect();
    let groups = match lines.first() {
        Some(&"regs\t1\n") => vec![(1, "reg")],
        Some(&"regs\t2\n") => vec![(1, "reg\t1"), (2, "reg\t2")],
        _ => return Err((2, 4, 1)),
    };
    let registers: Vec<(u64, usize, String)> =
        groups.iter().flat_map(|&(group, words)| (0..256).map(move |location| (group, location, format!("{words}\t{location}\n")))).collect();
    let mut listed: Vec<(u64, usize)> = vec![];
    for (index, line) in lines.iter().enumerate().skip(1) {
        let place = index as u32 + 1;
        let Some(&(group, location, _)) = registers.iter().find(|(_, _, register)| register == line) else {
            return Err((2, 4, place));
        };
        let register = (group, location);
        if listed.iter().any(|&earlier| earlier >= register) || listed.iter().filter(|(of, _)| *of == group).count() == MOST_REGISTERS {
            return Err((22, 4, place));
        }
        listed.push(register);
    }
    Ok(listed.iter().filter(|(group, _)| group == wanted).map(|(_, location)| location.to_string()).collect())
}

/// A text for document 01 with walls for registers. Lines that are not of the layout
/// stay: the text is asked about no more where there is one.
fn walled(plain: &Plain, listed: &[String]) -> Walled {
    let mut walled = Walled { text: FORM_1.to_vec(), codes: plain.codes.clone(), starts: vec![], accesses: vec![], atomic: None };
    for fields in fields(&plain.text) {
        let words: Vec<&str> = fields.iter().map(String::as_str).collect();
        let listed = words.get(1).is_some_and(|location| listed.iter().any(|listed| listed == location));
        let mut line = fields.join("\t");
        let mut access = None;
        match words[..] {
            ["init", location, value] if listed => {
                walled.starts.extend(location.parse().ok().zip(value.parse().ok()));
                continue;
            }
            ["load", location, value, mark] if listed => {
                line = format!("astore\t{location}\trlx\t{value}");
                access = Some([1, if mark == "used" { 6 } else { 7 }]);
            }
            ["store", location, value] if listed => {
                line = format!("astore\t{location}\trel\t{value}");
                access = Some([2, 0]);
            }
            ["aload" | "astore" | "rmw" | "add", ..] if listed => {
                walled.atomic = walled.atomic.or(Some(walled.accesses.len() as u32 + 1));
            }
            _ => {}
        }
        if words[0] != "init" {
            walled.accesses.push(access);
        }
        walled.text.extend_from_slice(line.as_bytes());
        walled.text.push(b'\n');
    }
    walled
}

impl Plain {
    fn add(&mut self, line: &[u8]) {
        match line.strip_suffix(b"\t0\n") {
            Some(start) if is_init(line) => self.lines.extend([start, b"\t1\n"].concat()),
            _ => {
                self.lines.extend_from_slice(line);
                self.text.extend_from_slice(line);
            }
        }
    }
}

/// A trace as it lies in a room, and its starting memory.
pub struct Stored {
    pub words: Vec<u64>,
    pub start: [u64; 256],
}

/// All that a check is to leave behind.
pub struct Outcome {
    pub answer: Triple,
    pub line: Vec<u8>,
    /// What is stored, unless a reading was refused.
    pub stored: Option<(Stored, Stored, Vec<u32>)>,
}

fn is_form_2(text: &[u8]) -> bool {
    text.starts_with(FORM_2)
}

fn is_over(text: &[u8]) -> bool {
    text.len() > if is_form_2(text) { FORM_2_LIMIT } else { FORM_1_LIMIT }
}

fn is_init(line: &[u8]) -> bool {
    line.starts_with(b"init\t")
}

/// A line without its code line, which is the last field.
fn parted(line: &[u8]) -> Option<(&[u8], u32)> {
    let tab = line.iter().rposition(|&byte| byte == b'\t')?;
    let field = std::str::from_utf8(&line[tab + 1..]).ok()?;
    let code: u32 = field.parse().ok()?;
    (code.to_string() == field && code <= 65_535).then_some((&line[..tab], code))
}

fn plain(text: &[u8]) -> Plain {
    if !is_form_2(text) {
        return Plain { lines: text.to_vec(), text: text.to_vec(), codes: vec![0; text.len()] };
    }
    let mut plain = Plain { lines: FORM_1.to_vec(), text: FORM_1.to_vec(), codes: vec![] };
    if is_over(text) {
        plain.lines.resize(OLD_LIMIT + 1, b'\n');
        return plain;
    }
    for line in text[FORM_2.len()..].split_inclusive(|&byte| byte == b'\n') {
        match line.strip_suffix(b"\n") {
            Some(event) if !is_init(event) => {
                let Some((event, code)) = parted(event) else {
                    // Nothing after a bad line is looked at.
                    plain.add(b"bad\n");
                    return plain;
                };
                plain.add(&[event, b"\n"].concat());
                plain.codes.push(code);
            }
            _ => plain.add(line),
        }
    }
    plain
}

/// Whether a field is a value that document 01 has not.
fn is_wide(field: &[u8]) -> bool {
    let number = std::str::from_utf8(field).ok().and_then(|field| field.parse::<u64>().ok());
    number.is_some_and(|number| number > 4_294_967_295)
}

/// A text with the code lines that it had, if document 01 reads it as document 02 does.
fn old(text: &[u8]) -> Option<Plain> {
    let plain = plain(text);
    let within = is_over(text) || plain.lines.len() <= OLD_LIMIT;
    let mut lines = plain.lines.split(|&byte| byte == b'\n');
    let newer = |line: &[u8]| [b"add64\t".as_slice(), FAILED].iter().any(|word| line.starts_with(word));
    let newer = lines.any(|line| newer(line) || line.split(|&byte| byte == b'\t').any(is_wide));
    (within && !newer).then_some(plain)
}

fn stored(trace: Trace, walled: &Walled) -> Stored {
    let words = trace.rows.iter().enumerate().flat_map(|(index, row)| {
        let [kind, place, order, first, second, _] = row.words().map(u64::from);
        let [kind, order] = walled.accesses[index].unwrap_or([kind, order]);
        [kind, place, order, first, second, walled.codes[index].into()]
    });
    let mut start = trace.start.map(u64::from);
    for &(location, value) in &walled.starts {
        start[location] = value;
    }
    Stored { words: words.collect(), start }
}

/// The fields of each line of a lawful text after the first.
fn fields(text: &[u8]) -> Vec<Vec<String>> {
    let text = String::from_utf8_lossy(text).into_owned();
    text.lines().skip(1).map(|line| line.split('\t').map(str::to_string).collect()).collect()
}

/// The locations that lines of these words name.
fn located(lines: &[Vec<String>], words: &[&str]) -> Vec<String> {
    lines.iter().filter(|line| words.contains(&line[0].as_str())).map(|line| line[1].clone()).collect()
}

const TOUCHING: [&str; 6] = ["load", "store", "aload", "astore", "rmw", "add"];

/// Answers 20 and 21 of a text whose lines are all of the layout.
fn uncovered(text: &[u8], side: u32) -> Option<Triple> {
    let lines = fields(text);
    let (starts, touched) = (located(&lines, &["init"]), located(&lines, &TOUCHING));
    let events: Vec<&Vec<String>> = lines.iter().filter(|line| line[0] != "init").collect();
    for (index, event) in events.iter().enumerate() {
        if TOUCHING.contains(&event[0].as_str()) && !starts.contains(&event[1]) {
            return Some((20, side, index as u32 + 1));
        }
    }
    for (index, line) in lines.iter().enumerate() {
        if line[0] == "init" && line[2] == "0" && !touched.contains(&line[1]) {
            return Some((21, side, index as u32 + 2));
        }
    }
    None
}

/// The refusal of a trace, for a room of so many events.
fn refusal(text: &[u8], plain: &Plain, walled: &Walled, side: u32, room: usize) -> Option<Triple> {
    match naive::read_trace(&plain.lines, side, room) {
        Err(answer) if answer.0 <= 4 => return Some(answer),
        _ => {}
    }
    let uncovered = if is_form_2(text) { uncovered(text, side) } else { None };
    if uncovered.is_some() {
        return uncovered;
    }
    let refused = naive::read_trace(&walled.text, side, room).err();
    match (walled.atomic, refused) {
        (Some(event), Some((5 | 6, _, earlier))) if earlier < event => refused,
        (Some(event), _) => Some((5, side, event)),
        (None, _) => refused,
    }
}

/// What a register's load without a source is: 16, as of every load.
fn inserted(answer: Triple, target: &Walled) -> Triple {
    match answer {
        (15, 2, event) if matches!(target.accesses[event as usize - 1], Some([1, _])) => (16, 2, event),
        _ => answer,
    }
}

fn has_line(text: &[u8], word: &[u8]) -> bool {
    text.split(|&byte| byte == b'\n').any(|line| line.starts_with(word))
}

/// A text with one word for another at the beginning of each line.
fn reworded(text: &[u8], from: &[u8], to: &[u8]) -> Vec<u8> {
    let lines = text.split(|&byte| byte == b'\n').map(|line| match line.strip_prefix(from) {
        Some(rest) => [to, rest].concat(),
        None => line.to_vec(),
    });
    lines.collect::<Vec<_>>().join(&b'\n')
}

/// The check of source, target and matching text, for rooms of so many events,
/// events and entries.
pub fn check(list: Option<&ListFor>, [source, target, matching]: [&[u8]; 3], rooms: [usize; 3]) -> Option<Outcome> {
    let has = |word| [source, target].iter().any(|text| has_line(text, word));
    if !has(FAILED) {
        return check_old(list, [source, target, matching], rooms);
    }
    if has(LOADED) || [source, target].iter().any(|text| is_over(text)) {
        return None;
    }
    let [first, second] = [source, target].map(|text| reworded(text, FAILED, LOADED));
    let mut outcome = check_old(list, [&first, &second, matching], rooms)?;
    outcome.line = reworded(&outcome.line, LOADED, FAILED);
    if let Some((source, target, _)) = &mut outcome.stored {
        for event in [source, target].into_iter().flat_map(|stored| stored.words.chunks_exact_mut(6)) {
            if event[0] == 3 {
                event[0] = 11;
            }
        }
    }
    Some(outcome)
}

/// The same, if document 01 has its kinds.
fn check_old(list: Option<&ListFor>, [source, target, matching]: [&[u8]; 3], rooms: [usize; 3]) -> Option<Outcome> {
    let refused = |answer| Some(Outcome { answer, line: naive::offending_line(source, target, answer), stored: None });
    let listed = match listed(list) {
        Ok(listed) => listed,
        Err(answer) => return refused(answer),
    };
    let (plain_source, plain_target) = (old(source)?, old(target)?);
    let walls = [&plain_source, &plain_target].map(|plain| walled(plain, &listed));
    if walls.iter().any(|walled| walled.text.len() > OLD_LIMIT) {
        return None;
    }
    let [source_walls, target_walls] = &walls;
    let first = refusal(source, &plain_source, source_walls, 1, rooms[0]);
    if let Some(answer) = first.or_else(|| refusal(target, &plain_target, target_walls, 2, rooms[1])) {
        return refused(answer);
    }
    let outcome = naive::check([&source_walls.text, &target_walls.text, matching], rooms);
    let answer = inserted(outcome.answer, target_walls);
    Some(Outcome {
        answer,
        line: naive::offending_line(source, target, answer),
        stored: outcome.stored.map(|(first, second, entries)| (stored(first, source_walls), stored(second, target_walls), entries)),
    })
}

/// A lawful text of form 1 with a start for every touched location, and code line
/// 0 at every event.
fn with_zeros(text: &[u8]) -> Vec<u8> {
    let lines = fields(text);
    let touched = located(&lines, &TOUCHING);
    let mut coded = String::from_utf8_lossy(FORM_2).into_owned();
    for location in 0..256 {
        let start = lines.iter().find(|line| line[0] == "init" && line[1] == location.to_string());
        match start {
            Some(line) => coded += &(line.join("\t") + "\n"),
            None if touched.contains(&location.to_string()) => coded += &format!("init\t{location}\t0\n"),
            None => {}
        }
    }
    for event in lines.iter().filter(|line| line[0] != "init") {
        coded += &(event.join("\t") + "\t0\n");
    }
    coded.into_bytes()
}

/// The answer to a move into so many bytes, and the text that it writes.
pub fn moved(list: Option<&ListFor>, to_form_2: bool, text: &[u8], bytes: usize) -> Option<(Triple, Vec<u8>)> {
    let refused = |answer| Some((answer, vec![]));
    let listed = match listed(list) {
        Ok(listed) => listed,
        Err(answer) => return refused(answer),
    };
    if is_over(text) {
        return refused((1, 1, 0));
    }
    if is_form_2(text) == to_form_2 {
        return refused((2, 1, 1));
    }
    let plain = old(text)?;
    let walled = walled(&plain, &listed);
    if walled.text.len() > OLD_LIMIT {
        return None;
    }
    if let Some(answer) = refusal(text, &plain, &walled, 1, usize::MAX) {
        return refused(answer);
    }
    if let Some(event) = plain.codes.iter().position(|&code| code != 0) {
        return refused((19, 1, event as u32 + 1));
    }
    let moved = if to_form_2 { with_zeros(text) } else { plain.text };
    if moved.len() > bytes {
        return refused((17, 0, moved.len() as u32));
    }
    Some(((0, 0, moved.len() as u32), moved))
}
