//! Texts made from events with the standard formatter, for the programs that
//! test the checker. Independent of the checker's own writer.

use crate::peer::{self, Event, Kind, Locations, Memory, EVENT_WORDS, MAX_EVENTS};
use std::collections::BTreeSet;

const ORDERS: [&str; 8] = ["", "rlx", "acq", "rel", "ar", "sc", "used", "unused"];

/// The line of an event, with its LF.
pub fn event_line(event: &Event) -> String {
    let Event { place, first, second, .. } = *event;
    let order = ORDERS[usize::from(event.order)];
    match event.kind {
        Kind::Load => format!("load\t{place}\t{first}\t{order}\n"),
        Kind::Store => format!("store\t{place}\t{first}\n"),
        Kind::ALoad => format!("aload\t{place}\t{order}\t{first}\n"),
        Kind::AStore => format!("astore\t{place}\t{order}\t{first}\n"),
        Kind::Rmw => format!("rmw\t{place}\t{order}\t{first}\t{second}\n"),
        Kind::Add => format!("add\t{place}\t{order}\t{first}\t{second}\n"),
        Kind::Add64 => format!("add64\t{place}\t{order}\t{first}\t{second}\n"),
        Kind::CmpFail => format!("cmpfail\t{place}\t{order}\t{first}\n"),
        Kind::Fence => format!("fence\t{order}\n"),
        Kind::Lock => format!("lock\t{place}\n"),
        Kind::Unlock => format!("unlock\t{place}\n"),
    }
}

/// The first line and the `init` lines of a trace.
pub fn trace_head(start: &Memory) -> String {
    let mut text = String::from("trace\t1\n");
    for (location, value) in start.iter().enumerate().filter(|(_, &value)| value != 0) {
        text += &format!("init\t{location}\t{value}\n");
    }
    text
}

pub fn trace_text(start: &Memory, events: &[Event]) -> Vec<u8> {
    let mut text = trace_head(start);
    for event in events {
        text += &event_line(event);
    }
    text.into_bytes()
}

/// The location that a line has, if it begins with one of these words.
fn location(line: &[u8], words: &[&str]) -> Option<u8> {
    let mut fields = std::str::from_utf8(line).ok()?.trim_end().split('\t');
    let word = fields.next()?;
    let location = fields.next()?.parse().ok();
    location.filter(|_| words.contains(&word))
}

/// The location of an `init` line.
pub fn start(line: &[u8]) -> Option<u8> {
    location(line, &["init"])
}

/// A zero line for a location among the lines of a trace, behind the starts of
/// lower ones; nothing where it has a line.
pub fn add_zero(lines: &mut Vec<Vec<u8>>, location: u8) {
    let lower = lines.iter().skip(1).take_while(|line| start(line).is_some_and(|start| start < location)).count();
    let at = lines.len().min(lower + 1);
    if lines.get(at).and_then(|line| start(line)) != Some(location) {
        lines.insert(at, format!("init\t{location}\t0\n").into_bytes());
    }
}

/// A trace of form 2 with a zero line for each touched location that has no
/// `init` line. A text of which a line is refused stays as it is, so that its
/// lines keep their numbers.
pub fn with_zeros(text: &[u8]) -> Vec<u8> {
    const TOUCHING: [&str; 8] = ["load", "store", "aload", "astore", "rmw", "add", "add64", "cmpfail"];
    let read = peer::read_trace(None, text, &mut [0; MAX_EVENTS * EVENT_WORDS]);
    if (1..=4).contains(&read.answer.number) {
        return text.to_vec();
    }
    let mut lines: Vec<Vec<u8>> = text.split_inclusive(|&byte| byte == b'\n').map(<[u8]>::to_vec).collect();
    let touched: BTreeSet<u8> = lines.iter().filter_map(|line| location(line, &TOUCHING)).collect();
    touched.into_iter().for_each(|location| add_zero(&mut lines, location));
    lines.concat()
}

/// A trace of form 1 as one of form 2: each event line ends with a code line, and
/// zero lines are added. Where a line is bad, it stays so.
pub fn with_codes(text: &[u8], mut code: impl FnMut() -> u32) -> Vec<u8> {
    let Some(rest) = text.strip_prefix(b"trace\t1\n") else {
        return text.to_vec();
    };
    let mut coded = b"trace\t2\n".to_vec();
    for line in rest.split_inclusive(|&byte| byte == b'\n') {
        match line.strip_suffix(b"\n") {
            Some(event) if !event.starts_with(b"init\t") => {
                coded.extend_from_slice(event);
                coded.extend_from_slice(format!("\t{}\n", code()).as_bytes());
            }
            _ => coded.extend_from_slice(line),
        }
    }
    with_zeros(&coded)
}

pub fn entry_line(entry: u16) -> String {
    match entry {
        0 => String::from("gone\n"),
        target => format!("keep\t{target}\n"),
    }
}

pub fn matching_text(entries: &[u16]) -> Vec<u8> {
    let mut text = String::from("match\t1\n");
    for &entry in entries {
        text += &entry_line(entry);
    }
    text.into_bytes()
}

/// The list of form 2 of two groups.
pub fn group_text(groups: [&Locations; 2]) -> Vec<u8> {
    let mut text = String::from("regs\t2\n");
    for (group, listed) in (1..).zip(groups) {
        for (location, _) in listed.iter().enumerate().filter(|(_, &listed)| listed) {
            text += &format!("reg\t{group}\t{location}\n");
        }
    }
    text.into_bytes()
}

pub fn list_text(listed: &Locations) -> Vec<u8> {
    let mut text = String::from("regs\t1\n");
    for (location, _) in listed.iter().enumerate().filter(|(_, &listed)| listed) {
        text += &format!("reg\t{location}\n");
    }
    text.into_bytes()
}
