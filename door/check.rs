//! Checks three files, source, target and matching, with a list of registers if
//! there is a fourth, for the group of a fifth word (1 if there is none), and
//! prints what the program `laprunto` prints, and the
//! locations that are listed. Then the run goes to its end, both traces that were
//! read are written again, what was written is read back, both texts are moved to
//! the other form and back, and both are shortened: status 1 if anything came back
//! otherwise.

mod laprunto;

use laprunto::{laprunto_apply, laprunto_next, laprunto_start};
use laprunto::{laprunto_check, laprunto_move_trace, laprunto_offending_line, laprunto_read_matching};
use laprunto::{laprunto_apply_listed, laprunto_next_listed, laprunto_start_listed};
use laprunto::{laprunto_check_listed, laprunto_move_trace_listed, laprunto_read_list, laprunto_read_trace_listed, laprunto_write_trace_listed};
use laprunto::{laprunto_read_trace, laprunto_trace_form, laprunto_write_trace};
use laprunto::{laprunto_shorten, laprunto_shorten_listed};
use laprunto::{Entry, Listed, Memory, Number, Word};
use std::io::{Read, Write};

/// The longest text, a trace of form 2.
const TEXT_BYTES: usize = 57_300;
const EVENTS: usize = 800;
const WORDS: usize = 6;

#[derive(PartialEq)]
struct Trace {
    words: Vec<Word>,
    memory: Memory,
}

struct Checked {
    number: usize,
    side: usize,
    place: usize,
    source: Trace,
    target: Trace,
    entries: Vec<Entry>,
}

/// The text of a list of registers, and the group that it is for.
#[derive(Clone, Copy)]
struct Registers<'a> {
    text: &'a [u8],
    group: Word,
}

type List<'a> = Option<Registers<'a>>;

/// The marks of a list, none set under a refusal.
fn marks(list: Registers) -> Listed {
    let (mut result, mut listed): ([usize; 3], Listed) = ([0; 3], [0; 256]);
    unsafe { laprunto_read_list(list.text.as_ptr(), list.text.len(), list.group, &mut result, &mut listed) };
    listed
}

fn check(list: List, source: &[u8], target: &[u8], matching: &[u8]) -> Checked {
    let [mut source_room, mut target_room] = [vec![0; EVENTS * WORDS], vec![0; EVENTS * WORDS]];
    let mut entry_room = vec![0; EVENTS];
    let [mut source_memory, mut target_memory] = [[0; 256]; 2];
    let mut result = [0; 6];
    // Each pointer is that of a slice and comes with its length.
    unsafe {
        match list {
            Some(list) => laprunto_check_listed(
                list.text.as_ptr(), list.text.len(), list.group,
                source.as_ptr(), source.len(), target.as_ptr(), target.len(), matching.as_ptr(), matching.len(),
                source_room.as_mut_ptr(), source_room.len(), target_room.as_mut_ptr(), target_room.len(),
                entry_room.as_mut_ptr(), entry_room.len(), &mut source_memory, &mut target_memory, &mut result,
            ),
            None => laprunto_check(
                source.as_ptr(), source.len(), target.as_ptr(), target.len(), matching.as_ptr(), matching.len(),
                source_room.as_mut_ptr(), source_room.len(), target_room.as_mut_ptr(), target_room.len(),
                entry_room.as_mut_ptr(), entry_room.len(), &mut source_memory, &mut target_memory, &mut result,
            ),
        }
    }
    let [number, side, place, source_events, target_events, entries] = result;
    source_room.truncate(source_events * WORDS);
    target_room.truncate(target_events * WORDS);
    entry_room.truncate(entries);
    let source = Trace { words: source_room, memory: source_memory };
    let target = Trace { words: target_room, memory: target_memory };
    Checked { number, side, place, source, target, entries: entry_room }
}

fn offending_line<'a>(source: &'a [u8], target: &'a [u8], checked: &Checked) -> &'a [u8] {
    let (number, side) = (checked.number as Number, checked.side as Number);
    let (mut from, mut to) = (0, 0);
    unsafe {
        laprunto_offending_line(
            source.as_ptr(),
            source.len(),
            target.as_ptr(),
            target.len(),
            number,
            side,
            checked.place,
            &mut from,
            &mut to,
        );
    }
    let text = if side == 2 { target } else { source };
    &text[from..to]
}

/// The form of a trace text, 1 or 2.
fn form_of(text: &[u8]) -> Number {
    unsafe { laprunto_trace_form(text.as_ptr(), text.len()) }
}

/// What a call that writes leaves in the bytes that it is lent, or its refusal.
fn written(write: impl Fn(&mut [u8], &mut [usize; 3])) -> Result<Vec<u8>, usize> {
    let mut out = vec![0; TEXT_BYTES];
    let mut result = [0; 3];
    write(&mut out, &mut result);
    let [number, _, bytes] = result;
    out.truncate(bytes);
    if number == 0 {
        Ok(out)
    } else {
        Err(number)
    }
}

fn write_trace(list: List, form: Number, trace: &Trace) -> Result<Vec<u8>, usize> {
    let (memory, room, words) = (&trace.memory, trace.words.as_ptr(), trace.words.len());
    written(|out, result| unsafe {
        let (bytes, size) = (out.as_mut_ptr(), out.len());
        match list {
            Some(Registers { text: list, group }) => {
                laprunto_write_trace_listed(list.as_ptr(), list.len(), group, form, memory, room, words, bytes, size, result)
            }
            None => laprunto_write_trace(form, memory, room, words, bytes, size, result),
        }
    })
}

fn move_trace(list: List, to_form: Number, text: &[u8]) -> Result<Vec<u8>, usize> {
    written(|out, result| unsafe {
        let (bytes, size) = (out.as_mut_ptr(), out.len());
        match list {
            Some(Registers { text: list, group }) => {
                laprunto_move_trace_listed(list.as_ptr(), list.len(), group, to_form, text.as_ptr(), text.len(), bytes, size, result)
            }
            None => laprunto_move_trace(to_form, text.as_ptr(), text.len(), bytes, size, result),
        }
    })
}

/// The shortened text and the matching from the long one to it, or the number of the refusal.
fn shorten_trace(list: List, text: &[u8]) -> Result<[Vec<u8>; 2], usize> {
    let [mut out, mut names] = [(); 2].map(|()| vec![0; TEXT_BYTES]);
    let mut result = [0; 5];
    unsafe {
        let (bytes, size, lent, named) = (out.as_mut_ptr(), out.len(), names.as_mut_ptr(), names.len());
        match list {
            Some(Registers { text: list, group }) => {
                laprunto_shorten_listed(list.as_ptr(), list.len(), group, text.as_ptr(), text.len(), bytes, size, lent, named, &mut result)
            }
            None => laprunto_shorten(text.as_ptr(), text.len(), bytes, size, lent, named, &mut result),
        }
    }
    let [number, _, _, short, count] = result;
    out.truncate(short);
    names.truncate(count);
    if number == 0 { Ok([out, names]) } else { Err(number) }
}

fn read_trace(list: List, text: &[u8]) -> Option<Trace> {
    let mut words = vec![0; EVENTS * WORDS];
    let mut memory = [0; 256];
    let mut result = [0; 4];
    unsafe {
        let (bytes, size, room, lent) = (text.as_ptr(), text.len(), words.as_mut_ptr(), words.len());
        match list {
            Some(Registers { text: list, group }) => {
                laprunto_read_trace_listed(list.as_ptr(), list.len(), group, bytes, size, room, lent, &mut memory, &mut result)
            }
            None => laprunto_read_trace(bytes, size, room, lent, &mut memory, &mut result),
        }
    }
    let [number, _, _, events] = result;
    words.truncate(events * WORDS);
    (number == 0).then_some(Trace { words, memory })
}

fn read_matching(text: &[u8]) -> Option<Vec<Entry>> {
    let mut entries = vec![0; EVENTS];
    let mut result = [0; 4];
    unsafe {
        laprunto_read_matching(text.as_ptr(), text.len(), entries.as_mut_ptr(), entries.len(), &mut result);
    }
    let [number, _, _, count] = result;
    entries.truncate(count);
    (number == 0).then_some(entries)
}

/// Whether a trace, written, is the text that it was read from, and is read back as it was.
fn comes_back(list: List, text: &[u8], trace: &Trace) -> bool {
    write_trace(list, form_of(text), trace).is_ok_and(|written| written == text && read_trace(list, &written).as_ref() == Some(trace))
}

/// Whether a lawful text, moved to the other form, moves back to the same bytes. Form 1 refuses what has code lines, with 19.
fn moves_back(list: List, text: &[u8]) -> bool {
    let form = form_of(text);
    match move_trace(list, 3 - form, text) {
        Ok(moved) => move_trace(list, form, &moved).is_ok_and(|back| back == text),
        Err(number) => form == 2 && number == 19,
    }
}

/// Whether a lawful text, shortened, is accepted for the long one with its matching, and shortened again is the same bytes.
fn shortens(list: List, text: &[u8]) -> bool {
    shorten_trace(list, text).is_ok_and(|[short, matching]| {
        check(list, text, &short, &matching).number == 0 && shorten_trace(list, &short).is_ok_and(|[again, _]| again == short)
    })
}

/// Whether the run of an accepted matching goes to its end in as many steps as were counted, and a refused one has none.
fn runs(list: List, source: &[u8], target: &[u8], matching: &[u8], accepted: bool) -> bool {
    let [mut source_room, mut target_room] = [(); 2].map(|()| vec![0; EVENTS * WORDS]);
    let mut entry_room = vec![0; EVENTS];
    let (mut tags, mut run, mut result) = ([0; EVENTS], [0; 2], [0; 7]);
    unsafe {
        match list {
            Some(list) => laprunto_start_listed(
                list.text.as_ptr(), list.text.len(), list.group,
                source.as_ptr(), source.len(), target.as_ptr(), target.len(), matching.as_ptr(), matching.len(),
                source_room.as_mut_ptr(), source_room.len(), target_room.as_mut_ptr(), target_room.len(),
                entry_room.as_mut_ptr(), entry_room.len(), &mut tags, &mut run, &mut result,
            ),
            None => laprunto_start(
                source.as_ptr(), source.len(), target.as_ptr(), target.len(), matching.as_ptr(), matching.len(),
                source_room.as_mut_ptr(), source_room.len(), target_room.as_mut_ptr(), target_room.len(),
                entry_room.as_mut_ptr(), entry_room.len(), &mut tags, &mut run, &mut result,
            ),
        }
    }
    let [_, _, _, source_events, target_events, entries, cost] = result;
    let (source, source_words) = (source_room.as_ptr(), source_events * WORDS);
    let (target, target_words) = (target_room.as_ptr(), target_events * WORDS);
    let entry_room = entry_room.as_ptr();
    let marks = list.map(marks);
    let (mut steps, mut swapped) = (0, 0);
    loop {
        let mut step = [0; 3];
        unsafe {
            match &marks {
                Some(marks) => laprunto_next_listed(
                    marks, &run, &tags, source, source_words, target, target_words, entry_room, entries, swapped, &mut step,
                ),
                None => laprunto_next(&run, &tags, source, source_words, target, target_words, entry_room, entries, swapped, &mut step),
            }
        }
        let [kind, place, number] = step;
        let allowed = unsafe {
            match &marks {
                Some(marks) => laprunto_apply_listed(
                    marks, &mut run, &mut tags, source, source_words, target, target_words, kind, place, number,
                ),
                None => laprunto_apply(&mut run, &mut tags, source, source_words, target, target_words, kind, place, number),
            }
        };
        match kind {
            0 => return allowed == 0 && steps == cost && if accepted { run[1] == target_events } else { steps == 0 },
            _ if allowed == 1 => swapped = if kind == 2 { place } else { 0 },
            _ => return false,
        }
        steps += 1;
    }
}

/// A file that cannot be opened counts as an empty text; one byte too many is enough for answer 1.
fn read_file(name: Option<String>) -> Vec<u8> {
    let mut text = vec![];
    if let Some(file) = name.and_then(|name| std::fs::File::open(name).ok()) {
        file.take(TEXT_BYTES as u64 + 1).read_to_end(&mut text).expect("the file can be read");
    }
    text
}

fn main() {
    let mut names = std::env::args().skip(1);
    let [source, target, matching] = [(); 3].map(|()| read_file(names.next()));
    let list = names.next().map(|name| read_file(Some(name)));
    let group = names.next().map_or(1, |group| group.parse().expect("a group"));
    let list = list.as_deref().map(|text| Registers { text, group });
    let checked = check(list, &source, &target, &matching);
    let word = if checked.number == 0 { "accepted" } else { "refused" };
    println!("{word}\t{}\t{}\t{}", checked.number, checked.side, checked.place);
    let line = offending_line(&source, &target, &checked);
    if !line.is_empty() {
        std::io::stdout().write_all(&[line, b"\n"].concat()).expect("the line can be printed");
    }
    for (location, mark) in list.map(marks).iter().flatten().enumerate() {
        if *mark == 1 {
            println!("listed\t{location}");
        }
    }
    if !runs(list, &source, &target, &matching, checked.number == 0) {
        eprintln!("the run does not go to its end");
        std::process::exit(1);
    }
    // A reading's refusal stores nothing; 0 and 7 to 16 come after all three texts were read.
    let read = checked.number == 0 || (7..=16).contains(&checked.number);
    let back = comes_back(list, &source, &checked.source)
        && comes_back(list, &target, &checked.target)
        && read_matching(&matching) == Some(checked.entries);
    if read && !back {
        eprintln!("what was written is not read back");
        std::process::exit(1);
    }
    if read && !(moves_back(list, &source) && moves_back(list, &target)) {
        eprintln!("what was moved does not move back");
        std::process::exit(1);
    }
    if read && !(shortens(list, &source) && shortens(list, &target)) {
        eprintln!("what was shortened is not accepted, or is shortened again");
        std::process::exit(1);
    }
}
