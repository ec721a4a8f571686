//! The proved library, linked in as `libexport.a` and called through its C
//! functions, with the results of `peer.rs`. A call with a list has a function of its
//! own there.

use crate::peer::{Answer, Checked, Entry, Form, ListFor, ListRead, MatchingRead, Memory, Shortened, TraceRead, Word, CELLS, EVENT_WORDS, MAX_EVENTS};
use crate::steps::Step;

#[path = "../door/laprunto.rs"]
mod door;

/// The function without a list, or the one with it: the list comes first.
macro_rules! call {
    ($list:expr, $plain:ident, $listed:ident, $($argument:expr),* $(,)?) => {
        match $list {
            None => door::$plain($($argument),*),
            Some(list) => door::$listed(list.text.as_ptr(), list.text.len(), list.group, $($argument),*),
        }
    };
}

fn answer(number: usize, side: usize, place: usize) -> Answer {
    Answer { number: number as u32, side: side as u32, place: place as u32 }
}

/// The call itself: number, side, place, events.
pub fn read_trace_to(list: Option<&ListFor>, text: &[u8], room: &mut [Word], memory: &mut Memory) -> [usize; 4] {
    let mut result = [STALE; 4];
    let (room, words) = (room.as_mut_ptr(), room.len());
    // Each pointer is that of a slice and comes with its length.
    unsafe {
        call!(list, laprunto_read_trace, laprunto_read_trace_listed, text.as_ptr(), text.len(), room, words, memory, &mut result);
    }
    result
}

/// The call itself: number, side, place, source events, target events, entries.
pub fn check_to(
    list: Option<&ListFor>,
    texts: [&[u8]; 3],
    rooms: [&mut [Word]; 2],
    entry_room: &mut [Entry],
    memories: &mut [Memory; 2],
) -> [usize; 6] {
    let [source, target, matching] = texts;
    let [source_room, target_room] = rooms;
    let [source_memory, target_memory] = memories;
    let mut result = [STALE; 6];
    unsafe {
        call!(
            list,
            laprunto_check,
            laprunto_check_listed,
            source.as_ptr(),
            source.len(),
            target.as_ptr(),
            target.len(),
            matching.as_ptr(),
            matching.len(),
            source_room.as_mut_ptr(),
            source_room.len(),
            target_room.as_mut_ptr(),
            target_room.len(),
            entry_room.as_mut_ptr(),
            entry_room.len(),
            source_memory,
            target_memory,
            &mut result,
        );
    }
    result
}

/// The call itself: a check's numbers, then how many steps there are; and the run.
pub fn start_to(
    list: Option<&ListFor>,
    texts: [&[u8]; 3],
    rooms: [&mut [Word]; 2],
    entry_room: &mut [Entry],
    tags: &mut [usize; MAX_EVENTS],
) -> ([usize; 7], [usize; 2]) {
    let [source, target, matching] = texts;
    let [source_room, target_room] = rooms;
    let (mut result, mut run) = ([STALE; 7], [STALE; 2]);
    unsafe {
        call!(
            list,
            laprunto_start,
            laprunto_start_listed,
            source.as_ptr(),
            source.len(),
            target.as_ptr(),
            target.len(),
            matching.as_ptr(),
            matching.len(),
            source_room.as_mut_ptr(),
            source_room.len(),
            target_room.as_mut_ptr(),
            target_room.len(),
            entry_room.as_mut_ptr(),
            entry_room.len(),
            tags,
            &mut run,
            &mut result,
        );
    }
    (result, run)
}

/// What is not written by a call would be seen.
const STALE: usize = 77_777;
const STALE_MEMORY: Memory = [77_777; CELLS];

/// The call itself: number, side, place; and the marks.
fn read_list_to(list: &ListFor) -> ([usize; 3], door::Listed) {
    let (mut result, mut marks) = ([STALE; 3], [77; CELLS]);
    unsafe {
        door::laprunto_read_list(list.text.as_ptr(), list.text.len(), list.group, &mut result, &mut marks);
    }
    (result, marks)
}

/// A mark that is neither 0 nor 1 is none.
pub fn read_list(list: &ListFor) -> Option<ListRead> {
    let ([number, side, place], marks) = read_list_to(list);
    let listed = marks.map(|mark| mark == 1);
    marks.iter().all(|&mark| mark <= 1).then_some(ListRead { answer: answer(number, side, place), listed })
}

pub fn read_trace(list: Option<&ListFor>, text: &[u8], room: &mut [Word]) -> TraceRead {
    let mut memory = STALE_MEMORY;
    let [number, side, place, events] = read_trace_to(list, text, room, &mut memory);
    TraceRead { answer: answer(number, side, place), events, memory }
}

pub fn read_matching(text: &[u8], room: &mut [Entry]) -> MatchingRead {
    let mut result = [STALE; 4];
    unsafe {
        door::laprunto_read_matching(text.as_ptr(), text.len(), room.as_mut_ptr(), room.len(), &mut result);
    }
    let [number, side, place, entries] = result;
    MatchingRead { answer: answer(number, side, place), entries }
}

/// What a form is called in a call.
fn form_number(form: Form) -> u32 {
    match form {
        Form::One => 1,
        Form::Two => 2,
    }
}

/// The form as its number.
pub fn trace_form(text: &[u8]) -> u32 {
    unsafe { door::laprunto_trace_form(text.as_ptr(), text.len()) }
}

pub fn write_trace(list: Option<&ListFor>, form: Form, memory: &Memory, room: &[Word], out: &mut [u8]) -> Answer {
    let mut result = [STALE; 3];
    let (form, room, words, out, bytes) = (form_number(form), room.as_ptr(), room.len(), out.as_mut_ptr(), out.len());
    unsafe {
        call!(list, laprunto_write_trace, laprunto_write_trace_listed, form, memory, room, words, out, bytes, &mut result);
    }
    let [number, side, place] = result;
    answer(number, side, place)
}

pub fn move_to(list: Option<&ListFor>, to: Form, text: &[u8], out: &mut [u8]) -> Answer {
    let mut result = [STALE; 3];
    let (form, out, bytes) = (form_number(to), out.as_mut_ptr(), out.len());
    unsafe {
        call!(list, laprunto_move_trace, laprunto_move_trace_listed, form, text.as_ptr(), text.len(), out, bytes, &mut result);
    }
    let [number, side, place] = result;
    answer(number, side, place)
}

pub fn shorten(list: Option<&ListFor>, text: &[u8], out: &mut [u8], matching_out: &mut [u8]) -> Shortened {
    let mut result = [STALE; 5];
    let (out, size, names, room) = (out.as_mut_ptr(), out.len(), matching_out.as_mut_ptr(), matching_out.len());
    unsafe {
        call!(list, laprunto_shorten, laprunto_shorten_listed, text.as_ptr(), text.len(), out, size, names, room, &mut result);
    }
    let [number, side, place, bytes, matching_bytes] = result;
    Shortened { answer: answer(number, side, place), bytes, matching_bytes }
}

pub fn check(list: Option<&ListFor>, texts: [&[u8]; 3], rooms: [&mut [Word]; 2], entry_room: &mut [Entry]) -> Checked {
    let mut memories = [STALE_MEMORY; 2];
    let [number, side, place, source_events, target_events, entries] = check_to(list, texts, rooms, entry_room, &mut memories);
    let answer = answer(number, side, place);
    let [source_memory, target_memory] = memories;
    Checked { answer, source_events, target_events, entries, source_memory, target_memory }
}

/// Where the line stands: in the target text for side 2, else in the source text.
pub fn offending_part(source: &[u8], target: &[u8], answer: Answer) -> (usize, usize) {
    let (mut from, mut to) = (STALE, STALE);
    unsafe {
        door::laprunto_offending_line(
            source.as_ptr(),
            source.len(),
            target.as_ptr(),
            target.len(),
            answer.number,
            answer.side,
            answer.place as usize,
            &mut from,
            &mut to,
        );
    }
    (from, to)
}

/// A run in rooms that hold the most, its events and entries as the check stored them,
/// and the marks of its list.
struct Begun {
    listed: Option<door::Listed>,
    source: Vec<Word>,
    target: Vec<Word>,
    entries: Vec<Entry>,
    tags: [usize; MAX_EVENTS],
    run: [usize; 2],
}

impl Begun {
    /// The next step after a swap at a place, or after another for 0.
    fn next(&self, swapped: usize) -> [usize; 3] {
        let Begun { listed, source, target, entries, tags, run } = self;
        let mut step = [STALE; 3];
        let (source, source_words, target, target_words) = (source.as_ptr(), source.len(), target.as_ptr(), target.len());
        let (entries, count, to) = (entries.as_ptr(), entries.len(), &mut step);
        unsafe {
            match listed {
                None => door::laprunto_next(run, tags, source, source_words, target, target_words, entries, count, swapped, to),
                Some(listed) => {
                    door::laprunto_next_listed(listed, run, tags, source, source_words, target, target_words, entries, count, swapped, to)
                }
            }
        }
        step
    }

    /// Whether a step is allowed, which is then applied.
    fn apply(&mut self, [kind, place, number]: [usize; 3]) -> bool {
        let Begun { listed, source, target, tags, run, .. } = self;
        let (source, source_words, target, target_words) = (source.as_ptr(), source.len(), target.as_ptr(), target.len());
        let allowed = unsafe {
            match listed {
                None => door::laprunto_apply(run, tags, source, source_words, target, target_words, kind, place, number),
                Some(listed) => door::laprunto_apply_listed(listed, run, tags, source, source_words, target, target_words, kind, place, number),
            }
        };
        allowed == 1
    }
}

/// What is said of the run of three texts: a check's answer, how many steps are
/// counted, and the steps.
pub struct Run {
    pub answer: Answer,
    pub cost: usize,
    pub steps: Vec<Step>,
}

/// A check and, if it accepts, the run that it begins: no step is known yet.
fn begin(list: Option<&ListFor>, texts: [&[u8]; 3]) -> (Run, Begun) {
    let [mut source, mut target] = [(); 2].map(|()| vec![0; MAX_EVENTS * EVENT_WORDS]);
    let (mut entries, mut tags) = (vec![0; MAX_EVENTS], [STALE; MAX_EVENTS]);
    let (result, run) = start_to(list, texts, [&mut source, &mut target], &mut entries, &mut tags);
    let [number, side, place, source_events, target_events, entry_count, cost] = result;
    source.truncate(source_events * EVENT_WORDS);
    target.truncate(target_events * EVENT_WORDS);
    entries.truncate(entry_count);
    let listed = list.map(|list| read_list_to(list).1);
    (Run { answer: answer(number, side, place), cost, steps: vec![] }, Begun { listed, source, target, entries, tags, run })
}

/// The run of three texts under a list or none: every step, asked for and applied in turn.
pub fn run(list: Option<&ListFor>, texts: [&[u8]; 3]) -> Result<Run, String> {
    let (mut run, mut begun) = begin(list, texts);
    let mut swapped = 0;
    loop {
        let done = run.steps.len();
        let [kind, place, number] = begun.next(swapped);
        let step = match kind {
            0 => return Ok(run),
            1 => Step::Remove { place, number },
            2 => Step::Swap { place },
            3 => Step::Insert { place },
            _ => return Err(format!("kind {kind} after {done} steps")),
        };
        if !begun.apply([kind, place, number]) {
            return Err(format!("{step:?} after {done} steps is not allowed"));
        }
        swapped = if kind == 2 { place } else { 0 };
        run.steps.push(step);
    }
}
