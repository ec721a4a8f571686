//! The functions of `libexport.a`, as `laprunto.h` declares them: a slice is its
//! pointer and its length. Every Rust program here takes them from this file.

/// A value and a word of an event.
pub type Word = u64;
/// A number that is no value: an answer's, a side's, a form's.
pub type Number = u32;
/// An entry of a matching.
pub type Entry = Number;
pub type Memory = [Word; 256];
/// A mark for each location: 1 if it is listed, 0 if not.
pub type Listed = [u8; 256];

#[rustfmt::skip]
extern "C" {
    pub fn laprunto_read_trace(text: *const u8, bytes: usize, room: *mut Word, words: usize, memory: *mut Memory, result: *mut [usize; 4]);
    pub fn laprunto_read_matching(text: *const u8, bytes: usize, room: *mut Entry, entries: usize, result: *mut [usize; 4]);
    pub fn laprunto_trace_form(text: *const u8, bytes: usize) -> Number;
    pub fn laprunto_write_trace(
        form: Number, memory: *const Memory, room: *const Word, words: usize, out: *mut u8, bytes: usize, result: *mut [usize; 3],
    );
    pub fn laprunto_move_trace(to_form: Number, text: *const u8, bytes: usize, out: *mut u8, out_bytes: usize, result: *mut [usize; 3]);
    pub fn laprunto_shorten(
        text: *const u8, bytes: usize, out: *mut u8, out_bytes: usize, matching_out: *mut u8, matching_out_bytes: usize, result: *mut [usize; 5],
    );
    pub fn laprunto_check(
        source: *const u8, source_bytes: usize, target: *const u8, target_bytes: usize, matching: *const u8, matching_bytes: usize,
        source_room: *mut Word, source_words: usize, target_room: *mut Word, target_words: usize, entry_room: *mut Entry, entries: usize,
        source_memory: *mut Memory, target_memory: *mut Memory, result: *mut [usize; 6],
    );
    pub fn laprunto_offending_line(
        source: *const u8, source_bytes: usize, target: *const u8, target_bytes: usize, number: Number, side: Number, place: usize,
        from: *mut usize, to: *mut usize,
    );
    pub fn laprunto_start(
        source: *const u8, source_bytes: usize, target: *const u8, target_bytes: usize, matching: *const u8, matching_bytes: usize,
        source_room: *mut Word, source_words: usize, target_room: *mut Word, target_words: usize, entry_room: *mut Entry, entries: usize,
        tags: *mut [usize; 800], run: *mut [usize; 2], result: *mut [usize; 7],
    );
    pub fn laprunto_next(
        run: *const [usize; 2], tags: *const [usize; 800], source: *const Word, source_words: usize, target: *const Word, target_words: usize,
        entries: *const Entry, entry_count: usize, swapped: usize, step: *mut [usize; 3],
    );
    pub fn laprunto_apply(
        run: *mut [usize; 2], tags: *mut [usize; 800], source: *const Word, source_words: usize, target: *const Word, target_words: usize,
        kind: usize, place: usize, number: usize,
    ) -> usize;

    // The same with a list of registers, for a group.
    pub fn laprunto_read_list(list: *const u8, list_bytes: usize, group: Word, result: *mut [usize; 3], listed: *mut Listed);
    pub fn laprunto_read_trace_listed(
        list: *const u8, list_bytes: usize, group: Word, text: *const u8, bytes: usize, room: *mut Word, words: usize, memory: *mut Memory,
        result: *mut [usize; 4],
    );
    pub fn laprunto_write_trace_listed(
        list: *const u8, list_bytes: usize, group: Word, form: Number, memory: *const Memory, room: *const Word, words: usize, out: *mut u8, bytes: usize,
        result: *mut [usize; 3],
    );
    pub fn laprunto_move_trace_listed(
        list: *const u8, list_bytes: usize, group: Word, to_form: Number, text: *const u8, bytes: usize, out: *mut u8, out_bytes: usize,
        result: *mut [usize; 3],
    );
    pub fn laprunto_shorten_listed(
        list: *const u8, list_bytes: usize, group: Word, text: *const u8, bytes: usize, out: *mut u8, out_bytes: usize,
        matching_out: *mut u8, matching_out_bytes: usize, result: *mut [usize; 5],
    );
    pub fn laprunto_check_listed(
        list: *const u8, list_bytes: usize, group: Word,
        source: *const u8, source_bytes: usize, target: *const u8, target_bytes: usize, matching: *const u8, matching_bytes: usize,
        source_room: *mut Word, source_words: usize, target_room: *mut Word, target_words: usize, entry_room: *mut Entry, entries: usize,
        source_memory: *mut Memory, target_memory: *mut Memory, result: *mut [usize; 6],
    );
    pub fn laprunto_start_listed(
        list: *const u8, list_bytes: usize, group: Word,
        source: *const u8, source_bytes: usize, target: *const u8, target_bytes: usize, matching: *const u8, matching_bytes: usize,
        source_room: *mut Word, source_words: usize, target_room: *mut Word, target_words: usize, entry_room: *mut Entry, entries: usize,
        tags: *mut [usize; 800], run: *mut [usize; 2], result: *mut [usize; 7],
    );
    pub fn laprunto_next_listed(
        listed: *const Listed,
        run: *const [usize; 2], tags: *const [usize; 800], source: *const Word, source_words: usize, target: *const Word, target_words: usize,
        entries: *const Entry, entry_count: usize, swapped: usize, step: *mut [usize; 3],
    );
    pub fn laprunto_apply_listed(
        listed: *const Listed,
        run: *mut [usize; 2], tags: *mut [usize; 800], source: *const Word, source_words: usize, target: *const Word, target_words: usize,
        kind: usize, place: usize, number: usize,
    ) -> usize;
}
