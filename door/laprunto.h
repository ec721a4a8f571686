/* Laprunto for C: reading, writing, moving, shortening and checking of traces, with a list of device registers or without, the line at fault, and the
 * run of an accepted matching.
 *
 * Link crates/export/out/libexport.a (`rt lib` in crates/export). Each function is proved against its contract in
 * crates/export/src and wants no other library than C's own memcpy, memmove and memset.
 *
 * Slices. A text or a room is a pointer and the number of its elements: bytes of a text, words or entries of a room. Any number is fine, 0 too,
 * and so is any content. A pointer is never null, not even for length 0, and what a call may write overlaps nothing else that the
 * call is handed. A call that keeps to this gets an answer, whatever the bytes are; nothing else is asked.
 *
 * Rooms. An event is six words: kind, place, order, first, second, code; an entry is one number: the target number, or 0 for gone
 * (docs/LAYOUT.md has the numbers of kinds and orders). A room of w words holds w / 6 events. Refused readings leave rooms as they
 * were; else the events or entries stand at the front and the rest is unchanged. LAPRUNTO_TRACE_WORDS and LAPRUNTO_ENTRY_WORDS
 * hold the most.
 *
 * Memories. The starting memory of a trace is 256 words, one for each location.
 *
 * Forms. A trace text is of form 2 where it begins with the line `trace`, tab, `2`, else of form 1. Where a form is handed in, 2 is
 * form 2 and any other number is form 1.
 *
 * Lists. A function whose name ends in _listed is the one without that ending, and takes the text of a list of registers first, and a group:
 * of a list that two groups share, 1 and 2, the group's own lines are used; a list of form 1 is group 1's, and any other group has no
 * line. The list is read ahead of everything else: where it refuses, with 1, 2 or 22 and side 4, that is the answer and nothing is stored.
 * A fault in the other group's lines refuses too. The two that go on with a run take the list's marks first, as laprunto_read_list leaves
 * them: a location is listed where its byte is not 0.
 *
 * Results. Each begins with the answer, the number, side and place of the table in README.md; number 0 is done. Counts come
 * after it. Counts and memories are 0 where nothing is stored. */
#ifndef LAPRUNTO_H
#define LAPRUNTO_H

#include <stddef.h>
#include <stdint.h>

#ifdef __cplusplus
extern "C" {
#endif

typedef uint64_t laprunto_word;   /* a value and a word of an event */
typedef uint32_t laprunto_number; /* a number that is no value: an answer's, a side's, a form's */
typedef uint32_t laprunto_entry;  /* an entry of a matching */

enum {
    LAPRUNTO_MATCHING_BYTES = 32400, /* the longest matching */
    LAPRUNTO_LIST_BYTES = 32400,     /* the longest list of registers */
    LAPRUNTO_FORM_1_BYTES = 52500,   /* the longest trace of form 1 */
    LAPRUNTO_FORM_2_BYTES = 57300,   /* the longest trace of form 2 */
    LAPRUNTO_TRACE_WORDS = 4800,     /* 800 events */
    LAPRUNTO_ENTRY_WORDS = 800,      /* 800 entries */
    LAPRUNTO_CELLS = 256,            /* a starting memory, and a list's marks */
    LAPRUNTO_TAGS = 800              /* where each event of a run comes from */
};

/* Where what stands in a result. */
enum {
    LAPRUNTO_NUMBER = 0, /* of every result */
    LAPRUNTO_SIDE = 1,   /* 0 none, 1 source, 2 target, 3 matching, 4 list of registers */
    LAPRUNTO_PLACE = 2,
    LAPRUNTO_COUNT = 3,         /* of a reading: its events or entries */
    LAPRUNTO_SOURCE_EVENTS = 3, /* of a check */
    LAPRUNTO_TARGET_EVENTS = 4,
    LAPRUNTO_ENTRIES = 5,
    LAPRUNTO_COST = 6, /* of a beginning: how many steps the run has to its end */
    LAPRUNTO_SHORT_BYTES = 3, /* of a shortening: the bytes of the shortened text, */
    LAPRUNTO_NAMES_BYTES = 4, /* and those of its matching; 0 under a refusal */

    LAPRUNTO_ANSWER = 3,  /* the size_t of a writer's, a move's or a list's result, */
    LAPRUNTO_READ = 4,    /* of a reading's, */
    LAPRUNTO_SHORTENED = 5, /* of a shortening's, */
    LAPRUNTO_CHECKED = 6, /* of a check's */
    LAPRUNTO_STARTED = 7  /* and of a beginning's, which is a check's and one more */
};

/* Where what stands in a run and in a step, and the kinds of a step. */
enum {
    LAPRUNTO_BEGUN = 0,
    LAPRUNTO_STANDING = 1,
    LAPRUNTO_RUN = 2, /* the size_t of a run */

    LAPRUNTO_KIND = 0,
    LAPRUNTO_STEP_PLACE = 1,  /* from 1, in the trace as it stands */
    LAPRUNTO_STEP_NUMBER = 2, /* of a removal: the source number */
    LAPRUNTO_STEP = 3,        /* the size_t of a step */

    LAPRUNTO_DONE = 0, /* no step is left */
    LAPRUNTO_REMOVE = 1,
    LAPRUNTO_SWAP = 2,
    LAPRUNTO_INSERT = 3,
    LAPRUNTO_STUCK = 4 /* none of the gone events may be removed: never with an accepted matching */
};

/* Reads a trace text alone: side 1 where it refuses. Writes all of memory and result. */
void laprunto_read_trace(const uint8_t *text, size_t text_bytes, laprunto_word *room, size_t room_words,
                         laprunto_word memory[LAPRUNTO_CELLS], size_t result[LAPRUNTO_READ]);

/* Reads a matching text alone: side 3 where it refuses. Writes all of result. */
void laprunto_read_matching(const uint8_t *text, size_t text_bytes, laprunto_entry *room, size_t room_entries,
                            size_t result[LAPRUNTO_READ]);

/* The form of a trace text, 1 or 2, whatever else the text holds. */
laprunto_number laprunto_trace_form(const uint8_t *text, size_t text_bytes);

/* Writes in this form the trace with this starting memory and the events of these words, all of them: one cut short at the end counts
 * and is refused. The place of number 0 is how many bytes stand at the front of out, the place of 17 how many it needs; the rest of
 * out, and all of it under a refusal, is unchanged. Form 1 refuses an event whose code line is not 0, with 19. Writes all of result. */
void laprunto_write_trace(laprunto_number form, const laprunto_word memory[LAPRUNTO_CELLS], const laprunto_word *room,
                          size_t room_words, uint8_t *out, size_t out_bytes, size_t result[LAPRUNTO_ANSWER]);

/* Moves a trace text to this form: to form 2 with code line 0 at every event, to form 1 only where every code line is 0, else 19. A text
 * that has the form already is refused with 2 at line 1. What a reading refuses has side 1, and so has 19; 17 has side 0. The bytes
 * and the result are as the writer's. */
void laprunto_move_trace(laprunto_number to_form, const uint8_t *text, size_t text_bytes, uint8_t *out, size_t out_bytes,
                         size_t result[LAPRUNTO_ANSWER]);

/* Shortens a trace text for the shelf: at the front of out stands the shortened text, in the form of the long one, and at the front of
 * matching_out the matching from the long one to it. What a reading refuses has side 1; 17 has side 2 where out does not hold the
 * shortened text, then 3 where matching_out does not hold the matching, and its place is the bytes needed. The rest of both, and all of
 * both under a refusal, is unchanged. Writes all of result. */
void laprunto_shorten(const uint8_t *text, size_t text_bytes, uint8_t *out, size_t out_bytes, uint8_t *matching_out,
                      size_t matching_out_bytes, size_t result[LAPRUNTO_SHORTENED]);

/* Checks a matching between a source and a target text. Writes all of both memories and of result. */
void laprunto_check(const uint8_t *source, size_t source_bytes, const uint8_t *target, size_t target_bytes,
                    const uint8_t *matching, size_t matching_bytes, laprunto_word *source_room, size_t source_room_words,
                    laprunto_word *target_room, size_t target_room_words, laprunto_entry *entry_room,
                    size_t entry_room_entries, laprunto_word source_memory[LAPRUNTO_CELLS],
                    laprunto_word target_memory[LAPRUNTO_CELLS], size_t result[LAPRUNTO_CHECKED]);

/* Reads a list of registers alone, for a group: side 4 where it refuses. Writes all of result and of listed: 1 for each location that is
 * listed for the group, 0 for any other, and 0 for all under a refusal. */
void laprunto_read_list(const uint8_t *list, size_t list_bytes, laprunto_word group, size_t result[LAPRUNTO_ANSWER],
                        uint8_t listed[LAPRUNTO_CELLS]);

/* The same as above, with a list. */
void laprunto_read_trace_listed(const uint8_t *list, size_t list_bytes, laprunto_word group, const uint8_t *text, size_t text_bytes,
                                laprunto_word *room, size_t room_words, laprunto_word memory[LAPRUNTO_CELLS], size_t result[LAPRUNTO_READ]);

void laprunto_write_trace_listed(const uint8_t *list, size_t list_bytes, laprunto_word group, laprunto_number form,
                                 const laprunto_word memory[LAPRUNTO_CELLS], const laprunto_word *room, size_t room_words,
                                 uint8_t *out, size_t out_bytes, size_t result[LAPRUNTO_ANSWER]);

void laprunto_move_trace_listed(const uint8_t *list, size_t list_bytes, laprunto_word group, laprunto_number to_form,
                                const uint8_t *text, size_t text_bytes, uint8_t *out, size_t out_bytes, size_t result[LAPRUNTO_ANSWER]);

void laprunto_shorten_listed(const uint8_t *list, size_t list_bytes, laprunto_word group, const uint8_t *text, size_t text_bytes,
                             uint8_t *out, size_t out_bytes, uint8_t *matching_out, size_t matching_out_bytes, size_t result[LAPRUNTO_SHORTENED]);

void laprunto_check_listed(const uint8_t *list, size_t list_bytes, laprunto_word group, const uint8_t *source, size_t source_bytes,
                           const uint8_t *target, size_t target_bytes, const uint8_t *matching, size_t matching_bytes, laprunto_word *source_room,
                           size_t source_room_words, laprunto_word *target_room, size_t target_room_words,
                           laprunto_entry *entry_room, size_t entry_room_entries, laprunto_word source_memory[LAPRUNTO_CELLS],
                           laprunto_word target_memory[LAPRUNTO_CELLS], size_t result[LAPRUNTO_CHECKED]);

/* The line that an answer of a check finds fault with: the bytes from *from to before *to, of the target text where side is 2, else
 * of the source text, without its LF. Any three numbers may be handed in: where the number is one that has a line and the side is 1
 * or 2 it is the line of that text that the place names, and *from and *to are 0 if it has no such line; for every other number or
 * side they are 0. *from is never above *to, nor *to above the length of the text. */
void laprunto_offending_line(const uint8_t *source, size_t source_bytes, const uint8_t *target, size_t target_bytes,
                             laprunto_number number, laprunto_number side, size_t place, size_t *from, size_t *to);

/* A check and, if it accepts, the beginning of a run, and how many steps the run has: no run that realises the matching has fewer. Else
 * the run has not begun, the tags are unchanged, and there are 0 steps. Writes all of run and result. */
void laprunto_start(const uint8_t *source, size_t source_bytes, const uint8_t *target, size_t target_bytes,
                    const uint8_t *matching, size_t matching_bytes, laprunto_word *source_room, size_t source_room_words,
                    laprunto_word *target_room, size_t target_room_words, laprunto_entry *entry_room,
                    size_t entry_room_entries, size_t tags[LAPRUNTO_TAGS], size_t run[LAPRUNTO_RUN],
                    size_t result[LAPRUNTO_STARTED]);

/* The next step of a run, by the words of the events and the entries that the check stored (and no others). swapped is 0 or, to be
 * quicker, the place of the swap that was the step before. Writes all of step. */
void laprunto_next(const size_t run[LAPRUNTO_RUN], const size_t tags[LAPRUNTO_TAGS], const laprunto_word *source,
                   size_t source_words, const laprunto_word *target, size_t target_words, const laprunto_entry *entries,
                   size_t entry_count, size_t swapped, size_t step[LAPRUNTO_STEP]);

/* Applies any step by the rules alone: 1 and the run after it if it is allowed, else 0 and the run unchanged. */
size_t laprunto_apply(size_t run[LAPRUNTO_RUN], size_t tags[LAPRUNTO_TAGS], const laprunto_word *source, size_t source_words,
                      const laprunto_word *target, size_t target_words, size_t kind, size_t place, size_t number);

/* The same three with a list: its text, and then its marks. */
void laprunto_start_listed(const uint8_t *list, size_t list_bytes, laprunto_word group, const uint8_t *source, size_t source_bytes,
                           const uint8_t *target, size_t target_bytes, const uint8_t *matching, size_t matching_bytes, laprunto_word *source_room,
                           size_t source_room_words, laprunto_word *target_room, size_t target_room_words,
                           laprunto_entry *entry_room, size_t entry_room_entries, size_t tags[LAPRUNTO_TAGS],
                           size_t run[LAPRUNTO_RUN], size_t result[LAPRUNTO_STARTED]);

void laprunto_next_listed(const uint8_t listed[LAPRUNTO_CELLS], const size_t run[LAPRUNTO_RUN], const size_t tags[LAPRUNTO_TAGS],
                          const laprunto_word *source, size_t source_words, const laprunto_word *target, size_t target_words,
                          const laprunto_entry *entries, size_t entry_count, size_t swapped, size_t step[LAPRUNTO_STEP]);

size_t laprunto_apply_listed(const uint8_t listed[LAPRUNTO_CELLS], size_t run[LAPRUNTO_RUN], size_t tags[LAPRUNTO_TAGS],
                             const laprunto_word *source, size_t source_words, const laprunto_word *target, size_t target_words,
                             size_t kind, size_t place, size_t number);

#ifdef __cplusplus
}
#endif

#endif
