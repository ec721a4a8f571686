/* Checks three files, source, target and matching, with a list of registers if there is a fourth, for the group of a fifth word (1 if there is
 * none), and prints what the program laprunto prints, and the locations that are listed. Then the run goes to its end, both traces that were
 * read are written again, what was written is read back, both texts are moved to the other form and back, and both are shortened: status 1 if
 * anything came back otherwise. */
#include "laprunto.h"

#include <stdio.h>
#include <stdlib.h>
#include <string.h>

/* One byte more than the longest text: a longer file is answer 1 whatever its size. */
enum { FILE_BYTES = LAPRUNTO_FORM_2_BYTES + 1 };

struct text {
    uint8_t bytes[FILE_BYTES];
    size_t size;
};

/* The list that every call is to be made with, none if it is null, and the group that it is for. */
static const struct text *list;
static laprunto_word group = 1;

struct trace {
    laprunto_word words[LAPRUNTO_TRACE_WORDS];
    laprunto_word memory[LAPRUNTO_CELLS];
    size_t events;
};

/* A file that cannot be opened counts as an empty text. */
static void read_file(const char *name, struct text *text) {
    FILE *file = fopen(name, "rb");
    text->size = 0;
    if (file != NULL) {
        text->size = fread(text->bytes, 1, FILE_BYTES, file);
        fclose(file);
    }
}

static void print_line(const struct text *text, size_t from, size_t to) {
    if (from < to) {
        fwrite(text->bytes + from, 1, to - from, stdout);
        putchar('\n');
    }
}

/* The list's marks, none under a refusal. */
static uint8_t marks[LAPRUNTO_CELLS];

static void print_listed(void) {
    for (size_t i = 0; i < LAPRUNTO_CELLS; i++) {
        if (marks[i] == 1) {
            printf("listed\t%zu\n", i);
        }
    }
}

static int same_text(const struct text *one, const struct text *other) {
    return one->size == other->size && memcmp(one->bytes, other->bytes, one->size) == 0;
}

/* Each of these calls, with the list if there is one. */
static void check(const struct text texts[3], struct trace *source, struct trace *target, laprunto_entry *entries, size_t *result) {
    if (list != NULL) {
        laprunto_check_listed(list->bytes, list->size, group, texts[0].bytes, texts[0].size, texts[1].bytes, texts[1].size, texts[2].bytes,
                              texts[2].size, source->words, LAPRUNTO_TRACE_WORDS, target->words, LAPRUNTO_TRACE_WORDS, entries,
                              LAPRUNTO_ENTRY_WORDS, source->memory, target->memory, result);
    } else {
        laprunto_check(texts[0].bytes, texts[0].size, texts[1].bytes, texts[1].size, texts[2].bytes, texts[2].size, source->words,
                       LAPRUNTO_TRACE_WORDS, target->words, LAPRUNTO_TRACE_WORDS, entries, LAPRUNTO_ENTRY_WORDS, source->memory,
                       target->memory, result);
    }
    source->events = result[LAPRUNTO_SOURCE_EVENTS];
    target->events = result[LAPRUNTO_TARGET_EVENTS];
}

static void read_trace(const struct text *text, struct trace *trace, size_t *result) {
    if (list != NULL) {
        laprunto_read_trace_listed(list->bytes, list->size, group, text->bytes, text->size, trace->words, LAPRUNTO_TRACE_WORDS, trace->memory,
                                   result);
    } else {
        laprunto_read_trace(text->bytes, text->size, trace->words, LAPRUNTO_TRACE_WORDS, trace->memory, result);
    }
    trace->events = result[LAPRUNTO_COUNT];
}

static void write_trace(laprunto_number form, const struct trace *trace, struct text *out, size_t *result) {
    if (list != NULL) {
        laprunto_write_trace_listed(list->bytes, list->size, group, form, trace->memory, trace->words, trace->events * 6, out->bytes, FILE_BYTES,
                                    result);
    } else {
        laprunto_write_trace(form, trace->memory, trace->words, trace->events * 6, out->bytes, FILE_BYTES, result);
    }
    out->size = result[LAPRUNTO_PLACE];
}

static void move_trace(laprunto_number to_form, const struct text *text, struct text *out, size_t *result) {
    if (list != NULL) {
        laprunto_move_trace_listed(list->bytes, list->size, group, to_form, text->bytes, text->size, out->bytes, FILE_BYTES, result);
    } else {
        laprunto_move_trace(to_form, text->bytes, text->size, out->bytes, FILE_BYTES, result);
    }
    out->size = result[LAPRUNTO_PLACE];
}

static void shorten_trace(const struct text *text, struct text *out, struct text *matching, size_t *result) {
    if (list != NULL) {
        laprunto_shorten_listed(list->bytes, list->size, group, text->bytes, text->size, out->bytes, FILE_BYTES, matching->bytes, FILE_BYTES,
                                result);
    } else {
        laprunto_shorten(text->bytes, text->size, out->bytes, FILE_BYTES, matching->bytes, FILE_BYTES, result);
    }
    out->size = result[LAPRUNTO_SHORT_BYTES];
    matching->size = result[LAPRUNTO_NAMES_BYTES];
}

/* Whether a trace, written, is the text that it was read from, and is read back as it was. */
static int comes_back(const struct text *text, const struct trace *trace) {
    static struct text written;
    static struct trace again;
    size_t result[LAPRUNTO_READ];
    write_trace(laprunto_trace_form(text->bytes, text->size), trace, &written, result);
    if (result[LAPRUNTO_NUMBER] != 0 || !same_text(&written, text)) {
        return 0;
    }
    read_trace(&written, &again, result);
    return result[LAPRUNTO_NUMBER] == 0 && again.events == trace->events &&
           memcmp(again.words, trace->words, trace->events * 6 * sizeof(laprunto_word)) == 0 &&
           memcmp(again.memory, trace->memory, sizeof trace->memory) == 0;
}

/* Whether a lawful text, moved to the other form, moves back to the same bytes. Form 1 refuses what has code lines, with 19. */
static int moves_back(const struct text *text) {
    static struct text moved, back;
    size_t result[LAPRUNTO_ANSWER];
    laprunto_number form = laprunto_trace_form(text->bytes, text->size);
    move_trace(form == 2 ? 1 : 2, text, &moved, result);
    if (result[LAPRUNTO_NUMBER] == 19) {
        return form == 2;
    }
    if (result[LAPRUNTO_NUMBER] != 0) {
        return 0;
    }
    move_trace(form, &moved, &back, result);
    return result[LAPRUNTO_NUMBER] == 0 && same_text(&back, text);
}

/* Whether a lawful text, shortened, is accepted for the long one with its matching, and shortened again is the same bytes. */
static int shortens(const struct text *text) {
    static struct text three[3], again, names;
    static struct trace source, target;
    static laprunto_entry entries[LAPRUNTO_ENTRY_WORDS];
    size_t result[LAPRUNTO_SHORTENED], checked[LAPRUNTO_CHECKED];
    three[0] = *text;
    shorten_trace(text, &three[1], &three[2], result);
    if (result[LAPRUNTO_NUMBER] != 0) {
        return 0;
    }
    check(three, &source, &target, entries, checked);
    if (checked[LAPRUNTO_NUMBER] != 0) {
        return 0;
    }
    shorten_trace(&three[1], &again, &names, result);
    return result[LAPRUNTO_NUMBER] == 0 && same_text(&again, &three[1]);
}

/* Whether a matching, read alone, gives the entries of the check. */
static int same_entries(const struct text *text, const laprunto_entry *entries, size_t count) {
    static laprunto_entry again[LAPRUNTO_ENTRY_WORDS];
    size_t result[LAPRUNTO_READ];
    laprunto_read_matching(text->bytes, text->size, again, LAPRUNTO_ENTRY_WORDS, result);
    return result[LAPRUNTO_NUMBER] == 0 && result[LAPRUNTO_COUNT] == count &&
           memcmp(again, entries, count * sizeof(laprunto_entry)) == 0;
}

/* A run, and what its steps are asked for and applied with. */
struct run {
    struct trace source, target;
    laprunto_entry entries[LAPRUNTO_ENTRY_WORDS];
    size_t tags[LAPRUNTO_TAGS], run[LAPRUNTO_RUN], result[LAPRUNTO_STARTED];
};

static void start(const struct text texts[3], struct run *r) {
    if (list != NULL) {
        laprunto_start_listed(list->bytes, list->size, group, texts[0].bytes, texts[0].size, texts[1].bytes, texts[1].size, texts[2].bytes,
                              texts[2].size, r->source.words, LAPRUNTO_TRACE_WORDS, r->target.words, LAPRUNTO_TRACE_WORDS, r->entries,
                              LAPRUNTO_ENTRY_WORDS, r->tags, r->run, r->result);
    } else {
        laprunto_start(texts[0].bytes, texts[0].size, texts[1].bytes, texts[1].size, texts[2].bytes, texts[2].size, r->source.words,
                       LAPRUNTO_TRACE_WORDS, r->target.words, LAPRUNTO_TRACE_WORDS, r->entries, LAPRUNTO_ENTRY_WORDS, r->tags, r->run,
                       r->result);
    }
    r->source.events = r->result[LAPRUNTO_SOURCE_EVENTS];
    r->target.events = r->result[LAPRUNTO_TARGET_EVENTS];
}

static void next(const struct run *r, size_t swapped, size_t *step) {
    if (list != NULL) {
        laprunto_next_listed(marks, r->run, r->tags, r->source.words, r->source.events * 6, r->target.words, r->target.events * 6,
                             r->entries, r->result[LAPRUNTO_ENTRIES], swapped, step);
    } else {
        laprunto_next(r->run, r->tags, r->source.words, r->source.events * 6, r->target.words, r->target.events * 6, r->entries,
                      r->result[LAPRUNTO_ENTRIES], swapped, step);
    }
}

static size_t apply(struct run *r, const size_t *step) {
    if (list != NULL) {
        return laprunto_apply_listed(marks, r->run, r->tags, r->source.words, r->source.events * 6, r->target.words, r->target.events * 6,
                                     step[LAPRUNTO_KIND], step[LAPRUNTO_STEP_PLACE], step[LAPRUNTO_STEP_NUMBER]);
    }
    return laprunto_apply(r->run, r->tags, r->source.words, r->source.events * 6, r->target.words, r->target.events * 6,
                          step[LAPRUNTO_KIND], step[LAPRUNTO_STEP_PLACE], step[LAPRUNTO_STEP_NUMBER]);
}

/* Whether the run of an accepted matching goes to its end in as many steps as were counted, and a refused one has none. */
static int runs(const struct text texts[3], int accepted) {
    static struct run r;
    size_t step[LAPRUNTO_STEP], steps = 0, swapped = 0;
    start(texts, &r);
    for (;;) {
        next(&r, swapped, step);
        if (step[LAPRUNTO_KIND] == LAPRUNTO_DONE) {
            int ended = accepted ? r.run[LAPRUNTO_STANDING] == r.target.events : steps == 0;
            return ended && steps == r.result[LAPRUNTO_COST];
        }
        if (!apply(&r, step)) {
            return 0;
        }
        swapped = step[LAPRUNTO_KIND] == LAPRUNTO_SWAP ? step[LAPRUNTO_STEP_PLACE] : 0;
        steps++;
    }
}

int main(int count, char **names) {
    static struct text texts[3], listed;
    static struct trace source, target;
    static laprunto_entry entries[LAPRUNTO_ENTRY_WORDS];
    size_t result[LAPRUNTO_CHECKED];
    size_t from, to;
    for (int i = 0; i < 3; i++) {
        read_file(i + 1 < count ? names[i + 1] : "", &texts[i]);
    }
    if (4 < count) {
        size_t read[LAPRUNTO_ANSWER];
        read_file(names[4], &listed);
        list = &listed;
        group = 5 < count ? strtoull(names[5], NULL, 10) : 1;
        laprunto_read_list(list->bytes, list->size, group, read, marks);
    }
    check(texts, &source, &target, entries, result);
    printf("%s\t%zu\t%zu\t%zu\n", result[LAPRUNTO_NUMBER] == 0 ? "accepted" : "refused", result[LAPRUNTO_NUMBER],
           result[LAPRUNTO_SIDE], result[LAPRUNTO_PLACE]);
    laprunto_offending_line(texts[0].bytes, texts[0].size, texts[1].bytes, texts[1].size, (laprunto_number)result[LAPRUNTO_NUMBER],
                            (laprunto_number)result[LAPRUNTO_SIDE], result[LAPRUNTO_PLACE], &from, &to);
    print_line(&texts[result[LAPRUNTO_SIDE] == 2], from, to);

    print_listed();
    if (!runs(texts, result[LAPRUNTO_NUMBER] == 0)) {
        fprintf(stderr, "the run does not go to its end\n");
        return 1;
    }

    /* A reading's refusal stores nothing; 0 and 7 to 16 come after all three texts were read. */
    size_t number = result[LAPRUNTO_NUMBER];
    if (number == 0 || (7 <= number && number <= 16)) {
        if (!comes_back(&texts[0], &source) || !comes_back(&texts[1], &target) ||
            !same_entries(&texts[2], entries, result[LAPRUNTO_ENTRIES])) {
            fprintf(stderr, "what was written is not read back\n");
            return 1;
        }
        if (!moves_back(&texts[0]) || !moves_back(&texts[1])) {
            fprintf(stderr, "what was moved does not move back\n");
            return 1;
        }
        if (!shortens(&texts[0]) || !shortens(&texts[1])) {
            fprintf(stderr, "what was shortened is not accepted, or is shortened again\n");
            return 1;
        }
    }
    return 0;
}
