/* One row of the work on texts that peer_texts.mjs does with yjs: peer_texts ROW prints the microseconds of it, and peer_texts alone the rows. A
   change is read from its text, as there an update is from its bytes. */
#include "changes.h"
#include "library.h"
#include "measure.h"

#include <stdio.h>
#include <string.h>

enum { RUNS = 7, EDITS = 512, OF_AN_EDIT = 8, CHARACTERS = 32768, MARKS = 4096, MARKS_MORE = 64, KEYS = 1024 };

static const Id FIRST = {1, 1};

static uint32_t next_random(uint32_t *state) {
    *state = *state * 1664525 + 1013904223;
    return *state >> 8;
}

static Id at(uint32_t place) {
    Id id = {FIRST.counter + place, FIRST.node};
    return id;
}

/* The microseconds of accepting changes. */
static double accepting(const Changes *text, uint32_t count) {
    return LEAST_TIME(RUNS, bench_accept((const uint8_t *)text->bytes, text->length, count)) / 1000;
}

/* The microseconds of accepting `alone` changes, of their version, and of `followed` more with a version after each. */
static double following(const Changes *text, uint32_t alone, uint32_t followed) {
    return LEAST_TIME(RUNS, bench_follow((const uint8_t *)text->bytes, text->length, alone, followed)) / 1000;
}

/* A change of the last `edits`, with its version. */
static double time_of_an_edit(const Changes *text, uint32_t edits) {
    uint32_t base = text->changes - edits;
    expect(bench_follow((const uint8_t *)text->bytes, text->length, text->changes - 1, 1) > CHARACTERS, 0, "refused");
    return (following(text, base, edits) - following(text, base, 0)) / edits;
}

/* The version after a change of the last `edits`, without the change. */
static double time_of_a_version(const Changes *text, uint32_t edits) {
    uint32_t base = text->changes - edits;
    double accepted = (accepting(text, text->changes) - accepting(text, base)) / edits;
    return time_of_an_edit(text, edits) - accepted;
}

static Changes changes_of_8(int at_the_front) {
    Changes text = no_changes();
    Id next = FIRST, last = START;
    for (int change = 0; change < CHARACTERS / OF_AN_EDIT; change++) {
        last = type_change(&text, next, at_the_front ? START : last, OF_AN_EDIT);
        next.counter = last.counter + 1;
    }
    return text;
}

static double appends(void) {
    Changes text = changes_of_8(0);
    return accepting(&text, text.changes);
}

static double appends_followed(void) {
    Changes text = changes_of_8(0);
    return following(&text, 0, text.changes);
}

static double at_the_front(void) {
    Changes text = changes_of_8(1);
    return accepting(&text, text.changes);
}

static double at_the_front_followed(void) {
    Changes text = changes_of_8(1);
    return following(&text, 0, text.changes);
}

static double an_append(void) {
    Changes text = no_changes();
    Id last = type_text(&text, FIRST, 28672);
    for (int edit = 0; edit < EDITS; edit++) {
        Id next = {last.counter + 1, 1};
        last = type_change(&text, next, last, OF_AN_EDIT);
    }
    return time_of_an_edit(&text, EDITS);
}

/* Each edit removes 8 characters of each 64. */
static double a_removal(void) {
    Changes text = no_changes();
    Id id = type_text(&text, FIRST, CHARACTERS);
    for (uint32_t edit = 0; edit < EDITS; edit++) {
        begin_change(&text, id.node, OF_AN_EDIT);
        for (uint32_t k = 0; k < OF_AN_EDIT; k++) {
            id.counter++;
            removal_line(&text, id, at(64 * edit + k));
        }
    }
    return time_of_an_edit(&text, EDITS);
}

/* Marks over random ranges of up to `longest` characters, `of_a_change` in a change. peer_texts.mjs takes the same numbers. */
static void add_marks(Changes *text, uint32_t count, uint32_t longest, uint32_t of_a_change) {
    static const char *const kinds[] = {"strong -", "em -", "link https://example.org/a", "color 3366cc"};
    char comment[32];
    uint32_t state = 7;
    Id id = at(CHARACTERS);
    for (uint32_t turn = 0; turn < count; turn++) {
        if (turn % of_a_change == 0) {
            begin_change(text, id.node, of_a_change);
        }
        snprintf(comment, sizeof comment, "comment:%u -", 1 + turn / 5 % 8);
        uint32_t from = next_random(&state) % (CHARACTERS - KEYS - longest - 1);
        uint32_t to = from + 1 + next_random(&state) % longest;
        mark_line(text, id, turn % 5 < 4 ? kinds[turn % 5] : comment, at(from), at(to));
        id.counter++;
    }
}

static double a_mark(void) {
    Changes text = no_changes();
    type_text(&text, FIRST, CHARACTERS);
    add_marks(&text, EDITS, 200, 1);
    return time_of_an_edit(&text, EDITS);
}

/* Under 4,096 marks less these: one more over `length` characters from the same places on. */
static double a_mark_more(uint32_t length) {
    Changes text = no_changes();
    type_text(&text, FIRST, CHARACTERS);
    add_marks(&text, MARKS - 256, 200, 256);
    for (uint32_t mark = 0; mark < MARKS_MORE; mark++) {
        Id id = at(CHARACTERS + MARKS - 256 + mark);
        uint32_t from = length == CHARACTERS ? 0 : 500 * mark;
        begin_change(&text, id.node, 1);
        mark_line(&text, id, mark % 2 ? "em -" : "strong -", at(from), at(from + length - 1));
    }
    return time_of_an_edit(&text, MARKS_MORE);
}

static double a_mark_of_200(void) {
    return a_mark_more(200);
}

static double a_mark_over_all(void) {
    return a_mark_more(CHARACTERS);
}

/* The version after a key in the middle. */
static double version_of(uint32_t marks, uint32_t longest) {
    Changes text = no_changes();
    type_text(&text, FIRST, CHARACTERS - KEYS);
    add_marks(&text, marks, longest, 256);
    Id last = at(CHARACTERS / 2);
    for (uint32_t key = 0; key < KEYS; key++) {
        Id next = at(CHARACTERS + MARKS + key);
        last = type_change(&text, next, last, 1);
    }
    return time_of_a_version(&text, KEYS);
}

static double version_plain(void) {
    return version_of(0, 0);
}

static double version_short_marks(void) {
    return version_of(MARKS, 200);
}

static double version_long_marks(void) {
    return version_of(MARKS, 4000);
}

static double version_longest_marks(void) {
    return version_of(MARKS, 16384);
}

/* Characters in runs of 256 behind a text of one, each with its version. */
static double a_paste(void) {
    Changes text = no_changes();
    Id last = type_change(&text, FIRST, START, 1);
    for (uint32_t typed = 1; typed < CHARACTERS; typed += 256) {
        Id next = {last.counter + 1, 1};
        last = run_change(&text, next, last, typed + 256 > CHARACTERS ? CHARACTERS - typed : 256);
    }
    return following(&text, 1, text.changes - 1) - following(&text, 1, 0);
}

static const struct {
    const char *name;
    double (*measure)(void);
} rows[] = {
    {"appends", appends},
    {"appends_followed", appends_followed},
    {"at_the_front", at_the_front},
    {"at_the_front_followed", at_the_front_followed},
    {"an_append", an_append},
    {"a_removal", a_removal},
    {"a_mark", a_mark},
    {"a_mark_of_200", a_mark_of_200},
    {"a_mark_over_all", a_mark_over_all},
    {"a_paste", a_paste},
    {"version_plain", version_plain},
    {"version_short_marks", version_short_marks},
    {"version_long_marks", version_long_marks},
    {"version_longest_marks", version_longest_marks},
};

int main(int count, char **words) {
    for (size_t row = 0; row < sizeof rows / sizeof *rows; row++) {
        if (count < 2) {
            puts(rows[row].name);
        } else if (strcmp(words[1], rows[row].name) == 0) {
            printf("%.3f\n", rows[row].measure());
        }
    }
    return 0;
}
