/* Changes taken in, and versions made, at 32,768 characters. */
#include "texts.h"

#include "changes.h"
#include "library.h"
#include "measure.h"

#include <stdio.h>

enum { RUNS = 15, CHARACTERS = 32768, EDITS = 512, OF_AN_EDIT = 8, BASE = CHARACTERS - EDITS * OF_AN_EDIT };

/* Ids that leave room for lower ones. */
static const Id FIRST = {1000000, 1};

static uint32_t next_random(uint32_t *state) {
    *state = *state * 1664525 + 1013904223;
    return *state >> 8;
}

static Id at(uint32_t place) {
    Id id = {FIRST.counter + place, FIRST.node};
    return id;
}

static double time_of_accepting(const Changes *text, uint32_t count) {
    return LEAST_TIME(1, bench_accept((const uint8_t *)text->bytes, text->length, count));
}

/* The same of the first `alone` changes and their version, and of `followed` more with a version each. */
static double time_of_following(const Changes *text, uint32_t alone, uint32_t followed) {
    return LEAST_TIME(1, bench_follow((const uint8_t *)text->bytes, text->length, alone, followed));
}

static double less(double a, double b) {
    return a < b ? a : b;
}

/* The last `edits` changes of a text, from a byte on: read, taken in, and taken in with a version after each. The calls that are compared are
   made in turn, so that what slows the machine down for a while slows all of them down. */
static void edits_of(const char *where, const Changes *text, size_t from, uint32_t edits) {
    char line[96];
    uint32_t base = text->changes - edits;
    double before = 1e300;
    double alone = 1e300;
    double versioned = 1e300;
    double followed = 1e300;
    expect(bench_follow((const uint8_t *)text->bytes, text->length, text->changes - 1, 1), 1, "accepted");
    for (int run = 0; run < RUNS; run++) {
        before = less(before, time_of_accepting(text, base));
        alone = less(alone, time_of_accepting(text, text->changes));
        versioned = less(versioned, time_of_following(text, base, 0));
        followed = less(followed, time_of_following(text, base, edits));
    }
    double reading = LEAST_TIME(RUNS, bench_read((const uint8_t *)text->bytes + from, text->length - from, edits)) / edits;
    snprintf(line, sizeof line, "a change of %u characters %s, accepted", OF_AN_EDIT, where);
    row(line, ((alone - before) / edits - reading) / 1000, "us");
    row("  with its version", ((followed - versioned) / edits - reading) / 1000, "us");
    row("  reading it from its text, beside that", reading / 1000, "us");
}

static void at_the_end(void) {
    Changes text = no_changes();
    Id last = type_text(&text, FIRST, BASE);
    size_t from = text.length;
    for (int edit = 0; edit < EDITS; edit++) {
        Id first = {last.counter + 1, 1};
        last = type_change(&text, first, last, OF_AN_EDIT);
    }
    edits_of("at the end", &text, from, EDITS);
    let_go(&text);
}

static void at_the_start(void) {
    Changes text = no_changes();
    Id last = type_text(&text, FIRST, BASE);
    size_t from = text.length;
    for (int edit = 0; edit < EDITS; edit++) {
        Id first = {last.counter + 1, 1};
        last = type_change(&text, first, START, OF_AN_EDIT);
    }
    edits_of("at the start", &text, from, EDITS);
    let_go(&text);
}

static void at_random(void) {
    Changes text = no_changes();
    uint32_t state = 1;
    Id first = {type_text(&text, FIRST, BASE).counter + 1, 2};
    size_t from = text.length;
    for (int edit = 0; edit < EDITS; edit++) {
        first.counter = type_change(&text, first, at(next_random(&state) % BASE), OF_AN_EDIT).counter + 1;
    }
    edits_of("at random places", &text, from, EDITS);
    let_go(&text);
}

/* Each character is put at the start by an id below all others: its place is found past all of them. */
static void at_the_start_below(void) {
    Changes text = no_changes();
    const uint32_t edits = 32;
    Id id = {1, 2};
    type_text(&text, FIRST, CHARACTERS - edits * OF_AN_EDIT);
    size_t from = text.length;
    for (uint32_t edit = 0; edit < edits; edit++) {
        begin_change(&text, id.node, OF_AN_EDIT);
        for (int k = 0; k < OF_AN_EDIT; k++) {
            insert_line(&text, id, START, 'a');
            id.counter++;
        }
    }
    edits_of("at the start, ids below all others", &text, from, edits);
    let_go(&text);
}

/* The key and the value of a mark, in turn of all kinds. */
static const char *mark_of(uint32_t turn) {
    static char comment[32];
    switch (turn % 5) {
    case 0: return "strong -";
    case 1: return "em -";
    case 2: return "link https://example.org/a";
    case 3: return "color 3366cc";
    default: snprintf(comment, sizeof comment, "comment:%u -", 1 + turn / 5 % 8); return comment;
    }
}

static double time_of_versions(const Changes *text, uint32_t rounds) {
    return LEAST_TIME(7, bench_version((const uint8_t *)text->bytes, text->length, text->changes, rounds));
}

static void versions_of(const char *what, const Changes *text, uint32_t rounds) {
    char line[96];
    double none = time_of_versions(text, 0);
    double all = time_of_versions(text, rounds);
    uint64_t spans = bench_version((const uint8_t *)text->bytes, text->length, text->changes, 1);
    snprintf(line, sizeof line, "a version %s: %llu spans", what, (unsigned long long)spans);
    row(line, (all - none) / rounds / 1000, "us");
    watch_memory();
    bench_version((const uint8_t *)text->bytes, text->length, text->changes, 0);
    double before = (double)most_memory();
    watch_memory();
    bench_version((const uint8_t *)text->bytes, text->length, text->changes, 1);
    row("  memory beside the history's, the version and what makes it", ((double)most_memory() - before) / 1024, "KiB");
}

/* Marks over random ranges of up to `longest` characters. */
static void random_marks(Changes *text, uint32_t longest) {
    uint32_t state = 7;
    Id id = {FIRST.counter + CHARACTERS, 3};
    for (uint32_t turn = 0; turn < 4096; turn++) {
        if (turn % 256 == 0) {
            begin_change(text, id.node, 256);
        }
        uint32_t from = next_random(&state) % (CHARACTERS - longest - 1);
        mark_line(text, id, mark_of(turn), at(from), at(from + 1 + next_random(&state) % longest));
        id.counter++;
    }
}

/* Comments of numbers of their own, each within the one before it. */
static void nested_comments(Changes *text) {
    char comment[32];
    Id id = {FIRST.counter + CHARACTERS, 3};
    for (uint32_t turn = 0; turn < 4096; turn++) {
        if (turn % 256 == 0) {
            begin_change(text, id.node, 256);
        }
        snprintf(comment, sizeof comment, "comment:%u -", turn + 1);
        mark_line(text, id, comment, at(turn + 1), at(CHARACTERS - 2 - turn));
        id.counter++;
    }
}

/* One link as long as can be over the whole text, and 4,095 short marks that cut it. */
static void cut_link(Changes *text) {
    char link[1100];
    int length = snprintf(link, sizeof link, "link ");
    while (length < 5 + 1024) {
        link[length++] = 'x';
    }
    link[length] = 0;
    Id id = {FIRST.counter + CHARACTERS, 3};
    for (uint32_t turn = 0; turn < 4096; turn++) {
        if (turn % 256 == 0) {
            begin_change(text, id.node, 256);
        }
        if (turn == 0) {
            mark_line(text, id, link, at(0), at(CHARACTERS - 1));
        } else {
            mark_line(text, id, "strong -", at(8 * turn - 4), at(8 * turn));
        }
        id.counter++;
    }
}

static void versions(void) {
    Changes text = no_changes();
    type_text(&text, FIRST, CHARACTERS);
    versions_of("without marks", &text, 64);
    let_go(&text);
    type_text(&text, FIRST, CHARACTERS);
    random_marks(&text, 200);
    versions_of("with 4,096 marks of all kinds", &text, 16);
    let_go(&text);
    type_text(&text, FIRST, CHARACTERS);
    random_marks(&text, 4000);
    versions_of("with 4,096 marks that overlap widely", &text, 16);
    let_go(&text);
    type_text(&text, FIRST, CHARACTERS);
    cut_link(&text);
    versions_of("with one link of 1,024 bytes cut by 4,095 marks", &text, 8);
    let_go(&text);
    type_text(&text, FIRST, CHARACTERS);
    nested_comments(&text);
    versions_of("with 4,096 comments, each within the last", &text, 2);
    let_go(&text);
}

/* What `hub spans` does with a whole text, but for its printing. */
static void whole_text_by(Typing *typing, const char *how) {
    char line[96];
    Changes text = no_changes();
    type_text_by(typing, &text, FIRST, CHARACTERS);
    const uint8_t *bytes = (const uint8_t *)text.bytes;
    expect(bench_read(bytes, text.length, text.changes), 0, "read");
    expect(bench_follow(bytes, text.length, text.changes - 1, 1), 1, "accepted");
    double reading = LEAST_TIME(RUNS, bench_read(bytes, text.length, text.changes));
    double all = LEAST_TIME(RUNS, bench_follow(bytes, text.length, text.changes, 0));
    snprintf(line, sizeof line, "a text in %u changes, %s, read", text.changes, how);
    row(line, reading / 1e6, "ms");
    row("  read, accepted, and its version made", all / 1e6, "ms");
    row("  its bytes", (double)text.length / 1024, "KiB");
    let_go(&text);
}

static void whole_text(void) {
    whole_text_by(type_change, "a line for each character");
    whole_text_by(run_change, "a run each");
}

void measure_texts(void) {
    puts("\nTexts of 32,768 characters");
    whole_text();
    at_the_end();
    at_the_start();
    at_random();
    at_the_start_below();
    versions();
}
