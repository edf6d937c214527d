/* Ids chosen so that they meet in one place of the index of ids, whose hash has a fixed seed: the worst that a stranger can do there. */
#include "changes.h"
#include "library.h"
#include "measure.h"
#include "texts.h"

#include <stdio.h>

enum {
    RUNS = 2,
    NODES = 128,
    OF_A_NODE = 256,
    MARKED_NODES = 64,
    MARKED_RUNS = 5,
    /* Fewer, so that they meet in the smaller tables of a version too. */
    MARKED_FIRST_GROUPS = 16,
    /* The index has 4,096 groups of 12 places when 32,768 ids are in it; the ids are to begin in these first ones, */
    GROUPS = 4096,
    FIRST_GROUPS = 256,
    /* and to have this tag, by which a group tells its entries apart. */
    TAG = 0xa5,
};

static uint64_t folded_multiply(uint64_t a, uint64_t b) {
    unsigned __int128 product = (unsigned __int128)a * b;
    return (uint64_t)product ^ (uint64_t)(product >> 64);
}

static const uint64_t SEED = 0x243f6a8885a308d3;
static const uint64_t MULTIPLIER = 0x9e3779b97f4a7c15;

/* The index's hash of an id: its counter's 8 bytes first, then its node's 2. */
static uint64_t with_counter(uint64_t counter) {
    return folded_multiply(SEED ^ counter, MULTIPLIER ^ 16);
}

static uint32_t with_node(uint64_t state, uint32_t node) {
    uint64_t low = node & 255;
    uint64_t high = node >> 8;
    uint64_t hash = folded_multiply(state ^ (low | high << 8 | high << 16), MULTIPLIER ^ 4);
    return (uint32_t)(hash ^ hash >> 32);
}

static uint64_t chosen[NODES][OF_A_NODE];

/* Finds counters in the first `first_groups` groups. They rise over the nodes from 1 to `nodes`, since an id's counter must be above that of the
   character that it names. */
static void choose(uint32_t nodes, uint32_t first_groups) {
    uint64_t counter = 1;
    for (uint32_t node = 0; node < nodes; node++) {
        int found = 0;
        for (; found < OF_A_NODE; counter++) {
            uint32_t hash = with_node(with_counter(counter), node + 1);
            if (hash >> 24 == TAG && hash % GROUPS < first_groups) {
                chosen[node][found++] = counter;
            }
        }
    }
}

/* The id of a character by its place in the text. */
static Id id_at(int are_chosen, uint32_t place) {
    uint32_t node = place / OF_A_NODE;
    Id id = {are_chosen ? chosen[node][place % OF_A_NODE] : place + 1, node + 1};
    return id;
}

/* A change of 256 characters by each of the nodes from 1 to `nodes`, typed on at the end. */
static Changes text_of(int are_chosen, uint32_t nodes) {
    Changes text = no_changes();
    Id last = START;
    for (uint32_t node = 0; node < nodes; node++) {
        begin_change(&text, node + 1, OF_A_NODE);
        for (uint32_t k = 0; k < OF_A_NODE; k++) {
            Id id = id_at(are_chosen, OF_A_NODE * node + k);
            insert_line(&text, id, last, 'a');
            last = id;
        }
    }
    return text;
}

static double time_of_accepting(const Changes *text, uint32_t count) {
    return LEAST_TIME(RUNS, bench_accept((const uint8_t *)text->bytes, text->length, count)) / 1e6;
}

static void accepted(const char *what, const Changes *text) {
    char line[96];
    expect(bench_follow((const uint8_t *)text->bytes, text->length, text->changes - 1, 1), 1, "accepted");
    double all = time_of_accepting(text, text->changes);
    snprintf(line, sizeof line, "32,768 characters in 128 changes, %s", what);
    row(line, all, "ms");
    row("  the last of these changes, 256 characters", all - time_of_accepting(text, text->changes - 1), "ms");
}

void measure_chosen_ids(void) {
    puts("\nIds chosen to collide");
    Changes plain = text_of(0, NODES);
    accepted("ids in a row", &plain);
    let_go(&plain);
    choose(NODES, FIRST_GROUPS);
    Changes bad = text_of(1, NODES);
    accepted("ids chosen to collide", &bad);
    let_go(&bad);
}

/* What a change behind 16,384 characters takes with its version, where 4,096 marks name every other one. */
static double change_behind_marks(int are_chosen) {
    enum { COUNT = MARKED_NODES * OF_A_NODE, OF_A_MARK = 4, LATER = 8 };
    Changes text = text_of(are_chosen, MARKED_NODES);
    Id id = {id_at(are_chosen, COUNT - 1).counter, MARKED_NODES + 1};
    for (uint32_t mark = 0; mark < COUNT / OF_A_MARK; mark++) {
        if (mark % OF_A_NODE == 0) {
            begin_change(&text, id.node, OF_A_NODE);
        }
        id.counter++;
        uint32_t from = OF_A_MARK * mark;
        mark_line(&text, id, "strong -", id_at(are_chosen, from), id_at(are_chosen, from + OF_A_MARK / 2));
    }
    uint32_t before = text.changes;
    for (int change = 0; change < LATER; change++) {
        id.counter++;
        type_change(&text, id, START, 1);
    }
    const uint8_t *bytes = (const uint8_t *)text.bytes;
    expect(bench_follow(bytes, text.length, before, LATER) > 3 * COUNT, 0, "refused");
    double none = LEAST_TIME(MARKED_RUNS, bench_follow(bytes, text.length, before, 0));
    double all = LEAST_TIME(MARKED_RUNS, bench_follow(bytes, text.length, before, LATER));
    let_go(&text);
    return (all - none) / LATER / 1e6;
}

void measure_marked_ids(void) {
    puts("\nA change behind 4,096 marks over 16,384 characters, with its version");
    row("ids in a row", change_behind_marks(0), "ms");
    choose(MARKED_NODES, MARKED_FIRST_GROUPS);
    row("ids chosen to collide", change_behind_marks(1), "ms");
}
