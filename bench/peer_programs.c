/* The same programs by DPDK's interpreter (librte-bpf), in turn with ours. It is compiled alone, where the machine has that library, into a
   program of its own: peer_programs FILTER.hex.. */
#include "library.h"
#include "measure.h"
#include "slots.h"

#include <math.h>
#include <rte_bpf.h>
#include <stdio.h>
#include <stdlib.h>
#include <string.h>

enum { RUNS = 25, TEXT_LEN = 64, CONTEXT_BYTES = 56, TEXT_LENGTH_OFFSET = 16 };

static uint8_t text[TEXT_LEN + 1] = "TODO: the quick brown fox jumps over http://a.example/, or not ?";

/* What `struct span` of examples/filters/span.h has. */
typedef struct {
    const uint8_t *text;
    const uint8_t *end;
    uint32_t len, characters, flags, color, link_len, comments, index, count;
    uint64_t version;
} Span;

_Static_assert(sizeof(Span) == CONTEXT_BYTES, "56 bytes");

static struct rte_bpf_prm parameters_of(const Program *program) {
    struct rte_bpf_prm parameters;
    memset(&parameters, 0, sizeof parameters);
    parameters.ins = (const struct ebpf_insn *)program->bytes;
    parameters.nb_ins = (uint32_t)program->slots;
    parameters.prog_arg.type = RTE_BPF_ARG_PTR;
    parameters.prog_arg.size = CONTEXT_BYTES;
    return parameters;
}

/* A program that is run without its validator, which refuses loads through a pointer that was itself loaded, as each filter has them. The
   interpreter reads nothing but the parameters, which stand first in `struct rte_bpf`. */
static const struct rte_bpf *unvalidated(const Program *program) {
    static uint64_t room[64];
    struct rte_bpf_prm parameters = parameters_of(program);
    memset(room, 0, sizeof room);
    memcpy(room, &parameters, sizeof parameters);
    return (const struct rte_bpf *)room;
}

/* `rounds` runs, each with a context of its own, as bench_run has. */
static uint64_t sum_of_peer(const struct rte_bpf *program, uint32_t rounds) {
    uint64_t sum = 0;
    for (uint32_t round = 0; round < rounds; round++) {
        Span span = {text, text + TEXT_LEN, TEXT_LEN, TEXT_LEN, 0, 0, 0, 0, round, 1, 1};
        sum += rte_bpf_exec(program, &span);
    }
    return sum;
}

static double less(double a, double b) {
    return a < b ? a : b;
}

/* The ratio of the times of a run. */
static double compare_runs(const char *what, const Program *program, uint32_t rounds) {
    const struct rte_bpf *peer = unvalidated(program);
    size_t length = 8 * program->slots;
    double none = 1e300, ours = 1e300, theirs = 1e300;
    expect(bench_verify(program->bytes, length, 1), 1, "accepted");
    expect(bench_run(program->bytes, length, text, TEXT_LEN, 3), sum_of_peer(peer, 3), "verdicts");
    for (int run = 0; run < RUNS; run++) {
        none = less(none, LEAST_TIME(1, bench_run(program->bytes, length, text, TEXT_LEN, 0)));
        ours = less(ours, LEAST_TIME(1, bench_run(program->bytes, length, text, TEXT_LEN, rounds)));
        theirs = less(theirs, LEAST_TIME(1, sum_of_peer(peer, rounds)));
    }
    ours = (ours - none) / rounds;
    theirs /= rounds;
    pair(what, ours, theirs, "ns");
    return ours / theirs;
}

static int load_peer(const Program *program) {
    struct rte_bpf_prm parameters = parameters_of(program);
    struct rte_bpf *loaded = rte_bpf_load(&parameters);
    rte_bpf_destroy(loaded);
    return loaded != NULL;
}

static void compare_verifying(const char *what, const Program *program) {
    const uint32_t rounds = 5;
    double none = 1e300, ours = 1e300, theirs = 1e300;
    size_t length = 8 * program->slots;
    expect((uint64_t)load_peer(program), 1, "accepted by DPDK");
    for (int run = 0; run < RUNS; run++) {
        none = less(none, LEAST_TIME(1, bench_verify(program->bytes, length, 0)));
        ours = less(ours, LEAST_TIME(1, bench_verify(program->bytes, length, rounds)));
        theirs = less(theirs, LEAST_TIME(1, load_peer(program)));
    }
    pair(what, (ours - none) / rounds / 1000, theirs / 1000, "us");
}

/* Reads a program from a file of hexadecimal digits; it has no slots where it isn't accepted in the first context. */
static void read_filter(Program *program, const char *name) {
    FILE *file = fopen(name, "r");
    unsigned byte;
    size_t length = 0;
    memset(program, 0, sizeof *program);
    while (file && length < sizeof program->bytes && fscanf(file, "%2x", &byte) == 1) {
        program->bytes[length++] = (uint8_t)byte;
    }
    if (file) {
        fclose(file);
    }
    program->slots = bench_verify(program->bytes, length, 1) == 1 ? length / 8 : 0;
}

static void compare_filters(int count, char **names) {
    Program program;
    double logarithms = 0;
    int compared = 0;
    for (int at = 0; at < count; at++) {
        read_filter(&program, names[at]);
        if (program.slots == 0) {
            continue;
        }
        const char *name = strrchr(names[at], '/');
        logarithms += log(compare_runs(name ? name + 1 : names[at], &program, 20000));
        compared++;
    }
    if (compared > 0) {
        char line[96];
        snprintf(line, sizeof line, "%d filters of examples/filters, geometric mean", compared);
        pair(line, exp(logarithms / compared), 1, "");
    }
}

int main(int count, char **words) {
    Program program;
    make_moves(&program, 2000);
    compare_runs("run, 2,000 slots of moves", &program, 400);
    make_straight(&program, 2000);
    compare_runs("run, 2,000 slots of arithmetic", &program, 400);
    make_stack(&program, 2000);
    compare_runs("run, 2,000 slots of stores to the stack and loads from it", &program, 400);
    make_context_loads(&program, 2000);
    compare_runs("run, 2,000 slots of loads from the context", &program, 400);
    make_two(&program);
    compare_runs("a context and run of 2 slots", &program, 200000);
    compare_filters(count - 1, words + 1);
    make_straight(&program, 2000);
    compare_verifying("verify, 2,000 slots of arithmetic", &program);
    make_straight(&program, 4096);
    compare_verifying("verify, 4,096 slots of arithmetic", &program);
    return 0;
}
