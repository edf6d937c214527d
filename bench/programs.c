/* The verifier and both interpreters. */
#include "programs.h"

#include "library.h"
#include "measure.h"
#include "slots.h"

#include <stdio.h>

enum { RUNS = 9, TEXT_LEN = 64, TEXT_LENGTH_OFFSET = 16 };

static const uint8_t text[TEXT_LEN] = "The quick brown fox jumps over the lazy dog, and then it sleeps";

static double time_of_run(const Program *program, uint32_t rounds) {
    size_t length = 8 * program->slots;
    double none = LEAST_TIME(RUNS, bench_run(program->bytes, length, text, TEXT_LEN, 0));
    double all = LEAST_TIME(RUNS, bench_run(program->bytes, length, text, TEXT_LEN, rounds));
    return (all - none) / rounds;
}

static double time_of_checked_run(const Program *program, uint32_t rounds) {
    size_t length = 8 * program->slots;
    double none = LEAST_TIME(RUNS, bench_run_checked(program->bytes, length, text, TEXT_LEN, 0));
    double all = LEAST_TIME(RUNS, bench_run_checked(program->bytes, length, text, TEXT_LEN, rounds));
    return (all - none) / rounds;
}

static void agree(const Program *program) {
    size_t length = 8 * program->slots;
    expect(bench_verify(program->bytes, length, 1), 1, "accepted");
    expect(bench_run(program->bytes, length, text, TEXT_LEN, 3), bench_run_checked(program->bytes, length, text, TEXT_LEN, 3),
           "verdicts");
}

/* Long programs: the time of a step. */
static void steps_of(const char *what, const Program *program) {
    char line[96];
    const uint32_t rounds = 400;
    agree(program);
    double fast = time_of_run(program, rounds) / (double)program->slots;
    double checked = time_of_checked_run(program, rounds) / (double)program->slots;
    snprintf(line, sizeof line, "run, %zu slots of %s", program->slots, what);
    row(line, fast, "ns a step");
    snprintf(line, sizeof line, "run_checked, the same");
    row(line, checked, "ns a step");
}

/* Short programs: the time of a run, with the making of its context. */
static void runs_of(const char *what, const Program *program) {
    char line[96];
    const uint32_t rounds = 200000;
    agree(program);
    snprintf(line, sizeof line, "a context and run, %s", what);
    row(line, time_of_run(program, rounds), "ns a run");
    snprintf(line, sizeof line, "run_checked, the same");
    row(line, time_of_checked_run(program, rounds), "ns a run");
}

static void verified(const char *what, const Program *program) {
    char line[96];
    const uint32_t rounds = 10;
    size_t length = 8 * program->slots;
    expect(bench_verify(program->bytes, length, 1), 1, "accepted");
    double none = LEAST_TIME(RUNS, bench_verify(program->bytes, length, 0));
    double all = LEAST_TIME(RUNS, bench_verify(program->bytes, length, rounds));
    snprintf(line, sizeof line, "verify, %zu slots: %s", program->slots, what);
    row(line, (all - none) / rounds / 1e6, "ms");
    watch_memory();
    bench_verify(program->bytes, length, 1);
    row("  the most memory at once", (double)most_memory() / 1024, "KiB");
}

void measure_programs(void) {
    Program program;
    puts("\nPrograms");
    make_straight(&program, 4000);
    steps_of("arithmetic", &program);
    make_branches(&program, 4000, TEXT_LENGTH_OFFSET);
    steps_of("comparisons and additions", &program);
    make_text_loads(&program, 4000);
    steps_of("loads from the text", &program);
    make_context_loads(&program, 4000);
    steps_of("loads from the context", &program);
    make_stack(&program, 4000);
    steps_of("stores to the stack and loads from it", &program);

    make_two(&program);
    runs_of("2 slots", &program);
    make_three(&program);
    runs_of("3 slots", &program);

    make_straight(&program, 2000);
    verified("arithmetic", &program);
    make_straight(&program, 4096);
    verified("arithmetic", &program);
    make_branches(&program, 4096, TEXT_LENGTH_OFFSET);
    verified("a join at every other", &program);
    make_text_loads(&program, 4096);
    verified("loads from the text", &program);
    make_fan(&program, 4096, TEXT_LENGTH_OFFSET);
    verified("2,047 jumps that wait at once", &program);
}
