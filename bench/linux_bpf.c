/* The same programs in this machine's kernel, as far as both have a meaning for them: its verifier, and the machine code that its
   compiler makes. A program is loaded, run on a packet of zeros and let go; it is attached to nothing. */
#include "linux_bpf.h"

#include "measure.h"
#include "slots.h"

#include <errno.h>
#include <linux/bpf.h>
#include <stdio.h>
#include <string.h>
#include <sys/syscall.h>
#include <unistd.h>

enum { RUNS = 9, PACKET_LENGTH_OFFSET = 0, LOG_STATISTICS = 4 };

static long bpf(int command, union bpf_attr *attributes) {
    return syscall(SYS_bpf, command, attributes, sizeof *attributes);
}

/* Loads a program, with the microseconds that the verifier says it took. */
static int load(const Program *program, double *microseconds) {
    static char log[65536];
    union bpf_attr attributes;
    memset(&attributes, 0, sizeof attributes);
    log[0] = 0;
    attributes.prog_type = BPF_PROG_TYPE_SOCKET_FILTER;
    attributes.insns = (uint64_t)(uintptr_t)program->bytes;
    attributes.insn_cnt = (uint32_t)program->slots;
    attributes.license = (uint64_t)(uintptr_t)"GPL";
    attributes.log_buf = (uint64_t)(uintptr_t)log;
    attributes.log_size = sizeof log;
    attributes.log_level = LOG_STATISTICS;
    int loaded = (int)bpf(BPF_PROG_LOAD, &attributes);
    const char *said = strstr(log, "verification time ");
    *microseconds = -1;
    if (said) {
        sscanf(said, "verification time %lf", microseconds);
    }
    return loaded;
}

/* The nanoseconds of a run, as the kernel says. */
static double run(int loaded) {
    static uint8_t packet[64];
    union bpf_attr attributes;
    memset(&attributes, 0, sizeof attributes);
    attributes.test.prog_fd = (uint32_t)loaded;
    attributes.test.data_in = (uint64_t)(uintptr_t)packet;
    attributes.test.data_size_in = sizeof packet;
    attributes.test.repeat = 20000;
    if (bpf(BPF_PROG_TEST_RUN, &attributes) < 0) {
        return -1;
    }
    return attributes.test.duration;
}

static void report(const char *what, const Program *program, int by_step) {
    char line[96];
    double verifying = 1e300;
    double running = 1e300;
    for (int turn = 0; turn < RUNS; turn++) {
        double microseconds;
        int loaded = load(program, &microseconds);
        if (loaded < 0) {
            printf("%s: %s\n", what, strerror(errno));
            return;
        }
        double took = run(loaded);
        close(loaded);
        verifying = microseconds < verifying ? microseconds : verifying;
        running = took < running ? took : running;
    }
    snprintf(line, sizeof line, "Linux verifies %zu slots of %s", program->slots, what);
    row(line, verifying / 1000, "ms");
    if (by_step) {
        row("  and runs them, compiled", running / (double)program->slots, "ns a step");
    } else {
        row("  and runs them, compiled", running, "ns a run");
    }
}

void measure_linux(void) {
    Program program;
    double microseconds;
    puts("\nThe kernel of this machine");
    make_two(&program);
    int loaded = load(&program, &microseconds);
    if (loaded < 0) {
        printf("loads no programs here: %s\n", strerror(errno));
        return;
    }
    close(loaded);
    report("a constant", &program, 0);
    make_three_plain(&program);
    report("a flag", &program, 0);
    make_straight(&program, 4000);
    report("arithmetic", &program, 1);
    make_branches(&program, 4000, PACKET_LENGTH_OFFSET);
    report("comparisons and additions", &program, 1);
    make_stack(&program, 4000);
    report("stores to the stack and loads from it", &program, 1);
    make_straight(&program, 2000);
    report("arithmetic", &program, 1);
    make_branches(&program, 4096, PACKET_LENGTH_OFFSET);
    report("a join at every other", &program, 1);
    make_fan(&program, 4096, PACKET_LENGTH_OFFSET);
    report("2,047 jumps that wait at once", &program, 1);
}
