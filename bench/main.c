/* Measures the libraries through crates/bench: bench [programs|texts|ids|marked_ids|linux].. does those parts, and with no word all. */
#include "linux_bpf.h"
#include "programs.h"
#include "texts.h"

#include <string.h>

typedef struct {
    const char *name;
    void (*measure)(void);
} Part;

static const Part parts[] = {
    {"programs", measure_programs},
    {"texts", measure_texts},
    {"ids", measure_chosen_ids},
    {"marked_ids", measure_marked_ids},
    {"linux", measure_linux},
};

static int is_wanted(const char *name, int count, char **words) {
    for (int at = 1; at < count; at++) {
        if (strcmp(words[at], name) == 0) {
            return 1;
        }
    }
    return count == 1;
}

int main(int count, char **words) {
    for (size_t at = 0; at < sizeof parts / sizeof *parts; at++) {
        if (is_wanted(parts[at].name, count, words)) {
            parts[at].measure();
        }
    }
    return 0;
}
