/* Times and memory of calls. */
#ifndef MEASURE_H
#define MEASURE_H

#include <stddef.h>
#include <stdint.h>

/* Processor time of this thread in nanoseconds: what other programs take isn't counted, though what they do to caches is. */
double thread_time(void);

/* The least time of several runs of a call, in nanoseconds. */
#define LEAST_TIME(runs, call)                              \
    ({                                                      \
        double least_ = 1e300;                              \
        for (int run_ = 0; run_ < (runs); run_++) {         \
            double start_ = thread_time();                  \
            (void)(call);                                   \
            double took_ = thread_time() - start_;          \
            least_ = took_ < least_ ? took_ : least_;       \
        }                                                   \
        least_;                                             \
    })

/* The most bytes that are allocated at once from here on, beside those that are now. */
void watch_memory(void);
size_t most_memory(void);

/* Prints a line of results. */
void row(const char *what, double value, const char *unit);

/* Prints a line of ours beside a peer's, with the ratio. */
void pair(const char *what, double ours, double theirs, const char *unit);

/* Ends the program where a call didn't answer what it must. */
void expect(uint64_t found, uint64_t wanted, const char *what);

#endif
