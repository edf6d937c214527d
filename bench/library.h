/* The calls of crates/bench: a slice is a pointer and a length. */
#ifndef LIBRARY_H
#define LIBRARY_H

#include <stddef.h>
#include <stdint.h>

uint32_t bench_verify(const uint8_t *program, size_t length, uint32_t rounds);
uint64_t bench_run(const uint8_t *program, size_t length, const uint8_t *text, size_t text_length, uint32_t rounds);
uint64_t bench_run_checked(const uint8_t *program, size_t length, const uint8_t *text, size_t text_length,
                           uint32_t rounds);
uint64_t bench_read(const uint8_t *text, size_t length, uint32_t count);
uint64_t bench_accept(const uint8_t *text, size_t length, uint32_t count);
uint64_t bench_follow(const uint8_t *text, size_t length, uint32_t alone, uint32_t followed);
uint64_t bench_version(const uint8_t *text, size_t length, uint32_t count, uint32_t rounds);

#endif
