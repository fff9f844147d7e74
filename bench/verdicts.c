// Calls for bench/verdicts, in sections that `bench_mark` begins: a loop that calls nothing of the archive, then the same loop for the
// strict verdict of each kind; then both for reads of an Outer Header Creation. Prints each section's name and calls.
#include <inttypes.h>
#include <stdint.h>
#include <stdio.h>
#include <string.h>

#include "../include/yerondatt.h"

typedef uint64_t verdict(const uint8_t *, size_t);
typedef uint64_t reader(const uint8_t *, size_t, uint8_t *, size_t);

static volatile uint64_t sum;

__attribute__((noinline)) void bench_mark(void) { __asm__ volatile(""); }

__attribute__((noinline)) static uint64_t no_verdict(const uint8_t *payload, size_t n) {
    __asm__ volatile("" : : "r"(payload), "r"(n));
    return 0;
}

__attribute__((noinline)) static uint64_t no_read(const uint8_t *payload, size_t n, uint8_t *image, size_t m) {
    __asm__ volatile("" : : "r"(payload), "r"(n), "r"(image), "r"(m));
    return 0;
}

static void fill(uint8_t *payload, uint32_t *x, int first) {
    for (size_t i = 0; i < 60; i++) {
        *x = *x * 1664525u + 1013904223u;
        payload[i] = (uint8_t)(*x >> 24);
    }
    payload[0] = (uint8_t)first;
}

// Every first byte with every length from 1 to 59.
__attribute__((noinline)) static void judge(verdict *of) {
    uint8_t payload[64];
    uint32_t x = 12345;
    bench_mark();
    for (int first = 0; first < 256; first++) {
        for (size_t n = 1; n < 60; n++) {
            fill(payload, &x, first);
            sum += of(payload, n);
        }
    }
}

// Every first byte with 40 bytes.
__attribute__((noinline)) static void read_all(reader *of) {
    uint8_t payload[64], image[YERONDATT_OUTER_HEADER_CREATION_SIZE];
    uint32_t x = 12345;
    bench_mark();
    for (int first = 0; first < 256; first++) {
        fill(payload, &x, first);
        sum += of(payload, 40, image, sizeof image);
    }
}

int main(int argc, char **argv) {
    if (argc > 1 && !strcmp(argv[1], "addr")) {
        printf("%#" PRIxPTR "\n", (uintptr_t)bench_mark);
        return 0;
    }
    judge(no_verdict);
    judge(yerondatt_ue_ip_address_strict);
    judge(yerondatt_f_teid_strict);
    judge(yerondatt_fseid_strict);
    judge(yerondatt_node_id_strict);
    judge(yerondatt_outer_header_creation_strict);
    judge(yerondatt_pfd_contents_strict);
    read_all(no_read);
    read_all(yerondatt_outer_header_creation_read);
    bench_mark();
    const char *names[] = {"none", "ue_ip_address_strict", "f_teid_strict", "fseid_strict", "node_id_strict",
                           "outer_header_creation_strict", "pfd_contents_strict", "none", "outer_header_creation_read"};
    for (int i = 0; i < 9; i++) {
        printf("%d %s %d\n", i + 1, names[i], i < 7 ? 256 * 59 : 256);
    }
    return 0;
}
