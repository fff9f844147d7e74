// Calls for bench/stack: each writer of the archive, and each `marshal`, on a stack of its own, twice, with other addresses. Prints
// how many bytes of that stack then differ. Nothing else differs between the two calls, so they are an address's.
//   stack_of_writers NAME DEPTH ..     how deep in NAME_marshal's stack the part begins that is its `marshal`'s own
#include <stdint.h>
#include <stdio.h>
#include <stdlib.h>
#include <string.h>

#include "../include/yerondatt.h"

enum { SIZE = 1 << 16, ROOM = 64 };

typedef uint64_t function(const uint8_t *payload, size_t payload_len, uint8_t *out, size_t out_len);

// Calls a function with the stack that ends at `top`.
uint64_t call_on(uint8_t *top, function *of, const uint8_t *payload, size_t payload_len, uint8_t *out, size_t out_len);
__asm__(".text\n"
        "call_on:\n"
        "    push %rbp\n"
        "    mov %rsp, %rbp\n"
        "    mov %rdi, %rsp\n"
        "    mov %rsi, %rax\n"
        "    mov %rdx, %rdi\n"
        "    mov %rcx, %rsi\n"
        "    mov %r8, %rdx\n"
        "    mov %r9, %rcx\n"
        "    call *%rax\n"
        "    mov %rbp, %rsp\n"
        "    pop %rbp\n"
        "    ret\n");

static uint8_t stack[SIZE] __attribute__((aligned(16))), before[SIZE];
static uint8_t image[128], report[YERONDATT_REPORT_SIZE];

// The writers of the archive, of what was read into the image.
#define WRITER(kind)                                                                                                           \
    static uint64_t write_##kind(const uint8_t *payload, size_t payload_len, uint8_t *out, size_t out_len)                     \
    {                                                                                                                          \
        (void)payload, (void)payload_len;                                                                                      \
        return yerondatt_##kind##_write(image, sizeof image, out, out_len, report, sizeof report);                             \
    }                                                                                                                          \
    function kind##_marshal;
WRITER(ue_ip_address)
WRITER(f_teid)
WRITER(fseid)
WRITER(outer_header_creation)
function node_id_marshal;
static uint64_t write_node_id(const uint8_t *payload, size_t payload_len, uint8_t *out, size_t out_len)
{
    return yerondatt_node_id_write(image, sizeof image, payload, payload_len, out, out_len, report, sizeof report);
}

// A payload: its first bytes, and one or two addresses behind them.
struct sample {
    const char *name;
    size_t head_len, addresses_len;
    uint8_t head[10];
    function *read, *write, *marshal;
};
#define OF(kind) yerondatt_##kind##_read, write_##kind, kind##_marshal
static const struct sample samples[] = {
    {"ue_ip_address", 1, 20, {0x03}, OF(ue_ip_address)},
    {"f_teid", 5, 20, {0x03, 1, 2, 3, 4}, OF(f_teid)},
    {"fseid", 9, 20, {0x03, 1, 2, 3, 4, 5, 6, 7, 8}, OF(fseid)},
    {"node_id", 1, 4, {0x00}, OF(node_id)},
    {"node_id", 1, 16, {0x01}, OF(node_id)},
    {"outer_header_creation", 6, 20, {0x03, 0, 1, 2, 3, 4}, OF(outer_header_creation)},
};

// Calls a function with addresses whose bytes count from `first` on; the stack keeps what it leaves there.
static void call(const struct sample *s, function *of, uint8_t first)
{
    uint8_t payload[ROOM], out[ROOM];
    size_t len = s->head_len + s->addresses_len;
    memcpy(payload, s->head, s->head_len);
    for (size_t i = 0; i < s->addresses_len; i++)
        payload[s->head_len + i] = (uint8_t)(first + i);
    memset(out, 0, sizeof out);
    memset(stack, 0, sizeof stack);
    if (s->read(payload, len, image, sizeof image) != YERONDATT_DONE)
        exit(2);
    call_on(stack + SIZE, of, payload, len, out, sizeof out);
    if (memcmp(out, payload, len) != 0)
        exit(2);
}

// How many bytes of the stack, from a depth on, are an address's.
static size_t held(const struct sample *s, function *of, size_t depth)
{
    size_t count = 0;
    call(s, of, 0x11);
    memcpy(before, stack, SIZE);
    call(s, of, 0x91);
    for (size_t i = 0; i + depth < SIZE; i++)
        count += stack[i] != before[i];
    return count;
}

int main(int argc, char **argv)
{
    for (size_t k = 0; k < sizeof samples / sizeof *samples; k++) {
        const struct sample *s = samples + k;
        printf("%s write %zu\n", s->name, held(s, s->write, 0));
        for (int i = 1; i + 1 < argc; i += 2)
            if (strcmp(argv[i], s->name) == 0)
                printf("%s marshal %zu\n", s->name, held(s, s->marshal, strtoul(argv[i + 1], NULL, 10)));
    }
    return 0;
}
