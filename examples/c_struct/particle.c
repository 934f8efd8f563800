/* The records of script.llama as C structs: prints their bytes as `bytes` does, padding as 0. */
#include <stdint.h>
#include <stdio.h>
#include <string.h>

enum { COUNT = 3, BYTES_A_LINE = 16 };

struct aligned {
    uint8_t kind;
    int32_t x;
    uint16_t hits;
    int64_t id;
};

struct __attribute__((packed)) packed {
    uint8_t kind;
    int32_t x;
    uint16_t hits;
    int64_t id;
};

static void print_bytes(const void *memory, size_t length)
{
    const unsigned char *bytes = memory;
    for (size_t at = 0; at < length; at++) {
        int ends = (at + 1) % BYTES_A_LINE == 0 || at + 1 == length;
        printf("%02x%c", bytes[at], ends ? '\n' : ' ');
    }
}

int main(void)
{
    struct aligned aligned[COUNT];
    struct packed packed[COUNT];
    memset(aligned, 0, sizeof aligned);
    for (int i = 0; i < COUNT; i++) {
        aligned[i].kind = packed[i].kind = i + 1;
        aligned[i].x = packed[i].x = -i;
        aligned[i].hits = packed[i].hits = 513 + i;
        aligned[i].id = packed[i].id = i * 4294967296 - 1;
    }
    print_bytes(aligned, sizeof aligned);
    print_bytes(packed, sizeof packed);
    return 0;
}
