/* scarce FILE : has each allocation of a check and of a load fail in turn, and says where one isn't answered by RPROC_NO_MEMORY. It is
 * linked with -Wl,--wrap=malloc,--wrap=realloc. */
#include <stdio.h>
#include <stdlib.h>
#include <string.h>

#include "rproc.h"

static const struct rproc_region REGIONS[] = {
    {.da = 0, .pa = 0x20000000, .len = 65536, .pool = 0},
    {.da = 0x10000000, .pa = 0x30000000, .len = 1048576, .pool = 1},
};
static uint8_t image[65536], memory[65536 + 1048576];
static struct rproc_entry entries[256];
/* How many allocations succeed before one fails. */
static long left;

void *__real_malloc(size_t size);
void *__real_realloc(void *block, size_t size);
void *__wrap_malloc(size_t size);
void *__wrap_realloc(void *block, size_t size);

void *__wrap_malloc(size_t size) { return left-- == 0 ? NULL : __real_malloc(size); }

void *__wrap_realloc(void *block, size_t size) { return left-- == 0 ? NULL : __real_realloc(block, size); }

static int fails_well(size_t len, long allocation) {
    struct rproc_report told;
    size_t count = 9;
    memset(memory, 0xaa, sizeof memory);
    left = allocation;
    if (rproc_check(image, len, REGIONS, 2, &told) != RPROC_NO_MEMORY)
        return 0;
    left = allocation;
    if (rproc_entries(image, len, REGIONS, 2, entries, 256, &count) != RPROC_NO_MEMORY || count != 0)
        return 0;
    left = allocation;
    if (rproc_load(image, len, REGIONS, 2, memory, sizeof memory) != RPROC_NO_MEMORY || memory[0] != 0xaa)
        return 0;
    return told.fault.number == RPROC_NO_MEMORY && told.entry == 0 && told.memory_len == 0;
}

int main(int argc, char **argv) {
    FILE *file = argc == 2 ? fopen(argv[1], "rb") : NULL;
    if (!file)
        return 2;
    size_t len = fread(image, 1, sizeof image, file);
    fclose(file);
    struct rproc_report told;
    for (long allocation = 0; allocation < 1000; allocation++) {
        left = allocation;
        if (rproc_check(image, len, REGIONS, 2, &told) == RPROC_DONE)
            return allocation > 0 ? 0 : 1;
        if (!fails_well(len, allocation)) {
            printf("scarce: allocation %ld\n", allocation);
            return 1;
        }
    }
    return 1;
}
