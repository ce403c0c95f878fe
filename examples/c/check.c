/* check FILE : says whether an image loads over the standard regions of a core, as `./rproc check` does, and ends with the same status. */
#include <stdio.h>
#include <stdlib.h>
#include <string.h>

#include "rproc.h"

#define IMAGE_MOST 4194304u
#define SEGMENTS_MOST 65535u
#define ENTRIES_MOST 256u

static const struct rproc_region STANDARD[] = {
    {.da = 0, .pa = 0x20000000, .len = 65536, .pool = 0},
    {.da = 0x10000000, .pa = 0x30000000, .len = 1048576, .pool = 1},
};
static const size_t STANDARD_COUNT = sizeof STANDARD / sizeof STANDARD[0];

static uint8_t image[IMAGE_MOST + 1];
static struct rproc_segment segments[SEGMENTS_MOST];
static struct rproc_entry entries[ENTRIES_MOST];

static int out_of_memory(void) {
    fputs("check: out of memory\n", stderr);
    return 5;
}

/* A name as it is printed: the bytes 21 to 7e but for `%` as they are, others as `%` and two digits, and none as `%`. */
static void print_name(const uint8_t name[32]) {
    if (name[0] == 0)
        putchar('%');
    for (size_t i = 0; i < 32 && name[i] != 0; i++) {
        if (name[i] >= 0x21 && name[i] <= 0x7e && name[i] != '%')
            putchar(name[i]);
        else
            printf("%%%02x", name[i]);
    }
}

static void print_device(size_t index, const struct rproc_entry *entry) {
    printf("entry %zu vdev %u features %u status %u\n", index, entry->id, entry->guest, entry->status);
    for (uint32_t i = 0; i < entry->count && i < 2; i++) {
        const struct rproc_ring *ring = &entry->ring[i];
        printf("vring %zu.%u %08x %u %u %u\n", index, i, ring->da, ring->align, ring->num, ring->notify);
    }
}

static void print_entry(size_t index, const struct rproc_entry *entry) {
    switch (entry->type) {
    case RPROC_CARVEOUT:
    case RPROC_DEVMEM:
        printf("entry %zu %s %08x %08x %08x ", index, entry->type == RPROC_CARVEOUT ? "carveout" : "devmem", entry->da, entry->pa,
               entry->len);
        print_name(entry->name);
        putchar('\n');
        break;
    case RPROC_TRACE:
        printf("entry %zu trace %08x %08x ", index, entry->da, entry->len);
        print_name(entry->name);
        puts(entry->at == RPROC_NOTHING ? " unavailable" : "");
        break;
    case RPROC_VDEV:
        print_device(index, entry);
        break;
    default:
        printf("entry %zu skipped %u\n", index, entry->type);
    }
}

static int report(size_t image_len) {
    struct rproc_report load;
    uint32_t status = rproc_check(image, image_len, STANDARD, STANDARD_COUNT, &load);
    if (status == RPROC_NO_MEMORY)
        return out_of_memory();
    if (status != RPROC_DONE) {
        printf("fault %u", load.fault.number);
        if (load.fault.about != RPROC_NOTHING)
            printf(" %u", load.fault.about);
        putchar('\n');
        return 1;
    }
    size_t segment_count, entry_count;
    if (rproc_segments(image, image_len, segments, SEGMENTS_MOST, &segment_count) != RPROC_DONE)
        return out_of_memory();
    if (rproc_entries(image, image_len, STANDARD, STANDARD_COUNT, entries, ENTRIES_MOST, &entry_count) != RPROC_DONE)
        return out_of_memory();
    printf("start %08x\n", load.entry);
    for (size_t i = 0; i < segment_count; i++)
        printf("segment %u %08x %u %u\n", segments[i].index, segments[i].da, segments[i].file_len, segments[i].memory_len);
    for (size_t i = 0; i < entry_count; i++)
        print_entry(i, &entries[i]);
    puts("ok");
    return 0;
}

int main(int argc, char **argv) {
    if (argc != 2) {
        fputs("usage: check FILE\n", stderr);
        return 2;
    }
    const char *slash = strrchr(argv[1], '/');
    const char *name = slash ? slash + 1 : argv[1];
    FILE *file = fopen(argv[1], "rb");
    if (!file) {
        printf("missing %s\n", name);
        return 1;
    }
    size_t image_len = fread(image, 1, sizeof image, file);
    if (ferror(file)) {
        fputs("check: the file can't be read\n", stderr);
        return 8;
    }
    fclose(file);
    if (image_len > IMAGE_MOST) {
        printf("too-large %s\n", name);
        return 1;
    }
    return report(image_len);
}
