/* calls : tries each function of the library once where it answers and once where it refuses, and says which answer is wrong. */
#include <stdio.h>
#include <string.h>

#include "rproc.h"

static int failed;

static void expect(int holds, const char *what) {
    if (!holds) {
        printf("calls: %s\n", what);
        failed = 1;
    }
}

/* A table with a carveout of 16 bytes, anywhere, and a device for RPMsg with two rings of 4 entries (Linux remoteproc.h). */
static size_t make_table(uint8_t *table) {
    uint32_t words[] = {
        1, 2, 0, 0, 24, 80,                             /* the header, and two offsets */
        0, 0xffffffff, 0, 16, 0, 0,                     /* the carveout, up to its name */
        0x6d656d, 0, 0, 0, 0, 0, 0, 0,                  /* "mem" */
        3, 7, 0, 1, 0, 0, 0x200,                        /* the device, which offers the name service */
        0xffffffff, 4096, 4, 0, 0, 0xffffffff, 4096, 4, 0, 0,
    };
    memcpy(table, words, sizeof words);
    return sizeof words;
}

static void try_tables(void) {
    uint8_t table[256], was[256];
    size_t len = make_table(table), count = 9;
    struct rproc_table told;
    struct rproc_entry entries[3];
    struct rproc_fault fault;
    struct rproc_fix fixes[] = {
        {.entry = 0, .da = 0x1000, .pa = 0x2000},
        {.entry = 1, .rings = 1, .ring = 1, .da = 0x3000, .pa = 0x4000, .notify = 1},
    };
    expect(rproc_check_table(table, len, &told) == RPROC_DONE && told.entries == 2, "a table with two entries");
    expect(rproc_check_table(table, 15, &told) == 20 && told.fault.about == RPROC_NOTHING && told.entries == 0, "a short table");
    expect(rproc_table_entries(table, len, entries, 3, &count) == RPROC_DONE && count == 2, "its entries");
    expect(entries[0].type == RPROC_CARVEOUT && entries[0].len == 16 && !strcmp((char *)entries[0].name, "mem"), "its carveout");
    expect(entries[1].type == RPROC_VDEV && entries[1].id == 7 && entries[1].count == 2 && entries[1].ring[1].num == 4, "its device");
    expect(rproc_table_entries(table, len, entries, 1, &count) == RPROC_WRONG_LENGTH && count == 1, "an array for one entry");
    expect(rproc_patch_table(table, len, fixes, 2, &fault) == RPROC_DONE, "two fixes");
    expect(rproc_table_entries(table, len, entries, 3, &count) == RPROC_DONE && count == 2, "the entries behind them");
    expect(entries[0].da == 0x1000 && entries[0].pa == 0x2000, "the place of the carveout");
    expect(entries[1].ring[1].da == 0x3000 && entries[1].ring[1].notify == 1 && entries[1].ring[0].da == 0xffffffff, "that of a ring");
    expect(entries[1].status == 7 && entries[1].guest == 1, "the device's status");
    memcpy(was, table, len);
    fixes[1].ring = 2;
    expect(rproc_patch_table(table, len, fixes, 2, &fault) == RPROC_WRONG_FIX && fault.about == 1, "a fix of no ring");
    expect(!memcmp(was, table, len), "the table behind a refusal");
}

static void try_messages(void) {
    uint8_t buffer[512] = {0};
    struct rproc_header header = {0, 0, 0};
    struct rproc_service service = {.name = "rpmsg-client-sample", .address = 1024, .destroy = 1}, read;
    expect(rproc_write_head(buffer, sizeof buffer, 1024, 53, 496) == RPROC_DONE, "a header for 496 bytes");
    expect(rproc_write_head(buffer, sizeof buffer, 1024, 53, 497) == 60, "a payload of 497 bytes");
    expect(rproc_write_head(buffer, 20, 1024, 53, 5) == RPROC_WRONG_LENGTH, "a buffer without room");
    expect(buffer[0] == 0 && buffer[1] == 4 && buffer[4] == 53 && buffer[12] == 0xf0 && buffer[13] == 1, "the header's bytes");
    expect(rproc_read_head(buffer, sizeof buffer, &header) == RPROC_DONE, "the header");
    expect(header.src == 1024 && header.dst == 53 && header.len == 496, "what it says");
    expect(rproc_read_head(buffer, 100, &header) == 61 && header.src == 1024, "a message that was cut off");
    expect(rproc_write_service(&service, buffer, 39) == RPROC_WRONG_LENGTH, "39 bytes for the name service");
    expect(rproc_write_service(&service, buffer, 40) == RPROC_DONE, "40 bytes for the name service");
    expect(rproc_read_service(buffer, 40, &read) == RPROC_DONE && !memcmp(&service, &read, sizeof read), "what they say");
    expect(rproc_read_service(buffer, 41, &read) == RPROC_WRONG_LENGTH, "41 bytes of the name service");
}

/* An ELF32 image with one segment of four bytes at the address 0, and 16 bytes of memory (TIS ELF 1.2). */
static size_t make_image(uint8_t *image) {
    static const uint8_t identification[16] = {0x7f, 'E', 'L', 'F', 1, 1, 1};
    uint32_t words[] = {
        0x280002, 1, 0, 52, 0, 0, 0x200034, 0x280001, 0, /* the header behind its identification */
        1, 84, 0, 0, 4, 16, 7, 4,                        /* the program header */
        0x04030201,                                      /* the segment's bytes */
    };
    memcpy(image, identification, 16);
    memcpy(image + 16, words, sizeof words);
    return 16 + sizeof words;
}

static void try_images(void) {
    uint8_t image[128], memory[64];
    size_t len = make_image(image), count = 9;
    struct rproc_region regions[] = {{.da = 0, .pa = 0x20000000, .len = 64}, {.da = 32, .pa = 0x30000000, .len = 64, .pool = 1}};
    struct rproc_report load;
    struct rproc_segment segment;
    struct rproc_entry entry;
    expect(rproc_check(image, len, regions, 1, &load) == RPROC_DONE, "an image");
    expect(load.fault.number == 0 && load.memory_len == 64 && load.entry == 0 && load.entries == 0 && load.rings == 0, "its load");
    expect(rproc_check(image, len, regions, 2, &load) == 30 && load.fault.about == 1 && load.memory_len == 0, "regions that meet");
    expect(rproc_check(image, len - 1, regions, 1, &load) == 8 && load.fault.about == 0, "an image that was cut off");
    expect(rproc_check(image, len, regions, 0, &load) == 40 && load.fault.about == 0, "an image over no region");
    expect(rproc_segments(image, len, &segment, 1, &count) == RPROC_DONE && count == 1, "its segment");
    expect(segment.index == 0 && segment.da == 0 && segment.file_len == 4 && segment.memory_len == 16, "what it says");
    expect(rproc_segments(image, len, &segment, 0, &count) == RPROC_WRONG_LENGTH && count == 0, "an array without room");
    expect(rproc_entries(image, len, regions, 1, &entry, 1, &count) == RPROC_DONE && count == 0, "no entries");
    memset(memory, 0xaa, sizeof memory);
    expect(rproc_load(image, len, regions, 1, memory, 63) == RPROC_WRONG_LENGTH && memory[0] == 0xaa, "a memory of 63 bytes");
    expect(rproc_load(image, len, regions, 1, memory, 64) == RPROC_DONE, "a memory of 64 bytes");
    expect(memory[0] == 1 && memory[3] == 4 && memory[4] == 0 && memory[63] == 0, "the memory behind the load");
}

int main(void) {
    try_tables();
    try_messages();
    try_images();
    return failed;
}
