/* The readers of rproc as a library for C. docs/C_LIBRARY.md tells how to use it; crates/rproc_c has each function with its contract.
 *
 * No pointer is NULL, also where its length is 0. What is written doesn't overlap what is read or anything else that is written.
 * Memory is taken by malloc and given back before a call returns; nothing is kept between calls.
 */
#ifndef RPROC_H
#define RPROC_H

#include <assert.h>
#include <stddef.h>
#include <stdint.h>

#ifdef __cplusplus
extern "C" {
#endif

/* What each function returns: RPROC_DONE; the number of a fault, from 1 to 61 (docs/FAULTS.md); or one of the others. */
#define RPROC_DONE 0u
#define RPROC_NO_MEMORY 100u
/* An array, a buffer, a memory or a payload has another length than the call needs. */
#define RPROC_WRONG_LENGTH 101u
/* No entry of the table takes a fix. */
#define RPROC_WRONG_FIX 102u

/* What stands for no number. */
#define RPROC_NOTHING UINT32_C(0xffffffff)

/* The most bytes of all regions of a core. */
#define RPROC_MEMORY_MOST 16777216u

/* Why something is refused: a number as above, and the number of the program header, the entry, the region or the fix that it is
 * about, from 0, or RPROC_NOTHING. */
struct rproc_fault {
    uint32_t number;
    uint32_t about;
};

/* A region of a core's memory: device address, physical address and bytes. Where `pool` is 0 it is always mapped; otherwise blocks
 * are placed in it, and only these are mapped. There are at most 16. */
struct rproc_region {
    uint32_t da;
    uint32_t pa;
    uint32_t len;
    uint32_t pool;
};

/* A ring of a device (struct fw_rsc_vdev_vring of Linux remoteproc.h). */
struct rproc_ring {
    uint32_t da;
    uint32_t align;
    uint32_t num;
    uint32_t notify;
    uint32_t pa;
};

/* What is told of an image over regions. Where it doesn't load, all but `fault` is 0. */
struct rproc_report {
    struct rproc_fault fault;
    /* The address of the first instruction. */
    uint32_t entry;
    /* How many entries the resource table has, at most 256, and none without a table. */
    uint32_t entries;
    /* The bytes of all regions. */
    uint32_t memory_len;
    /* 1 where the table has a device for RPMsg; the fields below are its. */
    uint32_t rings;
    /* 1 where its firmware announces its channels. */
    uint32_t service;
    /* The device address of the buffers, 512 bytes each, of both rings. */
    uint32_t buffers;
    struct rproc_ring to_host;
    struct rproc_ring to_remote;
};

/* A loaded segment: the number of its program header, where its memory begins, how many bytes the image gives, and how many bytes
 * of memory it has; those behind the image's are 0. */
struct rproc_segment {
    uint32_t index;
    uint32_t da;
    uint32_t file_len;
    uint32_t memory_len;
};

/* The types of entries (enum fw_resource_type of Linux remoteproc.h). Nothing more is told of an entry of another type. */
#define RPROC_CARVEOUT 0u
#define RPROC_DEVMEM 1u
#define RPROC_TRACE 2u
#define RPROC_VDEV 3u

/* An entry of a resource table. A field that its type doesn't have is 0. */
struct rproc_entry {
    uint32_t type;
    uint32_t da;
    uint32_t pa;
    uint32_t len;
    /* Where the bytes of a trace stand in the memory that rproc_load writes, or RPROC_NOTHING where no mapped memory holds them. */
    uint32_t at;
    /* With zeros behind it, of which there is one at least. */
    uint8_t name[32];
    uint32_t id;
    uint32_t features;
    uint32_t guest;
    uint32_t status;
    uint32_t count;
    struct rproc_ring ring[2];
};

/* What is told of a resource table. */
struct rproc_table {
    struct rproc_fault fault;
    /* At most 256. */
    uint32_t entries;
};

/* Where a carveout, or with `rings` a ring of a device, was placed. */
struct rproc_fix {
    uint16_t entry;
    uint8_t rings;
    uint8_t ring;
    uint32_t da;
    uint32_t pa;
    uint32_t notify;
};

/* What the 16 bytes of a message's header say. The payload stands behind them. */
struct rproc_header {
    uint32_t src;
    uint32_t dst;
    uint32_t len;
};

/* A message to the name service: the name up to its first zero, whose last byte counts as zero, the address, and whether the
 * channel goes away. */
struct rproc_service {
    uint8_t name[32];
    uint32_t address;
    uint32_t destroy;
};

static_assert(sizeof(struct rproc_report) == 72, "rproc_report");
static_assert(sizeof(struct rproc_entry) == 112, "rproc_entry");
static_assert(sizeof(struct rproc_fix) == 16, "rproc_fix");
static_assert(sizeof(struct rproc_service) == 40, "rproc_service");

/* Says whether an image loads over regions, and what its load gives. */
uint32_t rproc_check(const uint8_t *image, size_t image_len, const struct rproc_region *regions, size_t region_count,
                     struct rproc_report *told);

/* Writes the loaded segments of an image into an array, and counts those that were written. RPROC_WRONG_LENGTH says that there are
 * more than the array has room for. */
uint32_t rproc_segments(const uint8_t *image, size_t image_len, struct rproc_segment *array, size_t room, size_t *count);

/* Loads an image into the memory of a core: the bytes of its regions, one behind the other. `memory_len` is that of rproc_check.
 * What isn't RPROC_DONE leaves the memory as it was. */
uint32_t rproc_load(const uint8_t *image, size_t image_len, const struct rproc_region *regions, size_t region_count,
                    uint8_t *memory, size_t memory_len);

/* Writes the entries of the resource table of an image, as a load patches it, into an array, and counts them, as rproc_segments. */
uint32_t rproc_entries(const uint8_t *image, size_t image_len, const struct rproc_region *regions, size_t region_count,
                       struct rproc_entry *array, size_t room, size_t *count);

/* Says whether bytes are a resource table. */
uint32_t rproc_check_table(const uint8_t *table, size_t table_len, struct rproc_table *told);

/* Writes the entries of a resource table into an array, and counts them. No trace has a place. */
uint32_t rproc_table_entries(const uint8_t *table, size_t table_len, struct rproc_entry *array, size_t room, size_t *count);

/* Writes fixes into a resource table, and sets its device for RPMsg up. What isn't RPROC_DONE leaves the table as it was. */
uint32_t rproc_patch_table(uint8_t *table, size_t table_len, const struct rproc_fix *fixes, size_t fix_count,
                           struct rproc_fault *fault);

/* Reads the header of a message: 61 for a message that isn't whole, of which nothing is told. */
uint32_t rproc_read_head(const uint8_t *message, size_t message_len, struct rproc_header *told);

/* Writes a header to the front of a buffer that has room for it and for a payload of `len` bytes behind it: 60 for more than 496. */
uint32_t rproc_write_head(uint8_t *buffer, size_t buffer_len, uint32_t src, uint32_t dst, uint32_t len);

/* Reads the payload of a message to the name service, which has 40 bytes. */
uint32_t rproc_read_service(const uint8_t *payload, size_t payload_len, struct rproc_service *told);

/* Writes the payload of a message to the name service, 40 bytes, to the front of a buffer. */
uint32_t rproc_write_service(const struct rproc_service *given, uint8_t *buffer, size_t buffer_len);

#ifdef __cplusplus
}
#endif

#endif
