/* What a firmware for rproc is made of, in C: the resource table, whose structures are those of Linux
 * include/linux/remoteproc.h, and the records that the worker of a core runs in the place of instructions. */
#ifndef WORKER_H
#define WORKER_H

#include <stdint.h>

#define ANYWHERE 0xffffffffu
#define RSC_CARVEOUT 0u
#define RSC_TRACE 2u
#define RSC_VDEV 3u
#define VIRTIO_ID_RPMSG 7u
#define VIRTIO_RPMSG_F_NS 1u

struct carveout {
	uint32_t type, da, pa, len, flags, reserved;
	char name[32];
};

struct trace {
	uint32_t type, da, len, reserved;
	char name[32];
};

struct vring {
	uint32_t da, align, num, notifyid, pa;
};

struct vdev {
	uint32_t type, id, notifyid, dfeatures, gfeatures, config_len;
	uint8_t status, num_of_vrings, reserved[2];
	struct vring vring[2];
};

/* A device for RPMsg with the name service, whose two rings have so many buffers each, placed wherever there is room. */
#define RPMSG_DEVICE(buffers)                                                                                      \
	{                                                                                                          \
		.type = RSC_VDEV, .id = VIRTIO_ID_RPMSG, .dfeatures = VIRTIO_RPMSG_F_NS, .num_of_vrings = 2,       \
		.vring = { { ANYWHERE, 4096, (buffers), 0, 0 }, { ANYWHERE, 4096, (buffers), 0, 0 } },             \
	}

/* A record: the operation, and its operands n, a, b and c. */
struct record {
	uint16_t op, n;
	uint32_t a, b, c;
};

/* WORKER(worker, TAKE(), .., HALT()); defines the records of a worker, from the first, in the section .entry. No comma
 * follows the last. */
#if UINTPTR_MAX <= 0xffffffffu

#define WORKER(name, ...) \
	__attribute__((section(".entry"), used)) const struct record name[] = { __VA_ARGS__ }
#define RECORD(op, n, a, b, c) { (op), (n), (a), (b), (c) }
#define PLACE(object) ((uint32_t)(uintptr_t)(object))

#else

/* C has no constant of 32 bits for an address of 64. A field of 64 bits with an address and, from bit 32 on, a number is
 * one, and c stands before the next record's op and n. So the same bytes are written from the first op and n on as fields
 * of 64 bits: a with b, and c with the next op and n, which are the third operand of a __builtin_choose_expr that one record
 * opens and the next one closes. The linker puts the addresses, which are below 2^32, into the lower halves. */
struct worker {
	uint32_t first;
	uint64_t fields[];
} __attribute__((packed, aligned(4)));

#define WORKER(name, ...) \
	_Pragma("GCC diagnostic push") \
	_Pragma("GCC diagnostic ignored \"-Wmissing-braces\"") \
	__extension__ __attribute__((section(".entry"), used)) const struct worker name = { \
		__builtin_choose_expr(0, 0, __VA_ARGS__, 0) \
	}; \
	_Pragma("GCC diagnostic pop") \
	extern const struct worker name
#define RECORD(op, n, a, b, c) \
	(op) + 0x10000u * IN_16_BITS(n)), (a) + UPPER * (uint32_t)(b), (c) + UPPER * __builtin_choose_expr(0, 0
#define UPPER 0x100000000u
#define IN_16_BITS(n) (uint32_t)((n) * sizeof(char[(n) <= 0xffff ? 1 : -1]))
#define PLACE(object) ((uint64_t)(uintptr_t)(object))

#endif

#define LAST_SOURCE 0xffffffffu

/* The worker ends. */
#define HALT() RECORD(0, 0, 0, 0, 0)
/* Announces a channel of this name (32 bytes), at this address of ours, with flags 0; or takes it back, with flags 1. */
#define ANNOUNCE(address, flags, name) RECORD(1, 0, (address), (flags), PLACE(name))
/* Binds an address of ours; ANYWHERE takes the least free one from 1024. */
#define BIND(address) RECORD(2, 0, (address), 0, 0)
/* Sends n bytes from an address of ours to one of the host; LAST_SOURCE is who sent the message that was taken last. */
#define SEND(n, from, to, bytes) RECORD(3, (n), (from), (to), PLACE(bytes))
/* Sends n bytes as a whole message, its header included. */
#define RAW(n, bytes) RECORD(4, (n), 0, 0, PLACE(bytes))
/* Takes a message, and gives its buffer back. */
#define TAKE() RECORD(5, 0, 0, 0, 0)
/* Copies n bytes, as to a trace buffer. */
#define COPY(n, to, from) RECORD(6, (n), PLACE(to), 0, PLACE(from))
/* Reports a crash: 0 a fault of the memory, 1 the watchdog, 2 a fatal error. */
#define CRASH(kind) RECORD(7, 0, (kind), 0, 0)
/* Goes to a record until it was reached so many times; 0 times is for ever. */
#define LOOP(times, record) RECORD(8, 0, (times), (record), 0)

#endif
