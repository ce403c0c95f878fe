/* A firmware for a core with the standard memory of rproc: a resource table that asks for a carveout, a trace and a
 * device for RPMsg, a trace buffer with a text, and at its entry the one record of a worker that halts at once.
 * The structures are those of Linux include/linux/remoteproc.h. */
#include "../worker.h"

struct table {
	uint32_t ver, num, reserved[2], offset[3];
	struct carveout frames;
	struct trace log;
	struct vdev rpmsg;
};

extern char trace_text[64];

__attribute__((section(".entry"), used)) const struct record worker[1] = { { 0, 0, 0, 0, 0 } };

__attribute__((section(".trace"), used)) char trace_text[64] = "blink: clock 48 MHz\nblink: ready\n";

__attribute__((section(".resource_table"), used)) const struct table resources = {
	.ver = 1,
	.num = 3,
	.offset = {
		__builtin_offsetof(struct table, frames),
		__builtin_offsetof(struct table, log),
		__builtin_offsetof(struct table, rpmsg),
	},
	.frames = { .type = RSC_CARVEOUT, .da = ANYWHERE, .len = 8192, .name = "frames" },
	.log = { .type = RSC_TRACE, .da = 0x1000, .len = sizeof(trace_text), .name = "log" },
	.rpmsg = RPMSG_DEVICE(16),
};

/* What a real core would run: it toggles a pin for ever, and counts. */
static volatile uint32_t toggles;

__attribute__((used)) void blink(void)
{
	volatile uint32_t *pin = (volatile uint32_t *)0x40000000;

	for (;;) {
		*pin ^= 1;
		toggles++;
	}
}
