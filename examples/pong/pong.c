/* A firmware that announces a channel and answers each message on it with two bytes, a hundred times. Its records do what the
 * recipe of examples/sample.script says in a script. */
#include "../worker.h"

struct table {
	uint32_t ver, num, reserved[2], offset[2];
	struct trace log;
	struct vdev rpmsg;
};

#define ADDRESS 1024u

static const char channel[32] = "rpmsg-client-sample";
static const char answer[2] = "ok";
static const char greeting[16] = "pong: listening\n";

extern char trace_text[64];
__attribute__((section(".trace"), used)) char trace_text[64];

WORKER(worker,
	COPY(sizeof(greeting), trace_text, greeting),
	BIND(ADDRESS),
	ANNOUNCE(ADDRESS, 0, channel),
	TAKE(),
	SEND(sizeof(answer), ADDRESS, LAST_SOURCE, answer),
	LOOP(100, 3),
	HALT()
);

__attribute__((section(".resource_table"), used)) const struct table resources = {
	.ver = 1,
	.num = 2,
	.offset = { __builtin_offsetof(struct table, log), __builtin_offsetof(struct table, rpmsg) },
	.log = { .type = RSC_TRACE, .da = 0x1000, .len = sizeof(trace_text), .name = "log" },
	.rpmsg = RPMSG_DEVICE(16),
};
