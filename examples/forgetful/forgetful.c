/* A firmware with a bug in its recovery. It waits until a caller of the host greets it, then announces a channel and answers
 * four messages on it. That works as long as nothing crashes. Recovered after the greeting came, it waits for another, which
 * nobody sends: in its second life it never announces itself. ../pong has it right: it announces itself at once. */
#include "../worker.h"

struct table {
	uint32_t ver, num, reserved[2], offset[1];
	struct vdev rpmsg;
};

#define ADDRESS 1024u

static const char channel[32] = "rpmsg-client-sample";
static const char answer[2] = "ok";

__attribute__((section(".entry"), used)) const struct record worker[] = {
	BIND(ADDRESS),
	TAKE(),
	ANNOUNCE(ADDRESS, 0, channel),
	TAKE(),
	SEND(sizeof(answer), ADDRESS, LAST_SOURCE, answer),
	LOOP(4, 3),
	HALT(),
};

__attribute__((section(".resource_table"), used)) const struct table resources = {
	.ver = 1,
	.num = 1,
	.offset = { __builtin_offsetof(struct table, rpmsg) },
	.rpmsg = RPMSG_DEVICE(16),
};
