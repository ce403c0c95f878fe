/* A firmware for the core of a board, of which tools/lint-images builds many: vectors and a handler that a core would run, a variable, and a
 * resource table, which the including file gives. */
#include "../worker.h"

static volatile uint32_t ticks = 1;

#ifdef __thumb__
__attribute__((used)) void reset(void)
{
	for (;;)
		ticks++;
}

__attribute__((section(".vectors"), used)) const uint32_t vectors[4] = { 0x1000, (uint32_t)(uintptr_t)reset, 0, 0 };
#else
__attribute__((section(".vectors"), used)) void vectors(void)
{
	for (;;)
		ticks++;
}
#endif
