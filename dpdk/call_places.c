/* call_places.c - the places in the code that call a mempool handler, each with some of the calls on the way
 * to it, as numbers; and as text. */
#ifndef _GNU_SOURCE
#define _GNU_SOURCE /* dladdr1 */
#endif
#include <dlfcn.h>
#include <inttypes.h>
#include <link.h>
#include <pthread.h>
#include <stdio.h>
#include <stdlib.h>
#include <string.h>
#include <unwind.h>

#include "call_places.h"

#define PROBES 64   /* places of the table that a way is looked for in */
#define OWN_CALLS 8 /* of a handler, at most */
#define KNOWN 64    /* ways that a thread knows, at most */

enum { IS_EMPTY, IS_WRITTEN, IS_THERE };

struct way {
	uint32_t state;
	uintptr_t calls[1 + MAX_CALLS]; /* that of the place, and those on the way to it; 0 behind */
};

static struct way *ways;
static pthread_once_t once = PTHREAD_ONCE_INIT;

/* ---- numbers ---- */

static void
make_table(void)
{
	ways = calloc(MAX_WAYS, sizeof(*ways));
}

int
call_places_begin(void)
{
	pthread_once(&once, make_table);
	return ways != NULL;
}

/* Where the table has this way, or else takes it: from a place on that its addresses say. */
static uint32_t
number_of(const uintptr_t *calls)
{
	uint64_t at = 0;
	unsigned int i, probes;
	uint32_t state;

	for (i = 0; i <= MAX_CALLS; i++)
		at = (at ^ calls[i]) * UINT64_C(0x9e3779b97f4a7c15);
	at >>= 32;
	for (probes = 0; probes < PROBES; probes++, at++) {
		struct way *way = &ways[at % MAX_WAYS];

		if (at % MAX_WAYS == 0)
			continue;
		state = __atomic_load_n(&way->state, __ATOMIC_ACQUIRE);
		if (state == IS_EMPTY &&
			__atomic_compare_exchange_n(&way->state, &state, IS_WRITTEN, 0,
				__ATOMIC_ACQUIRE, __ATOMIC_ACQUIRE)) {
			memcpy(way->calls, calls, sizeof(way->calls));
			__atomic_store_n(&way->state, IS_THERE, __ATOMIC_RELEASE);
			return at % MAX_WAYS;
		}
		if (state == IS_THERE && memcmp(way->calls, calls, sizeof(way->calls)) == 0)
			return at % MAX_WAYS;
	}
	return 0;
}

/* ---- the calls on the way ---- */

/* A way that an lcore has come once: in which slots of its stack the return addresses lie, and which they are.
 * Of a place that is called from there again, by the same functions, they lie there again. */
struct known {
	const uintptr_t *slots[1 + MAX_CALLS];
	uintptr_t calls[1 + MAX_CALLS]; /* a byte before each, as in a way */
	unsigned int most;		/* calls that were asked for; 0 where nothing is known */
	uint32_t way;
};

/* Those of each lcore, and the thread that it is. (by thread-local memory a plugin might not be loaded) */
static struct {
	pthread_t thread;
	struct known ways[KNOWN];
} known_by[RTE_MAX_LCORE];

/* Where this way is known, or is to be noted; NULL for a thread without an lcore. */
static struct known *
known_at(const uintptr_t *slot, const void *return_address)
{
	const unsigned int lcore = rte_lcore_id();
	const uint64_t at = (uintptr_t)slot >> 4 ^ (uintptr_t)return_address;

	if (slot == NULL || lcore >= RTE_MAX_LCORE)
		return NULL;
	if (known_by[lcore].thread != pthread_self()) {
		memset(&known_by[lcore], 0, sizeof(known_by[lcore]));
		known_by[lcore].thread = pthread_self();
	}
	return &known_by[lcore].ways[at % KNOWN];
}

/* (the slots lie in frames of this thread that are there still, as the first of them does) */
__attribute__((no_sanitize("address", "thread"))) static int
is_as_known(const struct known *k, const uintptr_t *slot, const void *return_address, unsigned int most)
{
	unsigned int i;

	if (k->most != most || k->slots[0] != slot || k->calls[0] + 1 != (uintptr_t)return_address)
		return 0;
	for (i = 1; i <= most && k->calls[i] != 0; i++)
		if (*k->slots[i] != k->calls[i] + 1)
			return 0;
	return 1;
}

struct unwinding {
	uintptr_t from; /* the return address that is looked for, then 0 */
	unsigned int most, n, own;
	struct known *found;
};

/* (a frame's CFA is here that of the one it called: in front of it lies where that returns to. A byte before
 * where a call returns to is still of the call, as addr2line wants it) */
__attribute__((no_sanitize("address", "thread"))) static _Unwind_Reason_Code
note_frame(struct _Unwind_Context *frame, void *arg)
{
	struct unwinding *u = arg;
	uintptr_t at = _Unwind_GetIP(frame);
	const uintptr_t *slot = (const uintptr_t *)_Unwind_GetCFA(frame) - 1;

	if (u->n == 0 && at != u->from)
		return u->own++ < OWN_CALLS ? _URC_NO_REASON : _URC_END_OF_STACK;
	if (at == 0 || *slot != at)
		u->found->most = 0;
	if (at == 0)
		return _URC_END_OF_STACK;
	u->found->slots[u->n] = slot;
	u->found->calls[u->n++] = at - 1;
	return u->n <= u->most ? _URC_NO_REASON : _URC_END_OF_STACK;
}

/* Unwinds the stack from where a call returns to. (where that isn't found, it alone is the way) */
static void
unwind(const void *return_address, unsigned int most, const uintptr_t *slot, struct known *found)
{
	struct unwinding u = { (uintptr_t)return_address, most, 0, 0, found };

	memset(found, 0, sizeof(*found));
	found->most = slot != NULL ? most : 0;
	_Unwind_Backtrace(note_frame, &u);
	if (u.n == 0 || found->slots[0] != slot)
		found->most = 0;
	found->calls[0] = (uintptr_t)return_address - 1;
	found->way = number_of(found->calls);
}

uint32_t
call_place(const void *return_address, unsigned int most, const uintptr_t *slot)
{
	uintptr_t alone[1 + MAX_CALLS] = { (uintptr_t)return_address - 1 };
	struct known *k, unknown;

	if (most == 0)
		return number_of(alone);
	k = known_at(slot, return_address);
	if (k == NULL)
		k = &unknown;
	if (k == &unknown || !is_as_known(k, slot, return_address, most))
		unwind(return_address, most, slot, k);
	return k->way;
}

const uintptr_t *
call_place_calls(uint32_t way)
{
	if (way == 0 || way >= MAX_WAYS || ways == NULL ||
		__atomic_load_n(&ways[way].state, __ATOMIC_ACQUIRE) != IS_THERE)
		return NULL;
	return ways[way].calls;
}

/* ---- text ---- */

const char *
caller_lcore_text(caller by, char *text)
{
	caller who = by >> WAY_BITS;

	if (who < 2)
		snprintf(text, CALL_TEXT, "no lcore");
	else
		snprintf(text, CALL_TEXT, "lcore %" PRIu32, who - 2);
	return text;
}

/* (an address of a file that isn't loaded any more stays a number) */
const char *
call_address_text(uintptr_t address, char *text)
{
	const char *name;
	struct link_map *module;
	Dl_info info;

	if (dladdr1((void *)address, &info, (void **)&module, RTLD_DL_LINKMAP) == 0) {
		snprintf(text, CALL_TEXT, "0x%" PRIxPTR, address);
		return text;
	}
	name = strrchr(info.dli_fname, '/');
	snprintf(text, CALL_TEXT, "%.70s+0x%" PRIxPTR, name != NULL ? name + 1 : info.dli_fname,
		address - module->l_addr);
	return text;
}

/* (the longest of it fits into PLACE_TEXT) */
const char *
caller_place_text(caller by, char *text)
{
	const uintptr_t *calls = call_place_calls(by & (MAX_WAYS - 1));
	char call[CALL_TEXT];
	size_t length;
	unsigned int i;

	if (calls == NULL) {
		snprintf(text, PLACE_TEXT, "a place beyond the %" PRIu32 " that are kept", MAX_WAYS - 1);
		return text;
	}
	length = snprintf(text, PLACE_TEXT, "%s", call_address_text(calls[0], call));
	for (i = 1; i <= MAX_CALLS && calls[i] != 0; i++)
		length += snprintf(text + length, PLACE_TEXT - length, "%s%s", i == 1 ? " (" : ", ",
			call_address_text(calls[i], call));
	if (i > 1)
		snprintf(text + length, PLACE_TEXT - length, ")");
	return text;
}
