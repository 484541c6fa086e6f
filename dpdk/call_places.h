/* call_places.h - who calls a mempool handler, and where in the code, as one number; and that as text. */
#ifndef MBUFPOOL_CALL_PLACES_H
#define MBUFPOOL_CALL_PLACES_H
#include <stdint.h>

#include <rte_common.h>
#include <rte_lcore.h>

#define MAX_CALLS 4	/* on the way to a place */
#define CALL_TEXT 96	/* bytes of an address as text */
#define PLACE_TEXT 512	/* of a place in the code, with the calls on the way to it */

/* Who calls, and where, as one number that isn't 0: the lcore and 2, or 1 for a thread without one, above 16
 * bits of the number that the place in the code has. */
typedef uint32_t caller;

#define WAY_BITS 16
#define MAX_WAYS (UINT32_C(1) << WAY_BITS)

static __rte_always_inline caller
caller_of(unsigned int lcore, uint32_t way)
{
	return (caller)(lcore == LCORE_ID_ANY ? 1 : lcore + 2) << WAY_BITS | way;
}

/* Says whether there is memory for the places, and takes it the first time. */
int call_places_begin(void);

/* Where a function's return address lies on the stack, for a function that isn't in line. */
#define RETURN_SLOT() ((const uintptr_t *)__builtin_frame_address(0) + 1)

/* The slot of a return address, if it is that of the function that another went on with: not where it is
 * compiled so that it calls it. */
static inline const uintptr_t *
slot_of(const void *return_address, const uintptr_t *slot)
{
	return *slot == (uintptr_t)return_address ? slot : NULL;
}

/* The number of the place that a call returns to, with so many calls on the way to it. Where that isn't 0 it
 * unwinds the stack, which takes some microseconds; or less where it did so before from the same place: that is
 * known where it is said in which slot of the stack the return address lies, which may be NULL. It is 0 where
 * there is no number left. */
uint32_t call_place(const void *return_address, unsigned int calls, const uintptr_t *slot);

/* The addresses of a place, 0 behind the last: of the place itself, and of the calls on the way to it. NULL
 * for the number 0. */
const uintptr_t *call_place_calls(uint32_t way);

/* Writes a place in the code as MODULE+0xOFFSET, as addr2line -e MODULE 0xOFFSET takes it, into PLACE_TEXT
 * bytes, and answers them; with the calls on the way to it behind it, as "app+0x8aa8 (app+0x273b,
 * app+0x2401)". */
const char *caller_place_text(caller by, char *text);

/* The same of one address, without the calls, into CALL_TEXT bytes. */
const char *call_address_text(uintptr_t address, char *text);

/* Writes "lcore 3" or "no lcore" into CALL_TEXT bytes, and answers them. */
const char *caller_lcore_text(caller by, char *text);

#endif
