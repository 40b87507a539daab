/*
 * Dovrelzi: the device half of a virtqueue, for a small block device.
 *
 * Link with libdovrelzi.a. It needs memcpy and memset and nothing else: no function allocates, keeps anything between calls, or fails in
 * another way than by its answer. The rules that the functions follow are in docs/RULES.md; in short:
 *
 * A number in guest memory is two bytes, the lower first. A ring of n places takes 14 n + 4 bytes from `begins` on: n descriptors of four
 * numbers (address, length, flags, next); the available ring, a count and n heads; the used ring, a count and n entries of two numbers
 * (head, length of the response).
 *
 * What the caller owes
 *
 * Guest memory, state and contents may hold anything, and the numbers may be anything: what does not fit is refused. Of the pointers this
 * is owed, and nothing checks it:
 *
 *   - A pointer that is passed with a length other than 0 is not null, and as many elements as the length says may be read there, and
 *     written where the parameter is not const. With length 0 any pointer will do, a null pointer too.
 *   - `state` points at numbers that are aligned as any uint32_t.
 *   - `memory`, `state` and `kept` of one call do not overlap.
 *   - While a call runs nothing else reads or writes what `memory`, `state` and `kept` point at; of `const` memory it is enough that nothing
 *     else writes it. A guest is not to run meanwhile.
 *
 * Threads
 *
 * There are no global variables: calls on different threads are independent of each other, as long as they keep to the last rule.
 *
 * Stack
 *
 * A call takes less than 2 KB of stack, whatever it serves. This is read off the compiled code, not proved.
 */
#ifndef DOVRELZI_H
#define DOVRELZI_H

#include <stddef.h>
#include <stdint.h>

#ifdef __cplusplus
extern "C" {
#endif

/* The cases of an answer, `kind` below. */
#define DOVRELZI_SERVED 0u  /* served as asked; `value` is how many chains still wait */
#define DOVRELZI_STOPPED 1u /* the device has stopped, in this call or before; `value` is 0 */
#define DOVRELZI_ANEW 2u    /* the device was reset; `value` is 0 */
#define DOVRELZI_REFUSED 3u /* nothing was done or changed; `value` is the number of the refusal */

/* The refusals: the first of these that applies. */
#define DOVRELZI_REFUSED_RING 1u  /* places other than 1, 2, 4, 8, 16, 32 or 64; a ring not wholly in memory; memory of more than 65,536 bytes */
#define DOVRELZI_REFUSED_STATE 2u /* state that is not two numbers, the first below 65,536, the second 0 or 1 */
#define DOVRELZI_REFUSED_KEPT 3u  /* contents of more than 4,096 bytes */
#define DOVRELZI_REFUSED_TIMES 4u /* more than 1,000 servings in one call */

/* The limits. */
#define DOVRELZI_MAX_PLACES 64u
#define DOVRELZI_MAX_MEMORY 65536u
#define DOVRELZI_MAX_KEPT 4096u
#define DOVRELZI_MAX_TIMES 1000u

/* What serving or a reset answers. */
typedef struct DovrelziDone {
    uint32_t kind;  /* DOVRELZI_SERVED, _STOPPED, _ANEW or _REFUSED */
    uint64_t value; /* a number that goes with it */
} DovrelziDone;

/* Where a descriptor's part of guest memory lies. */
typedef struct DovrelziPart {
    uint32_t present; /* 1 if there is such a part, else 0, and then the others are 0 */
    uint64_t at;      /* the address of its first byte in guest memory */
    uint64_t len;     /* how many bytes it has; 0 is possible */
} DovrelziPart;

/*
 * Serves the chains that wait in a ring, at most `times` of them.
 *
 *   places, begins     how many descriptors the ring has, and where in memory it begins
 *   memory, memory_len guest memory
 *   state, state_len   the device's state, two numbers: how many chains it has served, modulo 65,536, and 1 if it has stopped. A new
 *                      device has 0 and 0
 *   kept, kept_len     the device's contents, in blocks of sixteen bytes
 *   times              how many servings
 *
 * Answers DOVRELZI_SERVED, DOVRELZI_STOPPED or DOVRELZI_REFUSED, with any of the four refusals.
 *
 * Changed are, of each chain that is served: bytes in the parts of its writable descriptors, its used entry (4 bytes) and the used count
 * (2 bytes); both numbers of the state; and the contents, where a request writes a block. A chain that is bad or may not be served stops
 * the device and changes nothing but the state's second number. A refusal changes nothing.
 */
DovrelziDone dovrelzi_serve(uint64_t places, uint64_t begins, uint8_t *memory, size_t memory_len, uint32_t *state, size_t state_len,
                            uint8_t *kept, size_t kept_len, uint64_t times);

/*
 * Resets the device: both numbers of the state become 0, whatever they are. The contents stay with the caller, unchanged.
 *
 * Answers DOVRELZI_ANEW, or DOVRELZI_REFUSED with DOVRELZI_REFUSED_STATE where state_len is not 2; then nothing is changed.
 */
DovrelziDone dovrelzi_begin_anew(uint32_t *state, size_t state_len);

/*
 * Where the part of memory lies that descriptor `at` names: the address and the length that it says. There is none where the ring is one
 * that dovrelzi_serve refuses, `at` is none of its descriptors, or the part is not wholly in memory. A part of no bytes is present, with
 * length 0, where it lies in memory or at its end. A part may lie over the ring: only serving asks that it does not.
 *
 * Changes nothing.
 */
DovrelziPart dovrelzi_piece(uint64_t places, uint64_t begins, const uint8_t *memory, size_t memory_len, uint64_t at);

#ifdef __cplusplus
}
#endif

#endif
