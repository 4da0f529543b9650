/* Judges a merging certificate: the whole verdict, and the two questions that it is put together from.
 *
 * Link with the archive that `tests/archive target/staticlib` writes, target/staticlib/libchecker.a (x86-64 Linux).
 * The functions are proved to be safe for every input. `mergecheck` writes nothing into an answer buffer under MERGECHECK_BUFFER bytes,
 * and otherwise the answer's own bytes and no others; the two others fill every field of the answer that they are lent. Nothing is
 * asked of the caller but that the file is memory that may be read, that what is lent for the answer may be written, and that the two do
 * not overlap. A call needs at most 512 KB of stack: bindings/rust/tests/stack.rs calls each function on a thread with exactly that much. */
#ifndef MERGECHECK_H
#define MERGECHECK_H

#include <stddef.h>
#include <stdint.h>

#ifdef __cplusplus
extern "C" {
#endif

/* The least answer buffer. Every answer is shorter. */
#define MERGECHECK_BUFFER 128

/* Judges the certificate in `file` and writes the eight lines of its answer to the start of `out`.
 * Returns the refusal's number (0 when not malformed) times 256, plus the answer's length. */
uint64_t mergecheck(const uint8_t *file, size_t file_length, uint8_t *out, size_t out_length);

/* The two parts of what mergecheck returns. */
static inline unsigned mergecheck_refusal(uint64_t result) { return (unsigned)(result / 256); }
static inline size_t mergecheck_length(uint64_t result) { return (size_t)(result % 256); }

/* What a class, a state, a rule or an entry of x is where there is nothing to say. A refusal, a line and a count are 0 then. */
#define MERGECHECK_NOTHING 255

/* Does a final pair share a tree? */
#define MERGECHECK_NONE_SHARED 0
#define MERGECHECK_SHARED 1
#define MERGECHECK_SHARING_MALFORMED 2

struct mergecheck_shared {
    uint32_t refusal;     /* malformed: 2 to 11 */
    uint32_t line;        /* malformed: from 1, and 0 for refusal 2 */
    uint32_t final_class; /* shared: the first final class that shares a tree with a final state of B */
    uint32_t bad_state;   /* shared: the first such state of B */
};

/* Fills `answer` and returns its kind, one of the three above. */
uint32_t mergecheck_sharing(const uint8_t *file, size_t file_length, struct mergecheck_shared *answer);

/* Is there a critical pair within the budget? Judged for an unsuitable merging too: closed says nothing of the bad automaton. */
#define MERGECHECK_CLOSED 0
#define MERGECHECK_CRITICAL 1
#define MERGECHECK_STOPPED 2
#define MERGECHECK_CLOSURE_MALFORMED 3

struct mergecheck_closed {
    uint32_t refusal;       /* malformed: 2 to 11 */
    uint32_t line;          /* malformed: from 1, and 0 for refusal 2 */
    uint32_t rule;          /* critical: from 0 */
    uint32_t x[4];          /* critical: the classes of x0, x1, ..; ends at the first MERGECHECK_NOTHING */
    uint32_t missing_class; /* critical: the class that the left side has and the right side has not */
    uint32_t examined;      /* closed: the total; critical: the place of the substitution, from 1; stopped: the budget */
};

/* Fills `answer` and returns its kind, one of the four above. */
uint32_t mergecheck_closure(const uint8_t *file, size_t file_length, struct mergecheck_closed *answer);

#ifdef __cplusplus
}
#endif

#endif
