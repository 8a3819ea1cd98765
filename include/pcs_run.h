/* The whole program pcs over memory as a C function, from the static library libpcs_run_c.a and the
 * kit's c/liblibc_c.a, through which it takes memory.
 *
 * It is proved to do what its comment says, for every value that C can give it. What is not proved, and
 * is the caller's part, is what include/pcs.h lists. It keeps nothing from one call to the next, so
 * any thread may call it at any time (but no two of them on the same array that is written).
 */
#ifndef PCS_RUN_H
#define PCS_RUN_H

#include <stddef.h>
#include <stdint.h>

#ifdef __cplusplus
extern "C" {
#endif

/* Runs the program on the words, its standard input being `input`. What it writes to standard output
 * is put at the front of `output`, *written octets, and its line on standard error at the front of
 * `line`, *noted octets with the newline and no zero after it; all that comes after them stays as it
 * was. Returns the exit status.
 *
 * `words` is the command and its options, without the program's name, each ended by a zero octet:
 * "report\0--skew\0" "64\0". The octets after the last zero, if there are any, are a word too. What is no
 * UTF-8 is answered by PCS_USAGE, as the program does.
 *
 * PCS_NO_ROOM is the status of a failed write: `output`, which has `room` octets, has none for all that
 * the program writes. A front of it is there; call again with more. PCS_NO_MEMORY means that malloc had
 * none; there is no text then. A call takes memory for the input once more, for `room` octets and for
 * what the program itself needs, and gives all of it back before it returns. */
uint8_t pcs_run(const uint8_t *words, size_t words_count, const uint8_t *input, size_t input_count,
                uint8_t *output, size_t room, size_t *written, uint8_t line[64], size_t *noted);

#define PCS_DONE 0
#define PCS_USAGE 2
#define PCS_NO_ROOM 4
#define PCS_NO_MEMORY 5

#ifdef __cplusplus
}
#endif
#endif
