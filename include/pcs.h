/* The layers of pcs as C functions, from the static library libpcs_c.a.
 *
 * Each function is proved to do what its comment says, for every value that C can give it. What is
 * not proved, and is the caller's part:
 *   - a pointer is not null, is aligned for its type, and leads to as many values as the array says;
 *   - what is written to overlaps nothing else that is passed in the same call;
 *   - these declarations fit the library, which nothing checks.
 * No function takes memory, keeps anything from one call to the next, or calls anything but memcpy,
 * memmove and memset, so any thread may call any of them at any time (but no two of them on the same array).
 *
 * A wide is a 256B/257B block: bit i is bit i % 64 of word i / 64, and of word 4 only bit 0 counts;
 * bit 0 travels first. A symbol is ten bits; of a number that is given as a symbol the ten lowest
 * bits count. What is written is exact: word 4 of a wide is 0 or 1, a symbol is below 1024.
 */
#ifndef PCS_H
#define PCS_H

#include <stdint.h>

#ifdef __cplusplus
extern "C" {
#endif

/* The kinds of columns. The octets of a column are the first ones of its eight: 8 of DATA, 7 of
 * START (those after the start code), `count` of END (0 to 7), 3 of SET, none of IDLE and ERROR. */
enum { PCS_DATA = 0, PCS_START = 1, PCS_END = 2, PCS_IDLE = 3, PCS_ERROR = 4, PCS_SET = 5 };

/* The 64B/66B block of a column: *control is 1 for the sync bits 10 and 0 for 01; bit 0 of *payload
 * travels first. Only an END reads `count`. Returns 1, and writes nothing, where there is no such
 * kind or an END has more than 7 octets; else 0. */
uint8_t pcs_encode_block(uint8_t kind, uint8_t count, const uint8_t octets[8],
                         uint8_t *control, uint64_t *payload);

/* The column of a block (a control of 0 is data, any other is control), and ERROR where it is no
 * column's: its kind, the number of its octets, and its octets with zeros after them. */
void pcs_decode_block(uint8_t control, uint64_t payload,
                      uint8_t *kind, uint8_t *count, uint8_t octets[8]);

/* Four blocks as a wide, which is not scrambled. Returns 1, and writes nothing, where the first
 * control block has none of the eleven block types; else 0. */
uint8_t pcs_join(const uint8_t controls[4], const uint64_t payloads[4], uint64_t wide[5]);

/* The four blocks of a wide, controls 0 or 1. Returns 1, and writes nothing, where it is no four
 * blocks' wide; else 0. */
uint8_t pcs_split(const uint64_t wide[5], uint8_t controls[4], uint64_t payloads[4]);

/* Scrambles a wide in place by 1 + x^39 + x^58, after the line bits in *line, and leaves there the
 * line bits after the wide: the 58 last ones, of which the newest is bit 57. Bits 58 to 63 don't
 * count, and are 0 at return. A line begins with all ones, PCS_LINE_START. */
void pcs_scramble(uint64_t *line, uint64_t wide[5]);
void pcs_descramble(uint64_t *line, uint64_t wide[5]);
#define PCS_LINE_START UINT64_C(0x3ffffffffffffff)

/* The fifteen octets of the alignment marker of a lane, as they travel. Returns 1, and writes nothing,
 * where there is no such lane (16 and above); else 0. */
uint8_t pcs_marker(uint8_t lane, uint8_t octets[15]);

/* The eight wides of a group of alignment markers, which are not scrambled. Groups are counted from 0;
 * they differ in their pad bits, which come again after 73 groups. */
void pcs_group(uint64_t number, uint64_t wides[8][5]);

/* The parity of a message of RS(544,514). The place of a symbol in an array is its power of x in the
 * message: message[513] is the first that travels; a codeword is parity[0..29] and then message. */
void pcs_rs_encode(const uint16_t message[514], uint16_t parity[30]);

/* Puts in the word's place the codeword that differs from it in at most 15 symbols, and returns in how
 * many. Returns PCS_NO_CODEWORD where there is none; the word is then as it was, but for bits
 * above the tenth, which are 0 at any return. */
uint8_t pcs_rs_correct(uint16_t word[544]);
#define PCS_NO_CODEWORD 255

/* The same for RS(528,514): 14 symbols of parity, and at most 7 wrong symbols. */
void pcs_kr_encode(const uint16_t message[514], uint16_t parity[14]);
uint8_t pcs_kr_correct(uint16_t word[528]);

/* The 85 beats of a pair of codewords that carries these forty wides, wides[0] first. Octet l of a
 * beat is that of lane l, and its bit 0 travels first. A pair with a group has the wides of the group
 * as its first eight; all others are to be scrambled. `wides` is only read. (Before C23 an array of
 * arrays can't be passed as one of const arrays, so const isn't written here and below.) */
void pcs_encode_pair(uint64_t wides[40][5], uint8_t beats[85][16]);

/* The way back, with both codewords corrected: counts[0] and counts[1] are the wrong symbols of
 * codewords A and B, or PCS_NO_CODEWORD; wrong[l] is how many symbols of lane l were replaced. The
 * wides are those of the corrected codewords. Returns 0; or 1 where one of the two has no codeword
 * within 15 symbols, and the wides are then zeros. `beats` is only read. */
uint8_t pcs_decode_pair(uint8_t beats[85][16], uint64_t wides[40][5],
                        uint8_t counts[2], uint16_t wrong[16]);

/* The PAM4 levels of a beat. Level lane j carries lanes 2j and 2j + 1 by turns, a bit of each in a
 * level; its eight levels are octets 2j and 2j + 1, two bits a level, the first level lowest. `levels`
 * comes with the level beat before, zeros at a start, and leaves with that of the beat. With a
 * `precode` of 0 the levels are the Gray numbers themselves; with any other they are precoded. */
void pcs_encode_levels(uint8_t precode, const uint8_t beat[16], uint8_t levels[16]);

/* The way back: the beat of a level beat that comes after `last`, zeros at a start. */
void pcs_decode_levels(uint8_t precode, const uint8_t last[16], const uint8_t levels[16],
                       uint8_t beat[16]);

#ifdef __cplusplus
}
#endif
#endif
