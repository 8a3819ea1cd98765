/* Four columns to a scrambled wide and back, a pair with a damaged lane, and a codeword with fifteen
 * wrong symbols. Returns 0 where all is as it should be.
 *     cc -O2 -I../../include example.c libpcs_c.a -o example
 */
#include <inttypes.h>
#include <stdio.h>
#include <string.h>

#include "pcs.h"

static int columns(void)
{
    static const uint8_t start[8] = {0x55, 0x55, 0x55, 0x55, 0x55, 0x55, 0xd5};
    static const uint8_t end[8] = {1, 2, 3};
    static const uint8_t none[8];
    uint8_t controls[4], same[4], kind, count, octets[8];
    uint64_t payloads[4], again[4], wide[5], sending = PCS_LINE_START, receiving = PCS_LINE_START;

    int wrong = pcs_encode_block(PCS_IDLE, 0, none, &controls[0], &payloads[0])
        | pcs_encode_block(PCS_START, 0, start, &controls[1], &payloads[1])
        | pcs_encode_block(PCS_END, 3, end, &controls[2], &payloads[2])
        | pcs_encode_block(PCS_IDLE, 0, none, &controls[3], &payloads[3])
        | pcs_join(controls, payloads, wide);
    for (int k = 0; k < 4; k++)
        printf("block %d %016" PRIx64 "\n", controls[k], payloads[k]);
    pcs_scramble(&sending, wide);
    printf("wide %" PRIx64, wide[4]);
    for (int k = 3; k >= 0; k--)
        printf("%016" PRIx64, wide[k]);

    pcs_descramble(&receiving, wide);
    wrong |= pcs_split(wide, same, again) | (receiving != sending);
    wrong |= memcmp(again, payloads, sizeof again) != 0 || memcmp(same, controls, sizeof same) != 0;
    pcs_decode_block(same[2], again[2], &kind, &count, octets);
    printf("\ncolumn %d of %d: %02x%02x%02x\n", kind, count, octets[0], octets[1], octets[2]);
    return wrong || kind != PCS_END || count != 3;
}

static int pair(void)
{
    static uint64_t wides[40][5], again[40][5];
    static uint8_t beats[85][16];
    uint8_t counts[2], levels[16] = {0}, last[16], beat[16];
    uint16_t lanes[16];
    int wrong = 0;

    pcs_group(0, wides);
    for (int i = 8; i < 40; i++)
        for (int k = 0; k < 4; k++)
            wides[i][k] = UINT64_C(0x9e3779b97f4a7c15) * (unsigned)(5 * i + k);
    pcs_encode_pair(wides, beats);
    for (int b = 0; b < 85; b++) {
        memcpy(last, levels, sizeof last);
        pcs_encode_levels(1, beats[b], levels);
        pcs_decode_levels(1, last, levels, beat);
        wrong |= memcmp(beat, beats[b], sizeof beat) != 0;
    }
    for (int b = 0; b < 10; b++)
        beats[b][7] ^= 0xff; /* eighty bits of lane 7 are eight symbols */
    wrong |= pcs_decode_pair(beats, again, counts, lanes);
    printf("pair: %d and %d wrong symbols, %d in lane 7\n", counts[0], counts[1], lanes[7]);
    return wrong || lanes[7] != 8 || counts[0] + counts[1] != 8 || memcmp(wides, again, sizeof wides) != 0;
}

static int codeword(void)
{
    static uint16_t sent[544], word[544];
    for (int i = 30; i < 544; i++)
        sent[i] = (uint16_t)(i * 37 % 1024);
    pcs_rs_encode(sent + 30, sent); /* the parity has the places below the message */
    memcpy(word, sent, sizeof word);
    for (int i = 0; i < 15; i++)
        word[i * 36] ^= (uint16_t)(1 + i);
    int corrected = pcs_rs_correct(word);
    int wrong = corrected != 15 || memcmp(word, sent, sizeof word) != 0;
    for (int i = 0; i < 16; i++)
        word[i * 33] ^= 0x155;
    int none = pcs_rs_correct(word);
    printf("corrected %d, then %d\n", corrected, none);
    return wrong || none != PCS_NO_CODEWORD;
}

int main(void)
{
    return columns() | pair() | codeword();
}
