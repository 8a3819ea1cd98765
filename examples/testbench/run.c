/* Frames to a capture and back, through the whole program. Returns 0 where they come back as they were.
 *     cc -O2 -I../../include run.c libpcs_run_c.a liblibc_c.a -o run
 */
#include <stdio.h>
#include <string.h>

#include "pcs_run.h"

static uint8_t capture[65536], text[4096], line[64];
static size_t captured, wrote, noted;

/* The words of a literal, each of which ends in \0. */
#define WORDS(literal) (const uint8_t *)(literal), sizeof(literal) - 1

int main(void)
{
    static const char frames[] = "2 0102030405\n2 deadbeef\n";
    int status = pcs_run(WORDS("encode\0--period\0" "4\0"), (const uint8_t *)frames, sizeof frames - 1,
                         capture, sizeof capture, &captured, line, &noted);
    printf("encode %d, %zu octets\n", status, captured);
    if (status != PCS_DONE)
        return 1;

    status = pcs_run(WORDS("decode\0"), capture, captured, text, sizeof text, &wrote, line, &noted);
    printf("decode %d, %.*s", status, (int)wrote, (const char *)text);
    int wrong = status != PCS_DONE || wrote != strlen("0102030405\ndeadbeef\n") || noted != 0;

    /* no room for the text */
    status = pcs_run(WORDS("decode\0"), capture, captured, text, 3, &wrote, line, &noted);
    printf("decode into 3 octets %d, %.*s", status, (int)noted, (const char *)line);
    wrong |= status != PCS_NO_ROOM || wrote != 3;

    /* the last word needs no zero; there is no such command */
    status = pcs_run(WORDS("nonsense"), text, 0, text, sizeof text, &wrote, line, &noted);
    printf("nonsense %d, %.*s", status, (int)noted, (const char *)line);
    return wrong || status != PCS_USAGE || wrote != 0;
}
