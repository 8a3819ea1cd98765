/* For Icarus Verilog and any simulator with VPI alone: two system tasks over libpcs_c.a. Another function
 * of pcs.h is bound in the same way: read its arguments' bits, call it, put the bits back.
 *     $pcs_rs_encode(message, parity);   message: 5140 bits, place k is bits 10k to 10k + 9; parity: 300 bits
 *     $pcs_scramble(line, wide);         line: 58 bits, bit 57 the newest; wide: 257 bits; both are replaced
 */
#include <stdint.h>
#include <string.h>
#include <vpi_user.h>

#include "pcs.h"

enum { WORDS = (5140 + 31) / 32 };

/* The bits of an argument, 32 a word. Bits x and z are read as 0 and counted. */
static int get_bits(vpiHandle from, uint32_t *words, int count)
{
    s_vpi_value value = {.format = vpiVectorVal};
    int unknown = 0;
    vpi_get_value(from, &value);
    memset(words, 0, 4 * (size_t)count);
    for (int i = 0; i < count && i < (vpi_get(vpiSize, from) + 31) / 32; i++) {
        unknown |= value.value.vector[i].bval != 0;
        words[i] = (uint32_t)(value.value.vector[i].aval & ~value.value.vector[i].bval);
    }
    return unknown;
}

static void put_bits(vpiHandle to, const uint32_t *words, int count)
{
    s_vpi_vecval vector[WORDS];
    s_vpi_value value = {.format = vpiVectorVal, .value.vector = vector};
    for (int i = 0; i < count; i++)
        vector[i] = (s_vpi_vecval){.aval = (PLI_INT32)words[i], .bval = 0};
    vpi_put_value(to, &value, NULL, vpiNoDelay);
}

static uint32_t ten(const uint32_t *words, int place)
{
    int at = 10 * place;
    uint64_t two = words[at / 32] | (uint64_t)(at / 32 + 1 < WORDS ? words[at / 32 + 1] : 0) << 32;
    return (uint32_t)(two >> at % 32) & 1023;
}

static int arguments(vpiHandle *first, vpiHandle *second, int first_size, int second_size)
{
    vpiHandle call = vpi_handle(vpiSysTfCall, NULL);
    vpiHandle all = vpi_iterate(vpiArgument, call);
    *first = all ? vpi_scan(all) : NULL;
    *second = *first ? vpi_scan(all) : NULL;
    if (*second && vpi_get(vpiSize, *first) == first_size && vpi_get(vpiSize, *second) == second_size) {
        if (vpi_scan(all) == NULL)
            return 1;
    }
    vpi_printf("pcs: %s wants %d and %d bits\n", vpi_get_str(vpiName, call), first_size, second_size);
    vpi_control(vpiFinish, 1);
    return 0;
}

static PLI_INT32 rs_encode(PLI_BYTE8 *unused)
{
    vpiHandle from, to;
    uint32_t bits[WORDS], ends[10] = {0};
    uint16_t message[514], parity[30];
    (void)unused;
    if (!arguments(&from, &to, 5140, 300))
        return 0;
    if (get_bits(from, bits, WORDS))
        vpi_printf("pcs: $pcs_rs_encode: unknown bits in the message\n");
    for (int i = 0; i < 514; i++)
        message[i] = (uint16_t)ten(bits, i);
    pcs_rs_encode(message, parity);
    for (int k = 0; k < 300; k++)
        ends[k / 32] |= (uint32_t)(parity[k / 10] >> k % 10 & 1) << k % 32;
    put_bits(to, ends, 10);
    return 0;
}

static PLI_INT32 scramble(PLI_BYTE8 *unused)
{
    vpiHandle line, wide;
    uint32_t state[2], bits[9];
    uint64_t words[5] = {0}, held;
    (void)unused;
    if (!arguments(&line, &wide, 58, 257))
        return 0;
    if (get_bits(line, state, 2) | get_bits(wide, bits, 9))
        vpi_printf("pcs: $pcs_scramble: unknown bits\n");
    held = state[0] | (uint64_t)state[1] << 32;
    for (int i = 0; i < 9; i++)
        words[i / 2] |= (uint64_t)bits[i] << 32 * (i % 2);
    pcs_scramble(&held, words);
    for (int i = 0; i < 9; i++)
        bits[i] = (uint32_t)(words[i / 2] >> 32 * (i % 2));
    state[0] = (uint32_t)held;
    state[1] = (uint32_t)(held >> 32);
    put_bits(line, state, 2);
    put_bits(wide, bits, 9);
    return 0;
}

static void announce(void)
{
    s_vpi_systf_data tasks[] = {
        {.type = vpiSysTask, .tfname = "$pcs_rs_encode", .calltf = rs_encode},
        {.type = vpiSysTask, .tfname = "$pcs_scramble", .calltf = scramble},
    };
    for (unsigned i = 0; i < sizeof tasks / sizeof *tasks; i++)
        vpi_register_systf(&tasks[i]);
}

void (*vlog_startup_routines[])(void) = {announce, 0};
