/*
 * Prints the level 2 trims of a wrapped payload: a line for each block, its numbers as the shader gets them. Of one that is refused it
 * prints the number, where, at which bit of the data or at which byte of the wrapper, and which element is at fault. The payload is
 * given as hex bytes, or on standard input:
 *
 *   $ ./trims B5 00 31 47 41 39 34 09 5A 18 05 00 1F FE 00 00 02 80 18 01 FF F0
 *   target=0.5 slope=0.999755859 offset=0 power=0.000244140625 chroma=0.25 saturation=0.75 ms=-0.000244140625
 *   $ ./trims < samples/repeated-target.t35
 *   refused: 11, at bit 111, target_max_PQ
 *   $ ./trims B5003
 *   trims: 'B5003' has an odd number of digits
 *
 * Status 0: the payload is accepted. 1: it is refused. 2: there is none to read. README.md says how this is compiled and linked.
 */
#include <stdint.h>
#include <stdio.h>
#include <string.h>

#include "pimlasut.h"

/* A payload that is accepted has at most PIM_LONGEST_WRAPPED; with one byte more, what is too long is seen to be so. */
static uint8_t payload[PIM_LONGEST_WRAPPED + 1];

/* The value of a hex digit, or -1. */
static int digit(char c)
{
    static const char digits[] = "0123456789abcdef0123456789ABCDEF";
    const char *at = strchr(digits, c);
    return at ? (int)((at - digits) % 16) : -1;
}

/* An argument has two hex digits for each of its bytes. */
static int from_arguments(int count, char **arguments, size_t *n)
{
    for (int i = 1; i < count; i++) {
        const char *hex = arguments[i];
        size_t digits = strlen(hex);
        for (size_t at = 0; at < digits; at++)
            if (digit(hex[at]) < 0) {
                fprintf(stderr, "trims: '%s' has a '%c', which is no hex digit\n", hex, hex[at]);
                return 0;
            }
        if (digits % 2 != 0) {
            fprintf(stderr, "trims: '%s' has an odd number of digits\n", hex);
            return 0;
        }
        for (size_t at = 0; at < digits && *n < sizeof payload; at += 2)
            payload[(*n)++] = (uint8_t)(16 * digit(hex[at]) + digit(hex[at + 1]));
    }
    return 1;
}

static int from_input(size_t *n)
{
    *n = fread(payload, 1, sizeof payload, stdin);
    if (ferror(stdin)) {
        fprintf(stderr, "trims: standard input cannot be read\n");
        return 0;
    }
    return 1;
}

static float single(uint32_t bits)
{
    float number;
    memcpy(&number, &bits, sizeof number);
    return number;
}

static const char *const element_names[PIM_ELEMENTS] = PIM_ELEMENT_NAMES;

int main(int count, char **arguments)
{
    size_t n = 0;
    if (!(count > 1 ? from_arguments(count, arguments, &n) : from_input(&n)))
        return 2;
    int32_t record[PIM_RECORD_LEN];
    uint32_t reading[PIM_READING_LEN];
    uint32_t result = pim_read_wrapped(payload, n, record, PIM_RECORD_LEN, reading, PIM_READING_LEN);
    if (result != PIM_DONE) {
        printf("refused: %u, at %s %u, %s\n", (unsigned)result, reading[PIM_READING_IN_WRAPPER] ? "byte" : "bit",
               (unsigned)reading[PIM_READING_OFFSET], element_names[reading[PIM_READING_ELEMENT]]);
        return 1;
    }
    for (int i = 0; i < record[1]; i++) {
        uint32_t bits[PIM_SHADER_LEN];
        if (pim_shader(&record[PIM_PLACE(i)], PIM_PLACE_LEN, bits, PIM_SHADER_LEN) != PIM_DONE)
            continue; /* a block of another level */
        printf("target=%.9g slope=%.9g offset=%.9g power=%.9g chroma=%.9g saturation=%.9g ms=%.9g\n", single(bits[0]), single(bits[1]),
               single(bits[2]), single(bits[3]), single(bits[4]), single(bits[5]), single(bits[6]));
    }
    return 0;
}
