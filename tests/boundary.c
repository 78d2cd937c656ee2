/* The C boundary, called as C calls it: the types and the calls of include/pimlasut.h are those of the archive. */
#include <stdint.h>
#include <stdio.h>
#include <string.h>

#include "pimlasut.h"

static int failed;

static void expect(int holds, const char *what)
{
    if (!holds) {
        printf("%s\n", what);
        failed = 1;
    }
}

/* A level 1 and a level 2 block, and their payload, worked out by hand. */
static const int32_t two_blocks[PIM_RECORD_LEN] = {1, 2, 1, 0, 3072, 1024, 0, 0, 0, 0, 2, 2048, 4095, 1, 2, 3, 4, -1};
static const uint8_t payload[] = {0x5B, 0x30, 0x08, 0x00, 0x60, 0x02, 0x00, 0x00, 0xC0, 0x28, 0x00,
                                  0xFF, 0xF0, 0x01, 0x00, 0x20, 0x03, 0x00, 0x4F, 0xFF, 0x80};

static int32_t record[PIM_RECORD_LEN], old_record[PIM_RECORD_LEN];
static int32_t first[PIM_TABLE_LEN], second[PIM_TABLE_LEN], table[PIM_TABLE_LEN], old_table[PIM_TABLE_LEN], zeros[PIM_TABLE_LEN];
static uint8_t bytes[PIM_UNIT_LIMIT + 4], old_bytes[PIM_UNIT_LIMIT + 4];

/* The facts of a reading, between numbers that are not lent. */
static uint32_t facts[PIM_READING_LEN + 2];
static uint32_t *const reading = facts + 1;

static void fill_facts(void)
{
    for (int i = 0; i < PIM_READING_LEN + 2; i++)
        facts[i] = 7;
}

static int facts_are(uint32_t bits, uint32_t skipped, uint32_t offset, uint32_t in_wrapper)
{
    return facts[0] == 7 && reading[PIM_READING_BITS] == bits && reading[PIM_READING_SKIPPED] == skipped &&
           reading[PIM_READING_OFFSET] == offset && reading[PIM_READING_IN_WRAPPER] == in_wrapper && facts[PIM_READING_LEN + 1] == 7;
}

/* Why, of a refusal; and of what has no element at fault. */
static int cause_is(uint32_t element, uint32_t kind, uint32_t value, uint32_t lowest, uint32_t highest)
{
    return reading[PIM_READING_ELEMENT] == element && reading[PIM_READING_KIND] == kind && reading[PIM_READING_VALUE] == value &&
           reading[PIM_READING_VALUE_HIGH] == 0 && reading[PIM_READING_LOWEST] == lowest && reading[PIM_READING_HIGHEST] == highest;
}

static int without_a_cause(void)
{
    return cause_is(0, PIM_KIND_UNTOLD, 0, 0, 0);
}

/* Of an accepted reading; of a refusal in the data, at a bit; of one without a place. */
static int read_bits(uint32_t bits, uint32_t skipped)
{
    return facts_are(bits, skipped, 0, 0) && without_a_cause();
}

static int refused_at(uint32_t offset)
{
    return facts_are(0, 0, offset, 0);
}

static int refused_without_a_place(void)
{
    return facts_are(0, 0, 0, 0) && without_a_cause();
}

static int facts_as_they_were(void)
{
    for (int i = 0; i < PIM_READING_LEN + 2; i++)
        if (facts[i] != 7)
            return 0;
    return 1;
}

static void reading_and_writing(void)
{
    uint32_t written = 7;
    fill_facts();
    memset(bytes, 0xEE, sizeof bytes);
    expect(pim_write_wrapped(two_blocks, PIM_RECORD_LEN, bytes, sizeof bytes, &written) == 0, "write wrapped");
    expect(written == 8 + sizeof payload && bytes[written] == 0xEE, "the bytes written, and later ones stay");
    expect(memcmp(bytes, "\xB5\x00\x31\x47\x41\x39\x34\x09", 8) == 0 && memcmp(bytes + 8, payload, sizeof payload) == 0, "the payload");
    expect(pim_read_wrapped(bytes, written, record, PIM_RECORD_LEN, reading, PIM_READING_LEN) == 0, "read wrapped");
    expect(memcmp(record, two_blocks, sizeof record) == 0, "what was written is read");
    expect(read_bits(8 * (written - 8), 0), "bits read, without the wrapper, and nothing passed over");
    fill_facts();
    expect(pim_read_bare(bytes + 8, written - 8, record, PIM_RECORD_LEN, reading, PIM_READING_LEN) == 0, "read bare");
    expect(read_bits(8 * (written - 8), 0), "the same bits");
    memcpy(old_bytes, bytes, sizeof bytes);
    expect(pim_write_bare(two_blocks, PIM_RECORD_LEN, bytes, sizeof bytes, &written) == 0, "write bare");
    expect(memcmp(bytes, old_bytes + 8, written) == 0, "the same data bare");

    memset(record, 0x5A, sizeof record);
    memcpy(old_record, record, sizeof record);
    fill_facts();
    expect(pim_read_bare(bytes, written - 1, record, PIM_RECORD_LEN, reading, PIM_READING_LEN) == 1, "a byte is missing");
    expect(refused_at(148), "a refused reading says where, and its other facts are zeros");
    expect(memcmp(record, old_record, sizeof record) == 0, "and the record stays as it was");
}

typedef uint32_t reader(const uint8_t *in, size_t n, int32_t *record, size_t record_len, uint32_t *reading, size_t reading_len);

/* Lengths that are wrong get 13, before the input is looked at. The facts are zeros if they have their length. */
static void wrong_lengths(reader *read, const uint8_t *in, size_t n)
{
    memset(record, 0x5A, sizeof record);
    memcpy(old_record, record, sizeof record);
    fill_facts();
    expect(read(in, n, record, PIM_RECORD_LEN - 1, reading, PIM_READING_LEN) == PIM_SHORT && refused_without_a_place(), "145 numbers of a record");
    fill_facts();
    expect(read(in, n, record, 0, reading, PIM_READING_LEN) == PIM_SHORT && refused_without_a_place(), "no numbers of a record");
    fill_facts();
    expect(read(in, n, record, PIM_RECORD_LEN, reading, PIM_READING_LEN - 1) == PIM_SHORT && facts_as_they_were(), "a fact too few");
    expect(read(in, n, record, PIM_RECORD_LEN, reading, PIM_READING_LEN + 1) == PIM_SHORT && facts_as_they_were(), "a fact too many");
    expect(read(in, n, record, PIM_RECORD_LEN, reading, 0) == PIM_SHORT && facts_as_they_were(), "no facts");
    expect(read(in, n, record, PIM_RECORD_LEN - 1, reading, PIM_READING_LEN - 1) == PIM_SHORT && facts_as_they_were(), "both wrong");
    expect(memcmp(record, old_record, sizeof record) == 0, "a wrong length leaves the record as it was");
}

/* Read a bare payload, the same wrapped, and the same in a unit that needs no 03: the result, the bits read, the blocks passed over, and
   where, of a refusal. */
static void reads(const uint8_t *data, size_t n, const int32_t *expected, uint32_t result, uint32_t bits, uint32_t skipped, uint32_t offset,
                  const char *what)
{
    static const uint8_t before[] = {0x4E, 0x01, 0x04, 0x00, 0xB5, 0x00, 0x31, 0x47, 0x41, 0x39, 0x34, 0x09};
    memcpy(bytes, before, sizeof before);
    bytes[3] = 8 + n;
    memcpy(bytes + sizeof before, data, n);
    bytes[sizeof before + n] = 0x80;
    for (int i = 0; i < 3; i++) {
        memset(record, 0x5A, sizeof record);
        memcpy(old_record, record, sizeof record);
        fill_facts();
        uint32_t answer = i == 0   ? pim_read_bare(data, n, record, PIM_RECORD_LEN, reading, PIM_READING_LEN)
                          : i == 1 ? pim_read_wrapped(bytes + 4, 8 + n, record, PIM_RECORD_LEN, reading, PIM_READING_LEN)
                                   : pim_read_unit(bytes, sizeof before + n + 1, record, PIM_RECORD_LEN, reading, PIM_READING_LEN);
        expect(answer == result && facts_are(bits, skipped, offset, 0), what);
        expect(memcmp(record, result == 0 ? expected : old_record, sizeof record) == 0, what);
    }
}

/* 5A 81 80, and a level 1 block between two of the levels 0 and 255, which have a byte of ones and no byte. */
static const int32_t no_blocks[PIM_RECORD_LEN] = {1};
static const int32_t one_block[PIM_RECORD_LEN] = {1, 1, 1, 0, 3072, 1024};
static const uint8_t skipped_one[] = {0x5A, 0x81, 0x80};
static const uint8_t skipped_two[] = {0x59, 0x00, 0x40, 0x1F, 0xE6, 0x01, 0x00, 0x0C, 0x00, 0x40, 0x00, 0xFF, 0x80};
static const uint8_t without_them[] = {0x5A, 0x30, 0x08, 0x00, 0x60, 0x02, 0x00, 0x00};

static void reserved_blocks(void)
{
    uint32_t written = 7;
    reads(skipped_one, sizeof skipped_one, no_blocks, PIM_DONE, 24, 1, 0, "a reserved block alone");
    reads(skipped_two, sizeof skipped_two, one_block, PIM_DONE, 104, 2, 0, "reserved blocks around a known one");
    reads(without_them, sizeof without_them, one_block, PIM_DONE, 64, 0, 0, "the known one alone has the same record");
    reads(skipped_one, sizeof skipped_one - 1, NULL, PIM_PAST_END, 0, 0, 9, "a level without its last bit");
    reads(skipped_two, 4, NULL, PIM_PAST_END, 0, 0, 32, "a content that is cut short");
    reads((const uint8_t[]){0x58, 0x50}, 2, NULL, PIM_PAST_END, 0, 0, 16, "19 blocks announced, and none there");
    reads((const uint8_t[]){0x58, 0x0F, 0xF0}, 3, NULL, PIM_PAST_END, 0, 0, 24, "254 announced");
    reads((const uint8_t[]){0x58, 0x04, 0x00}, 3, NULL, PIM_MANY_BLOCKS, 0, 0, 5, "255 announced");
    reads((const uint8_t[]){0x5A, 0x00, 0x20, 0x08, 0x18}, 5, NULL, PIM_LENGTH, 0, 0, 8, "a length of 1,024, before the content");
    reads((const uint8_t[]){0x5A, 0x00, 0x20, 0x00, 0x18}, 5, NULL, PIM_PAST_END, 0, 0, 40, "a length of 1,023, and no content");
    expect(pim_read_bare(skipped_two, sizeof skipped_two, record, PIM_RECORD_LEN, reading, PIM_READING_LEN) == 0, "read, to be written");
    expect(pim_write_bare(record, PIM_RECORD_LEN, bytes, sizeof bytes, &written) == 0, "what is written of it");
    expect(written == sizeof without_them && memcmp(bytes, without_them, written) == 0, "has no reserved blocks");
}

/* 4,294,967,294, the largest number of a code, at each place that has one, and a 32nd zero; bare and behind the wrapper. */
static void big_numbers(void)
{
    static const struct {
        uint8_t data[10];
        size_t n;
        uint32_t result, offset;
        const char *what;
    } cases[] = {
        {{0x00, 0x00, 0x00, 0x01, 0xFF, 0xFF, 0xFF, 0xFE}, 8, PIM_IDENTIFIER, 0, "the largest app_identifier"},
        {{0x40, 0x00, 0x00, 0x00, 0x3F, 0xFF, 0xFF, 0xFF, 0xC0}, 9, PIM_VERSION, 3, "the largest app_version"},
        {{0x58, 0x00, 0x00, 0x00, 0x0F, 0xFF, 0xFF, 0xFF, 0xF0}, 9, PIM_MANY_BLOCKS, 5, "the largest num_ext_blocks"},
        {{0x5A, 0x00, 0x00, 0x00, 0x01, 0xFF, 0xFF, 0xFF, 0xFE, 0x02}, 10, PIM_LENGTH, 8, "the largest ext_block_length, of level 1"},
        {{0x5A, 0x00, 0x00, 0x00, 0x01, 0xFF, 0xFF, 0xFF, 0xFE}, 9, PIM_PAST_END, 71, "and without its level"},
        {{0x00, 0x00, 0x00, 0x00}, 4, PIM_LONG_CODE, 0, "a 32nd zero"},
        {{0x00, 0x00}, 2, PIM_PAST_END, 0, "sixteen zeros, and no more"},
    };
    static const uint8_t wrapper[] = {0xB5, 0x00, 0x31, 0x47, 0x41, 0x39, 0x34, 0x09};
    memcpy(bytes, wrapper, sizeof wrapper);
    for (size_t i = 0; i < sizeof cases / sizeof cases[0]; i++) {
        memcpy(bytes + 8, cases[i].data, cases[i].n);
        memset(record, 0x5A, sizeof record);
        memcpy(old_record, record, sizeof record);
        fill_facts();
        expect(pim_read_bare(bytes + 8, cases[i].n, record, PIM_RECORD_LEN, reading, PIM_READING_LEN) == cases[i].result, cases[i].what);
        expect(pim_read_wrapped(bytes, 8 + cases[i].n, record, PIM_RECORD_LEN, reading, PIM_READING_LEN) == cases[i].result, cases[i].what);
        expect(refused_at(cases[i].offset) && memcmp(record, old_record, sizeof record) == 0, cases[i].what);
    }
}

/* The wrapper cut behind n bytes, and with byte n changed: told by that byte, and marked. With all eight bytes it is the data that is missing. */
static void in_the_wrapper(void)
{
    for (uint32_t n = 0; n <= 8; n++) {
        memcpy(bytes, "\xB5\x00\x31\x47\x41\x39\x34\x09\x50", 9);
        fill_facts();
        expect(pim_read_wrapped(bytes, n, record, PIM_RECORD_LEN, reading, PIM_READING_LEN) == PIM_PAST_END, "a wrapper that is cut off");
        expect(n < 8 ? facts_are(0, 0, n, 1) : refused_at(0), "at the byte that is missing");
        bytes[n] ^= 0x01;
        fill_facts();
        expect(pim_read_wrapped(bytes, 9, record, PIM_RECORD_LEN, reading, PIM_READING_LEN) == (n < 8 ? PIM_WRAPPER : PIM_ZERO_BIT), "a wrong byte");
        expect(n < 8 ? facts_are(0, 0, n, 1) : refused_at(7), "at that byte");
    }
}

/* Why data is refused: the facts, of which the element has its name in the header, and the text, with just enough room and a byte less. */
static void why(void)
{
    static const char *const names[] = PIM_ELEMENT_NAMES;
    static const struct {
        const char *data;
        size_t n;
        uint32_t element, kind, value, lowest, highest;
        const char *text;
    } cases[] = {
        {"\x30", 1, 1, PIM_KIND_RANGE, 5, 1, 1, "result=4\noffset=0\nelement=app_identifier\nvalue=5\nallowed=1-1\n"},
        {"\x40\x00\x00\x00\x3F\xFF\xFF\xFF\xC0", 9, 2, PIM_KIND_RANGE, 4294967294u, 0, 0,
         "result=5\noffset=3\nelement=app_version\nvalue=4294967294\nallowed=0-0\n"},
        {"\x58\x04\x00", 3, 4, PIM_KIND_RANGE, 255, 0, 254, "result=6\noffset=5\nelement=num_ext_blocks\nvalue=255\nallowed=0-254\n"},
        {"\x51", 1, 5, PIM_KIND_RANGE, 1, 0, 0, "result=7\noffset=7\nelement=dm_alignment_zero_bit\nvalue=1\nallowed=0-0\n"},
        {"\x5A\x30\x10", 3, 6, PIM_KIND_RANGE, 5, 11, 11, "result=9\noffset=8\nelement=ext_block_length\nvalue=5\nallowed=11-11\n"},
        {"\x5A\x30\x0E\x00\x20\x04\x00\x00", 8, 10, PIM_KIND_RANGE, 2048, 3072, 1024,
         "result=10\noffset=8\nelement=avg_PQ\nvalue=2048\nallowed=none\n"},
        {"\x5B\x30\x08\x00\x60\x02\x00\x01\x80\x40\x1F\x01\xD3\x34\x00", 15, 7, PIM_KIND_OTHER, 1, 0, 0,
         "result=17\noffset=61\nelement=ext_block_level\nvalue=1\nallowed=other\n"},
        {"\x50\x00\x00", 3, 23, PIM_KIND_RANGE, 2, 0, 0, "result=12\noffset=8\nelement=end\nvalue=2\nallowed=0-0\n"},
        {"\x5A\x40\x7F", 3, 22, PIM_KIND_UNTOLD, 0, 0, 0, "result=1\noffset=24\nelement=ext_dm_alignment_zero_bit\n"},
        {"\x50", 1, 0, PIM_KIND_UNTOLD, 0, 0, 0, "result=0\n"},
    };
    expect(sizeof names / sizeof names[0] == PIM_ELEMENTS, "a name for each element");
    memcpy(bytes, "\xB5\x00\x31\x47\x41\x39\x34\x09", 8);
    for (size_t i = 0; i < sizeof cases / sizeof cases[0]; i++) {
        uint8_t out[PIM_WHY_BYTES];
        size_t n = strlen(cases[i].text);
        uint32_t written = 7;
        char name[64];
        memcpy(bytes + 8, cases[i].data, cases[i].n);
        fill_facts();
        pim_read_wrapped(bytes, 8 + cases[i].n, record, PIM_RECORD_LEN, reading, PIM_READING_LEN);
        expect(cause_is(cases[i].element, cases[i].kind, cases[i].value, cases[i].lowest, cases[i].highest), cases[i].text);
        memset(out, 0xEE, sizeof out);
        expect(pim_why_wrapped(bytes, 8 + cases[i].n, out, n, &written) == 0 && written == n && memcmp(out, cases[i].text, n) == 0 && out[n] == 0xEE, cases[i].text);
        memset(out, 0xEE, sizeof out);
        written = 7;
        expect(pim_why_wrapped(bytes, 8 + cases[i].n, out, n - 1, &written) == PIM_SHORT && written == 7 && out[0] == 0xEE, "no room for the text");
        snprintf(name, sizeof name, "element=%s\n", names[cases[i].element]);
        expect(cases[i].element == 0 || strstr(cases[i].text, name) != NULL, "the header's name is that of the text");
    }
}

/* A second level 1, a second level 5, a seventeenth level 2 whose target_max_PQ is new or not, and a target_max_PQ already met. */
static void repeats(void)
{
    static const struct {
        int level, blocks, other;
        uint32_t result, offset;
    } cases[] = {
        {1, 2, 0, PIM_SECOND_LEVEL_1, 8 + 53},
        {5, 2, 0, PIM_SECOND_LEVEL_5, 8 + 71},
        {2, 17, 16, PIM_SEVENTEENTH_LEVEL_2, 16 + 16 * 103},
        {2, 17, 0, PIM_SEVENTEENTH_LEVEL_2, 16 + 16 * 103},
        {2, 16, 0, PIM_REPEAT, 16 + 15 * 103},
    };
    static const struct {
        uint32_t code;
        int code_bits, content_bits;
    } levels[] = {{0, 0, 0}, {6, 5, 40}, {12, 7, 88}, {0, 0, 0}, {0, 0, 0}, {8, 7, 56}};
    for (size_t i = 0; i < sizeof cases / sizeof cases[0]; i++) {
        int level = cases[i].level, blocks = cases[i].blocks;
        size_t at = blocks == 2 ? 8 : 16;
        memset(bytes, 0, sizeof bytes);
        /* 010 1 1, then the code of the number of blocks: 011, 000010001 or 000010010 */
        bytes[0] = blocks == 2 ? 0x5B : 0x58;
        bytes[1] = blocks == 2 ? 0 : blocks == 16 ? 0x44 : 0x48;
        for (int block = 0; block < blocks; block++) {
            uint64_t head = (uint64_t)levels[level].code << 8 | (uint64_t)level;
            uint32_t first_field = level == 2 ? (block == blocks - 1 ? (uint32_t)cases[i].other : (uint32_t)block) : 0;
            int head_bits = levels[level].code_bits + 8;
            head = head << 12 | first_field;
            for (int bit = head_bits + 11; bit >= 0; bit--, at++)
                bytes[at / 8] |= (head >> bit & 1) << (7 - at % 8);
            at += levels[level].content_bits - 12;
        }
        fill_facts();
        expect(pim_read_bare(bytes, (at + 7) / 8, record, PIM_RECORD_LEN, reading, PIM_READING_LEN) == cases[i].result, "a repeat");
        expect(refused_at(cases[i].offset), "at the length of its block");
    }
}

/* 254 blocks of 1,023 bytes, all of level 3: a code of ten zeros, a one and ten zeros, the level, and a content of ones. */
static uint8_t longest[PIM_LONGEST_BARE + 1];

static void longest_payload(void)
{
    size_t at = 24;
    memset(longest, 0xFF, sizeof longest);
    longest[0] = 0x58;
    longest[1] = 0x0F;
    longest[2] = 0xF0;
    for (int block = 0; block < 254; block++, at += 8 * 1023)
        for (int i = 0; i < 29; i++, at++)
            if (i != 10 && i != 27 && i != 28)
                longest[at / 8] &= ~(0x80 >> at % 8);
    for (; at % 8 != 0; at++)
        longest[at / 8] &= ~(0x80 >> at % 8);
    expect(at == 8 * (size_t)PIM_LONGEST_BARE, "the bits of the longest payload");
    fill_facts();
    expect(pim_read_bare(longest, PIM_LONGEST_BARE, record, PIM_RECORD_LEN, reading, PIM_READING_LEN) == 0, "the longest payload");
    expect(read_bits(2086128, 254) && memcmp(record, no_blocks, sizeof record) == 0, "its facts and its record");
    expect(pim_read_bare(longest, PIM_LONGEST_BARE - 1, record, PIM_RECORD_LEN, reading, PIM_READING_LEN) == PIM_PAST_END, "a byte less");
    expect(refused_at(8 * (PIM_LONGEST_BARE - 1)), "at the first bit of its last content that is missing");
    expect(pim_read_bare(longest, PIM_LONGEST_BARE + 1, record, PIM_RECORD_LEN, reading, PIM_READING_LEN) == PIM_BYTES_REMAIN, "a byte more");
    expect(refused_at(8 * PIM_LONGEST_BARE), "at the byte that is left over");
    expect(PIM_LONGEST_WRAPPED == 8 + PIM_LONGEST_BARE, "the longest wrapped payload");
}

/* The unit of two_blocks: header, type, size, wrapper and the payload, in which no 03 is needed; and the end. */
static const uint8_t unit[] = {0x4E, 0x01, 0x04, 0x1D, 0xB5, 0x00, 0x31, 0x47, 0x41, 0x39, 0x34, 0x09, 0x5B, 0x30, 0x08, 0x00, 0x60,
                               0x02, 0x00, 0x00, 0xC0, 0x28, 0x00, 0xFF, 0xF0, 0x01, 0x00, 0x20, 0x03, 0x00, 0x4F, 0xFF, 0x80, 0x80};

/* Level 1 with three zeros: 01's payload of five zero bytes in a row, between which 03 is put twice. */
static const int32_t three_zeros[PIM_RECORD_LEN] = {1, 1, 1};
static const uint8_t escaped[] = {0x4E, 0x01, 0x04, 0x10, 0xB5, 0x00, 0x31, 0x47, 0x41, 0x39, 0x34, 0x09,
                                  0x5A, 0x30, 0x08, 0x00, 0x00, 0x03, 0x00, 0x00, 0x03, 0x00, 0x80};

static void units(void)
{
    uint32_t written = 7;
    fill_facts();
    memset(bytes, 0xEE, sizeof bytes);
    expect(pim_write_unit(two_blocks, PIM_RECORD_LEN, bytes, PIM_UNIT_BYTES, &written) == 0, "write a unit");
    expect(written == sizeof unit && memcmp(bytes, unit, sizeof unit) == 0, "the unit");
    expect(bytes[written] == 0xEE, "later bytes stay");
    expect(pim_read_unit(bytes, written, record, PIM_RECORD_LEN, reading, PIM_READING_LEN) == 0, "read a unit");
    expect(memcmp(record, two_blocks, sizeof record) == 0 && read_bits(8 * sizeof payload, 0), "what was written is read");
    expect(pim_write_unit(three_zeros, PIM_RECORD_LEN, bytes, sizeof escaped, &written) == 0, "room for exactly the unit");
    expect(written == sizeof escaped && memcmp(bytes, escaped, sizeof escaped) == 0, "emulation prevention");
    expect(pim_read_unit(bytes, written, record, PIM_RECORD_LEN, reading, PIM_READING_LEN) == 0 && read_bits(64, 0), "and what it hides");
    expect(memcmp(record, three_zeros, sizeof record) == 0, "its record");

    /* As many blocks as a record holds, as many zeros as they have: level 1, sixteen of level 2 and level 5. */
    memset(record, 0, sizeof record);
    record[0] = 1;
    record[1] = PIM_BLOCKS;
    for (int i = 0; i < PIM_BLOCKS; i++)
        record[PIM_PLACE(i)] = i == 0 ? 1 : i < 17 ? 2 : 5;
    for (int i = 1; i < 17; i++)
        record[PIM_PLACE(i) + 1] = i - 1;
    memcpy(old_record, record, sizeof record);
    expect(pim_write_unit(record, PIM_RECORD_LEN, bytes, PIM_UNIT_BYTES, &written) == 0, "354 bytes suffice");
    expect(written > PIM_WRAPPED_BYTES + 5 && written <= PIM_UNIT_BYTES && bytes[written] == 0xEE, "a long unit");
    expect(pim_read_unit(bytes, written, record, PIM_RECORD_LEN, reading, PIM_READING_LEN) == 0, "which is read");
    expect(memcmp(record, old_record, sizeof record) == 0 && read_bits(8 * PIM_BARE_BYTES, 0), "to the same record");

    memcpy(old_bytes, bytes, sizeof bytes);
    memcpy(record, three_zeros, sizeof record);
    record[PIM_PLACE(0) + 1] = 1;
    written = 7;
    expect(pim_write_unit(three_zeros, PIM_RECORD_LEN - 1, bytes, PIM_UNIT_BYTES, &written) == PIM_SHORT, "145 numbers to write");
    expect(pim_write_unit(record, PIM_RECORD_LEN, bytes, 0, &written) == PIM_NOT_VALID, "a record that is not valid, and no room");
    expect(pim_write_unit(three_zeros, PIM_RECORD_LEN, bytes, sizeof escaped - 1, &written) == PIM_SHORT, "a byte of room too few");
    expect(memcmp(bytes, old_bytes, sizeof bytes) == 0 && written == 7, "a refused unit leaves all as it was");
}

/* The unit with one byte changed, and cut to n bytes: refused, in the data at a bit, or else without a place. */
static void refused_unit(size_t place, uint8_t byte, size_t n, uint32_t refusal, uint32_t offset, const char *what)
{
    fill_facts();
    memcpy(bytes, unit, sizeof unit);
    bytes[place] = byte;
    memset(record, 0x5A, sizeof record);
    memcpy(old_record, record, sizeof record);
    memcpy(old_bytes, bytes, sizeof bytes);
    expect(pim_read_unit(bytes, n, record, PIM_RECORD_LEN, reading, PIM_READING_LEN) == refusal && refused_at(offset), what);
    fill_facts();
    expect(pim_read_unit(bytes, n, record, PIM_RECORD_LEN + 1, reading, PIM_READING_LEN) == PIM_SHORT, "147 numbers, before everything");
    expect(refused_without_a_place(), "which has no place");
    expect(memcmp(record, old_record, sizeof record) == 0, "and the record stays as it was");
    expect(memcmp(bytes, old_bytes, sizeof bytes) == 0, "and what is read is not written");
}

/* The message behind as many empty ones of type 1 as n bytes have room for; the last of them takes what is left over. */
static void longest_unit(size_t n, uint32_t result)
{
    size_t at = 2, left = sizeof unit - 2;
    fill_facts();
    bytes[0] = unit[0];
    bytes[1] = unit[1];
    while (at + left + 2 < n) {
        bytes[at++] = 1;
        bytes[at++] = 0;
    }
    if (at + left < n) {
        bytes[at - 1] = n - at - left;
        memset(bytes + at, 0x55, n - at - left);
        at = n - left;
    }
    memcpy(bytes + at, unit + 2, left);
    expect(pim_read_unit(bytes, n, record, PIM_RECORD_LEN, reading, PIM_READING_LEN) == result, "a unit of the most bytes, or above");
    expect(result != 0 || (read_bits(8 * sizeof payload, 0) && memcmp(record, two_blocks, sizeof record) == 0), "its last message");
}

/* The row differs from two_blocks at one place: it names no record, or one that is not valid. */
static void refused(int place, int32_t number, const char *what)
{
    uint32_t written = 7, count = 7;
    memcpy(record, two_blocks, sizeof record);
    record[place] = number;
    memcpy(old_bytes, bytes, sizeof bytes);
    memcpy(old_table, table, sizeof table);
    expect(pim_write_bare(record, PIM_RECORD_LEN, bytes, sizeof bytes, &written) == 14, what);
    expect(pim_place(record, PIM_RECORD_LEN, 5, 6, table, PIM_TABLE_LEN, &count) == 14, what);
    expect(memcmp(bytes, old_bytes, sizeof bytes) == 0 && memcmp(table, old_table, sizeof table) == 0 && written == 7 && count == 7,
           "a refused write or placing leaves all as it was");
}

static void shader_numbers(void)
{
    uint32_t bits[PIM_SHADER_LEN] = {7, 7, 7, 7, 7, 7, 7};
    static const uint32_t expected[PIM_SHADER_LEN] = {0x3F000000, 0x3F7FF000, 0x39800000, 0x3A000000, 0x3A400000, 0x3A800000, 0xB9800000};
    expect(pim_shader(&two_blocks[PIM_PLACE(0)], PIM_PLACE_LEN, bits, PIM_SHADER_LEN) == 14 && bits[0] == 7, "a level 1 block");
    expect(pim_shader(&two_blocks[PIM_PLACE(1)], PIM_PLACE_LEN, bits, 6) == 13 && bits[0] == 7, "room for six numbers");
    expect(pim_shader(&two_blocks[PIM_PLACE(1)], PIM_PLACE_LEN, bits, PIM_SHADER_LEN) == 0, "a level 2 block");
    expect(memcmp(bits, expected, sizeof bits) == 0, "its seven numbers");
}

/* The point of a lookup, between numbers that are not lent. */
static int32_t lent[PIM_POINT_LEN + 2];
static int32_t *const point = lent + 1;

static void fill_point(void)
{
    for (int i = 0; i < PIM_POINT_LEN + 2; i++)
        lent[i] = 7;
}

static int point_is(int32_t picture, int32_t segment, const int32_t *its_record)
{
    return lent[0] == 7 && point[PIM_POINT_PICTURE] == picture && point[PIM_POINT_SEGMENT] == segment &&
           memcmp(point + PIM_POINT_RECORD, its_record, sizeof two_blocks) == 0 && lent[PIM_POINT_LEN + 1] == 7;
}

static int point_as_it_was(void)
{
    for (int i = 0; i < PIM_POINT_LEN + 2; i++)
        if (lent[i] != 7)
            return 0;
    return 1;
}

/* Whether a table's entries from n on are cleared. */
static int cleared_from(const int32_t *entries, size_t n)
{
    return memcmp(entries + PIM_POINT(n), zeros, (PIM_TABLE_LEN - PIM_POINT(n)) * sizeof zeros[0]) == 0;
}

static void tracks(void)
{
    uint32_t count = 7, found = 7, other = 7;
    memset(table, 0x5A, sizeof table);
    fill_point();
    expect(pim_lookup(zeros, PIM_TABLE_LEN, 0, 0, point, PIM_POINT_LEN, &found) == 0 && found == 0, "zeros with count 0 are the empty track");
    expect(point_is(0, 0, zeros), "in which a lookup gives zeros");
    fill_point();
    expect(pim_lookup(zeros, PIM_TABLE_LEN, 1, 0, point, PIM_POINT_LEN, &found) == 16, "the empty record stands in no track");
    expect(point_as_it_was(), "and a refused lookup leaves the point as it was");
    expect(pim_place(zeros, PIM_RECORD_LEN, 9, 0, table, PIM_TABLE_LEN, &count) == 0 && count == 0, "146 zeros are the empty record");
    expect(cleared_from(table, 0), "and leave a table of zeros");
    memset(table, 0x5A, sizeof table);
    count = 7;
    expect(pim_place(zeros, PIM_RECORD_LEN, 9, 7, table, PIM_TABLE_LEN, &count) == 0 && count == 0, "and so with segment 7");
    expect(cleared_from(table, 0), "which stands nowhere");
    memset(first, 0x5A, sizeof first);
    expect(pim_place(two_blocks, PIM_RECORD_LEN, -3, 65535, first, PIM_TABLE_LEN, &count) == 0 && count == 1, "a placing");
    expect(first[PIM_POINT_PICTURE] == -3 && first[PIM_POINT_SEGMENT] == 65535, "the picture and the segment");
    expect(memcmp(first + PIM_POINT_RECORD, two_blocks, sizeof two_blocks) == 0, "and the record of the point");
    expect(cleared_from(first, 1), "zeros past it");
    memcpy(record, two_blocks, sizeof record);
    record[PIM_PLACE(1) + 1] = 1;
    expect(pim_place(record, PIM_RECORD_LEN, 4, 258, second, PIM_TABLE_LEN, &other) == 0 && other == 1, "another");
    memset(table, 0x5A, sizeof table);
    expect(pim_join(first, PIM_TABLE_LEN, 1, second, PIM_TABLE_LEN, 1, table, PIM_TABLE_LEN, &count) == 0 && count == 2, "a join");
    expect(memcmp(table, first, PIM_POINT_LEN * sizeof table[0]) == 0, "its first point");
    expect(memcmp(table + PIM_POINT(1), second, PIM_POINT_LEN * sizeof table[0]) == 0, "its second point");
    expect(cleared_from(table, 2), "zeros past them");
    fill_point();
    expect(pim_lookup(table, PIM_TABLE_LEN, 2, -4, point, PIM_POINT_LEN, &found) == 0 && found == 0, "nothing in force yet");
    expect(point_is(0, 0, zeros), "and the point is all zeros");
    fill_point();
    expect(pim_lookup(table, PIM_TABLE_LEN, 2, 3, point, PIM_POINT_LEN, &found) == 0 && found == 1, "the first is in force");
    expect(point_is(-3, 65535, two_blocks), "its start, its segment and its record");
    fill_point();
    expect(pim_lookup(table, PIM_TABLE_LEN, 2, 2147483647, point, PIM_POINT_LEN, &found) == 0 && found == 1, "the second is in force");
    expect(point_is(4, 258, record), "with its own");
    found = 7;
    fill_point();
    expect(pim_lookup(table, PIM_TABLE_LEN, 65, 3, point, PIM_POINT_LEN, &found) == 16, "a count of 65");
    expect(pim_lookup(table, PIM_TABLE_LEN - 1, 2, 3, point, PIM_POINT_LEN, &found) == 13, "a table one number short");
    expect(pim_lookup(table, PIM_TABLE_LEN, 2, 3, point, PIM_POINT_LEN - 1, &found) == 13, "a point one number short");
    expect(pim_lookup(table, PIM_TABLE_LEN, 2, 3, point, PIM_POINT_LEN + 1, &found) == 13, "a point one number too long");
    expect(pim_lookup(table, PIM_TABLE_LEN, 2, 3, point, PIM_RECORD_LEN, &found) == 13, "room for a record alone");
    expect(pim_lookup(table, PIM_TABLE_LEN, 2, -4, point, 0, &found) == 13, "no room, where nothing is in force");
    expect(pim_lookup(table, PIM_TABLE_LEN, 65, 3, point, PIM_POINT_LEN - 1, &found) == 13, "a short point comes before what is no track");
    expect(point_as_it_was() && found == 7, "a refusal leaves the point and found as they were");
    memcpy(old_table, table, sizeof table);
    first[PIM_POINT_RECORD + PIM_PLACE(17)] = 3;
    expect(pim_join(first, PIM_TABLE_LEN, 1, second, PIM_TABLE_LEN, 1, table, PIM_TABLE_LEN, &count) == 16, "a point that names no record");
    expect(memcmp(table, old_table, sizeof table) == 0 && count == 2, "a refusal leaves all as it was");
}

/* Two tracks with the number 4 and an equal record there, from the segments 1 and 2; the first has the number -3 too. */
static void segments(void)
{
    uint32_t count = 7, found = 7;
    expect(pim_place(two_blocks, PIM_RECORD_LEN, -3, 9, first, PIM_TABLE_LEN, &count) == 0, "a placing of segment 9");
    expect(pim_place(two_blocks, PIM_RECORD_LEN, 4, 1, second, PIM_TABLE_LEN, &count) == 0, "and of segment 1");
    expect(pim_join(first, PIM_TABLE_LEN, 1, second, PIM_TABLE_LEN, 1, old_table, PIM_TABLE_LEN, &count) == 0 && count == 2, "joined");
    memcpy(first, old_table, sizeof first);
    expect(pim_place(two_blocks, PIM_RECORD_LEN, 4, 2, second, PIM_TABLE_LEN, &count) == 0 && count == 1, "and of segment 2");
    for (int swapped = 0; swapped < 2; swapped++) {
        const int32_t *a = swapped ? second : first, *b = swapped ? first : second;
        memset(table, 0x5A, sizeof table);
        count = 7;
        expect(pim_join(a, PIM_TABLE_LEN, swapped ? 1 : 2, b, PIM_TABLE_LEN, swapped ? 2 : 1, table, PIM_TABLE_LEN, &count) == 0 && count == 2,
               "a join with a number that both hold");
        expect(memcmp(table, first, PIM_POINT_LEN * sizeof table[0]) == 0, "the point that one holds, with its segment");
        expect(memcmp(table + PIM_POINT(1), swapped ? first + PIM_POINT(1) : second, PIM_POINT_LEN * sizeof table[0]) == 0, "the second track's point");
        expect(table[PIM_POINT(1) + PIM_POINT_SEGMENT] == (swapped ? 1 : 2), "the second track's segment, though the records are equal");
        expect(cleared_from(table, 2), "and cleared entries, whose segments are 0");
        fill_point();
        expect(pim_lookup(table, PIM_TABLE_LEN, count, 5, point, PIM_POINT_LEN, &found) == 0 && found == 1, "which is looked up");
        expect(point_is(4, swapped ? 1 : 2, two_blocks), "to the same segment");
    }
    memcpy(record, two_blocks, sizeof record);
    record[PIM_PLACE(1) + 1] = 1;
    expect(pim_place(record, PIM_RECORD_LEN, 4, 2, old_table, PIM_TABLE_LEN, &count) == 0 && count == 1, "another record of segment 2");
    expect(pim_join(second, PIM_TABLE_LEN, 1, old_table, PIM_TABLE_LEN, 1, table, PIM_TABLE_LEN, &count) == 0 && count == 1, "joined behind the one");
    expect(memcmp(table, old_table, sizeof table) == 0, "takes its place, though the segments are equal");
}

/* Two points, of segment 9 and of this one: a track or none. Past the count it is ignored. */
static void segment_in_a_table(int32_t segment, int is_track, const char *what)
{
    uint32_t count = 7, found = 7;
    memset(table, 0, sizeof table);
    table[PIM_POINT_PICTURE] = -3;
    table[PIM_POINT_SEGMENT] = 9;
    memcpy(table + PIM_POINT_RECORD, two_blocks, sizeof two_blocks);
    table[PIM_POINT(1) + PIM_POINT_PICTURE] = 4;
    table[PIM_POINT(1) + PIM_POINT_SEGMENT] = segment;
    memcpy(table + PIM_POINT(1) + PIM_POINT_RECORD, two_blocks, sizeof two_blocks);
    memset(old_table, 0x5A, sizeof old_table);
    memcpy(first, old_table, sizeof first);
    fill_point();
    if (is_track) {
        expect(pim_lookup(table, PIM_TABLE_LEN, 2, 4, point, PIM_POINT_LEN, &found) == 0 && found == 1 && point_is(4, segment, two_blocks), what);
        expect(pim_join(table, PIM_TABLE_LEN, 2, zeros, PIM_TABLE_LEN, 0, first, PIM_TABLE_LEN, &count) == 0 && count == 2, what);
        expect(memcmp(first, table, sizeof first) == 0, what);
    } else {
        expect(pim_lookup(table, PIM_TABLE_LEN, 2, 4, point, PIM_POINT_LEN, &found) == PIM_NOT_TRACK, what);
        expect(pim_lookup(table, PIM_TABLE_LEN, 2, -3, point, PIM_POINT_LEN, &found) == PIM_NOT_TRACK, "though another point is in force");
        expect(pim_join(table, PIM_TABLE_LEN, 2, zeros, PIM_TABLE_LEN, 0, first, PIM_TABLE_LEN, &count) == PIM_NOT_TRACK, what);
        expect(pim_join(zeros, PIM_TABLE_LEN, 0, table, PIM_TABLE_LEN, 2, first, PIM_TABLE_LEN, &count) == PIM_NOT_TRACK, what);
        expect(pim_lookup(table, PIM_TABLE_LEN, 2, 4, point, PIM_POINT_LEN - 1, &found) == PIM_SHORT, "a short point comes before it");
        expect(point_as_it_was() && found == 7 && count == 7 && memcmp(first, old_table, sizeof first) == 0, "a refusal leaves all as it was");
    }
    fill_point();
    expect(pim_lookup(table, PIM_TABLE_LEN, 1, 4, point, PIM_POINT_LEN, &found) == 0 && found == 1, "past the count it is ignored");
    expect(point_is(-3, 9, two_blocks), "and the point before is in force");
    expect(pim_join(table, PIM_TABLE_LEN, 1, table, PIM_TABLE_LEN, 1, first, PIM_TABLE_LEN, &count) == 0 && count == 1, "in a join too");
    expect(memcmp(first, table, PIM_POINT_LEN * sizeof table[0]) == 0 && cleared_from(first, 1), "which copies nothing of it");
    table[PIM_POINT_SEGMENT] = segment;
    table[PIM_POINT(1) + PIM_POINT_SEGMENT] = 9;
    expect(pim_lookup(table, PIM_TABLE_LEN, 2, 4, point, PIM_POINT_LEN, &found) == (is_track ? PIM_DONE : PIM_NOT_TRACK), "it is the first point's");
}

int main(void)
{
    reading_and_writing();
    wrong_lengths(pim_read_bare, payload, sizeof payload);
    wrong_lengths(pim_read_bare, payload, 1);
    wrong_lengths(pim_read_wrapped, payload, sizeof payload);
    wrong_lengths(pim_read_unit, unit, sizeof unit);
    reserved_blocks();
    big_numbers();
    in_the_wrapper();
    why();
    repeats();
    longest_payload();
    refused(0, 2, "a refresh flag of 2");
    refused(1, 256, "a count that is no uint8_t");
    refused(1, 1, "a count that is not the blocks'");
    refused(PIM_PLACE(1), 3, "a level of 3");
    refused(PIM_PLACE(1) + 1, 65536 + 2048, "a field that is no uint16_t");
    refused(PIM_PLACE(1) + 7, -65537, "an ms_weight that is no int16_t");
    refused(PIM_PLACE(0) + 4, 1, "an unused number that is not 0");
    refused(PIM_PLACE(17) + 7, 1, "an unused number of a place that holds nothing");
    units();
    refused_unit(0, 0x4E, 1, PIM_UNIT_HEADER, 0, "a unit of one byte");
    refused_unit(0, 0xCE, sizeof unit, PIM_UNIT_HEADER, 0, "the first header bit");
    refused_unit(0, 0x4C, sizeof unit, PIM_UNIT_HEADER, 0, "type 38");
    refused_unit(1, 0x00, sizeof unit, PIM_UNIT_HEADER, 0, "a temporal id plus one of 0");
    refused_unit(20, 0x01, sizeof unit, PIM_EMULATION, 0, "a start code");
    refused_unit(0, 0x4E, sizeof unit - 1, PIM_MESSAGES, 0, "no end");
    refused_unit(3, 0x1E, sizeof unit, PIM_MESSAGES, 0, "a size that takes the end");
    refused_unit(2, 0x05, sizeof unit, PIM_NOT_OURS, 0, "another type of message");
    refused_unit(11, 0x03, sizeof unit, PIM_NOT_OURS, 0, "another wrapper");
    refused_unit(12, 0x3B, sizeof unit, PIM_IDENTIFIER, 0, "an app_identifier of 6: document 01's refusals come last");
    refused_unit(32, 0x81, sizeof unit, PIM_ZERO_BIT, 167, "the last bit of the data");
    longest_unit(PIM_UNIT_LIMIT - 1, PIM_DONE);
    longest_unit(PIM_UNIT_LIMIT, PIM_DONE);
    longest_unit(PIM_UNIT_LIMIT + 1, PIM_UNIT_HEADER);
    shader_numbers();
    tracks();
    segments();
    segment_in_a_table(0, 1, "a segment of 0");
    segment_in_a_table(65535, 1, "the last segment");
    segment_in_a_table(65536, 0, "a segment of 65,536");
    segment_in_a_table(65536 + 5, 0, "a segment of 65,541");
    segment_in_a_table(-1, 0, "a segment of -1");
    segment_in_a_table(2147483647, 0, "the greatest int32_t for a segment");
    segment_in_a_table(-2147483647 - 1, 0, "the least");
    printf(failed ? "failed\n" : "as the header says\n");
    return failed;
}
