/*
 * Pimlasut for C: a reader and a writer for ST2094-10_data (ATSC A/341, Annex E), bare, in its ITU-T T.35 wrapper or in an
 * H.265 SEI NAL unit, the shader's numbers, and tracks of records over pictures. docs/REFERENCE.md says at length what all
 * of this is, bit by bit; REFERENCE 6 means its section 6.
 *
 * Link with libpimlasut.a, which `rt lib` makes in crates/pimlasut. It needs memcpy and memset and nothing else, allocates
 * nothing, and keeps nothing from one call to the next.
 *
 * Every function is proved to answer as is said here, for every input (crates/pimlasut). It answers a result number:
 * 0 means done, any other is a refusal. ON A REFUSAL EVERY ARRAY AND EVERY SINGLE NUMBER STAYS AS IT WAS, with one
 * exception: the facts of a reading (`reading`) then say where and why it was refused, if they have their length.
 *
 * An array whose length is fixed (a record, a point, a table, a block, the facts of a reading, the shader's bits) is passed
 * with its length, and any other length is refused with 13, before everything else. It is said here and not again below.
 *
 * What a caller owes: each pointer is not null, also where a length is 0, and is aligned for its type; `x` and `x_len` name
 * an array of x_len elements (not bytes) that can be read, and written where it is not const; what is written overlaps
 * nothing else that is passed in the same call; and no other thread writes any of it during the call. What is const may
 * overlap: a and b of pim_join may be the same table.
 */
#ifndef PIMLASUT_H
#define PIMLASUT_H

#include <stddef.h>
#include <stdint.h>

#ifdef __cplusplus
extern "C" {
#endif

/*
 * What a call takes of the stack, at most, its return address with it. Measured, not proved, by bench/stack.py, of the
 * optimised build for x86-64 by the kit that README.md names, and rounded up to the next 64.
 *
 *   stack, bytes
 *   pim_read_bare       2368
 *   pim_read_wrapped    2688
 *   pim_why_wrapped     2560
 *   pim_write_bare      1792
 *   pim_write_wrapped   1792
 *   pim_read_unit       7488
 *   pim_write_unit      2112
 *   pim_shader          128
 *   pim_place           1088
 *   pim_lookup          2304
 *   pim_join            3136
 */

/*
 * A record (REFERENCE 6) is PIM_RECORD_LEN numbers:
 *
 *   record[0]              the refresh flag: 0 or 1
 *   record[1]              the count of blocks
 *   record[PIM_PLACE(i)]   the place i, 0 to 17, PIM_PLACE_LEN numbers: the block's level, or 0 for nothing; its fields in
 *                          the order of the syntax; and zeros
 *
 *   level 1   min_PQ, max_PQ, avg_PQ
 *   level 2   target_max_PQ, trim_slope, trim_offset, trim_power, trim_chroma_weight, trim_saturation_gain, ms_weight
 *   level 5   left, right, top and bottom active-area offset
 *
 * The empty record is all zeros. What a record says:
 *
 *   flag 0                 nothing follows: earlier metadata stays in force
 *   flag 1, count above 0  these blocks are the metadata from here on
 *   flag 1, count 0        earlier metadata is switched off from here on
 *
 * Neither the first nor the third is what a lookup says with found 0: that there is no record at all.
 *
 * A record is valid if
 *
 *   count     is at most 18, and 0 where the flag is 0
 *   places    each of the first count places holds a block, and every other holds nothing
 *   ranges    a field of level 1 or 2 is 0 to 4,095, but ms_weight -4,096 to 4,095; one of level 5 is 0 to 8,191
 *   order     in level 1, min_PQ <= avg_PQ <= max_PQ
 *   counts    at most one block of level 1, one of level 5 and sixteen of level 2
 *   targets   no two level 2 blocks have the same target_max_PQ
 *
 * Every record that is read is valid, and blocks stand in their order in the payload. One to be written or placed that is
 * not valid is refused with 14, and one in a track with 16. Exactly one row of numbers stands for each record. A row that
 * stands for none is treated as a record that is not valid: a refresh flag other than 0 and 1, a level other than 0, 1, 2
 * and 5, a count that is no uint8_t, a field that is no uint16_t (ms_weight: no int16_t), or an unused number that is not 0.
 */
#define PIM_BLOCKS 18
#define PIM_PLACE_LEN 8
#define PIM_PLACE(i) (2 + PIM_PLACE_LEN * (i))
#define PIM_RECORD_LEN PIM_PLACE(PIM_BLOCKS) /* 146 */

/*
 * A reserved block (REFERENCE 3) is one of any level but 1, 2 and 5; 0 and 255 are reserved too. It is passed over by its
 * length, 0 to 1,023 bytes of any content: no place of a record holds it, the count of blocks does not count it, and it is
 * never written. So two payloads can have the same record, but only where one of them has reserved blocks: a cache goes by
 * the record, or by the payload that is written of it, and not by the bytes that were read.
 */

/* No payload that is written is longer, bare and wrapped. */
#define PIM_BARE_BYTES 224
#define PIM_WRAPPED_BYTES 232

/* No bare payload that is accepted is longer: 254 reserved blocks of 1,023 bytes. */
#define PIM_LONGEST_BARE 260766
/* And no wrapped one. */
#define PIM_LONGEST_WRAPPED 260774

/*
 * The facts of a reading are PIM_READING_LEN numbers, each in a named place. A caller declares
 * `uint32_t reading[PIM_READING_LEN]`; a later version may add places, and changes none.
 */
#define PIM_READING_BITS 0       /* the bits read, wrapper not counted; those of reserved blocks are. On a refusal 0 */
#define PIM_READING_SKIPPED 1    /* the number of reserved blocks that were passed over. On a refusal 0 */
#define PIM_READING_OFFSET 2     /* on a refusal, where the failing element begins; see below. Else 0 */
#define PIM_READING_IN_WRAPPER 3 /* 1 where that is counted from the wrapper, else 0 */
#define PIM_READING_ELEMENT 4    /* on a refusal, which element fails, one of PIM_ELEMENTS; see below. 0 where none does */
#define PIM_READING_KIND 5       /* what is told of the values that are allowed: PIM_KIND_UNTOLD, _RANGE or _OTHER */
#define PIM_READING_VALUE 6      /* the value that the element has, its lower 32 bits; 0 where none is told */
#define PIM_READING_VALUE_HIGH 7 /* and its upper 32 bits: not 0 only for 12, where 2^32 bytes or more remain */
#define PIM_READING_LOWEST 8     /* with PIM_KIND_RANGE the lowest value that is allowed, else 0 */
#define PIM_READING_HIGHEST 9    /* and the highest */
#define PIM_READING_LEN 10

/*
 * Where a reading was refused (REFERENCE 11). In the data (PIM_READING_IN_WRAPPER is 0) it is a bit's offset, from the data's
 * first bit on, which is 0; the wrapper is not counted, nor is anything before it in a unit, nor its emulation prevention
 * bytes:
 *
 *   4, 5, 6               the first bit of that number's code
 *   1, 2                  the first bit of the element that is cut off or too long: a code, a level, a field. Each
 *                         zero bit and each bit of a reserved block is an element of its own, so that a missing one is told
 *                         at the data's end
 *   7                     the zero bit that is a one
 *   9, 10, 11, 17, 18, 19 the first bit of the block's ext_block_length
 *   12                    the first bit of the bytes that remain
 *
 * In the wrapper (PIM_READING_IN_WRAPPER is 1; 3, and 1 where one of its eight bytes is missing) it is that byte's offset, 0
 * to 7. A refusal that is about no element has no place, and 0 in both: 13, and 30 to 33 of a unit.
 */

/*
 * Why it was refused: every element before the one named meets its rule, and that one does not.
 *
 *   result      element                 value                    allowed
 *   1, 2        the one that is cut     -                        untold
 *               off or too long
 *   3           wrapper                 the byte there           range: the byte that is due
 *   4           app_identifier          its number               range: 1 to 1
 *   5           app_version             its number               range: 0 to 0
 *   6           num_ext_blocks          its number               range: 0 to 254
 *   7           the zero bit            1                        range: 0 to 0
 *   9           ext_block_length        its number               range: the level's length, or 0 to 1,023
 *   10          avg_PQ                  avg_PQ                   range: min_PQ to max_PQ; none where min_PQ is above it
 *   11          target_max_PQ           target_max_PQ            other than those met
 *   12          end                     bytes that remain        range: 0 to 0
 *   17, 18, 19  ext_block_level         the level                other than those of which no more may come
 *
 * For 9, 10, 11 and 17 to 19 the offset is that of the block's length, and the element named may stand behind it. Where
 * nothing was refused, and where no element is at fault (13, and 30 to 33 of a unit), all of these are 0.
 */
#define PIM_KIND_UNTOLD 0
#define PIM_KIND_RANGE 1 /* from the lowest to the highest, and no value at all where the lowest is above the highest */
#define PIM_KIND_OTHER 2

/*
 * The elements, by their names in A/341, tables E.1.1 to E.1.3; then the end of the data, and a byte of the wrapper:
 *
 *   static const char *const names[] = PIM_ELEMENT_NAMES;
 *   names[reading[PIM_READING_ELEMENT]]
 *
 * (metadata_refresh_flag has a place here and is never at fault: it has one bit, of any value, in the first byte.)
 */
#define PIM_ELEMENTS 25
#define PIM_ELEMENT_NAMES                                                                                                        \
    {                                                                                                                          \
        "", "app_identifier", "app_version", "metadata_refresh_flag", "num_ext_blocks", "dm_alignment_zero_bit",               \
            "ext_block_length", "ext_block_level", "min_PQ", "max_PQ", "avg_PQ", "target_max_PQ", "trim_slope", "trim_offset", \
            "trim_power", "trim_chroma_weight", "trim_saturation_gain", "ms_weight", "active_area_left_offset",                \
            "active_area_right_offset", "active_area_top_offset", "active_area_bottom_offset", "ext_dm_alignment_zero_bit",    \
            "end", "wrapper"                                                                                                   \
    }

/* No text of pim_why_wrapped is longer. */
#define PIM_WHY_BYTES 110

/* So many bytes always suffice to write a unit. A unit that is read has at most PIM_UNIT_LIMIT, as it arrives (REFERENCE 5). */
#define PIM_UNIT_BYTES 354
#define PIM_UNIT_LIMIT 4096

/*
 * A point (REFERENCE 9) is PIM_POINT_LEN numbers:
 *
 *   point[PIM_POINT_PICTURE]   its picture number, in output order
 *   point[PIM_POINT_SEGMENT]   the number of the segment that it came from, 0 to 65,535
 *   point[PIM_POINT_RECORD]    its record, PIM_RECORD_LEN numbers from there on
 *
 * Exactly one row of numbers stands for each point. A row that stands for none, because its segment is no uint16_t or because
 * the rest of it stands for no record, is treated as a point whose record is not valid.
 *
 * A table is PIM_TABLE_LEN numbers, PIM_POINTS points, of which the point i begins at table[PIM_POINT(i)].
 * It crosses as numbers, and not as the library's own points, because a point's record holds an enum and no enum crosses.
 * The functions work on the numbers where they lie and copy no table. A cleared entry, with picture 0, segment 0 and the empty
 * record, is all zeros, so a static or calloc'd table is ready to use; it has 37,888 bytes.
 * A track is a table with a count: the first count points have rising picture numbers and valid records with the refresh
 * flag 1. What lies past them is ignored. With count 0 any table is the empty track. Two points are equal if their pictures,
 * their segments and their records are.
 */
#define PIM_POINTS 64
#define PIM_POINT_PICTURE 0
#define PIM_POINT_SEGMENT 1
#define PIM_POINT_RECORD 2
#define PIM_POINT_LEN (PIM_POINT_RECORD + PIM_RECORD_LEN) /* 148 */
#define PIM_POINT(i) (PIM_POINT_LEN * (i))
#define PIM_TABLE_LEN PIM_POINT(PIM_POINTS) /* 9,472 */

/* The numbers that the shader gets. */
#define PIM_SHADER_LEN 7

/* Result numbers. REFERENCE 10 says of each by which functions it is given, and which of two comes first. */
enum {
    PIM_DONE = 0,
    PIM_PAST_END = 1,       /* a bit or byte is needed past the end of the input */
    PIM_LONG_CODE = 2,      /* a ue(v) code has a 32nd zero: its number would be above 4,294,967,294 */
    PIM_WRAPPER = 3,        /* a wrapper byte differs */
    PIM_IDENTIFIER = 4,     /* app_identifier is not 1 */
    PIM_VERSION = 5,        /* app_version is not 0 */
    PIM_MANY_BLOCKS = 6,    /* num_ext_blocks is above 254 */
    PIM_ZERO_BIT = 7,       /* a zero bit is a one */
    PIM_LEVEL = 8,          /* no longer occurs: blocks of levels other than 1, 2 and 5 are passed over */
    PIM_LENGTH = 9,         /* length is not the level's, or that of a reserved block is above 1,023; whether the content is
                               there or not */
    PIM_ORDER = 10,         /* level 1 not in order min <= avg <= max */
    PIM_REPEAT = 11,        /* a target_max_PQ already met */
    PIM_BYTES_REMAIN = 12,  /* bytes remain after the data */
    PIM_SHORT = 13,         /* output shorter than needed, or an array of a fixed length that has another */
    PIM_NOT_VALID = 14,     /* record to be written or placed is not valid, or block to be converted is not a level 2 block
                               in range */
    PIM_MANY_POINTS = 15,   /* a join has more than 64 different numbers */
    PIM_NOT_TRACK = 16,     /* not a track: count above 64, numbers not rising, a point's record not valid with flag 1, or
                               numbers that stand for no point, as where the segment is no uint16_t */
    PIM_SECOND_LEVEL_1 = 17,
    PIM_SECOND_LEVEL_5 = 18,
    PIM_SEVENTEENTH_LEVEL_2 = 19, /* whether its target_max_PQ was met or not */
    PIM_UNIT_HEADER = 30,   /* unit shorter than two bytes or above 4,096, first header bit set, temporal id plus one of 0, or
                               another type */
    PIM_EMULATION = 31,     /* two zero bytes followed by 00, 01 or 02, or by 03 and then a byte above 03 */
    PIM_MESSAGES = 32,      /* no message at all, a type, size or content that runs past the end, or an end that is not the
                               single byte 80 after a whole message */
    PIM_NOT_OURS = 33       /* none of our messages */
};

/*
 * Read a payload of n bytes, bare or behind the eight wrapper bytes (REFERENCE 2 and 4). Done: the record of its known blocks,
 * and the facts of the reading. Refused: 1 to 7, 9 to 12 or 17 to 19, by the first failure from left to right; after a block
 * 10 comes before 17 to 19, and 19 before 11. pim_read_bare never gives 3.
 */
uint32_t pim_read_bare(const uint8_t *in, size_t n, int32_t *record, size_t record_len, uint32_t *reading, size_t reading_len);
uint32_t pim_read_wrapped(const uint8_t *in, size_t n, int32_t *record, size_t record_len, uint32_t *reading,
                          size_t reading_len);

/*
 * Tell why wrapped data of n bytes is refused, as key=value lines in ASCII, each ended by one line feed, in the first bytes of
 * out; later bytes stay: result, offset, element, and, but for 1 and 2, value and allowed, as in "result=10\noffset=8\n
 * element=avg_PQ\nvalue=3072\nallowed=0-1024\n". Of accepted data the text is "result=0\n". Done: the bytes written; no zero is
 * written behind them. Refused: 13 if out_len is less than is needed; PIM_WHY_BYTES always suffice.
 */
uint32_t pim_why_wrapped(const uint8_t *in, size_t n, uint8_t *out, size_t out_len, uint32_t *written);

/*
 * Write a record's payload into the first bytes of out, bare or behind the eight wrapper bytes (REFERENCE 7); later bytes
 * stay. Done: the bytes written. Refused: 14 if the record is not valid; then 13 if n is less than is needed.
 */
uint32_t pim_write_bare(const int32_t *record, size_t record_len, uint8_t *out, size_t n, uint32_t *written);
uint32_t pim_write_wrapped(const int32_t *record, size_t record_len, uint8_t *out, size_t n, uint32_t *written);

/*
 * Read an SEI unit of n bytes, a prefix unit (type 39) or a suffix unit (type 40), from its header on, without a start code.
 * The first message of type 4 that begins with the eight wrapper bytes is read as pim_read_wrapped reads it, and the others
 * are passed over. Done: the record, and the facts of the reading of that message's data; only blocks count as passed over
 * there, not messages. Refused: 30, then 31, then 32, then 33, each over the whole unit; else 1, 2, 4 to 7, 9 to 12 or 17 to
 * 19, by that message's data.
 */
uint32_t pim_read_unit(const uint8_t *in, size_t n, int32_t *record, size_t record_len, uint32_t *reading, size_t reading_len);

/*
 * Write a prefix unit into the first bytes of out: layer 0, temporal id plus one of 1, and the record's message alone; later
 * bytes stay. Done: the bytes written, those of emulation prevention with them. Refused: as the two writers above.
 */
uint32_t pim_write_unit(const int32_t *record, size_t record_len, uint8_t *out, size_t n, uint32_t *written);

/*
 * The seven numbers of a level 2 block, in the order of its fields, as the bits of single-precision numbers: each is
 * exactly its code / 4096 (REFERENCE 8). block is a place of a record, as &record[PIM_PLACE(i)]. A bit pattern becomes a
 * float by memcpy(&number, &bits[i], sizeof number). Refused: 14 if it is not a level 2 block in range.
 */
uint32_t pim_shader(const int32_t *block, size_t block_len, uint32_t *bits, size_t bits_len);

/*
 * Make a track of one point, a record of a segment at a picture, in a table; with the refresh flag 0, the empty track. Done:
 * the table, with zeros past the point, and its count. Refused: 14 if the record is not valid.
 */
uint32_t pim_place(const int32_t *record, size_t record_len, int32_t picture, uint16_t segment, int32_t *table,
                   size_t table_len, uint32_t *count);

/*
 * Look a picture up in a track. Done: found is 1 and point is the one in force, that with the greatest number not above
 * picture: the picture at which its record has started, its segment, its record; or found is 0 and point is all zeros, since
 * nothing is in force. Refused: 16 if table and count are no track.
 */
uint32_t pim_lookup(const int32_t *table, size_t table_len, size_t count, int32_t picture, int32_t *point, size_t point_len,
                    uint32_t *found);

/*
 * Join two tracks in a third table: every number of either, in rising order, with b's point, its segment and its record, where
 * both hold the number. Done: the table, with zeros past the points, and its count. Refused: 16 if a is no track; then 16 if
 * b is none; then 15 if there are more than PIM_POINTS different numbers.
 *
 * The result needs a table that is neither a's nor b's. To go on with it, swap: it is a of the next join, and the table that
 * was a takes the next result.
 *
 *   result = pim_join(film, PIM_TABLE_LEN, film_count, piece, PIM_TABLE_LEN, piece_count, other, PIM_TABLE_LEN, &count);
 *   if (result == PIM_DONE) { int32_t *spare = film; film = other; other = spare; film_count = count; }
 */
uint32_t pim_join(const int32_t *a, size_t a_len, size_t a_count, const int32_t *b, size_t b_len, size_t b_count, int32_t *table,
                  size_t table_len, uint32_t *count);

#ifdef __cplusplus
}
#endif

#endif
