/*
 * Keeps the track of a film whose segments arrive one by one. Each segment's record is placed at its picture, in a table of its own,
 * and joined with the film so far, in a third table, which then becomes the film: the tables change places, and nothing is copied. At
 * the end every picture is looked up.
 *
 *   $ ./film
 *   segment 1, from picture 1: the film has 1 point
 *   segment 2, from picture 4: the film has 2 points
 *   segment 3, from picture 2: refused with 10, and the film stays as it was
 *   segment 4, from picture 6: the film has 3 points
 *   segment 5, from picture 4: the film has 3 points
 *   picture 0: nothing is in force
 *   picture 1: maximum 3072, of segment 1, since picture 1
 *   picture 2: maximum 3072, of segment 1, since picture 1
 *   picture 3: maximum 3072, of segment 1, since picture 1
 *   picture 4: maximum 2048, of segment 5, since picture 4
 *   picture 5: maximum 2048, of segment 5, since picture 4
 *   picture 6: switched off, by segment 4, since picture 6
 *   picture 7: switched off, by segment 4, since picture 6
 *
 * Segment 5 holds the same picture as segment 2 and came later, so it is the one that is shown. README.md says how this is compiled
 * and linked.
 */
#include <stdint.h>
#include <stdio.h>

#include "pimlasut.h"

/* The film so far, the segment that arrives, and their join. A table has 37,888 bytes, so they are not on the stack. */
static int32_t tables[3][PIM_TABLE_LEN];
static int32_t *film = tables[0], *segment = tables[1], *joined = tables[2];
static uint32_t points; /* of the film */

/* Adds a segment's wrapped payload to the film. On a refusal the film stays as it was. */
static uint32_t add(const uint8_t *payload, size_t n, int32_t picture, uint16_t number)
{
    int32_t record[PIM_RECORD_LEN];
    uint32_t reading[PIM_READING_LEN], placed = 0, both = 0;
    uint32_t result = pim_read_wrapped(payload, n, record, PIM_RECORD_LEN, reading, PIM_READING_LEN);
    if (result == PIM_DONE)
        result = pim_place(record, PIM_RECORD_LEN, picture, number, segment, PIM_TABLE_LEN, &placed);
    if (result == PIM_DONE)
        result = pim_join(film, PIM_TABLE_LEN, points, segment, PIM_TABLE_LEN, placed, joined, PIM_TABLE_LEN, &both);
    if (result == PIM_DONE) {
        int32_t *last = film;
        film = joined;
        joined = last;
        points = both;
    }
    return result;
}

static void look_up(int32_t picture)
{
    int32_t point[PIM_POINT_LEN];
    uint32_t found;
    if (pim_lookup(film, PIM_TABLE_LEN, points, picture, point, PIM_POINT_LEN, &found) != PIM_DONE)
        return; /* the film is always a track */
    printf("picture %d: ", (int)picture);
    if (!found) {
        printf("nothing is in force\n");
        return;
    }
    const int32_t *record = point + PIM_POINT_RECORD;
    if (record[1] == 0) /* no blocks */
        printf("switched off, by");
    else /* the first block of each of these payloads is of level 1: min_PQ, max_PQ, avg_PQ */
        printf("maximum %d, of", (int)record[PIM_PLACE(0) + 2]);
    printf(" segment %d, since picture %d\n", (int)point[PIM_POINT_SEGMENT], (int)point[PIM_POINT_PICTURE]);
}

#define WRAPPER 0xB5, 0x00, 0x31, 0x47, 0x41, 0x39, 0x34, 0x09

/* The segments in the order in which they arrive. */
static const struct {
    int32_t picture;
    size_t bytes;
    uint8_t payload[16];
} segments[] = {
    {1, 16, {WRAPPER, 0x5A, 0x30, 0x08, 0x00, 0x60, 0x02, 0x00, 0x00}}, /* a level 1 block with max_PQ 3072 */
    {4, 16, {WRAPPER, 0x5A, 0x30, 0x08, 0x00, 0x7F, 0xFA, 0x00, 0x00}}, /* 4095 */
    {2, 16, {WRAPPER, 0x5A, 0x30, 0x08, 0x00, 0x20, 0x06, 0x00, 0x00}}, /* avg_PQ above max_PQ */
    {6, 9, {WRAPPER, 0x5C}},                                            /* the refresh flag and no block */
    {4, 16, {WRAPPER, 0x5A, 0x30, 0x08, 0x00, 0x40, 0x02, 0x00, 0x00}}, /* 2048 */
};

int main(void)
{
    for (unsigned i = 0; i < sizeof segments / sizeof segments[0]; i++) {
        uint32_t result = add(segments[i].payload, segments[i].bytes, segments[i].picture, (uint16_t)(i + 1));
        printf("segment %u, from picture %d: ", i + 1, (int)segments[i].picture);
        if (result == PIM_DONE)
            printf("the film has %u point%s\n", (unsigned)points, points == 1 ? "" : "s");
        else
            printf("refused with %u, and the film stays as it was\n", (unsigned)result);
    }
    for (int32_t picture = 0; picture < 8; picture++)
        look_up(picture);
    return 0;
}
