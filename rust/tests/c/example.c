/* Document 01's whole-program example, and each call once, from C. Prints `ok` and ends with 0 if all is as expected. */
#include "hejslopi.h"

#include <stdio.h>
#include <string.h>

#define CHECK(x) do { if (!(x)) { printf("line %d: %s\n", __LINE__, #x); return 1; } } while (0)

/* A background in just as much memory as two stills need. */
static int background(void)
{
    static const uint8_t first[] = "P5\n2 1\n255\n\x0A\xFA", second[] = "P5\n2 1\n255\n\x0B\xFF", other[] = "P5\n1 1\n255\n\x07";
    uint8_t rasters[HEJSLOPI_BACKGROUND_RASTERS(2, 1, 1, 2)], out[2] = { 7, 7 };
    uint32_t labels[HEJSLOPI_BACKGROUND_LABELS(2)];
    const size_t bytes = sizeof rasters, numbers = HEJSLOPI_BACKGROUND_LABELS(2);
    uint64_t held[4] = { 0, 0, 0, 0 }, result[3] = { 9, 9, 9 };

    CHECK(bytes == 4 && numbers == 4);
    CHECK(hejslopi_background_mean(rasters, bytes, labels, numbers, held, out, 0, result) == HEJSLOPI_DONE);
    CHECK(result[0] == 0 && result[1] == 0 && result[2] == 0 && out[0] == 7 && out[1] == 7);
    CHECK(hejslopi_background_add(first, sizeof first - 1, 7, 100, rasters, bytes, labels, numbers, held) == HEJSLOPI_DONE);
    CHECK(hejslopi_background_add(first, sizeof first - 1, 7, 100, rasters, bytes, labels, numbers, held) == HEJSLOPI_STILL_NUMBER);
    CHECK(hejslopi_background_add(other, sizeof other - 1, 8, 300, rasters, bytes, labels, numbers, held) == HEJSLOPI_STILL_SIZE);
    CHECK(hejslopi_background_add(second, sizeof second - 1, 8, 300, rasters, bytes - 1, labels, numbers, held) == HEJSLOPI_ROOM);
    CHECK(hejslopi_background_add(second, sizeof second - 1, 8, 300, rasters, bytes, labels, numbers - 1, held) == HEJSLOPI_ROOM);
    CHECK(hejslopi_background_add(second, sizeof second - 1, 8, 300, rasters, bytes, labels, numbers, held) == HEJSLOPI_DONE);
    CHECK(held[0] == 2 && held[1] == 2 && held[2] == 1 && held[3] == 1);
    CHECK(hejslopi_background_mean(rasters, bytes, labels, numbers, held, out, 1, result) == HEJSLOPI_ROOM);
    CHECK(hejslopi_background_mean(rasters, bytes, labels, numbers, held, out, 2, result) == HEJSLOPI_DONE);
    CHECK(result[0] == 2 && result[1] == 33068 && result[2] == 2 && out[0] == 11 && out[1] == 253);
    CHECK(hejslopi_background_remove(9, rasters, bytes, labels, numbers, held) == HEJSLOPI_STILL_NUMBER);
    CHECK(hejslopi_background_remove(7, rasters, bytes, labels, numbers, held) == HEJSLOPI_DONE);
    CHECK(held[0] == 1 && rasters[0] == 11 && rasters[1] == 255 && labels[0] == 8 && labels[1] == 300);
    return 0;
}

/* Two stills in just as much memory as they need: 0, 20 and 60 levels apart once filtered, with a tolerance of 33280/65536 each. */
static int movement(void)
{
    static const uint8_t first[] = "P5\n3 1\n255\n\x0A\x14\x28", second[] = "P5\n3 1\n255\n\x0A\x14\x78", other[] = "P5\n1 1\n255\n\x07";
    static const uint8_t filtered1[] = "P5\n3 1\n255\n\x0D\x17\x23", filtered2[] = "P5\n3 1\n255\n\x0D\x2B\x5F";
    static const uint8_t recipe[] = { 1, 3, 1, 0, 1, 0 };
    enum { LENGTH = sizeof first - 1, RECIPE = sizeof recipe };
    uint8_t work[HEJSLOPI_WORK(3, 1)], out1[LENGTH], out2[LENGTH];
    int32_t rows[HEJSLOPI_ROWS(3, 1)];
    uint32_t sums[1];
    uint64_t result[6] = { 9, 9, 9, 9, 9, 9 };

    memset(out1, 7, sizeof out1);
    CHECK(hejslopi_movement(recipe, RECIPE, first, LENGTH, recipe, RECIPE, second, LENGTH, 256, work, sizeof work,
                            rows, HEJSLOPI_ROWS(3, 1), sums, 0, out1, LENGTH, out2, LENGTH, result) == HEJSLOPI_MOVEMENT_LIMIT);
    CHECK(hejslopi_movement(recipe, RECIPE, first, LENGTH, recipe, RECIPE, other, sizeof other - 1, 19, work, sizeof work,
                            rows, HEJSLOPI_ROWS(3, 1), sums, 0, out1, LENGTH, out2, LENGTH, result) == HEJSLOPI_SIZES_DIFFER);
    CHECK(hejslopi_movement(recipe, RECIPE, first, LENGTH, recipe, RECIPE, second, LENGTH, 19, work, sizeof work,
                            rows, HEJSLOPI_ROWS(3, 1), sums, 0, out1, LENGTH, out2, LENGTH - 1, result) == HEJSLOPI_ROOM);
    for (size_t k = 0; k < sizeof out1; k++)
        CHECK(out1[k] == 7);
    CHECK(result[0] == 9 && result[5] == 9);
    CHECK(hejslopi_movement(recipe, RECIPE, first, LENGTH, recipe, RECIPE, second, LENGTH, 19, work, sizeof work,
                            rows, HEJSLOPI_ROWS(3, 1), sums, 0, out1, LENGTH, out2, LENGTH, result) == HEJSLOPI_DONE);
    CHECK(result[0] == 1 && result[1] == 1 && result[2] == 1 && result[3] == 33280 && result[4] == 33280 && result[5] == LENGTH);
    CHECK(memcmp(out1, filtered1, LENGTH) == 0 && memcmp(out2, filtered2, LENGTH) == 0);
    return 0;
}

/* What a box of radii 1 and 2 needs, by a header alone, and that just so much is enough. */
static int needs(void)
{
    static const uint8_t still[] = "P5\n5 4\n255\nabcdefghijklmnopqrst", recipe[] = { 1, 4, 1, 0, 1, 2 };
    uint8_t work[40], out[31];
    int32_t rows[170];
    uint32_t sums[48];
    uint64_t needed[5] = { 9, 9, 9, 9, 9 }, result[5];

    CHECK(hejslopi_needs(recipe, sizeof recipe - 1, still, 2, needed) == HEJSLOPI_CUT);
    CHECK(hejslopi_needs(recipe, sizeof recipe, still, 10, needed) == HEJSLOPI_HEADER);
    CHECK(needed[0] == 9 && needed[4] == 9);
    CHECK(hejslopi_needs(recipe, sizeof recipe, still, 11, needed) == HEJSLOPI_DONE);
    CHECK(needed[0] == 40 && needed[1] == 170 && needed[2] == 48 && needed[3] == 31 && needed[4] == 32768);
    CHECK(hejslopi_filter_file(recipe, sizeof recipe, still, sizeof still - 1, work, 40, rows, 170, sums, 47, out, 31, result) == HEJSLOPI_ROOM);
    CHECK(hejslopi_filter_file(recipe, sizeof recipe, still, sizeof still - 1, work, 40, rows, 170, sums, 48, out, 31, result) == HEJSLOPI_DONE);
    CHECK(result[3] == needed[4] && result[4] == needed[3]);
    return 0;
}

/* A still of 3 by 1 in just as many work bytes as it needs. By a box of radius 1 across its exact results are 40/3, 70/3 and 100/3. */
static int verdict(void)
{
    static const uint8_t raw[] = "P5\n3 1\n255\n\x0A\x14\x28", received[] = "P5\n3 1\n255\n\x0C\x19\x21", other[] = "P5\n1 3\n255\nabc";
    static const uint8_t box[] = { 1, 4, 1, 0, 1, 0 }, binomial[] = { 1, 3, 1, 0, 1, 0 };
    enum { LENGTH = sizeof raw - 1, RECIPE = sizeof box };
    uint8_t work[HEJSLOPI_VERDICT_WORK(3, 1)];
    uint64_t result[1] = { 9 };

    CHECK(sizeof work == 3);
    memset(work, 7, sizeof work);
    CHECK(hejslopi_verdict(binomial, RECIPE, raw, 1, raw, 1, 256, work, 0, result) == HEJSLOPI_DISTANCE_LIMIT);
    CHECK(hejslopi_verdict(box, RECIPE - 1, raw, 1, raw, 1, 255, work, 0, result) == HEJSLOPI_CUT);
    CHECK(hejslopi_verdict(binomial, RECIPE, raw, 1, raw, 1, 255, work, 0, result) == HEJSLOPI_VERDICT_STAGE);
    CHECK(hejslopi_verdict(box, RECIPE, raw, 1, received, LENGTH - 1, 255, work, 0, result) == HEJSLOPI_MAGIC);
    CHECK(hejslopi_verdict(box, RECIPE, raw, LENGTH, received, LENGTH - 1, 255, work, 0, result) == HEJSLOPI_RASTER_SHORT);
    CHECK(hejslopi_verdict(box, RECIPE, raw, LENGTH, other, LENGTH, 255, work, 0, result) == HEJSLOPI_RECEIVED_SIZE);
    CHECK(hejslopi_verdict(box, RECIPE, raw, LENGTH, received, LENGTH, 255, work, sizeof work - 1, result) == HEJSLOPI_ROOM);
    for (size_t k = 0; k < sizeof work; k++)
        CHECK(work[k] == 7);
    CHECK(result[0] == 9);
    CHECK(hejslopi_verdict(box, RECIPE, raw, LENGTH, received, LENGTH, 1, work, sizeof work, result) == HEJSLOPI_DONE && result[0] == 0);
    CHECK(hejslopi_verdict(box, RECIPE, raw, LENGTH, received, LENGTH, 2, work, sizeof work, result) == HEJSLOPI_DONE && result[0] == 1);
    CHECK(hejslopi_verdict(box, RECIPE, raw, LENGTH, raw, LENGTH, UINT64_MAX, work, sizeof work, result) == HEJSLOPI_DISTANCE_LIMIT);
    return 0;
}

/* A file for callers with limits: at a limit and one beyond it. */
static int limits(void)
{
    static const uint8_t still[] = "P5\n3 1\n255\n\x0A\x14\x28", filtered[] = "P5\n3 1\n255\n\x0D\x17\x23";
    static const uint8_t recipe[] = { 1, 3, 1, 0, 1, 0 };
    enum { LENGTH = sizeof still - 1, RECIPE = sizeof recipe };
    uint8_t work[HEJSLOPI_WORK(3, 1)], out[LENGTH];
    int32_t rows[HEJSLOPI_ROWS(3, 1)];
    uint32_t sums[1];
    uint64_t result[5] = { 9, 9, 9, 9, 9 };

    memset(out, 7, sizeof out);
    CHECK(hejslopi_filter_file_limited(recipe, RECIPE, still, LENGTH, 0, 3, work, sizeof work, rows, HEJSLOPI_ROWS(3, 1),
                                       sums, 0, out, LENGTH, result) == HEJSLOPI_STAGE_LIMIT);
    CHECK(hejslopi_filter_file_limited(recipe, RECIPE, still, LENGTH, 1, 2, work, sizeof work, rows, HEJSLOPI_ROWS(3, 1),
                                       sums, 0, out, LENGTH, result) == HEJSLOPI_SAMPLE_LIMIT);
    for (size_t k = 0; k < sizeof out; k++)
        CHECK(out[k] == 7);
    CHECK(result[0] == 9 && result[4] == 9);
    CHECK(hejslopi_filter_file_limited(recipe, RECIPE, still, LENGTH, 1, 3, work, sizeof work, rows, HEJSLOPI_ROWS(3, 1),
                                       sums, 0, out, LENGTH, result) == HEJSLOPI_DONE);
    CHECK(result[0] == 3 && result[3] == 33280 && result[4] == LENGTH && memcmp(out, filtered, LENGTH) == 0);
    CHECK(hejslopi_filter_file_limited(recipe, RECIPE, still, LENGTH, HEJSLOPI_PANEL_STAGES, HEJSLOPI_PANEL_SAMPLES, work, sizeof work,
                                       rows, HEJSLOPI_ROWS(3, 1), sums, 0, out, LENGTH, result) == HEJSLOPI_DONE);
    CHECK(HEJSLOPI_PANEL_STAGES == 4 && HEJSLOPI_PANEL_SAMPLES == 8192);
    CHECK(HEJSLOPI_ARCHIVE_STAGES == 8 && HEJSLOPI_ARCHIVE_SAMPLES == (size_t)8192 * 8192);
    return 0;
}

int main(void)
{
    static const uint8_t still[] = "P5\n3 1\n255\n\x0A\x14\x28";
    static const uint8_t wanted[] = "P5\n3 1\n255\n\x0D\x17\x23";
    static const uint8_t recipe[] = { 1, 3, 1, 0, 1, 0 };
    const size_t length = sizeof still - 1;

    uint8_t work[HEJSLOPI_WORK(3, 1)];
    int32_t rows[HEJSLOPI_ROWS(3, 1)];
    uint32_t sums[HEJSLOPI_SUMS(3, 1, 1, 0)];
    uint8_t out[HEJSLOPI_FILE_ANY(3, 1, 1)];
    uint64_t result[5] = { 9, 9, 9, 9, 9 };

    /* the program: its line and its output */
    CHECK(hejslopi_filter_file(recipe, sizeof recipe, still, length, work, sizeof work, rows, HEJSLOPI_ROWS(3, 1),
                               sums, 0, out, sizeof out, result) == HEJSLOPI_DONE);
    char line[80];
    snprintf(line, sizeof line, "ok %llu %llu %llu %llu", (unsigned long long)result[0], (unsigned long long)result[1],
             (unsigned long long)result[2], (unsigned long long)result[3]);
    CHECK(strcmp(line, "ok 3 1 1 33280") == 0);
    CHECK(result[4] == length && memcmp(out, wanted, length) == 0);

    /* a row value less: refused, and nothing altered */
    memset(out, 7, sizeof out);
    memset(result, 7, sizeof result);
    CHECK(hejslopi_filter_file(recipe, sizeof recipe, still, length, work, sizeof work, rows, HEJSLOPI_ROWS(3, 1) - 1,
                               sums, 0, out, sizeof out, result) == HEJSLOPI_ROOM);
    for (size_t k = 0; k < sizeof out; k++)
        CHECK(out[k] == 7);
    for (size_t k = 0; k < sizeof result; k++)
        CHECK(((const uint8_t *)result)[k] == 7);

    /* the other calls on stills and recipes */
    uint64_t four[4], two[2], one[1];
    CHECK(hejslopi_read_still(still, length, four) == HEJSLOPI_DONE);
    CHECK(four[0] == 3 && four[1] == 1 && four[2] == 1 && four[3] == 11);
    CHECK(hejslopi_read_still(still, 1, four) == HEJSLOPI_MAGIC);
    CHECK(hejslopi_read_recipe(recipe, sizeof recipe, two) == HEJSLOPI_DONE);
    CHECK(two[0] == 1 && two[1] == 33280);
    CHECK(hejslopi_read_recipe(recipe, 0, two) == HEJSLOPI_CUT);
    CHECK(hejslopi_write_still(3, 1, 1, still + four[3], 3, out, sizeof out, one) == HEJSLOPI_DONE);
    CHECK(one[0] == length && memcmp(out, still, length) == 0);
    CHECK(hejslopi_write_still(3, 1, 2, still + four[3], 3, out, sizeof out, one) == HEJSLOPI_CHANNELS);

    /* box of radius 1 across, nearest: 13 23 33 */
    static const uint8_t box[] = { 1, 4, 1, 0, 1, 0 };
    CHECK(hejslopi_filter_plane(box, sizeof box, 3, 1, still + four[3], 3, work, sizeof work, rows, HEJSLOPI_ROWS(3, 1),
                                sums, HEJSLOPI_SUMS(3, 1, 1, 0), out, sizeof out, one) == HEJSLOPI_DONE);
    CHECK(one[0] == 32768 && out[0] == 13 && out[1] == 23 && out[2] == 33);

    /* refusals in words */
    CHECK(strcmp(hejslopi_meaning(HEJSLOPI_DONE), "done") == 0);
    CHECK(strcmp(hejslopi_meaning(hejslopi_read_still(still, 1, four)), "the file does not begin with P5 or P6") == 0);
    CHECK(strcmp(hejslopi_meaning(HEJSLOPI_FILE_UNREAD), "a file cannot be opened, read or written") == 0);
    CHECK(strcmp(hejslopi_meaning(HEJSLOPI_BACKGROUND_FULL), "a thousand stills are already held") == 0);
    CHECK(strcmp(hejslopi_meaning(HEJSLOPI_MOVEMENT_LIMIT), "the movement limit is over 255") == 0);
    CHECK(strcmp(hejslopi_meaning(HEJSLOPI_DISTANCE_LIMIT), "the distance is over 255") == 0);
    CHECK(strcmp(hejslopi_meaning(7), "unknown") == 0 && strcmp(hejslopi_meaning(99), "unknown") == 0);

    if (limits() != 0 || needs() != 0 || verdict() != 0 || movement() != 0 || background() != 0)
        return 1;
    puts("ok");
    return 0;
}
