/* Hejslopi: Netpbm stills (P5, P6) filtered by a recipe, the movement between two of them, a verdict on one that was
 * filtered elsewhere, and the mean of many. The interface for C (from C99) and C++ (from C++11).
 *
 * Link with target/staticlib/libcapi.a, which `tools/build library` proves and builds (x86-64 Linux). It needs memcpy and
 * memset and nothing else of the C library.
 *
 * Every call returns 0 when it is done, or the number of a refusal. The first test that fails decides.
 * - Done: the values are in `result`, in the order given below. An output is written from its start; what is behind it in
 *   the lent buffer stays. Of the work buffers (work, rows, sums) nothing is promised.
 * - Refused: no lent buffer is altered, neither `result`, nor an output, nor the work buffers, nor a background.
 * No content of the given bytes and no length of a lent buffer is an error of the program: each is answered.
 *
 * The caller owns all memory. Nothing is allocated, and no pointer is kept after a call returns. A call has no state and
 * touches nothing but what it is handed, so calls may run in several threads at once, as long as no thread writes to what
 * another one's call was handed. What is only read (const) may be shared.
 * Calls were tried with 128 KiB of stack, hejslopi_verdict, which holds some rows there, with 192 KiB; nothing proves a bound.
 *
 * What the caller owes for each pointer:
 * - it is not NULL, even if its length is 0 (then nothing is read or written through it: hand any address);
 * - so many elements are there as its length says: lengths count elements, so 32-bit words for rows, sums and labels;
 * - it is aligned for its type, and `result` and `held` have as many elements as declared;
 * - a buffer that is not const overlaps no other one of the same call.
 */
#ifndef HEJSLOPI_H
#define HEJSLOPI_H

#include <stddef.h>
#include <stdint.h>

#ifdef __cplusplus
extern "C" {
#endif

/* What a call returns. hejslopi_meaning says each in words. */
enum hejslopi_refusal {
    HEJSLOPI_DONE = 0,

    /* the still */
    HEJSLOPI_MAGIC = 1,
    HEJSLOPI_HEADER = 2,
    HEJSLOPI_SIDE = 3,
    HEJSLOPI_MAXIMUM = 4,
    HEJSLOPI_RASTER_SHORT = 5,
    HEJSLOPI_RASTER_LONG = 6,

    /* the recipe */
    HEJSLOPI_STAGE_COUNT = 10,
    HEJSLOPI_CUT = 11,
    HEJSLOPI_TRAILING = 12,
    HEJSLOPI_KIND = 13,
    HEJSLOPI_COUNT = 14,
    HEJSLOPI_OFFSET = 15,
    HEJSLOPI_REAL_WEIGHT = 16,
    HEJSLOPI_GAIN = 17,
    HEJSLOPI_POSITION = 18,

    /* the call */
    HEJSLOPI_CHANNELS = 19,
    HEJSLOPI_ROOM = 20,

    /* the program's files: only programs that read files give these, no call does */
    HEJSLOPI_FILE_LONG = 21,
    HEJSLOPI_FILE_UNREAD = 22,

    /* the background */
    HEJSLOPI_STILL_NUMBER = 23,
    HEJSLOPI_STILL_SIZE = 24,
    HEJSLOPI_BACKGROUND_FULL = 25,

    /* the movement */
    HEJSLOPI_SIZES_DIFFER = 26,
    HEJSLOPI_MOVEMENT_LIMIT = 27,

    /* the caller's limits */
    HEJSLOPI_STAGE_LIMIT = 28,
    HEJSLOPI_SAMPLE_LIMIT = 29,

    /* the verdict */
    HEJSLOPI_VERDICT_STAGE = 30,
    HEJSLOPI_RECEIVED_SIZE = 31,
    HEJSLOPI_DISTANCE_LIMIT = 32
};

/* What a returned number means: "done" for 0, "unknown" for one that is no refusal's. */
static inline const char *hejslopi_meaning(uint32_t number)
{
    switch (number) {
    case HEJSLOPI_DONE: return "done";
    case HEJSLOPI_MAGIC: return "the file does not begin with P5 or P6";
    case HEJSLOPI_HEADER: return "the header lacks a separator, a number or the whitespace byte at its end";
    case HEJSLOPI_SIDE: return "the width or the height is not from 1 to 8,192";
    case HEJSLOPI_MAXIMUM: return "the header's maximum is not 255";
    case HEJSLOPI_RASTER_SHORT: return "there are fewer samples than the picture's size asks for";
    case HEJSLOPI_RASTER_LONG: return "there are more samples than the picture's size asks for";
    case HEJSLOPI_STAGE_COUNT: return "the number of stages is 0 or over 8";
    case HEJSLOPI_CUT: return "the recipe ends before a field is complete";
    case HEJSLOPI_TRAILING: return "the recipe goes on after its last stage";
    case HEJSLOPI_KIND: return "a kind is not 1 to 6, a border is over 3, or a border other than constant has a value that is not 0";
    case HEJSLOPI_COUNT: return "an axis has 0 or over 31 taps, a divisor is 0, a radius is over 15, or a plane's recipe has several stages";
    case HEJSLOPI_OFFSET: return "an offset is not -15 to 15, or not above the one before it";
    case HEJSLOPI_REAL_WEIGHT: return "the size of a real weight is neither 0 nor from 2^-12 to 4";
    case HEJSLOPI_GAIN: return "an axis has a gain above 4";
    case HEJSLOPI_POSITION: return "a rank's position is 0 or above the number of samples in its window";
    case HEJSLOPI_CHANNELS: return "the number of channels is neither 1 nor 3";
    case HEJSLOPI_ROOM: return "a lent buffer has less room than the call needs";
    case HEJSLOPI_FILE_LONG: return "the still is longer than 65,536 bytes, or the recipe longer than 4,096";
    case HEJSLOPI_FILE_UNREAD: return "a file cannot be opened, read or written";
    case HEJSLOPI_STILL_NUMBER: return "the number to add is already there, or the number to remove is not";
    case HEJSLOPI_STILL_SIZE: return "the still has another size or other channels than those held";
    case HEJSLOPI_BACKGROUND_FULL: return "a thousand stills are already held";
    case HEJSLOPI_SIZES_DIFFER: return "the two stills have different sizes or channels";
    case HEJSLOPI_MOVEMENT_LIMIT: return "the movement limit is over 255";
    case HEJSLOPI_STAGE_LIMIT: return "the recipe has more stages than the caller's limit";
    case HEJSLOPI_SAMPLE_LIMIT: return "the still has more samples a plane, width times height, than the caller's limit";
    case HEJSLOPI_VERDICT_STAGE: return "the recipe has more than one stage, or a stage of another kind than ratios, box and rank";
    case HEJSLOPI_RECEIVED_SIZE: return "the received still has another size or other channels than the raw one";
    case HEJSLOPI_DISTANCE_LIMIT: return "the distance is over 255";
    default: return "unknown";
    }
}

/* How many elements must be lent for a picture of w by h. (hejslopi_needs gives just what a still and a recipe need.)
 * SUMS is for one box stage of radii r, s: a recipe needs the largest of its box stages, 0 if it has none. SUMS_ANY is enough
 * for every recipe. Neither depends on h, which stays among their arguments so that programs are compiled as before. FILE_ANY is enough for every file of w by h: its header has at most 17 bytes. A plane's output needs w*h.
 * VERDICT_WORK is for hejslopi_verdict, whatever the stage and the channels.
 * BACKGROUND_RASTERS and BACKGROUND_LABELS are for a background of k stills, at most 1,000. */
#define HEJSLOPI_WORK(w, h) ((size_t)2 * (w) * (h))
#define HEJSLOPI_ROWS(w, h) ((size_t)(w) * ((size_t)(h) + 30))
#define HEJSLOPI_SUMS(w, h, r, s) (((size_t)(w) + 2 * (size_t)(r) + 1) * (2 * (size_t)(s) + 2))
#define HEJSLOPI_SUMS_ANY(w, h) HEJSLOPI_SUMS(w, h, 15, 15)
#define HEJSLOPI_FILE_ANY(w, h, channels) ((size_t)17 + (size_t)(w) * (h) * (channels))
#define HEJSLOPI_VERDICT_WORK(w, h) ((size_t)(w) * (h))
#define HEJSLOPI_BACKGROUND_RASTERS(w, h, channels, k) ((size_t)(w) * (h) * (channels) * (k))
#define HEJSLOPI_BACKGROUND_LABELS(k) ((size_t)2 * (k))

/* The limits of two callers of hejslopi_filter_file_limited: how many stages a recipe may have, and how many samples a plane (width * height).
 * The archive's are those of every other call. They are no limits: no recipe that is accepted has more stages, no still more samples. */
#define HEJSLOPI_ARCHIVE_STAGES ((size_t)8)
#define HEJSLOPI_ARCHIVE_SAMPLES ((size_t)67108864)
#define HEJSLOPI_PANEL_STAGES ((size_t)4)
#define HEJSLOPI_PANEL_SAMPLES ((size_t)8192)

/* Read a still, a whole P5 or P6 file.
 * result: width, height, channels (1 or 3), and at which index of `bytes` the raster begins.
 * Refusals: 1, 2, 3, 4, 5, 6. */
uint32_t hejslopi_read_still(const uint8_t *bytes, size_t bytes_len, uint64_t result[4]);

/* Write a still: header and raster into `out`, which needs both (see FILE_ANY).
 * raster: width * height * channels samples, row by row, the three of a pixel together.
 * result: how many bytes were written.
 * Refusals: 19, 3, 5, 6, 20. */
uint32_t hejslopi_write_still(size_t width, size_t height, size_t channels,
                              const uint8_t *raster, size_t raster_len,
                              uint8_t *out, size_t out_len, uint64_t result[1]);

/* Read a recipe.
 * Its fields are tested in the order of their bytes, and the gains of a stage once all its fields have passed, before the next
 * stage is looked at. So the first bad byte decides, and what stands behind it changes nothing.
 * result: the number of stages S, and the tolerance T, counted in 65,536ths of a grey level.
 * Refusals: 10 to 18. */
uint32_t hejslopi_read_recipe(const uint8_t *bytes, size_t bytes_len, uint64_t result[2]);

/* What hejslopi_filter_file needs to filter a still by a recipe, without filtering: for programs that allocate while they run.
 * Of the still the header decides alone: behind it there may be too few samples, too many or none.
 * result: how many bytes of work, how many rows, how many sums and how many bytes of out must be lent, and T. A still that
 * hejslopi_read_still accepts is filtered with just these, into just so many bytes and with this T; if a buffer is shorter, the answer is 20.
 * Refusals: 10 to 18, then 1 to 4. */
uint32_t hejslopi_needs(const uint8_t *recipe, size_t recipe_len,
                        const uint8_t *still, size_t still_len, uint64_t result[5]);

/* Filter a plane of width * height samples. The recipe must have a single stage.
 * Needs: WORK bytes in work, ROWS in rows, SUMS of a box stage in sums, width * height in out.
 * result: T. No written sample is more than T / 65,536 away from the exact result.
 * Refusals: 10 to 18, 14 if there is more than one stage, then 3, 5, 6, 20. */
uint32_t hejslopi_filter_plane(const uint8_t *recipe, size_t recipe_len,
                               size_t width, size_t height,
                               const uint8_t *plane, size_t plane_len,
                               uint8_t *work, size_t work_len,
                               int32_t *rows, size_t rows_len,
                               uint32_t *sums, size_t sums_len,
                               uint8_t *out, size_t out_len, uint64_t result[1]);

/* Filter a still, a whole P5 or P6 file, into another.
 * Needs: WORK bytes in work, ROWS in rows, the largest SUMS of the box stages in sums, header and raster in out: as hejslopi_needs says.
 * result: width, height, channels, T, and how many bytes of out were written.
 * Refusals: 10 to 18, then 1 to 6, then 20. */
uint32_t hejslopi_filter_file(const uint8_t *recipe, size_t recipe_len,
                              const uint8_t *still, size_t still_len,
                              uint8_t *work, size_t work_len,
                              int32_t *rows, size_t rows_len,
                              uint32_t *sums, size_t sums_len,
                              uint8_t *out, size_t out_len, uint64_t result[5]);

/* The same for a caller with limits: `stages` is how many stages a recipe may have at most, `samples` how many samples a plane of the still (width * height,
 * however many channels there are). What is accepted gives the result and the output of hejslopi_filter_file with the same lent buffers.
 * Refusals: 10 to 18, then 28, then 1 to 6, then 29, then 20. */
uint32_t hejslopi_filter_file_limited(const uint8_t *recipe, size_t recipe_len,
                                      const uint8_t *still, size_t still_len,
                                      size_t stages, size_t samples,
                                      uint8_t *work, size_t work_len,
                                      int32_t *rows, size_t rows_len,
                                      uint32_t *sums, size_t sums_len,
                                      uint8_t *out, size_t out_len, uint64_t result[5]);

/* Filter two stills of one size, each by its own recipe, and count the movement between them under a limit of 0 to 255 levels,
 * over all samples of all channels. With d for the difference of two written samples of one place, T1 and T2 for the tolerances:
 * - moved: 65,536 |d| > 65,536 limit + T1 + T2. The exact results of such a sample differ by more than the limit.
 * - still: 65,536 |d| + T1 + T2 <= 65,536 limit. The exact results of such a sample differ by no more than the limit.
 * - open: the others. Rounding may have decided.
 * Needs: WORK bytes in work, ROWS in rows, the largest SUMS of both recipes' box stages in sums; header and raster in each of out1
 * and out2. Each output then holds its filtered file, as hejslopi_filter_file writes it.
 * result: how many samples moved, how many are still, how many are open (width * height * channels in all), T1, T2, and how many
 * bytes of each output were written.
 * Refusals: 27, then 10 to 18 and 1 to 6 of the first, 10 to 18 and 1 to 6 of the second, then 26, 20. */
uint32_t hejslopi_movement(const uint8_t *recipe1, size_t recipe1_len,
                           const uint8_t *still1, size_t still1_len,
                           const uint8_t *recipe2, size_t recipe2_len,
                           const uint8_t *still2, size_t still2_len,
                           uint64_t limit,
                           uint8_t *work, size_t work_len,
                           int32_t *rows, size_t rows_len,
                           uint32_t *sums, size_t sums_len,
                           uint8_t *out1, size_t out1_len,
                           uint8_t *out2, size_t out2_len, uint64_t result[6]);

/* Judge a still that was filtered elsewhere: whether each of its samples, in every channel, lies within `distance` grey levels (0 to 255) of the
 * exact result on the raw still at its place. That is what the recipe's one stage, of ratios, a box or a rank, gives in fractions, kept to 0..255,
 * with nothing rounded. At just that distance the answer is still yes.
 * Needs: VERDICT_WORK bytes in work.
 * result: 1 for yes, 0 for not.
 * Refusals: 32, then 10 to 18, then 30, then 1 to 6 of the raw still, 1 to 6 of the received one, then 31, 20. */
uint32_t hejslopi_verdict(const uint8_t *recipe, size_t recipe_len,
                          const uint8_t *raw, size_t raw_len,
                          const uint8_t *received, size_t received_len,
                          uint64_t distance,
                          uint8_t *work, size_t work_len, uint64_t result[1]);

/* A background: up to 1,000 stills of one size, and their mean. It lies in memory that the caller lends to each call anew:
 * - held: how many stills there are, and their width, height and channels. All 0 at first.
 * - rasters: the rasters of the stills held, one behind the other.
 * - labels: for each of them, in the same order, its number and its T.
 * A call that is done leaves all three as the next one wants them. What lies in rasters and labels behind the stills held is never
 * looked at; behind those held after a call it is as it was before. Both buffers may lie elsewhere at the next call and be longer
 * or shorter, if the stills held come along.
 * An addition puts no number above 8,192 into `held`, but any numbers that a caller puts there are answered: if stills are held and
 * one of the four numbers is above 65,535, there is no room for the stills held (20), however much is lent. */

/* Add a still, a whole P5 or P6 file, with its number and its T (its tolerance in 65,536ths of a grey level).
 * The first still decides the size, also once all have been removed.
 * Needs: BACKGROUND_RASTERS bytes in rasters and BACKGROUND_LABELS in labels, for the stills held and this one.
 * held: one still more, and its size.
 * Refusals: 1 to 6, then 20 if there is not even room for the stills held, then 23, 24, 25, 20. */
uint32_t hejslopi_background_add(const uint8_t *still, size_t still_len,
                                 uint32_t number, uint32_t tolerance,
                                 uint8_t *rasters, size_t rasters_len,
                                 uint32_t *labels, size_t labels_len, uint64_t held[4]);

/* Remove the still of a number. The last one takes its place.
 * Needs: BACKGROUND_RASTERS bytes in rasters and BACKGROUND_LABELS in labels, for the stills held.
 * held: one still less; the size stays.
 * Refusals: 20, 23. */
uint32_t hejslopi_background_remove(uint32_t number,
                                    uint8_t *rasters, size_t rasters_len,
                                    uint32_t *labels, size_t labels_len, uint64_t held[4]);

/* The mean of the stills held, sample by sample, halves up: a raster, without a header.
 * Needs: BACKGROUND_RASTERS bytes in rasters and BACKGROUND_LABELS in labels, for the stills held; a raster's bytes in out.
 * result: how many stills are held, T, and how many bytes of out were written. Where none are held all three are 0, nothing is
 * written, and nothing is refused.
 * T is the largest T of the stills held and 32,768 more, at most 16,711,680. If each still lies within its T of an exact one, no
 * written sample is more than T / 65,536 away from the mean of the exact ones.
 * Refusals: 20. */
uint32_t hejslopi_background_mean(const uint8_t *rasters, size_t rasters_len,
                                  const uint32_t *labels, size_t labels_len,
                                  const uint64_t held[4],
                                  uint8_t *out, size_t out_len, uint64_t result[3]);

#ifdef __cplusplus
}
#endif

#endif
