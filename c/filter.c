/* filter STILL RECIPE OUT: filters a still by a recipe into OUT and prints `ok W H channels T`, or `no N` with the reason on
 * standard error. It ends with 0 when done, with 1 when the library refuses, and with 2 when it is called wrongly or when a file
 * or standard output fails. OUT is written whole, or left as it was.
 *
 *     cc -I include c/filter.c target/staticlib/libcapi.a -o c-filter
 */
#define _POSIX_C_SOURCE 200809L
#include "files.h"
#include "hejslopi.h"

#include <inttypes.h>
#include <signal.h>
#include <stdio.h>

/* The largest raster, with a mebibyte for a header and its comments. */
#define STILL_MOST ((size_t)8192 * 8192 * 3 + (1 << 20))
/* No accepted recipe is longer than 2,521 bytes, so what stands behind these cannot change the answer. */
#define RECIPE_MOST ((size_t)65536)

enum exit_status { DONE = 0, REFUSED = 1, FAILED = 2 };
enum word { STILL = 1, RECIPE = 2, OUT = 3, WORDS = 4 };

/* Begins a line about a file. Control bytes of its path are shown as `?`: they could make more lines of it. */
static void about(const char *path)
{
    fputs("filter: ", stderr);
    for (; *path; path++)
        fputc((unsigned char)*path < ' ' || *path == 127 ? '?' : *path, stderr);
    fputs(": ", stderr);
}

/* Whether standard output takes what printf gave this answer for. If not, says so. */
static int printed(int answer)
{
    if (answer >= 0 && fflush(stdout) == 0)
        return 1;
    fprintf(stderr, "filter: standard output cannot be written: %s\n", strerror(errno));
    return 0;
}

/* Tells of a file that cannot be `read` or `written`. Gives the exit status, as the next one does. */
static int failed(const char *path, const char *deed, const char *reason)
{
    if (printed(printf("no %d\n", HEJSLOPI_FILE_UNREAD))) {
        about(path);
        fprintf(stderr, "cannot be %s: %s\n", deed, reason);
    }
    return FAILED;
}

/* Tells of a still that there is no memory for. */
static int unheld(const char *path)
{
    if (printed(printf("no %d\n", HEJSLOPI_ROOM))) {
        about(path);
        fputs("there is not enough memory\n", stderr);
    }
    return FAILED;
}

/* Tells of a file that the library refuses, and of the stage that is at fault, unless that is 0. */
static int refused(const char *path, uint32_t refusal, unsigned stage)
{
    if (!printed(printf("no %" PRIu32 "\n", refusal)))
        return FAILED;
    about(path);
    fprintf(stderr, "refused with %" PRIu32 ": %s", refusal, hejslopi_meaning(refusal));
    if (stage > 0)
        fprintf(stderr, " (stage %u)", stage);
    fputc('\n', stderr);
    return REFUSED;
}

/* Which stage makes the library refuse a recipe, from 1; 0 if none does. With a smaller number in its first byte a recipe is read
 * as far as that many stages go, and they are fine if it is accepted or refused for what follows them. */
static unsigned faulty_stage(struct bytes recipe)
{
    uint64_t result[2];
    if (recipe.length == 0 || hejslopi_read_recipe(recipe.start, recipe.length, result) == HEJSLOPI_STAGE_COUNT)
        return 0;
    const uint8_t stages = recipe.start[0];
    unsigned stage = 0;
    for (unsigned count = 1; count <= stages && stage == 0; count++) {
        recipe.start[0] = (uint8_t)count;
        const uint32_t refusal = hejslopi_read_recipe(recipe.start, recipe.length, result);
        if (refusal != HEJSLOPI_DONE && refusal != HEJSLOPI_TRAILING)
            stage = count;
    }
    recipe.start[0] = stages;
    return stage;
}

/* Lends what every recipe can need, and filters a still of this size. No memory is no room. */
static uint32_t lend_and_filter(struct bytes recipe, struct bytes still, const uint64_t size[3],
                                struct bytes *out, uint64_t result[5])
{
    const size_t width = size[0], height = size[1], channels = size[2];
    const size_t work_length = HEJSLOPI_WORK(width, height), rows_length = HEJSLOPI_ROWS(width, height);
    const size_t sums_length = HEJSLOPI_SUMS_ANY(width, height), out_length = HEJSLOPI_FILE_ANY(width, height, channels);
    uint8_t *work = malloc(work_length);
    int32_t *rows = malloc(rows_length * sizeof *rows);
    uint32_t *sums = malloc(sums_length * sizeof *sums);
    uint32_t refusal = HEJSLOPI_ROOM;
    out->start = malloc(out_length);
    if (work && rows && sums && out->start)
        refusal = hejslopi_filter_file(recipe.start, recipe.length, still.start, still.length, work, work_length,
                                       rows, rows_length, sums, sums_length, out->start, out_length, result);
    if (refusal == HEJSLOPI_DONE)
        out->length = result[4];
    free(work);
    free(rows);
    free(sums);
    return refusal;
}

/* Filters a still into `out`, whose bytes the caller frees. Gives 0, or a refusal's number. */
static uint32_t filter(struct bytes recipe, struct bytes still, struct bytes *out, uint64_t result[5])
{
    uint64_t stages_and_tolerance[2], picture[4];
    uint32_t refusal = hejslopi_read_recipe(recipe.start, recipe.length, stages_and_tolerance);
    if (refusal == HEJSLOPI_DONE)
        refusal = hejslopi_read_still(still.start, still.length, picture);
    if (refusal == HEJSLOPI_DONE)
        refusal = lend_and_filter(recipe, still, picture, out, result);
    return refusal;
}

/* Filters what was read into OUT, and tells of it. Gives the exit status, as the next one does. */
static int answer(char **words, struct bytes still, struct bytes recipe)
{
    struct bytes out = { NULL, 0 };
    uint64_t result[5]; /* width, height, channels, T, bytes of out */
    const uint32_t refusal = filter(recipe, still, &out, result);
    int error, status;
    if (refusal >= HEJSLOPI_STAGE_COUNT && refusal <= HEJSLOPI_POSITION)
        status = refused(words[RECIPE], refusal, faulty_stage(recipe));
    else if (refusal == HEJSLOPI_ROOM)
        status = unheld(words[STILL]);
    else if (refusal != HEJSLOPI_DONE)
        status = refused(words[STILL], refusal, 0);
    else if ((error = write_file(words[OUT], out)) != 0)
        status = failed(words[OUT], "written", strerror(error));
    else if (printed(printf("ok %" PRIu64 " %" PRIu64 " %" PRIu64 " %" PRIu64 "\n", result[0], result[1], result[2], result[3])))
        status = DONE;
    else
        status = FAILED;
    free(out.start);
    return status;
}

/* Reads both files and answers. */
static int run(char **words)
{
    struct bytes still = { NULL, 0 }, recipe = { NULL, 0 };
    int error, status;
    if ((error = read_file(words[STILL], STILL_MOST + 1, &still)) != 0)
        status = failed(words[STILL], "read", strerror(error));
    else if (still.length > STILL_MOST)
        status = failed(words[STILL], "read", "it is longer than 202,375,168 bytes");
    else if ((error = read_file(words[RECIPE], RECIPE_MOST, &recipe)) != 0)
        status = failed(words[RECIPE], "read", strerror(error));
    else
        status = answer(words, still, recipe);
    free(still.start);
    free(recipe.start);
    return status;
}

int main(int count, char **words)
{
    if (!is_open(STDOUT_FILENO)) {
        fputs("filter: standard output is closed\n", stderr);
        return FAILED;
    }
    open_closed();
    signal(SIGPIPE, SIG_IGN); /* a reader that is gone and a file above the user's limit are errors as others are */
    signal(SIGXFSZ, SIG_IGN);
    if (count != WORDS) {
        fputs("usage: filter STILL RECIPE OUT\n", stderr);
        return FAILED;
    }
    const char *wrong = same_file(words[RECIPE], words[OUT]) ? "is the recipe, which would be lost"
        : takes_output(words[OUT]) ? "is where standard output goes, and the line with it" : NULL;
    if (wrong) {
        about(words[OUT]);
        fprintf(stderr, "%s\n", wrong);
        return FAILED;
    }
    return run(words);
}
