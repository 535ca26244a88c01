/* outward POINTS OUTWARD BARE BESIDE: whether the skin of a job is listed in the
 * order that its word 7 asks for. The jobs are jobs/points.job, outward.job and
 * a.job, the same table and proposals with points, to be listed rising and
 * outward, and without; and jobs/beside.job, which has points and the sky
 * inside. */
#include <stdio.h>
#include <string.h>
#include "track.h"

#define TRIANGLES 4

static uint8_t job[TRACK_MOST_JOB_LEN];
static size_t job_len;
static uint8_t answers[TRACK_MOST_ANSWERS_LEN];
static uint8_t final_marks[TRACK_MOST_FINAL_MARKS_LEN];
static uint32_t triangles[TRACK_MOST_TRIANGLES_LEN], work[TRACK_MOST_WORK_LEN];
static uint32_t outcome[TRACK_OUTCOME_LEN];

static const uint32_t rising[3 * TRIANGLES] = {
    2, 3, 4, 1, 3, 4, 1, 2, 4, 1, 2, 3};
static const uint32_t outward[3 * TRIANGLES] = {
    2, 4, 3, 1, 3, 4, 1, 4, 2, 1, 2, 3};
static const uint32_t sky_rising[3 * TRIANGLES] = {
    1, 2, 3, 1, 2, 4, 1, 3, 4, 2, 3, 4};
static const uint32_t sky_outward[3 * TRIANGLES] = {
    1, 3, 2, 1, 2, 4, 1, 4, 3, 2, 3, 4};

static int read_job(const char *name)
{
    FILE *file = fopen(name, "rb");
    if (file == NULL) {
        perror(name);
        return 0;
    }
    job_len = fread(job, 1, sizeof job, file);
    fclose(file);
    return 1;
}

static void run(void)
{
    memset(triangles, 0, sizeof triangles);
    track_run(job, job_len, answers, TRACK_MOST_ANSWERS_LEN,
              final_marks, TRACK_MOST_FINAL_MARKS_LEN, triangles,
              TRACK_MOST_TRIANGLES_LEN, work, TRACK_MOST_WORK_LEN, outcome);
}

/* Whether the job in this file has this word 7, and these triangles. */
static int lists(const char *name, int word_7, const uint32_t *expected)
{
    run();
    if (job[TRACK_WORD_7_AT] == word_7
        && outcome[TRACK_OUTCOME_CODE] == TRACK_CODE_RUN
        && outcome[TRACK_OUTCOME_TRIANGLES] == TRIANGLES
        && memcmp(triangles, expected, sizeof rising) == 0)
        return 1;
    fprintf(stderr, "outward: the triangles of %s with word 7 = %d\n", name,
            word_7);
    return 0;
}

/* Whether the job with points in this file, its word 7 made each byte, has these
 * triangles where that asks for an order, and is refused where it does not. */
static int each_order(const char *name, const uint32_t *by_ids,
                      const uint32_t *by_sides)
{
    if (!read_job(name))
        return 0;
    for (int word_7 = 0; word_7 < 256; word_7++) {
        job[TRACK_WORD_7_AT] = (uint8_t)word_7;
        if (word_7 == TRACK_WORD_7_OUTWARD) {
            if (!lists(name, word_7, by_sides))
                return 0;
        } else if (word_7 == TRACK_WORD_7_RISING) {
            if (!lists(name, word_7, by_ids))
                return 0;
        } else {
            run();
            if (outcome[TRACK_OUTCOME_CODE] != TRACK_CODE_LAYOUT) {
                fprintf(stderr, "outward: %s is not refused with word 7 = %d\n",
                        name, word_7);
                return 0;
            }
        }
    }
    return 1;
}

int main(int argc, char **argv)
{
    if (argc != 5) {
        fputs("usage: outward POINTS OUTWARD BARE BESIDE\n", stderr);
        return 1;
    }
    return !(read_job(argv[1]) && lists(argv[1], TRACK_WORD_7_RISING, rising)
             && read_job(argv[2])
             && lists(argv[2], TRACK_WORD_7_OUTWARD, outward)
             && read_job(argv[3])
             && lists(argv[3], TRACK_WORD_7_NO_POINTS, rising)
             && each_order(argv[1], rising, outward)
             && each_order(argv[4], sky_rising, sky_outward));
}
