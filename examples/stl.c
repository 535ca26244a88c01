/* Runs the job in a file and writes its skin to another file as binary STL. The
 * job must have points. Where it is refused, the message has its code and its
 * place, and nothing is written. */
#include <inttypes.h>
#include <stdio.h>
#include "track.h"

/* One byte more than a job can have. So much of a longer file is enough: no job
 * is as long, and it gets the code of the whole file. */
static uint8_t job[TRACK_MOST_JOB_LEN + 1];
static uint8_t answers[TRACK_MOST_ANSWERS_LEN];
static uint8_t final_marks[TRACK_MOST_FINAL_MARKS_LEN];
static uint32_t triangles[TRACK_MOST_TRIANGLES_LEN], work[TRACK_MOST_WORK_LEN];
static uint8_t stl[TRACK_MOST_STL_LEN];

static int failed(const char *what)
{
    perror(what);
    return 1;
}

int main(int argc, char **argv)
{
    if (argc != 3) {
        fputs("usage: stl JOB FILE\n", stderr);
        return 1;
    }
    FILE *file = fopen(argv[1], "rb");
    if (file == NULL)
        return failed(argv[1]);
    size_t job_len = fread(job, 1, sizeof job, file);
    if (ferror(file))
        return failed(argv[1]);
    fclose(file);

    uint32_t outcome[TRACK_OUTCOME_LEN];
    track_stl_run(job, job_len, answers, TRACK_MOST_ANSWERS_LEN,
                  final_marks, TRACK_MOST_FINAL_MARKS_LEN, triangles,
                  TRACK_MOST_TRIANGLES_LEN, work, TRACK_MOST_WORK_LEN,
                  stl, TRACK_MOST_STL_LEN, outcome);
    if (outcome[TRACK_OUTCOME_CODE] != TRACK_CODE_RUN) {
        fprintf(stderr, "%s: refused %" PRIu32 " %" PRIu32 "\n", argv[1],
                outcome[TRACK_OUTCOME_CODE], outcome[TRACK_OUTCOME_PLACE]);
        return 1;
    }

    size_t stl_len = TRACK_STL_LEN(outcome[TRACK_OUTCOME_TRIANGLES]);
    file = fopen(argv[2], "wb");
    if (file == NULL)
        return failed(argv[2]);
    size_t put = fwrite(stl, 1, stl_len, file);
    if (fclose(file) != 0 || put != stl_len)
        return failed(argv[2]);
    return 0;
}
