/* Runs the job in a file and prints its outcome, the first line of its listing:
 * `done`, proposals, taken and triangles, or `refused`, code and place. */
#include <inttypes.h>
#include <stdio.h>
#include "track.h"

/* One byte more than a job can have. So much of a longer file is enough: no job
 * is as long, and it gets the code of the whole file. */
static uint8_t job[TRACK_MOST_JOB_LEN + 1];
static uint8_t answers[TRACK_MOST_ANSWERS_LEN];
static uint8_t final_marks[TRACK_MOST_FINAL_MARKS_LEN];
static uint32_t triangles[TRACK_MOST_TRIANGLES_LEN], work[TRACK_MOST_WORK_LEN];

static int failed(const char *what)
{
    perror(what);
    return 1;
}

int main(int argc, char **argv)
{
    if (argc != 2) {
        fputs("usage: outcome JOB\n", stderr);
        return 1;
    }
    FILE *file = fopen(argv[1], "rb");
    if (file == NULL)
        return failed(argv[1]);
    size_t job_len = fread(job, 1, sizeof job, file);
    if (ferror(file))
        return failed(argv[1]);
    fclose(file);

    uint32_t outcome[TRACK_OUTCOME_LEN];
    track_run(job, job_len, answers, TRACK_MOST_ANSWERS_LEN,
              final_marks, TRACK_MOST_FINAL_MARKS_LEN, triangles,
              TRACK_MOST_TRIANGLES_LEN, work, TRACK_MOST_WORK_LEN, outcome);

    /* The number of proposals is in the job: its third word, at most 1,024. */
    if (outcome[TRACK_OUTCOME_CODE] == TRACK_CODE_RUN)
        printf("done %d %" PRIu32 " %" PRIu32 "\n", job[8] + 256 * job[9],
               outcome[TRACK_OUTCOME_TAKEN], outcome[TRACK_OUTCOME_TRIANGLES]);
    else
        printf("refused %" PRIu32 " %" PRIu32 "\n",
               outcome[TRACK_OUTCOME_CODE], outcome[TRACK_OUTCOME_PLACE]);
    if (fflush(stdout) != 0 || ferror(stdout))
        return failed("standard output");
    return 0;
}
