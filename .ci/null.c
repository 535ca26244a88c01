/* null <JOB: whether each function takes a null pointer for each length of 0.
 * The job on standard input must have no proposals, so that it runs with no
 * answers, and no points, so that its file is not looked at. */
#include <stdio.h>
#include "track.h"

static uint8_t job[TRACK_MOST_JOB_LEN];
static uint8_t final_marks[TRACK_MOST_FINAL_MARKS_LEN];
static uint32_t triangles[TRACK_MOST_TRIANGLES_LEN];
static uint32_t work[TRACK_MOST_WORK_LEN];

/* The code is the first word of each outcome. */
static int gave(const uint32_t *outcome, int code, const char *with)
{
    if (outcome[0] == (uint32_t)code)
        return 1;
    fprintf(stderr, "null: code %u %s, not %d\n", (unsigned)outcome[0], with,
            code);
    return 0;
}

static int stl_functions(size_t job_len)
{
    static const int16_t units[TRACK_STL_UNITS_LEN(1)];
    static uint8_t file[TRACK_STL_LEN(0)];
    uint32_t run[TRACK_OUTCOME_LEN];
    uint32_t wrote[TRACK_STL_WRITE_OUTCOME_LEN];
    uint32_t was_read[TRACK_STL_READ_OUTCOME_LEN];
    int well = 1;

    track_stl_run(NULL, 0, NULL, 0, NULL, 0, NULL, 0, NULL, 0, NULL, 0, run);
    well &= gave(run, TRACK_CODE_SHORT, "without a job and a file");

    track_stl_run(job, job_len, NULL, 0,
                  final_marks, TRACK_MOST_FINAL_MARKS_LEN, triangles,
                  TRACK_MOST_TRIANGLES_LEN, work, TRACK_MOST_WORK_LEN,
                  NULL, 0, run);
    well &= gave(run, TRACK_CODE_NO_POINTS, "without points and a file");

    track_stl_write(NULL, 0, NULL, 0, wrote);
    well &= gave(wrote, TRACK_STL_WRITE_CODE_ROOM, "without units and a file");

    track_stl_write(units, TRACK_STL_UNITS_LEN(1), NULL, 0, wrote);
    well &= gave(wrote, TRACK_STL_WRITE_CODE_ROOM, "without a file");

    track_stl_write(NULL, 0, file, TRACK_STL_LEN(0), wrote);
    well &= gave(wrote, TRACK_STL_WRITE_CODE_WRITTEN, "without units");

    track_stl_read(file, TRACK_STL_LEN(0), NULL, 0, was_read);
    well &= gave(was_read, TRACK_STL_READ_CODE_READ, "without room for units");

    track_stl_read(NULL, 0, NULL, 0, was_read);
    well &= gave(was_read, TRACK_STL_READ_CODE_LENGTH, "with no file to read");
    return well;
}

int main(void)
{
    size_t job_len = fread(job, 1, sizeof job, stdin);
    uint32_t outcome[TRACK_OUTCOME_LEN];
    int well = 1;

    track_run(NULL, 0, NULL, 0, NULL, 0, NULL, 0, NULL, 0, outcome);
    well &= gave(outcome, TRACK_CODE_SHORT, "without a job");

    track_run(job, job_len, NULL, 0, NULL, 0, NULL, 0, NULL, 0, outcome);
    well &= gave(outcome, TRACK_CODE_ROOM, "without buffers");

    track_run(job, job_len, NULL, 0, final_marks, TRACK_MOST_FINAL_MARKS_LEN,
              triangles, TRACK_MOST_TRIANGLES_LEN, work, TRACK_MOST_WORK_LEN,
              outcome);
    well &= gave(outcome, TRACK_CODE_RUN, "without answers");
    well &= stl_functions(job_len);
    return !well;
}
