/* cases <JOB: whether the answers of the five cases have the header's names.
 * The job on standard input, jobs/adds.job, removes.job or inward.job, must have
 * each of them once and in order. */
#include <stdio.h>
#include "track.h"

static uint8_t job[TRACK_MOST_JOB_LEN];
static uint8_t answers[TRACK_MOST_ANSWERS_LEN];
static uint8_t final_marks[TRACK_MOST_FINAL_MARKS_LEN];
static uint32_t triangles[TRACK_MOST_TRIANGLES_LEN], work[TRACK_MOST_WORK_LEN];

int main(void)
{
    static const enum track_answer named[] = {
        TRACK_ANSWER_VERTICES, TRACK_ANSWER_OPPOSITE, TRACK_ANSWER_EDGE};
    size_t job_len = fread(job, 1, sizeof job, stdin);
    uint32_t outcome[TRACK_OUTCOME_LEN];
    int refused = 0, proposals = job[8] + 256 * job[9];

    track_run(job, job_len, answers, TRACK_MOST_ANSWERS_LEN,
              final_marks, TRACK_MOST_FINAL_MARKS_LEN, triangles,
              TRACK_MOST_TRIANGLES_LEN, work, TRACK_MOST_WORK_LEN, outcome);
    for (int i = 0; i < proposals; i++) {
        if (!TRACK_REFUSED_BY_CASES(answers[i]))
            continue;
        if (refused == 3 || answers[i] != named[refused]) {
            fprintf(stderr, "cases: proposal %d has answer %d\n", i, answers[i]);
            return 1;
        }
        refused++;
    }
    return outcome[TRACK_OUTCOME_CODE] != TRACK_CODE_RUN || refused != 3;
}
