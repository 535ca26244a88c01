/* work <JOB: whether the work area needs as many words as the header says, and
 * its words are what the header says, by the rows of the job and its final
 * marks. The job on standard input must be run. */
#include <stdio.h>
#include <string.h>
#include "track.h"

static uint8_t job[TRACK_MOST_JOB_LEN];
static size_t job_len;
static uint8_t answers[TRACK_MOST_ANSWERS_LEN];
static uint8_t final_marks[TRACK_MOST_FINAL_MARKS_LEN];
static uint32_t triangles[TRACK_MOST_TRIANGLES_LEN];
static uint32_t work[TRACK_MOST_WORK_LEN + 1], lent[TRACK_MOST_WORK_LEN + 1];

static uint32_t word_at(size_t at)
{
    return job[at] | (uint32_t)job[at + 1] << 8 | (uint32_t)job[at + 2] << 16
           | (uint32_t)job[at + 3] << 24;
}

static uint32_t id_at(uint32_t row, uint32_t corner)
{
    return word_at(TRACK_HEADER_LEN + 16 * row + 4 * corner);
}

static int holds(uint32_t row, uint32_t id)
{
    return id_at(row, 0) == id || id_at(row, 1) == id || id_at(row, 2) == id
           || id_at(row, 3) == id;
}

/* The code of the job with so much work lent. */
static uint32_t code(size_t work_len)
{
    uint32_t outcome[TRACK_OUTCOME_LEN];
    memcpy(work, lent, sizeof work);
    track_run(job, job_len, answers, TRACK_MOST_ANSWERS_LEN,
              final_marks, TRACK_MOST_FINAL_MARKS_LEN, triangles,
              TRACK_MOST_TRIANGLES_LEN, work, work_len, outcome);
    return outcome[TRACK_OUTCOME_CODE];
}

static int is_across(uint32_t row, uint32_t corner, uint32_t across)
{
    for (uint32_t c = 0; c < 4; c++)
        if (c != corner && !holds(across, id_at(row, c)))
            return 0;
    return across != row;
}

int main(void)
{
    job_len = fread(job, 1, sizeof job, stdin);
    uint32_t v = word_at(0), n = word_at(4);
    size_t len = TRACK_WORK_LEN(v, n);
    memset(lent, 0x55, sizeof lent);

    if (code(len - 1) != TRACK_CODE_ROOM || memcmp(work, lent, sizeof work) != 0
        || code(len) != TRACK_CODE_RUN
        || memcmp(work + len, lent + len, sizeof work - len * sizeof *work)
           != 0) {
        fputs("work: its length is not that of the header\n", stderr);
        return 1;
    }
    for (uint32_t at = 0; at < 4 * n; at++) {
        if (work[at] >= n || !is_across(at / 4, at % 4, work[at])) {
            fprintf(stderr, "work: word %u is no neighbour\n", (unsigned)at);
            return 1;
        }
    }
    for (uint32_t id = 0; id < v; id++) {
        uint32_t inside = 0, all = 0;
        for (uint32_t row = 0; row < n; row++) {
            all += (uint32_t)holds(row, id);
            inside += (uint32_t)(holds(row, id) && final_marks[row] == 1);
        }
        if (work[4 * n + id] != inside || work[4 * n + v + id] != all) {
            fprintf(stderr, "work: the tallies of id %u\n", (unsigned)id);
            return 1;
        }
    }
    return 0;
}
