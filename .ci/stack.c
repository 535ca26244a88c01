/* stack JOB...: the most stack that a call takes on these jobs, in bytes: of
 * track_run, of track_stl_run, and of the two that write and read the STL file
 * that the latter leaves. Past TRACK_STACK the status is 1.
 *
 * Each call runs on a stack of its own that was painted before, where nothing
 * else is called; from the caller's frame down to the deepest byte that changed
 * is what the call took. A byte may be written with the paint's own value, so
 * each call runs once with each of two paints. */
#include <stdio.h>
#include <stdlib.h>
#include <string.h>
#include <ucontext.h>
#include "track.h"

#define PAINTED 1000000
static unsigned char stack[PAINTED];

static uint8_t job[TRACK_MOST_JOB_LEN + 1];
static size_t job_len;
static uint8_t answers[TRACK_MOST_ANSWERS_LEN];
static uint8_t final_marks[TRACK_MOST_FINAL_MARKS_LEN];
static uint32_t triangles[TRACK_MOST_TRIANGLES_LEN];
static uint32_t work[TRACK_MOST_WORK_LEN];
static uint8_t file[TRACK_MOST_STL_LEN];
static int16_t units[TRACK_MOST_STL_UNITS_LEN];
static uint32_t outcome[TRACK_OUTCOME_LEN];
static uint32_t was_written[TRACK_STL_WRITE_OUTCOME_LEN];
static uint32_t was_read[TRACK_STL_READ_OUTCOME_LEN];

static unsigned char *callers_frame;

static void fail(const char *what)
{
    perror(what);
    exit(1);
}

static void read_job(const char *name)
{
    FILE *file = fopen(name, "rb");
    if (file == NULL)
        fail(name);
    job_len = fread(job, 1, sizeof job, file);
    if (ferror(file))
        fail(name);
    fclose(file);
}

/* Set behind each call, so that the call does not take the caller's place. */
static volatile int returned;

/* Each of these has nothing on the stack but what it passes. */
static void call_run(void)
{
    callers_frame = (unsigned char *)__builtin_frame_address(0);
    track_run(job, job_len, answers, TRACK_MOST_ANSWERS_LEN,
              final_marks, TRACK_MOST_FINAL_MARKS_LEN,
              triangles, TRACK_MOST_TRIANGLES_LEN,
              work, TRACK_MOST_WORK_LEN, outcome);
    returned = 1;
}

static void call_stl_run(void)
{
    callers_frame = (unsigned char *)__builtin_frame_address(0);
    track_stl_run(job, job_len, answers, TRACK_MOST_ANSWERS_LEN,
                  final_marks, TRACK_MOST_FINAL_MARKS_LEN,
                  triangles, TRACK_MOST_TRIANGLES_LEN,
                  work, TRACK_MOST_WORK_LEN, file, TRACK_MOST_STL_LEN, outcome);
    returned = 1;
}

static void call_stl_read(void)
{
    callers_frame = (unsigned char *)__builtin_frame_address(0);
    track_stl_read(file, TRACK_STL_LEN(outcome[TRACK_OUTCOME_TRIANGLES]),
                   units, TRACK_MOST_STL_UNITS_LEN, was_read);
    returned = 1;
}

static void call_stl_write(void)
{
    callers_frame = (unsigned char *)__builtin_frame_address(0);
    uint32_t facets = was_read[TRACK_STL_READ_OUTCOME_FACETS];
    track_stl_write(units, TRACK_STL_UNITS_LEN(facets),
                    file, TRACK_MOST_STL_LEN, was_written);
    returned = 1;
}

/* In this order: the second writes what the third reads, and the last writes
 * that again. */
static const struct {
    const char *name;
    void (*run)(void);
} calls[] = {
    {"track_run", call_run},
    {"track_stl_run", call_stl_run},
    {"track_stl_read", call_stl_read},
    {"track_stl_write", call_stl_write},
};
#define CALLS (sizeof calls / sizeof *calls)

static size_t bytes_taken(void (*call)(void), int paint)
{
    ucontext_t here, painted;
    memset(stack, paint, PAINTED);
    if (getcontext(&painted) != 0)
        fail("getcontext");
    painted.uc_stack.ss_sp = stack;
    painted.uc_stack.ss_size = PAINTED;
    painted.uc_link = &here;
    makecontext(&painted, call, 0);
    if (swapcontext(&here, &painted) != 0)
        fail("swapcontext");

    const unsigned char *deepest = stack;
    while (deepest < callers_frame && *deepest == paint)
        deepest++;
    return (size_t)(callers_frame - deepest);
}

int main(int argc, char **argv)
{
    static const int paints[] = {0x55, 0xaa};
    size_t most[CALLS] = {0};
    int past = 0;
    if (argc < 2) {
        fputs("stack: nothing was measured\n", stderr);
        return 1;
    }
    for (int i = 1; i < argc; i++) {
        read_job(argv[i]);
        for (size_t k = 0; k < CALLS; k++) {
            for (int run = 0; run < 2; run++) {
                size_t bytes = bytes_taken(calls[k].run, paints[run]);
                if (bytes > most[k])
                    most[k] = bytes;
            }
        }
    }
    printf("bytes of stack:");
    for (size_t k = 0; k < CALLS; k++) {
        printf(" %s %zu,", calls[k].name, most[k]);
        past |= most[k] > TRACK_STACK;
    }
    printf(" %s %d\n", past ? "more than TRACK_STACK," : "at most",
           TRACK_STACK);
    return past;
}
