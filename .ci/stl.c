/* stl POINTS BARE FILE: whether the calls over STL files give the header's
 * codes, places and words, and leave what it says. POINTS is a job with points,
 * BARE one without, both are run, and FILE is the STL file of the first, with
 * two facets or more. */
#include <stdio.h>
#include <string.h>
#include "track.h"

#define GUARD 9 /* elements behind what a call fills */

static uint8_t job[TRACK_MOST_JOB_LEN], stored[TRACK_MOST_STL_LEN];
static uint8_t answers[TRACK_MOST_ANSWERS_LEN];
static uint8_t final_marks[TRACK_MOST_FINAL_MARKS_LEN];
static uint32_t triangles[TRACK_MOST_TRIANGLES_LEN], work[TRACK_MOST_WORK_LEN];
static uint32_t as_run[TRACK_MOST_TRIANGLES_LEN];
static uint8_t file[TRACK_MOST_STL_LEN + GUARD];
static uint8_t painted[TRACK_MOST_STL_LEN + GUARD];
static int16_t units[TRACK_MOST_STL_UNITS_LEN + GUARD];
static int16_t unread[TRACK_MOST_STL_UNITS_LEN + GUARD];
static size_t stored_len;
static int well = 1;

static void expect(int held, const char *what)
{
    if (!held) {
        fprintf(stderr, "stl: %s\n", what);
        well = 0;
    }
}

static size_t bytes_of(const char *name, uint8_t *bytes, size_t room)
{
    FILE *from = fopen(name, "rb");
    if (from == NULL) {
        perror(name);
        return 0;
    }
    size_t len = fread(bytes, 1, room, from);
    fclose(from);
    return len;
}

/* The job in a file, with so much room for its own; whether it has this code,
 * place and zero counts, leaves the triangles of track_run, and no file. */
static void refuses(const char *name, size_t room, uint32_t code,
                    const char *what)
{
    static const uint32_t nothing[TRACK_OUTCOME_LEN - 1];
    uint32_t outcome[TRACK_OUTCOME_LEN];
    size_t job_len = bytes_of(name, job, sizeof job);
    memset(as_run, 0x55, sizeof as_run);
    memset(triangles, 0x55, sizeof triangles);
    memcpy(file, painted, sizeof file);
    track_run(job, job_len, answers, TRACK_MOST_ANSWERS_LEN,
              final_marks, TRACK_MOST_FINAL_MARKS_LEN, as_run,
              TRACK_MOST_TRIANGLES_LEN, work, TRACK_MOST_WORK_LEN, outcome);
    expect(outcome[TRACK_OUTCOME_CODE] == TRACK_CODE_RUN, "a job is not run");
    track_stl_run(job, job_len, answers, TRACK_MOST_ANSWERS_LEN,
                  final_marks, TRACK_MOST_FINAL_MARKS_LEN, triangles,
                  TRACK_MOST_TRIANGLES_LEN, work, TRACK_MOST_WORK_LEN,
                  file, room, outcome);
    expect(outcome[TRACK_OUTCOME_CODE] == code
           && memcmp(outcome + 1, nothing, sizeof nothing) == 0
           && memcmp(triangles, as_run, sizeof triangles) == 0
           && memcmp(file, painted, sizeof file) == 0, what);
}

/* Whether a list has this code and place; a refused one leaves no file. */
static void writes(size_t units_len, size_t room, uint32_t code, uint32_t place,
                   const char *what)
{
    uint32_t outcome[TRACK_STL_WRITE_OUTCOME_LEN];
    memcpy(file, painted, sizeof file);
    track_stl_write(units, units_len, file, room, outcome);
    expect(outcome[TRACK_STL_WRITE_OUTCOME_CODE] == code
           && outcome[TRACK_STL_WRITE_OUTCOME_PLACE] == place
           && (code == TRACK_STL_WRITE_CODE_WRITTEN
               || memcmp(file, painted, sizeof file) == 0), what);
}

/* Whether the stored file has these words; a refused one leaves no units. */
static void reads(size_t file_len, size_t room, uint32_t code, uint32_t place,
                  uint32_t facets, uint32_t bits, const char *what)
{
    uint32_t outcome[TRACK_STL_READ_OUTCOME_LEN];
    memcpy(units, unread, sizeof units);
    track_stl_read(stored, file_len, units, room, outcome);
    expect(outcome[TRACK_STL_READ_OUTCOME_CODE] == code
           && outcome[TRACK_STL_READ_OUTCOME_PLACE] == place
           && outcome[TRACK_STL_READ_OUTCOME_FACETS] == facets
           && outcome[TRACK_STL_READ_OUTCOME_BITS] == bits
           && (code == TRACK_STL_READ_CODE_READ
               || memcmp(units, unread, sizeof units) == 0), what);
}

/* The same with another byte at a place of the stored file. */
static void reads_with(size_t at, uint8_t byte, uint32_t code, uint32_t place,
                       uint32_t bits, const char *what)
{
    uint8_t was = stored[at];
    stored[at] = byte;
    reads(stored_len, TRACK_MOST_STL_UNITS_LEN, code, place, 0, bits, what);
    stored[at] = was;
}

/* The stored file is read and written again, with nothing behind changed. */
static void both_ways(uint32_t facets)
{
    size_t units_len = TRACK_STL_UNITS_LEN(facets);
    reads(stored_len, units_len, TRACK_STL_READ_CODE_READ, 0, facets, 0,
          "the stored file is not read");
    expect(memcmp(units + units_len, unread, GUARD * sizeof *units) == 0,
           "a unit behind those read is changed");
    writes(units_len, sizeof file, TRACK_STL_WRITE_CODE_WRITTEN, 0,
           "what is read is not written");
    expect(memcmp(file, stored, stored_len) == 0
           && memcmp(file + stored_len, painted, GUARD) == 0,
           "what is read is written as another file");
}

static void list_codes(uint32_t facets)
{
    size_t units_len = TRACK_STL_UNITS_LEN(facets);
    writes(units_len, stored_len - 1, TRACK_STL_WRITE_CODE_ROOM, 0,
           "short room for a file");
    writes(units_len - 1, sizeof file, TRACK_STL_WRITE_CODE_FACETS, 0,
           "a list not of whole facets");
    writes(TRACK_MOST_STL_UNITS_LEN + GUARD, sizeof file,
           TRACK_STL_WRITE_CODE_FACETS, 0, "4,097 facets");
    units[7] = TRACK_MOST_COORDINATE + 1;
    units[8] = TRACK_LEAST_COORDINATE - 1;
    writes(units_len, sizeof file, TRACK_STL_WRITE_CODE_NUMBER, 7,
           "a number outside the grid");
}

static void file_codes(uint32_t facets)
{
    size_t facet_1 = TRACK_STL_LEN(1);
    reads(stored_len - 1, TRACK_MOST_STL_UNITS_LEN, TRACK_STL_READ_CODE_LENGTH,
          0, 0, 0, "a file that is cut");
    reads_with(0, 'T', TRACK_STL_READ_CODE_HEADER, 0, 0, "another header");
    reads(stored_len, TRACK_STL_UNITS_LEN(facets) - 1, TRACK_STL_READ_CODE_ROOM,
          0, 0, 0, "short room for units");
    reads_with(facet_1 + 11, 0x80, TRACK_STL_READ_CODE_NOT_ZERO, 1, 0,
               "a normal that is not zero");
    reads_with(facet_1 + 49, 1, TRACK_STL_READ_CODE_NOT_ZERO, 1, 0,
               "last bytes that are not zero");
    memcpy(stored + facet_1 + 16, "\x01\x00\x80\x7f", 4);
    reads(stored_len, TRACK_MOST_STL_UNITS_LEN, TRACK_STL_READ_CODE_OFF, 1, 0,
          0x7f800001, "a NaN");
    memcpy(stored + facet_1 + 12, "\x00\x00\x00\x80", 4);
    reads(stored_len, TRACK_MOST_STL_UNITS_LEN, TRACK_STL_READ_CODE_OFF, 1, 0,
          0x80000000, "a negative zero, before a NaN");
}

int main(int argc, char **argv)
{
    if (argc != 4) {
        fputs("usage: stl POINTS BARE FILE\n", stderr);
        return 1;
    }
    memset(painted, 0xaa, sizeof painted);
    memset(unread, 0x55, sizeof unread);
    stored_len = bytes_of(argv[3], stored, sizeof stored);
    if (stored_len < TRACK_STL_LEN(2)) {
        fputs("stl: the stored file has under two facets\n", stderr);
        return 1;
    }
    uint32_t facets = (uint32_t)(stored_len - TRACK_STL_LEN(0)) / 50;
    refuses(argv[1], stored_len - 1, TRACK_CODE_FILE_ROOM,
            "short room for a job's file");
    refuses(argv[2], sizeof file, TRACK_CODE_NO_POINTS, "a job without points");
    both_ways(facets);
    list_codes(facets);
    file_codes(facets);
    return !well;
}
