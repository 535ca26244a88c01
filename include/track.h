/* Runs track jobs, and writes and reads their skins as binary STL, from C (C99
 * and later) and C++. docs/JOBS.md explains every word used here.
 *
 * `rt lib` in crates/track_c makes the archive with the four functions below,
 * crates/track_c/out/libtrack_c.a: track_run, track_stl_run, track_stl_write and
 * track_stl_read. It is x86-64 code for Linux, and of the C library it needs
 * memset alone. examples/outcome.c and examples/stl.c are programs that use
 * it. */

#ifndef TRACK_H
#define TRACK_H

#include <stddef.h>
#include <stdint.h>

/* A job has V vertex ids, N rows, a mark for each row, P proposals, and it may
 * have a point for each id. Its file, in words of four bytes, low byte first:
 *
 *     at byte         there stand
 *     0               V, N, P, 32, 32 + 16N, 32 + 17N, the length of the file,
 *                     and an enum track_word_7: whether there are points, and
 *                     how the skin is listed
 *     32              N rows of four words, the ids of one tetrahedron at its
 *                     corners 0 to 3
 *     32 + 16N        N marks of one byte, 1 inside or 0 outside
 *     32 + 17N        P proposals of two words, row number and kind, 1 add or
 *                     2 remove
 *     32 + 17N + 8P   without points nothing: the file ends; with points V of
 *                     them, by id, three coordinates x, y and z each, a signed
 *                     number of two bytes, low byte first
 *
 * The ids of a row rise strictly and are below V; the rows rise strictly in
 * dictionary order. Id 0 is the infinite vertex; a row that holds it is an outer
 * row. Outer rows are all outside or all inside. The skin is the triangles that
 * are in exactly one inside row; none of them holds id 0. A finite row is one
 * that is not outer.
 *
 * The limits of V, N and P: */
#define TRACK_FEWEST_IDS 5
#define TRACK_MOST_IDS 1024
#define TRACK_FEWEST_ROWS 5
#define TRACK_MOST_ROWS 2048
#define TRACK_FEWEST_PROPOSALS 0
#define TRACK_MOST_PROPOSALS 1024

/* A coordinate is in units of 1/16 metre, within these limits, so under 64
 * metres. The point of id 0 is three zeros. */
#define TRACK_UNITS_PER_METRE 16
#define TRACK_LEAST_COORDINATE (-1023)
#define TRACK_MOST_COORDINATE 1023

/* The length of a job without points, what points add to it, and the length of
 * what must be lent for a job, with points or without, for V, N and P within
 * their limits. Each is in elements, bytes or 32-bit words as the parameter's
 * type says. */
#define TRACK_HEADER_LEN 32
#define TRACK_JOB_LEN(n, p) (TRACK_HEADER_LEN + 17 * (n) + 8 * (p))
#define TRACK_POINTS_LEN(v) (6 * (v))
#define TRACK_ANSWERS_LEN(p) (p)
#define TRACK_FINAL_MARKS_LEN(n) (n)
#define TRACK_TRIANGLES_LEN(n) (6 * (n))
#define TRACK_WORK_LEN(v, n) (4 * (n) + 2 * (v))

/* The same for the largest job, which has points: buffers of these lengths serve
 * every job. */
#define TRACK_MOST_JOB_LEN \
    (TRACK_JOB_LEN(TRACK_MOST_ROWS, TRACK_MOST_PROPOSALS) \
     + TRACK_POINTS_LEN(TRACK_MOST_IDS))
#define TRACK_MOST_ANSWERS_LEN TRACK_ANSWERS_LEN(TRACK_MOST_PROPOSALS)
#define TRACK_MOST_FINAL_MARKS_LEN TRACK_FINAL_MARKS_LEN(TRACK_MOST_ROWS)
#define TRACK_MOST_TRIANGLES_LEN TRACK_TRIANGLES_LEN(TRACK_MOST_ROWS)
#define TRACK_MOST_WORK_LEN TRACK_WORK_LEN(TRACK_MOST_IDS, TRACK_MOST_ROWS)

/* What a proposal asks for, its second word. */
enum track_kind {
    TRACK_KIND_ADD = 1,
    TRACK_KIND_REMOVE = 2
};

/* What word 7 of a job says: whether it has points, and how the ids of each skin
 * triangle stand in the list. Whatever it says, the list has the same triangles
 * in the same places. Any value but these three is TRACK_CODE_LAYOUT.
 *
 * Rising ids say nothing of the side on which the inside lies. Outward, the
 * lowest id is first, and for the triangle a, b, c the normal (b - a) x (c - a)
 * points away from the inside: seen from outside, a, b and c turn
 * counter-clockwise where x, y and z are right-handed. So it points out of the
 * ground where the ground is inside, and into the ground where the air is; for
 * the other way exchange the last two ids of every triangle. Exactly: for the
 * fourth corner d of the inside row the product (b - a) x (c - a) . (d - a) is
 * below zero, so d lies behind; where the inside row is outer, the product for
 * the fourth corner of the outside row is above zero, so that lies in front.
 * Each edge of the skin is then passed once each way.
 *
 * Earlier the caller chose, by a parameter of track_run that is gone, and 1 in
 * word 7 said no more than that there are points. To have rising ids of such a
 * job, write 3 there: the word's low byte is at TRACK_WORD_7_AT, and its other
 * three are 0. In a job without points leave the 0. */
enum track_word_7 {
    TRACK_WORD_7_NO_POINTS = 0, /* the ids of each triangle rise */
    TRACK_WORD_7_OUTWARD = 1,   /* points; each triangle is outward */
    TRACK_WORD_7_RISING = 3     /* points; the ids of each triangle rise */
};
#define TRACK_WORD_7_AT 28

/* A binary STL file is a list of facets. Each is a triangle of three corners,
 * and each corner three numbers, x, y and z. Low byte first:
 *
 *     at byte    there stand
 *     0          the ASCII text `track skin` in 10 bytes, then 70 bytes of zero
 *     80         the number of facets, a word of four bytes
 *     84 + 50k   facet k: its normal, 12 bytes of zero; its three corners, nine
 *                numbers of four bytes; and two bytes of zero
 *
 * A number is an f32 (binary32 of IEEE 754), in metres, which the file itself
 * does not say: a coordinate in units, divided by 16, which loses nothing. Zero
 * is written positive. The grid is the numbers of the whole units from -1023 to
 * 1023; a negative zero, a NaN, an infinity and every number between or beyond
 * are off it.
 *
 * The normals are zero: which side is out is told by the order of the corners.
 * In the file of a job's skin each facet a, b, c is outward, also where word 7
 * of the job is 3 and its triangles are listed rising: (b - a) x (c - a) points
 * away from the inside, as is said above enum track_word_7. So where the air is
 * inside it points into the ground; for the other way exchange the last two
 * corners of every facet.
 *
 * Outside of a file a facet is nine units, int16_t, corner by corner: the x, y
 * and z of its first corner, those of its second and those of its third. The
 * length of a list of units and of a file, in elements: */
#define TRACK_STL_MOST_FACETS 4096
#define TRACK_STL_UNITS_LEN(facets) (9 * (facets))
#define TRACK_STL_LEN(facets) (84 + 50 * (facets))

/* The same for the most facets: the file of every job's skin fits, as that has
 * at most 2N triangles. */
#define TRACK_MOST_STL_UNITS_LEN TRACK_STL_UNITS_LEN(TRACK_STL_MOST_FACETS)
#define TRACK_MOST_STL_LEN TRACK_STL_LEN(TRACK_STL_MOST_FACETS)

/* A call takes at most so many bytes of stack, what the caller passes on the
 * stack included. With less the system stops the program, unless it is a thread
 * whose guard area is smaller than what is missing: then memory beside its
 * stack is overwritten. */
#define TRACK_STACK 52000

/* What each word of the outcome of track_run and track_stl_run is. */
enum track_outcome {
    TRACK_OUTCOME_CODE,      /* an enum track_code */
    TRACK_OUTCOME_PLACE,     /* the row or id that is named with the code */
    TRACK_OUTCOME_TAKEN,     /* how many proposals were taken */
    TRACK_OUTCOME_TRIANGLES, /* how many triangles the skin has at the end */
    TRACK_OUTCOME_LEN        /* the number of words */
};

/* Job codes. The first that applies is given; all but the first refuse, and a
 * refusal has zero for both counts. The place is 0 where none is named. */
enum track_code {
    TRACK_CODE_RUN = 0,
    TRACK_CODE_SHORT = 1,    /* under 32 bytes */
    TRACK_CODE_LIMITS = 2,   /* V, N or P outside its limits */
    TRACK_CODE_LAYOUT = 3,   /* a word 3 to 7 of the header is not as above, or
                                word 6 is not job_len */
    TRACK_CODE_ROOM = 4,     /* a lent buffer is shorter than its _LEN above; it
                                is not said which */
    TRACK_CODE_ROW = 5,      /* ids that do not rise strictly, or an id not
                                below V; place: the first such row */
    TRACK_CODE_ORDER = 6,    /* a row not after the one before it; place: the
                                first such row */
    TRACK_CODE_TRIANGLE = 7, /* a triangle that is not in exactly two rows;
                                place: the lowest row with one */
    TRACK_CODE_EDGE = 8,     /* two rows hold an edge and no chain of neighbours
                                that all hold it joins them; place: the lowest
                                row with such an edge */
    TRACK_CODE_VERTEX = 9,   /* the same for a vertex */
    TRACK_CODE_MARK = 10,    /* a mark that is not 0 or 1; place: the first such
                                row */
    TRACK_CODE_OUTER = 11,   /* outer rows with unlike marks; place: the lowest
                                outer row whose mark differs from that of the
                                lowest outer row */
    TRACK_CODE_RING = 12,    /* the starting skin is not clean; place: the
                                lowest skin vertex whose far edges do not form
                                one ring */
    /* With points only, whether listed outward or rising. */
    TRACK_CODE_POINT = 13,   /* a coordinate outside its limits, or the point of
                                id 0 not three zeros; place: the lowest such id,
                                also one that no row holds */
    TRACK_CODE_FLAT = 14,    /* a finite row of zero volume; place: the lowest
                                such row */
    TRACK_CODE_FOLDED = 15,  /* two finite neighbours on the same side of their
                                triangle; place: the lowest row in such a
                                pair */
    /* Of track_stl_run alone: the job was run, and its file is refused. */
    TRACK_CODE_NO_POINTS = 20, /* a job without points */
    TRACK_CODE_FILE_ROOM = 21  /* file_len is under TRACK_STL_LEN of the number
                                  of triangles */
};

/* What each word of the outcome of track_stl_write is. */
enum track_stl_write_outcome {
    TRACK_STL_WRITE_OUTCOME_CODE,  /* an enum track_stl_write_code */
    TRACK_STL_WRITE_OUTCOME_PLACE, /* the index that is named with the code */
    TRACK_STL_WRITE_OUTCOME_LEN    /* the number of words */
};

/* Codes of track_stl_write. The first that applies is given; all but the first
 * refuse the list. The place is 0 where none is named. */
enum track_stl_write_code {
    TRACK_STL_WRITE_CODE_WRITTEN = 0,
    TRACK_STL_WRITE_CODE_FACETS = 1, /* not whole facets: units_len is no
                                        multiple of 9; or over 4,096 of them */
    TRACK_STL_WRITE_CODE_NUMBER = 2, /* a number outside -1023 to 1023; place:
                                        the index of the first such number in
                                        the list, from 0 */
    TRACK_STL_WRITE_CODE_ROOM = 3    /* file_len is under TRACK_STL_LEN of the
                                        number of facets */
};

/* What each word of the outcome of track_stl_read is. */
enum track_stl_read_outcome {
    TRACK_STL_READ_OUTCOME_CODE,   /* an enum track_stl_read_code */
    TRACK_STL_READ_OUTCOME_PLACE,  /* the facet that is named with the code */
    TRACK_STL_READ_OUTCOME_FACETS, /* how many facets were read; a refusal has
                                      zero */
    TRACK_STL_READ_OUTCOME_BITS,   /* with code 5 the number off the grid as it
                                      stood: its 32 bits and no float, since a
                                      NaN has many; with any other code zero */
    TRACK_STL_READ_OUTCOME_LEN     /* the number of words */
};

/* Codes of track_stl_read. The first that applies is given; all but the first
 * refuse the file. Of 4 and 5 the first facet at fault decides, with 4 before 5
 * in that facet. The place is 0 where none is named. */
enum track_stl_read_code {
    TRACK_STL_READ_CODE_READ = 0,
    TRACK_STL_READ_CODE_LENGTH = 1, /* under 84 bytes, over 4,096 facets, or
                                       file_len is not TRACK_STL_LEN of the
                                       number of facets in the file */
    TRACK_STL_READ_CODE_HEADER = 2, /* the first 80 bytes are not as above */
    TRACK_STL_READ_CODE_ROOM = 3,   /* units_len is under TRACK_STL_UNITS_LEN of
                                       the number of facets */
    TRACK_STL_READ_CODE_NOT_ZERO = 4, /* a bit of a facet's normal, or of its
                                         last two bytes, is not zero; place:
                                         that facet, counted from 0 */
    TRACK_STL_READ_CODE_OFF = 5     /* a number off the grid; place: its facet.
                                       Of the facet's numbers the first off the
                                       grid is handed back */
};

/* Proposal answers. The first that applies is given, TAKEN where no other does;
 * only TAKEN changes a mark, the named one. */
enum track_answer {
    TRACK_ANSWER_TAKEN = 0,
    TRACK_ANSWER_ROW = 1,     /* row number not below N */
    TRACK_ANSWER_KIND = 2,    /* kind not 1 or 2 */
    TRACK_ANSWER_OUTER = 3,   /* outer row */
    TRACK_ANSWER_ALREADY = 4, /* add of an inside row, remove of an outside row */
    /* The five cases refuse: the skin would not stay clean. A row of the other
     * side, which is an inside row for an add and an outside row for a remove,
     * holds what is in the way. */
    TRACK_ANSWER_VERTICES = 5, /* f = 0, no triangle of the row is on the skin:
                                  one of its vertices */
    TRACK_ANSWER_OPPOSITE = 6, /* f = 1: the vertex opposite its skin triangle */
    TRACK_ANSWER_EDGE = 7      /* f = 2: the edge in neither skin triangle */
};

/* Whether an answer is one of the five cases', 5, 6 or 7. */
#define TRACK_REFUSED_BY_CASES(answer) \
    ((answer) >= TRACK_ANSWER_VERTICES && (answer) <= TRACK_ANSWER_EDGE)

#ifdef __cplusplus
extern "C" {
#endif

/* Every call of a function below returns, whatever bytes and numbers it is
 * given and whatever the buffers hold. It reads and writes nothing outside the
 * lengths given, takes no memory but the stack, and keeps nothing, so threads
 * may call at the same time, each with buffers and an outcome of its own; what
 * is only read may be shared.
 *
 * Each buffer is a pointer and its length in elements, not bytes. The buffers
 * that a call writes must not overlap each other, what it reads or the outcome.
 * A pointer may be null if its length is 0. A buffer may be longer than is
 * needed. The outcome is never null, and every call writes all of its words. */

/* Runs a job: checks its table, its marks and its points, answers its proposals
 * and lists the skin.
 *
 * A job that is refused leaves answers, final_marks and triangles as they were.
 *
 * job          the bytes of the file, only read
 * answers      TRACK_ANSWERS_LEN bytes. Code 0 leaves the P answers, an enum
 *              track_answer each, in the order of the proposals.
 * final_marks  TRACK_FINAL_MARKS_LEN bytes. Code 0 leaves the N marks after the
 *              last proposal.
 * triangles    TRACK_TRIANGLES_LEN words. Code 0 leaves the skin after the last
 *              proposal, as many triangles as the outcome says, by inside row,
 *              then by the corner of the row that the triangle leaves out, 0 to
 *              3. Each is three ids, outward or rising as word 7 asks. There
 *              are at most 2N.
 * work         TRACK_WORK_LEN(V, N) words, at most 10,240; V and N are words 0
 *              and 1 of the job. Code 0 leaves the neighbour list there, behind
 *              it V words and then V words more, the tallies of the ids:
 *
 *                  word           is
 *                  4r + c         the row across the triangle of row r that
 *                                 leaves out its corner c
 *                  4N + v         how many inside rows hold id v, after the
 *                                 last proposal
 *                  4N + V + v     how many rows hold id v, inside or outside
 *
 *              An outer row counts like any other; so word 4N + V is how many
 *              outer rows there are. An id that no row holds has 0 and 0.
 *              Codes 1 to 4 leave work as it was; codes 5 to 15 leave zero in
 *              its first 4N + 2V words. Earlier it was 4N words long and had
 *              no tallies: with so much the code is TRACK_CODE_ROOM for every
 *              job, and with 8,192 words for each where 4N + 2V is more.
 * outcome      TRACK_OUTCOME_LEN words
 *
 * Of each buffer, what stands behind what is left there is never changed. */
void track_run(const uint8_t *job, size_t job_len,
               uint8_t *answers, size_t answers_len,
               uint8_t *final_marks, size_t final_marks_len,
               uint32_t *triangles, size_t triangles_len,
               uint32_t *work, size_t work_len,
               uint32_t outcome[TRACK_OUTCOME_LEN]);

/* Runs a job as track_run does, and writes its skin after the last proposal as
 * binary STL, outward whatever word 7 asks for, a facet for each triangle in
 * the order of the list. The job needs points.
 *
 * A job that track_run refuses has the same outcome here. One that is run gets
 * 20 if it has no points, else 21 if file is too short, and else 0 and the
 * counts of track_run. With 20 and 21 the place and both counts are zero. In
 * each case answers, final_marks, triangles and work are left as track_run
 * leaves them: with 20 and 21 as with its code 0, and triangles in the order
 * that word 7 asks for.
 *
 * file         TRACK_STL_LEN(triangles) bytes. How many triangles there are is
 *              not known before, and not told with 21: TRACK_STL_LEN(2 * N)
 *              bytes are always enough. Code 0 leaves the file at the front,
 *              and what stands behind it is not changed. Every other code
 *              leaves file as it was.
 *
 * The other parameters are those of track_run. */
void track_stl_run(const uint8_t *job, size_t job_len,
                   uint8_t *answers, size_t answers_len,
                   uint8_t *final_marks, size_t final_marks_len,
                   uint32_t *triangles, size_t triangles_len,
                   uint32_t *work, size_t work_len,
                   uint8_t *file, size_t file_len,
                   uint32_t outcome[TRACK_OUTCOME_LEN]);

/* Writes a list of units as binary STL, the facets in the order of the list and
 * their corners as they stand. What it writes track_stl_read reads back as the
 * same list.
 *
 * units        nine for each facet, only read
 * file         TRACK_STL_LEN bytes. Code 0 leaves the file at the front, and
 *              what stands behind it is not changed. Every other code leaves
 *              file as it was.
 * outcome      TRACK_STL_WRITE_OUTCOME_LEN words */
void track_stl_write(const int16_t *units, size_t units_len,
                     uint8_t *file, size_t file_len,
                     uint32_t outcome[TRACK_STL_WRITE_OUTCOME_LEN]);

/* Reads a binary STL file of grid numbers, such as the two functions above
 * write. track_stl_write makes the same bytes of what it reads.
 *
 * file         the bytes of the file, only read
 * units        TRACK_STL_UNITS_LEN numbers. Code 0 leaves nine units for each
 *              facet at the front, and what stands behind them is not changed.
 *              Every other code leaves units as they were.
 * outcome      TRACK_STL_READ_OUTCOME_LEN words */
void track_stl_read(const uint8_t *file, size_t file_len,
                    int16_t *units, size_t units_len,
                    uint32_t outcome[TRACK_STL_READ_OUTCOME_LEN]);

#ifdef __cplusplus
}
#endif

#endif
