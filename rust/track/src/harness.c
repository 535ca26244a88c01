/* An x86-64 program without a C library that calls the engine for `emulated.rs`.
 *
 * On standard input, again and again until it ends: the number of a function,
 * and the lengths of the slices that it takes, in elements, 8 bytes each; then
 * their contents. On standard output for each: the words of the outcome, then
 * the slices that were lent. */

typedef unsigned char u8;
typedef short i16;
typedef unsigned int u32;
typedef unsigned long u64;

extern void track_run(const u8 *job, u64 job_len, u8 *answers, u64 answers_len,
                      u8 *final_marks, u64 final_marks_len, u32 *triangles,
                      u64 triangles_len, u32 *work, u64 work_len,
                      u32 *outcome);
extern void track_stl_write(const i16 *units, u64 units_len, u8 *file,
                            u64 file_len, u32 *outcome);
extern void track_stl_read(const u8 *file, u64 file_len, i16 *units,
                           u64 units_len, u32 *outcome);
extern void track_stl_run(const u8 *job, u64 job_len, u8 *answers,
                          u64 answers_len, u8 *final_marks,
                          u64 final_marks_len, u32 *triangles,
                          u64 triangles_len, u32 *work, u64 work_len, u8 *file,
                          u64 file_len, u32 *outcome);

enum function { RUN, STL_WRITE, STL_READ, STL_RUN };

/* Far above what any test lends. */
#define ROOM (1 << 20)
static u8 job[ROOM], answers[ROOM], final_marks[ROOM], file[ROOM];
static i16 units[ROOM];
static u32 triangles[ROOM], work[ROOM];

static long call(long number, long a, void *b, u64 c)
{
    long result;
    __asm__ volatile("syscall"
                     : "=a"(result)
                     : "a"(number), "D"(a), "S"(b), "d"(c)
                     : "rcx", "r11", "memory");
    return result;
}

static void leave(int status)
{
    for (;;)
        call(60, status, 0, 0);
}

static void get(void *to, u64 bytes)
{
    for (u8 *at = to; bytes > 0;) {
        long got = call(0, 0, at, bytes);
        if (got <= 0)
            leave(got < 0);
        at += got;
        bytes -= (u64)got;
    }
}

static void put(void *from, u64 bytes)
{
    for (u8 *at = from; bytes > 0;) {
        long gone = call(1, 1, at, bytes);
        if (gone <= 0)
            leave(1);
        at += gone;
        bytes -= (u64)gone;
    }
}

/* The archive calls it. */
void *memset(void *to, int value, u64 bytes)
{
    for (volatile u8 *at = to; bytes > 0; bytes--)
        *at++ = (u8)value;
    return to;
}

static void get_lengths(u64 *lengths, int count)
{
    get(lengths, (u64)count * sizeof *lengths);
    for (int i = 0; i < count; i++)
        if (lengths[i] > ROOM)
            leave(1);
}

/* `track_run` takes five slices; with a file, `track_stl_run` takes it sixth. */
static void run(int with_file)
{
    u64 lengths[6] = {0};
    u32 outcome[4];
    get_lengths(lengths, with_file ? 6 : 5);
    get(job, lengths[0]);
    get(answers, lengths[1]);
    get(final_marks, lengths[2]);
    get(triangles, 4 * lengths[3]);
    get(work, 4 * lengths[4]);
    get(file, lengths[5]);
    if (with_file)
        track_stl_run(job, lengths[0], answers, lengths[1], final_marks,
                      lengths[2], triangles, lengths[3], work, lengths[4],
                      file, lengths[5], outcome);
    else
        track_run(job, lengths[0], answers, lengths[1], final_marks,
                  lengths[2], triangles, lengths[3], work, lengths[4],
                  outcome);
    put(outcome, sizeof outcome);
    put(answers, lengths[1]);
    put(final_marks, lengths[2]);
    put(triangles, 4 * lengths[3]);
    put(work, 4 * lengths[4]);
    put(file, lengths[5]);
}

static void stl_write(void)
{
    u64 lengths[2];
    u32 outcome[2];
    get_lengths(lengths, 2);
    get(units, 2 * lengths[0]);
    get(file, lengths[1]);
    track_stl_write(units, lengths[0], file, lengths[1], outcome);
    put(outcome, sizeof outcome);
    put(file, lengths[1]);
}

static void stl_read(void)
{
    u64 lengths[2];
    u32 outcome[4];
    get_lengths(lengths, 2);
    get(file, lengths[0]);
    get(units, 2 * lengths[1]);
    track_stl_read(file, lengths[0], units, lengths[1], outcome);
    put(outcome, sizeof outcome);
    put(units, 2 * lengths[1]);
}

__attribute__((force_align_arg_pointer)) void _start(void)
{
    for (;;) {
        u64 function;
        get(&function, sizeof function);
        switch (function) {
        case RUN:
            run(0);
            break;
        case STL_WRITE:
            stl_write();
            break;
        case STL_READ:
            stl_read();
            break;
        case STL_RUN:
            run(1);
            break;
        default:
            leave(1);
        }
    }
}
