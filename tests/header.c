/* Every export through the header, each argument by the header's own name: every refusal with its detail, which of several faults is told
 * first, and answers whose bits are known. Guards stand around and behind what is lent, and what a call is not to write stands in read-only
 * pages: a refusal that writes what was there before is found too. tests/header.sh makes named.h and runs this. */
#define _DEFAULT_SOURCE /* POSIX, and memory that no file is behind */
#include <math.h>
#include <signal.h>
#include <stdio.h>
#include <string.h>
#include <sys/mman.h>
#include <unistd.h>

#include "placer.h"
#include "named.h"

#define GUARD 123.25
#define GUARD_BYTE 77
#define PAGE 4096 /* of x86-64 Linux */

static int calls, failed;
static uint32_t seen;

static void hold(const char *what, int as_expected) {
    if (!as_expected) {
        printf("header.c: %s\n", what);
        failed = 1;
    }
}

/* The reply is that refusal. */
static void refuses(const char *what, uint64_t reply, enum placer_refusal number, uint32_t detail) {
    calls++;
    seen |= (uint32_t)1 << number;
    if (placer_number(reply) != (uint32_t)number || placer_detail(reply) != detail || reply >> 32 != (uint64_t)number) {
        printf("header.c: %s: %u %u, and %u %u was expected\n", what, placer_number(reply), placer_detail(reply), (unsigned)number, detail);
        failed = 1;
    }
}

static void replies(const char *what, uint64_t reply, uint64_t expected) {
    calls++;
    hold(what, reply == expected && placer_number(reply) == 0);
}

static int all_doubles(const double *memory, size_t length, double value) {
    while (length > 0)
        if (memory[--length] != value) return 0;
    return 1;
}

static int all_bytes(const uint8_t *memory, size_t length, uint8_t value) {
    while (length > 0)
        if (memory[--length] != value) return 0;
    return 1;
}

static void guard(double *memory, size_t length) {
    while (length > 0) memory[--length] = GUARD;
}

/* Every page that the memory, which begins one, has a byte in. */
static void allow(void *memory, size_t bytes, int access) { hold("mprotect", mprotect(memory, (bytes + PAGE - 1) / PAGE * PAGE, access) == 0); }

static void lock(void *memory, size_t bytes) { allow(memory, bytes, PROT_READ); }

static void unlock(void *memory, size_t bytes) { allow(memory, bytes, PROT_READ | PROT_WRITE); }

static void wrote(int number) {
    static const char words[] = "header.c: a call wrote what it must leave alone\n";
    (void)number;
    _exit(write(STDOUT_FILENO, words, sizeof words - 1) < 0 ? 2 : 1);
}

static uint64_t bits(double x) {
    uint64_t word;
    memcpy(&word, &x, sizeof word);
    return word;
}

/* ---- the square root */

static void roots(void) {
    static const struct {
        double x;
        uint64_t root;
    } known[] = {{2.0, 0x3ff6a09e667f3bcd}, {4.0, 0x4000000000000000}, {0x1p-1074, 0x1e60000000000000}, {-0.0, 0x8000000000000000}, {INFINITY, 0x7ff0000000000000}};
    for (size_t n = 0; n < sizeof known / sizeof *known; n++) {
        calls++;
        hold("a root", bits(CALL(placer_sqrt, .x = known[n].x)) == known[n].root);
    }
    calls += 2;
    hold("a root of no number", isnan(CALL(placer_sqrt, .x = -1.0)) && isnan(CALL(placer_sqrt, .x = NAN)));
}

/* ---- averages */

static void averages(void) {
    struct rig_pose poses[PLACER_MAX_VIEWS + 1];
    static _Alignas(PAGE) double memory[PAGE / sizeof(double)];
    double *const mean = memory + 1;
    guard(memory, sizeof memory / sizeof *memory);
    /* Translations (n, n + 10, n + 20), and by turns a half turn about z and its negative. */
    for (int n = 0; n <= PLACER_MAX_VIEWS; n++) poses[n] = (struct rig_pose){.x = n, .y = n + 10, .z = n + 20, .k = n % 2 ? -1 : 1};
    /* Every fault at once, and then one fewer each time. */
    poses[3].w = NAN, poses[5].x = INFINITY;
    lock(memory, sizeof memory);
    refuses("average of none", CALL(rig_average_isometries, .poses = NULL, .poses_length = 0, .mean = mean), PLACER_INSUFFICIENT_DATA, 0);
    refuses("average of 65", CALL(rig_average_isometries, .poses = poses, .poses_length = PLACER_MAX_VIEWS + 1, .mean = mean), PLACER_TOO_MANY, 0);
    refuses("average with a NaN", CALL(rig_average_isometries, .poses = poses, .poses_length = PLACER_MAX_VIEWS, .mean = mean), PLACER_NOT_FINITE, 3);
    poses[3].w = 0;
    refuses("average with an infinity", CALL(rig_average_isometries, .poses = poses, .poses_length = PLACER_MAX_VIEWS, .mean = mean), PLACER_NOT_FINITE, 5);
    hold("a refused average wrote", all_doubles(memory, sizeof memory / sizeof *memory, GUARD));
    unlock(memory, sizeof memory);
    poses[5].x = 5;
    static const double of_two[] = {0.5, 10.5, 20.5, 0, 0, 1, 0}, of_all[] = {31.5, 41.5, 51.5, 0, 0, 1, 0};
    replies("average of two", CALL(rig_average_isometries, .poses = poses, .poses_length = 2, .mean = mean), 0);
    hold("the average of two", memcmp(mean, of_two, sizeof of_two) == 0);
    replies("average of 64", CALL(rig_average_isometries, .poses = poses, .poses_length = PLACER_MAX_VIEWS, .mean = mean), 0);
    hold("the average of 64", memcmp(mean, of_all, sizeof of_all) == 0);
    hold("memory around a mean", memory[0] == GUARD && mean[PLACER_POSE_FLOATS] == GUARD);
}

/* ---- a rig of three views and two cameras, the reference camera 1: every length that is handed over is another number */

enum { VIEWS = 3, CAMERAS = 2, CELLS = VIEWS * CAMERAS, REFERENCE = 1, FLOATS = CELLS * PLACER_POSE_FLOATS };
enum { FIRST = PLACER_POSE_FLOATS * (CAMERAS + VIEWS), SECOND = 2 * CAMERAS };

/* Where the target was seen: by both cameras in views 0 and 2, and by camera 1 alone, after a half turn about x, in view 1. */
static const uint8_t rig_marks[CELLS] = {1, 1, 0, 1, 1, 1};
static const double rig_floats[FLOATS] = {
    1, 2, 3, 0, 0, 0, 1, /**/ 10, 20, 30, 0, 0, 0, 1, /* camera 1 sees it (9, 18, 27) further on */
    0, 0, 0, 0, 0, 0, 0, /**/ 5,  6,  7,  1, 0, 0, 0,
    2, 4, 6, 0, 0, 0, 1, /**/ 13, 26, 39, 0, 0, 0, 1, /* and here (11, 22, 33) */
};
static const double rig_first[FIRST] = {
    10,   20, 30,   0, 0, 0, 1, /* so camera 0 is at their mean */
    0,    0,  0,    0, 0, 0, 1,
    10.5, 21, 31.5, 0, 0, 0, 1, /* the mean of (11, 22, 33) and (10, 20, 30) */
    5,    6,  7,    1, 0, 0, 0,
    12.5, 25, 37.5, 0, 0, 0, 1,
};
static const uint8_t rig_second[SECOND] = {1, 1, 1, 0};

static struct {
    _Alignas(PAGE) uint32_t counts[PLACER_MAX_VIEWS + 1];
    uint8_t marks[CELLS + 1];
    double floats[FLOATS + 1];
    size_t counts_length, marks_length, floats_length, first_length, second_length;
    uint32_t reference;
    double first[FIRST + 4];
    uint8_t second[SECOND + 4];
} direct;

static void guard_answers(void) {
    guard(direct.first, FIRST + 4);
    memset(direct.second, GUARD_BYTE, SECOND + 4);
}

static uint64_t estimate(void) {
    return CALL(placer_estimate, .counts = direct.counts, .counts_length = direct.counts_length, .marks = direct.marks,
                .marks_length = direct.marks_length, .floats = direct.floats, .floats_length = direct.floats_length,
                .reference = direct.reference, .transforms = direct.first + 1, .transforms_length = direct.first_length,
                .chains = direct.second + 1, .chains_length = direct.second_length);
}

static void not_estimated(const char *what, enum placer_refusal number, uint32_t detail) {
    guard_answers();
    lock(&direct, sizeof direct);
    refuses(what, estimate(), number, detail);
    unlock(&direct, sizeof direct);
    hold("a refused estimate wrote", all_doubles(direct.first, FIRST + 4, GUARD) && all_bytes(direct.second, SECOND + 4, GUARD_BYTE));
}

static void set_marks(const uint8_t marks[CELLS]) { memcpy(direct.marks, marks, CELLS); }

/* Every fault at once, and then, in the order of the refusals, one fewer each time. */
static void estimates(void) {
    memcpy(direct.floats, rig_floats, sizeof rig_floats);
    set_marks((uint8_t[]){1, 1, 0, 1, 2, 255});
    direct.floats[1 * PLACER_POSE_FLOATS + 6] = NAN, direct.floats[3 * PLACER_POSE_FLOATS] = -INFINITY;
    direct.counts[0] = 0, direct.counts[1] = CAMERAS + 1, direct.counts[2] = CAMERAS - 1;
    direct.counts_length = 0, direct.marks_length = CELLS - 1, direct.floats_length = FLOATS - 1;
    direct.first_length = FIRST - 1, direct.second_length = SECOND - 1, direct.reference = CAMERAS;
    not_estimated("no views", PLACER_INSUFFICIENT_DATA, 0);
    direct.counts_length = PLACER_MAX_VIEWS + 1;
    not_estimated("65 views", PLACER_TOO_MANY, 0);
    direct.counts_length = VIEWS;
    not_estimated("no cameras", PLACER_INSUFFICIENT_DATA, 0);
    direct.counts[0] = PLACER_MAX_CAMERAS + 1;
    not_estimated("17 cameras", PLACER_TOO_MANY, 0);
    direct.counts[0] = CAMERAS;
    not_estimated("reference 2 of 2", PLACER_INVALID_REFERENCE, 0);
    direct.reference = REFERENCE;
    not_estimated("view 1 of another count", PLACER_COUNT_DIFFERS, 1);
    direct.counts[1] = CAMERAS;
    not_estimated("view 2 of another count", PLACER_COUNT_DIFFERS, 2);
    direct.counts[2] = CAMERAS;
    not_estimated("a mark too few", PLACER_WRONG_LENGTH, 0);
    direct.marks_length = CELLS + 1;
    not_estimated("a mark too many", PLACER_WRONG_LENGTH, 0);
    direct.marks_length = CELLS;
    not_estimated("a number too few", PLACER_WRONG_LENGTH, 0);
    direct.floats_length = FLOATS + 1;
    not_estimated("a number too many", PLACER_WRONG_LENGTH, 0);
    direct.floats_length = FLOATS;
    not_estimated("no room for a number", PLACER_WRONG_LENGTH, 0);
    direct.first_length = FIRST;
    not_estimated("no room for a byte", PLACER_WRONG_LENGTH, 0);
    direct.second_length = SECOND;
    not_estimated("a mark of 2", PLACER_BAD_MARK, 4);
    direct.marks[4] = 0;
    not_estimated("a mark of 255", PLACER_BAD_MARK, 5);
    direct.marks[5] = 1;
    not_estimated("a NaN", PLACER_NOT_FINITE, 1);
    direct.floats[1 * PLACER_POSE_FLOATS + 6] = 1;
    not_estimated("an infinity", PLACER_NOT_FINITE, 3);
    direct.floats[3 * PLACER_POSE_FLOATS] = 5, direct.floats[2 * PLACER_POSE_FLOATS] = NAN;
    set_marks((uint8_t[]){1, 0, 0, 1, 0, 0});
    not_estimated("camera 0 without a chain, and view 2 empty", PLACER_UNREACHED, 1 << 0);
    direct.reference = 0;
    not_estimated("camera 1 without a chain", PLACER_UNREACHED, 1 << 1);
    direct.reference = REFERENCE;
    set_marks((uint8_t[]){1, 1, 0, 0, 0, 0});
    not_estimated("views 1 and 2 empty", PLACER_EMPTY_VIEW, 1);
    set_marks((uint8_t[]){1, 1, 0, 1, 0, 0});
    not_estimated("view 2 empty", PLACER_EMPTY_VIEW, 2);
    /* Solved: the NaN of an empty cell is ignored, and both answers are longer than they need be. */
    set_marks(rig_marks);
    direct.first_length++, direct.second_length++;
    guard_answers();
    replies("a rig", estimate(), 0);
    hold("the rig's transforms", memcmp(direct.first + 1, rig_first, sizeof rig_first) == 0);
    hold("the rig's chains", memcmp(direct.second + 1, rig_second, sizeof rig_second) == 0);
    hold("memory around a rig", direct.first[0] == GUARD && all_doubles(direct.first + 1 + FIRST, 3, GUARD) && direct.second[0] == GUARD_BYTE && all_bytes(direct.second + 1 + SECOND, 3, GUARD_BYTE));
    refuses("nothing at all", CALL(placer_estimate, .counts = NULL), PLACER_INSUFFICIENT_DATA, 0);
}

/* ---- sessions */

enum { SIZE_BYTES = 4, POSE_BYTES = PLACER_POSE_BYTES, WITHDRAW_BYTES = 3 };
_Static_assert(POSE_BYTES == 3 + 8 * PLACER_POSE_FLOATS, "a Pose command is a byte, a cell and seven doubles");

static struct {
    _Alignas(PAGE) uint64_t record[PLACER_RECORD_WORDS + 1];
    _Alignas(PAGE) double buffer[PLACER_BUFFER_FLOATS];
    _Alignas(PAGE) double first[PLACER_FIRST_FLOATS + 2];
    _Alignas(PAGE) uint8_t second[PLACER_SECOND_BYTES + 2];
    _Alignas(PAGE) uint8_t stream[PLACER_MAX_STREAM + 1];
    size_t record_length, stream_length, buffer_length, first_length, second_length, next;
} lent, before;

/* What a command writes when it is obeyed. */
enum part { NOTHING = 0, RECORD = 1, BUFFER = 2, ANSWERS = 4 };

static void each_part(unsigned parts, void change(void *, size_t)) {
    if (parts & RECORD) change(lent.record, sizeof lent.record);
    if (parts & BUFFER) change(lent.buffer, sizeof lent.buffer);
    if (parts & ANSWERS) change(lent.first, sizeof lent.first), change(lent.second, sizeof lent.second);
}

static uint64_t step(size_t at, unsigned written) {
    lent.next = SIZE_MAX;
    before = lent;
    const unsigned locked = ~written;
    each_part(locked, lock);
    uint64_t reply = CALL(placer_step, .session = lent.record, .session_length = lent.record_length, .stream = lent.stream,
                          .stream_length = lent.stream_length, .at = at, .buffer = lent.buffer, .buffer_length = lent.buffer_length,
                          .transforms = lent.first + 1, .transforms_length = lent.first_length, .chains = lent.second + 1,
                          .chains_length = lent.second_length, .next = &lent.next);
    each_part(locked, unlock);
    return reply;
}

static int unchanged(void) {
    return memcmp(lent.record, before.record, sizeof lent.record) == 0 && memcmp(lent.buffer, before.buffer, sizeof lent.buffer) == 0 &&
           memcmp(lent.first, before.first, sizeof lent.first) == 0 && memcmp(lent.second, before.second, sizeof lent.second) == 0;
}

/* Refused, with nothing changed and the next offset told. */
static void not_obeyed(const char *what, size_t at, enum placer_refusal number, uint32_t detail, size_t next) {
    refuses(what, step(at, NOTHING), number, detail);
    hold(what, lent.next == next);
    hold("a refused command wrote", unchanged());
}

/* Whether each of the 256 shared counts is what the record's masks have, counted view by view. */
static int all_counted(void) {
    for (int first = 0; first < PLACER_MAX_CAMERAS; first++)
        for (int second = 0; second < PLACER_MAX_CAMERAS; second++) {
            uint64_t views = 0;
            for (int view = 0; view < PLACER_MAX_VIEWS; view++) views += lent.record[first] >> view & lent.record[second] >> view & 1;
            if (lent.record[PLACER_SHARED_WORD + PLACER_MAX_CAMERAS * first + second] != views) return 0;
        }
    return 1;
}

static void obeyed(const char *what, size_t at, uint64_t reply, size_t next, unsigned written) {
    replies(what, step(at, written), reply);
    hold(what, lent.next == next);
    hold("a shared count is not the masks'", all_counted());
}

/* A stream of one command. */
static void size(uint8_t views, uint8_t cameras, uint8_t reference) {
    memcpy(lent.stream, (uint8_t[]){0x01, views, cameras, reference}, SIZE_BYTES);
    lent.stream_length = SIZE_BYTES;
}

static void pose(uint8_t view, uint8_t camera, const double *floats) {
    memcpy(lent.stream, (uint8_t[]){0x02, view, camera}, 3);
    for (size_t n = 0; n < PLACER_POSE_FLOATS; n++)
        for (int byte = 0; byte < 8; byte++) lent.stream[3 + 8 * n + byte] = (uint8_t)(bits(floats[n]) >> 8 * byte);
    lent.stream_length = POSE_BYTES;
}

static void solve(void) {
    lent.stream[0] = 0x03;
    lent.stream_length = 1;
}

static void withdraw(uint8_t view, uint8_t camera) {
    memcpy(lent.stream, (uint8_t[]){0x04, view, camera}, WITHDRAW_BYTES);
    lent.stream_length = WITHDRAW_BYTES;
}

static void not_sized(const char *what, uint8_t views, uint8_t cameras, uint8_t reference, enum placer_refusal number) {
    size(views, cameras, reference);
    not_obeyed(what, 0, number, 0, SIZE_BYTES);
}

/* A Pose and its withdrawal as the next command leave the record as it was before the two, word for word. The withdrawal writes no float: the buffer is in
 * read-only pages, and keeps every bit. What stands in the cell no longer matters, and is a NaN from then on. */
static void taken_back(uint8_t view, uint8_t camera) {
    static const double first[PLACER_POSE_FLOATS] = {8, 9, 10, 0, 1, 0, 0};
    static double buffer[PLACER_BUFFER_FLOATS];
    uint64_t record[PLACER_RECORD_WORDS + 1];
    double *const cell = lent.buffer + PLACER_POSE_FLOATS * (view * PLACER_MAX_CAMERAS + camera);
    memcpy(record, lent.record, sizeof record);
    pose(view, camera, first);
    obeyed("a Pose to take back", 0, PLACER_ACCEPTED, POSE_BYTES, RECORD | BUFFER);
    hold("a Pose to take back is held", lent.record[camera] == (record[camera] | 1 << view) && memcmp(cell, first, sizeof first) == 0);
    memcpy(buffer, lent.buffer, sizeof buffer);
    /* Between two bytes that are commands too. */
    memcpy(lent.stream, (uint8_t[]){0x03, 0x04, view, camera, 0x03}, 2 + WITHDRAW_BYTES);
    lent.stream_length = 2 + WITHDRAW_BYTES;
    obeyed("Withdraw", 1, PLACER_ACCEPTED, 1 + WITHDRAW_BYTES, RECORD);
    hold("the record before the two", memcmp(lent.record, record, sizeof record) == 0);
    hold("Withdraw writes no float", memcmp(lent.buffer, buffer, sizeof buffer) == 0);
    withdraw(view, camera);
    not_obeyed("Withdraw again", 0, PLACER_NOT_HELD, view * 256 + camera, WITHDRAW_BYTES);
    cell[3] = NAN;
}

static void sessions(void) {
    static const double spoilt[PLACER_POSE_FLOATS] = {0, 0, 0, NAN, 0, 0, 1};
    const size_t cell_4 = PLACER_POSE_FLOATS * (2 * PLACER_MAX_CAMERAS + 0), cell_5 = cell_4 + PLACER_POSE_FLOATS;
    guard(lent.buffer, PLACER_BUFFER_FLOATS);
    guard(lent.first, PLACER_FIRST_FLOATS + 2);
    memset(lent.second, GUARD_BYTE, sizeof lent.second);

    /* 13, then 5 for each length and for the record, before all else: nothing here has a command, and every offset is past the end. */
    lent.stream_length = PLACER_MAX_STREAM + 1, lent.record[PLACER_VIEWS_WORD] = 256, lent.record_length = PLACER_RECORD_WORDS - 1;
    lent.buffer_length = PLACER_BUFFER_FLOATS - 1, lent.first_length = PLACER_FIRST_FLOATS - 1, lent.second_length = PLACER_SECOND_BYTES - 1;
    not_obeyed("65,537 bytes", SIZE_MAX, PLACER_TOO_LONG, 0, PLACER_MAX_STREAM + 1);
    lent.stream_length = PLACER_MAX_STREAM;
    not_obeyed("a word too few", SIZE_MAX, PLACER_WRONG_LENGTH, 0, PLACER_MAX_STREAM);
    lent.record_length = PLACER_RECORD_WORDS + 1;
    not_obeyed("a word too many", SIZE_MAX, PLACER_WRONG_LENGTH, 0, PLACER_MAX_STREAM);
    lent.record_length = PLACER_RECORD_WORDS;
    not_obeyed("256 views", SIZE_MAX, PLACER_WRONG_LENGTH, 0, PLACER_MAX_STREAM);
    lent.record[PLACER_VIEWS_WORD] = 0;
    not_obeyed("a buffer too short", SIZE_MAX, PLACER_WRONG_LENGTH, 0, PLACER_MAX_STREAM);
    lent.buffer_length = PLACER_BUFFER_FLOATS;
    not_obeyed("no room for a number", SIZE_MAX, PLACER_WRONG_LENGTH, 0, PLACER_MAX_STREAM);
    lent.first_length = PLACER_FIRST_FLOATS;
    not_obeyed("no room for a byte", SIZE_MAX, PLACER_WRONG_LENGTH, 0, PLACER_MAX_STREAM);
    lent.second_length = PLACER_SECOND_BYTES;
    lent.record[0] = 1, lent.record[PLACER_SHARED_WORD] = 1;
    not_obeyed("a pose without sizes", SIZE_MAX, PLACER_WRONG_LENGTH, 0, PLACER_MAX_STREAM);
    lent.record[0] = 0;
    not_obeyed("a shared count without poses", SIZE_MAX, PLACER_WRONG_LENGTH, 0, PLACER_MAX_STREAM);
    lent.record[PLACER_SHARED_WORD] = 0;

    /* 11 past the end, 10 and 11 within; 0 at the end. */
    memset(lent.stream, 0, sizeof lent.stream);
    lent.stream_length = 3 + SIZE_BYTES - 1;
    memcpy(lent.stream, (uint8_t[]){0x00, 0x09, 0xff, 0x01, 1, 1}, 6);
    not_obeyed("an offset past the end", 7, PLACER_TRUNCATED, 6, 6);
    obeyed("the end", 6, PLACER_END, 6, NOTHING);
    not_obeyed("byte 0", 0, PLACER_UNKNOWN_COMMAND, 0x00, 6);
    not_obeyed("byte 9", 1, PLACER_UNKNOWN_COMMAND, 0x09, 6);
    not_obeyed("byte 255", 2, PLACER_UNKNOWN_COMMAND, 0xff, 6);
    not_obeyed("Size cut off", 3, PLACER_TRUNCATED, 3, 6);
    pose(VIEWS, CAMERAS, spoilt);
    lent.stream_length = POSE_BYTES - 1;
    not_obeyed("Pose cut off before a Size", 0, PLACER_TRUNCATED, 0, POSE_BYTES - 1);
    withdraw(VIEWS, CAMERAS);
    lent.stream_length = WITHDRAW_BYTES - 1;
    not_obeyed("Withdraw cut off before a Size", 0, PLACER_TRUNCATED, 0, WITHDRAW_BYTES - 1);
    lent.stream_length = 1;
    not_obeyed("Withdraw of one byte", 0, PLACER_TRUNCATED, 0, 1);

    /* 21, and Size: 1, 2, 1, 2, 3; then 22. */
    pose(VIEWS, CAMERAS, spoilt);
    not_obeyed("Pose before Size", 0, PLACER_NO_SIZE, 0, POSE_BYTES);
    withdraw(VIEWS, CAMERAS);
    not_obeyed("Withdraw before Size", 0, PLACER_NO_SIZE, 0, WITHDRAW_BYTES);
    solve();
    not_obeyed("Solve before Size", 0, PLACER_NO_SIZE, 0, 1);
    not_sized("no views", 0, 0, 0, PLACER_INSUFFICIENT_DATA);
    not_sized("65 views", PLACER_MAX_VIEWS + 1, 0, 0, PLACER_TOO_MANY);
    not_sized("no cameras", VIEWS, 0, 0, PLACER_INSUFFICIENT_DATA);
    not_sized("17 cameras", VIEWS, PLACER_MAX_CAMERAS + 1, 17, PLACER_TOO_MANY);
    not_sized("reference 2 of 2", VIEWS, CAMERAS, CAMERAS, PLACER_INVALID_REFERENCE);
    /* Where the stream arrives in pieces: 11, and the same offset once it is longer. */
    size(VIEWS, CAMERAS, REFERENCE);
    lent.stream_length--;
    not_obeyed("Size not whole yet", 0, PLACER_TRUNCATED, 0, SIZE_BYTES - 1);
    obeyed("the end behind it", lent.next, PLACER_END, SIZE_BYTES - 1, NOTHING);
    lent.stream_length++;
    obeyed("Size", 0, PLACER_ACCEPTED, SIZE_BYTES, RECORD);
    hold("the sizes in the record", lent.record[PLACER_VIEWS_WORD] == VIEWS && lent.record[PLACER_CAMERAS_WORD] == CAMERAS && lent.record[PLACER_REFERENCE_WORD] == REFERENCE);
    not_sized("Size again, of no views", 0, 0, 0, PLACER_SIZE_AGAIN);

    /* Pose: 12, 23, 7. View 2 and camera 1 make the detail 513; view 3 is outside, and so is camera 2. */
    pose(VIEWS, 1, spoilt);
    not_obeyed("view 3 of 3", 0, PLACER_OUTSIDE_RIG, VIEWS * 256 + 1, POSE_BYTES);
    pose(1, CAMERAS, spoilt);
    not_obeyed("camera 2 of 2", 0, PLACER_OUTSIDE_RIG, 1 * 256 + CAMERAS, POSE_BYTES);
    pose(2, 1, spoilt);
    not_obeyed("a NaN at cell 5", 0, PLACER_NOT_FINITE, 2 * CAMERAS + 1, POSE_BYTES);
    pose(2, 1, rig_floats + 5 * PLACER_POSE_FLOATS);
    obeyed("Pose", 0, PLACER_ACCEPTED, POSE_BYTES, RECORD | BUFFER);
    hold("the mask of camera 1", lent.record[1] == 1 << 2);
    hold("the seven floats of its cell", memcmp(lent.buffer + cell_5, rig_floats + 5 * PLACER_POSE_FLOATS, 7 * sizeof(double)) == 0);
    hold("the floats around them", all_doubles(lent.buffer, cell_5, GUARD) && all_doubles(lent.buffer + cell_5 + 7, PLACER_BUFFER_FLOATS - cell_5 - 7, GUARD));
    pose(2, 1, spoilt);
    not_obeyed("Pose again, with a NaN", 0, PLACER_HELD_ALREADY, 2 * 256 + 1, POSE_BYTES);

    /* Withdraw: 12, though nothing is held there either, and 24. */
    withdraw(VIEWS, 1);
    not_obeyed("Withdraw of view 3 of 3", 0, PLACER_OUTSIDE_RIG, VIEWS * 256 + 1, WITHDRAW_BYTES);
    withdraw(1, CAMERAS);
    not_obeyed("Withdraw of camera 2 of 2", 0, PLACER_OUTSIDE_RIG, 1 * 256 + CAMERAS, WITHDRAW_BYTES);
    withdraw(2, 0);
    not_obeyed("Withdraw of a cell beside the held one", 0, PLACER_NOT_HELD, 2 * 256 + 0, WITHDRAW_BYTES);
    withdraw(1, 1);
    not_obeyed("Withdraw of a view before the held one", 0, PLACER_NOT_HELD, 1 * 256 + 1, WITHDRAW_BYTES);
    /* A cell that is sent again below, and one that is not. */
    taken_back(0, 0);
    taken_back(1, 0);

    /* Solve: 7 for what was spoilt since, 8, 9 for the lowest empty view, and solved at an offset in a longer stream. */
    lent.buffer[cell_5] = INFINITY;
    solve();
    not_obeyed("a spoilt buffer", 0, PLACER_NOT_FINITE, 5, 1);
    lent.buffer[cell_5] = rig_floats[5 * PLACER_POSE_FLOATS];
    not_obeyed("camera 0 without a chain, and views 0 and 1 empty", 0, PLACER_UNREACHED, 1 << 0, 1);
    pose(2, 0, rig_floats + 4 * PLACER_POSE_FLOATS);
    obeyed("Pose of camera 0", 0, PLACER_ACCEPTED, POSE_BYTES, RECORD | BUFFER);
    hold("the mask of camera 0", lent.record[0] == 1 << 2 && memcmp(lent.buffer + cell_4, rig_floats + 4 * PLACER_POSE_FLOATS, 7 * sizeof(double)) == 0);
    solve();
    not_obeyed("views 0 and 1 empty", 0, PLACER_EMPTY_VIEW, 0, 1);
    for (uint8_t cell = 0; cell < 4; cell++) {
        if (!rig_marks[cell]) continue;
        pose(cell / CAMERAS, cell % CAMERAS, rig_floats + cell * PLACER_POSE_FLOATS);
        obeyed("Pose of the rig", 0, PLACER_ACCEPTED, POSE_BYTES, RECORD | BUFFER);
    }
    memcpy(lent.stream, (uint8_t[]){0x03, 0x00, 0x03, 0x00}, 4);
    lent.stream_length = 4;
    obeyed("Solve", 2, PLACER_SOLVED, 3, ANSWERS);
    hold("the session's transforms", memcmp(lent.first + 1, rig_first, sizeof rig_first) == 0);
    hold("the session's chains", memcmp(lent.second + 1, rig_second, sizeof rig_second) == 0);
    hold("memory around a session's rig", lent.first[0] == GUARD && all_doubles(lent.first + 1 + FIRST, PLACER_FIRST_FLOATS + 1 - FIRST, GUARD) && lent.second[0] == GUARD_BYTE && all_bytes(lent.second + 1 + SECOND, PLACER_SECOND_BYTES + 1 - SECOND, GUARD_BYTE));
    hold("a Solve changes no record and no buffer", memcmp(lent.record, before.record, sizeof lent.record) == 0 && memcmp(lent.buffer, before.buffer, sizeof lent.buffer) == 0);
    /* One of a view's two poses taken back, and a view's only one; both sent again: the same rig. */
    withdraw(2, 0);
    obeyed("Withdraw of one of two poses", 0, PLACER_ACCEPTED, WITHDRAW_BYTES, RECORD);
    hold("the masks without it", lent.record[0] == 1 << 0 && lent.record[1] == (1 << 0 | 1 << 1 | 1 << 2));
    pose(2, 0, rig_floats + 4 * PLACER_POSE_FLOATS);
    obeyed("one of two poses sent again", 0, PLACER_ACCEPTED, POSE_BYTES, RECORD | BUFFER);
    withdraw(1, 1);
    obeyed("Withdraw of a view's only pose", 0, PLACER_ACCEPTED, WITHDRAW_BYTES, RECORD);
    hold("the masks without it", lent.record[0] == (1 << 0 | 1 << 2) && lent.record[1] == (1 << 0 | 1 << 2));
    solve();
    not_obeyed("view 1 empty", 0, PLACER_EMPTY_VIEW, 1, 1);
    pose(1, 1, rig_floats + 3 * PLACER_POSE_FLOATS);
    obeyed("Pose sent again", 0, PLACER_ACCEPTED, POSE_BYTES, RECORD | BUFFER);
    guard(lent.first, PLACER_FIRST_FLOATS + 2);
    solve();
    obeyed("Solve again", 0, PLACER_SOLVED, 1, ANSWERS);
    hold("the same rig", memcmp(lent.first + 1, rig_first, sizeof rig_first) == 0 && memcmp(lent.second + 1, rig_second, sizeof rig_second) == 0);
    lent.next = 1;
    refuses("nothing at all", CALL(placer_step, .next = &lent.next), PLACER_WRONG_LENGTH, 0);
    hold("the end of nothing", lent.next == 0);
}

/* ---- shared counts, of the session above: camera 0 is held in views 0 and 2, camera 1 in all three */

static uint64_t ask(uint8_t first, uint8_t second) {
    lock(lent.record, sizeof lent.record);
    uint64_t reply = CALL(placer_shared, .record = lent.record, .record_length = lent.record_length, .first = first, .second = second);
    unlock(lent.record, sizeof lent.record);
    return reply;
}

static void not_told(const char *what, uint8_t first, uint8_t second, enum placer_refusal number, uint32_t detail) { refuses(what, ask(first, second), number, detail); }

/* Refused with 5 by the query, before 12, and by a command. */
static void no_record(const char *what) {
    not_told(what, 0, 0, PLACER_WRONG_LENGTH, 0);
    not_told(what, CAMERAS, 255, PLACER_WRONG_LENGTH, 0);
    solve();
    not_obeyed(what, 0, PLACER_WRONG_LENGTH, 0, 1);
}

static void shared_counts(void) {
    replies("camera 0's own poses", ask(0, 0), 2);
    replies("camera 1's own poses", ask(1, 1), 3);
    replies("what 0 and 1 share", ask(0, 1), 2);
    replies("what 1 and 0 share", ask(1, 0), 2);
    /* 12: the first camera, the second or both are outside. */
    static const uint8_t outside[][2] = {{CAMERAS, 0}, {0, CAMERAS}, {CAMERAS, CAMERAS}, {1, 15}, {15, 1}, {0, 16}, {16, 0}, {0, 255}, {255, 0}, {255, 255}};
    for (size_t n = 0; n < sizeof outside / sizeof *outside; n++)
        not_told("a camera outside", outside[n][0], outside[n][1], PLACER_OUTSIDE_RIG, outside[n][0] * 256 + outside[n][1]);
    /* 5: lengths of none, of 19, and one too short and too long, every false entry, one outside the sizes too, by one up and down and by 256, and the same in both entries of a pair. */
    static const size_t lengths[] = {0, PLACER_SHARED_WORD, PLACER_RECORD_WORDS - 1, PLACER_RECORD_WORDS + 1};
    for (size_t n = 0; n < sizeof lengths / sizeof *lengths; n++) {
        lent.record_length = lengths[n];
        no_record("a record of another length");
    }
    lent.record_length = PLACER_RECORD_WORDS;
    static const uint64_t changes[] = {1, UINT64_MAX, 256};
    for (size_t first = 0; first < PLACER_MAX_CAMERAS; first++)
        for (size_t second = 0; second < PLACER_MAX_CAMERAS; second++)
            for (size_t n = 0; n < sizeof changes / sizeof *changes; n++) {
                uint64_t *const entry = &lent.record[PLACER_SHARED_WORD + PLACER_MAX_CAMERAS * first + second];
                uint64_t *const other = &lent.record[PLACER_SHARED_WORD + PLACER_MAX_CAMERAS * second + first];
                *entry += changes[n];
                no_record("a false entry");
                if (first < second) {
                    *other += changes[n];
                    no_record("a false pair of entries");
                    *other -= changes[n];
                }
                *entry -= changes[n];
            }
    lent.record[PLACER_VIEWS_WORD] += 256;
    no_record("259 views");
    lent.record[PLACER_VIEWS_WORD] -= 256;
    lent.record[PLACER_REFERENCE_WORD] = CAMERAS;
    no_record("reference 2 of 2");
    lent.record[PLACER_REFERENCE_WORD] = REFERENCE;
    lent.record[0] |= 1 << VIEWS, lent.record[PLACER_SHARED_WORD]++, lent.record[1] |= 1 << VIEWS, lent.record[PLACER_SHARED_WORD + 17]++;
    lent.record[PLACER_SHARED_WORD + 1]++, lent.record[PLACER_SHARED_WORD + 16]++;
    hold("the counts of masks with a view too many", all_counted());
    no_record("a view too many, truly counted");
    /* 13 comes before 5. */
    lent.stream_length = PLACER_MAX_STREAM + 1;
    not_obeyed("65,537 bytes and a false entry", 0, PLACER_TOO_LONG, 0, PLACER_MAX_STREAM + 1);
    /* 21, before 12 and after 5, of a fresh record. */
    memset(lent.record, 0, sizeof lent.record);
    not_told("no sizes", 0, 0, PLACER_NO_SIZE, 0);
    not_told("no sizes, and cameras outside", 255, 255, PLACER_NO_SIZE, 0);
    lent.record[PLACER_RECORD_WORDS - 1] = 1;
    no_record("no sizes, and a false entry");
    lent.record[PLACER_RECORD_WORDS - 1] = 0;
    /* Sizes without poses; and the largest rig, every pose held: 64 in every entry. */
    size(PLACER_MAX_VIEWS, PLACER_MAX_CAMERAS, 0);
    obeyed("Size of the largest rig", 0, PLACER_ACCEPTED, SIZE_BYTES, RECORD);
    replies("nothing is shared yet", ask(PLACER_MAX_CAMERAS - 1, 0), 0);
    not_told("camera 16 of 16", 0, PLACER_MAX_CAMERAS, PLACER_OUTSIDE_RIG, PLACER_MAX_CAMERAS);
    for (uint8_t view = 0; view < PLACER_MAX_VIEWS; view++)
        for (uint8_t camera = 0; camera < PLACER_MAX_CAMERAS; camera++) {
            pose(view, camera, rig_floats);
            obeyed("Pose of the largest rig", 0, PLACER_ACCEPTED, POSE_BYTES, RECORD | BUFFER);
        }
    for (uint8_t camera = 0; camera < PLACER_MAX_CAMERAS; camera++) replies("64 views", ask(camera, PLACER_MAX_CAMERAS - 1 - camera), PLACER_MAX_VIEWS);
    withdraw(PLACER_MAX_VIEWS - 1, PLACER_MAX_CAMERAS - 1);
    obeyed("Withdraw of the last cell", 0, PLACER_ACCEPTED, WITHDRAW_BYTES, RECORD);
    replies("its own poses", ask(PLACER_MAX_CAMERAS - 1, PLACER_MAX_CAMERAS - 1), PLACER_MAX_VIEWS - 1);
    replies("what it shares", ask(0, PLACER_MAX_CAMERAS - 1), PLACER_MAX_VIEWS - 1);
    replies("what others share", ask(0, PLACER_MAX_CAMERAS - 2), PLACER_MAX_VIEWS);
    refuses("nothing at all", CALL(placer_shared, .record = NULL), PLACER_WRONG_LENGTH, 0);
}

/* ---- packed frames */

enum { MOST_BYTES = PLACER_FRAME_BYTES * PLACER_MAX_FRAMES, MOST_ROOM = PLACER_POSE_BYTES * PLACER_MAX_FRAMES };

static struct {
    _Alignas(PAGE) uint8_t frames[MOST_BYTES + 2 * PLACER_FRAME_BYTES];
    _Alignas(PAGE) uint8_t commands[MOST_ROOM + 2 * PLACER_POSE_BYTES];
} packed;

static uint64_t import_frames(size_t length, size_t room) {
    return CALL(placer_frames, .frames = packed.frames, .frames_length = length, .commands = packed.commands + 1, .commands_length = room);
}

static void not_imported(const char *what, size_t length, size_t room, enum placer_refusal number) {
    memset(packed.commands, GUARD_BYTE, sizeof packed.commands);
    lock(&packed, sizeof packed);
    refuses(what, import_frames(length, room), number, 0);
    unlock(&packed, sizeof packed);
    hold("a refused import wrote", all_bytes(packed.commands, sizeof packed.commands, GUARD_BYTE));
}

/* So many frames, whose bytes no call may write. */
static void imported(const char *what, size_t count) {
    const size_t room = PLACER_POSE_BYTES * count;
    memset(packed.commands, GUARD_BYTE, sizeof packed.commands);
    lock(packed.frames, sizeof packed.frames);
    replies(what, import_frames(PLACER_FRAME_BYTES * count, room), count);
    unlock(packed.frames, sizeof packed.frames);
    hold("memory around commands", packed.commands[0] == GUARD_BYTE && all_bytes(packed.commands + 1 + room, sizeof packed.commands - 1 - room, GUARD_BYTE));
}

static void frame(size_t at, uint8_t view, uint8_t camera, const int32_t counts[PLACER_POSE_FLOATS]) {
    uint8_t *const bytes = packed.frames + PLACER_FRAME_BYTES * at;
    bytes[0] = view, bytes[1] = camera;
    for (size_t n = 0; n < PLACER_POSE_FLOATS; n++)
        for (int byte = 0; byte < 4; byte++) bytes[2 + 4 * n + byte] = (uint8_t)((uint32_t)counts[n] >> 8 * byte);
}

/* The command of a frame: its byte, its cell, and numbers whose bits are known. */
static void is_command(const char *what, size_t at, uint8_t view, uint8_t camera, const double numbers[PLACER_POSE_FLOATS]) {
    uint8_t expected[PLACER_POSE_BYTES] = {0x02, view, camera};
    for (size_t n = 0; n < PLACER_POSE_FLOATS; n++)
        for (int byte = 0; byte < 8; byte++) expected[3 + 8 * n + byte] = (uint8_t)(bits(numbers[n]) >> 8 * byte);
    hold(what, memcmp(packed.commands + 1 + PLACER_POSE_BYTES * at, expected, sizeof expected) == 0);
}

/* The compiler reads these numbers as decimal or hexadecimal digits, each as its nearest double: nothing here divides. */
static const struct {
    uint8_t view, camera;
    int32_t counts[PLACER_POSE_FLOATS];
    double numbers[PLACER_POSE_FLOATS];
} known_frames[] = {
    {3, 7, {-1, INT32_MAX, INT32_MIN, 0, -(1 << 30), 1, 1 << 30}, {-0.000001, 2147.483647, -2147.483648, 0.0, -1.0, 0x1p-30, 1.0}},
    {255, 0, {0, 1, -1000000, INT32_MIN, INT32_MAX, -1, (1 << 30) + 1}, {0.0, 0.000001, -1.0, -2.0, 0x1.fffffffcp0, -0x1p-30, 0x1.00000004p0}},
    {0, 255, {1000001, -999999, 123456789, 1 << 29, -(1 << 29), 3, -3}, {1.000001, -0.999999, 123.456789, 0.5, -0.5, 0x1.8p-29, -0x1.8p-29}},
    /* Counts whose share is another double where it is taken as a product with 0.000001, in doubles or in longer numbers, or divided by 1,000 twice. */
    {17, 42, {15, -43, 2877, 123, -456, 789, -1011}, {0.000015, -0.000043, 0.002877, 0x7bp-30, -0x1c8p-30, 0x315p-30, -0x3f3p-30}},
};
enum { KNOWN = sizeof known_frames / sizeof *known_frames };

static void known_at(size_t at, size_t n) { frame(at, known_frames[n].view, known_frames[n].camera, known_frames[n].counts); }

static void is_known(const char *what, size_t at, size_t n) { is_command(what, at, known_frames[n].view, known_frames[n].camera, known_frames[n].numbers); }

static void frames(void) {
    /* 0 is a count. */
    imported("no frames", 0);
    replies("no frames in no memory", CALL(placer_frames, .frames = NULL), 0);
    /* 14, whatever the room, and before 15. */
    static const size_t broken[] = {1, 29, 31, 59, 61, MOST_BYTES - 1, MOST_BYTES + 1, MOST_BYTES + 29, MOST_BYTES + 31};
    for (size_t n = 0; n < sizeof broken / sizeof *broken; n++) {
        const size_t whole = PLACER_POSE_BYTES * (broken[n] / PLACER_FRAME_BYTES);
        not_imported("a broken frame", broken[n], 0, PLACER_BROKEN_FRAME);
        not_imported("a broken frame, and room for the whole ones", broken[n], whole, PLACER_BROKEN_FRAME);
        not_imported("a broken frame, and room for it", broken[n], whole + PLACER_POSE_BYTES, PLACER_BROKEN_FRAME);
    }
    /* 15, whatever the room: before 5, and where there is room for all. */
    static const size_t rooms[] = {0, MOST_ROOM, MOST_ROOM + PLACER_POSE_BYTES - 1, MOST_ROOM + PLACER_POSE_BYTES};
    for (size_t n = 0; n < sizeof rooms / sizeof *rooms; n++) not_imported("1,025 frames", MOST_BYTES + PLACER_FRAME_BYTES, rooms[n], PLACER_TOO_MANY_FRAMES);
    /* 5: a byte too few and one too many, none, and room for a frame fewer or more. */
    static const size_t counts[] = {0, 1, 2, PLACER_MAX_FRAMES - 1, PLACER_MAX_FRAMES};
    for (size_t n = 0; n < sizeof counts / sizeof *counts; n++) {
        const size_t length = PLACER_FRAME_BYTES * counts[n], room = PLACER_POSE_BYTES * counts[n];
        not_imported("a byte of room too many", length, room + 1, PLACER_WRONG_LENGTH);
        not_imported("room for a frame more", length, room + PLACER_POSE_BYTES, PLACER_WRONG_LENGTH);
        if (counts[n] == 0) continue;
        not_imported("a byte of room too few", length, room - 1, PLACER_WRONG_LENGTH);
        not_imported("room for a frame fewer", length, room - PLACER_POSE_BYTES, PLACER_WRONG_LENGTH);
        not_imported("no room", length, 0, PLACER_WRONG_LENGTH);
        not_imported("room for the frames as they are", length, length, PLACER_WRONG_LENGTH);
    }
    /* Lengths that 32 bits do not hold are not taken for what is left of them: 2^32 or 2^33 bytes more than a frame, and more than room for one. Their memory cannot even
     * be read: a refusal does not look at it. Frames and room are two pieces of it. */
    const size_t longest = ((size_t)1 << 33) + 2 * PLACER_POSE_BYTES;
    uint8_t *const closed = mmap(NULL, longest, PROT_NONE, MAP_PRIVATE | MAP_ANONYMOUS | MAP_NORESERVE, -1, 0);
    hold("mmap", closed != MAP_FAILED);
    if (closed != MAP_FAILED) {
        for (int power = 32; power <= 33; power++) {
            const size_t more = (size_t)1 << power, to_frames = PLACER_FRAME_BYTES - more % PLACER_FRAME_BYTES;
            refuses("a frame and 2^32 bytes", CALL(placer_frames, .frames = closed, .frames_length = more + PLACER_FRAME_BYTES, .commands = closed + longest - PLACER_POSE_BYTES, .commands_length = PLACER_POSE_BYTES), PLACER_BROKEN_FRAME, 0);
            refuses("2^32 bytes and a few", CALL(placer_frames, .frames = closed, .frames_length = more + to_frames, .commands = closed, .commands_length = 0), PLACER_TOO_MANY_FRAMES, 0);
            refuses("2^32 bytes of room too many", CALL(placer_frames, .frames = packed.frames, .frames_length = PLACER_FRAME_BYTES, .commands = closed, .commands_length = more + PLACER_POSE_BYTES), PLACER_WRONG_LENGTH, 0);
        }
        hold("munmap", munmap(closed, longest) == 0);
    }
    /* One frame, two, and the most, each with its own numbers; the last with every frame's cell its own too. */
    for (size_t n = 0; n < KNOWN; n++) {
        known_at(0, n);
        imported("one frame", 1);
        is_known("the command of a frame", 0, n);
    }
    known_at(0, 1), known_at(1, 0);
    imported("two frames", 2);
    is_known("the first of two commands", 0, 1);
    is_known("the second of two commands", 1, 0);
    for (size_t at = 0; at < PLACER_MAX_FRAMES; at++) frame(at, (uint8_t)(at / PLACER_MAX_CAMERAS), (uint8_t)(at % PLACER_MAX_CAMERAS), known_frames[at % KNOWN].counts);
    imported("1,024 frames", PLACER_MAX_FRAMES);
    for (size_t at = 0; at < PLACER_MAX_FRAMES; at++)
        is_command("one of 1,024 commands", at, (uint8_t)(at / PLACER_MAX_CAMERAS), (uint8_t)(at % PLACER_MAX_CAMERAS), known_frames[at % KNOWN].numbers);
    /* placer_step obeys what is written: one of them, in the session of the largest rig, whose last cell is empty. */
    known_at(0, 0);
    packed.frames[0] = PLACER_MAX_VIEWS - 1, packed.frames[1] = PLACER_MAX_CAMERAS - 1;
    imported("the frame of the last cell", 1);
    memcpy(lent.stream, packed.commands + 1, PLACER_POSE_BYTES);
    lent.stream_length = PLACER_POSE_BYTES;
    obeyed("the command of a frame, obeyed", 0, PLACER_ACCEPTED, POSE_BYTES, RECORD | BUFFER);
    hold("its seven numbers", memcmp(lent.buffer + PLACER_BUFFER_FLOATS - PLACER_POSE_FLOATS, known_frames[0].numbers, sizeof known_frames[0].numbers) == 0);
}

int main(void) {
    signal(SIGSEGV, wrote);
    roots();
    averages();
    estimates();
    sessions();
    shared_counts();
    frames();
    for (size_t n = 0; n < sizeof every_refusal / sizeof *every_refusal; n++) hold("a refusal was never met", seen >> every_refusal[n] & 1);
    if (!failed) printf("%d calls, every refusal among them, as expected, in memory that is read-only where a call is not to write\n", calls);
    return failed;
}
