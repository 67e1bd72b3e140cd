/* The rig placer for C: the exports of libplacer.a, which `sh tests/library.sh placer` makes for x86-64 Linux. It calls
 * nothing but memcpy and memset.
 *
 * A slice passes as a pointer and a length, the length in elements and not in bytes. Where the length is 0 the pointer is not followed, and
 * NULL will do. Otherwise it is aligned as its type asks, and its length in bytes is at most PTRDIFF_MAX. What is lent to be written (not
 * const) overlaps no other argument of the same call. `mean` and `next` are never NULL. No call keeps a pointer, allocates, blocks or reads anything but
 * its arguments, so calls on different memory may run at the same time.
 *
 * A pose is seven doubles: a translation x, y, z, then a quaternion i, j, k, w, w last. A camera's pose of a target maps points of the target into the camera's
 * frame. Any four finite numbers are taken as a rotation. A cell's number, which 6 and 7 name, is view * cameras + camera.
 *
 * A reply of 2^32 or more is a refusal: its number in the upper 32 bits, what it names in the lower, 0 if nothing. A refusal writes nothing
 * (but `next`). No argument is too odd to be refused: there is no condition on the caller but the one on memory above. */
#ifndef PLACER_H
#define PLACER_H

#include <stddef.h>
#include <stdint.h>

#ifdef __cplusplus
extern "C" {
#endif

#define PLACER_POSE_FLOATS 7
#define PLACER_MAX_VIEWS 64
#define PLACER_MAX_CAMERAS 16

/* What a session is lent: the words of its record (a mask for each camera, then those named here, and from PLACER_SHARED_WORD on 16 rows of 16 shared
 * counts), the doubles of its buffer, and both answers. */
#define PLACER_RECORD_WORDS 275
#define PLACER_VIEWS_WORD 16
#define PLACER_CAMERAS_WORD 17
#define PLACER_REFERENCE_WORD 18
#define PLACER_SHARED_WORD 19
#define PLACER_BUFFER_FLOATS 7168
#define PLACER_FIRST_FLOATS 560
#define PLACER_SECOND_BYTES 32
#define PLACER_MAX_STREAM 65536

/* The two halves of a refusal; 0 is the number of none. */
static inline uint32_t placer_number(uint64_t reply) { return (uint32_t)(reply >> 32); }
static inline uint32_t placer_detail(uint64_t reply) { return (uint32_t)reply; }

/* The numbers of refusals, and what the detail names. */
enum placer_refusal {
    PLACER_INSUFFICIENT_DATA = 1, /* no views, no cameras in view 0, or no poses */
    PLACER_TOO_MANY = 2,          /* more than 64 views or poses, or more than 16 cameras in view 0 */
    PLACER_INVALID_REFERENCE = 3, /* the reference is not below the camera count */
    PLACER_COUNT_DIFFERS = 4,     /* the lowest view whose count differs from view 0's */
    PLACER_WRONG_LENGTH = 5,      /* a length that does not fit, or a session record that no accepted commands leave */
    PLACER_BAD_MARK = 6,          /* the lowest cell with a mark above 1: view * cameras + camera */
    PLACER_NOT_FINITE = 7,        /* the lowest cell (view * cameras + camera), or pose of a list, with a number that is not finite */
    PLACER_UNREACHED = 8,         /* the cameras without a chain: the sum of 2 to the power c over them */
    PLACER_EMPTY_VIEW = 9,        /* the lowest view without poses */
    PLACER_UNKNOWN_COMMAND = 10,  /* the byte */
    PLACER_TRUNCATED = 11,        /* the offset of the command that the stream ends within, at which to go on once it is longer; the length for an offset past the end */
    PLACER_OUTSIDE_RIG = 12,      /* view * 256 + camera, of a cell outside the sizes; first * 256 + second, of cameras asked for */
    PLACER_TOO_LONG = 13,         /* a stream of more than 65,536 bytes */
    PLACER_BROKEN_FRAME = 14,     /* packed frames whose length is no multiple of 30 */
    PLACER_TOO_MANY_FRAMES = 15,  /* more than 1,024 packed frames */
    PLACER_NO_SIZE = 21,          /* Pose, Withdraw, Solve or placer_shared before an accepted Size */
    PLACER_SIZE_AGAIN = 22,       /* Size after an accepted Size */
    PLACER_HELD_ALREADY = 23,     /* view * 256 + camera, of a cell that is held already */
    PLACER_NOT_HELD = 24          /* view * 256 + camera, of a cell to withdraw that holds no pose */
};

/* The square root of IEEE 754: the nearest double, ties to even; of a NaN or of anything below zero a NaN. */
double placer_sqrt(double x);

/* A pose as a record: a translation, and a quaternion with w last. */
struct rig_pose {
    double x, y, z;
    double i, j, k, w;
};

/* The average of 1 to 64 poses, its seven numbers into `mean`; the reply is then 0. Refused: no poses with 1, more than 64 with 2, a number
 * that is not finite with 7 (detail the lowest such pose), in this order. */
uint64_t rig_average_isometries(const struct rig_pose *poses, size_t poses_length, double mean[7]);

/* The direct call: per view a count of cameras; a mark for each cell, 0 empty and 1 a pose, view after view; seven doubles for each cell,
 * those of an empty one ignored; the reference camera. Solved, the reply is 0, and the answers hold
 *   transforms: seven doubles for each camera, its pose in the frame of the reference, and then for each view, its target's pose there;
 *   chains:     for each camera its parent and the number of links to the reference, whose own are itself and 0.
 * They need 7 * (cameras + views) doubles and 2 * cameras bytes, and keep what they have beyond. Refused, in this order: the views by 1, then 2; the cameras of
 * view 0 by 1, then 2; then 3 to 9. */
uint64_t placer_estimate(const uint32_t *counts, size_t counts_length, const uint8_t *marks, size_t marks_length, const double *floats,
                         size_t floats_length, uint32_t reference, double *transforms, size_t transforms_length, uint8_t *chains,
                         size_t chains_length);

/* What placer_step replies where nothing is refused. Unlike placer_estimate's, its 0 is no success but the end: compare with these, not with 0. */
#define PLACER_END 0      /* the offset is the stream's length */
#define PLACER_ACCEPTED 1 /* Size, Pose or Withdraw was obeyed */
#define PLACER_SOLVED 2   /* Solve was obeyed: the answers hold the rig, as placer_estimate leaves it */

/* Obeys the one command at an offset of a stream, and sets `next` to the offset of the next one:
 *   0x01 Size:     views, cameras, reference, one byte each
 *   0x02 Pose:     view, camera, one byte each, then seven doubles, low byte first
 *   0x03 Solve
 *   0x04 Withdraw: view, camera, one byte each: takes that cell's pose back
 * What a session holds is its record, `session`, of exactly PLACER_RECORD_WORDS words that are all 0 at first (one mask of views for each camera, bit v
 * for view v; then the views, the cameras and the reference; then, row by row, for cameras a and b at PLACER_SHARED_WORD + 16 * a + b, how many views hold
 * poses of both, for a camera with itself how many hold one of it), and its poses, `buffer`, of exactly PLACER_BUFFER_FLOATS
 * doubles, a cell's seven from 7 * (view * 16 + camera), which the caller keeps from call to call and need not fill. Both answers have at
 * least PLACER_FIRST_FLOATS and PLACER_SECOND_BYTES. An accepted Size or Withdraw writes the record, an accepted Pose the record and the buffer, a
 * Solve that is obeyed both answers, and no call writes anything else but `next`: whoever saves record and buffer has saved the session.
 * Withdraw clears one bit of one mask and counts down what it shared. The cell's seven doubles stay in the buffer, where nothing looks at them until
 * another Pose of the cell writes them. A record is refused with 5 where its sizes, its reference, a mask or a shared count, one outside the sizes too, is
 * not what accepted commands leave. A record of 19 words, from before shared counts were held, is made anew by sending its commands to a fresh one.
 * Refused: 13 and then 5 before all else; 10 and 11; 21 and 22; by Size its views by 1, then 2, its cameras by 1, then 2, then 3; 12, 23 and 7 by Pose;
 * 12 and 24 by Withdraw; 7, 8 and 9 by Solve. After 5, 10, 11 and 13 `next` is the stream's length, and after any other the offset of the next command.
 * Where a stream arrives in pieces, 11 means that the command at `at` is not whole yet: call again at the SAME offset with the longer
 * stream (or at 0 of one that begins with that command). Who goes on at `next` loses it: the same stream is answered with PLACER_END there,
 * and a longer one is read from within the command. */
uint64_t placer_step(uint64_t *session, size_t session_length, const uint8_t *stream, size_t stream_length, size_t at, double *buffer,
                     size_t buffer_length, double *transforms, size_t transforms_length, uint8_t *chains, size_t chains_length, size_t *next);

/* How many views hold poses of both cameras, 0 to 64, and of a camera with itself how many hold one of it: the entry of a session's record. It writes
 * nothing. Refused: 5 for words that no accepted commands leave, as by placer_step; 21 before an accepted Size; 12 where a camera is outside the sizes
 * (detail first * 256 + second), in this order. A count is below 2^32, so placer_number tells it from a refusal: 0 is a count, of cameras that share no view. */
uint64_t placer_shared(const uint64_t *record, size_t record_length, uint8_t first, uint8_t second);

/* The bytes of a packed frame, the most frames of one call, and the bytes of a Pose command. */
#define PLACER_FRAME_BYTES 30
#define PLACER_MAX_FRAMES 1024
#define PLACER_POSE_BYTES 59

/* Packed frames of the arm controller as Pose commands, which placer_step obeys. A frame is PLACER_FRAME_BYTES bytes: the view and the camera, one byte each; then
 * seven signed words of 32 bits, low byte first: the translation x, y, z in micrometres, and the rotation i, j, k, w in units of 2^-30. Each frame becomes one
 * command, in their order: the byte 0x02, the view, the camera, and seven doubles, low byte first. A translation is the double nearest to the count divided by
 * 1,000,000, in metres; a rotation number is exact; both have the count's sign, and a count of 0 gives plus zero. Views and cameras are not judged here: placer_step does that.
 * `commands` has exactly PLACER_POSE_BYTES bytes for each frame, all of which are written, and does not overlap `frames`. Refused, in this order: 14 for a length of
 * frames that is no multiple of PLACER_FRAME_BYTES, 15 for more than PLACER_MAX_FRAMES, 5 for a `commands_length` that is not PLACER_POSE_BYTES times the frames; the details are 0, and
 * nothing is written. The reply is otherwise the number of frames: 0 is a count, of no frames at all, and no refusal. */
uint64_t placer_frames(const uint8_t *frames, size_t frames_length, uint8_t *commands, size_t commands_length);

#ifdef __cplusplus
}
#endif

#endif
