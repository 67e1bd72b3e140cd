/* Feeds a session from a stream of bytes and prints what each command is answered with: rig < STREAM. The lines are document 01's. */
#include <inttypes.h>
#include <stdio.h>
#include <string.h>

#include "placer.h"

static uint64_t record[PLACER_RECORD_WORDS];
static double buffer[PLACER_BUFFER_FLOATS];
static double transforms[PLACER_FIRST_FLOATS];
static uint8_t chains[PLACER_SECOND_BYTES];
static uint8_t stream[PLACER_MAX_STREAM + 1];

static void print_pose(const double *pose) {
    for (int i = 0; i < PLACER_POSE_FLOATS; i++) {
        uint64_t bits;
        memcpy(&bits, &pose[i], sizeof bits);
        if ((bits & INT64_MAX) > 0x7ff0000000000000) bits = 0x7ff8000000000000;
        printf(" %016" PRIx64, bits);
    }
    printf("\n");
}

static void print_rig(size_t cameras, size_t views) {
    printf("ok %zu %zu\n", cameras, views);
    for (size_t c = 0; c < cameras; c++) {
        printf("c %zu %d %d", c, chains[2 * c], chains[2 * c + 1]);
        print_pose(&transforms[PLACER_POSE_FLOATS * c]);
    }
    for (size_t v = 0; v < views; v++) {
        printf("v %zu", v);
        print_pose(&transforms[PLACER_POSE_FLOATS * (cameras + v)]);
    }
}

int main(void) {
    size_t length = fread(stream, 1, sizeof stream, stdin);
    size_t at = 0;
    while (at < length) {
        uint64_t reply = placer_step(record, PLACER_RECORD_WORDS, stream, length, at, buffer, PLACER_BUFFER_FLOATS, transforms,
                                     PLACER_FIRST_FLOATS, chains, PLACER_SECOND_BYTES, &at);
        if (reply == PLACER_SOLVED)
            print_rig(record[PLACER_CAMERAS_WORD], record[PLACER_VIEWS_WORD]);
        else if (placer_number(reply) != 0)
            printf("no %" PRIu32 " %" PRIu32 "\n", placer_number(reply), placer_detail(reply));
    }
    return 0;
}
