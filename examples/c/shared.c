/* Shows which cameras share too few views, while poses arrive: shared FEWEST < STREAM. As soon as a Pose or a Withdraw is there and accepted, it prints how many
 * views each two cameras share, a camera's own poses in brackets, and the pairs that share fewer than FEWEST. The counts are those that the session keeps. */
#include <inttypes.h>
#include <stdio.h>
#include <stdlib.h>

#include "placer.h"

static uint64_t record[PLACER_RECORD_WORDS];
static double buffer[PLACER_BUFFER_FLOATS];
static double transforms[PLACER_FIRST_FLOATS];
static uint8_t chains[PLACER_SECOND_BYTES];
static uint8_t stream[PLACER_MAX_STREAM + 1];

static void print_refusal(uint64_t reply) { printf("no %" PRIu32 " %" PRIu32 "\n", placer_number(reply), placer_detail(reply)); }

static uint32_t shared(uint8_t first, uint8_t second) {
    uint64_t reply = placer_shared(record, PLACER_RECORD_WORDS, first, second);
    if (placer_number(reply) != 0) {
        print_refusal(reply);
        exit(1);
    }
    return (uint32_t)reply;
}

/* A row and a column for each camera: [7] its own poses, *1 too few views of two, and 2 enough. */
static void print_table(uint8_t cameras, uint32_t fewest) {
    printf("          ");
    for (uint8_t second = 0; second < cameras; second++) printf("%s%4u", second ? " " : "", second);
    printf("\n");
    for (uint8_t first = 0; first < cameras; first++) {
        printf("camera %2u ", first);
        for (uint8_t second = 0; second < cameras; second++) {
            uint32_t count = shared(first, second);
            int own = first == second;
            printf("%s%c%" PRIu32, count < 10 ? "  " : " ", own ? '[' : count < fewest ? '*' : ' ', count);
            if (own || second + 1 < cameras) printf("%c", own ? ']' : ' ');
        }
        printf("\n");
    }
}

static void print_too_few(uint8_t cameras, uint32_t fewest) {
    int named = 0;
    for (uint8_t first = 0; first < cameras; first++)
        for (uint8_t second = first + 1; second < cameras; second++) {
            uint32_t count = shared(first, second);
            if (count >= fewest) continue;
            if (named == 0) printf("fewer than %" PRIu32 ":", fewest);
            printf("%s %u and %u (%" PRIu32 ")", named ? "," : "", first, second, count);
            named = 1;
        }
    if (named)
        printf("\n");
    else
        printf("every two cameras share %" PRIu32 " or more\n", fewest);
}

/* What the command at an offset was answered with. */
static void print_reply(uint64_t reply, const uint8_t *command, uint32_t fewest) {
    uint8_t cameras = (uint8_t)record[PLACER_CAMERAS_WORD];
    if (placer_number(reply) != 0)
        print_refusal(reply);
    else if (reply == PLACER_SOLVED)
        printf("solved\n");
    else if (command[0] == 0x02 || command[0] == 0x04) {
        printf("%s of view %u, camera %u\n", command[0] == 0x02 ? "Pose" : "Withdraw", command[1], command[2]);
        print_table(cameras, fewest);
        print_too_few(cameras, fewest);
    }
    fflush(stdout);
}

int main(int words, char **word) {
    char *end = NULL;
    unsigned long fewest = words == 2 ? strtoul(word[1], &end, 10) : 0;
    if (fewest < 1 || fewest > PLACER_MAX_VIEWS || *end != '\0') {
        fprintf(stderr, "usage: shared FEWEST < STREAM, FEWEST from 1 to %d views\n", PLACER_MAX_VIEWS);
        return 2;
    }
    /* A command is obeyed as soon as its last byte is there: until then it is refused with 11, and tried again at the same offset. */
    size_t length = 0, at = 0;
    uint64_t reply = PLACER_END;
    for (int byte = getchar(); byte != EOF; byte = getchar()) {
        size_t next;
        stream[length++] = (uint8_t)byte;
        reply = placer_step(record, PLACER_RECORD_WORDS, stream, length, at, buffer, PLACER_BUFFER_FLOATS, transforms, PLACER_FIRST_FLOATS, chains,
                            PLACER_SECOND_BYTES, &next);
        if (placer_number(reply) == PLACER_TRUNCATED) continue;
        print_reply(reply, stream + at, (uint32_t)fewest);
        if (placer_number(reply) == PLACER_UNKNOWN_COMMAND || placer_number(reply) == PLACER_TOO_LONG) return 0;
        at = next;
    }
    if (at < length) print_refusal(reply);
    return 0;
}
