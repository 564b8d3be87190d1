/* Sends one L1 frame: `example MODE [without P3|P4|P3 P4]` reads its reserved number, one byte, P1, PIDS, P2, P3 and P4 from standard input,
 * but nothing of a channel without data (document 02, S-5), and writes PM, PX1, PX2 and control to standard output. Exit status: 0 if they
 * are written, 1 if not, 2 for wrong arguments.
 *
 *     make library
 *     gcc -std=c11 -Wall -Wextra -Iinclude include/example.c target/staticlib/liblayer1.a
 */
#include "layer1.h"

#include <stdio.h>
#include <stdlib.h>
#include <string.h>

enum { PLACES = LAYER1_DELAY + 1, MOST = 46080 };

/* The greatest length of any buffer is PM's. */
static uint8_t buffer[PLACES][MOST];
static size_t len[PLACES];

#define LENT(place) buffer[place], len[place]

static int refused(unsigned number, unsigned place)
{
    fprintf(stderr, "refused: number %u place %u: %s\n", number, place, layer1_cause_text(number));
    return 1;
}

/* The words after MODE: nothing is lent for the channels that they name. 0 where they are no such words. */
static int take_without(int count, char **words)
{
    if (count > 0 && (count == 1 || strcmp(words[0], "without") != 0))
        return 0;
    for (int n = 1; n < count; n++) {
        if (strcmp(words[n], "P3") == 0)
            len[LAYER1_P3] = 0;
        else if (strcmp(words[n], "P4") == 0)
            len[LAYER1_P4] = 0;
        else
            return 0;
    }
    return 1;
}

/* Reads the number and the frames to their last byte: a short input is no channel without data. Gives the number, or -1. */
static int take_frames(void)
{
    static const char *const names[] = {"P1", "PIDS", "P2", "P3", "P4"};
    int reserved = getchar();
    if (reserved == EOF) {
        fprintf(stderr, "the input has no reserved number\n");
        return -1;
    }
    for (size_t place = LAYER1_P1; place <= LAYER1_P4; place++)
        if (fread(buffer[place], 1, len[place], stdin) != len[place]) {
            fprintf(stderr, "the input ends in %s\n", names[place]);
            return -1;
        }
    return reserved;
}

static int write_matrices(void)
{
    for (size_t place = LAYER1_PM; place <= LAYER1_CONTROL; place++)
        if (fwrite(buffer[place], 1, len[place], stdout) != len[place]) {
            perror("the output");
            return 1;
        }
    if (fflush(stdout) != 0) {
        perror("the output");
        return 1;
    }
    return 0;
}

/* Starts a sender and sends one L1 frame. Gives the exit status. */
static int send_one(uint8_t mode)
{
    uint64_t word = layer1_start_sender(mode, LENT(LAYER1_MEMORY3), LENT(LAYER1_MEMORY4), LENT(LAYER1_DELAY));
    if (layer1_number(word) != 0)
        return refused(layer1_number(word), layer1_place(word));
    int reserved = take_frames();
    if (reserved < 0)
        return 1;
    word = layer1_send(layer1_mode(word), layer1_half(word), layer1_age(word), layer1_last(word), (uint8_t)reserved,
                       LENT(LAYER1_P1), LENT(LAYER1_PIDS), LENT(LAYER1_P2), LENT(LAYER1_P3), LENT(LAYER1_P4),
                       LENT(LAYER1_PM), LENT(LAYER1_PX1), LENT(LAYER1_PX2), LENT(LAYER1_CONTROL),
                       LENT(LAYER1_MEMORY3), LENT(LAYER1_MEMORY4), LENT(LAYER1_DELAY));
    if (layer1_number(word) != 0)
        return refused(layer1_number(word), layer1_place(word));
    return write_matrices();
}

int main(int argc, char **argv)
{
    unsigned long mode = argc > 1 ? strtoul(argv[1], NULL, 10) : 0;
    if (layer1_version() != LAYER1_VERSION) {
        fprintf(stderr, "the archive is of another version than the header\n");
        return 1;
    }
    if (argc < 2 || strspn(argv[1], "0123456789") != strlen(argv[1]) || *argv[1] == 0) {
        fprintf(stderr, "usage: example MODE [without P3|P4|P3 P4]\n");
        return 2;
    }
    /* A mode crosses in a byte: 267 must not become 11. */
    if (mode > UINT8_MAX)
        return refused(1, 0);
    for (size_t place = 0; place < PLACES; place++)
        len[place] = layer1_sender_length((uint8_t)mode, place);
    if (!take_without(argc - 2, argv + 2)) {
        fprintf(stderr, "usage: example MODE [without P3|P4|P3 P4]\n");
        return 2;
    }
    return send_one((uint8_t)mode);
}
