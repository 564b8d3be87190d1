/* Reads a run: `example_reader MODE` reads the PM, PX1, PX2 and control of L1 frames from standard input, to its end, and writes for each its
 * reserved number, one byte, and its P1, PIDS, P2, P3 and P4 frames to standard output, as far as a reading returns them: P3 and P4 from the
 * third L1 frame on, those of two earlier; in MP5 and MP6 P1 from the fourth on, that of three earlier. It ends at the first L1 frame that is
 * refused. Exit status: 0 if all are read and written, 1 if not, 2 for wrong arguments.
 *
 *     make library
 *     gcc -std=c11 -Wall -Wextra -Iinclude include/example_reader.c target/staticlib/liblayer1.a
 */
#include "layer1.h"

#include <stdio.h>
#include <stdlib.h>
#include <string.h>

enum { PLACES = LAYER1_DELAY + 1, MOST = 46080 };

/* The greatest length of any buffer is PM's. */
static uint8_t buffer[PLACES][MOST];
static size_t len[PLACES];

#define LENT(place) buffer[place], len[place]

/* Reads the next L1 frame: 1 if it is there, 0 at the input's end, -1 if the input ends within it. */
static int take_matrices(unsigned long frame)
{
    static const char *const names[] = {"PM", "PX1", "PX2", "control"};
    for (size_t place = LAYER1_PM; place <= LAYER1_CONTROL; place++) {
        size_t count = fread(buffer[place], 1, len[place], stdin);
        if (count == len[place])
            continue;
        if (place == LAYER1_PM && count == 0 && !ferror(stdin))
            return 0;
        fprintf(stderr, "the input ends in %s of L1 frame %lu\n", names[place - LAYER1_PM], frame);
        return -1;
    }
    return 1;
}

/* Writes what a reading has returned at this age. Gives 0 where it cannot be written. */
static int write_frames(uint8_t number, uint8_t age)
{
    if (putchar(number) == EOF)
        return 0;
    for (size_t place = LAYER1_P1; place <= LAYER1_P4; place++) {
        int returned = place == LAYER1_P1 ? len[LAYER1_DELAY] == 0 || age >= 3 : place < LAYER1_P3 || age >= 2;
        if (returned && fwrite(buffer[place], 1, len[place], stdout) != len[place])
            return 0;
    }
    return 1;
}

/* Reads the L1 frames of a run that this word begins. Gives the exit status. */
static int read_run(uint64_t word)
{
    for (unsigned long frame = 0;; frame++) {
        int there = layer1_number(word) == 0 ? take_matrices(frame) : 1;
        if (there <= 0)
            return there < 0;
        uint8_t age = layer1_age(word);
        if (layer1_number(word) == 0)
            word = layer1_read(layer1_mode(word), layer1_half(word), age, layer1_last(word),
                               LENT(LAYER1_P1), LENT(LAYER1_PIDS), LENT(LAYER1_P2), LENT(LAYER1_P3), LENT(LAYER1_P4),
                               LENT(LAYER1_PM), LENT(LAYER1_PX1), LENT(LAYER1_PX2), LENT(LAYER1_CONTROL),
                               LENT(LAYER1_MEMORY3), LENT(LAYER1_MEMORY4), LENT(LAYER1_DELAY));
        if (layer1_number(word) != 0) {
            fprintf(stderr, "refused: number %u place %u frame %lu: %s\n", layer1_number(word), (unsigned)layer1_place(word), frame,
                    layer1_cause_text(layer1_number(word)));
            return 1;
        }
        if (!write_frames(layer1_number_read(word), age)) {
            perror("the output");
            return 1;
        }
    }
}

int main(int argc, char **argv)
{
    if (argc != 2 || *argv[1] == 0 || strspn(argv[1], "0123456789") != strlen(argv[1])) {
        fprintf(stderr, "usage: example_reader MODE\n");
        return 2;
    }
    if (layer1_version() != LAYER1_VERSION) {
        fprintf(stderr, "the archive is of another version than the header\n");
        return 1;
    }
    /* A mode crosses in a byte: any that does not fit is not covered, as 0 is not. */
    unsigned long mode = strtoul(argv[1], NULL, 10);
    uint8_t covered = mode > UINT8_MAX ? 0 : (uint8_t)mode;
    for (size_t place = 0; place < PLACES; place++)
        len[place] = layer1_reader_length(covered, place);
    int status = read_run(layer1_start_reader(covered, LENT(LAYER1_MEMORY3), LENT(LAYER1_MEMORY4), LENT(LAYER1_DELAY)));
    if (fflush(stdout) != 0) {
        perror("the output");
        return 1;
    }
    return status;
}
