/* How much stack each call takes, on a stack of its own that was filled with a pattern before: the greatest over the L1 frames of a run, in every mode.
 * Prints mode, sending, reading, the judging of the run's dump and an answer sheet, 0 in MP5 and MP6, on a line each, and fails where one is
 * above what layer1.h says. */
#define _GNU_SOURCE
#include "layer1.h"

#include <stdio.h>
#include <stdlib.h>
#include <string.h>
#include <ucontext.h>

/* Five L1 frames meet every valid state. */
enum { PLACES = LAYER1_DELAY + 1, MOST = 46080, COUNT = 5, RESERVED = 7, STACK = 1 << 20, PATTERN = 0xA5 };

static uint8_t buffer[PLACES][MOST];
static size_t len[PLACES];
static uint64_t word;
static uint8_t stack[STACK] __attribute__((aligned(16)));
static ucontext_t here, there;
static const uint8_t zeros[200];
static uint64_t worked[LAYER1_WORKED];

#define LENT(place) buffer[place], len[place]
#define STATE layer1_mode(word), layer1_half(word), layer1_age(word), layer1_last(word)
#define MEMORIES LENT(LAYER1_MEMORY3), LENT(LAYER1_MEMORY4), LENT(LAYER1_DELAY)
#define ALL LENT(LAYER1_P1), LENT(LAYER1_PIDS), LENT(LAYER1_P2), LENT(LAYER1_P3), LENT(LAYER1_P4), \
            LENT(LAYER1_PM), LENT(LAYER1_PX1), LENT(LAYER1_PX2), LENT(LAYER1_CONTROL), MEMORIES

static void send(void) { word = layer1_send(STATE, RESERVED, ALL); }

static void read(void) { word = layer1_read(STATE, ALL); }

static void find(void)
{
    layer1_find(511, 719);
    layer1_find_px(11, 1, 2, RESERVED, 4, 7, 63, 143);
    layer1_place_of(511, 719);
    layer1_locate(1, 0, 365439);
    layer1_locate(2, 15, 199);
    layer1_locate_px(11, 1, 2, RESERVED, 4, 7, 9215);
    layer1_find_in(5, 511, 719);
    layer1_find_px_in(6, 1, 3, RESERVED, 4, 7, 63, 287);
    layer1_locate_in(6, 5, 0, 181119);
    layer1_locate_px_in(6, 1, 3, RESERVED, 6, 7, 18431);
    layer1_lookup(buffer[LAYER1_CONTROL], 256);
    layer1_lookup_frame(buffer[LAYER1_CONTROL], 4096);
}

/* A working that is not refused, of each way of reading a channel's frames: as lent, and none for zeros; in the older modes and in MP5. */
static void work(void)
{
    word = layer1_working(11, 1, 2, RESERVED, 1, buffer[LAYER1_P1], 18272, 0, 365439, worked, LAYER1_WORKED);
    if (layer1_number(word) == 0)
        word = layer1_working(11, 1, 2, RESERVED, 4, NULL, 0, 7, 9215, worked, LAYER1_WORKED);
    if (layer1_number(word) == 0)
        word = layer1_working_in(5, 1, 3, RESERVED, 6, buffer[LAYER1_P1], 4608, 7, 9215, worked, LAYER1_WORKED);
    if (layer1_number(word) == 0)
        word = layer1_working_in(5, 1, 3, RESERVED, 3, NULL, 0, 7, 9215, worked, LAYER1_WORKED);
}

static void nearest(void)
{
    layer1_nearest(buffer[LAYER1_P1], 200, buffer[LAYER1_PIDS], 10, 63);
}

/* The cells are those of zeros, which fit one frame: every step is gone through. */
static void restore(void)
{
    layer1_restore(zeros, sizeof zeros, buffer[LAYER1_PIDS], 10);
}

/* The dump of a run: its header, and what was sent. */
static uint8_t dump[8 + COUNT * 68608];
static size_t dump_len;

static void judge(void) { word = layer1_judge(dump, dump_len); }

static void dumped(uint8_t mode, uint8_t matrices[COUNT][4][MOST])
{
    const uint8_t header[8] = {'H', 'D', 'M', 0, 1, mode, 0, COUNT};
    memcpy(dump, header, sizeof header);
    dump_len = sizeof header;
    for (size_t t = 0; t < COUNT; t++)
        for (size_t m = 0; m < 4; m++) {
            memcpy(dump + dump_len, matrices[t][m], len[LAYER1_PM + m]);
            dump_len += len[LAYER1_PM + m];
        }
}

/* The input of a sheet over the run's L1 frames, with a question of each kind. */
static uint8_t input[64 + COUNT * (1 + 28160)], text[LAYER1_SHEET_ROOM];
static size_t input_len;
static uint8_t sheet_mode;

static void sheet(void) { word = layer1_sheet(sheet_mode, COUNT, 0, 0, 1, input, input_len, text, sizeof text); }

static void asked(uint8_t mode)
{
    const char *list = mode == 1 ? "0 PM 0 0\n4 PM 511 719\n\n" : mode == 11 ? "0 PM 0 0\n1 PX1 7 63 143\n4 PX2 0 0 0\n\n" : "0 PM 0 0\n1 PX1 7 63 71\n\n";
    sheet_mode = mode;
    input_len = strlen(list);
    memset(input, 0, sizeof input);
    memcpy(input, list, input_len);
    for (size_t t = 0; t < COUNT; t++) {
        input_len++;
        for (size_t place = LAYER1_P1; place <= LAYER1_P4; place++)
            input_len += layer1_sender_length(mode, place);
    }
}

static void fill(void)
{
    static float re[LAYER1_POINTS], im[LAYER1_POINTS];
    layer1_fill_vector(11, 511, 0.5f, 0.25f, buffer[LAYER1_PM], 46080, buffer[LAYER1_PX1], 9216, buffer[LAYER1_PX2], 9216,
                       buffer[LAYER1_CONTROL], 4096, re, LAYER1_POINTS, im, LAYER1_POINTS);
}

/* The bytes of the filled stack that a call has touched. */
static size_t taken(void (*call)(void))
{
    memset(stack, PATTERN, STACK);
    getcontext(&there);
    there.uc_stack.ss_sp = stack;
    there.uc_stack.ss_size = STACK;
    there.uc_link = &here;
    makecontext(&there, call, 0);
    swapcontext(&here, &there);
    size_t untouched = 0;
    while (untouched < STACK && stack[untouched] == PATTERN)
        untouched++;
    return STACK - untouched;
}

static size_t most(size_t a, size_t b) { return a < b ? b : a; }

/* The greatest over a run's calls, of which none is refused; each leaves its matrices and control, or finds them there. */
static size_t run(void (*call)(void), uint8_t matrices[COUNT][4][MOST])
{
    size_t greatest = 0;
    for (size_t t = 0; t < COUNT; t++) {
        if (call == read)
            memcpy(buffer[LAYER1_PM], matrices[t], sizeof matrices[t]);
        greatest = most(greatest, taken(call));
        if (call == send)
            memcpy(matrices[t], buffer[LAYER1_PM], sizeof matrices[t]);
        if (layer1_number(word) != 0) {
            printf("refused: number %u\n", layer1_number(word));
            exit(1);
        }
    }
    return greatest;
}

/* The stack of an answer sheet of a mode that has sheets, which must be one. */
static size_t of_a_sheet(uint8_t mode)
{
    if (mode == 5 || mode == 6)
        return 0;
    asked(mode);
    size_t bytes = taken(sheet);
    if (layer1_number(word) != 0 || text[0] != 'M') {
        printf("no sheet: number %u, %.60s\n", layer1_number(word), (const char *)text);
        exit(1);
    }
    return bytes;
}

int main(void)
{
    static const uint8_t modes[] = {1, 2, 3, 5, 6, 11};
    static uint8_t matrices[COUNT][4][MOST];
    int above = taken(find) > LAYER1_SEND_STACK;
    for (size_t m = 0; m < sizeof modes; m++) {
        for (size_t place = 0; place < PLACES; place++)
            len[place] = layer1_sender_length(modes[m], place);
        word = layer1_start_sender(modes[m], MEMORIES);
        size_t sending = run(send, matrices);
        for (size_t place = 0; place < PLACES; place++)
            len[place] = layer1_reader_length(modes[m], place);
        word = layer1_start_reader(modes[m], MEMORIES);
        size_t reading = run(read, matrices);
        dumped(modes[m], matrices);
        size_t judging = taken(judge);
        if (layer1_number(word) != 0) {
            printf("refused: number %u\n", layer1_number(word));
            exit(1);
        }
        size_t sheets = of_a_sheet(modes[m]);
        printf("%u %zu %zu %zu %zu\n", modes[m], sending, reading, judging, sheets);
        above |= sending > LAYER1_SEND_STACK || reading > LAYER1_READ_STACK || judging > LAYER1_JUDGE_STACK || sheets > LAYER1_SHEET_STACK;
    }
    size_t working = taken(work);
    if (layer1_number(word) != 0) {
        printf("no working: number %u place %u\n", layer1_number(word), layer1_place(word));
        exit(1);
    }
    return above || working > LAYER1_SEND_STACK || taken(find) > LAYER1_SEND_STACK || taken(nearest) > LAYER1_SEND_STACK || taken(restore) > LAYER1_SEND_STACK
        || taken(fill) > LAYER1_SEND_STACK;
}
