/* Every function and every accessor of layer1.h, on calls that the second program has drawn and answered: `second draw-calls SEED`, whose
 * lines are read from standard input (second/src/calls.rs says what a line has). Compiled as C and as C++.
 *
 * Each call is made twice. Its buffers have exactly their lengths: once they end where a page begins that must not be touched, once they
 * begin where such a page ends. One of length 0 is NULL, then the address of such a page. Buffers that a call only reads are in pages that
 * cannot be written. .ci/header looks that no function and no accessor of the header is missing here. */
#ifndef _GNU_SOURCE
#define _GNU_SOURCE
#endif
#include "layer1.h"

#include <stdio.h>
#include <stdlib.h>
#include <string.h>
#include <sys/mman.h>

enum { SLOTS = LAYER1_DELAY + 1, PAGE = 4096, ROOM = 320 * PAGE, NUMBERS = 32 };

struct slot {
    uint8_t *room;          /* ROOM bytes between two pages that must not be touched */
    uint8_t *at;            /* the buffer */
    size_t len;             /* its bytes */
    size_t count;           /* its length as it is lent: bytes, or numbers */
    uint8_t before[ROOM];
    uint8_t after[ROOM];
};

static struct slot slots[SLOTS];
static size_t lent;
static const char *where = "";
static unsigned long line_number;

static void fail(const char *what)
{
    printf("line %lu, %s: %s\n", line_number, where, what);
    exit(1);
}

static void check(int holds, const char *what)
{
    if (!holds)
        fail(what);
}

static void make_room(void)
{
    for (size_t s = 0; s < SLOTS; s++) {
        void *map = mmap(NULL, ROOM + 2 * PAGE, PROT_NONE, MAP_PRIVATE | MAP_ANONYMOUS, -1, 0);
        check(map != MAP_FAILED, "mmap");
        slots[s].room = (uint8_t *)map + PAGE;
    }
}

static void allow(const struct slot *s, int access)
{
    check(mprotect(s->room, ROOM, access) == 0, "mprotect");
}

/* The bytes of a word of a line. */
static size_t bytes_of(const char *word, uint8_t *bytes)
{
    size_t len = 0;
    if (strcmp(word, ".") == 0)
        return 0;
    if (word[0] == '*') {
        len = (size_t)strtoul(word + 1, NULL, 10);
        check(len <= ROOM, "a buffer is too long for the test");
        for (size_t n = 0; n < len; n++)
            bytes[n] = (uint8_t)(n * 37 + 11);
        return len;
    }
    static const char digits[] = "0123456789abcdef";
    for (; word[0] != 0 && word[0] != '+'; word += 2, len++) {
        const char *high = strchr(digits, word[0]), *low = word[1] == 0 ? NULL : strchr(digits, word[1]);
        check(len < ROOM && high != NULL && low != NULL, "a buffer cannot be read");
        bytes[len] = (uint8_t)((high - digits) * 16 + (low - digits));
    }
    if (word[0] == '+') {
        size_t zeros = (size_t)strtoul(word + 1, NULL, 10);
        check(zeros <= ROOM - len, "a buffer is too long for the test");
        memset(bytes + len, 0, zeros);
        len += zeros;
    }
    return len;
}

/* Puts a buffer into its slot: at the end or at the beginning of the room. */
static void lay(struct slot *s, int at_end, int read_only)
{
    allow(s, PROT_READ | PROT_WRITE);
    s->at = at_end ? s->room + ROOM - s->len : s->room;
    if (s->len == 0)
        s->at = at_end ? NULL : s->room - PAGE;
    else
        memcpy(s->at, s->before, s->len);
    if (read_only)
        allow(s, PROT_READ);
}

#define LENT(place) slots[place].at, slots[place].count
#define MEMORIES(first) LENT((first)), LENT((first) + 1), LENT((first) + 2)
#define ALL LENT(LAYER1_P1), LENT(LAYER1_PIDS), LENT(LAYER1_P2), LENT(LAYER1_P3), LENT(LAYER1_P4), LENT(LAYER1_PM), LENT(LAYER1_PX1), \
            LENT(LAYER1_PX2), LENT(LAYER1_CONTROL), LENT(LAYER1_MEMORY3), LENT(LAYER1_MEMORY4), LENT(LAYER1_DELAY)
#define STATE(n) (uint8_t)(n)[0], (uint8_t)(n)[1], (uint8_t)(n)[2], (uint8_t)(n)[3]

static float single(uint64_t bits)
{
    uint32_t word = (uint32_t)bits;
    float number;
    memcpy(&number, &word, sizeof number);
    return number;
}

/* The fields that the outcome of a start, a sending or a reading has. */
static size_t outcome(uint64_t word, uint64_t *out)
{
    out[0] = layer1_number(word);
    out[1] = layer1_place(word);
    out[2] = layer1_mode(word);
    out[3] = layer1_half(word);
    out[4] = layer1_age(word);
    out[5] = layer1_last(word);
    return 6;
}

static size_t answer(uint64_t word, uint64_t *out)
{
    out[0] = layer1_number(word);
    out[1] = layer1_place(word);
    return 2;
}

static size_t looked_up(uint64_t word, uint64_t *out)
{
    out[0] = layer1_number(word);
    out[1] = layer1_looked_up_mode(word);
    out[2] = layer1_looked_up_count(word);
    out[3] = layer1_looked_up_reserved(word);
    out[4] = layer1_looked_up_place(word);
    return 5;
}

static size_t row(uint64_t word, uint64_t *out)
{
    out[0] = layer1_row_start(word);
    out[1] = layer1_row_length(word);
    return 2;
}

/* The calls of a run: what a call returns, or 0 fields where it is none of these. */
static size_t call_of_run(const char *name, const uint64_t *n, uint64_t *out)
{
    size_t fields = 0;
    if (strcmp(name, "start_sender") == 0)
        fields = outcome(layer1_start_sender((uint8_t)n[0], MEMORIES(0)), out);
    else if (strcmp(name, "start_reader") == 0)
        fields = outcome(layer1_start_reader((uint8_t)n[0], MEMORIES(0)), out);
    else if (strcmp(name, "send") == 0)
        fields = outcome(layer1_send(STATE(n), (uint8_t)n[4], ALL), out);
    else if (strcmp(name, "read") == 0) {
        uint64_t word = layer1_read(STATE(n), ALL);
        fields = outcome(word, out);
        out[fields++] = layer1_number_read(word);
    } else if (strcmp(name, "sender_length") == 0)
        out[fields++] = layer1_sender_length((uint8_t)n[0], (size_t)n[1]);
    else if (strcmp(name, "reader_length") == 0)
        out[fields++] = layer1_reader_length((uint8_t)n[0], (size_t)n[1]);
    return fields;
}

/* Where a coded bit goes. */
static size_t located(const char *name, const uint64_t *n, uint64_t *out)
{
    size_t fields = 0;
    if (strcmp(name, "locate") == 0 || strcmp(name, "locate_in") == 0) {
        uint64_t word = name[6] == '\0' ? layer1_locate((uint8_t)n[0], (size_t)n[1], (size_t)n[2])
                                        : layer1_locate_in((uint8_t)n[0], (uint8_t)n[1], (size_t)n[2], (size_t)n[3]);
        out[fields++] = layer1_number(word);
        out[fields++] = layer1_placed_place(word);
        out[fields++] = layer1_placed_block(word);
        out[fields++] = layer1_placed_row(word);
        out[fields++] = layer1_placed_partition(word);
        out[fields++] = layer1_placed_column(word);
        out[fields++] = layer1_located_row(word);
        out[fields++] = layer1_located_column(word);
    } else if (strcmp(name, "locate_px") == 0 || strcmp(name, "locate_px_in") == 0) {
        uint64_t word = name[9] == '\0' ? layer1_locate_px(STATE(n), (uint8_t)n[4], (size_t)n[5], (size_t)n[6])
                                        : layer1_locate_px_in(STATE(n), (uint8_t)n[4], (size_t)n[5], (size_t)n[6]);
        out[fields++] = layer1_number(word);
        out[fields++] = layer1_located_px_place(word);
        out[fields++] = layer1_located_px_later(word);
        out[fields++] = layer1_located_px_pair(word);
        out[fields++] = layer1_located_px_row(word);
        out[fields++] = layer1_located_px_column(word);
    }
    return fields;
}

/* A working, with its numbers by their names. */
static size_t worked(const char *name, const uint64_t *n, uint64_t *out)
{
    uint64_t *numbers = (uint64_t *)(void *)slots[1].at;
    size_t count = slots[1].count;
    uint64_t word = name[7] == '\0' ? layer1_working(STATE(n), (uint8_t)n[4], LENT(0), (size_t)n[5], (size_t)n[6], numbers, count)
                                    : layer1_working_in(STATE(n), (uint8_t)n[4], LENT(0), (size_t)n[5], (size_t)n[6], numbers, count);
    size_t fields = answer(word, out);
    if (out[0] != 0)
        return fields;
    check(count == LAYER1_WORKED, "the numbers of a working");
    out[fields++] = numbers[LAYER1_WORKED_BIT];
    out[fields++] = numbers[LAYER1_WORKED_GENERATOR];
    for (size_t d = 0; d < 7; d++)
        out[fields++] = numbers[LAYER1_WORKED_BITS + d];
    for (size_t d = 0; d < 7; d++)
        out[fields++] = numbers[LAYER1_WORKED_SCRAMBLING + d];
    out[fields++] = numbers[LAYER1_WORKED_SUM];
    out[fields++] = numbers[LAYER1_WORKED_CODED];
    out[fields++] = numbers[LAYER1_WORKED_STEP];
    out[fields++] = numbers[LAYER1_WORKED_K];
    out[fields++] = numbers[LAYER1_WORKED_BLOCK];
    out[fields++] = numbers[LAYER1_WORKED_ROW];
    out[fields++] = numbers[LAYER1_WORKED_PARTITION];
    out[fields++] = numbers[LAYER1_WORKED_COLUMN];
    out[fields++] = numbers[LAYER1_WORKED_CELL];
    return fields;
}

static int is_working(const char *name)
{
    return strcmp(name, "working") == 0 || strcmp(name, "working_in") == 0;
}

/* The questions about cells, control blocks and rows. */
static size_t question(const char *name, const uint64_t *n, uint64_t *out)
{
    size_t fields = 0;
    if (strcmp(name, "find") == 0 || strcmp(name, "find_in") == 0) {
        uint64_t word = name[4] == '\0' ? layer1_find((size_t)n[0], (size_t)n[1]) : layer1_find_in((uint8_t)n[0], (size_t)n[1], (size_t)n[2]);
        out[fields++] = layer1_number(word);
        out[fields++] = layer1_found_channel(word);
        out[fields++] = layer1_found_frame(word);
        out[fields++] = layer1_found_place(word);
        out[fields++] = layer1_found_bit(word);
    } else if (strcmp(name, "place_of") == 0) {
        uint64_t word = layer1_place_of((size_t)n[0], (size_t)n[1]);
        out[fields++] = layer1_number(word);
        out[fields++] = layer1_placed_block(word);
        out[fields++] = layer1_placed_row(word);
        out[fields++] = layer1_placed_partition(word);
        out[fields++] = layer1_placed_place(word);
        out[fields++] = layer1_placed_column(word);
    } else if (strcmp(name, "find_px") == 0 || strcmp(name, "find_px_in") == 0) {
        uint64_t word = name[7] == '\0' ? layer1_find_px(STATE(n), (uint8_t)n[4], (size_t)n[5], (size_t)n[6], (size_t)n[7])
                                        : layer1_find_px_in(STATE(n), (uint8_t)n[4], (size_t)n[5], (size_t)n[6], (size_t)n[7]);
        out[fields++] = layer1_number(word);
        out[fields++] = layer1_found_content(word);
        out[fields++] = layer1_found_frame(word);
        out[fields++] = layer1_found_before(word);
        out[fields++] = layer1_found_place(word);
        out[fields++] = layer1_found_bit(word);
    } else if (strcmp(name, "lookup") == 0)
        fields = looked_up(layer1_lookup(LENT(0)), out);
    else if (strcmp(name, "lookup_frame") == 0)
        fields = looked_up(layer1_lookup_frame(LENT(0)), out);
    else if (strcmp(name, "pm_row") == 0)
        fields = row(layer1_pm_row((size_t)n[0], LENT(0)), out);
    else if (strcmp(name, "px_row") == 0)
        fields = row(layer1_px_row((uint8_t)n[0], (size_t)n[1], LENT(0), LENT(1)), out);
    return fields;
}

static size_t share_places(const uint64_t *n, uint64_t *out)
{
    uint8_t shares[8], waiting[8];
    for (size_t source = 0; source < 8; source++) {
        shares[source] = (uint8_t)n[source];
        waiting[source] = (uint8_t)n[8 + source];
    }
    uint64_t word = layer1_share_places(layer1_eight(shares), layer1_eight(waiting), LENT(0));
    for (size_t place = 0; layer1_number(word) == 0 && place < 16; place++)
        check(slots[0].at[place] < 8 || slots[0].at[place] == LAYER1_ZEROS, "a place is no source and not LAYER1_ZEROS");
    return answer(word, out);
}

/* The other calls of document 02. */
static size_t other_call(const char *name, const uint64_t *n, uint64_t *out)
{
    size_t fields = 0;
    if (strcmp(name, "share_places") == 0)
        fields = share_places(n, out);
    else if (is_working(name))
        fields = worked(name, n, out);
    else if (strcmp(name, "nearest") == 0) {
        uint64_t word = layer1_nearest(LENT(0), LENT(1), (size_t)n[0]);
        out[fields++] = layer1_number(word);
        out[fields++] = layer1_nearest_distance(word);
        out[fields++] = layer1_nearest_margin(word);
        out[fields++] = layer1_nearest_place(word);
    } else if (strcmp(name, "restore") == 0)
        fields = answer(layer1_restore(LENT(0), LENT(1)), out);
    else if (strcmp(name, "sheet") == 0) {
        uint64_t word = layer1_sheet((uint8_t)n[0], n[1], (uint8_t)n[2], (uint8_t)n[3], (uint8_t)n[4], LENT(0), LENT(1));
        check((layer1_number(word) == 0) == (slots[1].count >= LAYER1_SHEET_ROOM), "the room of a sheet");
        fields = answer(word, out);
    } else if (strcmp(name, "judge") == 0) {
        uint64_t word = layer1_judge(LENT(0));
        out[fields++] = layer1_number(word);
        out[fields++] = layer1_judged_frame(word);
        out[fields++] = layer1_judged_place(word);
    } else if (strcmp(name, "fill_vector") == 0) {
        uint64_t word = layer1_fill_vector((uint8_t)n[0], (size_t)n[1], single(n[2]), single(n[3]), LENT(0), LENT(1), LENT(2), LENT(3),
                                           (float *)(void *)slots[4].at, slots[4].count, (float *)(void *)slots[5].at, slots[5].count);
        check(layer1_number(word) != 0 || (slots[4].count == LAYER1_POINTS && slots[5].count == LAYER1_POINTS), "the points of a vector");
        fields = answer(word, out);
    }
    return fields;
}

/* Whether a call only reads the buffer of a slot. */
static int reads_only(const char *name, size_t s)
{
    if (strcmp(name, "send") == 0)
        return s <= LAYER1_P4;
    if (strcmp(name, "read") == 0)
        return s >= LAYER1_PM && s <= LAYER1_CONTROL;
    if (strcmp(name, "fill_vector") == 0)
        return s < 4;
    if (strcmp(name, "nearest") == 0 || strcmp(name, "restore") == 0 || strcmp(name, "sheet") == 0 || is_working(name))
        return s == 0;
    return strcmp(name, "start_sender") != 0 && strcmp(name, "start_reader") != 0 && strcmp(name, "share_places") != 0;
}

/* Makes a call on buffers that are laid so, and holds what comes of it against the line. */
static void made(const char *name, const uint64_t *numbers, const uint64_t *returned, size_t fields, int at_end)
{
    uint64_t out[NUMBERS] = {0};
    for (size_t s = 0; s < lent; s++)
        lay(&slots[s], at_end, reads_only(name, s));
    size_t made_fields = call_of_run(name, numbers, out);
    if (made_fields == 0)
        made_fields = question(name, numbers, out);
    if (made_fields == 0)
        made_fields = located(name, numbers, out);
    if (made_fields == 0)
        made_fields = other_call(name, numbers, out);
    check(made_fields == fields, "the test knows no such call, or it returns more or less");
    for (size_t f = 0; f < fields; f++)
        if (out[f] != returned[f]) {
            printf("field %zu is %llu and should be %llu\n", f, (unsigned long long)out[f], (unsigned long long)returned[f]);
            fail("a field of the word");
        }
    for (size_t s = 0; s < lent; s++)
        check(slots[s].len == 0 || memcmp(slots[s].at, slots[s].after, slots[s].len) == 0, "the bytes that a call leaves");
}

/* The bytes of an element of the buffer of a slot. */
static size_t size_of_element(const char *name, size_t s)
{
    if (strcmp(name, "fill_vector") == 0 && s >= 4)
        return sizeof(float);
    return is_working(name) && s == 1 ? sizeof(uint64_t) : 1;
}

static size_t numbers_of(uint64_t *numbers)
{
    size_t count = 0;
    for (const char *word = strtok(NULL, " \n"); word != NULL && strcmp(word, ":") != 0; word = strtok(NULL, " \n")) {
        check(count < NUMBERS, "a line has too many numbers");
        numbers[count++] = (uint64_t)strtoull(word, NULL, 10);
    }
    return count;
}

/* Takes a line apart, and makes its call both ways. */
static void take(char *line)
{
    uint64_t numbers[NUMBERS] = {0}, returned[NUMBERS] = {0};
    const char *name = strtok(line, " \n");
    check(name != NULL, "an empty line");
    where = name;
    numbers_of(numbers);
    lent = 0;
    for (const char *word = strtok(NULL, " \n"); word != NULL && strcmp(word, ":") != 0; word = strtok(NULL, " \n")) {
        check(lent < SLOTS, "a line has too many buffers");
        struct slot *s = &slots[lent];
        s->len = bytes_of(word, s->before);
        s->count = s->len / size_of_element(name, lent);
        memcpy(s->after, s->before, s->len);
        lent++;
    }
    size_t fields = numbers_of(returned), left = 0;
    for (const char *word = strtok(NULL, " \n"); word != NULL; word = strtok(NULL, " \n"), left++) {
        check(left < lent, "a line leaves too many buffers");
        check(strcmp(word, "=") == 0 || bytes_of(word, slots[left].after) == slots[left].len, "a buffer has another length afterwards");
    }
    check(left == lent, "a line leaves too few buffers");
    made(name, numbers, returned, fields, 1);
    made(name, numbers, returned, fields, 0);
}

/* What no line has: the number of the interface, and the causes in words, each of which is another. */
static void constants(void)
{
    where = "constants";
    check(layer1_version() == LAYER1_VERSION, "the archive is of another version than the header");
    for (unsigned a = 0; a <= 20; a++)
        for (unsigned b = 0; b < a; b++)
            check(strcmp(layer1_cause_text(a), layer1_cause_text(b)) != 0, "two causes have the same words");
    check(strcmp(layer1_cause_text(20), layer1_cause_text(255)) == 0, "a number that is no cause has words");
}

int main(void)
{
    char *line = NULL;
    size_t room = 0;
    constants();
    make_room();
    while (getline(&line, &room, stdin) > 0) {
        line_number++;
        take(line);
    }
    free(line);
    check(line_number > 1000, "hardly any lines");
    printf("%lu\n", line_number);
    return 0;
}
