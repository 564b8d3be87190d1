/* Calls with other buffers at once: eight threads send and read a run each, of 200 drawn L1 frames, and leave what the same runs leave when
 * they are made alone, one after the other. */
#include "layer1.h"

#include <pthread.h>
#include <stdio.h>
#include <stdlib.h>
#include <string.h>

enum { PLACES = LAYER1_DELAY + 1, MOST = 46080, RUNS = 8, COUNT = 200 };

struct run {
    uint8_t mode;
    uint64_t drawn;                 /* what the next number is drawn from */
    uint64_t sum;                   /* of every word, and of every byte that a call has left */
    int refused;
    uint8_t sender[PLACES][MOST], reader[PLACES][MOST];
    size_t of_sender[PLACES], of_reader[PLACES];
};

static struct run alone[RUNS], at_once[RUNS];

static uint64_t draw(struct run *r)
{
    r->drawn ^= r->drawn << 13;
    r->drawn ^= r->drawn >> 7;
    r->drawn ^= r->drawn << 17;
    return r->drawn;
}

/* Adds to the sum, in which the order counts. */
static void add(struct run *r, uint64_t word)
{
    r->sum = (r->sum ^ word) * 0x100000001b3u;
}

static void add_all(struct run *r, uint8_t buffer[PLACES][MOST], const size_t len[PLACES])
{
    for (size_t place = 0; place < PLACES; place++)
        for (size_t n = 0; n < len[place]; n++)
            add(r, buffer[place][n]);
}

#define LENT(buffer, len, place) (buffer)[place], (len)[place]
#define MEMORIES(b, l) LENT(b, l, LAYER1_MEMORY3), LENT(b, l, LAYER1_MEMORY4), LENT(b, l, LAYER1_DELAY)
#define ALL(b, l) LENT(b, l, LAYER1_P1), LENT(b, l, LAYER1_PIDS), LENT(b, l, LAYER1_P2), LENT(b, l, LAYER1_P3), LENT(b, l, LAYER1_P4), \
                  LENT(b, l, LAYER1_PM), LENT(b, l, LAYER1_PX1), LENT(b, l, LAYER1_PX2), LENT(b, l, LAYER1_CONTROL), MEMORIES(b, l)
#define STATE(word) layer1_mode(word), layer1_half(word), layer1_age(word), layer1_last(word)

/* Sends and reads a run. */
static void *go(void *given)
{
    struct run *r = (struct run *)given;
    for (size_t place = 0; place < PLACES; place++) {
        r->of_sender[place] = layer1_sender_length(r->mode, place);
        r->of_reader[place] = layer1_reader_length(r->mode, place);
    }
    uint64_t sent = layer1_start_sender(r->mode, MEMORIES(r->sender, r->of_sender));
    uint64_t read = layer1_start_reader(r->mode, MEMORIES(r->reader, r->of_reader));
    for (size_t t = 0; t < COUNT; t++) {
        for (size_t place = LAYER1_P1; place <= LAYER1_P4; place++)
            for (size_t n = 0; n < r->of_sender[place]; n++)
                r->sender[place][n] = (uint8_t)draw(r);
        sent = layer1_send(STATE(sent), (uint8_t)(draw(r) % 8), ALL(r->sender, r->of_sender));
        memcpy(r->reader[LAYER1_PM], r->sender[LAYER1_PM], sizeof r->sender[0] * (LAYER1_MEMORY3 - LAYER1_PM));
        read = layer1_read(STATE(read), ALL(r->reader, r->of_reader));
        r->refused |= layer1_number(sent) != 0 || layer1_number(read) != 0;
        add(r, sent);
        add(r, read);
        if (t % 10 == 9) {
            add_all(r, r->sender, r->of_sender);
            add_all(r, r->reader, r->of_reader);
        }
    }
    return NULL;
}

int main(void)
{
    static const uint8_t modes[RUNS] = {1, 2, 3, 5, 6, 11, 11, 5};
    pthread_t threads[RUNS];
    for (size_t n = 0; n < RUNS; n++) {
        alone[n].mode = modes[n];
        alone[n].drawn = 88172645463325252u + n;
        at_once[n].mode = modes[n];
        at_once[n].drawn = alone[n].drawn;
    }
    for (size_t n = 0; n < RUNS; n++)
        if (pthread_create(&threads[n], NULL, go, &at_once[n]) != 0)
            return 1;
    for (size_t n = 0; n < RUNS; n++)
        pthread_join(threads[n], NULL);
    for (size_t n = 0; n < RUNS; n++) {
        go(&alone[n]);
        if (alone[n].refused || at_once[n].refused || alone[n].sum != at_once[n].sum) {
            printf("run %zu, MP%d: %s\n", n, modes[n], alone[n].sum == at_once[n].sum ? "refused" : "another sum");
            return 1;
        }
    }
    printf("%d threads, %d L1 frames each\n", RUNS, COUNT);
    return 0;
}
