// The same work done bit by bit, as SY_IDD_1011s has it: a plain loop over the bits of each step, with every place worked out anew. Only measured against;
// bench/run checks that its output is the same.
//
//     plain send MODE COUNT    reserved number and transfer frames of each L1 frame in, matrices and control out
//     plain read MODE COUNT    the way back; an L1 frame that is not one that was sent ends the run with status 1
#include <stdint.h>
#include <stdio.h>
#include <stdlib.h>
#include <string.h>

enum { U_BITS = 365440, PIDS_BITS = 80, DELAY = 3 };

static const int order[20] = {10, 2, 18, 6, 14, 8, 16, 0, 12, 4, 11, 3, 19, 7, 15, 9, 17, 1, 13, 5};
static const unsigned generators[3] = {0133, 0171, 0165};

static int get(const uint8_t *bytes, size_t n) { return bytes[n / 8] >> (7 - n % 8) & 1; }

static void put(uint8_t *bytes, size_t n, int bit) {
    unsigned weight = 1u << (7 - n % 8);
    bytes[n / 8] = (uint8_t)(bit ? bytes[n / 8] | weight : bytes[n / 8] & ~weight);
}

// ---- 8 and 9

static void scramble(const uint8_t *in, size_t from, uint8_t *out, size_t bits) {
    unsigned reg = 1023;
    for (size_t i = 0; i < bits; i++) {
        unsigned feed = (reg >> 9 ^ reg) & 1;
        put(out, from + i, get(in, from + i) ^ (int)feed);
        reg = reg >> 1 | feed << 10;
    }
}

static int output(unsigned g, const uint8_t *frames, size_t from, size_t bits, size_t j) {
    int sum = 0;
    for (size_t d = 0; d < 7; d++)
        if (g >> (6 - d) & 1) sum ^= get(frames, from + (j + bits - d) % bits);
    return sum;
}

// Where the output g of bit j stands in a coding, at the rate 2/5 or 1/2.
static size_t coded_place(int half, int g, size_t j) {
    if (half) return 2 * j + (g == 2);
    return j / 2 * 5 + (j % 2 ? 3 : 0) + (size_t)g;
}

static int kept(int half, int g, size_t j) { return half ? g != 1 : g < 2 || j % 2 == 0; }

static size_t coded_bits(int half, size_t bits) { return half ? 2 * bits : bits / 2 * 5; }

static void encode(int half, const uint8_t *frames, size_t bits, size_t count, uint8_t *coded) {
    for (size_t f = 0; f < count; f++)
        for (size_t j = 0; j < bits; j++)
            for (int g = 0; g < 3; g++)
                if (kept(half, g, j))
                    put(coded, f * coded_bits(half, bits) + coded_place(half, g, j), output(generators[g], frames, f * bits, bits, j));
}

static const int recipe25[7][2] = {{2, 0}, {4, 0}, {0, 1}, {1, 1}, {2, 1}, {3, 1}, {4, 1}};
static const int recipe12[5][2] = {{1, 0}, {3, 0}, {0, 2}, {2, 2}, {3, 2}};

static void decode(int half, const uint8_t *coded, size_t bits, size_t count, uint8_t *frames) {
    for (size_t f = 0; f < count; f++)
        for (size_t j = 0; j < bits; j++) {
            int sum = 0;
            for (int k = 0; k < (half ? 5 : 7); k++) {
                const int *step = half ? recipe12[k] : recipe25[k];
                size_t at = (j + bits - (size_t)step[0]) % bits;
                sum ^= get(coded, f * coded_bits(half, bits) + coded_place(half, step[1], at));
            }
            put(frames, f * bits + j, sum);
        }
}

static uint8_t between[18272], again[45680];

static void encode_channel(int half, const uint8_t *frames, size_t bits, size_t count, uint8_t *coded) {
    for (size_t f = 0; f < count; f++) scramble(frames, f * bits, between, bits);
    encode(half, between, bits, count, coded);
}

static void decode_channel(int half, const uint8_t *coded, size_t bits, size_t count, uint8_t *frames) {
    decode(half, coded, bits, count, between);
    encode(half, between, bits, count, again);
    if (memcmp(again, coded, count * coded_bits(half, bits) / 8)) exit(1);
    for (size_t f = 0; f < count; f++) scramble(between, f * bits, frames, bits);
}

// ---- 10.4.1

static size_t pm_cell(size_t p, size_t b, size_t k) { return (32 * b + k * 11 % 32) * 720 + 36 * p + (k * 11 + k / 288) % 36; }

static size_t u_cell(size_t i) {
    size_t p = (size_t)order[i % 20];
    return pm_cell(p, (i / 20 + p * 7) % 16, i / 320);
}

static size_t pids_cell(size_t i) { return pm_cell((size_t)order[i % 20], i / 200, i / 20 % 10 + 1142); }

// ---- 10.4.2

// The cells of an L1 frame's matrix; J partitions, runs of M.
struct px { size_t bits, parts, run; };

static const struct px narrow = {36864, 2, 4}, wide = {73728, 4, 2};

static size_t px_cell(const struct px *k, size_t i) {
    size_t x = i + 2 * (k->run / 4);
    size_t p = x / k->run % k->parts;
    size_t n = x / 8 * k->run + x % k->run - (p == 0 ? 2 * (k->run / 4) : 0);
    size_t b = (n / 1152 + n % 1152 + 7 * p) % 32, row = 11 * n % 1152 / 36, column = 11 * n % 36;
    return (32 * b + row) * 36 * k->parts + 36 * p + column;
}

static void px_pass(const struct px *k, size_t half, const uint8_t *coded, uint8_t *memory, uint8_t *matrix) {
    for (size_t j = 0; j < k->bits; j++) {
        size_t i = half * k->bits + j;
        put(memory, px_cell(k, i), get(coded, j));
        put(matrix, j, get(memory, i));
    }
}

static void px_gather(const struct px *k, size_t half, const uint8_t *three, uint8_t *coded) {
    for (size_t j = 0; j < k->bits; j++) {
        size_t i = half * k->bits + j;
        put(coded, j, get(three, j + (px_cell(k, i) + 2 * k->bits - i) % (2 * k->bits)));
    }
}

// A step that reads its cell before any step has written it shows the zero fill.
static void px_fill(const struct px *k, size_t half, uint8_t *reached, const uint8_t *matrix) {
    for (size_t j = 0; j < k->bits; j++) {
        size_t i = half * k->bits + j;
        put(reached, px_cell(k, i), 1);
        if (!get(reached, i) && get(matrix, j)) exit(1);
    }
}

// ---- 10.4.2.3 and 10.4.2.4

// The matrix of a P1' frame, by interleaver I; J partitions, runs of M.
struct path { size_t parts, run; const int *order; };

static const int order5[4] = {0, 1, 2, 3}, order6[8] = {0, 1, 3, 2, 4, 5, 7, 6};
static const struct path path5 = {4, 2, order5}, path6 = {8, 1, order6};

static size_t path_bits(const struct path *k) { return 64 * 36 * k->parts; }

static size_t path_cell(const struct path *k, size_t i) {
    size_t p = (size_t)k->order[i / k->run % k->parts], n = i / (2 * k->parts);
    size_t b = (k->run == 1 ? i / k->parts + p * 7 : i + n) % 2;
    return (32 * b + n * 11 % 32) * 36 * k->parts + 36 * p + (n * 11 + n / 288) % 36;
}

// ---- 11

static int odd(uint32_t sequence, int from, int to) {
    int sum = 0;
    for (int n = from; n >= to; n--) sum ^= (int)(sequence >> n & 1);
    return sum;
}

static uint32_t sequence(unsigned mode, unsigned count, unsigned reserved, unsigned column) {
    static const unsigned low[4] = {2, 1, 0, 3}, high[4] = {2, 3, 0, 1};
    uint32_t s = 0x32u << 25 | 1u << 22 | 3u << 9 | 1u << 8;
    s |= (uint32_t)(reserved & 1) << 7 | (uint32_t)(reserved >> 1 & 1) << 16 | (uint32_t)(reserved >> 2 & 1) << 24;
    s |= (uint32_t)(column < 31 ? low[column % 4] : high[column % 4]) << 20 | (uint32_t)count << 12 | (uint32_t)mode << 1;
    s |= (uint32_t)odd(s, 24, 24) << 23 | (uint32_t)odd(s, 21, 19) << 18 | (uint32_t)odd(s, 16, 12) << 11;
    return s | (uint32_t)odd(s, 8, 1);
}

static void control_of(unsigned mode, unsigned reserved, uint8_t *control) {
    memset(control, 0, 4096);
    for (unsigned block = 0; block < 16; block++)
        for (unsigned column = 0; column < 61; column++) {
            int last = 0;
            for (unsigned row = 0; row < 32; row++) {
                last ^= (int)(sequence(mode, block, reserved, column) >> (31 - row) & 1);
                put(control, (block * 32 + row) * 64 + column, last);
            }
        }
}

// The reserved number in the first column of block 0, whose encoded rows differ where the sequence is 1.
static uint8_t number_in(const uint8_t *control) {
    static const unsigned rows[3] = {24, 15, 7};
    unsigned number = 0;
    for (unsigned n = 0; n < 3; n++) number |= (unsigned)(get(control, rows[n] * 64) ^ get(control, (rows[n] - 1) * 64)) << n;
    return (uint8_t)number;
}

// ---- runs

// Frames and bits of P1, bits of P2, the extended channels, and the second path of P1.
struct mode { unsigned number; size_t p1_frames, p1_bits, p2_bits; const struct px *extended[2]; const struct path *path; };

static const struct mode modes[6] = {
    {1, 1, 146176, 0, {NULL, NULL}, NULL},   {2, 1, 146176, 0, {&narrow, NULL}, NULL},     {3, 1, 146176, 0, {&wide, NULL}, NULL},
    {11, 1, 146176, 0, {&wide, &wide}, NULL}, {5, 8, 4608, 109312, {&wide, NULL}, &path5}, {6, 8, 9216, 72448, {NULL, NULL}, &path6},
};

static uint8_t p1[18272], pids[160], p2[13664], p3[2][4608], pm[46080], matrix[2][18432], control[4096], coded[45680], coded16[400], delayed[18432];
static uint8_t memory[2][27648], reached[2][18432], delay[DELAY * 9216], newest[9216];

static void in(void *bytes, size_t n) {
    if (fread(bytes, 1, n, stdin) != n) exit(1);
}

static void out(const void *bytes, size_t n) {
    if (fwrite(bytes, 1, n, stdout) != n) exit(1);
}

static size_t p1_bytes(const struct mode *m) { return m->p1_frames * m->p1_bits / 8; }

static size_t matrix_bytes(const struct mode *m, int e) {
    if (m->extended[e]) return m->extended[e]->bits / 8;
    return e == 1 && m->path ? path_bits(m->path) : 0;
}

static void shift(uint8_t *bytes, size_t third, const uint8_t *last) {
    memmove(bytes, bytes + third, 2 * third);
    memcpy(bytes + 2 * third, last, third);
}

// P1' from the oldest scrambled frames; those of this L1 frame stand in between.
static void send_path(const struct mode *m) {
    size_t bits = path_bits(m->path);
    encode(1, delay, m->p1_bits, m->p1_frames, delayed);
    for (size_t i = 0; i < m->p1_frames * bits; i++) put(matrix[1], i / bits * bits + path_cell(m->path, i % bits), get(delayed, i));
    shift(delay, p1_bytes(m), between);
}

static void send_frame(const struct mode *m, size_t half) {
    size_t p1_coded = m->p1_frames * coded_bits(0, m->p1_bits);
    uint8_t reserved;
    in(&reserved, 1), in(p1, p1_bytes(m)), in(pids, sizeof pids), in(p2, m->p2_bits / 8);
    for (int e = 0; e < 2; e++)
        if (m->extended[e]) in(p3[e], m->extended[e]->bits / 16);
    encode_channel(0, p1, m->p1_bits, m->p1_frames, coded);
    if (m->path) send_path(m);
    if (m->p2_bits) encode_channel(0, p2, m->p2_bits, 1, coded + p1_coded / 8);
    for (size_t i = 0; i < U_BITS; i++) put(pm, u_cell(i), get(coded, i));
    encode_channel(0, pids, PIDS_BITS, 16, coded16);
    for (size_t i = 0; i < 3200; i++) put(pm, pids_cell(i), get(coded16, i));
    for (int e = 0; e < 2; e++) {
        const struct px *k = m->extended[e];
        if (!k) continue;
        encode_channel(1, p3[e], k->bits / 16, 8, coded);
        px_pass(k, half, coded, memory[e], matrix[e]);
    }
    control_of(m->number, reserved, control);
    out(pm, sizeof pm), out(matrix[0], matrix_bytes(m, 0)), out(matrix[1], matrix_bytes(m, 1)), out(control, sizeof control);
}

// The P1 frames that P1' completes, which must be those that PM brought before; this L1 frame's stand in between.
static void read_path(const struct mode *m, long age) {
    size_t bits = path_bits(m->path);
    memcpy(newest, between, p1_bytes(m));
    for (size_t i = 0; i < m->p1_frames * bits; i++) put(delayed, i, get(matrix[1], i / bits * bits + path_cell(m->path, i % bits)));
    decode_channel(1, delayed, m->p1_bits, m->p1_frames, p1);
    if (memcmp(between, delay, p1_bytes(m))) exit(1);
    shift(delay, p1_bytes(m), newest);
    if (age >= DELAY) out(p1, p1_bytes(m));
}

static void read_extended(const struct px *k, int e, size_t half, long age) {
    shift(memory[e], k->bits / 8, matrix[e]);
    if (age < 2) {
        px_fill(k, half, reached[e], matrix[e]);
        return;
    }
    px_gather(k, half, memory[e], coded);
    decode_channel(1, coded, k->bits / 16, 8, p3[e]);
    out(p3[e], k->bits / 16);
}

static void read_frame(const struct mode *m, size_t half, long age) {
    size_t p1_coded = m->p1_frames * coded_bits(0, m->p1_bits);
    uint8_t sent[4096], reserved;
    in(pm, sizeof pm), in(matrix[0], matrix_bytes(m, 0)), in(matrix[1], matrix_bytes(m, 1)), in(sent, sizeof sent);
    reserved = number_in(sent);
    control_of(m->number, reserved, control);
    if (memcmp(sent, control, sizeof sent)) exit(1);
    out(&reserved, 1);
    for (size_t i = 0; i < U_BITS; i++) put(coded, i, get(pm, u_cell(i)));
    decode_channel(0, coded, m->p1_bits, m->p1_frames, p1);
    if (m->path)
        read_path(m, age);
    else
        out(p1, p1_bytes(m));
    if (m->p2_bits) decode_channel(0, coded + p1_coded / 8, m->p2_bits, 1, p2);
    for (size_t i = 0; i < 3200; i++) put(coded16, i, get(pm, pids_cell(i)));
    decode_channel(0, coded16, PIDS_BITS, 16, pids);
    out(pids, sizeof pids), out(p2, m->p2_bits / 8);
    for (int e = 0; e < 2; e++)
        if (m->extended[e]) read_extended(m->extended[e], e, half, age);
}

int main(int argc, char **argv) {
    if (argc != 4) return 2;
    const struct mode *m = modes;
    while (m < modes + 6 && m->number != (unsigned)atoi(argv[2])) m++;
    if (m == modes + 6) return 2;
    long count = atol(argv[3]);
    for (long t = 0; t < count; t++) {
        if (strcmp(argv[1], "send") == 0)
            send_frame(m, (size_t)(t % 2));
        else
            read_frame(m, (size_t)(t % 2), t);
    }
    return 0;
}
