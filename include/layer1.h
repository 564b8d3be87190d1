/* The FM Layer 1 bit chain of SY_IDD_1011s revision G, with the house matters of documents 01 and 02, for C.
 *
 * The functions are those of the proved crates `exported_runs` (starts, sending, reading), `exported_places` (the finders in six modes,
 * into which cell a coded bit goes, and its working), `exported_sheets` (the answer sheet), `version` and `exported` (all others), as the
 * crate `layer1_c` hands them to C: their contracts, in src and specs of these crates, say exactly what each returns and what it leaves in
 * every buffer. Every call returns, and refuses what the documents refuse; none has a condition on numbers, lengths or the bytes themselves.
 *
 * What the caller must guarantee, since the proofs assume it:
 * - a pointer points to as many readable bytes, or numbers where it is one to float or uint64_t, as the length beside it says, and
 *   writable ones where it is not const;
 * - where the length is 0 any pointer will do, NULL too: nothing is read or written through it;
 * - a buffer that is written overlaps no other buffer of the call;
 * - nothing else reads a buffer that is written, or writes any buffer of the call, while the call runs: on another thread, in a signal
 *   handler or through a mapping. Calls with other buffers may run at the same time, on as many threads as you like: the library has no
 *   state of its own (wrapper/tests/threads.c). Buffers that are only read may be lent to several calls at once;
 * - the stack has room for LAYER1_SEND_STACK, LAYER1_READ_STACK or, for a dump, LAYER1_JUDGE_STACK, for a sheet LAYER1_SHEET_STACK bytes,
 *   below what the caller itself uses.
 * Nothing is allocated, and nothing of C but memcpy and memset is called.
 *
 * A run: a start, then sendings, or then readings. Each is handed the state in the word of the last call, which is mode, half, age and the
 * last reserved number sent or read, 0 at a start, and the memories as it left them. Every buffer has exactly the length that
 * layer1_sender_length or layer1_reader_length gives for the mode and its place; an unused channel's has length 0. For P3 and P4 a
 * sending, and no reading, may also be lent length 0: no data, which means eight frames of zeros (document 02, S-5). A refused call leaves
 * the state and all buffers as they were.
 *
 * A refused call says the number of its cause and a place: layer1_cause_text below has the table of causes. The lowest number that is met is
 * returned, then the lowest place; of document 02's causes 9 comes after 2 and before 3, and 17 and 18 before 1.
 *
 * Why words, lengths, NULL, the version and the stack numbers are as they are: docs/DECISIONS.md D74 to D83.
 */
#ifndef LAYER1_H
#define LAYER1_H

#include <stddef.h>
#include <stdint.h>

#ifdef __cplusplus
static_assert(sizeof(size_t) == 8, "lengths and places cross as words of 64 bits");
extern "C" {
#else
_Static_assert(sizeof(size_t) == 8, "lengths and places cross as words of 64 bits");
#endif

/* The number of this interface: one more with every change of a call, a place, a length or a field of a word. Where layer1_version(), the
 * archive's, is another, header and archive do not belong together. */
#define LAYER1_VERSION 3
uint32_t layer1_version(void);

/* The most stack that a sending, a reading, the judging of a dump and an answer sheet take, in bytes, as compiled (measured by
 * wrapper/tests/stack.c); any other call takes less than a sending. */
#define LAYER1_SEND_STACK 65536
#define LAYER1_READ_STACK 122880
#define LAYER1_JUDGE_STACK 245760
#define LAYER1_SHEET_STACK 167936

/* The places of the buffers of a sending or a reading. PX2 has P4's matrices in MP11, and those of P1' in MP5 and MP6. */
enum layer1_place {
    LAYER1_P1,
    LAYER1_PIDS,
    LAYER1_P2,
    LAYER1_P3,
    LAYER1_P4,
    LAYER1_PM,
    LAYER1_PX1,
    LAYER1_PX2,
    LAYER1_CONTROL,
    LAYER1_MEMORY3,
    LAYER1_MEMORY4,
    LAYER1_DELAY
};

/* Starts a sender, a reader: zeroes its memories and returns the state before the first L1 frame. Returns an outcome word. Refused under 3:
 * the memory for P3 at place 0, that for P4 at 1, the delay memory at 2. */
uint64_t layer1_start_sender(uint8_t mode, uint8_t *memory3, size_t memory3_len, uint8_t *memory4, size_t memory4_len,
                             uint8_t *delay, size_t delay_len);
uint64_t layer1_start_reader(uint8_t mode, uint8_t *memory3, size_t memory3_len, uint8_t *memory4, size_t memory4_len,
                             uint8_t *delay, size_t delay_len);

/* Sends an L1 frame: writes PM, PX1, PX2 and control from the transfer frames and its reserved number, 0 to 7 (document 02, S-2), and the
 * sender's memories. Returns an outcome word. */
uint64_t layer1_send(uint8_t mode, uint8_t half, uint8_t age, uint8_t last, uint8_t reserved,
                     const uint8_t *p1, size_t p1_len, const uint8_t *pids, size_t pids_len, const uint8_t *p2, size_t p2_len,
                     const uint8_t *p3, size_t p3_len, const uint8_t *p4, size_t p4_len,
                     uint8_t *pm, size_t pm_len, uint8_t *px1, size_t px1_len, uint8_t *px2, size_t px2_len,
                     uint8_t *control, size_t control_len,
                     uint8_t *memory3, size_t memory3_len, uint8_t *memory4, size_t memory4_len, uint8_t *delay, size_t delay_len);

/* Reads an L1 frame: writes its PIDS and P2 frames, its P1 frames or, in MP5 and MP6 and from the fourth on, those of the one three earlier,
 * from the third on the P3 and P4 frames of the one two earlier, and the reader's memories. Returns an outcome word, from which
 * layer1_number_read takes the L1 frame's reserved number. */
uint64_t layer1_read(uint8_t mode, uint8_t half, uint8_t age, uint8_t last,
                     uint8_t *p1, size_t p1_len, uint8_t *pids, size_t pids_len, uint8_t *p2, size_t p2_len,
                     uint8_t *p3, size_t p3_len, uint8_t *p4, size_t p4_len,
                     const uint8_t *pm, size_t pm_len, const uint8_t *px1, size_t px1_len, const uint8_t *px2, size_t px2_len,
                     const uint8_t *control, size_t control_len,
                     uint8_t *memory3, size_t memory3_len, uint8_t *memory4, size_t memory4_len, uint8_t *delay, size_t delay_len);

/* The length of the buffer at a place of a sending, of a reading; 0 past the last place. For a mode that is not covered, that of MP3. */
size_t layer1_sender_length(uint8_t mode, size_t place);
size_t layer1_reader_length(uint8_t mode, size_t place);

/* Whose coded bit stands in a cell of PM, in the modes without P2. Returns a finding word. */
uint64_t layer1_find(size_t row, size_t column);

/* Where a row and a column of PM stand (document 02, S-3): block, row in the block, partition and column in the partition. Refused as
 * layer1_find is. Returns a position word. */
uint64_t layer1_place_of(size_t row, size_t column);

/* Whose coded bit stands in a cell of PX1 (channel 3) or PX2 (channel 4), in a block pair's matrix, of the L1 frame that this state comes
 * before. Returns a finding word. Refused under 3: a channel that the mode does not have, or any in MP5 and MP6, at place 0, the block pair
 * at 1, the row at 2, the column at 3. */
uint64_t layer1_find_px(uint8_t mode, uint8_t half, uint8_t age, uint8_t last, uint8_t channel, size_t pair, size_t row, size_t column);

/* Into which cell of PM a coded bit of P1 (channel 1) or PIDS (channel 2) goes, of this transfer frame of an L1 frame, in the modes without
 * P2: 365,440 bits of P1's frame 0, 200 of each of the PIDS frames 0 to 15. Returns a position word. Refused under 3: another channel at
 * place 0, the transfer frame at 1, the bit at 2. layer1_find asks the other way. */
uint64_t layer1_locate(uint8_t channel, size_t frame, size_t bit);

/* Into which cell of PX1 (channel 3) or PX2 (channel 4) a coded bit of P3 or P4 goes, of this transfer frame, 0 to 7, of the L1 frame that
 * this state comes before, and how many L1 frames later that cell is sent. Returns a cell word. Refused under 2: the state; under 3: a channel
 * that the mode does not have, or any in MP5 and MP6, at place 0, the transfer frame at 1, the bit at 2. layer1_find_px asks the other way. */
uint64_t layer1_locate_px(uint8_t mode, uint8_t half, uint8_t age, uint8_t last, uint8_t channel, size_t frame, size_t bit);

/* The same four questions in any covered mode. In MP5 and MP6 PM has eight P1 frames, 0 to 7, and P2 (channel 5), PX1 of MP5 is as in MP3, and
 * PX2 has P1' (channel 6 of layer1_locate_px_in): the coded bits at rate 1/2 of the eight P1 frames of the L1 frame three earlier, and before
 * that the zeros of the diversity delay. In the other modes they answer as those above do. Refused under 1: a mode that is not covered, in PM;
 * and else as those above: a channel that the mode does not have at place 0 under 3. */
uint64_t layer1_find_in(uint8_t mode, size_t row, size_t column);
uint64_t layer1_locate_in(uint8_t mode, uint8_t channel, size_t frame, size_t bit);
uint64_t layer1_find_px_in(uint8_t mode, uint8_t half, uint8_t age, uint8_t last, uint8_t channel, size_t pair, size_t row, size_t column);
uint64_t layer1_locate_px_in(uint8_t mode, uint8_t half, uint8_t age, uint8_t last, uint8_t channel, size_t frame, size_t bit);

/* The numbers of a working, by their places. */
enum layer1_worked {
    LAYER1_WORKED_BIT,            /* the bit j of the transfer frame that the coded bit belongs to */
    LAYER1_WORKED_GENERATOR,      /* the generator whose output for it the coded bit is: 0133, 0171 or 0165, in octal */
    LAYER1_WORKED_BITS,           /* seven numbers: the bits j, j - 1, .. j - 6 of the transfer frame, counted around its end */
    LAYER1_WORKED_SCRAMBLING = 9, /* seven numbers: the bits of the scrambling sequence there */
    LAYER1_WORKED_SUM = 16,       /* how many of the fourteen are 1 where the generator has a tap */
    LAYER1_WORKED_CODED,          /* the sum modulo 2: the coded bit */
    LAYER1_WORKED_STEP,           /* the bit's number i in the equations of 10.2.3, 10.2.4 or 10.2.6 */
    LAYER1_WORKED_K,              /* k of 10.2.3.3 or 10.2.4.3; in 10.2.6 the counter of the partition */
    LAYER1_WORKED_BLOCK,          /* block, row, partition and column that it is written to; in 10.2.6 of the internal matrix */
    LAYER1_WORKED_ROW,
    LAYER1_WORKED_PARTITION,
    LAYER1_WORKED_COLUMN,
    LAYER1_WORKED_CELL,           /* the cell, counted across the rows of that matrix; in 10.2.6 the step that reads it */
    LAYER1_WORKED                 /* how many numbers there are */
};

/* The working of a coded bit of P1 (channel 1), PIDS (2), P3 (3) or P4 (4), in MP1, MP2, MP3 and MP11: of this transfer frame of the L1 frame
 * that this state comes before, from all transfer frames of the channel in that L1 frame, as a sending is lent them; length 0 for P3 or P4
 * means zeros here too. Writes LAYER1_WORKED numbers to out, whose length counts numbers. Returns an answer word. Refused under 2: the state;
 * under 3: a channel that the mode does not have, or any in MP5 and MP6, at place 0, the length of frames at 1, the transfer frame at 2, the
 * bit at 3, the length of out at 4. A refused call leaves out as it was. */
uint64_t layer1_working(uint8_t mode, uint8_t half, uint8_t age, uint8_t last, uint8_t channel, const uint8_t *frames, size_t frames_len,
                        size_t frame, size_t bit, uint64_t *out, size_t out_len);

/* The same in every mode: in MP5 and MP6 of P1 (channel 1), whose L1 frame has eight transfer frames, PIDS (2), P3 (3), P2 (5) or P1' (6). P1' is
 * lent the P1 frames of that L1 frame, and is sent three L1 frames later: the working of a cell of PX2 that layer1_find_px_in names is that of the
 * P1 frames three L1 frames earlier, before whose sending the state comes. Its step is counted in its transfer frame, its position is that in the
 * frame's matrix of 64 rows, and its cell is counted through the eight. Refused as by layer1_working, at the same places. */
uint64_t layer1_working_in(uint8_t mode, uint8_t half, uint8_t age, uint8_t last, uint8_t channel, const uint8_t *frames, size_t frames_len,
                           size_t frame, size_t bit, uint64_t *out, size_t out_len);

/* The mode, the block count and the reserved number of one control block of 256 bytes. Returns a lookup word. */
uint64_t layer1_lookup(const uint8_t *block, size_t block_len);

/* The mode and the reserved number of the sixteen control blocks of an L1 frame, 4,096 bytes, as a set (document 02, S-8): all name the same
 * two, and count 0 to 15 in order. Refused under 4: the lowest block that layer1_lookup refuses. Returns a lookup word whose count is 0. */
uint64_t layer1_lookup_frame(const uint8_t *control, size_t control_len);

/* A row of PM, a row of PX1 (channel 3) or PX2 (channel 4) of MP11. Returns a row word; there is no number, and a refused row is empty. */
uint64_t layer1_pm_row(size_t row, const uint8_t *pm, size_t pm_len);
uint64_t layer1_px_row(uint8_t channel, size_t row, const uint8_t *px1, size_t px1_len, const uint8_t *px2, size_t px2_len);

/* The answer sheet for an input: a list of cells, an empty line, and count L1 frames, each its reserved number and its transfer frames, as
 * docs/MANUAL.md says of the program sheet. without_p3 and without_p4: a channel has no bytes in the L1 frames (0: it has). work: below each
 * answer that names a coded bit stands the line of its working (0: none does). Writes the text to out, or the one line, NO SHEET and why, and
 * zeros behind it, so that it is a C string. out has at least LAYER1_SHEET_ROOM bytes; a shorter one is refused under 3 at place 1, and nothing
 * is written. Returns an answer word. Text of any kind is a success. */
#define LAYER1_SHEET_ROOM 1200000
uint64_t layer1_sheet(uint8_t mode, uint64_t count, uint8_t without_p3, uint8_t without_p4, uint8_t work, const uint8_t *input, size_t input_len,
                      uint8_t *out, size_t out_len);

/* Shares the sixteen PIDS places of an L1 frame among eight sources (document 02, S-4). The shares, and the counts of messages waiting, are
 * words of eight bytes as layer1_eight makes them. Writes to each of the sixteen bytes of places the number of its source, or
 * LAYER1_ZEROS for a frame of zeros. Returns an answer word. */
#define LAYER1_ZEROS 255
uint64_t layer1_share_places(uint64_t shares, uint64_t waiting, uint8_t *places, size_t places_len);

/* The word of eight numbers: source 0's weighs least. */
static inline uint64_t layer1_eight(const uint8_t numbers[8]) {
    uint64_t word = 0;
    for (int source = 8; source-- > 0;)
        word = word << 8 | numbers[source];
    return word;
}

/* The PIDS frame that is nearest to its 200 cells in coded order, a byte each: 0, 1, anything else where a cell could not be read. Written to
 * the 10 bytes of the frame. The budget, 1 to 64, says how many register starts are tried. Returns a nearest word. */
uint64_t layer1_nearest(const uint8_t *cells, size_t cells_len, uint8_t *frame, size_t frame_len, size_t budget);

/* The PIDS frame that fits its 200 cells in coded order, a byte each as for layer1_nearest, where exactly one does. Written to the 10 bytes of the
 * frame. Returns an answer word. */
uint64_t layer1_restore(const uint8_t *cells, size_t cells_len, uint8_t *frame, size_t frame_len);

/* Judges a dump (document 02, S-13): the letters HDM, version 1 and 16 bits, the mode, the count of L1 frames, again 16 bits, both most
 * significant byte first, and of each L1 frame PM, PX1, PX2 and control. Accepted is what a reader begun fresh accepts to the last L1 frame,
 * with nothing behind it. Only the dump is lent, and only read: a file can be mapped into memory. Returns a verdict word. */
uint64_t layer1_judge(const uint8_t *dump, size_t dump_len);

/* The output vector of a symbol, 0 to 511, of an L1 frame (document 02, S-7): from PM, PX1, PX2 and control, with the lengths of a sending or
 * a reading, and a scale for each sideband. Writes the real parts, then the imaginary parts, LAYER1_POINTS numbers each; element k belongs
 * to subcarrier k - 546. Each is the scale, its negation, or positive zero where the subcarrier is not used. Lengths count numbers for these
 * two. The places under 3 are 0 to 3 for PM, PX1, PX2 and control, 4 for the real and 5 for the imaginary parts. Returns an answer word. */
#define LAYER1_POINTS 1093
uint64_t layer1_fill_vector(uint8_t mode, size_t symbol, float lower, float upper,
                            const uint8_t *pm, size_t pm_len, const uint8_t *px1, size_t px1_len, const uint8_t *px2, size_t px2_len,
                            const uint8_t *control, size_t control_len,
                            float *re, size_t re_len, float *im, size_t im_len);

/* Every word but a row's. */
static inline unsigned layer1_number(uint64_t word) { return word & 0xff; }

/* An outcome word; of an answer word, the place alone. */
static inline uint8_t layer1_mode(uint64_t word) { return (uint8_t)(word >> 8); }
static inline uint8_t layer1_half(uint64_t word) { return (uint8_t)(word >> 16); }
static inline uint8_t layer1_age(uint64_t word) { return (uint8_t)(word >> 24); }
static inline uint8_t layer1_last(uint64_t word) { return (uint8_t)(word >> 56); }
static inline uint32_t layer1_place(uint64_t word) { return word >> 32 & 0xffffff; }

/* The outcome word of a reading: the reserved number of the L1 frame, 0 with any refusal. */
static inline uint8_t layer1_number_read(uint64_t word) { return layer1_number(word) == 0 ? layer1_last(word) : 0; }

/* A finding word. The channel of layer1_find and layer1_find_in: 0 none, 1 P1, 2 PIDS, 5 P2; the content of layer1_find_px and
 * layer1_find_px_in: 0 none, 1 a coded bit, 2 the zero fill, 3 a coded bit of P1', 4 the zeros of the diversity delay; and how many L1 frames
 * earlier that bit was sent. */
static inline unsigned layer1_found_channel(uint64_t word) { return word >> 8 & 0xff; }
static inline unsigned layer1_found_content(uint64_t word) { return word >> 8 & 0xff; }
static inline unsigned layer1_found_frame(uint64_t word) { return word >> 16 & 0xff; }
static inline unsigned layer1_found_before(uint64_t word) { return word >> 24 & 0xff; }
static inline unsigned layer1_found_place(uint64_t word) { return word >> 32 & 0xff; }
static inline uint32_t layer1_found_bit(uint64_t word) { return (uint32_t)(word >> 40); }

/* A position word. */
static inline unsigned layer1_placed_block(uint64_t word) { return word >> 8 & 0xff; }
static inline unsigned layer1_placed_row(uint64_t word) { return word >> 16 & 0xff; }
static inline unsigned layer1_placed_partition(uint64_t word) { return word >> 24 & 0xff; }
static inline unsigned layer1_placed_place(uint64_t word) { return word >> 32 & 0xff; }
static inline unsigned layer1_placed_column(uint64_t word) { return (unsigned)(word >> 40); }

/* A position word of layer1_locate, layer1_locate_in or layer1_place_of: row and column of PM. */
static inline unsigned layer1_located_row(uint64_t word) { return 32 * layer1_placed_block(word) + layer1_placed_row(word); }
static inline unsigned layer1_located_column(uint64_t word) { return 36 * layer1_placed_partition(word) + layer1_placed_column(word); }

/* A cell word of layer1_locate_px or layer1_locate_px_in: block pair, row and column, and how many L1 frames later. */
static inline unsigned layer1_located_px_pair(uint64_t word) { return word >> 8 & 0xff; }
static inline unsigned layer1_located_px_row(uint64_t word) { return word >> 16 & 0xff; }
static inline unsigned layer1_located_px_later(uint64_t word) { return word >> 24 & 0xff; }
static inline unsigned layer1_located_px_place(uint64_t word) { return word >> 32 & 0xff; }
static inline unsigned layer1_located_px_column(uint64_t word) { return (unsigned)(word >> 40); }

/* A lookup word. */
static inline uint8_t layer1_looked_up_mode(uint64_t word) { return (uint8_t)(word >> 8); }
static inline uint8_t layer1_looked_up_count(uint64_t word) { return (uint8_t)(word >> 16); }
static inline uint8_t layer1_looked_up_reserved(uint64_t word) { return (uint8_t)(word >> 24); }
static inline uint32_t layer1_looked_up_place(uint64_t word) { return (uint32_t)(word >> 32); }

/* A verdict word: the L1 frame that a dump is refused at, from 0; the count of L1 frames where it goes on behind them; else 0. */
static inline unsigned layer1_judged_frame(uint64_t word) { return word >> 16 & 0xffff; }
static inline uint32_t layer1_judged_place(uint64_t word) { return (uint32_t)(word >> 32); }

/* A nearest word: the number of read cells that differ from the frame's, and by how much at most a frame of another start is nearer. */
static inline unsigned layer1_nearest_distance(uint64_t word) { return word >> 8 & 0xff; }
static inline unsigned layer1_nearest_margin(uint64_t word) { return word >> 16 & 0xff; }
static inline uint32_t layer1_nearest_place(uint64_t word) { return (uint32_t)(word >> 32); }

/* begin: written by .ci/header from causes.tsv */
/* The table of causes in words, with the place that comes with each; of a number that stands for none, words that say so. */
static inline const char *layer1_cause_text(unsigned number) {
    switch (number) {
    case 0: /* the place: 0 */
        return "success";
    case 1: /* the place: 0 */
        return "the service mode is not covered: it is not 1, 2, 3, 5, 6 or 11 or, of a vector, not 1, 2, 3 or 11";
    case 2: /* the place: 0 */
        return "the state of the run is not valid";
    case 3: /* the place: the first such buffer or argument, from 0 */
        return "a length is wrong, or a row, column, block pair, channel, transfer frame or coded bit is out of range";
    case 4: /* the place: the lowest such block */
        return "a control block is not the one of this mode, its count and the number of block 0";
    case 5: /* the place: the lowest such P1 frame, from 0; 8 for P2 */
        return "a P1 frame or P2 in PM is no coded frame; or at age 3 a P1' frame in PX2 is none, or not the P1 frame of the L1 frame three earlier";
    case 6: /* the place: the lowest such frame */
        return "the PIDS cells are no coded frame";
    case 7: /* the place: the lowest such cell, through PX1, then PX2; in MP5 and MP6 behind the 368,640 cells of PM */
        return "a cell that can show only the zero fill, or at ages 0 to 2 only the delay's zeros, is 1";
    case 8: /* the place: 0 to 7 for P3, 8 to 15 for P4, the lowest */
        return "a P3 or P4 frame of the L1 frame two earlier is no coded frame";
    case 9: /* the place: 0 */
        return "the reserved number is above 7";
    case 10: /* the place: 0 */
        return "the shares add up to more than 16";
    case 11: /* the place: 0 */
        return "the symbol is above 511";
    case 12: /* the place: 0 for the lower sideband, 1 for the upper */
        return "a scale is not finite or not above zero";
    case 13: /* the place: the lowest such block */
        return "no control block of a set is faulty by itself, and one does not fit block 0's mode and number and its own position";
    case 14: /* the place: 0 */
        return "no frame fits the cells that were read";
    case 15: /* the place: 0 */
        return "more than one frame fits the cells that were read";
    case 16: /* the place: 0 */
        return "the budget is 0 or above 64";
    case 17: /* the place: 0 */
        return "it is no dump: it does not begin with HDM, or has fewer than eight bytes";
    case 18: /* the place: 0 */
        return "the dump's version is not 1";
    case 19: /* the place: 0 */
        return "the dump ends in an L1 frame, or goes on behind the last";
    default:
        return "no such cause";
    }
}
/* end */

/* A row word: where the row starts in its matrix, and how many bytes it has. */
static inline size_t layer1_row_start(uint64_t word) { return word & 0xffffffff; }
static inline size_t layer1_row_length(uint64_t word) { return word >> 32; }

#ifdef __cplusplus
}
#endif

#endif
