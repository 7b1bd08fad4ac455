/*
 * The caption desk for programs in C and C++: the functions of libloikrasun.a, which tools/archive builds.
 *
 * A desk is three buffers of the caller's: its record (desk), the log of the acts that stand (log), and the records kept at
 * each thousandth act (tray). The caller lends them to each call; between two calls they are plain bytes, to be stored or copied.
 * Cells have codes and no glyphs: what a code looks like is the caller's part.
 *
 * What a call owes. Every call takes every input, of any length and holding any bytes, and ends. Its result, and each byte that it
 * leaves, are what crates/loikrasun/src/lib.rt says; that is proved. A refusal changes no byte. A call keeps no pointer, asks for
 * no memory, and reads and writes nothing but what it is lent.
 *
 * What the caller owes. Nothing checks these, and nothing is promised where one is broken:
 * - A pointer is good for the length given with it: that many bytes can be read there, and written where it is not const. It is
 *   never null, not even with length 0.
 * - No two buffers lent to one call overlap.
 * - While a call runs, nobody else writes to a buffer lent to it, nor reads one lent to be written.
 * The archive has no state of its own. So calls may run in several threads at once, each on buffers of its own, and buffers that
 * are only read may be lent to several calls.
 */
#ifndef LOIKRASUN_H
#define LOIKRASUN_H

#include <stddef.h>
#include <stdint.h>

#ifdef __cplusplus
extern "C" {
#endif

/* Lengths of what is lent, in bytes, and the most acts that can stand. */
enum {
    LOIKRASUN_DESK_LENGTH = 1984,
    LOIKRASUN_LOG_LENGTH = 48000,
    LOIKRASUN_TRAY_LENGTH = 31744,
    LOIKRASUN_VIEW_LENGTH = 960,
    LOIKRASUN_LINE_LENGTH = 5,
    LOIKRASUN_TAPE_LENGTH = 4096,
    LOIKRASUN_MOST_ACTS = 16000
};

/* Where the desk keeps how many cells of each row are not empty: fifteen bytes each, row 1 first. */
enum {
    LOIKRASUN_DISPLAYED_COUNTS = 19,
    LOIKRASUN_OTHER_COUNTS = 34
};

/* The numbers given back. Where several would fit, the order is 1, 6 for desk or screen, 2, 3, 4, 6 for start and acts, 5, 7. */
enum {
    LOIKRASUN_DONE = 0,         /* done; the value is the act count, or what was asked */
    LOIKRASUN_WRONG_LENGTH = 1, /* a lent buffer has a wrong length */
    LOIKRASUN_NO_SUCH = 2,      /* channel not 1-2, row not 1-15 */
    LOIKRASUN_FULL = 3,         /* 16,000 acts stand already */
    LOIKRASUN_TOO_FAR = 4,      /* back by more than stand */
    LOIKRASUN_BAD_LINE = 5,     /* a frame line is not four of 0-9 A-F and a line feed */
    LOIKRASUN_INVALID = 6,      /* desk invalid; in back, start or a needed act invalid; in tape, a cell of the screen invalid */
    LOIKRASUN_NOT_WRITABLE = 7  /* a screen of valid cells for which there is no tape */
};

/* A result holds the number and the value; both are always had back from it. On a refusal the value is 0. */
static inline uint32_t loikrasun_number(uint32_t result)
{
    return result / 65536;
}

static inline uint32_t loikrasun_value(uint32_t result)
{
    return result % 65536;
}

/* Writes the fresh record, an empty log and an empty tray, whatever the buffers held. Value 0. Refused with 1. */
uint32_t loikrasun_open(uint8_t *desk, size_t desk_length, uint8_t *log, size_t log_length, uint8_t *tray, size_t tray_length);

/* Takes a pair of raw bytes, parity bits and all, as an act. Value: the act count, up to 16,000. Refused with 1, 6 or 3. */
uint32_t loikrasun_take(uint8_t *desk, size_t desk_length, uint8_t *log, size_t log_length, uint8_t *tray, size_t tray_length,
                        uint8_t first, uint8_t second);

/*
 * Selects caption channel 1 or 2, the present one too, as an act: the desk is fresh with that channel, and only the act count
 * goes on. Value: the act count, up to 16,000. Refused with 1, 6, 2 or 3.
 */
uint32_t loikrasun_select(uint8_t *desk, size_t desk_length, uint8_t *log, size_t log_length, uint8_t *tray, size_t tray_length,
                          uint8_t channel);

/*
 * Steps back by the last k of the acts that stand. From an opened desk whose own three buffers were lent to every call, they then
 * hold what they would hold had these acts never been given. Back 0 is allowed. Value: the act count, up to 16,000. Refused with
 * 1, 6 or 4, and with 6 where the start in the tray or a needed act in the log is invalid.
 */
uint32_t loikrasun_back(uint8_t *desk, size_t desk_length, uint8_t *log, size_t log_length, uint8_t *tray, size_t tray_length,
                        uint32_t k);

/*
 * How full a displayed row is. Value: the number of its cells that are not empty, up to 32. Refused with 1, 6 or 2. The desk keeps
 * these numbers: where the last call on it was not refused, byte LOIKRASUN_DISPLAYED_COUNTS - 1 + row is this value, and byte
 * LOIKRASUN_OTHER_COUNTS - 1 + row is that of the memory that is not displayed.
 */
uint32_t loikrasun_row(const uint8_t *desk, size_t desk_length, uint8_t row);

/*
 * Copies the displayed screen into out: 15 rows from the top, 32 cells a row, two bytes a cell. The first is the cell's code: 0
 * empty, 20h-7Fh characters, 80h an attribute space, 90h-9Fh special characters, 99h of these the transparent space. The second
 * is its pen: bits 0 to 2 the colour (0 white, green, blue, cyan, red, yellow, 6 magenta), 3 italics, 4 underline, 5 flash.
 * Value 0. Refused with 1, for out too, or 6.
 */
uint32_t loikrasun_view(const uint8_t *desk, size_t desk_length, uint8_t *out, size_t out_length);

/* Writes the frame line of a pair into out. Value 0. Refused with 1. */
uint32_t loikrasun_line_write(uint8_t *out, size_t out_length, uint8_t first, uint8_t second);

/*
 * Reads the first line of a reel, which may be longer; the next line stands LOIKRASUN_LINE_LENGTH bytes on. Value: the pair, as
 * the first byte times 256 plus the second. Refused with 5, for a short line too. At the reel's end, which is a reel of length 0,
 * there is no pair and number and value are 0; so they are for the pair 0000. The length tells the two apart.
 */
uint32_t loikrasun_line_read(const uint8_t *reel, size_t reel_length);

/*
 * Writes the pairs that load a screen and show it pop-on, as raw bytes with their parity bits, two a pair, from the first byte of
 * out on. The screen has the form that loikrasun_view gives. It is writable if the cells of each row that are not empty share one
 * pen without flash, with italics only in white, and none is 80h. A desk in any valid state that has the channel selected, 1 or 2,
 * and acts enough left, displays that very screen once it has taken all the pairs. Value: how many bytes they are; those of out
 * behind them stay as they were. Refused with 1, for out too, 6, 2 or 7.
 */
uint32_t loikrasun_tape(const uint8_t *screen, size_t screen_length, uint8_t channel, uint8_t *out, size_t out_length);

#ifdef __cplusplus
}
#endif

#endif
