/*
 * A viewing desk in C: it plays a tape, shows the screen, steps back, writes that screen as a tape of its own and takes it, and is refused
 * once.
 *
 *     desk [TAPE]
 *
 * With no name it plays a sample tape, from the repository's root. How to build it: examples/README.md.
 */
#include <stdio.h>
#include <string.h>

#include "loikrasun.h"

/* The three buffers of a desk. They are ours: the archive has no memory of its own, and works on what each call lends it. */
struct buffers {
    uint8_t desk[LOIKRASUN_DESK_LENGTH];
    uint8_t log[LOIKRASUN_LOG_LENGTH];
    uint8_t tray[LOIKRASUN_TRAY_LENGTH];
};

/* The buffers as a call is lent them: each pointer with its length. */
#define LENT(b) (b)->desk, sizeof (b)->desk, (b)->log, sizeof (b)->log, (b)->tray, sizeof (b)->tray

/* The paper's words for its numbers. */
static const char *const meanings[] = {
    "done",
    "a lent buffer has a wrong length",
    "channel not 1-2, row not 1-15",
    "16,000 acts stand already",
    "back by more than stand",
    "a frame line is not four of 0-9 A-F and a line feed",
    "desk invalid; in back, start or a needed act invalid",
    "the screen is not writable",
};

/* Says what a call gave: the act count, or the number of its refusal. */
static void tell(const char *what, uint32_t result)
{
    uint32_t number = loikrasun_number(result);
    if (number == LOIKRASUN_DONE)
        printf("%s: %u acts stand\n", what, (unsigned)loikrasun_value(result));
    else
        printf("%s: refused with %u, %s\n", what, (unsigned)number, meanings[number]);
}

/* Opens the desk and gives it the pairs of a reel, line by line. The result is that of the last call, or of the first refused. */
static uint32_t play(struct buffers *b, const uint8_t *reel, size_t length)
{
    uint32_t result = loikrasun_open(LENT(b));
    while (length > 0 && loikrasun_number(result) == LOIKRASUN_DONE) {
        uint32_t line = loikrasun_line_read(reel, length);
        if (loikrasun_number(line) != LOIKRASUN_DONE)
            return line;
        uint32_t pair = loikrasun_value(line);
        result = loikrasun_take(LENT(b), (uint8_t)(pair / 256), (uint8_t)(pair % 256));
        reel += LOIKRASUN_LINE_LENGTH;
        length -= LOIKRASUN_LINE_LENGTH;
    }
    return result;
}

/* A cell's code as a character. The paper has codes and no glyphs, so ASCII stands in: `#` for 7Fh, `?` for special characters. */
static char letter(uint8_t code)
{
    if (code >= 0x20 && code <= 0x7e)
        return (char)code;
    if (code == 0x7f)
        return '#';
    return code >= 0x90 && code != 0x99 ? '?' : ' ';
}

/* Prints the rows of the screen that are not empty. How full each is the desk keeps, so that a monitor need not ask row by row. */
static void show(const struct buffers *b)
{
    const uint8_t *counts = b->desk + LOIKRASUN_DISPLAYED_COUNTS;
    uint8_t cells[LOIKRASUN_VIEW_LENGTH] = {0};
    int shown = 0;
    loikrasun_view(b->desk, sizeof b->desk, cells, sizeof cells);
    for (int row = 1; row <= 15; row++) {
        unsigned filled = counts[row - 1];
        if (filled == 0)
            continue;
        shown++;
        printf("  row %2d, %2u cells |", row, filled);
        for (int column = 1; column <= 32; column++)
            putchar(letter(cells[((row - 1) * 32 + (column - 1)) * 2]));
        puts("|");
    }
    if (shown == 0)
        puts("  an empty screen");
}

/* Writes the tape of the screen, says how long it is, and gives the desk its pairs. The result is that of the last call, or of the first refused. */
static uint32_t write_and_take(struct buffers *b)
{
    uint8_t cells[LOIKRASUN_VIEW_LENGTH] = {0}, tape[LOIKRASUN_TAPE_LENGTH];
    loikrasun_view(b->desk, sizeof b->desk, cells, sizeof cells);
    uint32_t result = loikrasun_tape(cells, sizeof cells, 1, tape, sizeof tape);
    uint32_t length = loikrasun_value(result);
    if (loikrasun_number(result) != LOIKRASUN_DONE)
        return result;
    printf("the screen as a tape: %u bytes\n", (unsigned)length);
    for (uint32_t at = 0; at < length && loikrasun_number(result) == LOIKRASUN_DONE; at += 2)
        result = loikrasun_take(LENT(b), tape[at], tape[at + 1]);
    return result;
}

int main(int argc, char **argv)
{
    /* room for one line more than can stand, so that a longer tape is refused and not cut */
    static uint8_t reel[(LOIKRASUN_MOST_ACTS + 1) * LOIKRASUN_LINE_LENGTH];
    static struct buffers b, before;
    FILE *tape = fopen(argc > 1 ? argv[1] : "tapes/news.reel", "rb");
    if (tape == NULL) {
        perror("desk");
        return 1;
    }
    size_t length = fread(reel, 1, sizeof reel, tape);
    fclose(tape);

    tell("the tape", play(&b, reel, length));
    show(&b);
    tell("back by 2", loikrasun_back(LENT(&b), 2));
    show(&b);
    tell("back by 20", loikrasun_back(LENT(&b), 20));
    show(&b);
    tell("taken", write_and_take(&b));
    show(&b);

    /* More acts than can stand: the desk says which refusal it is, and leaves every byte as it was. */
    before = b;
    tell("back by 16001", loikrasun_back(LENT(&b), LOIKRASUN_MOST_ACTS + 1));
    puts(memcmp(&before, &b, sizeof b) == 0 ? "no byte changed" : "a byte changed");
    return 0;
}
