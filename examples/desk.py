"""A viewing desk in Python: it plays a tape, shows the screen, steps back, writes that screen as a tape of its own and takes it, and
is refused once.

    python3 examples/desk.py [TAPE]

With no name it plays a sample tape. It needs the archive as a shared library: examples/README.md. What each call gives, and
what it asks of its caller, stands in include/loikrasun.h.
"""

import sys
from ctypes import CDLL, c_size_t, c_uint8, c_uint32, c_void_p
from pathlib import Path

ROOT = Path(__file__).resolve().parent.parent
DESK, LOG, TRAY, VIEW, LINE, TAPE = 1984, 48000, 31744, 960, 5, 4096
MOST_ACTS = 16000

# The paper's words for its numbers.
MEANINGS = [
    "done",
    "a lent buffer has a wrong length",
    "channel not 1-2, row not 1-15",
    "16,000 acts stand already",
    "back by more than stand",
    "a frame line is not four of 0-9 A-F and a line feed",
    "desk invalid; in back, start or a needed act invalid",
    "the screen is not writable",
]

# The archive's functions: a lent buffer passes as pointer and length, and the result is one number.
LENT = [c_void_p, c_size_t]
THREE = LENT * 3
library = CDLL(str(ROOT / "target/examples/libloikrasun.so"))
for name, parameters in {
    "loikrasun_open": THREE,
    "loikrasun_take": THREE + [c_uint8, c_uint8],
    "loikrasun_back": THREE + [c_uint32],
    "loikrasun_row": LENT + [c_uint8],
    "loikrasun_view": LENT + LENT,
    "loikrasun_line_read": LENT,
    "loikrasun_tape": LENT + [c_uint8] + LENT,
}.items():
    function = getattr(library, name)
    function.argtypes = parameters
    function.restype = c_uint32


def call(name, *words):
    """What a call gives, taken apart: the paper's number, and the value. A buffer among its words is lent with its length."""
    lent = []
    for word in words:
        lent += [word] if isinstance(word, int) else [word, len(word)]
    return divmod(getattr(library, "loikrasun_" + name)(*lent), 65536)


class Desk:
    """The three buffers of a desk. They are ours: the archive has no memory of its own, and works on what it is lent."""

    def __init__(self):
        self.buffers = [(c_uint8 * length)() for length in (DESK, LOG, TRAY)]
        call("open", *self.buffers)

    def play(self, reel):
        """Gives the desk the pairs of a reel, line by line. The result is that of the last call, or of the first refused."""
        given = (0, 0)
        for at in range(0, len(reel), LINE):
            number, pair = line = call("line_read", reel[at : at + LINE])
            if number != 0:
                return line
            given = call("take", *self.buffers, *divmod(pair, 256))
            if given[0] != 0:
                break
        return given

    def back(self, k):
        return call("back", *self.buffers, k)

    def write_and_take(self):
        """Writes the tape of the screen, says how long it is, and takes its pairs. The result is that of the last call, or of the first refused."""
        cells, tape = (c_uint8 * VIEW)(), (c_uint8 * TAPE)()
        call("view", self.buffers[0], cells)
        number, length = given = call("tape", cells, 1, tape)
        if number != 0:
            return given
        print(f"the screen as a tape: {length} bytes")
        for at in range(0, length, 2):
            given = call("take", *self.buffers, tape[at], tape[at + 1])
            if given[0] != 0:
                break
        return given

    def show(self):
        """Prints the rows of the screen that are not empty."""
        cells = (c_uint8 * VIEW)()
        call("view", self.buffers[0], cells)
        filled = {row: call("row", self.buffers[0], row)[1] for row in range(1, 16)}
        for row in filter(filled.get, filled):
            codes = cells[(row - 1) * 64 : row * 64 : 2]
            print(f"  row {row:2}, {filled[row]:2} cells |{''.join(map(letter, codes))}|")
        if not any(filled.values()):
            print("  an empty screen")


def letter(code):
    """A cell's code as a character. The paper has codes and no glyphs, so ASCII stands in: `#` for 7Fh, `?` for special characters."""
    if 0x20 <= code <= 0x7E:
        return chr(code)
    if code == 0x7F:
        return "#"
    return "?" if code >= 0x90 and code != 0x99 else " "


def tell(what, given):
    """Says what a call gave: the act count, or the number of its refusal."""
    number, value = given
    print(f"{what}: {value} acts stand" if number == 0 else f"{what}: refused with {number}, {MEANINGS[number]}")


def main():
    tape = Path(sys.argv[1]) if len(sys.argv) > 1 else ROOT / "tapes/news.reel"
    desk = Desk()
    tell("the tape", desk.play(tape.read_bytes()))
    desk.show()
    for k in (2, 20):
        tell(f"back by {k}", desk.back(k))
        desk.show()
    tell("taken", desk.write_and_take())
    desk.show()

    # More acts than can stand: the desk says which refusal it is, and leaves every byte as it was.
    before = [bytes(buffer) for buffer in desk.buffers]
    tell(f"back by {MOST_ACTS + 1}", desk.back(MOST_ACTS + 1))
    print("no byte changed" if before == [bytes(buffer) for buffer in desk.buffers] else "a byte changed")


if __name__ == "__main__":
    main()
