"""The tables as a sheet, a line for each row: written and read. Its form is in docs/WORDS.md."""
import io
import re

from .floats import Bad, whole
from .layout import WIDTHS, row_list
from .reading import Text

MALFORMED = 22  # the refusal of a sheet that is not as written
KIND, WORD = 4, 21  # columns of a row's kind and of a word
HEADS = {kind: f"{number:{KIND}}" for number, kind in enumerate(WIDTHS, 1)}
CELL = re.compile(r" *([1-9][0-9]*|0\Z)?")  # as much of a word's columns as is right
NUMBER_FIRST = re.compile(rb"(\xef\xbb\xbf)?\s*[0-9]+\s")


def is_sheet(data):
    """Whether an input begins with a number, a byte order mark aside, as no text does."""
    return bool(NUMBER_FIRST.match(data))


# ---- writing

def line_of(kind, row):
    return HEADS[kind] + "".join(f"{word:{WORD}}" for word in row) + "\n"


def sheet_of(tables):
    return "".join(line_of(kind, row) for kind in WIDTHS for row in row_list(tables.table(kind), kind))


# ---- reading

class SheetLine:
    """A line with its line feed, if it has one; what is wrong in it is found from the left."""

    def __init__(self, number, text):
        self.number, self.text = number, text

    def place(self, at):
        return f"{self.number}:{at + 1}"

    def bad(self, at, why):
        """What stands at a place, and why it may not."""
        ends = {"": "the sheet ends here", "\n": "the line ends here"}
        here = self.text[at:at + 1]
        return Bad(f"{ends.get(here) or ascii(here) + ' was not expected here'}: {why}", self.place(at))

    def kind(self, earlier):
        """The row's kind, not before that of an earlier line."""
        kind = next((kind for kind, head in HEADS.items() if self.text.startswith(head)), None)
        if not kind:
            before = self.text[:KIND - 1]
            raise self.bad(len(before) - len(before.lstrip(" ")), f"a line has 1, 2 or 3 in column {KIND}, and spaces before")
        if HEADS[kind] < HEADS[earlier]:
            raise Bad(f"a {kind} line stands behind a {earlier} line", self.place(KIND - 1))
        return kind

    def word(self, k):
        """A word of the row, and its place."""
        at = KIND + k * WORD
        cell = CELL.match(self.text[at:at + WORD])
        if cell.end() < WORD or not cell[1]:
            why = f"word {k} stands in columns {at + 1} to {at + WORD}, decimal and right-justified, without leading zeros"
            raise self.bad(at + min(cell.end(), WORD - 1), why)
        place = self.place(at + cell.start(1))
        return whole(cell[1], f"word {k}", place), place

    def row(self, kind):
        """The words of the row, and their places."""
        words = [self.word(k) for k in range(WIDTHS[kind])]
        columns = KIND + len(words) * WORD
        if self.text[columns:] != "\n":
            raise self.bad(columns, f"a {kind} line is {columns} columns and a line feed")
        return [word for word, _ in words], [place for _, place in words]


def sheet_rows(data):
    kind = "machine"
    for number, text in enumerate(io.BytesIO(data), 1):
        line = SheetLine(number, text.decode("latin-1"))  # a character for each byte
        kind = line.kind(kind)
        yield kind, *line.row(kind)


def read_sheet(data):
    """A text of raw rows: those of the sheet."""
    text = Text("")
    text.raw = list(sheet_rows(data))
    return text
