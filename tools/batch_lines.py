"""Text to the bytes of records.bin, log.bin and steps.bin. The usage of batch_text.py says the form.

Beside the bytes stands where in the text they come from, so that what is wrong
with a byte can be told with its line and column.
"""

import re
from dataclasses import dataclass, field

import batch_faults              # makes reference/ known
from packed import (ACTION_FIELDS, ACTION_LENGTH, ACTIONS_AT, ENTRY_LENGTH, LARGEST_COUNT, NUMBER_OF_KIND, READS_AT,
                    RECORD_LENGTH, WRITES_AT, little)
from program import ADVANCE, CLAIM, FILES, PLACE, SEAL, step_bytes

# How an action is told: its word, then the fields of its kind with a word between them.
ACTION_FORMS = {
    "set": ("r", "to", "c"), "add": ("r", "by", "c"), "take": ("c", "from", "r"),
    "copy": ("r", "from", "s"), "move": ("r", "from", "s"), "floor": ("c", "on", "r"),
}
FIRST_WORDS = ("records", "reads", "writes", *ACTION_FORMS, "nothing", "place", "claim", "advance", "seal", "bytes")
FIELD_NAMES = {"r": "a record number", "s": "a record number", "c": "a constant"}


class Mistake(Exception):
    """What is wrong with the text, and in which column."""

    def __init__(self, column, words):
        super().__init__(words)
        self.column, self.words = column, words


@dataclass
class Batch:
    """The bytes so far; for each file, the byte offsets that have a place in the text."""
    files: dict = field(default_factory=lambda: {name: bytearray() for name in FILES})
    places: dict = field(default_factory=lambda: {name: {} for name in FILES})
    mistakes: list = field(default_factory=list)      # line, column and words
    lines: int = 0

    def put(self, name, data, line, columns):
        """Adds bytes to a file; `columns` has the column of each byte that came from a word of its own."""
        start = len(self.files[name])
        self.files[name] += data
        for at, column in columns.items():
            self.places[name][start + at] = (line, column)

    def place_of(self, name, at):
        """Line and column of a byte, or of the last word before it. Past the last byte: the last line."""
        known = [offset for offset in self.places[name] if offset <= at]
        return self.places[name][max(known)] if known else (max(self.lines, 1), 1)


def quoted(word):
    """A word as it is told in a mistake: short, and in characters that any terminal shows."""
    if not word:
        return "the end of the line"
    short = word if len(word) <= 24 else word[:24] + "..."
    return '"' + (short if short.isascii() and short.isprintable() else ascii(short)[1:-1]) + '"'


class Words:
    """The words of a line, each with its column; commas are words."""

    def __init__(self, line):
        found = re.finditer(r"[^\s,]+|,", line.split("#", 1)[0])
        self.words = [(match.start() + 1, match.group()) for match in found]
        self.end = len(line.split("#", 1)[0].rstrip()) + 1
        self.at = 0

    @property
    def word(self):
        """The next word; "" at the end of the line."""
        return self.words[self.at][1] if self.at < len(self.words) else ""

    @property
    def column(self):
        return self.words[self.at][0] if self.at < len(self.words) else self.end

    def refuse(self, expected):
        raise Mistake(self.column, f"{expected} is expected here, not {quoted(self.word)}")

    def take(self):
        column, word = self.column, self.word
        self.at += 1
        return column, word

    def take_word(self, wanted):
        if self.word != wanted:
            self.refuse(f'"{wanted}"')
        return self.take()[0]

    def take_number(self, name, limit):
        """A column and a number below the limit."""
        if not re.fullmatch(r"[0-9]+", self.word):
            self.refuse(name)
        digits = self.word.lstrip("0") or "0"
        # The length is looked at first: Python turns down very long numbers.
        if len(digits) > 20 or int(digits) >= limit:
            raise Mistake(self.column, f"{name} is at most {limit - 1}")
        return self.take()[0], int(digits)

    def take_end(self):
        if self.word:
            self.refuse("the end of the line")


# A transaction --------------------------------------------------------------

def take_set(words, entry, columns, count_at, start):
    """ "reads 0 and 1": the count and the records go to the entry. """
    columns[count_at], name = words.take()
    while True:
        count = entry[count_at]
        if count == LARGEST_COUNT:
            raise Mistake(words.column, f"a transaction {name} at most 4 records; the engine refuses more by 4")
        column, record = words.take_number("a record number", 2**16)
        at = start + RECORD_LENGTH * count
        entry[at : at + RECORD_LENGTH] = little(record, RECORD_LENGTH)
        entry[count_at], columns[at] = count + 1, column
        if words.word != "and":
            return
        words.take()


def take_action(words, entry, columns):
    k = entry[2]
    if words.word not in ACTION_FORMS:
        words.refuse("an action (set, add, take, copy, move or floor)")
    if k == LARGEST_COUNT:
        raise Mistake(words.column, "a transaction has at most 4 actions; the engine refuses more by 4")
    start = ACTIONS_AT + ACTION_LENGTH * k
    columns[start], kind = words.take()
    columns.setdefault(2, columns[start])
    first, between, second = ACTION_FORMS[kind]
    for name in (first, second):
        span = ACTION_FIELDS[name]
        column, value = words.take_number(FIELD_NAMES[name], 256 ** len(span))
        entry[start + span.start : start + span.stop] = little(value, len(span))
        columns[start + span.start] = column
        if name == first:
            words.take_word(between)
    entry[start], entry[2] = NUMBER_OF_KIND[kind], k + 1


def take_transaction(words, batch, line):
    entry, columns = bytearray(ENTRY_LENGTH), {0: words.column}
    if words.word == "nothing":
        words.take()
    else:
        has_sets = words.word in ("reads", "writes")
        if words.word == "reads":
            take_set(words, entry, columns, 0, READS_AT)
        if words.word == "writes":
            take_set(words, entry, columns, 1, WRITES_AT)
        if not has_sets:
            take_action(words, entry, columns)
        while words.word:
            words.take_word(",")
            take_action(words, entry, columns)
    words.take_end()
    batch.put("log.bin", entry, line, columns)


# Records, steps and bytes ---------------------------------------------------

def take_records(words, batch, line):
    words.take()
    numbers = [words.take_number("a number", 2**64)]
    while words.word:
        numbers.append(words.take_number("a number", 2**64))
    for column, contents in numbers:
        batch.put("records.bin", little(contents, 8), line, {0: column})


def take_step(words, batch, line):
    column, name = words.take()
    party = transaction = 0
    if name != "seal" or words.word:         # a seal may name a party, which is not read
        party = words.take_number({"place": "a partition"}.get(name, "a worker"), 256)[1]
    if name == "claim":
        words.take_word("of")
        transaction = words.take_number("a transaction", 2**16)[1]
    words.take_end()
    kind = {"place": PLACE, "claim": CLAIM, "advance": ADVANCE, "seal": SEAL}[name]
    batch.put("steps.bin", step_bytes(kind, party, transaction), line, {0: column})


def take_bytes(words, batch, line):
    """ "bytes of log 01ff": bytes that no other line can tell. """
    words.take()
    words.take_word("of")
    names = {name.removesuffix(".bin"): name for name in FILES}
    if words.word not in names:
        words.refuse("records, log or steps")
    name = names[words.take()[1]]
    if not re.fullmatch(r"([0-9a-fA-F]{2})+", words.word):
        words.refuse("bytes of two hexadecimal digits each")
    column, digits = words.take()
    words.take_end()
    data = bytes.fromhex(digits)
    batch.put(name, data, line, {k: column + 2 * k for k in range(len(data))})


TAKERS = {"records": take_records, "bytes": take_bytes, "place": take_step, "claim": take_step,
          "advance": take_step, "seal": take_step}


def read_line(batch, line, text):
    words = Words(text)
    if not words.word:
        return
    if words.word not in FIRST_WORDS:
        words.refuse("one of " + ", ".join(FIRST_WORDS))
    TAKERS.get(words.word, take_transaction)(words, batch, line)


def read_text(text):
    """The batch that a text tells, with the first mistake of every line that has one."""
    batch = Batch()
    for line, one in enumerate(text.split("\n"), start=1):
        batch.lines = line
        try:
            read_line(batch, line, one.rstrip("\r"))
        except Mistake as mistake:
            batch.mistakes.append((line, mistake.column, mistake.words))
    return batch
