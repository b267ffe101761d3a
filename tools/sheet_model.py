#!/usr/bin/env python3
"""Prints what the program sheet has to print, from the rules in docs/SHEET.md alone.

    sheet_model.py <FILE

It shares no code with the program. `run` takes the whole standard input, and returns standard output, standard error and the exit status.
On standard error only the number of the line is meant to be compared; the reason is in words of its own.
"""

import re
import sys
from typing import NamedTuple

ROOM = 29 * 201  # the length of the buffer, if no line `room N` gives it
# A word is what stands between white space, as Unicode has it. str.split() would also split at 1C to 1F.
WORD = re.compile("[^\t-\r \x85\xa0\u1680\u2000-\u200a\u2028\u2029\u202f\u205f\u3000]+")
TOO_GREAT = 10**9  # stands for every number of more than 9 digits: above each limit, and room for every sheet


class Record(NamedTuple):
    number: int
    service: str
    sent: int
    taken: int
    end: str


class Unreadable(Exception):
    """A line that cannot be read, and why."""


# The sheet


def line(record):
    """Columns 1 to 6, 8 to 10, 12 to 18, 20 to 26 and 28, with a blank between them."""
    return f"{record.number:>6} {record.service:<3} {record.sent:>7} {record.taken:>7} {record.end:<1}\n"


def last_line(records):
    """TOTAL in 1 to 5, and the sums where a record has its counts."""
    sent, taken = sum(r.sent for r in records), sum(r.taken for r in records)
    return f"{'TOTAL':<6} {'':3} {sent:>7} {taken:>7} {'':1}\n"


def sheet(records):
    return "".join(line(r) for r in records) + last_line(records)


def refusal(records, room):
    """The number of the first refusal that holds, or None."""
    if len(records) > 200:
        return 15
    if any(r.number > 999_999 or r.sent > 49_999 or r.taken > 49_999 for r in records):
        return 16
    if room < 29 * (len(records) + 1):
        return 17
    return None


# The lines of standard input


def number(word):
    """Decimal digits of any length (int() by itself takes signs, underscores and other digits, and at most 4300 of them)."""
    if not (word.isascii() and word.isdigit()):
        raise Unreadable("a number is not written in decimal digits")
    digits = word.lstrip("0") or "0"
    return int(digits) if len(digits) <= 9 else TOO_GREAT


def words_of(raw):
    """The words of a line; none if it is to be skipped."""
    if raw.startswith(b"#"):
        return []
    try:
        return WORD.findall(raw.decode("utf-8"))
    except UnicodeDecodeError:
        raise Unreadable("not valid UTF-8") from None


def record_of(words):
    if len(words) != 5:
        raise Unreadable("a record has five words")
    if words[1] not in ("sse", "sch"):
        raise Unreadable("the service is neither sse nor sch")
    if words[4] not in ("T", "E", "R"):
        raise Unreadable("the end is none of T, E, R")
    return Record(number(words[0]), words[1].upper(), number(words[2]), number(words[3]), words[4])


def room_of(words, records):
    if records:
        raise Unreadable("room after the first record")
    if len(words) != 2:
        raise Unreadable("room takes one number")
    return number(words[1])


def run(data: bytes) -> tuple[bytes, bytes, int]:
    """What has to be printed on standard output and on standard error, and the exit status."""
    records, room = [], ROOM
    for count, raw in enumerate(data.split(b"\n"), start=1):
        try:
            words = words_of(raw)
            if words and words[0] == "room":
                room = room_of(words, records)
            elif words:
                records.append(record_of(words))
        except Unreadable as reason:
            return b"", f"line {count}: {reason}\n".encode(), 1
    refused = refusal(records, room)
    text = sheet(records) if refused is None else f"refused {refused}\n"
    return text.encode(), b"", 0


if __name__ == "__main__":
    out, err, status = run(sys.stdin.buffer.read())
    sys.stdout.buffer.write(out)
    sys.stderr.buffer.write(err)
    sys.stdout.buffer.flush()
    sys.stderr.buffer.flush()
    sys.exit(status)
