"""Gives random inputs to `sheet` and to its second implementation, and compares what the two print.

usage: python3 tools/compare_sheet.py [INPUTS [SEED]]      after `tools/run sheet`; 1000 inputs and seed 1 where none are given

Most inputs can be read: up to 260 records with numbers at and around every limit, comments, empty lines, and lines that give the
room. In some a line is damaged, or gives the room too late. Of standard error only the number of the line is compared, up to the
first colon. It prints the first input that differs, and ends with status 1 then.
"""
import collections
import random
import subprocess
import sys

import sheet_model

PROGRAM = 'crates/sheet/out/sheet'
LINE = 29
MOST_NUMBER = 999_999
MOST_COUNT = 49_999
# Limits of a sheet, of its columns, and of types that could hold a number.
LIMITS = [0, 9, 99, 999, 9_999, MOST_COUNT, 99_999, MOST_NUMBER, 9_999_999, 2**16, 2**32, 2**64]
DAMAGED_WORDS = ['+1', '-1', '1.', '1_0', '0x1', '1e3', 'x', 'SSE', 't', 'TE', '\u0663', '\0', '1\x1c', '#', 'room']
DAMAGED_LINES = [b'room', b'room 1 2', b'room x', b'room -1', b' # no comment', b'sheet', b'room 5829', b'room 5829']
NO_TEXT = [b'1 sch 0 0 T \xff', b'\xc3', b'1 sch 0 0 \xed\xa0\x80', b'\xef\xbb\xbf1 sch 0 0 T']
SKIPPED = [b'', b' ', b'\t', b'#', b'# a comment', b'#1 sch 0 0 T', b'#room 0', b'# no text: \xff\xfe']


class Input:
    def __init__(self, chance):
        self.chance = chance
        self.records = chance.choice([0, 1, 2, 3, chance.randint(4, 30), chance.randint(31, 260), 199, 200, 201])
        # In most inputs no number is too great, since one alone has the whole sheet refused.
        self.great = 0.5 / (self.records + 1) if chance.random() < 0.2 else 0
        self.lines = []

    def likely(self, share):
        return self.chance.random() < share

    def near(self, limits):
        return max(0, self.chance.choice(limits) + self.chance.randint(-1, 2))

    # A number up to `most`, or any other.
    def number(self, most):
        if self.likely(self.great):
            return self.chance.choice([self.near(LIMITS), 10 ** self.chance.randint(5, 400)])
        if self.likely(0.5):
            return min(most, self.near([limit for limit in LIMITS if limit <= most]))
        return self.chance.randint(0, most)

    # In decimal digits, now and then with leading zeros.
    def digits(self, number):
        zeros = self.chance.choice([1, 1, 2, 2, 7, 7, 400, 5000]) if self.likely(0.03) else 0
        return '0' * zeros + str(number)

    def record(self):
        service = self.chance.choice(['sse', 'sch', 'sch'])
        counts = [self.digits(self.number(MOST_COUNT)) for _ in range(2)]
        return [self.digits(self.number(MOST_NUMBER)), service, *counts, self.chance.choice('TER')]

    # A length around what the sheet needs, or any other.
    def room(self):
        need = LINE * (self.records + 1)
        lengths = [need - LINE, need - 1, need, need, need, need + 1, need + LINE]
        others = [0, LINE - 1, LINE, LINE * 201, 2**32, 2**64, 10**40]
        return ['room', self.digits(self.chance.choice(lengths if self.likely(0.8) else others))]

    # The words of a line, with blanks between and around them.
    def add(self, words):
        between = ' ' if self.likely(0.9) else self.chance.choice(['\t', '  ', ' \t ', '\x0b', '\x85', '\u3000'])
        before, after = (self.chance.choice([' ', '\t', ' \t']) if self.likely(0.1) else '' for _ in range(2))
        self.lines.append((before + between.join(words) + after).encode())

    # A record with a word too few, a word too many, or a wrong word.
    def damaged(self):
        words = self.record()
        place = self.chance.randrange(len(words))
        kind = self.chance.randrange(3)
        if kind == 0:
            del words[place]
        elif kind == 1:
            words.insert(place, self.chance.choice([*DAMAGED_WORDS, words[place]]))
        else:
            words[place] = self.chance.choice([*DAMAGED_WORDS, words[place - 1]])
        return ' '.join(words).encode()

    def damage(self):
        line = self.chance.choice([self.damaged(), self.damaged(), self.chance.choice(DAMAGED_LINES), self.chance.choice(NO_TEXT)])
        self.lines.insert(self.chance.randint(0, len(self.lines)), line)

    def written(self):
        for _ in range(self.chance.choice([0, 1, 1, 2])):
            self.add(self.room())
        for _ in range(self.records):
            if self.likely(0.05):
                self.lines.append(self.chance.choice(SKIPPED))
            self.add(self.record())
        for _ in range(self.chance.choice([0] * 7 + [1, 1, 2])):
            self.damage()
        ends = self.chance.choice([[b'\n'], [b'\n'], [b'\r\n'], [b'\n', b'\r\n']])
        text = b''.join(line + self.chance.choice(ends) for line in self.lines)
        return text if self.likely(0.7) else text.removesuffix(b'\n')


# What is compared of standard error.
def place(text):
    return text.partition(b':')[0]


def kind(out, status):
    if status != 0:
        return 'unreadable'
    return out.decode().strip() if out.startswith(b'refused') else 'a sheet'


def main():
    count = int(sys.argv[1]) if len(sys.argv) > 1 else 1000
    seed = sys.argv[2] if len(sys.argv) > 2 else '1'
    kinds = collections.Counter()
    for number in range(count):
        data = Input(random.Random(f'{seed} {number}')).written()
        out, err, status = sheet_model.run(data)
        run = subprocess.run([PROGRAM], input=data, capture_output=True)
        if (run.stdout, place(run.stderr), run.returncode) != (out, place(err), status):
            print(f'input {number} of seed {seed} differs:\n{data}')
            print(f'wanted, status {status}:\n{out}\n{err}\nprinted, status {run.returncode}:\n{run.stdout}\n{run.stderr}')
            sys.exit(1)
        kinds[kind(out, status)] += 1
    told = ', '.join(f'{kinds[name]} {name}' for name in sorted(kinds))
    print(f'{count} inputs alike: {told}')


if __name__ == '__main__':
    main()
