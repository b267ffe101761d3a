"""Plays random scripts by `console` and by its second implementation, and compares what the two print.

usage: python3 tools/compare_console.py [SCRIPTS [SEED]]      after `tools/run console`; 1000 scripts and seed 1 where none are given

Most scripts begin with an activation whose frames are passed on; then come calls of both peers, in and out of turn, frames that are
repeated, echoed, altered or made up, wrong buffers and seeds, and spent quotas. It prints the first script that differs, and ends
with status 1 then.
"""
import random
import subprocess
import sys

import console_model

PROGRAM = 'crates/console/out/console'
PIDS = {'bench': 'F0', 'keyed': 'F1'}


def dehex(data):
    return data.hex().upper() or '-'


class Script:
    def __init__(self, chance):
        self.chance = chance
        self.suite = chance.choice(['bench', 'keyed'])
        self.lines = [f'suite {self.suite}']
        for layer in chance.sample(['layer ledger', f'layer quota {chance.randint(0, 9)}'], chance.choice([0, 0, 1, 2])):
            self.lines.append(layer)
        root = chance.randbytes(16)
        for peer in 'AB':
            self.lines.append(f'root {peer} {dehex(root if chance.random() < 0.9 else chance.randbytes(16))}')
            if chance.random() < 0.05:
                self.lines.append(f'sec {peer} {chance.randint(0, 255):02X}')
        self.wrote = []

    def room(self):
        return 255 if self.chance.random() < 0.95 else self.chance.choice([0, 15, 16, 200, 254, 256, 4096])

    def seed(self):
        return dehex(self.chance.randbytes(16 if self.chance.random() < 0.96 else self.chance.choice([0, 15, 17])))

    def data(self):
        size = self.chance.choice([1, 2, 5, 16, 17, 32, 199, 200]) if self.chance.random() < 0.92 else self.chance.choice([0, 201, 250])
        return dehex(self.chance.randbytes(size))

    # the frame that was written last, an earlier one, one that is altered, or any bytes
    def frame(self):
        kind = self.chance.random()
        if kind < 0.75 or not self.wrote:
            return '<'
        if kind < 0.87:
            return dehex(self.chance.choice(self.wrote))
        if kind < 0.95:
            altered = bytearray(self.chance.choice(self.wrote))
            altered[self.chance.randrange(len(altered))] ^= 1 << self.chance.randrange(8)
            return dehex(bytes(altered) + self.chance.randbytes(self.chance.choice([0, 0, 0, 1])))
        return dehex(self.chance.randbytes(self.chance.choice([0, 1, 2, 9, 255, 256])))

    def invoke(self, peer):
        pid = PIDS[self.suite] if self.chance.random() < 0.95 else '77'
        return f'{peer} invoke {self.chance.choice(["sch", "sch", "sch", "sse"])} {pid} {self.seed()} {self.room()}'

    def hear(self, peer):
        return f'{peer} frame {self.frame()} {self.seed()} {self.room()}'

    def call(self, peer):
        makes = [
            (8, self.hear), (4, lambda p: f'{p} send {self.data()} {self.room()}'), (4, lambda p: f'{p} data {self.room()}'),
            (1, lambda p: f'{p} secret {self.room()}'), (1, self.invoke), (0.4, lambda p: f'{p} terminate {self.room()}'),
            (0.3, lambda p: f'{p} release'), (0.05, lambda p: f'{p} away'),
        ]
        weights, calls = zip(*makes)
        return self.chance.choices(calls, weights)[0](peer)

    # one more line, with what the second implementation says that it writes
    def add(self, line):
        self.lines.append(line)
        told = console_model.play('\n'.join(self.lines)).splitlines()[-1]
        word = told.partition('wrote ')[2].partition(',')[0]
        if word not in ('', '-') and line.split()[1] in ('invoke', 'send', 'terminate', 'frame'):
            self.wrote.append(bytes.fromhex(word))

    def written(self):
        one, other = self.chance.sample('AB', 2)
        for _ in range(self.chance.choice([1, 1, 2])):
            if self.chance.random() < 0.9:
                self.add(self.invoke(one))
                for peer in (other, one, other, one):
                    self.add(f'{peer} frame < {self.seed()} 255')
            for _ in range(self.chance.randint(0, 25)):
                self.add(self.call(self.chance.choice('AB')))
        return '\n'.join(self.lines) + '\n'


def main():
    count = int(sys.argv[1]) if len(sys.argv) > 1 else 1000
    seed = sys.argv[2] if len(sys.argv) > 2 else '1'
    lines = 0
    for number in range(count):
        script = Script(random.Random(f'{seed} {number}')).written()
        wanted = console_model.play(script)
        run = subprocess.run([PROGRAM], input=script, capture_output=True, text=True)
        if run.returncode != 0 or run.stdout != wanted:
            print(f'script {number} of seed {seed} differs (status {run.returncode}):\n{script}\nwanted:\n{wanted}\nprinted:\n{run.stdout}{run.stderr}')
            sys.exit(1)
        lines += wanted.count('\n')
    print(f'{count} scripts alike, {lines} lines')


if __name__ == '__main__':
    main()
