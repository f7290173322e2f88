#!/usr/bin/env python3
"""Writes the largest sound run file, 65,536 bytes, to standard output; the same bytes every time.

Eight cores work on few words, so that most steps are help. A model of the machine (tools/model.py) follows along the way, so that nearly
every call is granted: an idle core is started, a finished one collected, a busy one stepped. Here and there a call is made that is refused.
"""

import random
import sys
from pathlib import Path

sys.path.append(str(Path(__file__).resolve().parent.parent / "tools"))
from model import MOST_BYTES, TRAILER, Call, Entry, Kcas, Machine, Read, RunFile, Setting

SETTING = Setting(words=256, cores=8)
NAMED = range(5, SETTING.words, 21)  # the twelve words that operations name
SEED = 20_170


class Maker:
    def __init__(self):
        self.random = random.Random(SEED)
        self.machine = Machine(SETTING)
        self.records = []
        self.calls = []
        self.room = MOST_BYTES - TRAILER.size  # the bytes that are left

    def call(self, letter, k):
        self.calls.append(Call(letter, k))
        self.room -= 2

    def read(self):
        return Read(self.random.choice(NAMED))

    def list(self):
        """Mostly expects what the words show, and changes a few of them, so that many an operation succeeds."""
        count = self.random.choice([4, 6, 8, 8])
        entries = []
        for word in sorted(self.random.sample(NAMED, count)):
            shown = self.machine.shown(word)
            expected = shown if self.random.random() < 0.99 else shown + 1
            new = expected if self.random.random() < 0.85 else self.random.randrange(1 << 40)
            entries.append(Entry(word, expected, new))
        return Kcas(tuple(entries))

    def start(self, k):
        """Starts the core where the file has room for the record and the call."""
        record = self.read() if self.random.random() < 0.4 else self.list()
        size = len(record.packed())
        if size + 2 > self.room:
            return False
        self.records.append(record)
        self.room -= size
        self.call("b", k)
        self.machine.start(k, record)
        return True

    def one_call(self):
        k = self.random.randrange(SETTING.cores)
        core = self.machine.cores[k]
        if core.is_busy():
            refused = self.random.random() < 0.01
            self.call("c" if refused else "s", k)
            if not refused:
                self.machine.step(k)
        elif core.is_finished():
            self.call("c", k)
            self.machine.collect(k)
        elif not self.start(k):
            self.call("s", k)

    def file(self):
        while self.room > 1:
            self.one_call()
        if self.room == 1:
            # a list has an odd number of bytes, as a read has: one read more, in place of a call
            self.calls.pop()
            self.records.append(Read(0))
        return RunFile(SETTING, self.records, self.calls).packed()


if __name__ == "__main__":
    sys.stdout.buffer.write(Maker().file())
