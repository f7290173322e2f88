#!/usr/bin/env python3
"""A model of the machine and of the run file, written from the pages in docs/; it shares no code with the crates.

    python3 tools/model.py < FILE

prints the listing of a run file, as kcrun_listing has to print it.

The form is another than that of the crates. A core's run is a generator that makes one access between two yields, so that the step rules
stand here as loops and calls, where the crates have places. And a mark is the creation itself that it names, told from others by being
the same object, where the crates have a core and a sequence number in the bits of a word.
"""

import struct
import sys
from collections import Counter
from enum import IntEnum
from typing import NamedTuple

MOST_BYTES = 65_536
MOST_WORDS = 256
MOST_CORES = 8
MOST_ENTRIES = 8
LAST_NUMBER = (1 << 47) - 1
LEAST_UNFIT_VALUE = 1 << 61

TRAILER = struct.Struct(">HHBBHI")
ENTRY = struct.Struct(">HQQ")
READ = struct.Struct(">BH")
LETTERS = "bsch"


# ---- Refusals ----


class Refusal(IntEnum):
    """The refusals that a file can bring about. 1, 2 and 4 it cannot, since a run opens once, on plain words; and it cannot take the
    2^47 numbers that 12 is about, since its first number has 4 bytes."""

    SETTING = 3
    NO_CORE = 5
    HALTED = 6
    BUSY = 7
    AT_REST = 8
    LIST = 9
    NO_WORD = 10
    NO_RIGHT = 11
    NO_ANSWER = 13


class Refused(Exception):
    """A call that is refused; nothing has changed."""

    def __init__(self, refusal):
        self.refusal = refusal


# ---- What a run file says ----


class Setting(NamedTuple):
    """The fields of the trailer after the first, in their order."""

    words: int
    cores: int
    rights: int = 0
    protected: int = 0
    first: int = 1

    def is_lawful(self):
        return (
            1 <= self.cores <= MOST_CORES
            and 1 <= self.first <= LAST_NUMBER
            and 1 <= self.words <= MOST_WORDS
            and self.protected <= self.words
            and self.rights >> self.cores == 0
        )


class Entry(NamedTuple):
    word: int
    expected: int
    new: int


class Read(NamedTuple):
    """The record of a read."""

    word: int

    def named(self):
        """The words that it names."""
        return (self.word,)

    def packed(self):
        return READ.pack(0, self.word)


class Kcas(NamedTuple):
    """The record of a k-CAS; its list may be unlawful."""

    entries: tuple[Entry, ...]

    def named(self):
        return tuple(entry.word for entry in self.entries)

    def is_lawful(self):
        words = self.named()
        return (
            1 <= len(words) <= MOST_ENTRIES
            and all(one < next_one for one, next_one in zip(words, words[1:]))
            and all(e.expected < LEAST_UNFIT_VALUE and e.new < LEAST_UNFIT_VALUE for e in self.entries)
        )

    def packed(self):
        return bytes([len(self.entries)]) + b"".join(ENTRY.pack(*entry) for entry in self.entries)


# ---- The machine ----


class Operation:
    """One creation of a core's operation descriptor; state None is undecided, 0 succeeded, i failed at entry i."""

    def __init__(self, core, entries):
        self.core = core
        self.entries = entries
        self.state = None

    def is_overtaken(self):
        return self.core.operation is not self


class Placing:
    """One creation of a core's placing descriptor."""

    def __init__(self, core, operation, word, expected):
        self.core = core
        self.operation = operation
        self.word = word
        self.expected = expected

    def is_overtaken(self):
        return self.core.placing is not self


class Core:
    """Busy while it has a run, finished while it has an answer, idle while it has neither."""

    def __init__(self, first):
        self.last = first - 1  # the last number that an operation took
        self.operation = None  # the newest creations
        self.placing = None
        self.run = None
        self.answer = None
        self.halted = False
        self.works_on = None  # the operation that its next step works on

    def is_busy(self):
        return self.run is not None

    def is_finished(self):
        return self.answer is not None

    def is_idle(self):
        return not self.is_busy() and not self.is_finished()

    def helps(self):
        """Whether its next step works on another core's operation."""
        return self.works_on is not None and self.works_on is not self.operation


class Machine:
    """An open machine. A word holds an int (a plain value), a Placing or an Operation.

    What `tally` counts has no bearing on the run: it tells what came up in it.
    """

    def __init__(self, setting):
        if not setting.is_lawful():
            raise Refused(Refusal.SETTING)
        self.setting = setting
        self.words = [0] * setting.words
        self.cores = [Core(setting.first) for _ in range(setting.cores)]
        self.tally = Counter()

    # The calls. Each answers a number or raises Refused.

    def live_core(self, k):
        if k >= len(self.cores):
            raise Refused(Refusal.NO_CORE)
        if self.cores[k].halted:
            raise Refused(Refusal.HALTED)
        return self.cores[k]

    def start(self, k, record):
        # A list is asked for its law where it is made, and so before the call's own refusals.
        if isinstance(record, Kcas) and not record.is_lawful():
            raise Refused(Refusal.LIST)
        core = self.live_core(k)
        if not core.is_idle():
            raise Refused(Refusal.BUSY)
        if any(word >= len(self.words) for word in record.named()):
            raise Refused(Refusal.NO_WORD)
        has_right = self.setting.rights >> k & 1
        if not has_right and any(word < self.setting.protected for word in record.named()):
            raise Refused(Refusal.NO_RIGHT)
        core.last += 1
        if isinstance(record, Kcas):
            core.operation = Operation(core, record.entries)
            core.run = self.change(core)
        else:
            core.operation = Operation(core, ())
            core.run = self.look(core, record.word)
        next(core.run)  # up to the first access, which the first step makes
        return core.last

    def step(self, k):
        core = self.live_core(k)
        if not core.is_busy():
            raise Refused(Refusal.AT_REST)
        if core.helps():
            self.tally["steps on another core's operation"] += 1
        try:
            next(core.run)
        except StopIteration as end:
            core.run = None
            core.answer = end.value
        return 1 if core.is_finished() else 0

    def collect(self, k):
        core = self.live_core(k)
        if not core.is_finished():
            raise Refused(Refusal.NO_ANSWER)
        answer, core.answer = core.answer, None
        return answer

    def halt(self, k):
        self.live_core(k).halted = True
        return 0

    def shown(self, word):
        seen = self.words[word]
        if isinstance(seen, Placing):
            return seen.expected
        if isinstance(seen, Operation):
            entry = next(entry for entry in seen.entries if entry.word == word)
            return entry.new if seen.state == 0 else entry.expected
        return seen

    # The runs, by the step rules. A yield stands before each access; what it returns at the end is the core's answer.

    def look(self, core, word):
        """A read of the word."""
        while True:
            yield
            seen = self.words[word]
            if isinstance(seen, Placing):
                yield from self.settle(seen, "Look")
            elif isinstance(seen, Operation):
                yield from self.work_through(core, seen)
            else:
                return seen

    def change(self, core):
        """The core's own k-CAS. After another operation it begins anew: it keeps no place to come back to."""
        mine = core.operation
        while True:
            last, outcome = yield from self.work_through(core, mine)
            if last is mine and outcome is not None:
                return outcome

    def work_through(self, core, operation):
        """Works on the operation, and then on the one that is met in its way, if there is one: the last of them and its outcome, which is
        None where it was overtaken."""
        while True:
            core.works_on = operation
            end = yield from self.work(core, operation)
            if not isinstance(end, Operation):
                core.works_on = None
                return operation, end
            operation = end

    def work(self, core, operation):
        """From Begin to the last Clear: the outcome, an operation that was met, or None where this one was overtaken."""
        yield
        if self.finds_overtaken(operation, "Begin"):
            return None
        if operation.state is None:
            outcome = yield from self.place_all(core, operation)
            if outcome is None or isinstance(outcome, Operation):
                return outcome
            yield
            if self.finds_overtaken(operation, "Decide"):
                return None
            if operation.state is None:
                operation.state = outcome
            else:
                self.tally["Decide found it decided"] += 1
        return (yield from self.clear(operation, operation.state))

    def place_all(self, core, operation):
        """From Fetch of entry 1 up to Decide: the outcome that is to be decided, or what `work` returns in its place."""
        for i, (word, expected, _) in enumerate(operation.entries, start=1):
            yield
            if self.finds_overtaken(operation, "Fetch"):
                return None
            met = yield from self.place(core, operation, word, expected)
            if isinstance(met, Operation):
                return met
            if met is not None:
                return i
        return 0

    def place(self, core, operation, word, expected):
        """From Make to Next: None to go on, another operation that was met, or the value that is not the expected one."""
        yield
        mine = core.placing = Placing(core, operation, word, expected)
        while True:
            yield
            seen = self.swap(word, expected, mine)
            if isinstance(seen, Placing):
                yield from self.settle(seen, "Try")
            elif isinstance(seen, Operation):
                return None if seen is operation else seen
            elif seen == expected:
                yield from self.settle(mine, "its own Try")
                return None
            else:
                return seen

    def clear(self, operation, outcome):
        """All of Clear. The outcome is the state as it was read before: it does not change any more."""
        for word, expected, new in operation.entries:
            yield
            if self.finds_overtaken(operation, "Clear"):
                return None
            yield
            seen = self.words[word]
            if isinstance(seen, Placing):
                yield from self.settle(seen, "Clear")
            yield
            self.swap(word, operation, new if outcome == 0 else expected)
        return outcome

    def settle(self, placing, rule):
        self.tally[f"Settle for {rule}"] += 1
        yield
        if self.finds_overtaken(placing, "Settle, of its placing"):
            return
        operation = placing.operation
        yield
        undecided = not self.finds_overtaken(operation, "Settle, of its operation") and operation.state is None
        yield
        self.swap(placing.word, placing, operation if undecided else placing.expected)

    def swap(self, word, old, new):
        """Stores the new one where the old one stands; answers what stood there. Marks are equal where they are the same object."""
        seen = self.words[word]
        if seen == old:
            self.words[word] = new
        return seen

    def finds_overtaken(self, creation, rule):
        overtaken = creation.is_overtaken()
        if overtaken:
            self.tally[f"overtaken at {rule}"] += 1
        return overtaken


# ---- The run file ----


class Fault(Exception):
    """A file that is no run file, with the place of its first fault."""

    def __init__(self, place):
        self.place = place


class Call(NamedTuple):
    letter: str
    core: int


class RunFile(NamedTuple):
    setting: Setting
    records: list
    calls: list[Call]

    def packed(self):
        """The bytes of the file."""
        records = b"".join(record.packed() for record in self.records)
        calls = b"".join(bytes([ord(letter), core]) for letter, core in self.calls)
        return records + calls + TRAILER.pack(len(records), *self.setting)


def read_file(data):
    """The run file of these bytes; faults are sought in the order that docs/runfile.md gives."""
    if len(data) < TRAILER.size:
        raise Fault(0)
    if len(data) > MOST_BYTES:
        raise Fault(MOST_BYTES)
    end = len(data) - TRAILER.size
    first_call, *fields = TRAILER.unpack_from(data, end)
    setting = Setting(*fields)
    if setting.words > MOST_WORDS or first_call > end:
        raise Fault(end)
    records = read_records(data[:first_call])
    return RunFile(setting, records, read_calls(data, first_call, end, len(records)))


def read_records(part):
    records = []
    at = 0
    while at < len(part):
        count = part[at]
        size = READ.size if count == 0 else 1 + ENTRY.size * count
        record = part[at : at + size]
        if count > MOST_ENTRIES or len(record) < size:
            raise Fault(at)
        if count == 0:
            records.append(Read(READ.unpack(record)[1]))
        else:
            records.append(Kcas(tuple(Entry(*fields) for fields in ENTRY.iter_unpack(record[1:]))))
        at += size
    return records


def read_calls(data, first_call, end, records):
    calls = []
    left = records
    for at in range(first_call, end, 2):
        letter = chr(data[at])
        if at + 1 == end or letter not in LETTERS or (letter == "b" and left == 0):
            raise Fault(at)
        if letter == "b":
            left -= 1
        calls.append(Call(letter, data[at + 1]))
    return calls


# ---- The listing ----


def answer(machine, call, record=None):
    """Makes the call, a start with the record, and says its answer as the listing has it."""
    letter, core = call
    try:
        if letter == "b":
            return str(machine.start(core, record))
        if letter == "s":
            return str(machine.step(core))
        if letter == "c":
            return str(machine.collect(core))
        return str(machine.halt(core))
    except Refused as refused:
        return f"r{refused.refusal:d}"


def run_lines(file, tally):
    """The lines of the run's listing."""
    try:
        machine = Machine(file.setting)
    except Refused as refused:
        yield f"o r{refused.refusal:d}"
        return
    yield "o 0"
    records = iter(file.records)
    for call in file.calls:
        record = next(records) if call.letter == "b" else None
        yield f"{call.letter} {call.core} {answer(machine, call, record)}"
    yield " ".join(["w", *(str(machine.shown(word)) for word in range(file.setting.words))])
    tally.update(machine.tally)


def listing(data, tally=None):
    """What kcrun_listing has to print for these bytes; what came up in the run is added to the tally."""
    try:
        lines = run_lines(read_file(data), Counter() if tally is None else tally)
    except Fault as fault:
        lines = [f"f {fault.place}"]
    return "".join(line + "\n" for line in lines)


if __name__ == "__main__":
    sys.stdout.write(listing(sys.stdin.buffer.read()))
