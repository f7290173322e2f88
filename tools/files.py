"""Makes run files, random and adversarial. `make(seed, index)` makes the same bytes every time.

Each kind of file has a function of its own, which says what it is after. It is given a source of chance and its turn: how many files of
its kind were made before, so that it can go through a range of cases one by one.
"""

from random import Random

from model import (
    ENTRY, LEAST_UNFIT_VALUE, LETTERS, MOST_BYTES, MOST_CORES, MOST_ENTRIES, MOST_WORDS, READ, TRAILER,
    Call, Entry, Kcas, Machine, Read, RunFile, Setting, answer,
)

GREATEST_VALUE = LEAST_UNFIT_VALUE - 1
GREATEST_FIRST = (1 << 32) - 1
STEPS_OF_A_HELPER = 50  # about as many as it makes until it is done, on few words
PATIENCE = 300  # more steps than a core makes alone until it is done


class Script:
    """A run file in the making. A machine follows its calls, so that a maker knows what the words show and where each core stands."""

    def __init__(self, random, setting):
        self.random = random
        self.setting = setting
        self.machine = Machine(setting)
        self.file = RunFile(setting, [], [])

    def packed(self):
        return self.file.packed()

    def cores(self):
        """All core numbers, in a random order."""
        return self.random.sample(range(self.setting.cores), self.setting.cores)

    def call(self, letter, k, record=None):
        call = Call(letter, k)
        self.file.calls.append(call)
        if letter == "b":
            self.file.records.append(record or self.some_record())
            record = self.file.records[-1]
        answer(self.machine, call, record)

    def steps(self, k, most):
        """Steps the core until it is no longer busy, but so many times at most."""
        for _ in range(most):
            if not self.machine.cores[k].is_busy():
                return
            self.call("s", k)

    def finish(self, k):
        """Lets the core alone go on to the end of its operation, and collects."""
        self.steps(k, PATIENCE)
        self.call("c", k)

    def advance(self, k):
        """The call that suits the core: a start, a step or a collect."""
        core = self.machine.cores[k]
        self.call("s" if core.is_busy() else "c" if core.is_finished() else "b", k)

    def some_list(self, most=MOST_ENTRIES):
        """A list that mostly matches. There are few values, so words often come back to one that they had."""
        words = self.setting.words
        count = self.random.randint(1, min(words, most))
        chosen = sorted(self.random.sample(range(words), count))
        return Kcas(tuple(Entry(word, self.some_expected(word), self.random.choice((0, 0, 1, 2))) for word in chosen))

    def some_expected(self, word):
        return self.machine.shown(word) if self.random.random() < 0.9 else self.random.randrange(3)

    def some_record(self):
        return Read(self.random.randrange(self.setting.words)) if self.random.random() < 0.3 else self.some_list()


def few_words(random, cores):
    """A setting in which the cores are in each other's way, with a first number at an edge or near one."""
    first = random.choice((1, 1, 2, GREATEST_FIRST - 1, GREATEST_FIRST))
    return Setting(words=random.choice((1, 2, 2, 3, 4)), cores=cores, first=first)


# ---- Kinds: runs in which cores help each other ----


def contended(random, turn):
    """Several cores on few words, in random order and in bursts of random length: every rule, in states that nobody thought of."""
    script = Script(random, few_words(random, random.randint(2, MOST_CORES)))
    burst = random.choice((1, 3, 12))
    for _ in range(random.choice((60, 150, 300)) // burst):
        k = random.randrange(script.setting.cores)
        for _ in range(random.randint(1, 2 * burst)):
            script.advance(k)
    return script.packed()


def use_again(script, cores):
    """Each core ends its operation and makes another, so that its descriptors are used again; it may stop halfway in a third one."""
    for k in cores:
        script.finish(k)
        script.call("b", k)
        script.finish(k)
        if script.random.random() < 0.5:
            script.call("b", k)
            script.steps(k, script.random.randrange(30))


def stalled(random, turn):
    """Helpers that stop at every point of their help, and go on when the descriptors that they know were used again several times.

    The first of them stops after each number of steps in turn, the others anywhere. What they know is then old: marks that are overtaken,
    operations that are decided or gone, words that were changed and changed back.
    """
    script = Script(random, few_words(random, random.randint(2, 6)))
    owner, *others = script.cores()
    victims = others[: random.randint(1, len(others))]
    script.call("b", owner, script.some_list())
    script.steps(owner, random.randrange(9 * script.setting.words + 2))
    for i, victim in enumerate(victims):
        script.call("b", victim)
        script.steps(victim, random.randrange(STEPS_OF_A_HELPER) if i else turn % STEPS_OF_A_HELPER)
    restless = [k for k in script.cores() if k not in victims]
    for _ in range(random.randint(1, 3)):
        use_again(script, restless)
    for _ in range(random.randint(1, 3)):
        for victim in random.sample(victims, len(victims)):
            script.steps(victim, random.choice((1, 2, 3, 10, PATIENCE)))
        use_again(script, restless[: random.randint(0, 2)])
    return script.packed()


def late(random, turn):
    """Helpers of an operation that fails, which stop at every point and go on when the words are again as the operation expects them.

    One core changes the last word, so that the operation fails there; the others meet the operation and help; then the word is changed
    back. A helper that comes late finds nothing amiss with the words: only the state, or the number, tells it that the time is past.
    """
    words = random.randint(2, 3)
    script = Script(random, Setting(words, cores=random.randint(4, 6), first=random.choice((1, GREATEST_FIRST))))
    owner, other, *helpers = script.cores()
    last = words - 1
    script.call("b", other, Kcas((Entry(last, 0, 1),)))
    script.finish(other)
    script.call("b", owner, Kcas(tuple(Entry(word, 0, 2) for word in range(words))))
    script.steps(owner, random.randint(7, 6 * words))
    for i, helper in enumerate(helpers):
        script.call("b", helper, random.choice((Read(0), None)))
        script.steps(helper, random.randrange(30) if i else turn % 30)
    script.steps(owner, random.choice((0, random.randrange(20), PATIENCE)))
    script.call("b", other, Kcas((Entry(last, 1, 0),)))
    script.finish(other)
    for k in random.sample(helpers, len(helpers)) + [owner]:
        script.steps(k, random.randrange(20))
    if random.random() < 0.7:
        use_again(script, [owner])
    for k in script.cores():
        script.steps(k, random.choice((1, 4, 10, PATIENCE)))
    return script.packed()


def opposed(random, turn):
    """Two cores that differ on whether an operation failed. The owner has seen another value and stands before its decision; then that
    value is set back, so the helper goes on. Their steps go through all pairs of numbers in turn, so that the one decides, or clears,
    between any two steps of the other. A third core looks soon after, before it is all gone."""
    script = Script(random, Setting(words=2, cores=4))
    owner, helper, other, reader = script.cores()
    script.call("b", other, Kcas((Entry(1, 0, 1),)))
    script.finish(other)
    script.call("b", owner, Kcas((Entry(0, 0, 2), Entry(1, 0, 2))))
    script.steps(owner, 10)  # up to Decide
    record, up_to_try = random.choice(((Read(0), 7), (Kcas((Entry(0, 0, 1),)), 10)))
    script.call("b", helper, record)
    script.steps(helper, up_to_try)
    script.call("b", other, Kcas((Entry(1, 1, 0),)))
    script.finish(other)
    script.steps(helper, turn % 8)
    script.steps(owner, turn // 8 % 8)
    script.steps(helper, random.randint(1, 3))
    script.call("b", reader, random.choice((Read(0), Read(1), script.some_list())))
    for _ in range(random.randint(5, 20)):
        script.steps(random.choice((reader, owner, helper)), random.choice((1, 1, 2, 5)))
    use_again(script, [k for k in script.cores() if random.random() < 0.5])
    return script.packed()


def refused_again(random, turn):
    """A busy core whose start is refused again and again while a helper stands halfway: a refused start may take no number and touch
    nothing, or the helper would find the operation overtaken."""
    script = Script(random, few_words(random, random.randint(2, 4)))
    owner, helper, *rest = script.cores()
    script.call("b", owner, script.some_list())
    script.steps(owner, random.randrange(9 * script.setting.words))
    script.call("b", helper)
    for _ in range(random.randint(2, 8)):
        script.steps(helper, random.choice((1, 2, 5)))
        for _ in range(random.randint(1, 3)):
            script.call("b", random.choice((owner, owner, helper)))
        if rest and random.random() < 0.3:
            script.advance(rest[0])
    for k in script.cores():
        script.finish(k)
        script.call("b", k)
        script.steps(k, random.randrange(PATIENCE))
    return script.packed()


def halted(random, turn):
    """Cores that are halted in the middle, after each number of steps in turn, and are called again in vain; the others end what they
    left half-done."""
    script = Script(random, few_words(random, random.randint(2, 5)))
    first, *others = script.cores()
    script.call("b", first, random.choice((script.some_list(), None)))
    script.steps(first, turn % STEPS_OF_A_HELPER)
    script.call("h", first)
    for _ in range(random.choice((50, 100, 200))):
        script.advance(random.choice(others))
        if random.random() < 0.02:
            script.call("h", random.choice(others))
        if random.random() < 0.05:
            script.call(random.choice(LETTERS), first)
    return script.packed()


# ---- Kinds: refusals ----


def careless(random, turn):
    """Calls that do not ask whether they suit, on cores that may not be there: the refusals and their order."""
    cores = random.randint(1, MOST_CORES)
    words = random.choice((1, 2, 3, 8))
    setting = Setting(words, cores, random.randrange(1 << cores), random.choice((0, 0, 1, words)), random.choice((1, 7)))
    script = Script(random, setting)
    letters = random.choice(("bsc", "bscs", "bsssscs"))
    for _ in range(random.choice((40, 120))):
        k = random.randrange(cores) if random.random() < 0.95 else random.choice((cores, 8, 255))
        letter = "h" if random.random() < 0.02 else random.choice(letters)
        if letter == "s":
            for _ in range(random.choice((1, 1, 2, 12))):
                script.call("s", k)
        else:
            script.call(letter, k, spoilt(random, script, turn) if random.random() < 0.2 else None)
    return script.packed()


def spoilt(random, script, turn):
    """A list that is unlawful, in each way in turn; every sixth time it is lawful, with the greatest value there is."""
    entries = list(script.some_list(most=MOST_ENTRIES - 1).entries)
    at = random.randrange(len(entries))
    too_great = random.choice((LEAST_UNFIT_VALUE, LEAST_UNFIT_VALUE << 1, LEAST_UNFIT_VALUE << 2, (1 << 64) - 1))
    way = turn % 6
    if way == 0:
        entries.insert(at, entries[at])
    elif way == 1:
        entries.append(Entry(random.randrange(entries[-1].word + 1), 0, 0))
    elif way == 2:
        entries[at] = entries[at]._replace(expected=too_great)
    elif way == 3:
        entries[at] = entries[at]._replace(new=too_great)
    elif way == 4:
        entries.insert(at, Entry(MOST_WORDS, 0, 0))
    else:
        entries[at] = entries[at]._replace(new=GREATEST_VALUE)
    return Kcas(tuple(entries))


def unlawful(random, turn):
    """Lists that are unlawful in each way, started on cores that are idle, busy, finished, halted or not there, with words that are
    not there or protected: 9 is tested before all else, and nothing is changed by it."""
    cores = random.randint(1, 3)
    words = random.randint(1, 8)
    script = Script(random, Setting(words, cores, protected=random.randint(0, 1)))
    for _ in range(random.randint(5, 12)):
        k = random.randrange(cores)
        script.call("b", random.choice((k, k, k, cores)), spoilt(random, script, turn))
        for _ in range(random.randrange(30)):
            script.advance(k)
        if random.random() < 0.05:
            script.call("h", k)
    return script.packed()


def protected(random, turn):
    """Protected words and rights, at the edges: the last protected word and the first free one, the last word and the first that is
    not there. A core without the right helps on protected words nonetheless."""
    cores = random.randint(1, 5)
    words = random.randint(1, 6)
    setting = Setting(words, cores, random.randrange(1 << cores), random.randint(0, words))
    script = Script(random, setting)
    for _ in range(random.choice((60, 150, 250))):
        k = random.randrange(cores)
        if script.machine.cores[k].is_idle():
            script.call("b", k, at_an_edge(random, script))
        else:
            script.advance(k)
    return script.packed()


def at_an_edge(random, script):
    """A read or a list that reaches over an edge, if chance will have it."""
    words = script.setting.words
    edge = random.choice((script.setting.protected, words))
    if random.random() < 0.3:
        return Read(random.choice((max(edge - 1, 0), edge, 0xFFFF)))
    record = script.some_list(most=3)
    if random.random() < 0.3:
        return Kcas((*record.entries, Entry(random.choice((words, words + 1, 0xFFFF)), 0, 1)))
    return record


def settings(random, turn):
    """Every refusal of a setting, and the lawful settings beside it, alone and together."""
    lawful = Setting(random.choice((1, 2, MOST_WORDS)), random.choice((1, 2, MOST_CORES)))
    words, cores = lawful.words, lawful.cores
    others = [
        {"cores": 0},
        {"cores": MOST_CORES + 1},
        {"cores": 255},
        {"words": 0},
        {"first": 0},
        {"first": random.choice((1, 1 << 31, GREATEST_FIRST))},
        {"protected": random.choice((words + 1, 0xFFFF))},
        {"protected": words},
        {"rights": 1 << random.randrange(8)},
        {"rights": 1 << cores & 0xFF},
        {"rights": (1 << cores) - 1},
        {"rights": 0xFF},
    ]
    setting = lawful._replace(**others[turn % len(others)])
    if random.random() < 0.3:
        setting = setting._replace(**random.choice(others))
    k = random.choice((0, cores - 1, setting.cores))
    calls = [Call("b", k)] + [Call("s", k)] * random.choice((1, 11)) + [Call("c", k), Call("h", k)]
    return RunFile(setting, [Kcas((Entry(0, 0, 1),))], calls).packed()


# ---- Kinds: sizes and bytes ----


def wide(random, turn):
    """Eight cores on 256 words, long lists, great values and numbers: what a table or a field that is too narrow would lose."""
    setting = Setting(MOST_WORDS, MOST_CORES, first=random.choice((1, (1 << 16) - 2, GREATEST_FIRST)))
    script = Script(random, setting)
    base = random.choice((0, 120, MOST_WORDS - 10))
    near = range(base, base + 10)
    values = (0, 1, 1 << 32, 1 << 60, GREATEST_VALUE)
    for _ in range(random.choice((100, 300, 600))):
        k = random.randrange(MOST_CORES)
        if script.machine.cores[k].is_idle():
            chosen = sorted(random.sample(near, random.randint(1, MOST_ENTRIES)))
            entries = tuple(Entry(word, script.machine.shown(word), random.choice(values)) for word in chosen)
            script.call("b", k, random.choice((Kcas(entries), Kcas(entries), Read(random.choice(near)))))
        else:
            script.advance(k)
    return script.packed()


def damaged(random, turn):
    """A good file with damage: bytes changed, cut off, put in or left out, trailer bits flipped."""
    kind = random.choice((contended, careless, protected, unlawful))
    data = bytearray(kind(random, turn))
    at = random.randrange(len(data))
    way = turn % 6
    if way == 0:
        for _ in range(random.randint(1, 3)):
            data[random.randrange(len(data))] = random.randrange(256)
    elif way == 1:
        del data[at:]
    elif way == 2:
        data[-random.randint(1, TRAILER.size)] ^= 1 << random.randrange(8)
    elif way == 3:
        data.insert(at, random.randrange(256))
    elif way == 4:
        del data[at]
    else:
        data += random.randbytes(random.randint(1, 4))
    return bytes(data)


def malformed(random, turn):
    """Each fault of the format in turn, or none; often with another one, since the first of them counts."""
    records = [random.choice((Read(0), Kcas((Entry(0, 0, 1), Entry(1, 0, 1))))).packed() for _ in range(random.randint(0, 3))]
    calls = [b"b\0"] * random.randint(0, len(records)) + [b"s\0", b"c\0", b"h\0"][: random.randint(0, 3)]
    shift, words = 0, 2
    for fault in sorted({turn % 8, random.randrange(16)}):
        if fault == 0:
            count = random.choice((9, 9, 10, 255))
            records.append(bytes([count]) + bytes(ENTRY.size * count))
        elif fault == 1:
            whole = Kcas((Entry(0, 0, 0),) * random.randint(1, MOST_ENTRIES)).packed()
            records.append(random.choice((whole[: random.randrange(1, len(whole))], bytes(READ.size - 1))))
        elif fault == 2:
            calls.insert(random.randint(0, len(calls)), random.choice((b"B\0", b"x\0", b"\0\0", b"\xff\0", b"a\0", b"t\0")))
        elif fault == 3:
            calls.append(random.choice((b"s", b"b", b"x")))
        elif fault == 4:
            calls += [b"b\0"] * (len(records) + 1)
        elif fault == 5:
            words = random.choice((MOST_WORDS + 1, 0xFFFF))
        elif fault == 6:
            shift = random.choice((-1, 1, 2, len(b"".join(calls)), len(b"".join(calls)) + 1))
    first_call = max(len(b"".join(records)) + shift, 0)
    return b"".join(records + calls) + TRAILER.pack(first_call, *Setting(words, cores=random.randint(0, 1)))


def lengths(random, turn):
    """Files of every length up to a little above the shortest; and files of the greatest length, one byte less, one more and many more,
    which are filled up with records that nobody starts."""
    case, short = divmod(turn, 2)
    if short:
        return bytes(random.choice((0, 0xFF)) for _ in range(case % (TRAILER.size + 3)))
    length = MOST_BYTES + (-1, 0, 1, 1)[case % 4]
    more = 5000 if case % 4 == 3 else 0
    room = length - TRAILER.size
    calls = next(count for count in range(2, 5) if (room - 2 * count) % READ.size == 0)
    records = Read(0).packed() * ((room - 2 * calls) // READ.size)
    trailer = TRAILER.pack(len(records), *Setting(words=1, cores=1))
    return records + b"b\0" + b"s\0" * (calls - 1) + trailer + bytes(more)


# ---- The mix ----

MIX = (
    contended, stalled, late, careless, refused_again, damaged, opposed, stalled, protected, halted, late, unlawful,
    contended, stalled, late, malformed, settings, opposed, wide, stalled, damaged, late, lengths, contended,
)


def make(seed, index):
    """The kind and the bytes of the file with this index."""
    rounds, slot = divmod(index, len(MIX))
    kind = MIX[slot]
    turn = rounds * MIX.count(kind) + MIX[:slot].count(kind)
    return kind.__name__, kind(Random(f"{seed}/{index}"), turn)
