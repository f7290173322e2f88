//! The yardstick: the machine in plain Rust, with nothing proved. Reads one run file from standard input and prints its listing.
//! Written from the pages in `docs/`; it shares no code with the crates.

use std::io::{self, Read, Write};

const MOST_BYTES: usize = 65_536;
const TRAILER_BYTES: usize = 12;
const ENTRY_BYTES: usize = 18;
const MOST_ENTRIES: usize = 8;
const MOST_CORES: u8 = 8;
const MOST_WORDS: usize = 256;
const LAST_NUMBER: u64 = (1 << 47) - 1;
const LEAST_UNFIT_VALUE: u64 = 1 << 61;

// ---- Words ----

/// One creation of a descriptor, packed as in a raw word without its tag: the core from bit 2, the number from bit 16.
#[derive(Clone, Copy, PartialEq, Eq)]
struct Mark(u64);

impl Mark {
    const NONE: Mark = Mark(0);

    fn new(core: usize, number: u64) -> Mark {
        Mark(number << 16 | (core as u64) << 2)
    }

    fn core(self) -> usize {
        (self.0 >> 2 & 0x3fff) as usize
    }

    fn number(self) -> u64 {
        self.0 >> 16
    }
}

#[derive(Clone, Copy, PartialEq, Eq)]
enum Word {
    Plain(u64),
    Placing(Mark),
    Operation(Mark),
    Foreign(u64),
}

impl Word {
    fn read(raw: u64) -> Word {
        let mark = Mark(raw & !3);
        let fits = mark.core() < MOST_CORES as usize && mark.number() > 0;
        match raw & 3 {
            _ if raw >> 63 == 1 => Word::Foreign(raw),
            0 => Word::Plain(raw >> 2),
            1 if fits => Word::Placing(mark),
            2 if fits => Word::Operation(mark),
            _ => Word::Foreign(raw),
        }
    }

    fn raw(self) -> u64 {
        match self {
            Word::Plain(value) => value << 2,
            Word::Placing(mark) => mark.0 | 1,
            Word::Operation(mark) => mark.0 | 2,
            Word::Foreign(raw) => raw,
        }
    }
}

// ---- Descriptors ----

/// A descriptor that is used again and again; only the newest number reads it.
struct Descriptor<T> {
    last: u64,
    contents: T,
}

impl<T> Descriptor<T> {
    fn new(first: u64, contents: T) -> Self {
        Descriptor { last: first - 1, contents }
    }

    fn is_used_up(&self) -> bool {
        self.last >= LAST_NUMBER
    }

    fn create(&mut self, contents: T) -> u64 {
        self.last += 1;
        self.contents = contents;
        self.last
    }

    /// None where the number is overtaken.
    fn read(&self, number: u64) -> Option<&T> {
        (number == self.last).then_some(&self.contents)
    }

    fn change(&mut self, number: u64) -> Option<&mut T> {
        (number == self.last).then_some(&mut self.contents)
    }
}

#[derive(Clone, Copy)]
struct Entry {
    word: usize,
    expected: u64,
    new: u64,
}

impl Entry {
    const ZERO: Entry = Entry { word: 0, expected: 0, new: 0 };
}

/// The entries of a k-CAS; a read has none.
#[derive(Clone, Copy)]
struct Entries {
    items: [Entry; MOST_ENTRIES],
    count: usize,
}

impl Entries {
    const NONE: Entries = Entries { items: [Entry::ZERO; MOST_ENTRIES], count: 0 };

    fn as_slice(&self) -> &[Entry] {
        &self.items[..self.count]
    }

    fn is_lawful(&self) -> bool {
        let list = self.as_slice();
        list.iter().all(|e| e.expected < LEAST_UNFIT_VALUE && e.new < LEAST_UNFIT_VALUE)
            && list.windows(2).all(|pair| pair[0].word < pair[1].word)
    }
}

#[derive(Clone, Copy)]
enum Outcome {
    Succeeded,
    /// Failed at the entry of this index, counted from 0.
    FailedAt(usize),
}

struct Operation {
    entries: Entries,
    /// None while it is undecided.
    state: Option<Outcome>,
}

#[derive(Clone, Copy)]
struct Placing {
    operation: Mark,
    word: usize,
    expected: u64,
}

// ---- Cores ----

/// Work on one entry of an operation.
#[derive(Clone, Copy)]
struct Work {
    operation: Mark,
    index: usize,
    count: usize,
}

impl Work {
    fn first(operation: Mark, count: usize) -> Work {
        Work { operation, index: 0, count }
    }

    fn next(self) -> Option<Work> {
        let index = self.index + 1;
        (index < self.count).then_some(Work { index, ..self })
    }
}

/// Where a core goes on after a Settle.
#[derive(Clone, Copy)]
enum Then {
    Look(usize),
    Next(Work),
    Try(Work, Entry, Mark),
    Clear(Work, Outcome, Entry),
}

/// The rule that a core's next step follows.
#[derive(Clone, Copy)]
enum Place {
    Idle,
    Finished(u64),
    Look(usize),
    Begin(Mark),
    Fetch(Work),
    Make(Work, Entry),
    Try(Work, Entry, Mark),
    Decide(Work, Outcome),
    ClearRead(Work, Outcome),
    ClearLoad(Work, Outcome, Entry),
    ClearSwap(Work, Outcome, Entry),
    SettleRead(Mark, Then),
    SettleState(Mark, Placing, Then),
    SettleSwap(Mark, Placing, bool, Then),
}

impl Place {
    fn next_entry(work: Work) -> Place {
        match work.next() {
            Some(next) => Place::Fetch(next),
            None => Place::Decide(work, Outcome::Succeeded),
        }
    }

    fn resume(then: Then) -> Place {
        match then {
            Then::Look(word) => Place::Look(word),
            Then::Next(work) => Place::next_entry(work),
            Then::Try(work, entry, mark) => Place::Try(work, entry, mark),
            Then::Clear(work, outcome, entry) => Place::ClearSwap(work, outcome, entry),
        }
    }
}

/// A core's own operation.
#[derive(Clone, Copy)]
enum Own {
    Nothing,
    Read(usize),
    List(Mark),
}

impl Own {
    /// The first place of the operation.
    fn home(self) -> Place {
        match self {
            Own::Nothing => Place::Idle,
            Own::Read(word) => Place::Look(word),
            Own::List(mark) => Place::Begin(mark),
        }
    }
}

struct Core {
    place: Place,
    own: Own,
    halted: bool,
    operation: Descriptor<Operation>,
    placing: Descriptor<Placing>,
}

impl Core {
    fn new(first: u64) -> Core {
        Core {
            place: Place::Idle,
            own: Own::Nothing,
            halted: false,
            operation: Descriptor::new(first, Operation { entries: Entries::NONE, state: None }),
            placing: Descriptor::new(first, Placing { operation: Mark::NONE, word: 0, expected: 0 }),
        }
    }
}

// ---- The machine ----

#[derive(Clone, Copy)]
enum Refusal {
    Setting = 3,
    NoCore = 5,
    Halted = 6,
    Busy = 7,
    AtRest = 8,
    List = 9,
    NoWord = 10,
    NoRight = 11,
    UsedUp = 12,
    NoAnswer = 13,
}

type Answer = Result<u64, Refusal>;

struct Setting {
    words: usize,
    cores: u8,
    rights: u8,
    protected: usize,
    first: u64,
}

impl Setting {
    fn fits(&self) -> bool {
        (1..=MOST_CORES).contains(&self.cores)
            && (1..=LAST_NUMBER).contains(&self.first)
            && (1..=MOST_WORDS).contains(&self.words)
            && self.protected <= self.words
            && u32::from(self.rights) >> self.cores == 0
    }
}

struct Machine {
    words: Vec<u64>,
    cores: Vec<Core>,
    rights: u8,
    protected: usize,
}

// The calls.
impl Machine {
    fn open(setting: &Setting) -> Result<Machine, Refusal> {
        if !setting.fits() {
            return Err(Refusal::Setting);
        }
        Ok(Machine {
            words: vec![0; setting.words],
            cores: (0..setting.cores).map(|_| Core::new(setting.first)).collect(),
            rights: setting.rights,
            protected: setting.protected,
        })
    }

    /// The core of this number, unless there is none or it is halted.
    fn live_core(&self, k: usize) -> Result<&Core, Refusal> {
        match self.cores.get(k) {
            None => Err(Refusal::NoCore),
            Some(core) if core.halted => Err(Refusal::Halted),
            Some(core) => Ok(core),
        }
    }

    /// Whether core k may start an operation that names these words.
    fn may_start(&self, k: usize, mut words: impl Iterator<Item = usize> + Clone) -> Result<(), Refusal> {
        let core = self.live_core(k)?;
        if !matches!(core.place, Place::Idle) {
            return Err(Refusal::Busy);
        }
        if words.clone().any(|word| word >= self.words.len()) {
            return Err(Refusal::NoWord);
        }
        if self.rights >> k & 1 == 0 && words.any(|word| word < self.protected) {
            return Err(Refusal::NoRight);
        }
        if core.operation.is_used_up() {
            return Err(Refusal::UsedUp);
        }
        Ok(())
    }

    fn start_list(&mut self, k: usize, entries: &Entries) -> Answer {
        self.may_start(k, entries.as_slice().iter().map(|e| e.word))?;
        let core = &mut self.cores[k];
        let number = core.operation.create(Operation { entries: *entries, state: None });
        core.own = Own::List(Mark::new(k, number));
        core.place = core.own.home();
        Ok(number)
    }

    fn start_read(&mut self, k: usize, word: usize) -> Answer {
        self.may_start(k, std::iter::once(word))?;
        let core = &mut self.cores[k];
        let number = core.operation.create(Operation { entries: Entries::NONE, state: None });
        core.own = Own::Read(word);
        core.place = core.own.home();
        Ok(number)
    }

    fn collect(&mut self, k: usize) -> Answer {
        let Place::Finished(answer) = self.live_core(k)?.place else {
            return Err(Refusal::NoAnswer);
        };
        let core = &mut self.cores[k];
        core.place = Place::Idle;
        core.own = Own::Nothing;
        Ok(answer)
    }

    fn halt(&mut self, k: usize) -> Answer {
        self.live_core(k)?;
        self.cores[k].halted = true;
        Ok(0)
    }

    fn step(&mut self, k: usize) -> Answer {
        let core = self.live_core(k)?;
        match core.place {
            Place::Idle | Place::Finished(_) => return Err(Refusal::AtRest),
            Place::Make(..) if core.placing.is_used_up() => return Err(Refusal::UsedUp),
            _ => {}
        }
        let place = self.access(k);
        self.cores[k].place = place;
        Ok(matches!(place, Place::Finished(_)) as u64)
    }

    fn shown(&self, word: usize) -> u64 {
        match Word::read(self.words[word]) {
            Word::Plain(value) => value,
            Word::Placing(mark) => self.placing(mark).map_or(0, |p| p.expected),
            Word::Operation(mark) => {
                let Some(operation) = self.operation(mark) else { return 0 };
                let entry = operation.entries.as_slice().iter().find(|e| e.word == word);
                match operation.state {
                    Some(Outcome::Succeeded) => entry.map_or(0, |e| e.new),
                    _ => entry.map_or(0, |e| e.expected),
                }
            }
            Word::Foreign(_) => 0,
        }
    }

    /// Every word's shown value, after which the machine is gone.
    fn close(mut self) -> Vec<u64> {
        let shown: Vec<u64> = (0..self.words.len()).map(|i| self.shown(i)).collect();
        for (word, &value) in self.words.iter_mut().zip(&shown) {
            *word = Word::Plain(value).raw();
        }
        shown
    }
}

// The step rules.
impl Machine {
    fn operation(&self, mark: Mark) -> Option<&Operation> {
        self.cores[mark.core()].operation.read(mark.number())
    }

    fn placing(&self, mark: Mark) -> Option<&Placing> {
        self.cores[mark.core()].placing.read(mark.number())
    }

    fn entry(&self, work: Work) -> Option<Entry> {
        Some(self.operation(work.operation)?.entries.items[work.index])
    }

    fn load(&self, word: usize) -> Word {
        Word::read(self.words[word])
    }

    /// Stores the new word where the old one stands; answers what stood there.
    fn swap(&mut self, word: usize, old: Word, new: Word) -> Word {
        let seen = self.words[word];
        if seen == old.raw() {
            self.words[word] = new.raw();
        }
        Word::read(seen)
    }

    /// The one access of core k's step, and the place where that leads.
    fn access(&mut self, k: usize) -> Place {
        let core = &self.cores[k];
        let home = core.own.home();
        match core.place {
            Place::Idle | Place::Finished(_) => core.place,
            Place::Look(word) => self.look(word),
            Place::Begin(mark) => self.begin(mark).unwrap_or(home),
            Place::Fetch(work) => self.entry(work).map_or(home, |entry| Place::Make(work, entry)),
            Place::Make(work, entry) => self.make(k, work, entry),
            Place::Try(work, entry, mark) => self.attempt(work, entry, mark),
            Place::Decide(work, outcome) => self.decide(work, outcome).unwrap_or(home),
            Place::ClearRead(work, outcome) => self.entry(work).map_or(home, |entry| Place::ClearLoad(work, outcome, entry)),
            Place::ClearLoad(work, outcome, entry) => self.clear_load(work, outcome, entry),
            Place::ClearSwap(work, outcome, entry) => self.clear_swap(k, work, outcome, entry),
            Place::SettleRead(mark, then) => match self.placing(mark) {
                Some(&placing) => Place::SettleState(mark, placing, then),
                None => Place::resume(then),
            },
            Place::SettleState(mark, placing, then) => {
                let undecided = self.operation(placing.operation).is_some_and(|o| o.state.is_none());
                Place::SettleSwap(mark, placing, undecided, then)
            }
            Place::SettleSwap(mark, placing, undecided, then) => self.settle_swap(mark, placing, undecided, then),
        }
    }

    fn look(&self, word: usize) -> Place {
        match self.load(word) {
            Word::Plain(value) => Place::Finished(value),
            Word::Placing(mark) => Place::SettleRead(mark, Then::Look(word)),
            Word::Operation(mark) => Place::Begin(mark),
            Word::Foreign(_) => Place::Look(word),
        }
    }

    fn begin(&self, mark: Mark) -> Option<Place> {
        let operation = self.operation(mark)?;
        let work = Work::first(mark, operation.entries.count);
        Some(match operation.state {
            None => Place::Fetch(work),
            Some(outcome) => Place::ClearRead(work, outcome),
        })
    }

    fn make(&mut self, k: usize, work: Work, entry: Entry) -> Place {
        let contents = Placing { operation: work.operation, word: entry.word, expected: entry.expected };
        let number = self.cores[k].placing.create(contents);
        Place::Try(work, entry, Mark::new(k, number))
    }

    /// Try: the entry's word from the expected value to the core's own placing mark.
    fn attempt(&mut self, work: Work, entry: Entry, mark: Mark) -> Place {
        match self.swap(entry.word, Word::Plain(entry.expected), Word::Placing(mark)) {
            Word::Plain(value) if value == entry.expected => Place::SettleRead(mark, Then::Next(work)),
            Word::Plain(_) => Place::Decide(work, Outcome::FailedAt(work.index)),
            Word::Placing(other) => Place::SettleRead(other, Then::Try(work, entry, mark)),
            Word::Operation(seen) if seen == work.operation => Place::next_entry(work),
            Word::Operation(other) => Place::Begin(other),
            Word::Foreign(_) => Place::Try(work, entry, mark),
        }
    }

    /// The first decision stays.
    fn decide(&mut self, work: Work, outcome: Outcome) -> Option<Place> {
        let mark = work.operation;
        let operation = self.cores[mark.core()].operation.change(mark.number())?;
        let decided = *operation.state.get_or_insert(outcome);
        Some(Place::ClearRead(Work::first(mark, work.count), decided))
    }

    fn clear_load(&self, work: Work, outcome: Outcome, entry: Entry) -> Place {
        match self.load(entry.word) {
            Word::Placing(mark) => Place::SettleRead(mark, Then::Clear(work, outcome, entry)),
            _ => Place::ClearSwap(work, outcome, entry),
        }
    }

    fn clear_swap(&mut self, k: usize, work: Work, outcome: Outcome, entry: Entry) -> Place {
        let (value, answer) = match outcome {
            Outcome::Succeeded => (entry.new, 0),
            Outcome::FailedAt(index) => (entry.expected, index as u64 + 1),
        };
        self.swap(entry.word, Word::Operation(work.operation), Word::Plain(value));
        if let Some(next) = work.next() {
            return Place::ClearRead(next, outcome);
        }
        match self.cores[k].own {
            Own::List(mine) if mine == work.operation => Place::Finished(answer),
            own => own.home(),
        }
    }

    fn settle_swap(&mut self, mark: Mark, placing: Placing, undecided: bool, then: Then) -> Place {
        let new = if undecided { Word::Operation(placing.operation) } else { Word::Plain(placing.expected) };
        self.swap(placing.word, Word::Placing(mark), new);
        Place::resume(then)
    }
}

// ---- The run file ----

/// A record; a list is still as its bytes, since it may be unlawful.
enum Record<'a> {
    Read(usize),
    List(&'a [u8]),
}

#[derive(Clone, Copy)]
enum Letter {
    Start,
    Step,
    Collect,
    Halt,
}

#[derive(Clone, Copy)]
struct Call {
    letter: Letter,
    core: u8,
}

struct RunFile<'a> {
    setting: Setting,
    records: Vec<Record<'a>>,
    calls: Vec<Call>,
}

/// The place of a file's first fault.
struct Fault(usize);

/// A big-endian number.
fn number(bytes: &[u8]) -> u64 {
    bytes.iter().fold(0, |n, &byte| n << 8 | u64::from(byte))
}

impl<'a> RunFile<'a> {
    fn read(bytes: &'a [u8]) -> Result<RunFile<'a>, Fault> {
        if bytes.len() > MOST_BYTES {
            return Err(Fault(MOST_BYTES));
        }
        let end = bytes.len().checked_sub(TRAILER_BYTES).ok_or(Fault(0))?;
        let trailer = &bytes[end..];
        let first_call = number(&trailer[..2]) as usize;
        let setting = Setting {
            words: number(&trailer[2..4]) as usize,
            cores: trailer[4],
            rights: trailer[5],
            protected: number(&trailer[6..8]) as usize,
            first: number(&trailer[8..]),
        };
        if setting.words > MOST_WORDS || first_call > end {
            return Err(Fault(end));
        }
        let records = read_records(&bytes[..first_call])?;
        let calls = read_calls(&bytes[first_call..end], records.len()).map_err(|Fault(at)| Fault(first_call + at))?;
        Ok(RunFile { setting, records, calls })
    }
}

fn read_records(bytes: &[u8]) -> Result<Vec<Record<'_>>, Fault> {
    let mut records = Vec::new();
    let mut at = 0;
    while at < bytes.len() {
        let count = bytes[at] as usize;
        let start = at + 1;
        let end = start + if count == 0 { 2 } else { ENTRY_BYTES * count };
        if count > MOST_ENTRIES || end > bytes.len() {
            return Err(Fault(at));
        }
        let body = &bytes[start..end];
        records.push(if count == 0 { Record::Read(number(body) as usize) } else { Record::List(body) });
        at = end;
    }
    Ok(records)
}

fn read_calls(bytes: &[u8], records: usize) -> Result<Vec<Call>, Fault> {
    let mut calls = Vec::with_capacity(bytes.len() / 2);
    let mut left = records;
    for (i, pair) in bytes.chunks(2).enumerate() {
        let &[letter, core] = pair else { return Err(Fault(2 * i)) };
        let letter = match letter {
            b'b' if left > 0 => {
                left -= 1;
                Letter::Start
            }
            b's' => Letter::Step,
            b'c' => Letter::Collect,
            b'h' => Letter::Halt,
            _ => return Err(Fault(2 * i)),
        };
        calls.push(Call { letter, core });
    }
    Ok(calls)
}

/// The entries of a record of 1 to 8 entries.
fn entries_of(bytes: &[u8]) -> Entries {
    let mut entries = Entries::NONE;
    for (entry, part) in entries.items.iter_mut().zip(bytes.chunks_exact(ENTRY_BYTES)) {
        entry.word = number(&part[..2]) as usize;
        entry.expected = number(&part[2..10]);
        entry.new = number(&part[10..]);
        entries.count += 1;
    }
    entries
}

// ---- The listing ----

struct Listing {
    text: Vec<u8>,
}

impl Listing {
    fn number(&mut self, mut n: u64) {
        let mut digits = [0; 20];
        let mut at = digits.len();
        loop {
            at -= 1;
            digits[at] = b'0' + (n % 10) as u8;
            n /= 10;
            if n == 0 {
                break;
            }
        }
        self.text.extend_from_slice(&digits[at..]);
    }

    /// A space, then the number.
    fn field(&mut self, n: u64) {
        self.text.push(b' ');
        self.number(n);
    }

    /// A space, the answer, and the line's end.
    fn answer(&mut self, answer: Answer) {
        match answer {
            Ok(value) => self.field(value),
            Err(refusal) => {
                self.text.extend_from_slice(b" r");
                self.number(refusal as u64);
            }
        }
        self.text.push(b'\n');
    }
}

fn start(machine: &mut Machine, k: usize, record: &Record) -> Answer {
    match *record {
        Record::Read(word) => machine.start_read(k, word),
        Record::List(bytes) => {
            let entries = entries_of(bytes);
            if !entries.is_lawful() {
                return Err(Refusal::List);
            }
            machine.start_list(k, &entries)
        }
    }
}

fn run(file: &RunFile, listing: &mut Listing) {
    listing.text.push(b'o');
    let mut machine = match Machine::open(&file.setting) {
        Ok(machine) => machine,
        Err(refusal) => return listing.answer(Err(refusal)),
    };
    listing.answer(Ok(0));
    let mut records = file.records.iter();
    for call in &file.calls {
        let k = usize::from(call.core);
        let (letter, answer) = match call.letter {
            Letter::Start => (b'b', start(&mut machine, k, records.next().expect("a sound file has a record for each start"))),
            Letter::Step => (b's', machine.step(k)),
            Letter::Collect => (b'c', machine.collect(k)),
            Letter::Halt => (b'h', machine.halt(k)),
        };
        listing.text.push(letter);
        listing.field(u64::from(call.core));
        listing.answer(answer);
    }
    listing.text.push(b'w');
    for value in machine.close() {
        listing.field(value);
    }
    listing.text.push(b'\n');
}

fn main() -> io::Result<()> {
    let mut bytes = Vec::with_capacity(MOST_BYTES + 1);
    io::stdin().lock().take(MOST_BYTES as u64 + 1).read_to_end(&mut bytes)?;
    let mut listing = Listing { text: Vec::new() };
    match RunFile::read(&bytes) {
        Ok(file) => {
            listing.text.reserve(8 * file.calls.len());
            run(&file, &mut listing);
        }
        Err(Fault(place)) => {
            listing.text.push(b'f');
            listing.answer(Ok(place as u64));
        }
    }
    io::stdout().lock().write_all(&listing.text)
}
