//! A plain Rust program that does the engine's work on chains of longin records, to measure the engine beside it
//! (bench/threads.sh). It has what the engine has, as one writes it without proofs: records in lock sets, each under a lock of its
//! own; one journal of all calls, in which a place is held before a call changes anything, so that no call is lost; and a history
//! of the last 64 calls of each set with the state before them.
//!
//! `plain CALLS THREADS RECORDS [post]`: each thread requests the first record of a chain of its own, CALLS times. A chain has RECORDS
//! records, which forward to each other. With `post`, each thread posts an event for which the first record of its chain waits, and
//! serves the request from the callback queues. Prints the calls of all threads in a millisecond.
//!
//! `plain TICKS THREADS RECORDS scan` does what `ioc` does on the database of bench/ioc.py: one thread walks the list of all records
//! TICKS times and requests each, while the others wait at the callback queues. There are 1,000 sets of RECORDS records; the first of a
//! set reads a device, and each other one the record before it.
//!
//! `rustc -O plain.rs` builds it.
use std::collections::{BTreeMap, VecDeque};
use std::hint::black_box;
use std::sync::atomic::{AtomicBool, AtomicUsize, Ordering};
use std::sync::{Arc, Condvar, Mutex, RwLock};
use std::time::{Instant, SystemTime, UNIX_EPOCH};

/// The number of places in the journal.
const PLACES: usize = 4_194_304;

/// The number of calls in the history of a set.
const HISTORY: usize = 64;

/// The number of sets that are scanned.
const SCANNED: usize = 1000;

/// The number of requests of an active record in a row after which it gets an alarm.
const MAX_LOCK: u8 = 10;

#[derive(Clone, Copy, PartialEq, Eq, PartialOrd, Ord)]
#[allow(dead_code)]
enum Severity {
    None,
    Minor,
    Major,
    Invalid,
}

#[derive(Clone, Copy, PartialEq, Eq)]
enum Status {
    None,
    HiHi,
    High,
    LoLo,
    Low,
    Scan,
    Disabled,
    Undefined,
}

#[derive(Clone, Copy, PartialEq, Eq)]
#[allow(dead_code)]
enum Scan {
    Passive,
    Periodic,
}

/// A link: its text, and the record and field that it leads to.
#[derive(Clone)]
#[allow(dead_code)]
struct Link {
    text: [u8; 120],
    lead: Option<(usize, u16)>,
}

/// A longin. Like the engine's it has fields that a request doesn't look at.
#[derive(Clone)]
#[allow(dead_code)]
struct Record {
    name: [u8; 61],
    description: [u8; 40],
    access_group: [u8; 40],
    device_type: [u8; 40],
    event: [u8; 40],
    scan: Scan,
    phase: i16,
    disable: Option<Box<Link>>,
    forward: Option<Box<Link>>,
    input: Option<Box<Link>>,
    reads_device: bool,
    disable_value: i16,
    disable_input: i16,
    disable_severity: Severity,
    is_undefined: bool,
    undefined_severity: Severity,
    status: Status,
    severity: Severity,
    new_status: Status,
    new_severity: Severity,
    lock_count: u8,
    is_active: bool,
    is_put: bool,
    is_to_reprocess: bool,
    time: u64,
    notification: Option<u64>,
    value: i32,
    last_alarmed: i32,
    hihi: i32,
    lolo: i32,
    high: i32,
    low: i32,
    hihi_severity: Severity,
    lolo_severity: Severity,
    high_severity: Severity,
    low_severity: Severity,
    hysteresis: i32,
}

/// What a request did.
#[derive(Clone, Copy, PartialEq, Eq)]
enum Outcome {
    Processed,
    Disabled,
    Active,
}

#[derive(Clone, Copy)]
#[allow(dead_code)]
enum Event {
    Process(usize),
    Put(usize, u16, [u8; 40]),
    Get(usize, u16),
    Post([u8; 40], usize),
}

#[derive(Clone, Copy)]
#[allow(dead_code)]
enum Reply {
    Plain,
    Outcome(Outcome),
    Shown([u8; 40]),
}

/// A call in the journal.
#[derive(Clone, Copy)]
#[allow(dead_code)]
struct Entry {
    moment: u64,
    desk: u64,
    call: u64,
    event: Event,
    reply: Reply,
    answers: [u64; 3],
}

/// The numbers of requests.
#[derive(Default, Clone, Copy)]
struct Tally {
    begun: u64,
    processed: u64,
    disabled: u64,
    active: u64,
}

impl Record {
    /// Returns a record that forwards to the record with this number, if one is given.
    fn new(number: usize, next: Option<usize>) -> Self {
        let mut name = [0; 61];
        let text = format!("r{number}");
        name[..text.len()].copy_from_slice(text.as_bytes());
        let link = |target| Box::new(Link { text: [0; 120], lead: Some((target, 0)) });
        Record {
            name,
            description: [0; 40],
            access_group: [0; 40],
            device_type: [0; 40],
            event: [0; 40],
            scan: Scan::Passive,
            phase: 0,
            disable: None,
            forward: next.map(link),
            input: None,
            reads_device: false,
            disable_value: 1,
            disable_input: 0,
            disable_severity: Severity::None,
            is_undefined: true,
            undefined_severity: Severity::Invalid,
            status: Status::Undefined,
            severity: Severity::Invalid,
            new_status: Status::None,
            new_severity: Severity::None,
            lock_count: 0,
            is_active: false,
            is_put: false,
            is_to_reprocess: false,
            time: 0,
            notification: None,
            value: 0,
            last_alarmed: 0,
            hihi: 0,
            lolo: 0,
            high: 0,
            low: 0,
            hihi_severity: Severity::None,
            lolo_severity: Severity::None,
            high_severity: Severity::None,
            low_severity: Severity::None,
            hysteresis: 0,
        }
    }

    /// Raises an alarm that is more severe than those raised before, and returns whether it is.
    fn raise(&mut self, status: Status, severity: Severity) -> bool {
        let is_higher = severity > self.new_severity;
        if is_higher {
            self.new_status = status;
            self.new_severity = severity;
        }
        is_higher
    }

    /// Takes over the alarm that was raised.
    fn settle(&mut self) {
        self.status = self.new_status;
        self.severity = self.new_severity;
        self.new_status = Status::None;
        self.new_severity = Severity::None;
    }

    /// Raises the alarm of the first limit that the value has reached.
    fn check_limits(&mut self) {
        let limits = [
            (Status::HiHi, self.hihi, self.hihi_severity),
            (Status::LoLo, self.lolo, self.lolo_severity),
            (Status::High, self.high, self.high_severity),
            (Status::Low, self.low, self.low_severity),
        ];
        let value = i64::from(self.value);
        let hysteresis = i64::from(self.hysteresis);
        for (status, limit, severity) in limits {
            if severity == Severity::None {
                continue;
            }
            let room = if self.last_alarmed == limit { hysteresis } else { 0 };
            let is_reached = match status {
                Status::HiHi | Status::High => value >= i64::from(limit) - room,
                _ => value <= i64::from(limit) + room,
            };
            if is_reached {
                if self.raise(status, severity) {
                    self.last_alarmed = limit;
                }
                return;
            }
        }
        self.last_alarmed = self.value;
    }

    fn is_disabled(&self) -> bool {
        self.disable_input == self.disable_value
    }

    /// Counts a request of an active record, and raises an alarm if there were many in a row.
    fn refuse(&mut self) -> Outcome {
        if self.status != Status::Scan {
            self.lock_count = self.lock_count.saturating_add(1);
            if self.lock_count > MAX_LOCK && self.severity != Severity::Invalid {
                self.raise(Status::Scan, Severity::Invalid);
                self.settle();
            }
        }
        Outcome::Active
    }

    /// Does what a request does after the links are read and before the forward link.
    fn begin(&mut self, moment: u64) -> Outcome {
        if self.is_active {
            return self.refuse();
        }
        self.lock_count = 0;
        if self.is_disabled() {
            self.is_to_reprocess = false;
            self.is_put = false;
            if self.status != Status::Disabled {
                self.raise(Status::Disabled, self.disable_severity);
                self.settle();
            }
            return Outcome::Disabled;
        }
        if self.is_undefined {
            self.raise(Status::Undefined, self.undefined_severity);
        } else {
            self.check_limits();
        }
        self.is_active = true;
        self.time = moment;
        self.settle();
        Outcome::Processed
    }

    /// Does what a request does after the forward link.
    fn finish(&mut self) {
        self.notification = None;
        self.is_to_reprocess = false;
        self.is_put = false;
        self.is_active = false;
    }

    /// Returns the record that the forward link leads to.
    fn next(&self) -> Option<usize> {
        let (number, _field) = self.forward.as_ref()?.lead?;
        Some(number)
    }

    /// Takes over the fields that requests change.
    fn follow(&mut self, other: &Record) {
        self.status = other.status;
        self.severity = other.severity;
        self.lock_count = other.lock_count;
        self.is_active = other.is_active;
        self.time = other.time;
        self.value = other.value;
        self.last_alarmed = other.last_alarmed;
    }
}

/// Records that links join, their device, and their history.
struct Set {
    /// The numbers of the records, in order.
    numbers: Vec<usize>,
    records: Vec<Record>,
    /// The records before the first call of the history.
    base: Vec<Record>,
    history: Vec<Entry>,
    tally: Tally,
    base_tally: Tally,
    /// The places of the records that wait for a record that they forward to.
    waiting: Vec<usize>,
    /// How often the device was read.
    reads: i32,
    /// What the device returned in the call, if it was read; no call of these programs reads it twice.
    answer: Option<i32>,
}

impl Set {
    fn new(first: usize, length: usize) -> Self {
        let numbers: Vec<usize> = (first..first + length).collect();
        let last = first + length - 1;
        let next = |number| (number < last).then_some(number + 1);
        let records: Vec<Record> = numbers.iter().map(|number| Record::new(*number, next(*number))).collect();
        Set {
            numbers,
            base: records.clone(),
            records,
            history: Vec::with_capacity(HISTORY),
            tally: Tally::default(),
            base_tally: Tally::default(),
            waiting: Vec::with_capacity(length),
            reads: 0,
            answer: None,
        }
    }

    /// Returns a set of scanned records: the first reads the device, and each other one the record before it.
    fn scanned(first: usize, length: usize) -> Self {
        let mut set = Set::new(first, length);
        for (place, record) in set.records.iter_mut().enumerate() {
            record.scan = Scan::Periodic;
            record.forward = None;
            record.reads_device = place == 0;
            let source = |number| Box::new(Link { text: [0; 120], lead: Some((number, 0)) });
            record.input = (first + place).checked_sub(1).filter(|_| place > 0).map(source);
        }
        set.base = set.records.clone();
        set
    }

    /// Returns the place of a record: that of evenly spread numbers, or else by binary search.
    fn place(&self, number: usize) -> Option<usize> {
        let guess = number.wrapping_sub(*self.numbers.first()?);
        if self.numbers.get(guess) == Some(&number) {
            return Some(guess);
        }
        self.numbers.binary_search(&number).ok()
    }

    fn count(&mut self, outcome: Outcome) {
        self.tally.begun += 1;
        match outcome {
            Outcome::Processed => self.tally.processed += 1,
            Outcome::Disabled => self.tally.disabled += 1,
            Outcome::Active => self.tally.active += 1,
        }
    }

    /// Returns the value of the record that a link leads to.
    fn read(&self, link: &Option<Box<Link>>) -> Option<i32> {
        let (number, _field) = link.as_ref()?.lead?;
        let place = self.place(number)?;
        Some(self.records[place].value)
    }

    /// Begins a request of the record at a place, and reads its links.
    fn begin(&mut self, place: usize, moment: u64) -> Outcome {
        if !self.records[place].is_active {
            if let Some(value) = self.read(&self.records[place].disable) {
                self.records[place].disable_input = value as i16;
            }
            if !self.records[place].is_disabled() {
                if let Some(value) = self.read(&self.records[place].input) {
                    self.records[place].value = value;
                    self.records[place].is_undefined = false;
                }
                if self.records[place].reads_device {
                    self.reads = self.reads.wrapping_add(1);
                    self.answer = Some(self.reads);
                    self.records[place].value = self.reads;
                    self.records[place].is_undefined = false;
                }
            }
        }
        let outcome = self.records[place].begin(moment);
        self.count(outcome);
        outcome
    }

    /// Requests the record at a place, and those that it forwards to.
    fn request(&mut self, first: usize, moment: u64) -> Outcome {
        let outcome = self.begin(first, moment);
        let mut place = first;
        let mut last = outcome;
        while last == Outcome::Processed {
            self.waiting.push(place);
            let Some(next) = self.records[place].next().and_then(|number| self.place(number)) else {
                break;
            };
            if self.records[next].scan != Scan::Passive {
                break;
            }
            last = self.begin(next, moment);
            place = next;
        }
        while let Some(place) = self.waiting.pop() {
            self.records[place].finish();
        }
        outcome
    }

    /// Adds a call to the history. A full history is forgotten first.
    fn keep(&mut self, entry: Entry) {
        if self.history.len() == HISTORY {
            for (base, record) in self.base.iter_mut().zip(&self.records) {
                base.follow(record);
            }
            self.base_tally = self.tally;
            self.history.clear();
        }
        self.history.push(entry);
    }
}

/// The calls of all threads, and the number of places that calls on their way hold.
struct Journal {
    entries: Vec<Entry>,
    held: usize,
}

impl Journal {
    /// Holds a place, with its memory, if there is one left.
    fn hold(&mut self) -> Option<()> {
        if self.entries.len() + self.held >= PLACES {
            return None;
        }
        self.held += 1;
        self.entries.try_reserve(self.held).ok()
    }

    /// Fills a place that is held, and returns its number.
    fn fill(&mut self, entry: Entry) -> usize {
        self.held -= 1;
        self.entries.push(entry);
        self.entries.len() - 1
    }
}

/// The number of requests that each queue holds.
const QUEUED: [usize; 4] = [2000, 2000, 2000, 1000];

/// What a posted event needs: the records that wait for each event, with the queue of their priority, the callback queues and the
/// once queue, and the tickets of the requests on them.
struct Scanning {
    lists: Mutex<BTreeMap<String, Vec<(usize, usize)>>>,
    queues: [Mutex<VecDeque<usize>>; 4],
    waiting: Mutex<usize>,
    wake: Condvar,
    begun: AtomicUsize,
    spent: AtomicUsize,
    dropped: AtomicUsize,
}

impl Scanning {
    fn new(chains: usize, length: usize) -> Self {
        let list = |chain: usize| (format!("e{chain}"), vec![(chain * length, 0)]);
        let queue = |room| Mutex::new(VecDeque::with_capacity(room));
        Scanning {
            lists: Mutex::new((0..chains).map(list).collect()),
            queues: QUEUED.map(queue),
            waiting: Mutex::new(0),
            wake: Condvar::new(),
            begun: AtomicUsize::new(0),
            spent: AtomicUsize::new(0),
            dropped: AtomicUsize::new(0),
        }
    }

    /// Puts a request at the end of its queue, and wakes a worker.
    fn push(&self, queue: usize, number: usize) {
        let mut requests = self.queues[queue].lock().unwrap();
        if requests.len() == QUEUED[queue] {
            self.dropped.fetch_add(1, Ordering::Relaxed);
            return;
        }
        requests.push_back(number);
        drop(requests);
        if *self.waiting.lock().unwrap() > 0 {
            self.wake.notify_one();
        }
    }

    /// Takes the first request of the first queue that has one.
    fn next(&self) -> Option<usize> {
        self.queues.iter().find_map(|queue| queue.lock().unwrap().pop_front())
    }
}

/// The journal lies apart from what other threads write.
#[repr(align(128))]
struct Apart<T>(T);

struct Engine {
    is_closed: AtomicBool,
    /// The records that are scanned.
    scanned: Mutex<Vec<usize>>,
    /// The number of the set of each record.
    homes: Vec<AtomicUsize>,
    sets: RwLock<Vec<Arc<Mutex<Set>>>>,
    journal: Apart<Mutex<Journal>>,
    scanning: Scanning,
}

/// A caller, with the number of its calls.
struct Desk {
    number: u64,
    calls: u64,
}

impl Engine {
    /// Returns an engine with this many sets of this length, each made of the number of its first record and its length.
    fn new(chains: usize, length: usize, make: impl Fn(usize, usize) -> Set) -> Self {
        let home = |number| AtomicUsize::new(number / length);
        let set = |chain| Arc::new(Mutex::new(make(chain * length, length)));
        Engine {
            is_closed: AtomicBool::new(false),
            scanned: Mutex::new((0..chains * length).collect()),
            homes: (0..chains * length).map(home).collect(),
            sets: RwLock::new((0..chains).map(set).collect()),
            journal: Apart(Mutex::new(Journal { entries: Vec::new(), held: 0 })),
            scanning: Scanning::new(chains, length),
        }
    }

    /// Does work on the set of a record and the record's place in it, under the lock of the set. If the record has moved to another
    /// set meanwhile, looks it up again.
    fn with_set<T>(&self, number: usize, work: impl FnOnce(&mut Set, usize) -> T) -> Option<T> {
        if self.is_closed.load(Ordering::Acquire) {
            return None;
        }
        let home = self.homes.get(number)?;
        loop {
            let set = {
                let sets = self.sets.read().unwrap();
                Arc::clone(sets.get(home.load(Ordering::Acquire))?)
            };
            let mut set = set.lock().unwrap();
            if let Some(place) = set.place(number) {
                return Some(work(&mut set, place));
            }
        }
    }

    /// Requests a record. Returns the reply and the place of the call in the journal, or `None` if there is no place left or no such
    /// record.
    fn process(&self, desk: &mut Desk, number: usize, moment: u64) -> Option<(Reply, usize)> {
        self.with_set(number, |set, place| {
            self.journal.0.lock().unwrap().hold()?;
            set.answer = None;
            let reply = Reply::Outcome(set.request(place, moment));
            let entry = Entry {
                moment,
                desk: desk.number,
                call: desk.calls,
                event: Event::Process(number),
                reply,
                answers: set.answer.map_or([0; 3], |value| [1, value as u64, 0]),
            };
            set.keep(entry);
            let filled = self.journal.0.lock().unwrap().fill(entry);
            desk.calls += 1;
            Some((reply, filled))
        })?
    }
}

impl Engine {
    /// Posts an event: adds the call to the journal, and queues a request of each record that waits for it. Returns their number.
    fn post(&self, desk: &mut Desk, walked: &mut Vec<(usize, usize)>, name: &str, moment: u64) -> Option<usize> {
        if self.is_closed.load(Ordering::Acquire) {
            return None;
        }
        walked.clear();
        walked.extend(self.scanning.lists.lock().unwrap().get(name).into_iter().flatten());
        self.journal.0.lock().unwrap().hold()?;
        let mut posted = [0; 40];
        posted[..name.len()].copy_from_slice(name.as_bytes());
        let entry = Entry {
            moment,
            desk: desk.number,
            call: desk.calls,
            event: Event::Post(posted, walked.len()),
            reply: Reply::Plain,
            answers: [0; 3],
        };
        self.journal.0.lock().unwrap().fill(entry);
        desk.calls += 1;
        self.scanning.begun.fetch_add(walked.len(), Ordering::Relaxed);
        for (number, queue) in walked.iter() {
            self.scanning.push(*queue, *number);
        }
        Some(walked.len())
    }

    /// Serves the first request that waits.
    fn serve_one(&self, desk: &mut Desk, moment: u64) -> bool {
        let Some(number) = self.scanning.next() else {
            return false;
        };
        self.scanning.spent.fetch_add(1, Ordering::Relaxed);
        self.process(desk, number, moment).is_some()
    }
}

impl Engine {
    /// Requests all scanned records.
    fn scan(&self, desk: &mut Desk, walked: &mut Vec<usize>) {
        walked.clear();
        walked.extend(self.scanned.lock().unwrap().iter());
        for number in walked.iter() {
            let moment = SystemTime::now().duration_since(UNIX_EPOCH).map_or(0, |time| time.as_nanos() as u64);
            assert!(self.process(desk, *number, moment).is_some(), "a request was refused");
        }
    }

    /// Forgets the entries of the journal if there is room for a quarter of them only.
    fn forget_entries(&self) {
        let mut journal = self.journal.0.lock().unwrap();
        if journal.entries.len() > PLACES / 4 * 3 {
            journal.entries.clear();
        }
    }

    /// Serves what waits, by one of several threads, until the engine is closed.
    fn serve(&self, desk: &mut Desk) {
        while !self.is_closed.load(Ordering::Acquire) {
            if !self.serve_one(desk, 0) {
                let mut waiting = self.scanning.waiting.lock().unwrap();
                *waiting += 1;
                let mut waiting = self.scanning.wake.wait_while(waiting, |_| !self.is_closed.load(Ordering::Acquire)).unwrap();
                *waiting -= 1;
            }
        }
    }

    /// Ends the threads that serve.
    fn close(&self) {
        let _waiting = self.scanning.waiting.lock().unwrap();
        self.is_closed.store(true, Ordering::Release);
        self.scanning.wake.notify_all();
    }
}

/// Scans all records so many times by one thread, while others wait at the queues.
fn scans(ticks: usize, workers: usize, length: usize) {
    let engine = Engine::new(SCANNED, length, Set::scanned);
    std::thread::scope(|scope| {
        for worker in 0..workers {
            let engine = &engine;
            scope.spawn(move || engine.serve(&mut Desk { number: worker as u64 + 1, calls: 0 }));
        }
        let (mut desk, mut walked) = (Desk { number: 0, calls: 0 }, Vec::new());
        for _ in 0..ticks {
            engine.scan(&mut desk, &mut walked);
            engine.forget_entries();
        }
        engine.close();
    });
}

/// Posts the events of one thread, and serves their requests.
fn posts(engine: &Engine, thread: usize, count: u64) {
    let mut desk = Desk { number: thread as u64, calls: 0 };
    let mut walked = Vec::new();
    let name = format!("e{thread}");
    for moment in 0..count {
        let posted = engine.post(&mut desk, &mut walked, black_box(&name), moment);
        assert!(black_box(posted).is_some(), "an event was refused");
        assert!(engine.serve_one(&mut desk, moment), "a request was refused");
    }
}

/// Makes the calls of one thread.
fn calls(engine: &Engine, thread: usize, count: u64, number: usize) {
    let mut desk = Desk { number: thread as u64, calls: 0 };
    for moment in 0..count {
        let answered = engine.process(&mut desk, black_box(number), moment);
        assert!(black_box(answered).is_some(), "a call was refused");
    }
}

fn main() {
    let words: Vec<String> = std::env::args().skip(1).collect();
    let is_post = words.get(3).is_some_and(|word| word == "post");
    let is_scan = words.get(3).is_some_and(|word| word == "scan");
    let words: Vec<usize> = words.iter().take(3).map(|word| word.parse().expect("a number")).collect();
    let [count, threads, length] = words[..] else {
        panic!("usage: plain CALLS THREADS RECORDS [post | scan]");
    };
    if is_scan {
        return scans(count, threads, length);
    }
    let engine = Engine::new(threads, length, Set::new);
    let begun = Instant::now();
    std::thread::scope(|scope| {
        for thread in 0..threads {
            let engine = &engine;
            if is_post {
                scope.spawn(move || posts(engine, thread, count as u64));
            } else {
                scope.spawn(move || calls(engine, thread, count as u64, thread * length));
            }
        }
    });
    let micros = begun.elapsed().as_micros().max(1);
    println!("{} calls a millisecond", (count * threads) as u128 * 1000 / micros);
}
