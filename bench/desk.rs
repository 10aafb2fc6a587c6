//! The machine of a monitor by sections (`machine.rs`) behind a ticket lock whose waiting callers lend their seat: what
//! `desk.sh` measures beside `lock.rs`. It is a trial: nothing of it is proved. Built by `rustc -O --edition 2021 desk.rs`.
//!
//! `desk NAME THREADS ROUNDS CALLS MANNER..`, where NAME is `level` or `buffer`, opens the machine so many times with 32
//! clients of CALLS calls each, and has the threads make all sections. It prints a line for each round, as `lock.rs`. A
//! MANNER is a word `name=number`, as in `Manner`. With `check=1` each receipt is kept, and compared with the log.
//!
//! A caller draws a ticket. If it is served, the caller holds the machine. Else it posts a letter (who it is, whose section
//! it asks for) in the ticket's cell, looks once more which ticket is served, and waits until its letter is answered or its
//! ticket is served. The holder, after its own section, makes the sections of the tickets that follow, in their order, as
//! long as their letters are posted; then it serves the next ticket.

use std::cell::UnsafeCell;
use std::hint::spin_loop;
use std::process::ExitCode;
use std::sync::atomic::{AtomicU64, AtomicUsize, Ordering};
use std::sync::OnceLock;
use std::thread::Thread;
use std::time::{Duration, Instant};
use std::{env, thread};

include!("machine.rs");

/// How a desk goes about it.
#[derive(Clone, Copy)]
struct Manner {
    /// 0: nobody makes another's section. 1: the holder serves each ticket before it takes its letter. 2: the holder takes
    /// the letters that it finds, and only then serves the next ticket.
    lend: u64,
    /// How many sections of others a holder makes, and then goes on with those who sleep alone.
    limit: u64,
    /// How many pauses a holder waits for the letter of a ticket that is drawn, before it serves it.
    linger: u64,
    /// How many pauses a waiting caller makes before it rests.
    spin: u64,
    /// The same, where the call before had to wait too, and so many calls before, in a row, had replies.
    again: u64,
    glad: u64,
    /// How it rests. 0: it makes pauses on. 1: it yields. 2: it sleeps until its bell is rung. 3: it sleeps so many
    /// microseconds, and nobody rings for an answer.
    rest: u64,
    sleep: u64,
    /// After so many sections in a row that made no entry, whoever made the last rings one who sleeps, answered.
    ring: u64,
    /// How many cells there are: a power of two.
    cells: u64,
    /// With 1, the times of calls are told, in a line of its own.
    time: u64,
    /// With 1, each receipt is compared with the log.
    check: u64,
}

/// The manner that words change.
const PLAIN: Manner = Manner {
    lend: 2,
    limit: 64,
    linger: 0,
    spin: 200,
    again: 200,
    glad: 0,
    rest: 2,
    sleep: 50,
    ring: 0,
    cells: 64,
    time: 0,
    check: 0,
};

impl Manner {
    /// What a word changes.
    fn with(mut self, word: &str) -> Option<Manner> {
        let (name, number) = word.split_once('=')?;
        let place = match name {
            "lend" => &mut self.lend,
            "limit" => &mut self.limit,
            "linger" => &mut self.linger,
            "spin" => &mut self.spin,
            "again" => &mut self.again,
            "glad" => &mut self.glad,
            "rest" => &mut self.rest,
            "sleep" => &mut self.sleep,
            "ring" => &mut self.ring,
            "cells" => &mut self.cells,
            "time" => &mut self.time,
            "check" => &mut self.check,
            _ => return None,
        };
        *place = number.parse().ok()?;
        Some(self)
    }
}

/// Something on cache lines of its own.
#[repr(align(128))]
struct Padded<T>(T);

/// What a section gives back: the place of its entry, the ticket and the entry; or nothing, where the client was not ready.
#[derive(Clone, Copy)]
struct Receipt {
    place: usize,
    ticket: u64,
    entry: Entry,
}

type Answer = Option<Receipt>;

/// Whether a section replied to its call.
fn has_reply(answer: &Answer) -> bool {
    matches!(answer, Some(receipt) if matches!(receipt.entry.outcome, Outcome::Replies { .. }))
}

/// Where a cell stands: free, or a letter is asked (its caller awake or asleep), taken, or told. The word of a cell holds
/// this, the client, the caller's number and the ticket.
const FREE: u64 = 0;
const ASKED: u64 = 1;
const ASLEEP: u64 = 2;
const TAKEN: u64 = 3;
const TOLD: u64 = 4;

fn word_of(stage: u64, client: usize, caller: usize, ticket: u64) -> u64 {
    ticket << 16 | (caller as u64) << 10 | (client as u64) << 4 | stage
}

fn stage_of(word: u64) -> u64 {
    word & 15
}

fn client_of(word: u64) -> usize {
    (word >> 4 & 63) as usize
}

fn caller_of(word: u64) -> usize {
    (word >> 10 & 63) as usize
}

fn ticket_of(word: u64) -> u64 {
    word >> 16
}

fn at_stage(word: u64, stage: u64) -> u64 {
    word & !15 | stage
}

/// Whether a word is the letter of a ticket that is asked for.
fn asks(word: u64, ticket: u64) -> bool {
    matches!(stage_of(word), ASKED | ASLEEP) && ticket_of(word) == ticket
}

/// A letter and its answer.
struct Cell {
    word: AtomicU64,
    answer: UnsafeCell<Answer>,
}

/// What only the holder reads and writes.
struct Inner<M: Monitor> {
    machine: Machine<M>,
    /// The ticket of each entry.
    tickets: Vec<u64>,
    /// How many sections in a row made no entry.
    idle: u64,
    /// The letters that were answered while their callers slept.
    owed: VecDeque<u64>,
}

/// The lock: the next ticket, the one that is served, how long the log is, the letters, and the machine.
struct Desk<M: Monitor> {
    next: Padded<AtomicU64>,
    serving: Padded<AtomicU64>,
    count: Padded<AtomicUsize>,
    cells: Vec<Padded<Cell>>,
    callers: Vec<OnceLock<Thread>>,
    inner: Padded<UnsafeCell<Inner<M>>>,
    manner: Manner,
}

// Only the holder reaches `inner`, and an answer is written by who took the letter and read by its caller once it is told.
unsafe impl<M: Monitor> Sync for Desk<M> {}

/// A caller: its number, whether its last call had to wait, and how many calls in a row had replies.
struct Caller {
    number: usize,
    waited: bool,
    replies: u64,
}

/// How a wait ends.
enum Waited {
    Told(Answer),
    Served,
}

impl<M: Monitor> Desk<M> {
    fn open(monitor: M, calls: usize, threads: usize, manner: Manner) -> Desk<M> {
        let cell = || {
            Padded(Cell {
                word: AtomicU64::new(FREE),
                answer: UnsafeCell::new(None),
            })
        };
        Desk {
            next: Padded(AtomicU64::new(0)),
            serving: Padded(AtomicU64::new(0)),
            count: Padded(AtomicUsize::new(0)),
            cells: (0..manner.cells).map(|_| cell()).collect(),
            callers: (0..threads).map(|_| OnceLock::new()).collect(),
            inner: Padded(UnsafeCell::new(Inner {
                machine: Machine::open(monitor, calls),
                tickets: Vec::with_capacity(CLIENTS * CLIENTS * calls),
                idle: 0,
                owed: VecDeque::with_capacity(threads),
            })),
            manner,
        }
    }

    /// The cell of a ticket.
    fn cell(&self, ticket: u64) -> &Cell {
        &self.cells[ticket as usize & (self.cells.len() - 1)].0
    }

    /// Rings the bell of a caller.
    fn wake(&self, caller: usize) {
        self.callers[caller].get().unwrap().unpark();
    }

    /// A section, from no ticket to no ticket.
    #[inline(always)]
    fn section(&self, caller: &mut Caller, client: usize) -> Answer {
        let ticket = self.next.0.fetch_add(1, Ordering::SeqCst);
        if self.serving.0.load(Ordering::SeqCst) == ticket {
            caller.waited = false;
            return self.hold(client, ticket);
        }
        let answer = match self.wait(caller, client, ticket) {
            Waited::Told(answer) => answer,
            Waited::Served => self.hold(client, ticket),
        };
        caller.waited = true;
        answer
    }

    /// A section on the machine, by its holder.
    #[inline(always)]
    fn make(&self, client: usize, ticket: u64) -> Answer {
        let inner = unsafe { &mut *self.inner.0.get() };
        match inner.machine.section(client) {
            Ok(entry) => {
                let place = inner.tickets.len();
                inner.tickets.push(ticket);
                inner.idle = 0;
                self.count.0.store(place + 1, Ordering::Release);
                Some(Receipt {
                    place,
                    ticket,
                    entry,
                })
            }
            Err(_) => {
                inner.idle += 1;
                None
            }
        }
    }

    /// Answers the letter of a ticket.
    fn answer(&self, word: u64, ticket: u64) {
        let cell = self.cell(ticket);
        let answer = self.make(client_of(word), ticket);
        unsafe { *cell.answer.get() = answer };
        let told = at_stage(word, TOLD);
        if self.manner.rest == 2 {
            let before = cell.word.swap(told, Ordering::SeqCst);
            if stage_of(word) == ASLEEP || stage_of(before) == ASLEEP {
                self.wake(caller_of(word));
            }
        } else {
            cell.word.store(told, Ordering::Release);
            if self.manner.ring > 0 && stage_of(word) == ASLEEP {
                let owed = unsafe { &mut (*self.inner.0.get()).owed };
                if owed.len() == owed.capacity() {
                    owed.pop_front();
                }
                owed.push_back(told);
            }
        }
    }

    /// Rings one who sleeps and was answered, where nothing was done for some time.
    #[inline(always)]
    fn ring(&self) {
        let inner = unsafe { &mut *self.inner.0.get() };
        if self.manner.ring == 0 || inner.idle < self.manner.ring {
            return;
        }
        while let Some(word) = inner.owed.pop_front() {
            if self.cell(ticket_of(word)).word.load(Ordering::Relaxed) == word {
                self.wake(caller_of(word));
                inner.idle = 0;
                return;
            }
        }
    }

    /// The holder's part: its own section, then those of the letters that it finds; then it serves the next ticket.
    #[inline(always)]
    fn hold(&self, client: usize, ticket: u64) -> Answer {
        let manner = &self.manner;
        let mine = self.make(client, ticket);
        let mut now = ticket + 1;
        let mut made = 0;
        let mut lingered = 0;
        loop {
            while manner.lend == 2 {
                let word = self.cell(now).word.load(Ordering::Acquire);
                if asks(word, now) {
                    if made >= manner.limit && stage_of(word) != ASLEEP {
                        break;
                    }
                    self.answer(word, now);
                    now += 1;
                    made += 1;
                } else if lingered < manner.linger && self.next.0.load(Ordering::Relaxed) > now {
                    lingered += 1;
                    spin_loop();
                } else {
                    break;
                }
            }
            self.ring();
            self.serving.0.store(now, Ordering::SeqCst);
            let cell = self.cell(now);
            let word = cell.word.load(Ordering::SeqCst);
            if !asks(word, now) {
                return mine;
            }
            let lends = manner.lend > 0
                && (made < manner.limit || stage_of(word) == ASLEEP && manner.rest == 3);
            if !lends {
                if stage_of(word) == ASLEEP {
                    self.wake(caller_of(word));
                }
                return mine;
            }
            let taken = at_stage(word, TAKEN);
            if cell
                .word
                .compare_exchange(word, taken, Ordering::SeqCst, Ordering::SeqCst)
                .is_err()
            {
                // Its caller took it back, or falls asleep and looks once more.
                return mine;
            }
            self.answer(word, now);
            now += 1;
            made += 1;
        }
    }

    /// Posts a letter, and waits until it is answered or its ticket is served.
    #[inline(never)]
    fn wait(&self, caller: &Caller, client: usize, ticket: u64) -> Waited {
        let cell = self.cell(ticket);
        let asked = word_of(ASKED, client, caller.number, ticket);
        if cell
            .word
            .compare_exchange(FREE, asked, Ordering::SeqCst, Ordering::SeqCst)
            .is_err()
        {
            self.wait_without(ticket);
            return Waited::Served;
        }
        let spins = if caller.waited && caller.replies >= self.manner.glad {
            self.manner.again
        } else {
            self.manner.spin
        };
        let mut pauses = 0;
        loop {
            let word = cell.word.load(Ordering::Acquire);
            if stage_of(word) == TOLD {
                let answer = unsafe { *cell.answer.get() };
                cell.word.store(FREE, Ordering::Release);
                return Waited::Told(answer);
            }
            let serving = self.serving.0.load(Ordering::SeqCst);
            if serving == ticket
                && asks(word, ticket)
                && cell
                    .word
                    .compare_exchange(word, FREE, Ordering::SeqCst, Ordering::SeqCst)
                    .is_ok()
            {
                return Waited::Served;
            }
            if pauses < spins || self.manner.rest == 0 {
                let distance = if self.manner.lend == 0 {
                    (ticket - serving).clamp(1, 16)
                } else {
                    1
                };
                (0..distance).for_each(|_| spin_loop());
                pauses += distance;
            } else if self.manner.rest == 1 {
                thread::yield_now();
            } else {
                self.sleep(cell, ticket);
            }
        }
    }

    /// Sleeps, unless the ticket is served or the letter is no longer asked.
    fn sleep(&self, cell: &Cell, ticket: u64) {
        let word = cell.word.load(Ordering::Acquire);
        if !asks(word, ticket) {
            return spin_loop();
        }
        let asleep = at_stage(word, ASLEEP);
        if cell
            .word
            .compare_exchange(word, asleep, Ordering::SeqCst, Ordering::SeqCst)
            .is_err()
            || self.serving.0.load(Ordering::SeqCst) == ticket
        {
            return;
        }
        if self.manner.rest == 2 {
            thread::park();
        } else {
            thread::park_timeout(Duration::from_micros(self.manner.sleep));
        }
    }

    /// Waits until a ticket is served whose cell is taken.
    fn wait_without(&self, ticket: u64) {
        let mut pauses = 0;
        loop {
            let serving = self.serving.0.load(Ordering::SeqCst);
            if serving == ticket {
                return;
            }
            if pauses < 200 {
                let distance = (ticket - serving).min(16);
                (0..distance).for_each(|_| spin_loop());
                pauses += distance;
            } else {
                thread::yield_now();
            }
        }
    }
}

/// What a thread keeps, where it is asked to: its receipts and for whom it asked, and the nanoseconds of each call.
#[derive(Default)]
struct Kept {
    receipts: Vec<(usize, Receipt)>,
    times: Vec<u64>,
}

/// One thread's part: it tries its clients in turn until each has made all its calls.
fn work<M: Monitor>(desk: &Desk<M>, first: usize, threads: usize, calls: usize) -> Kept {
    desk.callers[first].set(thread::current()).unwrap();
    let mut caller = Caller {
        number: first,
        waited: false,
        replies: 0,
    };
    let mut kept = Kept::default();
    let mut left = CLIENTS / threads * calls;
    while left > 0 {
        for client in (first..CLIENTS).step_by(threads) {
            let start = (desk.manner.time > 0).then(Instant::now);
            let answer = desk.section(&mut caller, client);
            if let Some(start) = start {
                kept.times.push(start.elapsed().as_nanos() as u64);
            }
            if has_reply(&answer) {
                left -= 1;
                caller.replies += 1;
            } else {
                caller.replies = 0;
            }
            if let (Some(receipt), true) = (answer, desk.manner.check > 0) {
                kept.receipts.push((client, receipt));
            }
        }
    }
    kept
}

/// Whether the log is lawful as far as it shows: each client replied to each of its calls once, in order; all tickets are
/// drawn and served; and the entries stand in the order of their tickets.
fn check_log<M: Monitor>(desk: &mut Desk<M>, calls: usize) {
    let next = *desk.next.0.get_mut();
    assert_eq!(next, *desk.serving.0.get_mut(), "all tickets are served");
    let count = *desk.count.0.get_mut();
    let inner = desk.inner.0.get_mut();
    let log = &inner.machine.log;
    assert_eq!(log.len(), count, "all entries are counted");
    assert_eq!(log.len(), inner.tickets.len());
    assert!(
        inner.tickets.windows(2).all(|two| two[0] < two[1]),
        "in the order of tickets"
    );
    assert!(inner.tickets.last().is_none_or(|last| *last < next));
    let mut past = [0; CLIENTS];
    for entry in log {
        assert_eq!(
            entry.call,
            past[entry.client] + 1,
            "a client's calls in order"
        );
        if let Outcome::Replies { .. } = entry.outcome {
            past[entry.client] += 1;
        }
    }
    assert_eq!(past, [calls; CLIENTS], "each call has its reply");
}

/// Whether the receipts of all threads are the log, and each thread's are of the clients it asked for, in order.
fn check_receipts<M: Monitor>(desk: &mut Desk<M>, kept: &[Kept]) {
    let inner = desk.inner.0.get_mut();
    let log = &inner.machine.log;
    let mut seen = vec![false; log.len()];
    for Kept { receipts, .. } in kept {
        assert!(receipts
            .windows(2)
            .all(|two| two[0].1.place < two[1].1.place));
        for (client, receipt) in receipts {
            let entry = &log[receipt.place];
            assert_eq!(
                *client, receipt.entry.client,
                "a receipt is of who was asked for"
            );
            assert_eq!(
                format!("{entry:?}"),
                format!("{:?}", receipt.entry),
                "a receipt is its entry"
            );
            assert_eq!(
                inner.tickets[receipt.place], receipt.ticket,
                "a receipt has its ticket"
            );
            assert!(!seen[receipt.place], "an entry has one receipt");
            seen[receipt.place] = true;
        }
    }
    assert!(seen.iter().all(|one| *one), "each entry has a receipt");
}

/// Tells the median, the 99th of a hundred, the 999th of a thousand and the longest time of a call.
fn tell_times(kept: Vec<Kept>) {
    let mut times: Vec<u64> = kept.into_iter().flat_map(|kept| kept.times).collect();
    times.sort_unstable();
    let at = |thousandths: usize| times[(times.len() - 1) * thousandths / 1000];
    println!(
        "calls {} times {} {} {} {}",
        times.len(),
        at(500),
        at(990),
        at(999),
        at(1000)
    );
}

/// A round: how many sections were made, and in how many nanoseconds.
fn measure<M: Monitor>(monitor: M, threads: usize, calls: usize, manner: Manner) -> (usize, u128) {
    let mut desk = Desk::open(monitor, calls, threads, manner);
    let start = Instant::now();
    let shared = &desk;
    let kept: Vec<Kept> = thread::scope(|scope| {
        let threads: Vec<_> = (0..threads)
            .map(|first| scope.spawn(move || work(shared, first, threads, calls)))
            .collect();
        threads.into_iter().map(|one| one.join().unwrap()).collect()
    });
    let spent = start.elapsed().as_nanos();
    check_log(&mut desk, calls);
    if manner.check > 0 {
        check_receipts(&mut desk, &kept);
    }
    if manner.time > 0 {
        tell_times(kept);
    }
    (desk.inner.0.get_mut().machine.log.len(), spent)
}

/// Makes the rounds, and prints each.
fn measure_all<M: Monitor>(
    make: impl Fn() -> M,
    threads: usize,
    rounds: usize,
    calls: usize,
    manner: Manner,
) {
    for _ in 0..rounds {
        let (sections, nanoseconds) = measure(make(), threads, calls, manner);
        println!("sections {sections} nanoseconds {nanoseconds}");
    }
}

fn main() -> ExitCode {
    let words: Vec<String> = env::args().skip(1).collect();
    let [name, numbers @ ..] = words.as_slice() else {
        return usage();
    };
    let (numbers, manners) = numbers.split_at(numbers.len().min(3));
    let numbers: Option<Vec<usize>> = numbers.iter().map(|word| word.parse().ok()).collect();
    let manner = manners
        .iter()
        .try_fold(PLAIN, |manner, word| manner.with(word));
    let (Some(&[threads @ (1 | 2 | 4 | 8 | 16 | 32), rounds, calls]), Some(manner)) =
        (numbers.as_deref(), manner)
    else {
        return usage();
    };
    match name.as_str() {
        "level" => measure_all(|| Level { count: 0 }, threads, rounds, calls, manner),
        "buffer" => measure_all(|| Buffer { count: 0 }, threads, rounds, calls, manner),
        _ => return usage(),
    }
    ExitCode::SUCCESS
}

fn usage() -> ExitCode {
    eprintln!(
        "usage: desk level|buffer THREADS ROUNDS CALLS MANNER.., with 1, 2, 4, 8, 16 or 32 threads"
    );
    ExitCode::from(2)
}
