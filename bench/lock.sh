#!/usr/bin/env bash
# Compares the running lock (SharedMonitor::section) with lock.rs, the same machine in plain Rust
# behind a std::sync::Mutex: sections a second from 1, 2, 4 and 16 threads, and the ratio (ours /
# mutex). `level`: no client waits. `buffer`: they wait for each other, and a thread also tries
# clients that are not ready. All runs of a row are interleaved. Then it prints how much later than
# its entry a call returns: the median, and what 99 of a hundred don't exceed.
#
# It copies the crates that it needs, with what was kept of their proofs, into a workspace of its
# own, and adds the program below; so it wants some gigabytes of temporary space, and takes minutes,
# or hours where nothing was kept.
#
#   bench/lock.sh             builds both programs, and measures
#   LOCK_BENCH=PROGRAM        take this program, an earlier out/lock_bench, and build none
#   KEEP=FOLDER               leave the program in this folder
#   ROUNDS=N                  so many rounds in place of eleven
set -euo pipefail
here=$(cd "$(dirname "$0")" && pwd)
root=$(dirname "$here")
rounds=${ROUNDS:-11}
work=$(mktemp -d)
trap 'rm -rf "$work"' EXIT

# How often a run opens the monitor anew.
openings=3

# The crates of the repository on which these stand, and these.
stands_on() {
  local ours known more
  ours=$(cut -d: -f1 "$root/crates.txt" | sort)
  more=$(printf '%s\n' "$@" | sort -u)
  while [ "$more" != "${known:-}" ]; do
    known=$more
    more=$(for name in $known; do
      echo "$name"
      sed -n "s/^$name://p" "$root/crates.txt" | tr ' ' '\n' | sort | comm -12 - <(echo "$ours")
    done | sort -u)
  done
  echo "$known"
}

# Writes the program that is measured.
write_program() {
  mkdir -p "$1/src" "$1/proofs/run" "$1/proofs/moments_of"
  cat >"$1/src/main.rt" <<'PROGRAM'
//! How many sections a second threads make on a monitor that they share.
//!
//! `lock_bench NAME THREADS ROUNDS`, where NAME is `level` or `buffer`: as `bench/lock.rs`.
//! `lock_bench NAME THREADS moments`: for each section when it was over, and when the log was seen to grow, as
//! `returned ENTRIES NANOSECONDS` and `grown ENTRIES NANOSECONDS` in the order in which each thread saw them.
#![tactic(auto)]

ghost use Rattle.std.specs.Prelude.{◌≡◌, ◌<◌, IfSome, length};
ghost use Rattle.std.specs.List.{All};
ghost use Rattle.machine_implicit.specs.Scripted.{FitsScripts};

use lang_base::Name;
use machine_events::Outcome;
use machine_explicit::FreeMonitor;
use machine_implicit::{Call, Client, Scripts, are_clients, scripts_fit};
use base_list::Seq;
use threads_lock::{Pass, SharedMonitor};
use lang_monitor::Monitor;
use plan_place::place;
use lang_syntax::parse_monitor;
use lang_tokens::tokens;
use lang_types::check;
use std::alloc::{AllocError, Global};
use std::sync::Wait;
use std::sync::atomic::{AtomicU64, Ordering};
use std::thread::Threads;
use std::time::{Clock, Instant};
use std::{env, io, thread};

const CLIENTS: u32 = 32;

const MOST_THREADS: u32 = 16;

const CALLS_A_CLIENT: u32 = 512;

/// For how many moments a thread takes room before it starts.
const MOST_MOMENTS: usize = 65_536;

/// A monitor and its clients.
#[derive(Clone, Copy)]
enum Workload {
    Level,
    Buffer,
}

const LEVEL: &[u8] = b"monitor Level {
  int count = 0;
  method reach(int n) waituntil (n <= count) {
  }
  method add() waituntil (true) {
    count = count + 1;
  }
}
";

const BUFFER: &[u8] = b"monitor Buffer {
  const CAP = 1;
  int count = 0;
  method put() waituntil (count < CAP) {
    count = count + 1;
  }
  method get() waituntil (count > 0) {
    count = count - 1;
  }
}
";

/// The monitor of a text.
fn monitor_of(alloc: Global, text: &[u8]) -> Option<Monitor> {
    if text.len() > 65_536 {
        return None;
    }
    match tokens(alloc, text) {
        Ok(read) => match parse_monitor(alloc, text, &read) {
            Ok(tree) => check(alloc, &tree).ok(),
            Err(_) => None,
        },
        Err(_) => None,
    }
}

/// A client that makes all its calls of one method, with no inputs.
fn client(alloc: Global, number: u32, method: u32) -> Result<Client, AllocError> {
    let tens = b'0' + (number / 10 % 10) as u8;
    let ones = b'0' + (number % 10) as u8;
    let mut calls = Vec::new(alloc);
    for _ in 0..CALLS_A_CLIENT {
        calls.push(Call {
            method,
            inputs: Seq::of(Vec::new(alloc)),
            tries: false,
        })?;
    }
    Ok(Client {
        name: Name::of(vec![in alloc; b'K', tens, ones]?),
        calls: Seq::of(calls),
    })
}

/// The clients of a monitor: of a level all add, and of a buffer half put and half get.
fn scripts_of(alloc: Global, workload: Workload, monitor: &Monitor) -> Option<Scripts>
    ensures { IfSome result (λ scripts. FitsScripts monitor.now scripts) }
{
    let mut clients = Vec::new(alloc);
    for number in 0..CLIENTS {
        let method = match workload {
            Workload::Level => 1,
            Workload::Buffer => number / (CLIENTS / 2),
        };
        let one = client(alloc, number, method).ok()?;
        clients.push(one).ok()?;
    }
    if !are_clients(&clients) || !scripts_fit(monitor, &clients) {
        return None;
    }
    Some(Scripts::of(clients))
}

/// A monitor at the start, with its clients, under the plan that it is compiled to.
fn opened(alloc: Global, workload: Workload) -> Option<FreeMonitor>
    ensures { IfSome result (λ free. 32 ≡ length free.system.clients) }
{
    let text = match workload {
        Workload::Level => LEVEL,
        Workload::Buffer => BUFFER,
    };
    let monitor = monitor_of(alloc, text)?;
    let scripts = scripts_of(alloc, workload, &monitor)?;
    if scripts.clients().len() != 32 {
        return None;
    }
    match place(alloc, &monitor) {
        Ok(placed) => match FreeMonitor::open(alloc, monitor, placed.plan, scripts, 0) {
            Ok(free) => Some(free),
            Err(AllocError) => None,
        },
        Err(AllocError) => None,
    }
}

/// The log had so many entries by then, in nanoseconds from the start.
#[derive(Clone, Copy)]
struct Moment {
    entries: u64,
    nanoseconds: u128,
}

/// Writes down moments, from a start on.
#[derive(Drop)]
struct Notes {
    start: Instant,
    moments: Vec<Moment>,
}

impl Notes {
    /// The log has so many entries now. Where memory runs out nothing is written down.
    fn note<R: Clock>(&mut self, rt: &R, entries: u64) {
        if let Ok(spent) = self.start.elapsed(rt) {
            let moment = Moment {
                entries,
                nanoseconds: spent.as_nanos(),
            };
            if self.moments.push(moment).is_err() {}
        }
    }
}

/// A thread's pass of a monitor, how many sections it made, and its notes, if it makes any.
#[derive(Drop)]
struct Worker<'a> {
    shared: &'a SharedMonitor,
    pass: Pass,
    sections: u64,
    notes: Option<Notes>,
    ghost own: { pass.lock ≡ shared.now.lock },
    ghost clients: { 32 ≡ length pass.known.front.system.clients },
}

impl<'a> Worker<'a> {
    /// A worker that has made no section.
    fn of(shared: &'a SharedMonitor, pass: Pass, notes: Option<Notes>) -> Worker<'a>
        requires own { pass.lock ≡ shared.now.lock }
        requires clients { 32 ≡ length pass.known.front.system.clients }
    {
        Worker {
            shared,
            pass,
            sections: 0,
            notes,
        }
    }

    /// A section of a client, and how many calls replied: one or none.
    fn section<R: Wait + Clock>(&mut self, rt: &R, client: u32) -> u32
        requires { client < 32 }
    {
        match self.shared.section(rt, &mut self.pass, client) {
            Ok(receipt) => {
                self.sections = self.sections.saturating_add(1);
                if let Some(notes) = &mut self.notes {
                    notes.note(rt, receipt.place.saturating_add(1));
                }
                u32::from(matches!(receipt.entry.outcome, Outcome::Replies { .. }))
            }
            Err(_) => 0,
        }
    }

    /// Tries the clients of this thread in turn until each has made all its calls.
    fn work<R: Wait + Clock>(&mut self, rt: &R, first: u32, threads: u32)
        requires { 0 < threads }
    {
        let mut left = CLIENTS / threads * CALLS_A_CLIENT;
        let mut client = first;
        for _ in rt.forever() {
            if left == 0 {
                return;
            }
            left = left.saturating_sub(self.section(rt, client % CLIENTS));
            client = client_after(client, first, threads);
        }
    }

    /// Notes each time that the log is seen to have grown, until nobody works.
    fn watch<R: Wait + Clock>(&mut self, rt: &R, working: &AtomicU64) {
        let mut last = 0;
        for _ in rt.forever() {
            let entries = self.shared.observe(&mut self.pass);
            if let Some(notes) = &mut self.notes {
                if entries > last {
                    notes.note(rt, entries);
                    last = entries;
                }
            }
            if working.load(Ordering::SeqCst) == 0 {
                return;
            }
        }
    }
}

/// The next client of a thread: the clients of each thread are so many apart, and begin with its first.
fn client_after(client: u32, first: u32, threads: u32) -> u32 {
    let next = client.saturating_add(threads);
    if next < CLIENTS { next } else { first }
}

/// A worker for each pass.
fn hire<'a>(
    alloc: Global,
    shared: &'a SharedMonitor,
    passes: Vec<Pass>,
    start: Option<Instant>,
    workers: &mut Vec<Worker<'a>>,
) -> Result<(), AllocError>
    requires own { All (λ pass. pass.lock ≡ shared.now.lock) passes.items }
    requires clients { All (λ pass. 32 ≡ length pass.known.front.system.clients) passes.items }
{
    for pass in passes {
        let notes = match start {
            Some(start) => Some(Notes {
                start,
                moments: Vec::with_capacity(alloc, MOST_MOMENTS)?,
            }),
            None => None,
        };
        workers.push(Worker::of(shared, pass, notes))?;
    }
    Ok(())
}

/// How many sections threads made, and in how many nanoseconds.
fn run<R: Threads + Wait + Sync + Clock>(
    rt: &R,
    alloc: Global,
    free: FreeMonitor,
    threads: u32,
) -> io::Result<(u64, u128)>
    requires clients { 32 ≡ length free.system.clients }
    requires threads { 0 < threads }
{
    let (shared, passes) = SharedMonitor::open(alloc, free, threads)?;
    let mut workers = Vec::new(alloc);
    hire(alloc, &shared, passes, None, &mut workers)?;
    let start = Instant::now(rt)?;
    thread::for_each_mut(
        rt,
        workers.as_mut_slice(),
        threads as usize,
        &|number, worker| worker.work(rt, (number % 32) as u32, threads),
    );
    let spent = start.elapsed(rt)?;
    let mut sections: u64 = 0;
    for worker in &workers {
        sections = sections.saturating_add(worker.sections);
    }
    Ok((sections, spent.as_nanos()))
}

/// Has threads make sections while one more looks how long the log is: what each noted, that one last.
fn moments_of<R: Threads + Wait + Sync + Clock>(
    rt: &R,
    alloc: Global,
    free: FreeMonitor,
    threads: u32,
) -> io::Result<Vec<Vec<Moment>>>
    requires clients { 32 ≡ length free.system.clients }
    requires threads { (0 < threads) × (threads < 32) }
{
    let (shared, passes) = SharedMonitor::open(alloc, free, threads + 1)?;
    let mut workers = Vec::new(alloc);
    let start = Instant::now(rt)?;
    hire(alloc, &shared, passes, Some(start), &mut workers)?;
    let working = AtomicU64::new(u64::from(threads));
    thread::for_each_mut(
        rt,
        workers.as_mut_slice(),
        threads as usize + 1,
        &|number, worker| {
            if number >= threads as usize {
                worker.watch(rt, &working);
            } else {
                worker.work(rt, (number % 32) as u32, threads);
                working.fetch_sub(1, Ordering::SeqCst);
            }
        },
    );
    let mut all = Vec::new(alloc);
    for worker in workers {
        let Worker {
            shared: _,
            pass: _,
            sections: _,
            notes,
        } = worker;
        if let Some(Notes { start: _, moments }) = notes {
            all.push(moments)?;
        }
    }
    Ok(all)
}

/// What is measured: the time of all sections, in so many rounds, or each section's moments.
#[derive(Clone, Copy)]
enum Measure {
    Rounds(u32),
    Moments,
}

/// What the words ask for: a workload, so many threads, and what is measured.
fn asked(words: &[String]) -> Option<(Workload, u32, Measure)>
    ensures { IfSome result (λ asked. (0 < asked.1) × (asked.1 < 32)) }
{
    let workload = match words.get(1)?.as_str() {
        "level" => Workload::Level,
        "buffer" => Workload::Buffer,
        _ => return None,
    };
    let threads = words.get(2)?.parse::<u32>().ok()?;
    let word = words.get(3)?;
    let measure = if word.as_str() == "moments" {
        Measure::Moments
    } else {
        Measure::Rounds(word.parse::<u32>().ok()?)
    };
    // Each thread has as many clients as the others.
    if threads == 0 || threads > MOST_THREADS || CLIENTS % threads != 0 {
        return None;
    }
    Some((workload, threads, measure))
}

/// Prints how long the sections took, in each of so many rounds.
fn print_rounds<R: Threads + Wait + Sync + Clock + Print>(
    rt: &R,
    alloc: Global,
    workload: Workload,
    threads: u32,
    rounds: u32,
) -> io::Result<()>
    requires threads { 0 < threads }
{
    for _ in 0..rounds {
        let Some(free) = opened(alloc, workload) else {
            return println!(rt; "no monitor");
        };
        let (sections, nanoseconds) = run(rt, alloc, free, threads)?;
        println!(rt; "sections {sections} nanoseconds {nanoseconds}")?;
    }
    Ok(())
}

/// Prints each section's moments.
fn print_moments<R: Threads + Wait + Sync + Clock + Print>(
    rt: &R,
    alloc: Global,
    workload: Workload,
    threads: u32,
) -> io::Result<()>
    requires threads { (0 < threads) × (threads < 32) }
{
    let Some(free) = opened(alloc, workload) else {
        return println!(rt; "no monitor");
    };
    let all = moments_of(rt, alloc, free, threads)?;
    for (number, list) in all.iter().enumerate() {
        let kind = if number >= threads as usize {
            "grown"
        } else {
            "returned"
        };
        print_list(rt, kind, list)?;
    }
    Ok(())
}

/// Prints moments of a kind.
fn print_list<R: Print>(rt: &R, kind: &str, list: &[Moment]) -> io::Result<()> {
    for moment in list {
        println!(rt; "{kind} {} {}", moment.entries, moment.nanoseconds)?;
    }
    Ok(())
}

fn main(rt: HostRuntime) -> io::Result<()> {
    let words: Vec<String> = env::args(&rt)?.collect(rt.alloc())?;
    let Some((workload, threads, measure)) = asked(&words) else {
        return println!(rt; "usage: lock_bench level|buffer THREADS ROUNDS|moments");
    };
    match measure {
        Measure::Rounds(rounds) => print_rounds(&rt, rt.alloc(), workload, threads, rounds),
        Measure::Moments => print_moments(&rt, rt.alloc(), workload, threads),
    }
}
PROGRAM
  for name in run moments_of; do
    write_answers "$name" >"$1/proofs/$name/Answers.antt"
  done
}

# The answers of a function that has threads work: passes may go from one thread to another.
write_answers() {
  cat <<ANSWERS
use denote.Param.Send.{sendable}
use Rattle.std.proofs.Crossing.{crosses}
use Rattle.threads_lock.proofs.Crossing.{pass_send, shared_sync}
use Rattle.lock_bench.proofs.$1.Goals as goal

pub for_each_mut-requires-send-T : goal.for_each_mut-requires-send-T
for_each_mut-requires-send-T g c κs within =
    let a = pass_send in
    let b = shared_sync in
    search (crosses, sendable) depth 60 fits 20000
ANSWERS
}

# Builds the program in a workspace of its own.
build_program() {
  local space=$work/space needed
  needed=$(stands_on threads_lock plan_place lang_types)
  mkdir -p "$space/crates"
  cp "$root/HANDLES" "$space"
  for name in $needed; do
    cp -a "$root/crates/$name" "$space/crates"
    grep "^$name:" "$root/crates.txt" >>"$space/crates.txt"
  done
  echo "lock_bench:" $needed >>"$space/crates.txt"
  write_program "$space/crates/lock_bench"
  (cd "$space/crates/lock_bench" && rt run -- level 1 1 >"$work/build.log" 2>&1) || {
    tail -n 20 "$work/build.log" >&2
    exit 1
  }
  [ -z "${KEEP:-}" ] || cp "$space/crates/lock_bench/out/lock_bench" "$KEEP"
  LOCK_BENCH=$space/crates/lock_bench/out/lock_bench
}

[ -n "${LOCK_BENCH:-}" ] || build_program
rustc -O --edition 2021 "$here/lock.rs" -o "$work/lock"

echo "sections a second: 32 clients, 16384 calls; medians of $rounds runs, each of $openings openings"
row='%-8s %7s %12s %12s %7s\n'
printf "$row" workload threads ours mutex ratio
for workload in level buffer; do
  for threads in 1 2 4 16; do
    given="$workload $threads $openings"
    figures=$("$here/measure.py" rates "$rounds" "$LOCK_BENCH $given" "$work/lock $given")
    read -r ours mutex ratio <<<"$figures"
    printf "$row" "$workload" "$threads" "$ours" "$mutex" "$ratio"
  done
done

echo "from the entry of a section until its call returned, as one more thread sees the log grow: $rounds runs"
row='%-8s %7s %10s %10s %10s\n'
printf "$row" workload threads median_us 99th_us sections
for workload in level buffer; do
  for threads in 1 2 4 16; do
    figures=$("$here/measure.py" late "$rounds" "$LOCK_BENCH $workload $threads moments")
    read -r median last sections <<<"$figures"
    printf "$row" "$workload" "$threads" "$median" "$last" "$sections"
  done
done
