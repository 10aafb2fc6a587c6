// The machine of a monitor by sections, as one writes it in plain Rust. `lock.rs` and `desk.rs` include this text, so that
// both are compiled as one module each: a module of its own is compiled to other code.

use std::collections::VecDeque;

const CLIENTS: usize = 32;

/// A set of clients, a bit for each.
type ClientSet = u32;

/// A note that a block makes on a condition: a broadcast wakes all who wait there, a signal who has waited longest.
#[derive(Clone, Copy)]
struct Note {
    condition: usize,
    broadcast: bool,
}

/// A monitor: its state, and for each call the guard, the body and the notes of its block.
trait Monitor: Send {
    /// A method, with its inputs.
    type Call: Copy + Send + Sync;

    /// How many conditions it has.
    const CONDITIONS: usize;

    /// So many calls of a client.
    fn script(client: usize, calls: usize) -> Vec<Self::Call>;

    /// The condition on which clients wait with this call.
    fn condition(call: Self::Call) -> usize;

    /// Whether the guard of this call's block is true.
    fn is_open(&self, call: Self::Call) -> bool;

    /// Runs the body of this call's block, where no number leaves 64 bits; else nothing changes.
    fn run(&mut self, call: Self::Call) -> Reply;

    /// The notes of this call's block.
    fn notes(call: Self::Call) -> &'static [Note];
}

/// A number that grows. Nobody waits for it here.
struct Level {
    count: i64,
}

#[derive(Clone, Copy)]
enum LevelCall {
    #[allow(dead_code)]
    Reach(i64),
    Add,
}

impl Monitor for Level {
    type Call = LevelCall;

    const CONDITIONS: usize = 2;

    fn script(_client: usize, calls: usize) -> Vec<LevelCall> {
        vec![LevelCall::Add; calls]
    }

    fn condition(call: LevelCall) -> usize {
        match call {
            LevelCall::Reach(_) => 0,
            LevelCall::Add => 1,
        }
    }

    fn is_open(&self, call: LevelCall) -> bool {
        match call {
            LevelCall::Reach(least) => least <= self.count,
            LevelCall::Add => true,
        }
    }

    fn run(&mut self, call: LevelCall) -> Reply {
        match call {
            LevelCall::Reach(_) => Reply::Unit,
            LevelCall::Add => replied(self.count.checked_add(1), &mut self.count),
        }
    }

    fn notes(call: LevelCall) -> &'static [Note] {
        match call {
            LevelCall::Reach(_) => &[],
            LevelCall::Add => &[Note {
                condition: 0,
                broadcast: true,
            }],
        }
    }
}

/// A buffer with room for one.
struct Buffer {
    count: i64,
}

#[derive(Clone, Copy)]
enum BufferCall {
    Put,
    Get,
}

impl Monitor for Buffer {
    type Call = BufferCall;

    const CONDITIONS: usize = 2;

    fn script(client: usize, calls: usize) -> Vec<BufferCall> {
        let call = if client < CLIENTS / 2 {
            BufferCall::Put
        } else {
            BufferCall::Get
        };
        vec![call; calls]
    }

    fn condition(call: BufferCall) -> usize {
        match call {
            BufferCall::Put => 0,
            BufferCall::Get => 1,
        }
    }

    fn is_open(&self, call: BufferCall) -> bool {
        match call {
            BufferCall::Put => self.count < 1,
            BufferCall::Get => self.count > 0,
        }
    }

    fn run(&mut self, call: BufferCall) -> Reply {
        match call {
            BufferCall::Put => replied(self.count.checked_add(1), &mut self.count),
            BufferCall::Get => replied(self.count.checked_sub(1), &mut self.count),
        }
    }

    fn notes(call: BufferCall) -> &'static [Note] {
        match call {
            BufferCall::Put => &[Note {
                condition: 1,
                broadcast: false,
            }],
            BufferCall::Get => &[Note {
                condition: 0,
                broadcast: false,
            }],
        }
    }
}

/// What a block answers.
#[derive(Clone, Copy, Debug, PartialEq, Eq)]
enum Reply {
    Unit,
    Overflow,
}

/// Puts a number in its place, or tells that it has no 64 bits.
fn replied(number: Option<i64>, place: &mut i64) -> Reply {
    match number {
        Some(number) => {
            *place = number;
            Reply::Unit
        }
        None => Reply::Overflow,
    }
}

/// Where a client stands.
#[derive(Clone, Copy, Debug, PartialEq, Eq)]
enum Stage {
    Idle,
    Waiting,
    Woken,
}

/// A client: its calls, how many of them it is past, and where it stands with the next.
struct Client<C> {
    calls: Vec<C>,
    past: usize,
    stage: Stage,
}

/// What came of a section.
#[derive(Clone, Copy, Debug)]
#[allow(dead_code)]
enum Outcome {
    Waits,
    Replies { reply: Reply, woken: ClientSet },
}

/// An entry of the log.
#[derive(Clone, Copy, Debug)]
#[allow(dead_code)]
struct Entry {
    client: usize,
    call: usize,
    outcome: Outcome,
}

/// The client waits, or has no call left.
struct NotReady;

/// A monitor that runs by sections: its clients, who waits on each condition in order, and the log.
struct Machine<M: Monitor> {
    monitor: M,
    clients: Vec<Client<M::Call>>,
    rings: Vec<VecDeque<usize>>,
    log: Vec<Entry>,
}

impl<M: Monitor> Machine<M> {
    /// The machine at the start, with room for a log in which each client waits once for each call.
    fn open(monitor: M, calls: usize) -> Machine<M> {
        let clients = (0..CLIENTS).map(|client| Client {
            calls: M::script(client, calls),
            past: 0,
            stage: Stage::Idle,
        });
        Machine {
            monitor,
            clients: clients.collect(),
            rings: vec![VecDeque::with_capacity(CLIENTS); M::CONDITIONS],
            log: Vec::with_capacity(CLIENTS * CLIENTS * calls),
        }
    }

    /// What one client does from where it takes the lock to where it gives it back: it waits where its guard is false,
    /// or runs its block and makes its notes.
    fn section(&mut self, client: usize) -> Result<Entry, NotReady> {
        let one = &self.clients[client];
        if one.stage == Stage::Waiting {
            return Err(NotReady);
        }
        let call = *one.calls.get(one.past).ok_or(NotReady)?;
        let number = one.past + 1;
        let outcome = if self.monitor.is_open(call) {
            self.run(client, call)
        } else {
            self.wait(client, call)
        };
        let entry = Entry {
            client,
            call: number,
            outcome,
        };
        self.log.push(entry);
        Ok(entry)
    }

    fn wait(&mut self, client: usize, call: M::Call) -> Outcome {
        self.clients[client].stage = Stage::Waiting;
        self.rings[M::condition(call)].push_back(client);
        Outcome::Waits
    }

    fn run(&mut self, client: usize, call: M::Call) -> Outcome {
        let reply = self.monitor.run(call);
        let woken = match reply {
            Reply::Unit => M::notes(call)
                .iter()
                .fold(0, |woken, note| woken | self.make_note(*note)),
            Reply::Overflow => self.make_note(Note {
                condition: M::condition(call),
                broadcast: false,
            }),
        };
        let one = &mut self.clients[client];
        one.past += 1;
        one.stage = Stage::Idle;
        Outcome::Replies { reply, woken }
    }

    /// Makes a note, and answers whom it woke.
    fn make_note(&mut self, note: Note) -> ClientSet {
        let ring = &mut self.rings[note.condition];
        let count = if note.broadcast {
            ring.len()
        } else {
            ring.len().min(1)
        };
        let mut woken = 0;
        for client in ring.drain(..count) {
            self.clients[client].stage = Stage::Woken;
            woken |= 1 << client;
        }
        woken
    }
}
