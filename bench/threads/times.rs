//! Calls with a time: of thirty-two threads half wait without end, and half give up again and
//! again, with functions some of which panic. None is lost for that. Then times that are over at
//! once, and those that no clock gets to.

#[path = "../emitted/account.rs"]
mod account;
#[path = "../emitted/buffer.rs"]
mod buffer;
mod common;

use std::collections::VecDeque;
use std::panic::{catch_unwind, set_hook, AssertUnwindSafe};
use std::sync::atomic::{AtomicUsize, Ordering};
use std::thread::{scope, sleep};
use std::time::{Duration, Instant};

use account::{Account, Failed};
use buffer::{Buffer, Refused};
use common::{assert_state, in_threads};

const EACH: usize = 512;
const SHORT: Duration = Duration::from_micros(20);
const LONG: Duration = Duration::from_millis(20);

fn main() {
    set_hook(Box::new(|_| ()));
    gives_up_again_and_again();
    (0..50).for_each(|_| hands_on());
    (0..500).for_each(comes_with_the_end);
    is_over_at_once();
    waits_as_long();
    waits_without_end();
    fails();
}

/// Of each four threads one puts and one gets without a time, and two with a short one.
fn gives_up_again_and_again() {
    let (queue, refused) = (Buffer::with_data(VecDeque::new()), AtomicUsize::new(0));
    let got = AtomicUsize::new(0);
    in_threads(32, |thread| {
        for item in 0..EACH {
            let taken = match thread % 4 {
                0 => queue.put_with(|queue| put(queue, item, false)),
                1 => queue.get_with(|queue| get(queue, false)),
                2 => until_done(&refused, |panics| {
                    queue.put_for_with(SHORT, |queue| put(queue, item, panics))
                }),
                _ => until_done(&refused, |panics| {
                    queue.get_until_with(Instant::now() + SHORT, |queue| get(queue, panics))
                }),
            };
            got.fetch_add(taken, Ordering::Relaxed);
        }
    });
    assert_eq!(got.into_inner(), 16 * (0..EACH).sum::<usize>());
    assert_ne!(refused.into_inner(), 0);
    assert_state(&queue, "count: 0");
    assert!(queue.is_poisoned() && queue.into_inner().is_empty());
}

fn put(queue: &mut VecDeque<usize>, item: usize, panics: bool) -> usize {
    assert!(!panics);
    queue.push_back(item);
    0
}

fn get(queue: &mut VecDeque<usize>, panics: bool) -> usize {
    assert!(!panics);
    queue.pop_front().expect("each put adds one")
}

/// Makes the call until it goes through. The function of the first one that isn't refused panics.
fn until_done(refused: &AtomicUsize, call: impl Fn(bool) -> Result<usize, Refused>) -> usize {
    let mut panics = true;
    loop {
        match catch_unwind(AssertUnwindSafe(|| call(panics))) {
            Ok(Ok(taken)) => return taken,
            Ok(Err(Refused)) => _ = refused.fetch_add(1, Ordering::Relaxed),
            Err(_) => panics = false,
        }
    }
}

/// Two wait for one item, and the first that is let in panics: the other gets it.
fn hands_on() {
    let (room, entered) = (Buffer::new(), AtomicUsize::new(0));
    let got = AtomicUsize::new(0);
    let enter = || assert_ne!(entered.fetch_add(1, Ordering::Relaxed), 0);
    scope(|scope| {
        scope.spawn(|| {
            let call = catch_unwind(AssertUnwindSafe(|| {
                room.get_for_with(LONG * 500, |_| enter())
            }));
            got.fetch_add(usize::from(call.is_ok()), Ordering::Relaxed);
        });
        scope.spawn(|| {
            let call = catch_unwind(AssertUnwindSafe(|| room.get_with(|_| enter())));
            got.fetch_add(usize::from(call.is_ok()), Ordering::Relaxed);
        });
        let third = scope.spawn(|| room.get_for(SHORT));
        assert_eq!(third.join().unwrap(), Err(Refused));
        sleep(LONG / 4);
        room.put();
    });
    assert_eq!(got.into_inner(), 1);
}

/// An item comes when the time of one of two ends that wait for it: one of them gets it.
fn comes_with_the_end(turn: u32) {
    let (room, end) = (Buffer::new(), Instant::now() + 10 * SHORT);
    in_threads(3, |thread| match thread {
        0 if room.get_until(end).is_ok() => room.put(),
        0 => (),
        1 => room.get(),
        _ => {
            while Instant::now() + turn % 50 * Duration::from_micros(2) < end {
                std::hint::spin_loop();
            }
            room.put();
        }
    });
    assert_state(&room, "count: 0");
}

/// A call whose time is over tests its guard once.
fn is_over_at_once() {
    let (room, now) = (Buffer::new(), Instant::now());
    assert_eq!(room.get_for(Duration::ZERO), Err(Refused));
    assert_eq!(room.get_until(now), Err(Refused));
    assert_eq!(room.put_until(now), Ok(()));
    assert_eq!(room.put_until(now), Err(Refused));
    assert_eq!(room.get_until_with(now, |()| 7), Ok(7));
    assert_eq!(room.put_for(Duration::ZERO), Ok(()));
    assert_eq!(room.get_for_with(Duration::ZERO, |()| 8), Ok(8));
    assert_state(&room, "count: 0");
}

fn waits_as_long() {
    let (room, start) = (Buffer::new(), Instant::now());
    assert_eq!(room.get_for(LONG), Err(Refused));
    assert!(start.elapsed() >= LONG);
    assert_eq!(room.get_until(start + 2 * LONG), Err(Refused));
    assert!(start.elapsed() >= 2 * LONG);
}

fn waits_without_end() {
    let room = Buffer::new();
    scope(|scope| {
        scope.spawn(|| assert_eq!(room.get_for(Duration::MAX), Ok(())));
        scope.spawn(|| assert_eq!(room.get_for_with(Duration::MAX, |()| 9), Ok(9)));
        scope.spawn(|| assert_eq!(room.get_for(Duration::from_secs(1 << 62)), Ok(())));
        scope.spawn(|| assert_eq!(room.get_until(last_instant()), Ok(())));
        sleep(LONG);
        (0..4).for_each(|_| room.put());
    });
    assert_state(&room, "count: 0");
}

/// The last one that the clock has.
fn last_instant() -> Instant {
    (0..64).rev().fold(Instant::now(), |end, bit| {
        end.checked_add(Duration::from_secs(1 << bit))
            .unwrap_or(end)
    })
}

/// Where a number would leave 64 bits, that is the error.
fn fails() {
    let account = Account::new();
    assert_eq!(account.withdraw_for(1, SHORT), Err(Failed::Refused));
    assert_eq!(account.deposit_for(i64::MAX, SHORT), Ok(i64::MAX));
    assert_eq!(account.deposit_for(1, Duration::MAX), Err(Failed::Overflow));
    assert_eq!(
        account.deposit_until(1, Instant::now()),
        Err(Failed::Overflow)
    );
    let given = account.deposit_for_with(1, Duration::MAX, |(), _| unreachable!());
    assert_eq!(given, Err::<(), _>(Failed::Overflow));
    assert_eq!(
        account.withdraw_until(501, Instant::now()),
        Ok(i64::MAX - 501 - Account::LIMIT)
    );
    assert_eq!(account.deposit_for(1, LONG), Err(Failed::Refused));
    assert!(account.thaw_for(Duration::ZERO).is_ok() && account.thaw_for(LONG).is_err());
    assert_eq!(
        account.withdraw_for_with(1, Duration::MAX, |(), left| left),
        Ok(i64::MAX - 502 - Account::LIMIT)
    );
}
