#[path = "../bench/emitted/buffer.rs"]
mod buffer;

use buffer::{Buffer, Refused};
use std::collections::VecDeque;

static JOBS: Buffer<VecDeque<u64>> = Buffer::with_data(VecDeque::new());

fn main() {
    std::thread::scope(|scope| {
        scope.spawn(|| (0..1000).for_each(|job| JOBS.put_with(|jobs| jobs.push_back(job))));
        scope.spawn(|| {
            for job in 0..1000 {
                assert_eq!(JOBS.get_with(|jobs| jobs.pop_front()), Some(job));
            }
        });
    });
    assert_eq!(JOBS.try_get_with(|jobs| jobs.pop_front()), Err(Refused));
    println!("1000 jobs came in order, and none is left");
}
