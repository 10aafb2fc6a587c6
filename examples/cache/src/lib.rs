//! A map of results that threads share: readers together, a writer alone, writers first.
//!
//! Who may come in and when stands in `monitors/map_gate.mon`. Expresso makes a module of it, in
//! which nobody had to write a signal. The map lies beside it in an `RwLock` on which no thread
//! ever waits: the gate lets nobody in who would have to. So there is no `unsafe` here.

#![forbid(unsafe_code)]
#![warn(missing_docs)]

mod guards;
mod store;

mod map_gate {
    include!(concat!(env!("OUT_DIR"), "/map_gate.rs"));
}

pub use guards::{ReadGuard, WriteGuard};
pub use store::Cache;
