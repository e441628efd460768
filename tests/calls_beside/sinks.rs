//! A sink in memory that takes a byte at a time, and fails once.

use crate::stopped::Stopped;
use fb_ports::{MemSink, Sink, put_all};
use std::alloc::Global;

/// A text is put whole, a byte at a time; of the next one a prefix, up to the call that fails.
pub fn takes_a_byte_at_a_time(alloc: Global) -> Result<(), Stopped> {
    let mut sink = MemSink::new(alloc, 16)?;
    sink.take_at_most(1);
    Stopped::unless(put_all(&mut sink, b"fusion").is_ok(), "the first text")?;
    Stopped::unless(sink.taken() == b"fusion".as_slice(), "what was taken")?;
    sink.fail_at(vec![in alloc; 8]?);
    Stopped::unless(put_all(&mut sink, b"report").is_err(), "the failure")?;
    Stopped::unless(sink.taken() == b"fusionr".as_slice(), "the prefix that was taken")
}
