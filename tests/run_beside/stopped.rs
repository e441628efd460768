use std::alloc::{AllocError, AllocFailed};
use std::fmt;

/// Why a sample did not pass.
#[derive(Clone, Copy, Debug)]
pub enum Stopped {
    /// This was another than it should be.
    Differs(&'static str),
    /// This was another than it should be, at this call.
    DiffersAt(&'static str, u64),
    NoMemory,
}

impl Stopped {
    /// An error if the answer is another.
    pub fn unless(is_right: bool, what: &'static str) -> Result<(), Stopped> {
        if is_right { Ok(()) } else { Err(Stopped::Differs(what)) }
    }

    /// An error if the answer at a call is another.
    pub fn unless_at(is_right: bool, what: &'static str, call: u64) -> Result<(), Stopped> {
        if is_right { Ok(()) } else { Err(Stopped::DiffersAt(what, call)) }
    }
}

impl From<AllocError> for Stopped {
    fn from(_: AllocError) -> Stopped {
        Stopped::NoMemory
    }
}

impl<T: Drop> From<AllocFailed<T>> for Stopped {
    fn from(_: AllocFailed<T>) -> Stopped {
        Stopped::NoMemory
    }
}

impl fmt::Display for Stopped {
    fn fmt<W: fmt::Write>(&self, f: &mut fmt::Formatter<W>) -> fmt::Result {
        match self {
            Stopped::Differs(what) => write!(f, "{what} differs"),
            Stopped::DiffersAt(what, call) => write!(f, "{what} differs at call {call}"),
            Stopped::NoMemory => write!(f, "out of memory"),
        }
    }
}
