use std::alloc::{AllocError, AllocFailed};
use std::fmt;

/// Why a sample did not pass.
#[derive(Clone, Copy, Debug)]
pub enum Stopped {
    /// This was another than it should be.
    Differs(&'static str),
    NoMemory,
}

impl Stopped {
    /// An error if the answer is another.
    pub fn unless(is_right: bool, what: &'static str) -> Result<(), Stopped> {
        if is_right { Ok(()) } else { Err(Stopped::Differs(what)) }
    }
}

impl From<AllocError> for Stopped {
    fn from(_: AllocError) -> Stopped {
        Stopped::NoMemory
    }
}

impl<T: Drop> From<AllocFailed<T>> for Stopped {
    fn from(_: AllocFailed<T>) -> Stopped {
        Stopped::NoMemory
    }
}

impl fmt::Display for Stopped {
    fn fmt<W: fmt::Write>(&self, f: &mut fmt::Formatter<W>) -> fmt::Result {
        match self {
            Stopped::Differs(what) => write!(f, "{what} differs"),
            Stopped::NoMemory => write!(f, "out of memory"),
        }
    }
}
