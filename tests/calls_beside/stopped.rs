use fb_graph::GraphFault;
use fb_plan::PlanFault;
use std::alloc::{AllocError, AllocFailed};
use std::fmt;

/// Why a sample did not pass, or a game ended before its last move.
#[derive(Debug, Drop)]
pub enum Stopped {
    /// This was another than it should be.
    Differs(&'static str),
    /// The same, with what was found and what was expected.
    Differ(String),
    NoGraph(GraphFault),
    NoPlan,
    NoMemory,
}

impl Stopped {
    /// An error if the answer is another.
    pub fn unless(is_right: bool, what: &'static str) -> Result<(), Stopped> {
        if is_right { Ok(()) } else { Err(Stopped::Differs(what)) }
    }
}

impl From<AllocError> for Stopped {
    fn from(_: AllocError) -> Stopped {
        Stopped::NoMemory
    }
}

impl<T: Drop> From<AllocFailed<T>> for Stopped {
    fn from(_: AllocFailed<T>) -> Stopped {
        Stopped::NoMemory
    }
}

impl From<PlanFault> for Stopped {
    fn from(_: PlanFault) -> Stopped {
        Stopped::NoPlan
    }
}

impl From<GraphFault> for Stopped {
    fn from(fault: GraphFault) -> Stopped {
        Stopped::NoGraph(fault)
    }
}

impl fmt::Display for Stopped {
    fn fmt<W: fmt::Write>(&self, f: &mut fmt::Formatter<W>) -> fmt::Result {
        match self {
            Stopped::Differs(what) => write!(f, "{what} differs"),
            Stopped::Differ(text) => write!(f, "{text}"),
            Stopped::NoGraph(fault) => write!(f, "no graph: {fault}"),
            Stopped::NoPlan => write!(f, "no plan"),
            Stopped::NoMemory => write!(f, "out of memory"),
        }
    }
}
