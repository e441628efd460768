//! The calls that change a dual state.

use fb_regions::NodeId;

/// What a move does.
#[derive(Clone, Copy, Debug, PartialEq, Eq)]
pub enum Kind {
    Open,
    Join,
    Split,
    Grow,
    Shrink,
    Absorb,
    Uncover,
}

impl Kind {
    pub const ALL: [Kind; 7] = [
        Kind::Open,
        Kind::Join,
        Kind::Split,
        Kind::Grow,
        Kind::Shrink,
        Kind::Absorb,
        Kind::Uncover,
    ];

    /// The name of its call.
    pub fn name(self) -> &'static str {
        match self {
            Kind::Open => "open_leaf",
            Kind::Join => "join_nodes",
            Kind::Split => "split_node",
            Kind::Grow => "grow",
            Kind::Shrink => "shrink",
            Kind::Absorb => "absorb",
            Kind::Uncover => "uncover",
        }
    }
}

/// A call that changes a dual state.
#[derive(Debug, Drop)]
pub enum Move {
    Open { name: NodeId, vertex: u32 },
    Join { name: NodeId, children: Vec<NodeId> },
    Split { name: NodeId },
    Grow { name: NodeId, by: u64 },
    Shrink { name: NodeId, by: u64 },
    Absorb { edge: u32 },
    Uncover { name: NodeId },
}
