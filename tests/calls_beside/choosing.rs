//! How a move is drawn among those that the definitions allow.

use crate::draws::Draws;
use crate::moves::{Kind, Move};
use crate::plain::{PlainDual, PlainNode};
use crate::readings::Readings;
use fb_regions::NodeId;
use std::alloc::{AllocError, Global};

/// The number of names for new nodes: more than a state can have nodes, but few, so that most are used again.
pub const NAMES: u64 = 64;

/// The kinds that are drawn while nests are built up, some more often than others.
pub const BUILDING: [Kind; 15] = [
    Kind::Open,
    Kind::Open,
    Kind::Join,
    Kind::Join,
    Kind::Join,
    Kind::Grow,
    Kind::Grow,
    Kind::Grow,
    Kind::Absorb,
    Kind::Absorb,
    Kind::Absorb,
    Kind::Absorb,
    Kind::Shrink,
    Kind::Uncover,
    Kind::Split,
];

/// The kinds that are drawn while nests are taken down.
pub const TAKING_DOWN: [Kind; 12] = [
    Kind::Join,
    Kind::Grow,
    Kind::Absorb,
    Kind::Shrink,
    Kind::Shrink,
    Kind::Shrink,
    Kind::Uncover,
    Kind::Uncover,
    Kind::Uncover,
    Kind::Split,
    Kind::Split,
    Kind::Split,
];

/// A state for which moves are drawn.
#[derive(Clone, Copy)]
pub struct Chooser<'c, 'a> {
    pub alloc: Global,
    pub plain: &'c PlainDual<'a>,
    pub readings: &'c Readings,
    /// The least name that a new node may get.
    pub first_name: NodeId,
}

impl<'c, 'a> Chooser<'c, 'a> {
    /// A move of this kind that is allowed; none if none was found.
    pub fn draw(&self, draws: &mut Draws, kind: Kind) -> Result<Option<Move>, AllocError> {
        match kind {
            Kind::Open => self.draw_open(draws),
            Kind::Join => self.draw_join(draws),
            Kind::Grow => self.draw_grow(draws),
            Kind::Absorb => self.draw_absorb(draws),
            Kind::Shrink => {
                let node = self.draw_outer(draws, |n| n.top().value > 0);
                Ok(node.map(|n| Move::Shrink {
                    name: n.name,
                    by: draw_length(draws, n.top().value),
                }))
            }
            Kind::Uncover => {
                let node = self.draw_outer(draws, |n| n.may_uncover());
                Ok(node.map(|n| Move::Uncover { name: n.name }))
            }
            Kind::Split => {
                let node = self.draw_outer(draws, |n| n.may_split());
                Ok(node.map(|n| Move::Split { name: n.name }))
            }
        }
    }

    /// An uncovered real vertex becomes a defect.
    fn draw_open(&self, draws: &mut Draws) -> Result<Option<Move>, AllocError> {
        let graph = self.plain.graph;
        let vertices: Vec<u32> = (0..graph.vertices())
            .filter(|v| self.readings.may_open(graph, *v))
            .collect(self.alloc)?;
        let Some(vertex) = draws.pick(&vertices) else {
            return Ok(None);
        };
        let name = self.draw_name(draws);
        Ok(Some(Move::Open { name, vertex }))
    }

    /// An odd number of outer nodes are joined, mostly the one with the deepest nest with those with the shallowest.
    fn draw_join(&self, draws: &mut Draws) -> Result<Option<Move>, AllocError> {
        let mut outer = Vec::new(self.alloc);
        for (place, node) in self.plain.nodes.iter().enumerate() {
            if self.readings.are_outer[place] {
                outer.push((self.readings.depths[place], node.name))?;
            }
        }
        if outer.len() < 3 {
            return Ok(None);
        }
        draws.shuffle(&mut outer);
        if draws.happens(85) {
            outer.sort_by_key(|node| node.0)?;
            let deepest = outer.len() - 1;
            outer.swap(0, deepest);
        }
        let is_large = outer.len() >= 5 && draws.happens(20);
        outer.truncate(if is_large { 5 } else { 3 });
        draws.shuffle(&mut outer);
        let children = outer.iter().map(|node| node.1).collect(self.alloc)?;
        let name = self.draw_name(draws);
        Ok(Some(Move::Join { name, children }))
    }

    /// An outer node grows by what the edges that leave it can bear, or less.
    fn draw_grow(&self, draws: &mut Draws) -> Result<Option<Move>, AllocError> {
        let Some(node) = self.draw_outer(draws, |_| true) else {
            return Ok(None);
        };
        let room = self.readings.room_of(self.alloc, self.plain.graph, node)?;
        if room == 0 {
            return Ok(None);
        }
        let by = draw_length(draws, room);
        Ok(Some(Move::Grow {
            name: node.name,
            by,
        }))
    }

    /// The uncovered end of a tight edge is taken up.
    fn draw_absorb(&self, draws: &mut Draws) -> Result<Option<Move>, AllocError> {
        let graph = self.plain.graph;
        let edges: Vec<u32> = (0..graph.edge_count())
            .filter(|edge| self.readings.may_absorb(graph, *edge))
            .collect(self.alloc)?;
        Ok(draws.pick(&edges).map(|edge| Move::Absorb { edge }))
    }

    /// One of the outer nodes that pass the test.
    fn draw_outer(
        &self,
        draws: &mut Draws,
        test: impl Fn(&PlainNode) -> bool,
    ) -> Option<&'c PlainNode> {
        let mut chosen = None;
        let mut count = 0;
        for (node, is_outer) in self.plain.nodes.iter().zip(self.readings.are_outer.iter()) {
            if *is_outer && test(node) {
                count += 1;
                if draws.below(count) == 0 {
                    chosen = Some(node);
                }
            }
        }
        chosen
    }

    /// A name that no node has.
    fn draw_name(&self, draws: &mut Draws) -> NodeId {
        let mut name = self.first_name + draws.below(NAMES);
        while self.plain.is_live(name) {
            name = self.first_name + draws.below(NAMES);
        }
        name
    }
}

/// A length from 1 to the greatest one, and often the greatest.
pub fn draw_length(draws: &mut Draws, greatest: u64) -> u64 {
    if draws.happens(60) {
        greatest
    } else {
        1 + draws.below(greatest)
    }
}
