//! What is in the way of a tree, by a plain scan of all edges and all nodes.

use crate::plain::{PlainDual, PlainNode};
use crate::readings::{Readings, flags, is_between};
use crate::roles::DrawnRoles;
use fb_obstacles::{Obstacle, Role, Roles};
use std::alloc::{AllocError, Global};

/// What is in the way of a tree, as an `Obstacle` that can be compared and printed.
#[derive(Clone, Copy, Debug, PartialEq, Eq)]
pub enum Found {
    Absorb(u32),
    Boundary(u32),
    Meet(u32),
    PlusPair(u32),
    LayerEmpty(u64),
    BlossomEmpty(u64),
    ZeroMinus(u64),
    Free(u64),
}

impl Found {
    /// The same as an answer of the crate.
    pub fn of(answer: Obstacle) -> Found {
        match answer {
            Obstacle::Absorb(edge) => Found::Absorb(edge),
            Obstacle::Boundary(edge) => Found::Boundary(edge),
            Obstacle::Meet(edge) => Found::Meet(edge),
            Obstacle::PlusPair(edge) => Found::PlusPair(edge),
            Obstacle::LayerEmpty(node) => Found::LayerEmpty(node),
            Obstacle::BlossomEmpty(node) => Found::BlossomEmpty(node),
            Obstacle::ZeroMinus(node) => Found::ZeroMinus(node),
            Obstacle::Free(length) => Found::Free(length),
        }
    }

    /// Whether a minus node is in the way, and not an edge.
    fn is_minus(self) -> bool {
        matches!(self, Found::LayerEmpty(_) | Found::BlossomEmpty(_) | Found::ZeroMinus(_))
    }
}

/// What may be said of a tree.
#[derive(Debug, Drop)]
pub struct Expected {
    /// All obstacles that stand.
    standing: Vec<Found>,
    /// The greatest length by which the tree may step; none if nothing limits it.
    greatest: Option<u64>,
}

impl Expected {
    /// Whether the answer is one of the obstacles that there are, an edge if there is one; if there is none, the greatest
    /// length.
    pub fn allows(&self, answer: Found) -> bool {
        match answer {
            Found::Free(length) => {
                self.standing.is_empty() && length > 0 && self.greatest == Some(length)
            }
            _ if answer.is_minus() => {
                self.standing.contains(&answer) && self.standing.iter().all(|it| it.is_minus())
            }
            _ => self.standing.contains(&answer),
        }
    }
}

/// A state with roles, which is scanned.
#[derive(Clone, Copy)]
pub struct Scan<'c, 'a> {
    pub alloc: Global,
    pub plain: &'c PlainDual<'a>,
    pub readings: &'c Readings,
    pub roles: &'c DrawnRoles,
}

impl Scan<'_, '_> {
    pub fn expected(&self) -> Result<Expected, AllocError> {
        Ok(Expected {
            standing: self.standing()?,
            greatest: self.greatest()?,
        })
    }

    /// All obstacles that stand.
    fn standing(&self) -> Result<Vec<Found>, AllocError> {
        let graph = self.plain.graph;
        let mut standing = Vec::new(self.alloc);
        for edge in 0..graph.edge_count() {
            if self.readings.load_of(edge) < graph.absolute_weight(edge) {
                continue;
            }
            let (first, second) = graph.ends(edge);
            for (from, to) in [(first, second), (second, first)] {
                if let Some(obstacle) = self.obstacle_over(edge, from, to) {
                    standing.push(obstacle)?;
                }
            }
        }
        for node in &self.plain.nodes {
            if self.roles.role(node.name) == Role::Minus && node.top().value == 0 {
                standing.push(empty_layer(node))?;
            }
        }
        Ok(standing)
    }

    /// The obstacle if a plus node holds the first of these ends of a tight edge.
    fn obstacle_over(&self, edge: u32, from: u32, to: u32) -> Option<Found> {
        let (near, far) = (self.readings.cover_of(from), self.readings.cover_of(to));
        if self.roles.over(near) != Some(Role::Plus) {
            return None;
        }
        if self.plain.graph.is_virtual(to) {
            return Some(Found::Boundary(edge));
        }
        match self.roles.over(far) {
            None => Some(Found::Absorb(edge)),
            Some(Role::Out) => Some(Found::Meet(edge)),
            Some(Role::Plus) if near != far => Some(Found::PlusPair(edge)),
            _ => None,
        }
    }

    /// The greatest length by which all plus nodes may grow and all minus nodes shrink: no edge's load is above its weight
    /// then, and no minus node's top layer below 0. None if nothing limits it.
    fn greatest(&self) -> Result<Option<u64>, AllocError> {
        let graph = self.plain.graph;
        let gains = self.crossings(Role::Plus)?;
        let losses = self.crossings(Role::Minus)?;
        let mut limits = Vec::new(self.alloc);
        for edge in 0..graph.edge_count() {
            let (gain, loss) = (gains[edge as usize], losses[edge as usize]);
            if gain > loss {
                let left = graph.absolute_weight(edge) - self.readings.load_of(edge);
                limits.push(left / (gain - loss))?;
            }
        }
        for node in &self.plain.nodes {
            if self.roles.role(node.name) == Role::Minus {
                limits.push(node.top().value)?;
            }
        }
        Ok(limits.iter().copied().min())
    }

    /// For each edge how many nodes of this role have a top layer that holds exactly one end of it.
    fn crossings(&self, role: Role) -> Result<Vec<u64>, AllocError> {
        let graph = self.plain.graph;
        let mut crossings = vec![in self.alloc; 0; graph.edge_count() as usize]?;
        for node in &self.plain.nodes {
            if self.roles.role(node.name) == role {
                let is_in = flags(self.alloc, graph, &node.top().vertices)?;
                for edge in 0..graph.edge_count() {
                    if is_between(&is_in, graph.ends(edge)) {
                        crossings[edge as usize] += 1;
                    }
                }
            }
        }
        Ok(crossings)
    }
}

/// What a minus node is whose top layer has value 0.
fn empty_layer(node: &PlainNode) -> Found {
    if node.layers.len() > 1 {
        Found::LayerEmpty(node.name)
    } else if node.children.is_empty() {
        Found::ZeroMinus(node.name)
    } else {
        Found::BlossomEmpty(node.name)
    }
}
