//! A watch, and beside it a plain list of what it watches.

use crate::draws::Draws;
use crate::readings::Readings;
use crate::roles::DrawnRoles;
use crate::stopped::Stopped;
use fb_graph::{Graph, Scope, Whole};
use fb_obstacles::{NodeId, Role, Watch, enter_minus};
use fb_regions::Regions;
use std::alloc::{AllocError, Global};

/// The edges that are watched, both ways.
#[derive(Drop)]
pub struct Watched {
    pub watch: Watch,
    /// For each edge that is watched a number that its bound is at most.
    limits: Vec<Option<u64>>,
    /// For nodes that were minus at the last call numbers that their bounds are at most.
    minus: Vec<MinusLimit>,
}

/// A number that the bound of a minus node is at most.
#[derive(Clone, Copy)]
struct MinusLimit {
    name: NodeId,
    most: u64,
}

impl Watched {
    /// Watches no edge of the graph.
    pub fn new(alloc: Global, graph: &Graph) -> Result<Watched, AllocError> {
        Ok(Watched {
            watch: Watch::new(alloc, &Whole(graph))?,
            limits: vec![in alloc; None; graph.edge_count() as usize]?,
            minus: Vec::new(alloc),
        })
    }

    /// Watches no edge any longer.
    pub fn clear(&mut self) {
        self.watch.clear();
        for limit in self.limits.iter_mut() {
            *limit = None;
        }
        self.minus.clear();
    }

    /// Each residue may have fallen by this much.
    pub fn lower(&mut self, by: u64) {
        self.watch.lower(by);
        for limit in self.limits.iter_mut() {
            *limit = limit.map(|most| most.saturating_sub(by));
        }
        for limit in self.minus.iter_mut() {
            limit.most = limit.most.saturating_sub(by);
        }
    }

    /// Watches each minus node. One whose bound may be too high is entered anew, and so are some others.
    pub fn renew_minus<S: Scope>(
        &mut self,
        draws: &mut Draws,
        regions: &Regions<S>,
        roles: &DrawnRoles,
    ) -> Result<(), AllocError> {
        for name in &roles.minus {
            let most = 2 * regions.top_value(*name);
            let mut known = self.minus.iter();
            let is_bounded = known.any(|limit| limit.name == *name && limit.most <= most);
            if !is_bounded || draws.happens(10) {
                enter_minus(&mut self.watch, regions, *name)?;
            }
        }
        self.minus.clear();
        for name in &roles.minus {
            self.minus.push(MinusLimit {
                name: *name,
                most: 2 * regions.top_value(*name),
            })?;
        }
        Ok(())
    }

    /// Watches each edge that leads from a plus node to another node or none, in a random order, and of the other edges
    /// some from now on and some no longer. An edge whose bound may be too high for these roles is entered anew.
    pub fn renew(
        &mut self,
        alloc: Global,
        draws: &mut Draws,
        graph: &Graph,
        readings: &Readings,
        roles: &DrawnRoles,
    ) -> Result<(), AllocError> {
        let mut edges: Vec<u32> = (0..graph.edge_count()).collect(alloc)?;
        draws.shuffle(&mut edges);
        for edge in &edges {
            let is_watched = self.limits[*edge as usize].is_some();
            if leaves_plus(readings.covers_of(graph, *edge), roles) {
                if !is_watched || !self.is_bounded(graph, readings, roles, *edge) || draws.happens(10) {
                    self.enter(*edge);
                }
            } else if is_watched && draws.happens(30) {
                self.leave(*edge);
            } else if draws.happens(20) {
                self.enter(*edge);
            }
        }
        Ok(())
    }

    /// Watches each edge that leads from a plus node to another node or none.
    pub fn enter_needed(&mut self, graph: &Graph, readings: &Readings, roles: &DrawnRoles) {
        for edge in 0..graph.edge_count() {
            if leaves_plus(readings.covers_of(graph, edge), roles) {
                self.enter(edge);
            }
        }
    }

    /// Watches the edge from now on, with nothing known of what it bears.
    fn enter(&mut self, edge: u32) {
        self.watch.enter(edge);
        self.limits[edge as usize] = Some(0);
    }

    /// Watches the edge no longer.
    fn leave(&mut self, edge: u32) {
        self.watch.leave(edge);
        self.limits[edge as usize] = None;
    }

    /// Whether no bound is above twice the step that its edge bears in these roles.
    pub fn are_bounded(&self, graph: &Graph, readings: &Readings, roles: &DrawnRoles) -> bool {
        (0..graph.edge_count()).all(|edge| self.is_bounded(graph, readings, roles, edge))
    }

    /// Whether the edge's bound, if it is watched, isn't above twice the step that the edge bears in these roles.
    fn is_bounded(&self, graph: &Graph, readings: &Readings, roles: &DrawnRoles, edge: u32) -> bool {
        match self.limits[edge as usize] {
            Some(most) => most <= slack_of(graph, readings, roles, edge),
            None => true,
        }
    }

    /// Compares the edges after a search by bounds. Only those that one outer node holds by both ends may have left.
    pub fn compare(
        &mut self,
        alloc: Global,
        graph: &Graph,
        readings: &Readings,
        roles: &DrawnRoles,
    ) -> Result<(), Stopped> {
        let mut count = 0;
        for edge in 0..graph.edge_count() {
            let is_watched = self.watch.holds(edge);
            let was_watched = self.limits[edge as usize].is_some();
            let may_leave = was_watched && is_inner(readings.covers_of(graph, edge));
            if is_watched != was_watched && !may_leave {
                let text = format!(in alloc;
                    "holds({edge}) is {is_watched}, expected {was_watched}"
                )?;
                return Err(Stopped::Differ(text));
            }
            self.limits[edge as usize] = if is_watched {
                count += 1;
                Some(slack_of(graph, readings, roles, edge))
            } else {
                None
            };
        }
        let edges = self.watch.edges();
        let len = self.watch.len();
        if len != count || edges.len() != count || !edges.iter().all(|e| self.watch.holds(*e)) {
            let text = format!(in alloc; "edges() is {edges:?}, expected {count} that are held")?;
            return Err(Stopped::Differ(text));
        }
        Ok(())
    }
}

/// Twice the step that the edge bears in these roles: its residue between two plus nodes, twice that where one end alone grows,
/// and more than any step otherwise.
fn slack_of(graph: &Graph, readings: &Readings, roles: &DrawnRoles, edge: u32) -> u64 {
    let covers = readings.covers_of(graph, edge);
    if is_inner(covers) {
        return u64::MAX;
    }
    let residue = readings.residue_of(graph, edge);
    match (roles.over(covers.0), roles.over(covers.1)) {
        (Some(Role::Plus), Some(Role::Plus)) => residue,
        (Some(Role::Plus), Some(Role::Minus)) | (Some(Role::Minus), Some(Role::Plus)) => u64::MAX,
        (Some(Role::Plus), _) | (_, Some(Role::Plus)) => 2 * residue,
        _ => u64::MAX,
    }
}

/// Whether an edge with these nodes over its ends leads from a plus node to another node or none.
fn leaves_plus(covers: (Option<NodeId>, Option<NodeId>), roles: &DrawnRoles) -> bool {
    let has_plus = roles.over(covers.0) == Some(Role::Plus)
        || roles.over(covers.1) == Some(Role::Plus);
    has_plus && !is_inner(covers)
}

/// Whether one outer node holds both ends.
fn is_inner(covers: (Option<NodeId>, Option<NodeId>)) -> bool {
    covers.0.is_some() && covers.0 == covers.1
}
