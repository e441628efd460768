//! A dual state with a plain one beside it.

use crate::choosing::{Chooser, NAMES};
use crate::comparing::Comparison;
use crate::draws::Draws;
use crate::moves::{Kind, Move};
use crate::plain::PlainDual;
use crate::readings::Readings;
use crate::roles::DrawnRoles;
use crate::stopped::Stopped;
use crate::watching::Watched;
use fb_graph::{Graph, Whole};
use fb_regions::{NodeId, Regions, Role, SpareRegions};
use std::alloc::{AllocError, Global};

/// The two states, on which the same moves are made.
#[derive(Drop)]
pub struct Game<'a> {
    pub regions: Regions<Whole<'a>>,
    pub plain: PlainDual<'a>,
    /// The observations of the plain state.
    pub readings: Readings,
    /// The edges that are watched for a tree.
    pub watched: Watched,
    /// The least name that a new node gets.
    first_name: NodeId,
    /// The names of the blossoms that were split.
    freed: Vec<NodeId>,
}

impl<'a> Game<'a> {
    /// Two states without nodes, the first one in the room of another state if there is one.
    pub fn new(
        alloc: Global,
        spare: Option<SpareRegions>,
        graph: &'a Graph,
        first_name: NodeId,
    ) -> Result<Game<'a>, AllocError> {
        let regions = match spare {
            Some(spare) => Regions::on(alloc, spare, &Whole(graph))?,
            None => Regions::new(alloc, &Whole(graph))?,
        };
        let plain = PlainDual::new(alloc, graph);
        let readings = Readings::of(alloc, &plain)?;
        Ok(Game {
            regions,
            plain,
            readings,
            watched: Watched::new(alloc, graph)?,
            first_name,
            freed: Vec::new(alloc),
        })
    }

    /// A move of this kind that is allowed; none if none was found.
    pub fn draw_move(
        &self,
        alloc: Global,
        draws: &mut Draws,
        kind: Kind,
    ) -> Result<Option<Move>, AllocError> {
        let chooser = Chooser {
            alloc,
            plain: &self.plain,
            readings: &self.readings,
            first_name: self.first_name,
        };
        chooser.draw(draws, kind)
    }

    /// Makes an allowed move on both states.
    pub fn make(&mut self, alloc: Global, next: &Move) -> Result<(), AllocError> {
        let Game {
            regions,
            plain,
            readings,
            freed,
            ..
        } = self;
        match next {
            Move::Open { name, vertex } => {
                regions.open_leaf(alloc, *name, *vertex)?;
                plain.open(alloc, *name, *vertex)?;
            }
            Move::Join { name, children } => {
                regions.join_nodes(alloc, *name, children)?;
                plain.join(alloc, *name, children)?;
            }
            Move::Split { name } => {
                regions.split_node(*name)?;
                plain.split(*name);
                freed.push(*name)?;
            }
            Move::Grow { name, by } => {
                regions.grow(*name, *by);
                plain.grow(*name, *by);
            }
            Move::Shrink { name, by } => {
                regions.shrink(*name, *by);
                plain.shrink(*name, *by);
            }
            Move::Absorb { edge } => {
                regions.absorb(*edge);
                let (inner, outer) = readings.inner_and_outer_end(plain.graph, *edge);
                if let Some(name) = readings.cover_of(inner) {
                    plain.take_up(name, outer)?;
                }
            }
            Move::Uncover { name } => {
                regions.uncover(*name);
                plain.uncover(*name);
            }
        }
        self.readings = Readings::of(alloc, &self.plain)?;
        Ok(())
    }

    /// Each plus node grows by this length and each minus node shrinks by it, all at once as the time passes. They move on
    /// until `rest`.
    pub fn pass_time(
        &mut self,
        alloc: Global,
        roles: &DrawnRoles,
        by: u64,
    ) -> Result<(), AllocError> {
        for name in &roles.plus {
            self.regions.set_pace(*name, Role::Plus);
            self.plain.grow(*name, by);
        }
        for name in &roles.minus {
            self.regions.set_pace(*name, Role::Minus);
            self.plain.shrink(*name, by);
        }
        self.regions.advance(by);
        self.readings = Readings::of(alloc, &self.plain)?;
        Ok(())
    }

    /// The nodes of these roles stop.
    pub fn rest(&mut self, roles: &DrawnRoles) {
        for name in roles.plus.iter().chain(roles.minus.iter()) {
            self.regions.set_pace(*name, Role::Out);
        }
    }

    /// Compares every observation of the two states.
    pub fn compare(&self, alloc: Global) -> Result<(), Stopped> {
        let comparison = Comparison {
            alloc,
            regions: &self.regions,
            plain: &self.plain,
            readings: &self.readings,
        };
        comparison.run()
    }

    /// Random roles of some outer nodes; none if no node may be plus.
    pub fn draw_roles(
        &self,
        alloc: Global,
        draws: &mut Draws,
    ) -> Result<Option<DrawnRoles>, AllocError> {
        DrawnRoles::draw(alloc, draws, &self.plain, &self.readings)
    }

    /// Watches what a tree with these roles needs, and some other edges.
    pub fn renew_watch(
        &mut self,
        alloc: Global,
        draws: &mut Draws,
        roles: &DrawnRoles,
    ) -> Result<(), AllocError> {
        self.watched
            .renew(alloc, draws, self.plain.graph, &self.readings, roles)?;
        self.watched.renew_minus(draws, &self.regions, roles)
    }

    /// Compares the watched edges after a call for these roles.
    pub fn compare_watch(&mut self, alloc: Global, roles: &DrawnRoles) -> Result<(), Stopped> {
        self.watched
            .compare(alloc, self.plain.graph, &self.readings, roles)
    }

    /// Whether a blossom of this name was split.
    pub fn is_freed(&self, name: NodeId) -> bool {
        self.freed.contains(&name)
    }

    /// The depth of the deepest nest.
    pub fn depth(&self) -> u64 {
        self.readings.depths.iter().copied().max().unwrap_or(0)
    }

    /// The room of the state.
    pub fn into_spare(self) -> SpareRegions {
        self.regions.into_spare()
    }

    /// Both games' nodes over a graph that has the real vertices of both, and the room of the second state.
    pub fn merged(
        self,
        alloc: Global,
        draws: &mut Draws,
        other: Game<'a>,
        graph: &'a Graph,
    ) -> Result<(Game<'a>, Option<SpareRegions>), AllocError> {
        let names = draw_names(alloc, draws, &self.plain, &other.plain)?;
        let scope = Whole(graph);
        let (regions, spare) = if draws.happens(50) {
            let (regions, spare) = Regions::merged_with_spare(
                alloc,
                self.regions,
                other.regions,
                &names,
                &scope,
            )?;
            (regions, Some(spare))
        } else {
            let regions = Regions::merged(alloc, self.regions, other.regions, &names, &scope)?;
            (regions, None)
        };
        let plain = self.plain.merged(alloc, other.plain, &names, graph)?;
        let readings = Readings::of(alloc, &plain)?;
        let game = Game {
            regions,
            plain,
            readings,
            watched: self.watched,
            first_name: self.first_name,
            freed: self.freed,
        };
        Ok((game, spare))
    }
}

/// New names beside the old ones, for each node of the second state whose name the first one has and for some others.
fn draw_names(
    alloc: Global,
    draws: &mut Draws,
    first: &PlainDual<'_>,
    second: &PlainDual<'_>,
) -> Result<Vec<(NodeId, NodeId)>, AllocError> {
    let mut taken: Vec<NodeId> = first.nodes.iter().map(|n| n.name).collect(alloc)?;
    let mut names = Vec::new(alloc);
    for node in &second.nodes {
        if !taken.contains(&node.name) && draws.happens(50) {
            taken.push(node.name)?;
            continue;
        }
        let mut name = draws.below(2 * NAMES);
        while taken.contains(&name) {
            name = draws.below(2 * NAMES);
        }
        taken.push(name)?;
        names.push((node.name, name))?;
        // only the first name beside an old one counts
        names.push((node.name, 2 * NAMES))?;
    }
    Ok(names)
}
