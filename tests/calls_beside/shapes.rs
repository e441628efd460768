//! Graphs of a few shapes, each cut into parts.

use crate::draws::Draws;
use crate::stopped::Stopped;
use fb_graph::Graph;
use std::alloc::{AllocError, Global};

/// The number of stages of a graph.
pub const STAGES: u32 = 3;

/// The number of vertices that have edges.
const LENGTH: u32 = 36;

/// The number of isolated vertices that come first in some graphs, so that the numbers of the others fall into two pages of
/// 512.
const ISOLATED: u32 = 500;

/// The length of a row of a lattice.
const ROW: u32 = 4;

const GREATEST_WEIGHT: i128 = 1 << 30;

#[derive(Clone, Copy, Debug, PartialEq, Eq)]
pub enum Shape {
    /// A path with boundary at both ends.
    Line,
    /// A path whose ends are joined, without boundary.
    Ring,
    /// Rows, with boundary at one end of each.
    Lattice,
    /// Edges between near vertices, some parallel, many without weight; some vertices are boundary.
    Random,
}

pub const SHAPES: [Shape; 4] = [Shape::Line, Shape::Ring, Shape::Lattice, Shape::Random];

/// A vertex that has edges.
#[derive(Clone, Copy)]
struct Site {
    stage: u32,
    is_boundary: bool,
    /// Whether an edge joins it to a vertex of an earlier stage, neither being boundary.
    is_seam: bool,
}

/// A graph whose vertices are cut into stages. The part of a stage has the stage's vertices but for those at the seam, so
/// that no edge joins it to an earlier stage.
#[derive(Drop)]
pub struct Plot {
    /// The number of isolated vertices before the sites.
    before: u32,
    sites: Vec<Site>,
    edges: Vec<(u64, u64, i128)>,
}

impl Plot {
    /// A graph of this shape with random weights.
    pub fn draw(alloc: Global, draws: &mut Draws, shape: Shape) -> Result<Plot, AllocError> {
        let mut plot = Plot {
            before: if draws.happens(25) { ISOLATED } else { 0 },
            sites: Vec::new(alloc),
            edges: Vec::new(alloc),
        };
        for site in 0..LENGTH {
            let is_boundary = match shape {
                Shape::Line => site == 0 || site == LENGTH - 1,
                Shape::Ring => false,
                Shape::Lattice => site % ROW == 0,
                Shape::Random => draws.happens(10),
            };
            plot.sites.push(Site {
                stage: site * STAGES / LENGTH,
                is_boundary,
                is_seam: false,
            })?;
        }
        for site in 1..LENGTH {
            plot.join_to_earlier(draws, shape, site)?;
        }
        if shape == Shape::Ring {
            plot.put_edge(draws, shape, 0, LENGTH - 1)?;
        }
        Ok(plot)
    }

    /// Puts the edges from a site to earlier ones.
    fn join_to_earlier(
        &mut self,
        draws: &mut Draws,
        shape: Shape,
        site: u32,
    ) -> Result<(), AllocError> {
        match shape {
            Shape::Line | Shape::Ring => self.put_edge(draws, shape, site - 1, site),
            Shape::Lattice => {
                if site % ROW > 0 {
                    self.put_edge(draws, shape, site - 1, site)?;
                }
                if site >= ROW {
                    self.put_edge(draws, shape, site, site - ROW)?;
                }
                Ok(())
            }
            Shape::Random => {
                for _ in 0..1 + draws.below(3) {
                    let near = site - 1 - draws.below(u64::from(site.min(5))) as u32;
                    self.put_edge(draws, shape, near, site)?;
                }
                Ok(())
            }
        }
    }

    /// Puts an edge of random weight between two sites.
    fn put_edge(
        &mut self,
        draws: &mut Draws,
        shape: Shape,
        first: u32,
        second: u32,
    ) -> Result<(), AllocError> {
        let weightless = if shape == Shape::Random { 30 } else { 5 };
        let weight = if draws.happens(weightless) {
            0
        } else if draws.happens(3) {
            GREATEST_WEIGHT
        } else {
            2 + 2 * i128::from(draws.below(5))
        };
        let ends = (self.before + first, self.before + second);
        self.edges
            .push((u64::from(ends.0), u64::from(ends.1), weight))?;
        let one = self.sites[first as usize];
        let other = self.sites[second as usize];
        if one.stage != other.stage && !one.is_boundary && !other.is_boundary {
            let later = if one.stage > other.stage {
                first
            } else {
                second
            };
            self.sites[later as usize].is_seam = true;
        }
        Ok(())
    }

    /// The graph in which all but the part of a stage is boundary.
    pub fn part(&self, alloc: Global, stage: u32) -> Result<Graph, Stopped> {
        self.graph(alloc, |site| site.is_seam || site.stage != stage)
    }

    /// The graph in which all later stages are boundary.
    pub fn up_to(&self, alloc: Global, stage: u32) -> Result<Graph, Stopped> {
        self.graph(alloc, |site| site.stage > stage)
    }

    /// The graph in which the sites that pass the test are boundary too.
    fn graph(&self, alloc: Global, test: impl Fn(&Site) -> bool) -> Result<Graph, Stopped> {
        let before = u64::from(self.before);
        let mut boundary: Vec<u64> = (0..before).collect(alloc)?;
        for (place, site) in self.sites.iter().enumerate() {
            if site.is_boundary || test(site) {
                boundary.push(before + place as u64)?;
            }
        }
        let vertices = before + u64::from(LENGTH);
        let graph = Graph::build(alloc, vertices, &self.edges, &boundary)?;
        Ok(graph)
    }
}
