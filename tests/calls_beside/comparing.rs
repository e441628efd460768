//! Compares every observation of a dual state with what the definitions give.

use crate::plain::{PlainDual, PlainLayer, PlainNode};
use crate::readings::Readings;
use crate::stopped::Stopped;
use fb_graph::{NumberList, Whole};
use fb_regions::{Holder, Layer, NodeId, Regions, Step};
use std::alloc::Global;
use std::fmt::Debug;

/// A dual state, and the plain one whose observations it should have.
#[derive(Clone, Copy)]
pub struct Comparison<'c, 'a> {
    pub alloc: Global,
    pub regions: &'c Regions<Whole<'a>>,
    pub plain: &'c PlainDual<'a>,
    pub readings: &'c Readings,
}

impl Comparison<'_, '_> {
    /// Stops at the first observation that isn't as expected.
    pub fn run(&self) -> Result<(), Stopped> {
        let graph = self.plain.graph;
        for v in 0..graph.vertices() {
            if !graph.edges_at(v).is_empty() {
                self.compare_vertex(v)?;
            }
        }
        // a number that no vertex has
        self.compare_vertex(graph.vertices())?;
        for defect in &self.readings.defects {
            let height = self.readings.height_of(*defect);
            let radius = self.regions.radius(*defect);
            self.expect("radius", u64::from(*defect), radius, height)?;
        }
        for edge in 0..graph.edge_count() {
            self.compare_edge(edge)?;
        }
        let count = self.plain.nodes.len();
        self.expect("len", 0, self.regions.len(), count)?;
        for (place, node) in self.plain.nodes.iter().enumerate() {
            let name = self.regions.name_at(place);
            self.expect("name_at", place as u64, name, node.name)?;
            self.compare_node(node)?;
        }
        self.compare_cuts()
    }

    fn compare_vertex(&self, v: u32) -> Result<(), Stopped> {
        let of = u64::from(v);
        let potential = self.readings.height_of(v);
        let cover = self.readings.cover_of(v);
        self.expect("potential", of, self.regions.potential(v), potential)?;
        self.expect("cover_of", of, self.regions.cover_of(v), cover)?;
        let holder = cover.map(|node| Holder { node, potential });
        self.expect("holder", of, self.regions.holder(v), holder)?;
        if cover.is_some() {
            let walk = self.regions.source_walk(self.alloc, v)?;
            if !self.is_source_walk(walk.steps(), v) {
                let text = format!(in self.alloc; "source_walk({v}) is no such walk")?;
                return Err(Stopped::Differ(text));
            }
        }
        Ok(())
    }

    /// Whether the steps lead from a defect to the vertex, both under one outer node, and weigh as much as the defect's
    /// potential is above the vertex's.
    fn is_source_walk(&self, steps: &[Step], v: u32) -> bool {
        let defect = steps.first().map_or(v, |step| step.from);
        let mut at = defect;
        let mut weight = 0;
        for step in steps {
            if step.from != at || !self.is_step(step) {
                return false;
            }
            at = step.to;
            weight += step.weight;
        }
        let readings = self.readings;
        at == v
            && readings.defects.contains(&defect)
            && readings.cover_of(defect) == readings.cover_of(v)
            && weight + readings.height_of(v) == readings.height_of(defect)
    }

    /// Whether the step leads over its edge, which has a real end, and has its weight.
    fn is_step(&self, step: &Step) -> bool {
        let graph = self.plain.graph;
        if step.edge >= graph.edge_count() {
            return false;
        }
        let (first, second) = graph.ends(step.edge);
        let leads = (step.from, step.to) == (first, second)
            || (step.from, step.to) == (second, first);
        let has_real_end = !graph.is_virtual(first) || !graph.is_virtual(second);
        leads && has_real_end && step.weight == graph.absolute_weight(step.edge)
    }

    /// The residue is what the potentials of the ends leave of the weight, and also what the load leaves, unless one outer
    /// node holds both ends.
    fn compare_edge(&self, edge: u32) -> Result<(), Stopped> {
        let graph = self.plain.graph;
        let readings = self.readings;
        let of = u64::from(edge);
        let residue = self.regions.residue(edge);
        let (first, second) = graph.ends(edge);
        let expected = readings.residue_of(graph, edge);
        self.expect("residue", of, residue, expected)?;
        let cover = readings.cover_of(first);
        if cover.is_some() && cover == readings.cover_of(second) {
            return Ok(());
        }
        let left = graph.absolute_weight(edge).saturating_sub(readings.load_of(edge));
        self.expect("residue", of, residue, left)
    }

    fn compare_node(&self, node: &PlainNode) -> Result<(), Stopped> {
        let regions = self.regions;
        let name = node.name;
        let top = node.top();
        let expected: Vec<&PlainLayer> = node.layers.iter().collect(self.alloc)?;
        let layers = regions.layers(self.alloc, name)?;
        self.expect_layers("layers", name, &layers, &expected)?;
        let layer_count = regions.layer_count(name);
        self.expect("layer_count", name, layer_count, node.layers.len())?;
        self.expect("top_value", name, regions.top_value(name), top.value)?;
        let vertices = regions.vertices(self.alloc, name)?;
        let (found, expected) = (vertices.as_slice(), top.vertices.as_slice());
        self.expect("vertices", name, found, expected)?;
        let first = regions.first_vertex(name);
        self.expect("first_vertex", name, first, top.vertices[0])?;
        self.compare_way_back(name, expected)?;
        let is_joined = regions.is_joined(name);
        self.expect("is_joined", name, is_joined, !node.children.is_empty())
    }

    /// From the last vertex of a node the way back passes each of its vertices, and ends before the first.
    fn compare_way_back(&self, name: NodeId, vertices: &[u32]) -> Result<(), Stopped> {
        let mut at = Some(self.regions.last_vertex(name));
        for v in vertices.iter().rev() {
            self.expect("way back", name, at, Some(*v))?;
            at = self.regions.vertex_before(name, *v);
        }
        self.expect("way back", name, at, None)
    }

    /// The cuts are the layers of positive value.
    fn compare_cuts(&self) -> Result<(), Stopped> {
        let mut expected: Vec<&PlainLayer> = Vec::new(self.alloc);
        for node in &self.plain.nodes {
            for layer in &node.layers {
                if layer.value > 0 {
                    expected.push(layer)?;
                }
            }
        }
        let cuts = self.regions.cuts(self.alloc)?;
        let mut found = Vec::new(self.alloc);
        for place in 0..cuts.len() {
            found.push(Layer {
                value: cuts.value(place),
                vertices: NumberList::from_vec(Vec::from_slice(self.alloc, cuts.vertices(place))?),
            })?;
        }
        self.expect_layers("cuts", 0, &found, &expected)
    }

    /// Stops if what the call returned isn't as expected.
    fn expect<T: PartialEq + Debug + Drop>(
        &self,
        call: &str,
        of: u64,
        found: T,
        expected: T,
    ) -> Result<(), Stopped> {
        if found == expected {
            return Ok(());
        }
        let text = format!(in self.alloc; "{call}({of}) is {found:?}, expected {expected:?}")?;
        Err(Stopped::Differ(text))
    }

    /// Stops if a value, a vertex or an order isn't as expected.
    fn expect_layers(
        &self,
        call: &str,
        of: u64,
        found: &[Layer],
        expected: &[&PlainLayer],
    ) -> Result<(), Stopped> {
        let is_same = found.len() == expected.len()
            && found.iter().zip(expected.iter()).all(|(a, b)| {
                a.value == b.value && a.vertices.as_slice() == b.vertices.as_slice()
            });
        if is_same {
            return Ok(());
        }
        let text = format!(in self.alloc; "{call}({of}) is {found:?}, expected {expected:?}")?;
        Err(Stopped::Differ(text))
    }
}
