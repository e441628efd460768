//! A dual state as its definitions have it: nodes, each with a list of layers, which are lists of vertices with values.
//! Nothing is kept beside them.

use fb_graph::Graph;
use fb_regions::NodeId;
use std::alloc::{AllocError, Global};

/// A set of vertices with a value.
#[derive(Debug, Drop)]
pub struct PlainLayer {
    pub value: u64,
    pub vertices: Vec<u32>,
}

/// A defect, or a blossom of the nodes that it joins.
#[derive(Drop)]
pub struct PlainNode {
    pub name: NodeId,
    pub children: Vec<NodeId>,
    /// At least one, from the first to the top one.
    pub layers: Vec<PlainLayer>,
}

impl PlainNode {
    pub fn top(&self) -> &PlainLayer {
        &self.layers[self.layers.len() - 1]
    }

    /// Whether an outer node may be split: it joins others, and has one layer, of value 0.
    pub fn may_split(&self) -> bool {
        !self.children.is_empty() && self.layers.len() == 1 && self.top().value == 0
    }

    /// Whether an outer node may lose its top layer: it isn't the only one, and has value 0.
    pub fn may_uncover(&self) -> bool {
        self.layers.len() > 1 && self.top().value == 0
    }

    fn top_mut(&mut self) -> &mut PlainLayer {
        let last = self.layers.len() - 1;
        &mut self.layers[last]
    }
}

/// A dual state over a graph, its nodes in the order in which they were made.
#[derive(Drop)]
pub struct PlainDual<'a> {
    pub graph: &'a Graph,
    pub nodes: Vec<PlainNode>,
}

impl<'a> PlainDual<'a> {
    pub fn new(alloc: Global, graph: &'a Graph) -> PlainDual<'a> {
        PlainDual {
            graph,
            nodes: Vec::new(alloc),
        }
    }

    /// The place of the node of this name.
    fn place_of(&self, name: NodeId) -> Option<usize> {
        self.nodes.iter().position(|n| n.name == name)
    }

    pub fn is_live(&self, name: NodeId) -> bool {
        self.place_of(name).is_some()
    }

    /// The node of this name, which is live.
    fn node_mut(&mut self, name: NodeId) -> &mut PlainNode {
        let Some(place) = self.place_of(name) else {
            unreachable!()
        };
        &mut self.nodes[place]
    }

    /// Adds a node with one layer of value 0.
    fn put_node(
        &mut self,
        alloc: Global,
        name: NodeId,
        children: Vec<NodeId>,
        vertices: Vec<u32>,
    ) -> Result<(), AllocError> {
        let layers = vec![in alloc; PlainLayer { value: 0, vertices }]?;
        self.nodes.push(PlainNode {
            name,
            children,
            layers,
        })?;
        Ok(())
    }

    /// The vertex becomes a defect.
    pub fn open(&mut self, alloc: Global, name: NodeId, v: u32) -> Result<(), AllocError> {
        let vertices = vec![in alloc; v]?;
        self.put_node(alloc, name, Vec::new(alloc), vertices)
    }

    /// The named nodes are joined in a blossom, which has their vertices one after another.
    pub fn join(
        &mut self,
        alloc: Global,
        name: NodeId,
        children: &[NodeId],
    ) -> Result<(), AllocError> {
        let mut vertices = Vec::new(alloc);
        for child in children {
            if let Some(place) = self.place_of(*child) {
                vertices.extend_from_slice(&self.nodes[place].top().vertices)?;
            }
        }
        let children = Vec::from_slice(alloc, children)?;
        self.put_node(alloc, name, children, vertices)
    }

    /// The blossom is taken away.
    pub fn split(&mut self, name: NodeId) {
        self.nodes.retain(|n| n.name != name);
    }

    /// The value of the node's top layer rises.
    pub fn grow(&mut self, name: NodeId, by: u64) {
        self.node_mut(name).top_mut().value += by;
    }

    /// The value of the node's top layer falls.
    pub fn shrink(&mut self, name: NodeId, by: u64) {
        self.node_mut(name).top_mut().value -= by;
    }

    /// The node gets a further layer, of value 0, that holds the vertex too.
    pub fn take_up(&mut self, name: NodeId, v: u32) -> Result<(), AllocError> {
        let node = self.node_mut(name);
        let mut vertices = node.top().vertices.clone()?;
        vertices.push(v)?;
        node.layers.push(PlainLayer { value: 0, vertices })?;
        Ok(())
    }

    /// The node loses its top layer.
    pub fn uncover(&mut self, name: NodeId) {
        let _top = self.node_mut(name).layers.pop();
    }

    /// These nodes, and behind them those of another state under their new names.
    pub fn merged(
        self,
        alloc: Global,
        other: PlainDual<'a>,
        names: &[(NodeId, NodeId)],
        graph: &'a Graph,
    ) -> Result<PlainDual<'a>, AllocError> {
        let mut nodes = self.nodes;
        for node in other.nodes {
            let mut children = Vec::new(alloc);
            for child in &node.children {
                children.push(name_by(names, *child))?;
            }
            nodes.push(PlainNode {
                name: name_by(names, node.name),
                children,
                layers: node.layers,
            })?;
        }
        Ok(PlainDual { graph, nodes })
    }
}

/// The name beside this one in the list; the name itself where the list does not have it.
fn name_by(names: &[(NodeId, NodeId)], name: NodeId) -> NodeId {
    names
        .iter()
        .find(|pair| pair.0 == name)
        .map_or(name, |pair| pair.1)
}
