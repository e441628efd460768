//! Closed sets of a graph: real vertices that no edge leaves.

use fb_graph::Graph;
use std::alloc::{AllocError, Global};

/// Whether no closed set holds an odd number of these defects. It is enough to look at each component without boundary,
/// since any closed set is made of such components.
pub fn has_no_odd_closed(
    alloc: Global,
    graph: &Graph,
    defects: &[u32],
) -> Result<bool, AllocError> {
    let least = least_joined(alloc, graph)?;
    let mut are_odd = vec![in alloc; false; least.len()]?;
    for defect in defects {
        let component = least[*defect as usize] as usize;
        are_odd[component] = !are_odd[component];
    }
    for v in 0..graph.vertices() {
        if graph.is_virtual(v) {
            are_odd[least[v as usize] as usize] = false;
        }
    }
    Ok(are_odd.iter().all(|is_odd| !*is_odd))
}

/// For each vertex the least one that is joined to it.
fn least_joined(alloc: Global, graph: &Graph) -> Result<Vec<u32>, AllocError> {
    let mut least: Vec<u32> = (0..graph.vertices()).collect(alloc)?;
    let mut has_changed = true;
    while has_changed {
        has_changed = false;
        for edge in 0..graph.edge_count() {
            let (first, second) = graph.ends(edge);
            let low = least[first as usize].min(least[second as usize]);
            for end in [first, second] {
                if least[end as usize] > low {
                    least[end as usize] = low;
                    has_changed = true;
                }
            }
        }
    }
    Ok(least)
}
