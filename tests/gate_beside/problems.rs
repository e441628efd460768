//! Graphs, plans and shots as texts, with the lines that a report must have.

use crate::stopped::Stopped;
use std::alloc::Global;

/// A graph with a plan and a shot, and the edges and the weight of the best correction, of which there is one alone.
#[derive(Drop)]
pub struct Problem {
    pub graph: String,
    pub plan: String,
    pub shots: String,
    pub units: u32,
    pub nodes: u32,
    pub edges: String,
    pub weight: &'static str,
}

/// A line of three detectors, the outer two of which fire, and a plan whose seam is between them.
pub fn line(alloc: Global) -> Result<Problem, Stopped> {
    let graph = r#"{"vertex_num":5,"weighted_edges":[[0,1,2],[1,2,4],[2,3,2],[3,4,6]],"virtual_vertices":[0,4]}"#;
    let plan = r#"{"units":[[[0,2]],[[3,5]]],"fusions":[{"of":[0,1],"interface":[[2,3]]}]}"#;
    Ok(Problem {
        graph: String::from_str(alloc, graph)?,
        plan: String::from_str(alloc, plan)?,
        shots: String::from_str(alloc, "101\n")?,
        units: 2,
        nodes: 3,
        edges: String::from_str(alloc, "edges 1 2")?,
        weight: "weight 6",
    })
}

/// The rows of the lattice: four units of five rows, with a seam of one row between two of them.
const ROWS: u32 = 23;

/// The vertices of a row. The outer two are boundary, and the four between them fire in each row.
const COLUMNS: u32 = 6;

/// A lattice whose edges along a row weigh 2, and those between two rows 6. The best correction joins the first detector of
/// each row with the second one, and the third with the fourth: each cut of one detector crosses edges that weigh at least
/// 2, so no row can do with less than 4.
pub fn lattice(alloc: Global) -> Result<Problem, Stopped> {
    let mut edges = String::from_str(alloc, "")?;
    let mut virtuals = String::from_str(alloc, "")?;
    let mut best = String::from_str(alloc, "edges")?;
    let mut shots = String::from_str(alloc, "")?;
    for row in 0..ROWS {
        let first = row * COLUMNS;
        for column in 1..COLUMNS {
            let comma = if row == 0 && column == 1 { "" } else { "," };
            let edge = format!(in alloc; "{comma}[{},{},2]", first + column - 1, first + column)?;
            edges.push_str(edge.as_str())?;
        }
        let comma = if row == 0 { "" } else { "," };
        let ends = format!(in alloc; "{comma}{first},{}", first + COLUMNS - 1)?;
        virtuals.push_str(ends.as_str())?;
        let pairs = format!(in alloc; " {} {}", row * (COLUMNS - 1) + 1, row * (COLUMNS - 1) + 3)?;
        best.push_str(pairs.as_str())?;
        shots.push_str("1111")?;
    }
    for row in 1..ROWS {
        for column in 1..COLUMNS - 1 {
            let below = row * COLUMNS + column;
            let edge = format!(in alloc; ",[{},{below},6]", below - COLUMNS)?;
            edges.push_str(edge.as_str())?;
        }
    }
    shots.push_str("\n")?;
    let count = ROWS * COLUMNS;
    let graph = format!(in alloc;
        r#"{{"vertex_num":{count},"weighted_edges":[{}],"virtual_vertices":[{}]}}"#, edges.as_str(), virtuals.as_str())?;
    let units = r#"{"units":[[[0,30]],[[36,66]],[[72,102]],[[108,138]]],"#;
    let fusions = r#""fusions":[{"of":[0,1],"interface":[[30,36]]},{"of":[2,3],"interface":[[102,108]]},"#;
    let root = r#"{"of":[4,5],"interface":[[66,72]]}]}"#;
    let plan = format!(in alloc; "{units}{fusions}{root}")?;
    Ok(Problem {
        graph,
        plan,
        shots,
        units: 4,
        nodes: 7,
        edges: best,
        weight: "weight 92",
    })
}
