//! Windows of shots: their rows, who made them, and what the workers' tools count.

use crate::lines::{Line, is_row};
use crate::stopped::Stopped;
use fb_crew::{Crew, Entry, Gate, EntryKind, OpenGate, Window, decode_here, decode_window};
use fb_graph::{Graph, Row, Shot, components};
use fb_plan::{Join, Plan};
use std::alloc::Global;
use std::sync::atomic::{AtomicU64, Ordering};
use std::thread::Threads;

/// Three vertices without boundary, and one beside it; two units without a seam; a shot that has no correction, and one that
/// has one.
#[derive(Drop)]
struct OddFirst {
    graph: Graph,
    plan: Plan,
    shots: Vec<Shot>,
}

impl OddFirst {
    fn new(alloc: Global) -> Result<OddFirst, Stopped> {
        let graph = Graph::build(alloc, 5, &[(0, 1, 2), (1, 2, 2), (3, 4, 2)], &[4])?;
        let mut units = Vec::new(alloc);
        units.push(vec![in alloc; (0, 3)]?)?;
        units.push(vec![in alloc; (3, 4)]?)?;
        let mut fusions = Vec::new(alloc);
        fusions.push(Join {
            left: 0,
            right: 1,
            seam: Vec::new(alloc),
        })?;
        let plan = Plan::build(alloc, &graph, &units, &fusions)?;
        let mut shots = Vec::new(alloc);
        shots.push(Shot::from_rising(&graph, Vec::from_slice(alloc, &[0, 1, 2])?))?;
        shots.push(Shot::from_rising(&graph, Vec::from_slice(alloc, &[3])?))?;
        Ok(OddFirst { graph, plan, shots })
    }
}

/// A gate that counts the items of the second shot of a window, and all others.
#[derive(Drop)]
struct Counting {
    second: AtomicU64,
    others: AtomicU64,
}

impl Gate for Counting {
    fn before_post(&self, _worker: u32, slot: u32, _node: u32) {
        let count = if slot == 1 { &self.second } else { &self.others };
        count.fetch_add(1, Ordering::SeqCst);
    }
}

/// Whether the rows are those of the odd shot and of the other one.
fn are_rows(rows: &[Row]) -> bool {
    let [odd, best] = rows else {
        return false;
    };
    matches!(odd, Row::Odd(0)) && is_row(best, &[2], 2, &[(2, [3].as_slice())])
}

/// Whether each of the three items of the second shot was taken and then given by one of so many workers, and no others.
fn is_of_the_second(history: &[Entry], workers: u32) -> bool {
    let mut seen = 0;
    for entry in history {
        if entry.slot != 1 || entry.worker >= workers || entry.node > 2 {
            return false;
        }
        let bit = if entry.kind == EntryKind::Took { 1 } else { 8 };
        seen |= bit << entry.node;
    }
    history.len() == 6 && seen == 63
}

fn is_right(window: &Window, workers: u32) -> bool {
    are_rows(&window.rows) && is_of_the_second(&window.history, workers)
}

/// The gate and the history have the place of a shot in its window, odd ones counted.
pub fn have_places_among_all_shots<R: Threads + Sync>(rt: &R, alloc: Global) -> Result<(), Stopped> {
    let OddFirst { graph, plan, shots } = OddFirst::new(alloc)?;
    let mut parts = components(alloc, &graph)?;
    for workers in 1..4 {
        let gate = Counting {
            second: AtomicU64::new(0),
            others: AtomicU64::new(0),
        };
        let window = decode_window(rt, alloc, &graph, &plan, &mut parts, &shots, workers, &gate)?;
        Stopped::unless(is_right(&window, workers), "a window by workers")?;
        let seen = (gate.second.load(Ordering::SeqCst), gate.others.load(Ordering::SeqCst));
        Stopped::unless(seen == (3, 0), "the slots at the gate")?;
    }
    Ok(())
}

/// The calling thread makes the same rows, as worker 0.
pub fn are_made_on_the_calling_thread(alloc: Global) -> Result<(), Stopped> {
    let OddFirst { graph, plan, shots } = OddFirst::new(alloc)?;
    let mut parts = components(alloc, &graph)?;
    let window = decode_here(alloc, &graph, &plan, &mut parts, &shots)?;
    Stopped::unless(is_right(&window, 1), "a window on the calling thread")
}

/// How often the first worker looks for another one at the gate: some seconds, so that a second thread is there in time on
/// a busy machine too.
const TURNS: u32 = 20_000_000;

/// A gate at which the first worker waits, for a limited number of turns, until another one has come.
#[derive(Drop)]
struct Awaiting {
    /// One more than the number of the worker that came first; 0 if nobody came.
    first: AtomicU64,
    /// 1 if another worker has come.
    another: AtomicU64,
}

impl Awaiting {
    fn new() -> Awaiting {
        Awaiting {
            first: AtomicU64::new(0),
            another: AtomicU64::new(0),
        }
    }
}

impl Gate for Awaiting {
    fn before_post(&self, worker: u32, _slot: u32, _node: u32) {
        let mark = u64::from(worker) + 1;
        match self.first.compare_exchange(0, mark, Ordering::SeqCst, Ordering::SeqCst) {
            Ok(_) => {
                for _ in 0..TURNS {
                    if self.another.load(Ordering::SeqCst) == 1 {
                        return;
                    }
                }
            }
            Err(first) if first != mark => self.another.store(1, Ordering::SeqCst),
            Err(_) => {}
        }
    }
}

/// The history of a window of three shots with this number of defects each, by a plan of two units and four workers.
fn history_of<G: Gate, R: Threads + Sync>(
    rt: &R,
    alloc: Global,
    defects: u32,
    gate: &G,
) -> Result<Vec<Entry>, Stopped> {
    let line = Line::new(alloc, vec![in alloc; 2; 302]?.as_slice(), &[151])?;
    let mut all = Vec::new(alloc);
    for v in 0..defects {
        all.push(v + 1)?;
    }
    let mut shots = Vec::new(alloc);
    for _ in 0..3 {
        shots.push(line.shot(alloc, &all)?)?;
    }
    let mut crew = Crew::new(alloc, &line.graph, &line.plan, 4)?;
    let window = crew.decode_window(rt, alloc, &shots, gate)?;
    Stopped::unless(window.history.len() == 18, "the length of a window's history")?;
    Ok(window.history)
}

/// With 381 defects in all, one worker does the six units of a window.
pub fn have_one_worker<R: Threads + Sync>(rt: &R, alloc: Global) -> Result<(), Stopped> {
    let history = history_of(rt, alloc, 127, &OpenGate)?;
    Stopped::unless(history.iter().all(|entry| entry.worker == 0), "the only worker of a window")
}

/// With 384 defects in all, two of four workers do the six units of a window.
pub fn have_two_workers<R: Threads + Sync>(rt: &R, alloc: Global) -> Result<(), Stopped> {
    let history = history_of(rt, alloc, 128, &Awaiting::new())?;
    let [mut first, mut second] = [false, false];
    for entry in &history {
        Stopped::unless(entry.worker < 2, "a third worker of a window")?;
        first |= entry.worker == 0;
        second |= entry.worker == 1;
    }
    Stopped::unless(first && second, "the two workers of a window")
}

/// What the tools of all workers count, by a crew that decodes this shot alone: units, their searches, fusions, their searches.
fn counts_of<R: Threads + Sync>(
    rt: &R,
    alloc: Global,
    line: &Line,
    plan: &Plan,
    workers: u32,
    defects: &[u32],
) -> Result<[u64; 4], Stopped> {
    let mut crew = Crew::new(alloc, &line.graph, plan, workers)?;
    let mut shots = Vec::new(alloc);
    shots.push(line.shot(alloc, defects)?)?;
    crew.decode_window(rt, alloc, &shots, &OpenGate)?;
    let Some(tools) = crew.tools() else {
        return Err(Stopped::Differs("the tools after a window"));
    };
    let mut all = [0, 0, 0, 0];
    for tool in tools {
        let counts = tool.counts();
        all[0] += counts.units;
        all[1] += counts.unit_searches;
        all[2] += counts.fusions;
        all[3] += counts.fusion_searches;
    }
    Ok(all)
}

/// Defects at 1 and 3, and at 1, 2 and 3: each unit matches its defect, one of them to the seam at 2, whose fusion makes one
/// search. It makes one for a defect at 2 alone too. Without a plan nothing is fused.
pub fn count_what_is_done<R: Threads + Sync>(rt: &R, alloc: Global) -> Result<(), Stopped> {
    let line = Line::new(alloc, &[2, 4, 2, 6], &[2])?;
    for workers in 1..3 {
        for (defects, of_units) in [([1, 3].as_slice(), 2), ([1, 2, 3].as_slice(), 2), ([2].as_slice(), 0)] {
            let counts = counts_of(rt, alloc, &line, &line.plan, workers, defects)?;
            Stopped::unless(counts == [2, of_units, 1, 1], "the counts of two units and their fusion")?;
        }
    }
    let single = Plan::single(alloc, &line.graph)?;
    let counts = counts_of(rt, alloc, &line, &single, 2, &[1, 3])?;
    Stopped::unless(counts[0] == 1 && counts[2] == 0 && counts[3] == 0, "the counts without a plan")
}
