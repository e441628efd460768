//! Runs of the program by workers that meet at the gate.

use crate::meeting::Meeting;
use crate::problems::{Problem, lattice, line};
use crate::stopped::Stopped;
use fb_ports::{MemFiles, MemSink};
use fb_run::{Gate, OpenGate, run};
use std::alloc::Global;
use std::str;
use std::thread::Threads;

/// More than any report here has.
const ROOM: usize = 65_536;

/// What the program writes for these words.
fn output_of<G: Gate, R: Threads + Sync>(
    rt: &R,
    alloc: Global,
    words: &[&str],
    files: &mut MemFiles,
    gate: &G,
) -> Result<MemSink, Stopped> {
    let mut all = Vec::new(alloc);
    for word in words {
        all.push(String::from_str(alloc, *word)?)?;
    }
    let mut out = MemSink::new(alloc, ROOM)?;
    let mut err = MemSink::new(alloc, ROOM)?;
    let ended = run(rt, alloc, &all, files, &mut out, &mut err, gate);
    Stopped::unless(ended.status == 0, "the status")?;
    Stopped::unless(err.taken().is_empty(), "standard error")?;
    Ok(out)
}

/// The files of a problem.
fn files_of(alloc: Global, problem: &Problem) -> Result<MemFiles, Stopped> {
    let mut files = MemFiles::new(alloc)?;
    files.add(alloc, "graph", problem.graph.as_str().as_bytes())?;
    files.add(alloc, "plan", problem.plan.as_str().as_bytes())?;
    files.add(alloc, "shots", problem.shots.as_str().as_bytes())?;
    Ok(files)
}

/// The report of a problem's shot by workers, with its trace.
fn report_of<R: Threads + Sync>(
    rt: &R,
    alloc: Global,
    problem: &Problem,
    workers: &'static str,
    gate: &Meeting,
) -> Result<MemSink, Stopped> {
    let mut files = files_of(alloc, problem)?;
    let words = [
        "fusion", "decode", "--graph", "graph", "--plan", "plan", "--shots", "shots", "--format", "01", "--workers", workers,
        "--trace",
    ];
    output_of(rt, alloc, &words, &mut files, gate)
}

/// The report has the best correction, and `check` finds its cuts good.
fn is_best<R: Threads + Sync>(
    rt: &R,
    alloc: Global,
    problem: &Problem,
    report: &[u8],
) -> Result<(), Stopped> {
    let Ok(text) = str::from_utf8(report) else {
        return Err(Stopped::Differs("the report's encoding"));
    };
    let mut found = 0;
    for line in text.lines() {
        if line == problem.edges.as_str() || line == problem.weight {
            found += 1;
        }
    }
    Stopped::unless(found == 2, "the edges or the weight")?;
    let mut files = files_of(alloc, problem)?;
    files.add(alloc, "report", report)?;
    let words = ["fusion", "check", "--graph", "graph", "--shots", "shots", "--format", "01", "--report", "report"];
    let verdict = output_of(rt, alloc, &words, &mut files, &OpenGate)?;
    let good = b"check-report 1\nshot 0 good\n".as_slice();
    Stopped::unless(verdict.taken().starts_with(good), "the verdict")
}

/// The worker and the node of a line `gave`, if it is of the first shot.
fn gave_of(line: &str) -> Option<(u64, u64)> {
    let rest = line.strip_prefix("gave ")?;
    let (worker, rest) = rest.split_once(' ')?;
    let node = rest.strip_prefix("0 ")?;
    match (worker.parse::<u64>(), node.parse::<u64>()) {
        (Ok(worker), Ok(node)) => Some((worker, node)),
        _ => None,
    }
}

/// The workers that the report names came to the gate, each with what it gave, and nobody else.
fn names_who_came(report: &[u8], problem: &Problem, gate: &Meeting) -> Result<(), Stopped> {
    let Ok(text) = str::from_utf8(report) else {
        return Err(Stopped::Differs("the report's encoding"));
    };
    // The lines go by node, so each node is given once.
    let mut count: u32 = 0;
    for line in text.lines() {
        if !line.starts_with("gave ") {
            continue;
        }
        let Some((worker, node)) = gave_of(line) else {
            return Err(Stopped::Differs("a line of the trace"));
        };
        Stopped::unless(node == u64::from(count) && gate.has_noted(worker, node), "who gave a node")?;
        count += 1;
    }
    Stopped::unless(count == problem.nodes, "the number of nodes given")?;
    Stopped::unless(gate.has_seen_each_once(), "who came to the gate")
}

/// Workers that meet with units make the best row, and the report names who came.
fn meet<R: Threads + Sync>(
    rt: &R,
    alloc: Global,
    problem: &Problem,
    workers: &'static str,
) -> Result<(), Stopped> {
    let gate = Meeting::new(alloc, problem.units, problem.nodes)?;
    let report = report_of(rt, alloc, problem, workers, &gate)?;
    Stopped::unless(gate.has_met(), "whether two units meet")?;
    Stopped::unless(gate.has_seen_several_workers(), "how many workers solve units")?;
    names_who_came(report.taken(), problem, &gate)?;
    is_best(rt, alloc, problem, report.taken())
}

/// Two units of one defect each.
pub fn meet_with_two_units<R: Threads + Sync>(rt: &R, alloc: Global) -> Result<(), Stopped> {
    meet(rt, alloc, &line(alloc)?, "2")
}

/// Four units of twenty defects each.
pub fn meet_with_four_units<R: Threads + Sync>(rt: &R, alloc: Global) -> Result<(), Stopped> {
    meet(rt, alloc, &lattice(alloc)?, "4")
}

/// One worker makes the same row, and waits in vain.
pub fn meet_nobody_alone<R: Threads + Sync>(rt: &R, alloc: Global) -> Result<(), Stopped> {
    let problem = line(alloc)?;
    let gate = Meeting::new(alloc, problem.units, problem.nodes)?;
    let report = report_of(rt, alloc, &problem, "1", &gate)?;
    Stopped::unless(!gate.has_met(), "whether one worker meets another")?;
    names_who_came(report.taken(), &problem, &gate)?;
    is_best(rt, alloc, &problem, report.taken())
}
