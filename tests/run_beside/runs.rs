//! Runs of the program over files and sinks in memory.

use crate::stopped::Stopped;
use fb_ports::{Files, MemFiles, MemSink, read_whole};
use fb_run::{Ended, OpenGate, run};
use std::alloc::Global;
use std::thread::Threads;

/// A line of five vertices, whose ends are virtual.
pub const GRAPH: &[u8] =
    b"{\"vertex_num\":5,\"weighted_edges\":[[0,1,2],[1,2,4],[2,3,2],[3,4,6]],\"virtual_vertices\":[0,4]}";
/// The vertices 0 and 1, and 3 and 4, joined at 2.
const PLAN: &[u8] = b"{\"units\":[[[0,2]],[[3,5]]],\"fusions\":[{\"of\":[0,1],\"interface\":[[2,3]]}]}";
pub const DECODE: &str = "fusion decode --graph g --shots s --format 01";
const CHECK: &str = "fusion check --graph g --shots s --format 01 --report r";

const ROW_100: &[u8] = b"shot 0\nedges 0\nbase 0\nweight 2\n";
const TWO_SHOTS: &[u8] =
    b"fusion-report 2\nshot 0\nedges 0\nbase 0\nweight 2\nshot 1\nedges 0 1\nbase 0\nweight 6\ndone 2 odd 0 units 2 fusions 0\n";
const HEAD: &[u8] = b"fusion-report 2\n";
const ROOM: usize = 4096;

/// The words of a command line that are divided by single spaces.
pub fn words_of(alloc: Global, line: &str) -> Result<Vec<String>, Stopped> {
    let mut words = Vec::new(alloc);
    for word in line.split(' ') {
        words.push(String::from_str(alloc, word)?)?;
    }
    Ok(words)
}

/// Files in memory, with the graph of the line as `g`, the plan as `p` and these shots as `s`.
pub fn files_of(alloc: Global, shots: &[u8]) -> Result<MemFiles, Stopped> {
    let mut files = MemFiles::new(alloc)?;
    files.add(alloc, "g", GRAPH)?;
    files.add(alloc, "p", PLAN)?;
    files.add(alloc, "s", shots)?;
    Ok(files)
}

/// The lines of a text that aren't those of cuts, of which a row may have any that `check` takes.
fn without_cuts(alloc: Global, text: &[u8]) -> Result<Vec<u8>, Stopped> {
    let mut lines = Vec::new(alloc);
    let mut start = 0;
    for (at, byte) in text.iter().enumerate() {
        if *byte == b'\n' {
            let line = &text[start..at + 1];
            if &line[..line.len().min(4)] != b"cut ".as_slice() {
                lines.extend_from_slice(line)?;
            }
            start = at + 1;
        }
    }
    lines.extend_from_slice(&text[start..])?;
    Ok(lines)
}

/// What a run has written, and how it ended.
#[derive(Drop)]
struct Answer {
    ended: Ended,
    out: MemSink,
    err: MemSink,
}

impl Answer {
    fn is(&self, status: u8, out: &[u8], err: &[u8]) -> bool {
        self.ended.status == status && self.out.taken() == out && self.err.taken() == err
    }
}

/// Runs a command line over files, into a sink.
fn run_into<R: Threads + Sync>(
    rt: &R,
    alloc: Global,
    line: &str,
    files: &mut MemFiles,
    mut out: MemSink,
) -> Result<Answer, Stopped> {
    let words = words_of(alloc, line)?;
    let mut err = MemSink::new(alloc, ROOM)?;
    let ended = run(rt, alloc, &words, files, &mut out, &mut err, &OpenGate);
    Ok(Answer { ended, out, err })
}

/// Runs a command line over files, into a sink that has room.
fn run_with<R: Threads + Sync>(
    rt: &R,
    alloc: Global,
    line: &str,
    files: &mut MemFiles,
) -> Result<Answer, Stopped> {
    let out = MemSink::new(alloc, ROOM)?;
    run_into(rt, alloc, line, files, out)
}

/// An error if a run didn't end so and write these lines, apart from its cuts, or if `check` finds a row of it bad.
fn demand_report<R: Threads + Sync>(
    rt: &R,
    alloc: Global,
    answer: &Answer,
    shots: &[u8],
    lines: &[u8],
) -> Result<(), Stopped> {
    let report = answer.out.taken();
    Stopped::unless(answer.is(0, report, b""), "the status")?;
    Stopped::unless(without_cuts(alloc, report)?.as_slice() == lines, "the report")?;
    let mut files = files_of(alloc, shots)?;
    files.add(alloc, "r", report)?;
    let checked = run_with(rt, alloc, CHECK, &mut files)?;
    Stopped::unless(checked.ended.status == 0, "the check of the report")
}

/// By one worker, whose events are known, and by two.
pub fn decodes_by_a_plan<R: Threads + Sync>(rt: &R, alloc: Global) -> Result<(), Stopped> {
    let mut files = files_of(alloc, b"101\n")?;
    let line = "fusion decode --graph g --plan p --shots s --format 01 --workers 1 --trace";
    let answer = run_with(rt, alloc, line, &mut files)?;
    let text = b"fusion-report 2\nshot 0\nedges 1 2\nbase 0\nweight 6\ntook 0 0 0\ngave 0 0 0\ntook 0 0 1\ngave 0 0 1\ntook 0 0 2\ngave 0 0 2\ndone 1 odd 0 units 2 fusions 1\n";
    demand_report(rt, alloc, &answer, b"101\n", text)?;
    Stopped::unless(files.asked().len() == 3, "how many names were asked for")?;

    let mut files = files_of(alloc, b"111\n")?;
    let line = "fusion decode --graph g --plan p --shots s --format 01 --workers 2";
    let answer = run_with(rt, alloc, line, &mut files)?;
    let text = b"fusion-report 2\nshot 0\nedges 0 2\nbase 0\nweight 4\ndone 1 odd 0 units 2 fusions 1\n";
    demand_report(rt, alloc, &answer, b"111\n", text)
}

/// Two shots of words, and one that names a detector twice, read in pieces of 1, 2 and 7 bytes.
pub fn ends_at_a_refused_shot<R: Threads + Sync>(rt: &R, alloc: Global) -> Result<(), Stopped> {
    let text = b"fusion-report 2\nshot 0\nedges 1 2\nbase 0\nweight 6\nshot 1\nedges\nbase 0\nweight 0\n".as_slice();
    for piece in [1, 2, 7, 64] {
        let mut files = files_of(alloc, b"shot D0 L0 D2\n\nshot\nshot D1 D1\n")?;
        files.give_at_most(piece);
        let answer = run_with(rt, alloc, "fusion decode --graph g --shots s --format dets", &mut files)?;
        let report = answer.out.taken();
        Stopped::unless(answer.is(2, report, b"fusion: refused RepeatedIndex shot 2\n"), "the refusal")?;
        Stopped::unless(without_cuts(alloc, report)?.as_slice() == text, "the report")?;
    }
    Ok(())
}

/// Reads and puts of one byte each.
pub fn moves_single_bytes<R: Threads + Sync>(rt: &R, alloc: Global) -> Result<(), Stopped> {
    let mut files = files_of(alloc, b"000\n")?;
    files.give_at_most(1);
    let mut out = MemSink::new(alloc, ROOM)?;
    out.take_at_most(1);
    let answer = run_into(rt, alloc, DECODE, &mut files, out)?;
    let text = b"fusion-report 2\nshot 0\nedges\nbase 0\nweight 0\ndone 1 odd 0 units 1 fusions 0\n".as_slice();
    Stopped::unless(answer.is(0, text, b""), "the report")
}

/// A report is checked whose row is good, or has cuts that are too heavy for an edge, or too light in sum.
pub fn checks_rows<R: Threads + Sync>(rt: &R, alloc: Global) -> Result<(), Stopped> {
    let rows = [
        ("cut 2 1\ncut 2 2 3\ncut 2 3\n", 0, "good", "0"),
        ("cut 2 1\ncut 1 2 3\ncut 3 3\n", 1, "bad Overloaded 2", "1"),
        ("cut 2 1\ncut 2 3\n", 1, "bad SumDiffers 6 4", "1"),
    ];
    for (cuts, status, verdict, bad) in rows {
        let report = format!(in alloc; "fusion-report 2\nshot 0\nedges 1 2\nbase 0\nweight 6\n{cuts}done 1 odd 0 units 1 fusions 0\n")?;
        let mut files = files_of(alloc, b"101\n")?;
        files.add(alloc, "r", report.as_bytes())?;
        let answer = run_with(rt, alloc, CHECK, &mut files)?;
        let text = format!(in alloc; "check-report 1\nshot 0 {verdict}\nrows 1 shots 1 bad {bad}\n")?;
        Stopped::unless(answer.is(status, text.as_bytes(), b""), "the verdict")?;
    }
    Ok(())
}

/// All edges are hit, or none.
pub fn samples_lattices<R: Threads + Sync>(rt: &R, alloc: Global) -> Result<(), Stopped> {
    let samples = [
        ("2", "1", "1", "1048576", "shots 1 defects 2 weight 20\ndone units 1 fusions 0\n"),
        ("3", "3", "2", "1048576", "shots 1 defects 8 weight 80\ndone units 2 fusions 1\n"),
        ("3", "3", "2", "0", "shots 1 defects 0 weight 0\ndone units 2 fusions 1\n"),
    ];
    for (distance, rounds, units, rate, end) in samples {
        let line = format!(in alloc; "fusion sample --distance {distance} --rounds {rounds} --units {units} --rate {rate} --start 0 --shots 1")?;
        let text = format!(in alloc; "fusion-sample 1\ndistance {distance} rounds {rounds} units {units} rate {rate} start 0\n{end}")?;
        let mut files = MemFiles::new(alloc)?;
        let answer = run_with(rt, alloc, line.as_str(), &mut files)?;
        Stopped::unless(answer.is(0, text.as_bytes(), b""), "the sample")?;
        Stopped::unless(files.asked().is_empty(), "the names asked for")?;
    }
    let mut files = MemFiles::new(alloc)?;
    let line = "fusion sample --distance 3 --rounds 2 --units 2 --rate 0 --start 0 --shots 1";
    let answer = run_with(rt, alloc, line, &mut files)?;
    Stopped::unless(answer.is(2, b"", b"fusion: refused TooFewRounds\n"), "the refusal")
}

/// Two units and one; too few layers; a put that fails after ten bytes.
pub fn plans_graphs<R: Threads + Sync>(rt: &R, alloc: Global) -> Result<(), Stopped> {
    let two = b"{\"units\":[[[1,2]],[[3,4]]],\"fusions\":[{\"of\":[0,1],\"interface\":[[2,3]]}]}\n".as_slice();
    let one = b"{\"units\":[[[1,4]]],\"fusions\":[]}\n".as_slice();
    for (units, text) in [("2", two), ("1", one)] {
        let line = format!(in alloc; "fusion plan --graph g --units {units}")?;
        let mut files = files_of(alloc, b"")?;
        files.give_at_most(7);
        let answer = run_with(rt, alloc, line.as_str(), &mut files)?;
        Stopped::unless(answer.is(0, text, b""), "the plan")?;
        Stopped::unless(files.asked().len() == 1, "how many names were asked for")?;
    }
    let mut files = files_of(alloc, b"")?;
    let answer = run_with(rt, alloc, "fusion plan --graph g --units 3", &mut files)?;
    Stopped::unless(answer.is(2, b"", b"fusion: refused TooFewLayers 3\n"), "the refusal")?;
    let mut files = files_of(alloc, b"")?;
    let out = MemSink::new(alloc, 10)?;
    let answer = run_into(rt, alloc, "fusion plan --graph g --units 2", &mut files, out)?;
    Stopped::unless(answer.is(4, &two[..10], b"fusion: write fault\n"), "the fault")
}

/// The rows that stand when a call of the files fails: those of the shots that the bytes read by then settle. The second shot
/// has no newline, so that only the file's end settles it.
pub fn fails_at_each_call<R: Threads + Sync>(rt: &R, alloc: Global) -> Result<(), Stopped> {
    for call in 1..8_u64 {
        let mut files = files_of(alloc, b"100\n010")?;
        files.fail_at(vec![in alloc; call]?);
        let answer = run_with(rt, alloc, DECODE, &mut files)?;
        let mut text = Vec::new(alloc);
        if call > 3 {
            text.extend_from_slice(HEAD)?;
        }
        if call == 6 {
            text.extend_from_slice(ROW_100)?;
        }
        if call > 6 {
            demand_report(rt, alloc, &answer, b"100\n010", TWO_SHOTS)?;
        } else {
            let report = answer.out.taken();
            Stopped::unless_at(answer.is(3, report, b"fusion: read fault\n"), "the fault", call)?;
            Stopped::unless_at(without_cuts(alloc, report)?.as_slice() == text.as_slice(), "the rows", call)?;
        }
    }
    Ok(())
}

/// A put that fails leaves what the puts before it took, and the run ends.
pub fn fails_at_each_put<R: Threads + Sync>(rt: &R, alloc: Global) -> Result<(), Stopped> {
    let mut files = files_of(alloc, b"100\n010")?;
    let whole = run_with(rt, alloc, DECODE, &mut files)?;
    demand_report(rt, alloc, &whole, b"100\n010", TWO_SHOTS)?;
    let report = whole.out.taken();
    for size in [1, 7, ROOM] {
        let mut call = 1;
        loop {
            let mut files = files_of(alloc, b"100\n010")?;
            let mut out = MemSink::new(alloc, ROOM)?;
            out.take_at_most(size);
            out.fail_at(vec![in alloc; call]?);
            let answer = run_into(rt, alloc, DECODE, &mut files, out)?;
            if answer.ended.status == 0 {
                Stopped::unless_at(answer.is(0, report, b""), "the whole report", call)?;
                break;
            }
            let taken = answer.out.taken();
            let is_prefix = taken.len() < report.len() && taken == &report[..taken.len()];
            Stopped::unless_at(is_prefix, "what was taken", call)?;
            Stopped::unless_at(answer.is(4, taken, b"fusion: write fault\n"), "the fault", call)?;
            call += 1;
        }
        Stopped::unless(call > 1, "the number of puts")?;
    }
    Ok(())
}

/// Of many shots, most aren't read when a sink takes no more than the head.
pub fn stops_reading<R: Threads + Sync>(rt: &R, alloc: Global) -> Result<(), Stopped> {
    let mut shots = Vec::new(alloc);
    for _ in 0..50_000 {
        shots.extend_from_slice(b"000\n")?;
    }
    let mut files = files_of(alloc, &shots)?;
    let out = MemSink::new(alloc, HEAD.len())?;
    let answer = run_into(rt, alloc, "fusion decode --graph g --shots s --format 01 --window 1", &mut files, out)?;
    Stopped::unless(answer.is(4, HEAD, b"fusion: write fault\n"), "the report")?;
    let Ok(left) = read_whole(alloc, &mut files, shots.len()) else {
        return Err(Stopped::Differs("what is left"));
    };
    Stopped::unless(left.len() >= 100_000, "how many bytes are left")
}
