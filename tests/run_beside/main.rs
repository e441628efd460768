//! Runs of the whole program over files and sinks in memory, and readers of shots that are fed by hand in pieces, on samples
//! whose answers are known. It prints what differs, and how many samples passed.

#![tactic(auto)]

mod cut;
mod fed;
mod runs;
mod stopped;
mod watched;

use std::io;
use stopped::Stopped;

fn main(rt: HostRuntime) -> io::Result<()> {
    let alloc = rt.alloc();
    let answers = [
        ("a block is read from pieces", fed::reads_a_block(alloc)),
        ("a bit past the last detector is refused", fed::refuses_a_padding_bit(alloc)),
        ("half a block is refused at the end", fed::refuses_half_a_block(alloc)),
        ("lines of words are read from pieces", fed::reads_lines_of_words(alloc)),
        ("a word that grows is refused when it ends", fed::refuses_an_index_that_grows(alloc)),
        ("lines of hits are read, however cut", cut::reads_hits(alloc)),
        ("each rule of hits is told, however cut", cut::refuses_hits(alloc)),
        ("a bad hit is refused when it ends", cut::refuses_a_hit_at_its_comma(alloc)),
        ("runs are read, however cut", cut::reads_runs(alloc)),
        ("long runs are read, however cut", cut::reads_long_runs(alloc)),
        ("each rule of runs is told, however cut", cut::refuses_runs(alloc)),
        ("a decode by a plan, with its events", runs::decodes_by_a_plan(&rt, alloc)),
        ("a decode that ends at a refused shot", runs::ends_at_a_refused_shot(&rt, alloc)),
        ("a decode from and to single bytes", runs::moves_single_bytes(&rt, alloc)),
        ("a check of good and of bad rows", runs::checks_rows(&rt, alloc)),
        ("samples of two lattices", runs::samples_lattices(&rt, alloc)),
        ("plans of a graph by its layers", runs::plans_graphs(&rt, alloc)),
        ("each call of the files fails in turn", runs::fails_at_each_call(&rt, alloc)),
        ("each put fails in turn", runs::fails_at_each_put(&rt, alloc)),
        ("a reader that leaves stops the reads", runs::stops_reading(&rt, alloc)),
        ("rows are out before the next window", watched::writes_rows_before_it_reads_on(&rt, alloc)),
        ("a check writes its head before it reads", watched::writes_the_head_before_it_reads(&rt, alloc)),
        ("nothing is asked after a failure", watched::asks_nothing_after_a_failure(&rt, alloc)),
    ];
    let (mut passed, mut failed) = (0, 0);
    for (name, answer) in answers {
        match answer {
            Ok(()) => passed += 1,
            Err(stopped) => {
                println!(rt; "{name}: {stopped}")?;
                failed += 1;
            }
        }
    }
    println!(rt; "{passed} passed, {failed} failed")
}
