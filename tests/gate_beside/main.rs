//! Runs of the whole program over files and sinks in memory, with a gate at which the first unit waits until another one is
//! there: workers solve side by side what the report says that they gave. It prints what differs, and how many samples
//! passed.

#![tactic(auto)]

mod meeting;
mod problems;
mod runs;
mod stopped;

use std::io;
use stopped::Stopped;

fn main(rt: HostRuntime) -> io::Result<()> {
    let alloc = rt.alloc();
    let answers = [
        ("two workers meet with two units", runs::meet_with_two_units(&rt, alloc)),
        ("four workers meet with four units", runs::meet_with_four_units(&rt, alloc)),
        ("one worker meets nobody", runs::meet_nobody_alone(&rt, alloc)),
    ];
    let (mut passed, mut failed) = (0, 0);
    for (name, answer) in answers {
        match answer {
            Ok(()) => passed += 1,
            Err(stopped) => {
                println!(rt; "{name}: {stopped}")?;
                failed += 1;
            }
        }
    }
    println!(rt; "{passed} passed, {failed} failed")
}
