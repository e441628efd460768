//! Random moves on a dual state of `fb_regions` and on a plain one beside it, whose observations are all compared. After some
//! moves `fb_obstacles` is asked what is in the way of random trees, and the answers are compared with a plain scan. Before
//! them comes one search whose edges are known.

use crate::asking::KINDS;
use crate::first_search::play_first_search;
use crate::moves::Kind;
use crate::rounds::Player;
use crate::shapes::SHAPES;
use std::alloc::Global;
use std::io;

/// Plays some rounds on each shape of graph, with so many moves on each part of it. Prints what differs, and how many moves and
/// answers of each kind there were; returns how many comparisons passed and failed.
pub fn play(rt: &impl Print, alloc: Global, seed: u64, rounds: u64, moves: u64) -> io::Result<(u64, u64)> {
    let mut player = Player::new(alloc, seed);
    let mut failed = 0;
    if let Err(stopped) = play_first_search(alloc, &mut player.asker) {
        println!(rt; "the first search: {stopped}")?;
        failed += 1;
    }
    for round in 0..rounds {
        for shape in SHAPES {
            if let Err(stopped) = player.play_round(shape, moves) {
                println!(rt; "{shape:?}, round {round}: {stopped}")?;
                failed += 1;
            }
        }
    }
    print_counts(rt, &player)?;
    Ok((player.passed + player.asker.passed(), failed))
}

/// Prints how often each kind of move, a used name and a deep nest came up.
fn print_counts(rt: &impl Print, player: &Player) -> io::Result<()> {
    for (kind, made) in Kind::ALL.iter().zip(player.made.iter()) {
        let name = kind.name();
        print!(rt; "{name} {made}, ")?;
    }
    let merged = player.merged;
    println!(rt; "merged {merged}")?;
    let named_again = player.named_again;
    println!(rt; "names used again: {named_again}")?;
    let (deep, deepest) = (player.deep, player.deepest);
    println!(rt; "nests of ten or more blossoms: {deep} times, the deepest of {deepest}")?;
    let clock_steps = player.asker.clock_steps;
    println!(rt; "steps of the clock: {clock_steps}")?;
    print_answers(rt, "next_obstacle", &player.asker.answers)
}

/// Prints how often a call gave each kind of answer.
fn print_answers(rt: &impl Print, call: &str, answers: &[u64; 8]) -> io::Result<()> {
    print!(rt; "{call}: ")?;
    for (name, count) in KINDS.iter().zip(answers.iter()) {
        if *name != KINDS[0] {
            print!(rt; ", ")?;
        }
        print!(rt; "{name} {count}")?;
    }
    println!(rt; "")
}
