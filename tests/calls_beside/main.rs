//! Calls that no run of the program makes, on samples whose answers are known: of links, blossoms, trees, parts, boards,
//! workers, windows, weights of shots, plans by layers, and files and sinks in memory. Then random moves on a dual state,
//! beside a plain one.
//!
//! Its arguments are a seed, the number of rounds, and that of the moves on each part of a graph. It prints what differs,
//! and how many samples and comparisons passed.

#![tactic(auto)]

mod asking;
mod board;
mod branches;
mod choosing;
mod closed;
mod comparing;
mod desks;
mod draws;
mod first_search;
mod game;
mod layers;
mod lines;
mod moves;
mod nests;
mod obstacles;
mod parts;
mod plain;
mod playing;
mod queues;
mod readings;
mod roles;
mod rounds;
mod shapes;
mod sinks;
mod slots;
mod stopped;
mod streams;
mod walks;
mod watching;
mod weights;
mod windows;
mod workers;

use playing::play;
use std::{env, io};
use stopped::Stopped;

fn main(rt: HostRuntime) -> io::Result<()> {
    let alloc = rt.alloc();
    let words: Vec<String> = env::args(&rt)?.collect(alloc)?;
    let [_, seed, rounds, moves] = words.as_slice() else {
        return println!(rt; "usage: calls_beside SEED ROUNDS MOVES");
    };
    let (Ok(seed), Ok(rounds), Ok(moves)) = (seed.parse(), rounds.parse(), moves.parse()) else {
        return println!(rt; "usage: calls_beside SEED ROUNDS MOVES");
    };
    let answers = [
        ("walks are copied", walks::are_copied(alloc)),
        ("outer nodes are found", nests::finds_outer_nodes(alloc)),
        ("a path goes through many levels", nests::goes_through_levels(alloc)),
        ("paths and cycles in a tree", branches::finds_paths_and_cycles(alloc)),
        ("a board has a slot for each shot", board::has_a_slot_for_each_shot(alloc)),
        ("a stream goes on after a failed read", streams::goes_on_after_a_failed_read(alloc)),
        ("a sink takes a byte at a time", sinks::takes_a_byte_at_a_time(alloc)),
        ("two workers meet at the gate", workers::meet_at_the_gate(&rt, alloc)),
        ("one worker meets nobody", workers::meet_nobody_alone(&rt, alloc)),
        ("workers under a lock meet nobody", workers::meet_nobody_under_a_lock(&rt, alloc)),
        ("without memory no fusion is asked for", workers::ask_for_no_fusion(&rt, alloc)),
        ("workers do many slots", workers::do_many_slots(&rt, alloc)),
        ("no more workers than units", workers::are_no_more_than_units(&rt, alloc)),
        ("as many workers as defects are worth", workers::are_as_many_as_defects_are_worth(&rt, alloc)),
        ("workers at a desk do all items", desks::do_all_items(&rt, alloc)),
        ("the calling thread at a desk", desks::work_on_the_calling_thread(alloc)),
        ("without memory the desk ends", desks::end_without_memory(&rt, alloc)),
        ("who gives the second child goes on", slots::fuse_where_the_second_child_is_given(alloc)),
        ("an item that is left starves the board", slots::starve_where_a_unit_is_left(alloc)),
        ("a plan of one unit has a root a slot", slots::give_the_units_of_many_slots(alloc)),
        ("a board with no slots is over at once", slots::end_at_once_with_no_slots(alloc)),
        ("the seats have the numbers 0 to 3", slots::number_each_seat(alloc)),
        ("a history goes by slot, then node", slots::list_by_item(alloc)),
        ("the calling thread does each item once", workers::work_on_the_calling_thread(alloc)),
        ("fused parts keep their layers", parts::keep_their_layers(alloc)),
        ("merged parts are unmatched at the seam", parts::are_unmatched_at_the_seam(alloc)),
        ("trees grow at once", parts::grow_at_once(alloc)),
        ("due times are first come, first out", queues::are_first_come_first(alloc)),
        ("parts list their defects", parts::list_their_defects(alloc)),
        ("parts give the root their cuts", parts::give_the_root_their_cuts(&rt, alloc)),
        ("posted parts have all defects matched", parts::have_all_defects_matched(&rt, alloc)),
        ("windows have places among all shots", windows::have_places_among_all_shots(&rt, alloc)),
        ("windows on the calling thread", windows::are_made_on_the_calling_thread(alloc)),
        ("windows of few defects have one worker", windows::have_one_worker(&rt, alloc)),
        ("windows of many defects have two workers", windows::have_two_workers(&rt, alloc)),
        ("tools count what is done", windows::count_what_is_done(&rt, alloc)),
        ("weights are those of the shot", weights::are_those_of_the_shot(alloc)),
        ("weights decide which row is good", weights::decide_what_is_good(alloc)),
        ("weights leave odd shots odd", weights::leave_odd_shots_odd(alloc)),
        ("weights turn signs", weights::turn_signs(alloc)),
        ("weights below 0 have a base", weights::judge_a_base(alloc)),
        ("layers are distances from the least vertex", layers::are_distances(alloc)),
        ("layers are cut as rounds are", layers::are_cut(alloc)),
        ("more units want more layers", layers::are_too_few(alloc)),
        ("a plan by layers has its text", layers::make_texts(alloc)),
    ];
    let (mut passed, mut failed) = play(&rt, alloc, seed, rounds, moves)?;
    for (name, answer) in answers {
        match answer {
            Ok(()) => passed += 1,
            Err(stopped) => {
                println!(rt; "{name}: {stopped}")?;
                failed += 1;
            }
        }
    }
    println!(rt; "{passed} passed, {failed} failed")
}
