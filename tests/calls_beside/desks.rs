//! Workers that share a book under a lock.

use crate::stopped::Stopped;
use crate::workers::{Listed, Lister, Pair, SLOTS, are_whole};
use fb_crew::OpenGate;
use fb_desk::Worked;
use fb_desk::{work_all, work_here};
use fb_plan::Job;
use std::alloc::Global;
use std::sync::Wait;
use std::thread::Threads;

/// Each item is done once and noted twice, by one of the workers.
fn is_done_once(worked: &Worked<Listed<'_>, u32>, workers: u32) -> Result<(), Stopped> {
    Stopped::unless(are_whole(&worked.roots), "the roots of many slots")?;
    let mut items = 0;
    for count in &worked.tools {
        items += *count;
    }
    Stopped::unless(items == 3 * SLOTS, "how many items the tools count")?;
    let events = worked.history.len() as u64;
    Stopped::unless(worked.made == events && events == u64::from(6 * SLOTS), "how many events the workers count")?;
    let by = worked.history.iter().all(|entry| entry.worker <= workers);
    Stopped::unless(by, "the numbers of the workers")
}

/// One, two and 64 workers do the items of many slots.
pub fn do_all_items<R: Threads + Wait + Sync>(rt: &R, alloc: Global) -> Result<(), Stopped> {
    for workers in [1, 2, 64] {
        let Pair { graph, plan, shots } = Pair::many(alloc)?;
        let job = Job::new(&graph, &plan, shots);
        let tools = vec![in alloc; 0; workers as usize]?;
        let worked = work_all(rt, alloc, &job, workers, &Lister::new(&job), &OpenGate, tools)?;
        is_done_once(&worked, workers)?;
    }
    Ok(())
}

/// The calling thread does each item once.
pub fn work_on_the_calling_thread(alloc: Global) -> Result<(), Stopped> {
    let Pair { graph, plan, shots } = Pair::many(alloc)?;
    let job = Job::new(&graph, &plan, shots);
    let mut items = 0;
    let finished = work_here(alloc, &job, &Lister::new(&job), &mut items)?;
    Stopped::unless(are_whole(&finished.roots) && items == 3 * SLOTS, "the items of the calling thread")
}

/// If there is no memory for a unit, the work ends without an answer.
pub fn end_without_memory<R: Threads + Wait + Sync>(rt: &R, alloc: Global) -> Result<(), Stopped> {
    let Pair { graph, plan, shots } = Pair::many(alloc)?;
    let job = Job::new(&graph, &plan, shots);
    let mut hands = Lister::new(&job);
    hands.without = Some(1);
    let tools = vec![in alloc; 0; 4]?;
    let worked = work_all(rt, alloc, &job, 4, &hands, &OpenGate, tools);
    Stopped::unless(worked.is_err(), "work without memory")
}
