//! A board of more slots than a window has.

ghost use Rattle.std.specs.Prelude.{None};

use crate::stopped::Stopped;
use fb_book::{Board, Book, Claim, Piece};
use fb_graph::{Graph, Shot};
use fb_plan::{Job, Plan};
use std::alloc::Global;
use std::marker::Brand;

const SLOTS: u32 = 1_001;

/// A piece for an item that nobody solves.
#[derive(Drop)]
struct Solved<'a> {
    job: &'a Job<'a>,
    slot: u32,
    node: u32,
}

impl<'a> Piece for Solved<'a> {
    ghost job_of = { λ p. p.job.now };

    ghost slot_of = { λ p. p.slot };

    ghost node_of = { λ p. p.node };

    ghost made_of = { λ _. None };

    fn slot(&self) -> u32 {
        self.slot
    }

    fn node(&self) -> u32 {
        self.node
    }
}

/// Gives the unit of each slot.
fn give_all<'a, N: Board>(
    book: &mut Book<Solved<'a>, N>,
    job: &'a Job<'a>,
) -> Result<(), Stopped> {
    for _ in 0..SLOTS {
        let Claim::Unit(permit) = book.claim(0) else {
            return Err(Stopped::Differs("a claim"));
        };
        let piece = Solved {
            job,
            slot: permit.slot(),
            node: permit.node(),
        };
        Stopped::unless(book.post(permit, piece).is_ok(), "a post")?;
    }
    Stopped::unless(book.is_done(), "the end")
}

fn counts<'a, N: Board>(alloc: Global, job: &'a Job<'a>) -> Result<(), Stopped> {
    let mut book: Book<Solved<'a>, N> = Book::new(alloc, job, 1)?;
    give_all(&mut book, job)?;
    let (roots, history) = book.take_roots();
    Stopped::unless((roots.len(), history.len()) == (1_001, 2_002), "the number of roots or entries")
}

/// A run of a slot for each of 1,001 shots has a root for each, and two entries.
pub fn has_a_slot_for_each_shot(alloc: Global) -> Result<(), Stopped> {
    let graph = Graph::build(alloc, 0, &[], &[])?;
    let plan = Plan::single(alloc, &graph)?;
    let mut shots = Vec::new(alloc);
    for _ in 0..SLOTS {
        shots.push(Shot::from_rising(&graph, Vec::new(alloc)))?;
    }
    let job = Job::new(&graph, &plan, shots);
    counts::<Brand>(alloc, &job)
}
