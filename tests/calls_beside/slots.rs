//! A board without a lock, whose seats claim and post in an order that the sample chooses.

ghost use Rattle.std.specs.Prelude.{None};

use crate::stopped::Stopped;
use crate::workers::Pair;
use fb_book::{Board, Entry, EntryKind, Piece};
use fb_graph::{Graph, Shot};
use fb_plan::{Job, Plan};
use fb_slots::{After, Closed, SlotBook, SlotSeat, Claimed, Ticket, history_of};
use std::alloc::Global;
use std::marker::Brand;

/// A piece that counts the nodes that it is made of.
#[derive(Drop)]
struct Counted<'a> {
    job: &'a Job<'a>,
    slot: u32,
    node: u32,
    nodes: u32,
}

impl<'a> Piece for Counted<'a> {
    ghost job_of = { λ p. p.job.now };

    ghost slot_of = { λ p. p.slot };

    ghost node_of = { λ p. p.node };

    ghost made_of = { λ _. None };

    fn slot(&self) -> u32 {
        self.slot
    }

    fn node(&self) -> u32 {
        self.node
    }
}

fn counted<'a, N: Board>(job: &'a Job<'a>, ticket: &Ticket<N>, nodes: u32) -> Counted<'a> {
    Counted {
        job,
        slot: ticket.slot(),
        node: ticket.node(),
        nodes,
    }
}

/// The ticket of a claim that takes a unit.
fn unit<N: Board>(taken: Claimed<N>) -> Result<Ticket<N>, Stopped> {
    match taken {
        Claimed::Unit(ticket) => Ok(ticket),
        Claimed::Over => Err(Stopped::Differs("a claim with units left")),
    }
}

fn unless_over<N: Board>(taken: Claimed<N>) -> Result<(), Stopped> {
    match taken {
        Claimed::Unit(_) => Err(Stopped::Differs("a claim with no unit left")),
        Claimed::Over => Ok(()),
    }
}

fn unless_done<P: Piece, N: Board>(after: After<P, N>) -> Result<(), Stopped> {
    match after {
        After::Done => Ok(()),
        After::Fusion(_, _, _) => Err(Stopped::Differs("a post that no fusion follows")),
    }
}

/// The roots of a board at which no item was left.
fn roots_of<P: Piece>(closed: Closed<P>) -> Result<Vec<P>, Stopped> {
    match closed {
        Closed::Roots(roots) => Ok(roots),
        Closed::Starved => Err(Stopped::Differs("the end of a board with no item left")),
    }
}

fn next<'a, N: Board>(
    seats: &mut Vec<SlotSeat<Counted<'a>, N>>,
) -> Result<SlotSeat<Counted<'a>, N>, Stopped> {
    seats.pop().ok_or(Stopped::Differs("the number of seats"))
}

fn fuse<'a, N: Board>(alloc: Global, job: &'a Job<'a>) -> Result<(), Stopped> {
    let (book, mut seats) = SlotBook::<Counted<'a>, N>::new(alloc, job, 1)?;
    let mut one = next(&mut seats)?;
    let mut two = next(&mut seats)?;
    let first = unit(book.claim(&mut one))?;
    let second = unit(book.claim(&mut two))?;
    Stopped::unless((first.node(), second.node()) == (0, 1), "which unit comes first")?;
    let piece = counted(job, &first, 1);
    unless_done(book.post(&mut one, first, piece))?;
    let piece = counted(job, &second, 10);
    let After::Fusion(ticket, left, right) = book.post(&mut two, second, piece) else {
        return Err(Stopped::Differs("the post of the second child"));
    };
    Stopped::unless((ticket.slot(), ticket.node()) == (0, 2), "which fusion follows")?;
    Stopped::unless((left.nodes, right.nodes) == (1, 10), "whose pieces the fusion gets")?;
    let piece = counted(job, &ticket, left.nodes + right.nodes + 100);
    unless_done(book.post(&mut two, ticket, piece))?;
    unless_over(book.claim(&mut one))?;
    unless_over(book.claim(&mut two))?;
    seats.push(two)?;
    seats.push(one)?;
    let roots = roots_of(book.close(seats))?;
    Stopped::unless(roots.len() == 1 && roots[0].nodes == 111, "the root")
}

fn starve<'a, N: Board>(alloc: Global, job: &'a Job<'a>) -> Result<(), Stopped> {
    let (book, mut seats) = SlotBook::<Counted<'a>, N>::new(alloc, job, 1)?;
    let mut one = next(&mut seats)?;
    let mut two = next(&mut seats)?;
    let first = unit(book.claim(&mut one))?;
    let second = unit(book.claim(&mut two))?;
    book.starve(&mut one, first);
    let piece = counted(job, &second, 1);
    unless_done(book.post(&mut two, second, piece))?;
    unless_over(book.claim(&mut two))?;
    seats.push(two)?;
    seats.push(one)?;
    match book.close(seats) {
        Closed::Starved => Ok(()),
        Closed::Roots(_) => Err(Stopped::Differs("the end of a board with an item left")),
    }
}

/// Two seats claim the two units of a slot. Who posts the second one goes on with the fusion, and the root is in its piece.
pub fn fuse_where_the_second_child_is_given(alloc: Global) -> Result<(), Stopped> {
    let Pair { graph, plan, shots } = Pair::new(alloc)?;
    let job = Job::new(&graph, &plan, shots);
    fuse::<Brand>(alloc, &job)
}

/// Where the first unit is left for want of memory, the second one is posted, no fusion follows, and the board is starved.
pub fn starve_where_a_unit_is_left(alloc: Global) -> Result<(), Stopped> {
    let Pair { graph, plan, shots } = Pair::new(alloc)?;
    let job = Job::new(&graph, &plan, shots);
    starve::<Brand>(alloc, &job)
}

fn give_units<'a, N: Board>(alloc: Global, job: &'a Job<'a>, slots: u32) -> Result<(), Stopped> {
    let (book, mut seats) = SlotBook::<Counted<'a>, N>::new(alloc, job, 0)?;
    let mut seat = next(&mut seats)?;
    Stopped::unless(seats.is_empty(), "the number of seats of no worker")?;
    for slot in 0..slots {
        let ticket = unit(book.claim(&mut seat))?;
        Stopped::unless((ticket.slot(), ticket.node()) == (slot, 0), "which slot comes next")?;
        let piece = counted(job, &ticket, slot);
        unless_done(book.post(&mut seat, ticket, piece))?;
    }
    unless_over(book.claim(&mut seat))?;
    seats.push(seat)?;
    let roots = roots_of(book.close(seats))?;
    Stopped::unless(roots.len() == slots as usize, "the number of roots")?;
    let rising = roots.iter().enumerate().all(|(slot, root)| root.nodes as usize == slot);
    Stopped::unless(rising, "the order of the roots")
}

/// The roots of a plan of one unit are its units, in the order of the slots.
fn give_slots(alloc: Global, slots: u32) -> Result<(), Stopped> {
    let graph = Graph::build(alloc, 0, &[], &[])?;
    let plan = Plan::single(alloc, &graph)?;
    let mut shots = Vec::new(alloc);
    for _ in 0..slots {
        shots.push(Shot::from_rising(&graph, Vec::new(alloc)))?;
    }
    let job = Job::new(&graph, &plan, shots);
    give_units::<Brand>(alloc, &job, slots)
}

/// A plan of one unit has a root for each of 500 slots.
pub fn give_the_units_of_many_slots(alloc: Global) -> Result<(), Stopped> {
    give_slots(alloc, 500)
}

/// With no slots the first claim finds nothing, and there is no root.
pub fn end_at_once_with_no_slots(alloc: Global) -> Result<(), Stopped> {
    give_slots(alloc, 0)
}

fn number<'a, N: Board>(alloc: Global, job: &'a Job<'a>) -> Result<(), Stopped> {
    let (_book, mut seats) = SlotBook::<Counted<'a>, N>::new(alloc, job, 3)?;
    for worker in 0..4 {
        Stopped::unless(next(&mut seats)?.worker() == worker, "the number of a seat")?;
    }
    Stopped::unless(seats.is_empty(), "the number of seats")
}

/// The four seats of a board for three workers have the numbers 0 to 3, the last seat 0.
pub fn number_each_seat(alloc: Global) -> Result<(), Stopped> {
    let Pair { graph, plan, shots } = Pair::new(alloc)?;
    let job = Job::new(&graph, &plan, shots);
    number::<Brand>(alloc, &job)
}

fn entry(kind: EntryKind, worker: u32, slot: u32, node: u32) -> Entry {
    Entry {
        kind,
        worker,
        slot,
        node,
    }
}

fn are_same(one: &Entry, other: &Entry) -> bool {
    one.kind == other.kind && (one.worker, one.slot, one.node) == (other.worker, other.slot, other.node)
}

fn list<'a, N: Board>(alloc: Global, job: &'a Job<'a>) -> Result<(), Stopped> {
    let entries = [
        entry(EntryKind::Took, 1, 0, 1),
        entry(EntryKind::Gave, 1, 0, 1),
        entry(EntryKind::Took, 1, 0, 2),
        entry(EntryKind::Gave, 1, 0, 2),
        entry(EntryKind::Took, 0, 0, 0),
        entry(EntryKind::Gave, 0, 0, 0),
    ];
    let wanted = [
        entry(EntryKind::Took, 0, 0, 0),
        entry(EntryKind::Gave, 0, 0, 0),
        entry(EntryKind::Took, 1, 0, 1),
        entry(EntryKind::Gave, 1, 0, 1),
        entry(EntryKind::Took, 1, 0, 2),
        entry(EntryKind::Gave, 1, 0, 2),
    ];
    let history = history_of::<N>(alloc, job, &entries)?;
    Stopped::unless(history.len() == 6, "the length of a history")?;
    let same = history.iter().zip(wanted.iter()).all(|(one, other)| are_same(one, other));
    Stopped::unless(same, "the order of a history")
}

/// The entries of two seats are listed by slot, then node, each with its worker.
pub fn list_by_item(alloc: Global) -> Result<(), Stopped> {
    let Pair { graph, plan, shots } = Pair::new(alloc)?;
    let job = Job::new(&graph, &plan, shots);
    list::<Brand>(alloc, &job)
}
