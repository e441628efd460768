//! Workers at a plan of two units and a fusion, whose pieces list the nodes that were made for them.

ghost use Rattle.std.specs.Prelude.{Some};

use crate::stopped::Stopped;
use fb_book::{Board, Book, Claim, Permit, Piece};
use fb_crew::{Entry, Gate, Hands, EntryKind, OpenGate, Worked, work_all, work_here};
use fb_graph::{Graph, NoMemory, Shot};
use fb_plan::{Job, Join, Plan};
use std::alloc::Global;
use std::marker::Brand;
use std::sync::atomic::{AtomicU64, Ordering};
use std::sync::{Mutex, Wait};
use std::thread;
use std::thread::Threads;

/// A piece that lists the nodes that were made for it.
#[derive(Drop)]
pub struct Listed<'a> {
    job: &'a Job<'a>,
    slot: u32,
    node: u32,
    pub made: Vec<u32>,
}

impl<'a> Piece for Listed<'a> {
    ghost job_of = { λ p. p.job.now };

    ghost slot_of = { λ p. p.slot };

    ghost node_of = { λ p. p.node };

    ghost made_of = { λ p. Some p.made.items };

    fn slot(&self) -> u32 {
        self.slot
    }

    fn node(&self) -> u32 {
        self.node
    }
}

/// Hands that list nodes. They have no memory for one of the nodes, if it is named, and count the fusions that are
/// asked for. A worker's tools count its items.
#[derive(Drop)]
pub struct Lister<'a> {
    job: &'a Job<'a>,
    pub without: Option<u32>,
    fusions: AtomicU64,
}

impl<'a> Lister<'a> {
    /// Hands with memory for all nodes of the job.
    pub fn new(job: &'a Job<'a>) -> Lister<'a> {
        Lister {
            job,
            without: None,
            fusions: AtomicU64::new(0),
        }
    }
}

impl<'a> Hands<Listed<'a>, u32> for Lister<'a> {
    ghost job = { λ h. h.job.now };

    fn unit(&self, alloc: Global, tools: &mut u32, slot: u32, node: u32) -> Result<Listed<'a>, NoMemory> {
        if self.without == Some(node) {
            return Err(NoMemory);
        }
        *tools = tools.saturating_add(1);
        let mut made = Vec::new(alloc);
        made.push(node)?;
        Ok(Listed {
            job: self.job,
            slot,
            node,
            made,
        })
    }

    fn fusion(
        &self,
        _alloc: Global,
        tools: &mut u32,
        slot: u32,
        node: u32,
        left: Listed<'a>,
        right: Listed<'a>,
    ) -> Result<Listed<'a>, NoMemory> {
        self.fusions.fetch_add(1, Ordering::SeqCst);
        *tools = tools.saturating_add(1);
        let Listed { mut made, .. } = left;
        let Listed { made: mut rest, .. } = right;
        made.append(&mut rest)?;
        made.push(node)?;
        Ok(Listed {
            job: self.job,
            slot,
            node,
            made,
        })
    }
}

/// How often a unit looks for another one at the gate: some seconds, so that a second thread is there in time on a busy
/// machine too.
const TURNS: u32 = 20_000_000;

/// A gate at which the first unit waits, for a limited number of turns, until another one is there too. It notes who
/// came with which item of the first slot.
#[derive(Drop)]
struct Meeting {
    units: AtomicU64,
    /// 1 if the first unit has waited in vain.
    missed: AtomicU64,
    passed: AtomicU64,
    /// One more than the worker's number, for each node; 0 if nobody came.
    workers: [AtomicU64; 3],
}

impl Meeting {
    fn new() -> Meeting {
        Meeting {
            units: AtomicU64::new(0),
            missed: AtomicU64::new(0),
            passed: AtomicU64::new(0),
            workers: [AtomicU64::new(0), AtomicU64::new(0), AtomicU64::new(0)],
        }
    }

    /// Comes with a unit, and waits for another one.
    fn meet(&self) {
        self.units.fetch_add(1, Ordering::SeqCst);
        for _ in 0..TURNS {
            if self.units.load(Ordering::SeqCst) > 1 {
                return;
            }
        }
        self.missed.store(1, Ordering::SeqCst);
    }

    /// Whether two units were at the gate at once.
    fn has_met(&self) -> bool {
        self.missed.load(Ordering::SeqCst) == 0
    }

    /// Whether the worker came with each item that it gave.
    fn has_seen(&self, history: &[Entry]) -> bool {
        history
            .iter()
            .all(|entry| entry.kind != EntryKind::Gave || self.has_noted(entry))
    }

    /// Whether an entry's worker came with its item.
    fn has_noted(&self, entry: &Entry) -> bool {
        match self.workers.as_slice().get(entry.node as usize) {
            Some(worker) => entry.slot == 0 && worker.load(Ordering::SeqCst) == u64::from(entry.worker) + 1,
            None => false,
        }
    }
}

impl Gate for Meeting {
    fn before_post(&self, worker: u32, slot: u32, node: u32) {
        self.passed.fetch_add(1, Ordering::SeqCst);
        if slot == 0 {
            if let Some(noted) = self.workers.as_slice().get(node as usize) {
                noted.store(u64::from(worker) + 1, Ordering::SeqCst);
            }
        }
        if node < 2 {
            self.meet();
        }
    }
}

/// Posts the piece of the permit's item once it has passed the gate. Returns whether its worker held the item.
fn post<'a, N: Board>(
    gate: &Meeting,
    book: &mut Book<Listed<'a>, N>,
    permit: Permit<N>,
    piece: Listed<'a>,
) -> bool {
    gate.before_post(permit.worker(), permit.slot(), permit.node());
    book.post(permit, piece).is_ok()
}

/// Does the next item that can be taken. Returns whether there was one.
fn do_next<'a, N: Board>(
    alloc: Global,
    hands: &Lister<'a>,
    gate: &Meeting,
    book: &mut Book<Listed<'a>, N>,
    worker: u32,
) -> Result<bool, NoMemory> {
    let mut items = 0;
    match book.claim(worker) {
        Claim::Unit(permit) => {
            let piece = hands.unit(alloc, &mut items, permit.slot(), permit.node())?;
            Ok(post(gate, book, permit, piece))
        }
        Claim::Fusion(permit, left, right) => {
            let (slot, node) = (permit.slot(), permit.node());
            let piece = hands.fusion(alloc, &mut items, slot, node, left, right)?;
            Ok(post(gate, book, permit, piece))
        }
        Claim::NotYet => Ok(false),
        Claim::Over => Ok(false),
    }
}

/// Does items as this worker, which holds the lock from each claim to the post.
fn work_under_lock<'a, N: Board, R: Wait>(
    rt: &R,
    alloc: Global,
    hands: &Lister<'a>,
    gate: &Meeting,
    book: &Mutex<Book<Listed<'a>, N>>,
    worker: u32,
) {
    for _ in rt.forever() {
        let mut held = book.lock(rt);
        let Ok(true) = do_next(alloc, hands, gate, &mut held, worker) else {
            break;
        };
    }
}

/// Does all items by two workers, each of which holds the lock from each claim to the post.
fn work_all_under_lock<'a, N: Board + Send + Sync, R: Threads + Wait + Sync>(
    rt: &R,
    alloc: Global,
    hands: &Lister<'a>,
    gate: &Meeting,
) -> Result<(), NoMemory> {
    let book: Book<Listed<'a>, N> = Book::new(alloc, hands.job, 2)?;
    let desk = Mutex::new(book);
    let at = &desk;
    thread::join(
        rt,
        move || work_under_lock(rt, alloc, hands, gate, at, 0),
        move || work_under_lock(rt, alloc, hands, gate, at, 1),
    );
    Ok(())
}

/// Detectors that are each beside one boundary vertex, a plan of two units and a fusion, the first unit of which has all
/// of them, and shots in each of which all of them fire.
#[derive(Drop)]
pub struct Pair {
    pub graph: Graph,
    pub plan: Plan,
    pub shots: Vec<Shot>,
}

impl Pair {
    /// No detector and one shot.
    pub fn new(alloc: Global) -> Result<Pair, Stopped> {
        Pair::of(alloc, 1, 0)
    }

    /// Many shots, each with as many defects as are worth all workers.
    pub fn many(alloc: Global) -> Result<Pair, Stopped> {
        Pair::of(alloc, SLOTS, DEFECTS)
    }

    /// This number of shots, each with this number of defects.
    pub fn of(alloc: Global, slots: u32, defects: u32) -> Result<Pair, Stopped> {
        let mut edges = Vec::new(alloc);
        let mut all = Vec::new(alloc);
        for v in 0..defects {
            edges.push((u64::from(v), u64::from(defects), 2))?;
            all.push(v)?;
        }
        let graph = Graph::build(alloc, u64::from(defects) + 1, &edges, &[u64::from(defects)])?;
        let mut units = Vec::new(alloc);
        units.push(if defects == 0 { Vec::new(alloc) } else { vec![in alloc; (0, u64::from(defects))]? })?;
        units.push(Vec::new(alloc))?;
        let mut fusions = Vec::new(alloc);
        fusions.push(Join {
            left: 0,
            right: 1,
            seam: Vec::new(alloc),
        })?;
        let plan = Plan::build(alloc, &graph, &units, &fusions)?;
        let mut shots = Vec::new(alloc);
        for _ in 0..slots {
            shots.push(Shot::from_rising(&graph, Vec::from_slice(alloc, &all)?))?;
        }
        Ok(Pair { graph, plan, shots })
    }
}

/// How many shots are many.
pub const SLOTS: u32 = 500;

/// How many defects each of many shots has: all together they are worth 64 workers and more.
const DEFECTS: u32 = 49;

/// Whether the piece of each slot's root lists its three nodes.
pub fn are_whole(roots: &[Listed<'_>]) -> bool {
    roots.len() == SLOTS as usize && roots.iter().all(|root| root.made.as_slice() == [0, 1, 2].as_slice())
}

/// Lists the nodes of the job by this number of workers, by way of the gate.
fn list_by<'a, G: Gate, R: Threads + Sync>(
    rt: &R,
    alloc: Global,
    hands: &Lister<'a>,
    workers: u32,
    gate: &G,
) -> Result<Worked<Listed<'a>, u32>, NoMemory> {
    let tools = vec![in alloc; 0; workers as usize]?;
    work_all(rt, alloc, hands.job, workers, hands, gate, tools)
}

/// One root's piece lists its nodes in the order of the tree, and the tools count each once.
fn lists_the_tree(worked: &Worked<Listed<'_>, u32>) -> Result<(), Stopped> {
    let [root] = worked.run.roots() else {
        return Err(Stopped::Differs("the number of roots"));
    };
    Stopped::unless(root.made.as_slice() == [0, 1, 2].as_slice(), "the order of the nodes")?;
    let mut items = 0;
    for count in &worked.tools {
        items += *count;
    }
    Stopped::unless(items == 3, "how many items the tools count")
}

/// By two workers, each of which makes a unit while the other one does, the root's nodes are made in the order of the
/// tree, each once, and the history has who gave which.
pub fn meet_at_the_gate<R: Threads + Sync>(rt: &R, alloc: Global) -> Result<(), Stopped> {
    let Pair { graph, plan, shots } = Pair::new(alloc)?;
    let job = Job::new(&graph, &plan, shots);
    let gate = Meeting::new();
    let worked = list_by(rt, alloc, &Lister::new(&job), 2, &gate)?;
    Stopped::unless(gate.has_met(), "whether two units meet")?;
    lists_the_tree(&worked)?;
    Stopped::unless(worked.run.history().len() == 6, "the length of the history")?;
    Stopped::unless(gate.has_seen(worked.run.history()), "who came to the gate")
}

/// One worker alone meets nobody at the gate.
pub fn meet_nobody_alone<R: Threads + Sync>(rt: &R, alloc: Global) -> Result<(), Stopped> {
    let Pair { graph, plan, shots } = Pair::new(alloc)?;
    let job = Job::new(&graph, &plan, shots);
    let gate = Meeting::new();
    let worked = list_by(rt, alloc, &Lister::new(&job), 1, &gate)?;
    Stopped::unless(!gate.has_met(), "whether one worker meets another")?;
    lists_the_tree(&worked)
}

/// Two workers that hold the lock from the claim to the post don't meet at the gate.
pub fn meet_nobody_under_a_lock<R: Threads + Wait + Sync>(rt: &R, alloc: Global) -> Result<(), Stopped> {
    let Pair { graph, plan, shots } = Pair::new(alloc)?;
    let job = Job::new(&graph, &plan, shots);
    let gate = Meeting::new();
    work_all_under_lock::<Brand, R>(rt, alloc, &Lister::new(&job), &gate)?;
    Stopped::unless(!gate.has_met(), "whether two workers under one lock meet")?;
    Stopped::unless(gate.passed.load(Ordering::SeqCst) == 3, "how many items pass the gate")
}

/// If one worker has no memory for a unit, the fusion above it is never asked for.
pub fn ask_for_no_fusion<R: Threads + Sync>(rt: &R, alloc: Global) -> Result<(), Stopped> {
    let Pair { graph, plan, shots } = Pair::new(alloc)?;
    let job = Job::new(&graph, &plan, shots);
    let hands = Lister {
        without: Some(1),
        ..Lister::new(&job)
    };
    let worked = list_by(rt, alloc, &hands, 2, &OpenGate);
    Stopped::unless(worked.is_err(), "work without memory")?;
    Stopped::unless(hands.fusions.load(Ordering::SeqCst) == 0, "how many fusions are asked for")
}

/// Whether the entry at this place is that its item was taken, or then given by the same worker: items go by slot, then
/// node.
fn is_in_place(history: &[Entry], place: usize) -> bool {
    let (entry, first) = (&history[place], &history[place - place % 2]);
    let kind = if place % 2 == 0 { EntryKind::Took } else { EntryKind::Gave };
    let item = (place / 6, place / 2 % 3);
    entry.kind == kind && (entry.slot as usize, entry.node as usize) == item && entry.worker == first.worker
}

/// All items of many slots by so many workers: each root's nodes, each worker's tools, and the history by slot, then
/// node.
fn list_many<R: Threads + Sync>(rt: &R, alloc: Global, workers: u32) -> Result<(), Stopped> {
    let Pair { graph, plan, shots } = Pair::many(alloc)?;
    let job = Job::new(&graph, &plan, shots);
    let worked = list_by(rt, alloc, &Lister::new(&job), workers, &OpenGate)?;
    Stopped::unless(worked.run.seats() == u64::from(workers), "the workers of many slots")?;
    Stopped::unless(are_whole(worked.run.roots()), "the roots of many slots")?;
    let mut items = 0;
    for count in &worked.tools {
        items += *count;
    }
    Stopped::unless(worked.tools.len() == workers as usize && items == 3 * SLOTS, "the items of many slots")?;
    let history = worked.run.history();
    let events = 6 * u64::from(SLOTS);
    Stopped::unless(history.len() as u64 == events && worked.made == events, "the events of many slots")?;
    for place in 0..history.len() {
        Stopped::unless(is_in_place(history, place) && history[place].worker < workers, "the order of a history")?;
    }
    Ok(())
}

/// One, two, four and 64 workers do the items of many slots.
pub fn do_many_slots<R: Threads + Sync>(rt: &R, alloc: Global) -> Result<(), Stopped> {
    for workers in [1, 2, 4, 64] {
        list_many(rt, alloc, workers)?;
    }
    Ok(())
}

/// No more workers than units take part, and one if there is no slot.
pub fn are_no_more_than_units<R: Threads + Sync>(rt: &R, alloc: Global) -> Result<(), Stopped> {
    let Pair { graph, plan, shots } = Pair::new(alloc)?;
    let job = Job::new(&graph, &plan, shots);
    let worked = list_by(rt, alloc, &Lister::new(&job), 64, &OpenGate)?;
    lists_the_tree(&worked)?;
    let few = worked.run.history().iter().all(|entry| entry.worker < 2);
    Stopped::unless(few && worked.tools.len() == 64, "the number of workers")?;
    let none = Job::new(&graph, &plan, Vec::new(alloc));
    let worked = list_by(rt, alloc, &Lister::new(&none), 3, &OpenGate)?;
    Stopped::unless(worked.run.roots().is_empty() && worked.run.history().is_empty(), "a job without slots")
}

/// Eight workers at this number of shots with this number of defects each: how many of them take part.
fn seats_of<R: Threads + Sync>(rt: &R, alloc: Global, slots: u32, defects: u32) -> Result<u64, Stopped> {
    let Pair { graph, plan, shots } = Pair::of(alloc, slots, defects)?;
    let job = Job::new(&graph, &plan, shots);
    let worked = list_by(rt, alloc, &Lister::new(&job), 8, &OpenGate)?;
    let seats = worked.run.seats();
    let within = worked.run.history().iter().all(|entry| u64::from(entry.worker) < seats);
    Stopped::unless(within, "a worker beyond those that take part")?;
    Ok(seats)
}

/// Of eight workers as many take part as the defects are worth, one more for each 384; and one for each unit if there are
/// no more units than workers, whatever the defects.
pub fn are_as_many_as_defects_are_worth<R: Threads + Sync>(rt: &R, alloc: Global) -> Result<(), Stopped> {
    let known = [(SLOTS, 0, 1), (383, 1, 1), (384, 1, 2), (5, 76, 1), (5, 77, 2), (5, 154, 3), (64, 1_000, 8)];
    for (slots, defects, seats) in known {
        Stopped::unless(seats_of(rt, alloc, slots, defects)? == seats, "the workers that defects are worth")?;
    }
    for (slots, defects, seats) in [(1, 0, 2), (4, 0, 8), (4, 1_000, 8), (5, 0, 1)] {
        Stopped::unless(seats_of(rt, alloc, slots, defects)? == seats, "a worker for each unit")?;
    }
    Ok(())
}

/// The calling thread does each item once.
pub fn work_on_the_calling_thread(alloc: Global) -> Result<(), Stopped> {
    let Pair { graph, plan, shots } = Pair::new(alloc)?;
    let job = Job::new(&graph, &plan, shots);
    let mut items = 0;
    let finished = work_here(alloc, &job, &Lister::new(&job), &mut items)?;
    Stopped::unless(finished.run.roots().len() == 1 && items == 3, "the items of the calling thread")
}
