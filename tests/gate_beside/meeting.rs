//! A gate at which the first unit waits for another one.

use crate::stopped::Stopped;
use fb_run::Gate;
use std::alloc::Global;
use std::sync::atomic::{AtomicU64, Ordering};

/// How often the first unit looks for another one: some seconds, so that a second thread is there in time on a busy machine
/// too.
const TURNS: u32 = 100_000_000;

/// A gate at which the first unit waits, for a limited number of turns, until another one is there too. It notes which
/// worker came with which node of the first shot.
#[derive(Drop)]
pub struct Meeting {
    units: u32,
    entered: AtomicU64,
    /// 1 if the first unit has waited in vain.
    missed: AtomicU64,
    /// One more than the worker's number, for each node; 0 if nobody came.
    workers: Vec<AtomicU64>,
    /// How often somebody came with no node of the first shot, or with one that somebody had come with.
    others: AtomicU64,
}

impl Meeting {
    /// A gate for a plan of so many units and nodes.
    pub fn new(alloc: Global, units: u32, nodes: u32) -> Result<Meeting, Stopped> {
        let mut workers = Vec::new(alloc);
        for _ in 0..nodes {
            workers.push(AtomicU64::new(0))?;
        }
        Ok(Meeting {
            units,
            entered: AtomicU64::new(0),
            missed: AtomicU64::new(0),
            workers,
            others: AtomicU64::new(0),
        })
    }

    /// Comes with a unit. The first one waits for another one.
    fn meet(&self) {
        if self.entered.fetch_add(1, Ordering::SeqCst) > 0 {
            return;
        }
        for _ in 0..TURNS {
            if self.entered.load(Ordering::SeqCst) > 1 {
                return;
            }
        }
        self.missed.store(1, Ordering::SeqCst);
    }

    /// Whether another unit came while the first one was at the gate.
    pub fn has_met(&self) -> bool {
        self.missed.load(Ordering::SeqCst) == 0
    }

    /// Whether somebody came with each node of the first shot, once, and nobody with anything else.
    pub fn has_seen_each_once(&self) -> bool {
        self.others.load(Ordering::SeqCst) == 0
            && self.workers.iter().all(|worker| worker.load(Ordering::SeqCst) > 0)
    }

    /// Whether this worker came with this node.
    pub fn has_noted(&self, worker: u64, node: u64) -> bool {
        match self.workers.as_slice().get(node as usize) {
            Some(noted) => noted.load(Ordering::SeqCst) == worker + 1,
            None => false,
        }
    }

    /// Whether more than one worker came with units.
    pub fn has_seen_several_workers(&self) -> bool {
        let first = self.workers[0].load(Ordering::SeqCst);
        self.workers.as_slice()[..self.units as usize]
            .iter()
            .any(|worker| worker.load(Ordering::SeqCst) != first)
    }
}

impl Gate for Meeting {
    fn before_post(&self, worker: u32, slot: u32, node: u32) {
        let place = if slot == 0 { self.workers.as_slice().get(node as usize) } else { None };
        let is_first = match place {
            Some(noted) => noted.swap(u64::from(worker) + 1, Ordering::SeqCst) == 0,
            None => false,
        };
        if !is_first {
            self.others.fetch_add(1, Ordering::SeqCst);
        }
        if node < self.units {
            self.meet();
        }
    }
}
