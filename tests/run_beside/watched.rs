//! Files and a sink that see in which order they are asked.

ghost use Rattle.std.specs.Prelude.{None};

use crate::runs::{DECODE, GRAPH, files_of, words_of};
use crate::stopped::Stopped;
use fb_ports::{Failed, Files, MOST_ASKED, MemFiles, MemSink, Sink};
use fb_run::{Ended, OpenGate, run};
use std::alloc::Global;
use std::sync::atomic::{AtomicU64, Ordering};
use std::thread::Threads;

const ROOM: usize = 4096;

/// What was seen of both ports.
#[derive(Drop)]
struct Seen {
    /// How many bytes the sink has taken.
    taken: AtomicU64,
    /// Calls after one of the same port that failed.
    late: AtomicU64,
    /// Reads into more bytes than one may ask for.
    large: AtomicU64,
}

impl Seen {
    fn new() -> Seen {
        Seen {
            taken: AtomicU64::new(0),
            late: AtomicU64::new(0),
            large: AtomicU64::new(0),
        }
    }
}

/// Files in memory that note, at each read, how many bytes the sink has taken.
#[derive(Drop)]
struct WatchedFiles<'a> {
    files: MemFiles,
    seen: &'a Seen,
    failed: bool,
    reads: Vec<u64>,
}

impl Files for WatchedFiles<'_> {
    ghost named = { λ f. None };

    ghost left = { λ f. None };

    ghost asked = { λ f. None };

    ghost faults = { λ f. 0 };

    fn open_file(&mut self, name: String) -> Result<(), Failed> {
        self.note();
        let opened = self.files.open_file(name);
        self.failed = self.failed || opened.is_err();
        opened
    }

    fn read(&mut self, buf: &mut [u8]) -> Result<usize, Failed> {
        self.note();
        if buf.len() > MOST_ASKED {
            self.seen.large.fetch_add(1, Ordering::SeqCst);
        }
        if self.reads.push(self.seen.taken.load(Ordering::SeqCst)).is_err() {
            return Err(Failed);
        }
        let count = self.files.read(buf);
        self.failed = self.failed || count.is_err();
        count
    }
}

impl WatchedFiles<'_> {
    /// Counts a call that comes after one that failed.
    fn note(&self) {
        if self.failed {
            self.seen.late.fetch_add(1, Ordering::SeqCst);
        }
    }
}

/// A sink in memory that counts the bytes that it has taken.
#[derive(Drop)]
struct WatchedSink<'a> {
    sink: MemSink,
    seen: &'a Seen,
    failed: bool,
}

impl Sink for WatchedSink<'_> {
    ghost taken = { λ s. None };

    ghost faults = { λ s. 0 };

    fn put(&mut self, piece: &[u8]) -> Result<usize, Failed> {
        if self.failed {
            self.seen.late.fetch_add(1, Ordering::SeqCst);
        }
        let count = self.sink.put(piece);
        match count {
            Ok(count) => {
                self.seen.taken.fetch_add(count as u64, Ordering::SeqCst);
            }
            Err(Failed) => self.failed = true,
        }
        count
    }
}

/// How a watched run ended, and how many bytes the sink had taken by each read.
#[derive(Drop)]
struct Answer {
    ended: Ended,
    reads: Vec<u64>,
}

fn run_watched<R: Threads + Sync>(
    rt: &R,
    alloc: Global,
    line: &str,
    files: MemFiles,
    sink: MemSink,
    seen: &Seen,
) -> Result<Answer, Stopped> {
    let words = words_of(alloc, line)?;
    let mut files = WatchedFiles {
        files,
        seen,
        failed: false,
        reads: Vec::new(alloc),
    };
    let mut out = WatchedSink {
        sink,
        seen,
        failed: false,
    };
    let mut err = MemSink::new(alloc, ROOM)?;
    let ended = run(rt, alloc, &words, &mut files, &mut out, &mut err, &OpenGate);
    let WatchedFiles { reads, .. } = files;
    Ok(Answer { ended, reads })
}

/// A read gives one shot of `000`, whose row has 29 bytes. Before shot `k` is read, the head is out, and the rows of
/// all windows that the shots before it fill. The graph takes as many reads as it has pieces of a shot's size.
pub fn writes_rows_before_it_reads_on<R: Threads + Sync>(rt: &R, alloc: Global) -> Result<(), Stopped> {
    let graph_reads = GRAPH.len().div_ceil(4) + 1;
    for window in [1_u64, 2, 3, 7] {
        let mut files = files_of(alloc, b"000\n000\n000\n000\n000\n000\n")?;
        files.give_at_most(4);
        let sink = MemSink::new(alloc, ROOM)?;
        let seen = Seen::new();
        let line = format!(in alloc; "{DECODE} --window {window}")?;
        let answer = run_watched(rt, alloc, line.as_str(), files, sink, &seen)?;
        Stopped::unless(answer.ended.status == 0, "the status")?;
        Stopped::unless(answer.reads.len() == graph_reads + 7, "the number of reads")?;
        for (k, taken) in answer.reads.iter().enumerate() {
            let wanted = if k < graph_reads {
                0
            } else {
                let shots = (k - graph_reads) as u64;
                16 + 29 * (shots / window * window)
            };
            Stopped::unless_at(*taken == wanted, "what was taken before a read", k as u64)?;
        }
    }
    Ok(())
}

/// The head of a check is out before the first shot is read.
pub fn writes_the_head_before_it_reads<R: Threads + Sync>(rt: &R, alloc: Global) -> Result<(), Stopped> {
    let mut files = files_of(alloc, b"000\n")?;
    files.add(alloc, "r", b"fusion-report 2\nshot 0\nedges\nbase 0\nweight 0\ndone 1 odd 0 units 1 fusions 0\n")?;
    let sink = MemSink::new(alloc, ROOM)?;
    let seen = Seen::new();
    let line = "fusion check --graph g --shots s --format 01 --report r";
    let answer = run_watched(rt, alloc, line, files, sink, &seen)?;
    Stopped::unless(answer.ended.status == 0, "the status")?;
    Stopped::unless(answer.reads.as_slice() == [0, 0, 0, 0, 15, 15].as_slice(), "what was taken before each read")
}

/// After an open, a read or a put that failed, that port is asked for nothing more, and no read asks for more than its limit.
pub fn asks_nothing_after_a_failure<R: Threads + Sync>(rt: &R, alloc: Global) -> Result<(), Stopped> {
    let report = b"fusion-report 2\nshot 0\nedges\nbase 0\nweight 0\nshot 1\nedges\nbase 0\nweight 0\ndone 2 odd 0 units 2 fusions 0\n";
    let lines = [
        "fusion decode --graph g --shots s --format 01",
        "fusion decode --graph g --plan p --shots s --format 01 --workers 2 --window 2 --trace",
        "fusion check --graph g --shots s --format 01 --report r",
    ];
    for line in lines {
        for call in 1..100_u64 {
            for of_files in [true, false] {
                let mut files = files_of(alloc, b"000\n000\n")?;
                files.add(alloc, "r", report)?;
                files.give_at_most(16);
                let mut sink = MemSink::new(alloc, ROOM)?;
                sink.take_at_most(8);
                if of_files {
                    files.fail_at(vec![in alloc; call]?);
                } else {
                    sink.fail_at(vec![in alloc; call]?);
                }
                let seen = Seen::new();
                run_watched(rt, alloc, line, files, sink, &seen)?;
                Stopped::unless_at(seen.late.load(Ordering::SeqCst) == 0, "what is asked after a failure", call)?;
                Stopped::unless_at(seen.large.load(Ordering::SeqCst) == 0, "the size of a read", call)?;
            }
        }
    }
    Ok(())
}
