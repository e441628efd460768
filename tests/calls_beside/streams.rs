//! A stream of shots that is read on after a failed read, and its limit.

use crate::stopped::Stopped;
use fb_graph::Graph;
use fb_ports::{Files, MemFiles};
use fb_shots::{Format, Kind, NoMemory, ShotFault, ShotStream, Step};
use std::alloc::Global;

/// A file of three shots that is read four bytes at a time, and whose third read fails.
fn three_shots(alloc: Global) -> Result<MemFiles, Stopped> {
    let mut files = MemFiles::new(alloc)?;
    files.add(alloc, "shots", b"000\n101\n000\n")?;
    files.give_at_most(4);
    files.fail_at(vec![in alloc; 3]?);
    let Ok(()) = files.open_file(String::from_str(alloc, "shots")?) else {
        return Err(Stopped::Differs("the file's opening"));
    };
    Ok(files)
}

/// Whether it is a shot of `count` defects.
fn has_defects(step: &Result<Step, NoMemory>, count: u32) -> bool {
    match step {
        Ok(Step::Shot(shot)) => shot.len() == count,
        _ => false,
    }
}

fn is_refusal(step: &Result<Step, NoMemory>, refusal: ShotFault) -> bool {
    match step {
        Ok(Step::Refused(found)) => *found == refusal,
        _ => false,
    }
}

/// A read fails between two shots, which are both given. The third one is refused, each time it is asked for.
pub fn goes_on_after_a_failed_read(alloc: Global) -> Result<(), Stopped> {
    let edges = [(0, 1, 2), (1, 2, 4), (2, 3, 2), (3, 4, 6)];
    let graph = Graph::build(alloc, 5, &edges, &[0, 4])?;
    let mut files = three_shots(alloc)?;
    let mut stream = ShotStream::new(alloc, Format::Text01, &graph, 2)?;
    Stopped::unless(has_defects(&stream.next_shot(&mut files), 0), "the first shot")?;
    let is_fault = matches!(stream.next_shot(&mut files), Ok(Step::ReadFault));
    Stopped::unless(is_fault, "the failed read")?;
    Stopped::unless(has_defects(&stream.next_shot(&mut files), 2), "the second shot")?;
    let refusal = ShotFault {
        shot: 2,
        kind: Kind::TooManyShots,
    };
    for _ in 0..2 {
        Stopped::unless(is_refusal(&stream.next_shot(&mut files), refusal), "the refusal")?;
    }
    Ok(())
}
