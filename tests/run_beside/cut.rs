//! Readers of shots in `hits` and `r8` that are fed by hand, in two pieces: each text is cut at each of its bytes.

use crate::stopped::Stopped;
use fb_records::{Next, Numbers, RecordFormat, RecordReader};
use fb_shots_stim::{Kind, RecordsHits, RecordsR8};
use std::alloc::Global;

type Answer = Next<Numbers, Kind>;

/// What a text comes to after its shots.
#[derive(Clone, Copy, PartialEq, Eq)]
enum Last {
    End,
    Refused(Kind),
}

/// A text of shots of some detectors, and what it comes to.
#[derive(Drop)]
struct Sample<'a> {
    detectors: u32,
    text: &'a [u8],
    shots: &'a [&'a [u32]],
    last: Last,
}

/// Reads on until an answer is no shot, and collects the shots.
fn read_on<F: RecordFormat<Shot = Numbers, Kind = Kind>>(
    reader: &mut RecordReader<F>,
    shots: &mut Vec<Numbers>,
) -> Result<Answer, Stopped> {
    loop {
        match reader.next() {
            Ok(Next::Shot(shot)) => shots.push(shot)?,
            Ok(answer) => return Ok(answer),
            Err(_) => return Err(Stopped::NoMemory),
        }
    }
}

/// Feeds a reader a text up to a byte, and then the rest of it.
fn reads_in_two<F: RecordFormat<Shot = Numbers, Kind = Kind>>(
    alloc: Global,
    reader: RecordReader<F>,
    sample: &Sample,
    cut: usize,
) -> Result<(), Stopped> {
    let mut reader = reader;
    let mut shots = Vec::new(alloc);
    reader.feed(&sample.text[..cut])?;
    let first = read_on(&mut reader, &mut shots)?;
    Stopped::unless_at(!matches!(first, Next::End), "an end before the end", cut as u64)?;
    reader.feed(&sample.text[cut..])?;
    read_on(&mut reader, &mut shots)?;
    reader.finish();
    for _ in 0..2 {
        let is_last = match (read_on(&mut reader, &mut shots)?, sample.last) {
            (Next::End, Last::End) => true,
            (Next::Refused(kind), Last::Refused(wanted)) => kind == wanted,
            _ => false,
        };
        Stopped::unless_at(is_last, "the last answer", cut as u64)?;
    }
    Stopped::unless_at(shots.len() == sample.shots.len(), "the number of shots", cut as u64)?;
    for (i, shot) in shots.iter().enumerate() {
        Stopped::unless_at(shot.as_slice() == sample.shots[i], "a shot", cut as u64)?;
    }
    Ok(())
}

fn reads_hits_of(alloc: Global, sample: Sample) -> Result<(), Stopped> {
    for cut in 0..sample.text.len() + 1 {
        reads_in_two(alloc, RecordsHits::new(alloc, sample.detectors), &sample, cut)?;
    }
    Ok(())
}

fn reads_runs_of(alloc: Global, sample: Sample) -> Result<(), Stopped> {
    for cut in 0..sample.text.len() + 1 {
        reads_in_two(alloc, RecordsR8::new(alloc, sample.detectors), &sample, cut)?;
    }
    Ok(())
}

/// Lines of hits: in any order, none, with leading zeros, with and without carriage returns, and a last line without its end.
pub fn reads_hits(alloc: Global) -> Result<(), Stopped> {
    let last = Last::End;
    reads_hits_of(alloc, Sample { detectors: 3, text: b"2,0\n", shots: &[&[0, 2]], last })?;
    let shots: &[&[u32]] = &[&[], &[], &[1], &[0, 2]];
    reads_hits_of(alloc, Sample { detectors: 3, text: b"\n\r\n00001\r\n2,00", shots, last })?;
    reads_hits_of(alloc, Sample { detectors: 3, text: b"1,2\n\r", shots: &[&[1, 2], &[]], last })?;
    reads_hits_of(alloc, Sample { detectors: 3, text: b"", shots: &[], last })?;
    reads_hits_of(alloc, Sample { detectors: 0, text: b"\n\n", shots: &[&[], &[]], last })
}

/// Each rule of hits, behind a shot.
pub fn refuses_hits(alloc: Global) -> Result<(), Stopped> {
    let refused: [(&[u8], Kind); 12] = [
        (b"1\n1,1\n", Kind::RepeatedIndex),
        (b"1\n3\n", Kind::IndexOutOfRange),
        (b"1\n99999999999999999999999,x\n", Kind::IndexOutOfRange),
        (b"1\n1,", Kind::BadToken),
        (b"1\n1,\r\n", Kind::BadToken),
        (b"1\n,\n", Kind::BadToken),
        (b"1\n,1\n", Kind::BadToken),
        (b"1\n0,,1\n", Kind::BadToken),
        (b"1\n0, 1\n", Kind::BadToken),
        (b"1\n-1\n", Kind::BadToken),
        (b"1\n1\r,0\n", Kind::BadToken),
        (b"1\n1\r\r", Kind::BadToken),
    ];
    for (text, kind) in refused {
        reads_hits_of(alloc, Sample { detectors: 3, text, shots: &[&[1]], last: Last::Refused(kind) })?;
    }
    reads_hits_of(alloc, Sample { detectors: 0, text: b"0", shots: &[], last: Last::Refused(Kind::IndexOutOfRange) })
}

/// A bad hit is refused at the comma, and not before it.
pub fn refuses_a_hit_at_its_comma(alloc: Global) -> Result<(), Stopped> {
    let mut reader = RecordsHits::new(alloc, 3);
    let mut shots = Vec::new(alloc);
    reader.feed(b"0,1x")?;
    Stopped::unless(matches!(read_on(&mut reader, &mut shots)?, Next::NotYet), "a hit begun")?;
    reader.feed(b",")?;
    let is_bad = matches!(read_on(&mut reader, &mut shots)?, Next::Refused(Kind::BadToken));
    Stopped::unless(is_bad, "a bad hit that has ended")
}

/// Runs: a hit, none, the first and the last detector, and shots without detectors.
pub fn reads_runs(alloc: Global) -> Result<(), Stopped> {
    let last = Last::End;
    reads_runs_of(alloc, Sample { detectors: 3, text: &[1, 1], shots: &[&[1]], last })?;
    reads_runs_of(alloc, Sample { detectors: 3, text: &[3, 0, 0, 0, 0], shots: &[&[], &[0, 1, 2]], last })?;
    reads_runs_of(alloc, Sample { detectors: 3, text: &[], shots: &[], last })?;
    reads_runs_of(alloc, Sample { detectors: 0, text: &[0, 0], shots: &[&[], &[]], last })
}

/// Runs of 254, 255, 256, 510 and 511 zeros before a hit, and before the end.
pub fn reads_long_runs(alloc: Global) -> Result<(), Stopped> {
    let last = Last::End;
    reads_runs_of(alloc, Sample { detectors: 255, text: &[254, 0, 255, 0], shots: &[&[254], &[]], last })?;
    reads_runs_of(alloc, Sample { detectors: 256, text: &[255, 0, 0, 255, 1], shots: &[&[255], &[]], last })?;
    reads_runs_of(alloc, Sample { detectors: 257, text: &[255, 1, 0, 255, 2], shots: &[&[256], &[]], last })?;
    reads_runs_of(alloc, Sample { detectors: 511, text: &[255, 255, 0, 0, 255, 255, 1], shots: &[&[510], &[]], last })?;
    reads_runs_of(alloc, Sample { detectors: 512, text: &[255, 255, 1, 0, 255, 255, 2], shots: &[&[511], &[]], last })?;
    reads_runs_of(alloc, Sample { detectors: 510, text: &[255, 255, 0, 0, 255, 0, 253], shots: &[&[], &[0, 256]], last })
}

/// Each rule of runs, behind a shot.
pub fn refuses_runs(alloc: Global) -> Result<(), Stopped> {
    let refused: [(&[u8], Kind); 6] = [
        (&[3, 4], Kind::LongRecord),
        (&[3, 255], Kind::LongRecord),
        (&[3, 0, 3], Kind::LongRecord),
        (&[3, 2, 255], Kind::LongRecord),
        (&[3, 1], Kind::ShortRecord),
        (&[3, 2], Kind::ShortRecord),
    ];
    for (text, kind) in refused {
        reads_runs_of(alloc, Sample { detectors: 3, text, shots: &[&[]], last: Last::Refused(kind) })?;
    }
    let last = Last::Refused(Kind::LongRecord);
    reads_runs_of(alloc, Sample { detectors: 0, text: &[0, 1], shots: &[&[]], last })?;
    reads_runs_of(alloc, Sample { detectors: 255, text: &[255, 255], shots: &[], last })?;
    let last = Last::Refused(Kind::ShortRecord);
    reads_runs_of(alloc, Sample { detectors: 255, text: &[255], shots: &[], last })
}
