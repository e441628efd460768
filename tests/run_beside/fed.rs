//! Readers of shots that are fed by hand, in pieces of 1, 2 and 7 bytes and whole.

use crate::stopped::Stopped;
use fb_records::{Next, Numbers};
use fb_shots_stim::{Kind, RecordsB8, RecordsDets};
use std::alloc::Global;

const PIECES: [usize; 4] = [1, 2, 7, 64];

type Answer = Next<Numbers, Kind>;

fn is_shot(answer: &Answer, defects: &[u32]) -> bool {
    match answer {
        Next::Shot(shot) => shot.as_slice() == defects,
        _ => false,
    }
}

fn is_refusal(answer: &Answer, kind: Kind) -> bool {
    match answer {
        Next::Refused(found) => *found == kind,
        _ => false,
    }
}

fn next_block(reader: &mut RecordsB8) -> Result<Answer, Stopped> {
    match reader.next() {
        Ok(answer) => Ok(answer),
        Err(_) => Err(Stopped::NoMemory),
    }
}

fn next_line(reader: &mut RecordsDets) -> Result<Answer, Stopped> {
    match reader.next() {
        Ok(answer) => Ok(answer),
        Err(_) => Err(Stopped::NoMemory),
    }
}

/// Feeds bytes by pieces of a size, and collects what the reader returns: after each piece all that it has by then.
fn blocks_of(alloc: Global, bytes: &[u8], piece: usize) -> Result<Vec<Answer>, Stopped> {
    let mut reader = RecordsB8::new(alloc, 9);
    let mut answers = Vec::new(alloc);
    let mut at = 0;
    while at < bytes.len() {
        let end = bytes.len().min(at + piece);
        reader.feed(&bytes[at..end])?;
        at = end;
        loop {
            let answer = next_block(&mut reader)?;
            if matches!(answer, Next::NotYet) {
                break;
            }
            let is_last = !matches!(answer, Next::Shot(_));
            answers.push(answer)?;
            if is_last {
                break;
            }
        }
    }
    reader.finish();
    for _ in 0..2 {
        answers.push(next_block(&mut reader)?)?;
    }
    Ok(answers)
}

/// A shot of the detectors 0 and 8, and the end, which stays.
pub fn reads_a_block(alloc: Global) -> Result<(), Stopped> {
    for piece in PIECES {
        let answers = blocks_of(alloc, &[1, 1], piece)?;
        Stopped::unless(answers.len() == 3, "the number of answers")?;
        Stopped::unless(is_shot(&answers[0], &[0, 8]), "the shot")?;
        Stopped::unless(matches!(answers[1], Next::End), "the end")?;
        Stopped::unless(matches!(answers[2], Next::End), "the end again")?;
    }
    Ok(())
}

/// A shot, and then a block whose tenth bit is set: it is refused at each further call.
pub fn refuses_a_padding_bit(alloc: Global) -> Result<(), Stopped> {
    for piece in PIECES {
        let answers = blocks_of(alloc, &[1, 1, 1, 2], piece)?;
        Stopped::unless(is_shot(&answers[0], &[0, 8]), "the shot")?;
        for answer in &answers[1..] {
            Stopped::unless(is_refusal(answer, Kind::PaddingBit), "the refusal")?;
        }
        Stopped::unless(answers.len() == 4, "the number of answers")?;
    }
    Ok(())
}

/// A shot, and then half a block: before the end it may still become one, at the end it is refused.
pub fn refuses_half_a_block(alloc: Global) -> Result<(), Stopped> {
    for piece in PIECES {
        let answers = blocks_of(alloc, &[1, 1, 1], piece)?;
        Stopped::unless(answers.len() == 3, "the number of answers")?;
        Stopped::unless(is_shot(&answers[0], &[0, 8]), "the shot")?;
        Stopped::unless(is_refusal(&answers[1], Kind::ShortRecord), "the refusal")?;
        Stopped::unless(is_refusal(&answers[2], Kind::ShortRecord), "the refusal again")?;
    }
    let mut reader = RecordsB8::new(alloc, 9);
    reader.feed(&[1])?;
    Stopped::unless(matches!(next_block(&mut reader)?, Next::NotYet), "a block begun")
}

/// Two detectors and an observable, an empty line, an empty shot, and a shot that names a detector twice.
pub fn reads_lines_of_words(alloc: Global) -> Result<(), Stopped> {
    let text = b"shot D0 L0 D2\n\nshot\nshot D1 D1\n".as_slice();
    for piece in PIECES {
        let mut reader = RecordsDets::new(alloc, 3);
        let mut answers = Vec::new(alloc);
        let mut at = 0;
        while at < text.len() {
            let end = text.len().min(at + piece);
            reader.feed(&text[at..end])?;
            at = end;
            loop {
                let answer = next_line(&mut reader)?;
                if !matches!(answer, Next::Shot(_)) {
                    break;
                }
                answers.push(answer)?;
            }
        }
        reader.finish();
        Stopped::unless(answers.len() == 2, "the number of shots")?;
        Stopped::unless(is_shot(&answers[0], &[0, 2]), "the first shot")?;
        Stopped::unless(is_shot(&answers[1], &[]), "the empty shot")?;
        for _ in 0..2 {
            Stopped::unless(is_refusal(&next_line(&mut reader)?, Kind::RepeatedIndex), "the refusal")?;
        }
    }
    Ok(())
}

/// A word is cut between its letter and its number, which is too large.
pub fn refuses_an_index_that_grows(alloc: Global) -> Result<(), Stopped> {
    let mut reader = RecordsDets::new(alloc, 3);
    reader.feed(b"sho")?;
    Stopped::unless(matches!(next_line(&mut reader)?, Next::NotYet), "after the first piece")?;
    reader.feed(b"t D1 D")?;
    Stopped::unless(matches!(next_line(&mut reader)?, Next::NotYet), "after the second piece")?;
    reader.feed(b"7\n")?;
    Stopped::unless(is_refusal(&next_line(&mut reader)?, Kind::IndexOutOfRange), "after the third piece")
}
