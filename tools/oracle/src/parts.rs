// RULES R15.9 to R15.12, a bundle read in parts, read by themselves, and a case for op 10 of `calls`.
use crate::bundle::{self, answered, judge, word, Answer, BLOCK, PAYLOAD, RECORD};
use crate::drive::Asked;

// ---- RULES R15.10: what the last call answers depends on the joined bytes alone, and on whether the end was said

/// A refusal's number and place.
type Fault = (u32, usize);

/// Nothing while more is wanted.
pub fn read(joined: &[u8], ended: bool, text_room: usize, event_room: usize) -> Option<Answer> {
    if text_room < 64_000 || event_room < 64_000 {
        return Some(Answer::Refused { number: 1, place: 0 });
    }
    let answer = match read_blocks(joined) {
        Err((number, place)) => Answer::Refused { number, place: place as u32 },
        Ok(_) if !ended => return None,
        Ok(_) if length_fault(joined) => Answer::Refused { number: 10, place: 0 },
        Ok((text, events)) => Answer::Bundle { text, events, edition: word(joined, 0) },
    };
    Some(answer)
}

/// Judges, in order, each block that is whole and within the header's count.
fn read_blocks(joined: &[u8]) -> Result<(Vec<u8>, Vec<u8>), Fault> {
    let (mut text, mut events) = (Vec::new(), Vec::new());
    let mut blocks = joined.chunks_exact(BLOCK).enumerate();
    let Some((_, first)) = blocks.next() else { return Ok((text, events)) };
    let (length, count) = header(first)?;
    for (number, block) in blocks.take(block_count(length, count) - 1) {
        let (to, kind, whole) =
            if text.len() < length { (&mut text, 2, length) } else { (&mut events, 3, count * RECORD) };
        let used = (whole - to.len()).min(500);
        judge(block, number, word(first, 0), kind, used)?;
        to.extend(&block[PAYLOAD][..used]);
    }
    Ok((text, events))
}

/// The text's length and the number of events.
fn header(first: &[u8]) -> Result<(usize, usize), Fault> {
    judge(first, 0, word(first, 0), 1, 8)?;
    let (length, count) = (word(first, 8) as usize, word(first, 12) as usize);
    if length > 64_000 || count > 3_200 {
        return Err((10, 0));
    }
    Ok((length, count))
}

fn block_count(length: usize, count: usize) -> usize {
    1 + length.div_ceil(500) + count.div_ceil(25)
}

/// The three that only the end shows: no bytes, no whole blocks, another number of them than the header's.
fn length_fault(joined: &[u8]) -> bool {
    if joined.is_empty() || joined.len() % BLOCK != 0 {
        return true;
    }
    header(&joined[..BLOCK]).is_ok_and(|(length, count)| joined.len() / BLOCK != block_count(length, count))
}

/// At the end the whole-file reader answers the same, unless a fault of a length comes together with one of a block.
fn hold_to_whole(joined: &[u8], text_room: usize, event_room: usize) {
    if !(length_fault(joined) && read_blocks(joined).is_err()) {
        let whole = bundle::read(joined, text_room, event_room);
        assert!(read(joined, true, text_room, event_room) == Some(whole), "{} bytes joined", joined.len());
    }
}

// ---- a case, as `calls` takes and answers it

/// What is called behind the last part, as the options have it: nothing, the end, or the end, three bytes and another end.
#[derive(Clone, Copy, Debug, PartialEq)]
pub enum Said {
    Nothing = 0,
    End = 1,
    EndAndMore = 3,
}

#[derive(Clone)]
pub struct Case {
    /// those of the parts; any behind them are never handed over
    pub bytes: Vec<u8>,
    pub parts: Vec<usize>,
    pub said: Said,
    pub text_room: usize,
    pub event_room: usize,
}

impl Case {
    /// With the least buffers that are taken.
    pub fn of(bytes: &[u8], parts: &[usize], said: Said) -> Self {
        Case { bytes: bytes.to_vec(), parts: parts.to_vec(), said, text_room: 64_000, event_room: 64_000 }
    }

    pub fn with_rooms(self, text_room: usize, event_room: usize) -> Self {
        Case { text_room, event_room, ..self }
    }

    fn joined(&self) -> Vec<u8> {
        self.bytes[..self.parts.iter().sum()].to_vec()
    }

    pub fn answer(&self) -> Option<Answer> {
        read(&self.joined(), self.said != Said::Nothing, self.text_room, self.event_room)
    }
}

impl Asked for Case {
    /// Adds the header of 32 bytes, the joined bytes as the text and the parts' lengths as the events.
    fn write(&self, to: &mut Vec<u8>) {
        assert!(self.bytes.len() <= 262_144 && self.parts.len() <= 32_768, "`calls` takes no more");
        assert!(!self.parts.is_empty() || self.said != Said::Nothing, "there is always a call");
        let lengths = [self.bytes.len(), self.parts.len() * 4, self.text_room, self.event_room];
        to.extend([10, self.said as u8, 0, 0]);
        to.extend(lengths.iter().flat_map(|&length| (length as u32).to_le_bytes()));
        to.extend([0; 12]);
        to.extend(&self.bytes);
        to.extend(self.parts.iter().flat_map(|&part| (part as u32).to_le_bytes()));
    }

    fn expected(&self) -> Vec<u8> {
        hold_to_whole(&self.joined(), self.text_room, self.event_room);
        match self.answer() {
            Some(answer) => answered(&answer, self.text_room, self.event_room),
            None => [255, 0, 0, 0, 0, 0].iter().flat_map(|field: &u32| field.to_le_bytes()).collect(),
        }
    }

    fn size(&self) -> (usize, usize) {
        (self.bytes.len() + self.parts.len() * 4, self.text_room + self.event_room)
    }

    fn shown(&self) -> String {
        let parts = &self.parts[..self.parts.len().min(20)];
        format!(
            "{} bytes, {} parts {parts:?}, then {:?}, rooms {} {}",
            self.bytes.len(),
            self.parts.len(),
            self.said,
            self.text_room,
            self.event_room
        )
    }
}

// ---- how bytes are cut

/// The parts between places that never fall; between equal ones a part is empty.
pub fn between(places: &[usize]) -> Vec<usize> {
    places.windows(2).map(|pair| pair[1] - pair[0]).collect()
}

/// Parts of one length, the last as long as what is left.
pub fn stepped(length: usize, step: usize) -> Vec<usize> {
    let places: Vec<usize> = (0..length).step_by(step).chain([length]).collect();
    between(&places)
}
