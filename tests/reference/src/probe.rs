// Probes of stored states: a stored state and a record go in, an answer and the state come out.
// Lengths and numbers are most significant byte first.

use crate::book::{apply_stored, Answer, Levels};
use crate::record::extent;
use crate::road::Refusal;
use crate::writing::Writing;

/// A stored state of any length and the bytes of a record.
#[derive(Clone, Debug, PartialEq, Eq)]
pub struct Frame {
    pub image: Vec<u8>,
    pub record: Vec<u8>,
}

/// What comes of a frame: the answer, and how far on the next record would begin.
#[derive(Clone, Copy, Debug, PartialEq, Eq)]
pub struct Deed {
    pub answer: Answer,
    pub extent: usize,
}

/// Bytes of an answer before the stored state, and what each of them belongs to.
pub const HEAD: usize = 10;
pub const HEAD_NAMES: [&str; HEAD] = [
    "tag", "number", "place", "place", "L_DEN", "L_DEN", "L_Night", "L_Night", "extent", "extent",
];

/// The longest stored state and the longest record that the probing program takes.
pub const LONGEST_IMAGE: usize = 32_768;
pub const LONGEST_PIECE: usize = 64;

/// How a quiet index is told.
const QUIET: u16 = u16::MAX;

impl Frame {
    /// Adds the frame to what goes into a probing program.
    pub fn put(&self, out: &mut Vec<u8>) {
        out.extend((self.image.len() as u32).to_be_bytes());
        out.extend(&self.image);
        out.extend((self.record.len() as u16).to_be_bytes());
        out.extend(&self.record);
    }

    /// Takes a frame off the front; none where no whole frame of this kind is left.
    pub fn take(input: &mut &[u8]) -> Option<Frame> {
        let image_length = number(front(input, 4)?);
        let image = front(input, image_length)?.to_vec();
        let record_length = number(front(input, 2)?);
        let record = front(input, record_length)?.to_vec();
        Some(Frame { image, record })
    }

    /// Does the record to the stored state.
    pub fn call(&mut self) -> Deed {
        Deed {
            answer: apply_stored(&mut self.image, &self.record),
            extent: extent(&self.record),
        }
    }

    /// What a probing program writes: the head of the answer and the stored state.
    pub fn answered(&self, deed: Deed) -> Vec<u8> {
        [&head(deed)[..], &self.image].concat()
    }
}

/// The answers to frames end to end, of stored states and of writing, as far as they are whole.
pub fn answers(mut input: &[u8]) -> Vec<u8> {
    let mut output = Vec::new();
    loop {
        if let Some(writing) = Writing::take(&mut input) {
            output.extend(writing.answered());
        } else if let Some(mut frame) = Frame::take(&mut input) {
            let deed = frame.call();
            output.extend(frame.answered(deed));
        } else {
            return output;
        }
    }
}

pub(crate) fn number(bytes: &[u8]) -> usize {
    bytes.iter().fold(0, |n, &b| (n << 8) | usize::from(b))
}

pub(crate) fn front<'a>(input: &mut &'a [u8], length: usize) -> Option<&'a [u8]> {
    let (first, rest) = input.split_at_checked(length)?;
    *input = rest;
    Some(first)
}

fn told(tenths: Option<i64>) -> u16 {
    tenths.map_or(QUIET, |tenths| tenths as u16)
}

/// The head of an answer.
pub fn head(deed: Deed) -> [u8; HEAD] {
    let none = Refusal {
        number: 0,
        place: 0,
    };
    let (tag, Refusal { number, place }, den, night) = match deed.answer {
        Answer::Done => (0, none, 0, 0),
        Answer::Levels(Levels { den, night }) => (1, none, told(den), told(night)),
        Answer::Refused(refusal) => (2, refusal, 0, 0),
    };
    let [[p, q], [d, e], [n, m], [x, y]] =
        [place, den, night, deed.extent as u16].map(u16::to_be_bytes);
    [tag, number, p, q, d, e, n, m, x, y]
}
