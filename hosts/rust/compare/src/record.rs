//! Calls as a file, to be made again on other processors: every number, every buffer and every answer.
//!
//! All numbers are LEB128: seven bits to a byte, the lowest first; the highest bit says that another byte follows.
//! The file is MAGIC, the version, the number of calls, and the calls. A call is
//!
//! - its place in `Call::DESCRIPTIONS`, then base, t and its own arguments in the order of the C header;
//! - each buffer that it takes, in the order of `Buffer::ALL`, as a change of what the last call that took this buffer
//!   left there (nothing before the first);
//! - its refusal and its answers, a negative one as 32 bits;
//! - each buffer that it takes as it left it, as a change of what was lent.
//!
//! A change is the new length, the number of pieces, and the pieces: how many bytes stay, how many are new, and these.
//! Bytes behind the last piece stay. A buffer that becomes longer is filled up with zeros before.

use crate::{Buffer, Call, Lent, Reply};

pub const MAGIC: &[u8] = b"blockheap calls\n";
pub const VERSION: u64 = 1;
/// So many bytes that stay, or more, end a piece.
const GAP: usize = 4;

/// The calls so far.
#[derive(Default)]
pub struct Record {
    pub calls: u64,
    body: Vec<u8>,
    left: [Vec<u8>; Buffer::ALL.len()],
}

impl Record {
    pub fn add(&mut self, call: &Call, before: &Lent, reply: &Reply, after: &Lent) {
        let description = call.description();
        let place = Call::DESCRIPTIONS.iter().position(|other| other.name == description.name);
        self.number(place.expect("a described call") as u64);
        self.number(before.base);
        self.number(before.t);
        arguments(call).into_iter().for_each(|argument| self.number(argument));
        self.buffers(call, before);
        self.number(reply.refusal.into());
        for name in description.answers {
            self.number((reply.parts[name] as u32).into());
        }
        self.buffers(call, after);
        self.calls += 1;
    }

    pub fn file(&self) -> Vec<u8> {
        let mut file = MAGIC.to_vec();
        put(&mut file, VERSION);
        put(&mut file, self.calls);
        file.extend(&self.body);
        file
    }

    fn number(&mut self, number: u64) {
        put(&mut self.body, number);
    }

    fn buffers(&mut self, call: &Call, lent: &Lent) {
        for buffer in Buffer::ALL.into_iter().filter(|buffer| call.access(*buffer).is_some()) {
            let left = &mut self.left[buffer as usize];
            left.resize(lent[buffer].len(), 0);
            put_change(&mut self.body, left, &lent[buffer]);
            left.copy_from_slice(&lent[buffer]);
        }
    }
}

/// A call's own arguments, in the order of the C header.
fn arguments(call: &Call) -> Vec<u64> {
    match *call {
        Call::Init | Call::Collect | Call::Survey | Call::WriteImage | Call::OpenImage => vec![],
        Call::Allocate { bytes } => vec![bytes],
        Call::Free { block } => vec![block],
        Call::Reallocate { block, bytes } => vec![block, bytes],
        Call::Load { block, word } => vec![block, word],
        Call::Store { block, word, value } => vec![block, word, value.into()],
        Call::LogAppend { first, time, tips } => vec![first, time.into(), tips.into()],
        Call::LogRead { first, index } => vec![first, index],
        Call::LogDrop { first } => vec![first],
    }
}

fn put(bytes: &mut Vec<u8>, mut number: u64) {
    while number > 127 {
        bytes.push(number as u8 | 128);
        number >>= 7;
    }
    bytes.push(number as u8);
}

/// How `new` differs from `old`, which is as long.
fn put_change(bytes: &mut Vec<u8>, old: &[u8], new: &[u8]) {
    let pieces = pieces(old, new);
    put(bytes, new.len() as u64);
    put(bytes, pieces.len() as u64);
    let mut at = 0;
    for (start, end) in pieces {
        put(bytes, (start - at) as u64);
        put(bytes, (end - start) as u64);
        bytes.extend(&new[start..end]);
        at = end;
    }
}

/// Where the bytes differ: from which byte to before which.
fn pieces(old: &[u8], new: &[u8]) -> Vec<(usize, usize)> {
    let mut pieces: Vec<(usize, usize)> = Vec::new();
    for at in (0..new.len()).filter(|at| old[*at] != new[*at]) {
        match pieces.last_mut() {
            Some((_, end)) if at < *end + GAP => *end = at + 1,
            _ => pieces.push((at, at + 1)),
        }
    }
    pieces
}

#[cfg(test)]
mod tests {
    use super::*;
    use crate::library;

    #[test]
    fn a_number_has_seven_bits_to_a_byte() {
        for (number, expected) in
            [(0, &[0][..]), (127, &[127]), (128, &[128, 1]), (1 << 14, &[128, 128, 1])]
        {
            let mut bytes = Vec::new();
            put(&mut bytes, number);
            assert_eq!(bytes, expected, "{number}");
        }
        let mut most = Vec::new();
        put(&mut most, u64::MAX);
        assert_eq!(most, [255, 255, 255, 255, 255, 255, 255, 255, 255, 1]);
    }

    #[test]
    fn a_change_has_the_bytes_that_differ() {
        let mut bytes = Vec::new();
        put_change(&mut bytes, &[0; 12], &[0, 7, 0, 0, 8, 0, 0, 0, 0, 9, 0, 0]);
        assert_eq!(bytes, [12, 2, 1, 4, 7, 0, 0, 8, 4, 1, 9]);
        bytes.clear();
        put_change(&mut bytes, &[5; 3], &[5; 3]);
        assert_eq!(bytes, [3, 0]);
    }

    /// Two stores of a word into an object of one block.
    #[test]
    fn a_file_has_its_calls_one_by_one() {
        let mut record = Record::default();
        let mut lent = Lent::of_numbers(4096, &[1]);
        for value in [1, 0x300] {
            let call = Call::Store { block: 0, word: 0, value };
            let before = lent.clone();
            let reply = library(&call, &mut lent);
            record.add(&call, &before, &reply, &lent);
        }
        let first = [7, 128, 32, 1, 0, 0, 1, 64, 0, 2, 1, 0, 1, 1, 0, 64, 1, 0, 1, 1, 2, 0];
        let second = [7, 128, 32, 1, 0, 0, 128, 6, 64, 0, 2, 0, 0, 64, 1, 0, 2, 0, 3, 2, 0];
        assert_eq!(record.file(), [MAGIC, &[1, 2], &first, &second].concat());
    }
}
