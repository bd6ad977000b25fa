use crate::{Buffer, Reply};
use Access::{Fills, Reads, Scratch, Writes};
use Buffer::{Image, Pool, Roots, Stack, Table};

/// What a call does with a buffer that it takes.
#[derive(Clone, Copy, Debug, PartialEq, Eq)]
pub enum Access {
    Reads,
    Writes,
    /// Writes all of it if the call collects, whatever it held, and needs no certain length.
    Scratch,
    /// Writes as many items at its front as that answer says, of so many bytes each, whatever they held, and
    /// needs no certain length.
    Fills {
        answer: &'static str,
        bytes: usize,
    },
}

/// What is to be known of a call.
#[derive(Debug)]
pub struct Description {
    pub name: &'static str,
    /// The names of the parts of its answer, in the order of the C header.
    pub answers: &'static [&'static str],
    /// The refusal numbers that it can give.
    pub refusals: &'static [u32],
    /// What it does with the buffers that it takes. Those of the heap that are not named it reads.
    pub takes: &'static [(Buffer, Access)],
}

/// Defines the calls: each with its own arguments, and its description.
macro_rules! calls {
    ($($call:ident $({ $($argument:ident: $type:ty),* })? = $description:expr;)*) => {
        /// A call, without what is lent to it.
        #[derive(Clone, Copy, Debug, PartialEq, Eq)]
        pub enum Call {
            $($call $({ $($argument: $type),* })?,)*
        }

        impl Call {
            pub const DESCRIPTIONS: &[Description] = &[$($description),*];

            pub fn description(&self) -> &'static Description {
                match self {
                    $(Call::$call { .. } => &$description,)*
                }
            }
        }
    };
}

calls! {
    Init = Description {
        name: "init",
        answers: &[],
        refusals: &[0, 1],
        takes: &[(Table, Writes)],
    };
    Allocate { bytes: u64 } = Description {
        name: "allocate",
        answers: &["block", "change"],
        refusals: &[0, 1, 2, 5, 9],
        takes: &[(Pool, Writes), (Table, Writes)],
    };
    Free { block: u64 } = Description {
        name: "free",
        answers: &["change"],
        refusals: &[0, 1, 2, 6, 7],
        takes: &[(Table, Writes)],
    };
    Reallocate { block: u64, bytes: u64 } = Description {
        name: "reallocate",
        answers: &["block", "change"],
        refusals: &[0, 1, 2, 5, 6, 7, 9],
        takes: &[(Pool, Writes), (Table, Writes)],
    };
    Collect = Description {
        name: "collect",
        answers: &["kept", "rescans", "change"],
        refusals: &[0, 1, 2, 3, 4],
        takes: &[(Table, Writes), (Roots, Reads), (Stack, Scratch)],
    };
    Survey = Description {
        name: "survey",
        answers: &["used", "objects", "longest"],
        refusals: &[0, 1, 2],
        takes: &[],
    };
    Load { block: u64, word: u64 } = Description {
        name: "load",
        answers: &["value"],
        refusals: &[0, 1, 2, 6, 7, 8],
        takes: &[],
    };
    Store { block: u64, word: u64, value: u32 } = Description {
        name: "store",
        answers: &[],
        refusals: &[0, 1, 2, 6, 7, 8],
        takes: &[(Pool, Writes)],
    };
    WriteImage = Description {
        name: "write image",
        answers: &["length"],
        refusals: &[0, 1, 2, 3, 10],
        takes: &[(Roots, Reads), (Image, Fills { answer: "length", bytes: 1 })],
    };
    OpenImage = Description {
        name: "open image",
        answers: &["base", "count"],
        refusals: &[0, 1, 2, 3, 14, 15, 16, 17],
        takes: &[
            (Pool, Writes),
            (Table, Writes),
            (Roots, Fills { answer: "count", bytes: 4 }),
            (Image, Reads),
        ],
    };
    LogAppend { first: u64, time: u32, tips: u32 } = Description {
        name: "log append",
        answers: &["first", "change"],
        refusals: &[0, 1, 2, 3, 4, 9, 18],
        takes: &[(Pool, Writes), (Table, Writes), (Roots, Reads), (Stack, Scratch)],
    };
    LogRead { first: u64, index: u64 } = Description {
        name: "log read",
        answers: &["time", "tips"],
        refusals: &[0, 1, 2, 18, 19],
        takes: &[],
    };
    LogDrop { first: u64 } = Description {
        name: "log drop",
        answers: &["first", "change"],
        refusals: &[0, 1, 2, 18, 19],
        takes: &[(Table, Writes)],
    };
}

impl Call {
    /// What the call does with the buffer, if it takes it.
    pub fn access(&self, buffer: Buffer) -> Option<Access> {
        let named = self.description().takes.iter().find(|(taken, _)| *taken == buffer);
        let of_heap = Buffer::HEAP.contains(&buffer).then_some(Reads);
        named.map(|(_, access)| *access).or(of_heap)
    }

    /// The first address that is handed to a call on a log.
    pub fn first(&self) -> Option<u64> {
        match *self {
            Call::LogAppend { first, .. }
            | Call::LogRead { first, .. }
            | Call::LogDrop { first } => Some(first),
            _ => None,
        }
    }

    /// Whether a call with this reply has collected. An append does where it finds no room: it is refused by 9
    /// then, or makes room first, and so does not leave two blocks more.
    pub fn collects(&self, reply: &Reply) -> bool {
        match (self, reply.refusal) {
            (Call::Collect, refusal) => refusal == 0,
            (Call::LogAppend { .. }, 0) => reply.parts["change"] < 2,
            (Call::LogAppend { .. }, refusal) => refusal == 9,
            _ => false,
        }
    }

    /// How many bytes at the front of the buffer, which has so many in all, a call with this reply may
    /// have written. A collection stands even if the call is refused.
    pub fn written(&self, buffer: Buffer, length: usize, reply: &Reply) -> usize {
        match self.access(buffer) {
            None | Some(Reads) => 0,
            Some(_) if self.collects(reply) && [Table, Stack].contains(&buffer) => length,
            Some(Scratch) => 0,
            Some(_) if reply.refusal != 0 => 0,
            Some(Writes) => length,
            Some(Fills { answer, bytes }) => length.min(bytes * reply.parts[answer] as usize),
        }
    }

    /// How many bytes at the front of the buffer two heaps that differ in dead bytes alone must share
    /// after this reply.
    pub fn shared(&self, buffer: Buffer, length: usize, reply: &Reply) -> usize {
        match self.access(buffer) {
            None => 0,
            Some(Reads | Writes) => length,
            Some(Scratch | Fills { .. }) => self.written(buffer, length, reply),
        }
    }
}

#[cfg(test)]
mod tests {
    use super::Call;

    #[test]
    fn no_pair_of_a_call_and_a_refusal_number_is_lost() {
        let pairs: usize = Call::DESCRIPTIONS.iter().map(|call| call.refusals.len()).sum();
        assert_eq!(pairs, 69);
    }
}
