//! What a run has reached: each call with each refusal number that it can give, some situations that a
//! number does not show, and words of which it matters where they lead.

use crate::readings::{self, collect_reading, reads_otherwise, right, Reading};
use crate::situations::{Made, SITUATIONS};
use crate::{on_list, Buffer, Call, Lent, Reply};
use std::collections::{BTreeMap, BTreeSet};
use std::fmt::Write;

/// Words that tell a right collection from a wrong one: what they are called, and how the wrong one reads
/// its roots and the words of its objects. It keeps more objects, or fewer.
type TellingWords = (&'static str, [Reading; 2]);

const TELLING_WORDS: [TellingWords; 8] = [
    ("a tail as a root", [readings::heads_alone, right]),
    ("a tail in an object", [right, readings::heads_alone]),
    ("a far tail as a root", [readings::near_heads, right]),
    ("a far tail in an object", [right, readings::near_heads]),
    ("behind an object as a root", [readings::one_block_longer, right]),
    ("behind an object in an object", [right, readings::one_block_longer]),
    ("inside a block as a root", [readings::inside_blocks, right]),
    ("inside a block in an object", [right, readings::inside_blocks]),
];

/// Which of the words an accepted collection has that kept so many objects.
fn telling_words(before: &Lent, kept: i64) -> [bool; TELLING_WORDS.len()] {
    let heap = on_list(&mut before.clone(), |heap| Ok(heap.clone()));
    let heap = heap.expect("an accepted collection");
    let roots = listheap::words_of(&before[Buffer::Roots]);
    TELLING_WORDS.map(|(_, reading)| {
        let kept_so = || collect_reading(&mut heap.clone(), &roots, 64, reading).kept as i64;
        reads_otherwise(&heap, &roots, reading) && kept_so() != kept
    })
}

/// Each call with each refusal number that it can give.
fn reachable() -> impl Iterator<Item = (&'static str, u32)> {
    let calls = Call::DESCRIPTIONS.iter();
    calls.flat_map(|call| call.refusals.iter().map(|number| (call.name, *number)))
}

#[derive(Clone)]
pub struct Coverage {
    numbers: BTreeMap<(&'static str, u32), u64>,
    situations: [u64; SITUATIONS.len()],
    telling_words: [u64; TELLING_WORDS.len()],
}

impl Default for Coverage {
    fn default() -> Coverage {
        Coverage {
            numbers: BTreeMap::new(),
            situations: [0; SITUATIONS.len()],
            telling_words: [0; TELLING_WORDS.len()],
        }
    }
}

impl Coverage {
    pub fn calls(&self) -> u64 {
        self.numbers.values().sum()
    }

    pub fn count(&mut self, call: &Call, before: &Lent, reply: &Reply) {
        let name = call.description().name;
        *self.numbers.entry((name, reply.refusal)).or_default() += 1;
        let made = Made { call, before, reply };
        for (count, situation) in self.situations.iter_mut().zip(&SITUATIONS) {
            *count += u64::from(made.shows(situation));
        }
        if let (0, Call::Collect) = (reply.refusal, call) {
            let telling = telling_words(before, reply.parts["kept"]);
            for (count, seen) in self.telling_words.iter_mut().zip(telling) {
                *count += u64::from(seen);
            }
        }
    }

    /// Each situation and each kind of telling words, and how often it was seen.
    fn seen(&self) -> impl Iterator<Item = (String, u64)> + '_ {
        let situations = SITUATIONS.iter().map(|(call, refusal, name, _)| match refusal {
            0 => format!("{call}: {name}"),
            _ => format!("{call} refused: {name}"),
        });
        let telling_words = TELLING_WORDS.iter().map(|(name, _)| format!("collect: {name}"));
        let counts = self.situations.iter().chain(&self.telling_words).copied();
        situations.chain(telling_words).zip(counts)
    }

    /// What should have been reached and was not, or the other way round.
    pub fn faults(&self) -> Vec<String> {
        let unreached = reachable().filter(|pair| !self.numbers.contains_key(pair));
        let never = unreached.map(|(name, number)| format!("{name} never answered {number}"));
        let wrong = self.numbers.keys().filter(|pair| reachable().all(|other| other != **pair));
        let wrong =
            wrong.map(|(name, number)| format!("{name} answered {number}, which it cannot"));
        let unseen = self.seen().filter(|(_, count)| *count == 0);
        let unseen = unseen.map(|(name, _)| format!("never seen: {name}"));
        never.chain(wrong).chain(unseen).collect()
    }

    /// A line for each call, with a column for each refusal number, then a line for each thing seen.
    pub fn table(&self) -> String {
        let numbers: BTreeSet<u32> = reachable().map(|(_, number)| number).collect();
        let mut text = format!("{:<12}", "refusal");
        for number in &numbers {
            write!(text, "{number:>8}").expect("text can be written");
        }
        for call in Call::DESCRIPTIONS {
            write!(text, "\n{:<12}", call.name).expect("text can be written");
            for number in numbers.iter().copied() {
                let count = self.numbers.get(&(call.name, number));
                let shown = count.map_or("-".to_string(), u64::to_string);
                write!(text, "{shown:>8}").expect("text can be written");
            }
        }
        for (name, count) in self.seen() {
            write!(text, "\n{name:<54}{count:>8}").expect("text can be written");
        }
        text
    }
}

#[cfg(test)]
mod tests {
    use super::*;
    use crate::second;

    /// An object in block 0, and one in blocks 4 to 313 of 320.
    fn heap() -> Lent {
        let mut lent = Lent::empty(4096, 80);
        for bytes in [1, 16 * 310] {
            assert_eq!(second(&Call::Allocate { bytes }, &mut lent).refusal, 0);
        }
        lent
    }

    /// The telling words of a collection.
    fn seen_from(mut lent: Lent, roots: &[u32]) -> Vec<String> {
        lent.set_roots(roots);
        let mut coverage = Coverage::default();
        let reply = second(&Call::Collect, &mut lent.clone());
        coverage.count(&Call::Collect, &lent, &reply);
        let seen = coverage.seen().skip(SITUATIONS.len()).filter(|(_, count)| *count == 1);
        seen.map(|(name, _)| name).collect()
    }

    fn check(block: u32, inside: u32, names: &[&str]) {
        let word = 4096 + 16 * block + inside;
        let of = |place: &str| -> Vec<String> {
            names.iter().map(|name| format!("collect: {name} {place}")).collect()
        };
        assert_eq!(seen_from(heap(), &[word]), of("as a root"), "{word}");
        let mut holding = heap();
        holding.set_word(0, word);
        assert_eq!(seen_from(holding, &[4096]), of("in an object"), "{word}");
    }

    #[test]
    fn telling_words_are_seen() {
        check(4, 0, &[]);
        check(5, 0, &["a tail"]);
        check(303, 0, &["a tail"]);
        check(304, 0, &["a tail", "a far tail"]);
        check(313, 0, &["a tail", "a far tail"]);
        check(314, 0, &["behind an object"]);
        check(315, 0, &[]);
        check(313, 1, &["inside a block"]);
        check(314, 1, &[]);
        check(320, 0, &[]);
    }
}
