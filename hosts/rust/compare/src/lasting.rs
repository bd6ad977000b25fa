//! What is proved of logs, tried on lists of calls: a log that other calls spare reads as before, and from an
//! init on appends and drops read as a plain list of pairs would.

use crate::aligned::lowest_start;
use crate::chains::Chain;
use crate::draw::address;
use crate::Buffer::{Roots, Stack, Table};
use crate::{draw, logs, second, Call, Guarded, Lent, Random, Reply, Sizes, Subject};

/// What was run: logs, how many entries they had in all, the calls beside them, how many of these collected,
/// how many freed some by it, and how many were appends refused by 9.
#[derive(Clone, Copy, Debug, Default)]
pub struct LogCounts {
    pub logs: u64,
    pub entries: u64,
    pub calls: u64,
    pub collections: u64,
    pub frees: u64,
    pub without_room: u64,
}

impl LogCounts {
    fn count(&mut self, call: &Call, reply: &Reply) {
        let collects = call.collects(reply);
        let grown = if reply.refusal == 0 && *call != Call::Collect { 2 } else { 0 };
        self.calls += 1;
        self.collections += u64::from(collects);
        self.frees += u64::from(collects && reply.parts["change"] < grown);
        self.without_room += u64::from(collects && reply.refusal == 9);
    }
}

/// Makes calls beside so many logs, or says what does not read as before. No call stores into an entry, frees or
/// resizes one, and each collection has the first address among its roots.
pub fn spared_logs_last(
    subject: Subject,
    sizes: Sizes,
    seed: u64,
    heaps: u64,
) -> Result<LogCounts, String> {
    let random = &mut Random::new(seed);
    let mut counts = LogCounts::default();
    while counts.logs < heaps {
        let t = random.between(sizes.least, sizes.most);
        let mut lent = draw::heap(random, t);
        let Some(first) = grow_log(subject, random, &mut lent)? else { continue };
        let log = lent.chain(first);
        let before: Vec<[u32; 2]> = log.heads.iter().map(|head| reading(&lent, *head)).collect();
        for _ in 0..sizes.calls_per_heap {
            let call = draw::call(random, &mut lent);
            if !is_spared(&lent, &log, &call) {
                continue;
            }
            add_root(random, &mut lent, first);
            let reply = subject(&call, &mut lent);
            counts.count(&call, &reply);
            reads(subject, random, &mut lent, first, &before)
                .map_err(|fault| format!("{fault} after {call:?}, seed {seed}, on {lent}"))?;
        }
        counts.logs += 1;
        counts.entries += before.len() as u64;
    }
    Ok(counts)
}

/// Appends some entries to a log of the heap or to the empty one, and answers its first address, if it then
/// has entries.
fn grow_log(subject: Subject, random: &mut Random, lent: &mut Lent) -> Result<Option<u64>, String> {
    let mut first = Some(logs::first(random, lent)).filter(|first| lent.chain(*first).is_log());
    for _ in 0..random.below(5) {
        let roots = draw::good_roots(random, lent);
        lent.set_roots(&roots[..roots.len().min(4095)]);
        lent[Stack] = Guarded::new(&draw::good_stack(random));
        let [time, tips] = [(); 2].map(|()| logs::reading(random, lent));
        let call = Call::LogAppend { first: first.unwrap_or(0), time, tips };
        let reply = subject(&call, lent);
        match reply.refusal {
            0 => first = Some(reply.parts["first"] as u64),
            9 => {}
            number => return Err(format!("{call:?} is refused by {number} on {lent}")),
        }
        if !lent.chain(first.unwrap_or(0)).is_log() {
            return Err(format!("{call:?} leaves no log on {lent}"));
        }
    }
    Ok(first.filter(|first| *first != 0))
}

/// Whether the call leaves the entries of the log to it, once its first address is among the roots.
fn is_spared(lent: &Lent, log: &Chain, call: &Call) -> bool {
    match *call {
        Call::Init | Call::OpenImage => false,
        Call::Free { block } | Call::Reallocate { block, .. } | Call::Store { block, .. } => {
            !log.heads.contains(&block)
        }
        Call::LogAppend { first, .. } => !lent.chain(first).meets(log),
        Call::LogDrop { first } => {
            !lent.chain(first).heads.iter().take(1).any(|oldest| log.heads.contains(oldest))
        }
        _ => true,
    }
}

/// Puts the address at any place of the roots. A list that is refused for its length may stay as it is.
fn add_root(random: &mut Random, lent: &mut Lent, first: u64) {
    if lent[Roots].len() % 4 == 0 {
        let mut roots = listheap::words_of(&lent[Roots]);
        let place = random.below(roots.len() as u64 + 1) as usize;
        if roots.len() < 4095 || place == roots.len() {
            roots.insert(place, first as u32);
        } else {
            roots[place] = first as u32;
        }
        lent.set_roots(&roots);
    }
}

/// The time and the tip count in an entry, read from the pool.
fn reading(lent: &Lent, head: u64) -> [u32; 2] {
    [1, 2].map(|word| lent.word(4 * head as usize + word))
}

/// The log has these entries and no others. Of a long one only some are read.
fn reads(
    subject: Subject,
    random: &mut Random,
    lent: &mut Lent,
    first: u64,
    entries: &[[u32; 2]],
) -> Result<(), String> {
    let length = entries.len() as u64;
    let some = [0, random.below(length + 1), length.saturating_sub(1), length];
    let all: Vec<u64> = (0..=length).collect();
    let indices = if length > 40 { &some[..] } else { &all };
    indices.iter().try_for_each(|index| {
        let call = Call::LogRead { first, index: *index };
        let right = match entries.get(*index as usize) {
            Some(entry) => Reply::accepted(&call, &entry.map(i64::from)),
            None => Reply::refused(&call, 19),
        };
        match subject(&call, lent) {
            reply if reply == right => Ok(()),
            reply => Err(format!("entry {index} reads {reply:?} where {right:?} is right")),
        }
    })
}

/// Makes so many calls on a log from an init on, beside a list of pairs, or says where the two differ.
pub fn log_is_a_list(subject: Subject, t: u64, seed: u64, calls: u64) -> Result<LogCounts, String> {
    let random = &mut Random::new(seed);
    let lent = draw::noise(random, t);
    let mut program = Program { lent, first: 0, list: vec![], held: vec![], used: 0 };
    subject(&Call::Init, &mut program.lent);
    let mut counts = LogCounts { logs: 1, ..LogCounts::default() };
    for number in 0..calls {
        let call = program.draw_call(random);
        let reply = subject(&call, &mut program.lent);
        counts.count(&call, &reply);
        counts.entries += u64::from(matches!((call, reply.refusal), (Call::LogAppend { .. }, 0)));
        program
            .take(random, &call, &reply)
            .and_then(|()| program.agrees(subject, random))
            .map_err(|fault| format!("{fault}: seed {seed}, call {number}, {call:?}"))?;
    }
    Ok(counts)
}

/// A program that keeps a log and other objects.
struct Program {
    lent: Lent,
    /// The first address of the log, and the list of pairs that it should be.
    first: u64,
    list: Vec<[u32; 2]>,
    /// The heads of the other objects that it needs, all of which are roots.
    held: Vec<u64>,
    /// The sum of all changes.
    used: i64,
}

impl Program {
    fn draw_call(&mut self, random: &mut Random) -> Call {
        let held: Vec<u32> = self.held.iter().map(|head| address(&self.lent, *head)).collect();
        self.lent.set_roots(&held);
        self.lent[Stack] = Guarded::new(&draw::good_stack(random));
        let first = self.first;
        match (random.below(20), &self.held[..]) {
            (0, _) => {
                add_root(random, &mut self.lent, first);
                Call::Collect
            }
            (1..=4, _) => Call::Allocate { bytes: random.between(1, 70) },
            (5 | 6, [_, ..]) => Call::Free { block: random.pick(&self.held) },
            (7 | 8, [_, ..]) => {
                let value = draw::word_value(random, &self.lent);
                Call::Store { block: random.pick(&self.held), word: random.below(4), value }
            }
            (9..=12, _) => Call::LogDrop { first },
            _ => {
                let [time, tips] = [(); 2].map(|()| logs::reading(random, &self.lent));
                Call::LogAppend { first, time, tips }
            }
        }
    }

    /// Goes on with what a call answered, or says why that is wrong.
    fn take(&mut self, random: &mut Random, call: &Call, reply: &Reply) -> Result<(), String> {
        self.used += reply.parts.get("change").unwrap_or(&0);
        match (*call, reply.refusal) {
            (Call::LogAppend { time, tips, .. }, 0) => {
                self.list.push([time, tips]);
                self.first = reply.parts["first"] as u64;
            }
            (Call::LogDrop { .. }, 0) if !self.list.is_empty() => {
                self.list.remove(0);
                self.first = reply.parts["first"] as u64;
            }
            (Call::LogDrop { .. }, 19) if self.list.is_empty() => {}
            (Call::LogAppend { .. }, 9) if self.is_full() => {}
            (Call::Allocate { .. }, 0) if random.percent(50) => {
                self.held.push(reply.parts["block"] as u64);
            }
            (Call::Allocate { .. }, 0 | 9) | (Call::Collect | Call::Store { .. }, 0) => {}
            (Call::Free { block }, 0) => self.held.retain(|head| *head != block),
            _ => return Err(format!("it answers {reply:?}")),
        }
        Ok(())
    }

    /// Whether there is no room for an entry, and nothing to collect.
    fn is_full(&self) -> bool {
        let mut collected = self.lent.clone();
        let held = listheap::words_of(&self.lent[Roots]);
        collected.set_roots(&[&[self.first as u32], &held[..]].concat());
        second(&Call::Collect, &mut collected);
        collected[Table][..] == self.lent[Table][..]
            && lowest_start(&self.lent, 2, |_| true).is_none()
    }

    /// The log reads as the list does, 0 is the first address of the empty one alone, and the used blocks are the
    /// sum of the changes.
    fn agrees(&mut self, subject: Subject, random: &mut Random) -> Result<(), String> {
        reads(subject, random, &mut self.lent, self.first, &self.list)?;
        if self.list.is_empty() != (self.first == 0) {
            return Err(format!("{} is the first address of {:?}", self.first, self.list));
        }
        match subject(&Call::Survey, &mut self.lent).parts["used"] {
            used if used == self.used => Ok(()),
            used => Err(format!("{used} used blocks, by the changes {}", self.used)),
        }
    }
}
