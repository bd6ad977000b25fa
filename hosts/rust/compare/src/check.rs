//! One call, made on a subject and on the plain-list heap, and compared.

use crate::difference::Difference;
use crate::{second, Buffer, Call, Lent, Reply, Subject};

/// Makes the call on both and answers the reply with what is lent as it was left, or says what differs.
pub fn compare(subject: Subject, call: &Call, before: &Lent) -> Result<(Reply, Lent), String> {
    let mut expected = before.clone();
    let expected_reply = second(call, &mut expected);
    let mut after = before.clone();
    let reply = subject(call, &mut after);
    let fault = Difference::in_replies(call, [&reply, &expected_reply])
        .map(|difference| wrong(&difference))
        .or_else(|| lent_fault(&after, &expected))
        .or_else(|| refusal_fault(call, &reply))
        .or_else(|| written_fault(call, &reply, before, &after))
        .or_else(|| rescan_fault(&reply, before));
    match fault {
        None => Ok((reply, after)),
        Some(fault) => Err(format!("{fault}\n  {call:?} on {before}")),
    }
}

fn wrong(difference: &Difference) -> String {
    let [value, right] = difference.values;
    format!("{} is {value} where {right} is right", difference.of)
}

fn lent_fault(after: &Lent, expected: &Lent) -> Option<String> {
    Buffer::ALL.into_iter().find_map(|buffer| {
        if !after[buffer].intact() {
            return Some(format!("a byte outside the {buffer} was written"));
        }
        let all = 0..expected[buffer].len();
        Difference::in_bytes(buffer, all, [after, expected]).map(|difference| wrong(&difference))
    })
}

/// What a refusal answers, whatever the plain-list heap says: nothing but the change of a collection.
fn refusal_fault(call: &Call, reply: &Reply) -> Option<String> {
    let stands = call.collects(reply);
    let mut answered = reply.parts.iter().filter(|(_, part)| **part != 0);
    let answers = reply.refusal != 0 && answered.any(|(name, _)| !(stands && *name == "change"));
    answers.then(|| format!("the answer to a refused call is {:?}, not zero", reply.parts))
}

/// What the call must leave as it was, whatever the plain-list heap says.
fn written_fault(call: &Call, reply: &Reply, before: &Lent, after: &Lent) -> Option<String> {
    Buffer::ALL.into_iter().find_map(|buffer| {
        let length = before[buffer].len();
        let left = call.written(buffer, length, reply)..length;
        let difference = Difference::in_bytes(buffer, left, [after, before])?;
        Some(format!("{}, and the call may not write it", wrong(&difference)))
    })
}

/// The bounds on the rescan number.
fn rescan_fault(reply: &Reply, before: &Lent) -> Option<String> {
    let (kept, rescans) = (reply.parts.get("kept")?, *reply.parts.get("rescans")?);
    let most = if before[Buffer::Stack].len() as i64 / 4 >= kept - 1 { 0 } else { kept - 1 };
    (rescans > most).then(|| format!("{rescans} rescans, at most {most}"))
}

#[cfg(test)]
mod tests {
    use super::*;
    use crate::Guarded;
    use Buffer::{Image, Pool, Roots, Stack, Table};

    /// The buffers of which a call may change a byte.
    fn writable(call: Call, reply: Reply) -> Vec<Buffer> {
        let before = Lent { base: 4096, t: 1, buffers: Buffer::ALL.map(|_| Guarded::zeroed(1)) };
        let may_write = |buffer: &Buffer| {
            let mut after = before.clone();
            after[*buffer][0] = 1;
            written_fault(&call, &reply, &before, &after).is_none()
        };
        Buffer::ALL.into_iter().filter(may_write).collect()
    }

    fn accepted(call: Call) -> Vec<Buffer> {
        writable(call, Reply::refused(&call, 0))
    }

    fn refused(call: Call, number: u32) -> Vec<Buffer> {
        writable(call, Reply::refused(&call, number))
    }

    #[test]
    fn a_write_to_what_a_call_reads_or_does_not_take_is_seen() {
        assert_eq!(accepted(Call::Survey), []);
        assert_eq!(accepted(Call::Free { block: 0 }), [Table]);
        assert_eq!(accepted(Call::Store { block: 0, word: 0, value: 0 }), [Pool]);
        assert_eq!(accepted(Call::Collect), [Table, Stack]);
    }

    const APPEND: Call = Call::LogAppend { first: 0, time: 0, tips: 0 };

    #[test]
    fn a_write_by_an_append_is_seen() {
        let appended = |change| writable(APPEND, Reply::accepted(&APPEND, &[4096, change]));
        assert_eq!(appended(2), [Pool, Table]);
        assert_eq!(appended(1), [Pool, Table, Stack]);
        assert_eq!(refused(APPEND, 18), []);
        assert_eq!(refused(APPEND, 9), [Table, Stack]);
    }

    #[test]
    fn an_answer_beside_a_refusal_is_seen() {
        let answered =
            |number, parts| refusal_fault(&APPEND, &Reply::new(&APPEND, number, parts)).is_some();
        assert!(!answered(9, &[0, -3]) && !answered(18, &[0, 0]) && !answered(0, &[1, 2]));
        assert!(answered(9, &[4096, -3]) && answered(18, &[0, -3]) && answered(4, &[1, 0]));
    }

    #[test]
    fn a_write_behind_an_image_is_seen() {
        let image_of = |length| Reply::accepted(&Call::WriteImage, &[length]);
        assert_eq!(writable(Call::WriteImage, image_of(1)), [Image]);
        assert_eq!(writable(Call::WriteImage, image_of(0)), []);
    }

    #[test]
    fn a_write_behind_opened_roots_is_seen() {
        let opened = |count| Reply::accepted(&Call::OpenImage, &[4096, count]);
        assert_eq!(writable(Call::OpenImage, opened(1)), [Pool, Table, Roots]);
        assert_eq!(writable(Call::OpenImage, opened(0)), [Pool, Table]);
    }

    #[test]
    fn a_write_by_a_refused_call_is_seen() {
        assert_eq!(refused(Call::Collect, 3), []);
        assert_eq!(refused(Call::Allocate { bytes: 1 }, 9), []);
        assert_eq!(refused(Call::WriteImage, 10), []);
        assert_eq!(refused(Call::OpenImage, 17), []);
    }
}
