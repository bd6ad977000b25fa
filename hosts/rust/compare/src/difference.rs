use crate::{Buffer, Call, Lent, Reply};
use std::ops::Range;

/// Where two outcomes of a call first differ: in what, and what each has there.
pub struct Difference {
    pub of: String,
    pub values: [i64; 2],
}

impl Difference {
    pub fn in_replies(call: &Call, [one, other]: [&Reply; 2]) -> Option<Difference> {
        let refusals = ("refusal", [one.refusal.into(), other.refusal.into()]);
        let stray_words = ("stray words", [one.stray_words as i64, other.stray_words as i64]);
        let names = call.description().answers.iter();
        let parts = names.map(|name| (*name, [one.parts[name], other.parts[name]]));
        let mut numbers = [refusals, stray_words].into_iter().chain(parts);
        let (of, values) = numbers.find(|(_, values)| values[0] != values[1])?;
        Some(Difference { of: of.to_string(), values })
    }

    pub fn in_bytes(buffer: Buffer, bytes: Range<usize>, lent: [&Lent; 2]) -> Option<Difference> {
        let [one, other] = lent.map(|lent| &lent[buffer][bytes.clone()]);
        if one == other {
            return None;
        }
        let at = one.iter().zip(other).position(|(one, other)| one != other)?;
        let of = format!("{buffer} byte {}", bytes.start + at);
        Some(Difference { of, values: [one[at].into(), other[at].into()] })
    }
}
