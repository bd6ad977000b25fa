use crate::Call;
use std::collections::BTreeMap;

/// What a call answers.
#[derive(Clone, Debug, PartialEq, Eq)]
pub struct Reply {
    pub refusal: u32,
    /// How many words beside the places for its answers the call wrote.
    pub stray_words: usize,
    /// The other parts of the answer, by their names.
    pub parts: BTreeMap<&'static str, i64>,
}

impl Reply {
    /// The parts are in the order of the call's description.
    pub fn new(call: &Call, refusal: u32, parts: &[i64]) -> Reply {
        let names = call.description().answers;
        assert_eq!(parts.len(), names.len(), "the parts of an answer to {call:?}");
        let parts = names.iter().copied().zip(parts.iter().copied()).collect();
        Reply { refusal, stray_words: 0, parts }
    }

    pub fn accepted(call: &Call, parts: &[i64]) -> Reply {
        Reply::new(call, 0, parts)
    }

    /// Beside a refusal all parts are 0, but for [`Reply::without_room`].
    pub fn refused(call: &Call, refusal: u32) -> Reply {
        Reply::new(call, refusal, &vec![0; call.description().answers.len()])
    }

    /// Of an append that found no room even after its collection, which had this change.
    pub fn without_room(call: &Call, change: i64) -> Reply {
        Reply::new(call, 9, &[0, change])
    }
}
