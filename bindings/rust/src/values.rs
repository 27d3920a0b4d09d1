//! What the values call gives (docs/FORMAT.md, section 26).

use crate::answer::strange;
use crate::{Answer, Packed, MOST_VALUES, STATE_LENGTH};

/// A partial state of a values request: one value, or none, for each of 128 fluents. Of those that the request does not have none is known.
#[derive(Clone, Copy, Debug, PartialEq, Eq, Hash)]
pub struct Values([u8; STATE_LENGTH]);

impl Values {
    /// The values that the lent bytes have after an answer that wrote them; none where these are no such bytes.
    pub fn from_bytes(bytes: &[u8]) -> Option<Values> {
        let bytes: [u8; STATE_LENGTH] = bytes.try_into().ok()?;
        bytes.iter().all(|&byte| usize::from(byte) <= MOST_VALUES).then_some(Values(bytes))
    }

    /// The lent bytes that say this state: 0 for unknown, and one more than the value.
    pub fn bytes(&self) -> [u8; STATE_LENGTH] {
        self.0
    }

    /// The value that is known of a fluent, and none where it is unknown. Fluents are those from 0 to 127.
    ///
    /// # Panics
    ///
    /// Where the number is none of these.
    #[must_use]
    pub fn value(&self, fluent: usize) -> Option<u8> {
        self.0[fluent].checked_sub(1)
    }

    /// The values of the first fluents, with spaces between them, and `?` where a fluent is unknown.
    pub fn line(&self, fluents: usize) -> String {
        let known = |fluent| self.value(fluent).map_or("?".to_string(), |value| value.to_string());
        (0..fluents.min(STATE_LENGTH)).map(known).collect::<Vec<String>>().join(" ")
    }
}

impl Answer {
    /// Takes an answer of the values call apart; `state` is what the lent bytes are after the call.
    ///
    /// # Panics
    ///
    /// Where [`Answer::unpack`] does, but for number 46 and for the states of answers 1 and 2, where these are no values, and where input and count do not go
    /// with 46. The proved library gives no such answer.
    pub fn unpack_values(packed: Packed, state: &[u8]) -> Answer {
        let (place, count) = (packed.place(), packed.count());
        let values = || Values::from_bytes(state).unwrap_or_else(|| strange(packed));
        let answer = match packed.number() {
            1 => Answer::GoalMissedWithValues { place, count, values: values() },
            2 => Answer::NotExecutableWithValues { place, count, values: values() },
            46 => Answer::SaysIsNot { place },
            _ => return Answer::unpack(packed, state),
        };
        answer.if_packed(packed)
    }
}
