//! A request in its parts and plans joined, all of them bytes.

use oracle::encode::{encode_release, encode_request};
use oracle::model::{Item, Request};

/// The counts of fluents and actions, the entries of section 2, the bytes of sections 3 to 5, those of section 6, and the entries of sections
/// 7 and 8.
#[derive(Clone, Debug, PartialEq, Eq)]
pub struct Parts {
    pub sizes: [u8; 2],
    pub facts: Vec<u8>,
    pub lines: Vec<u8>,
    pub plan: Vec<u8>,
    pub goals: Vec<u8>,
    pub whether: Vec<u8>,
}

impl Parts {
    /// Those of a request as the independent program writes it.
    pub fn of(draft: &Request) -> Parts {
        let bytes = encode_request(draft).bytes;
        let plan = encode_release(draft, &[]).places[0];
        let goals = bytes.len() - draft.whether.len() - draft.goals.len() - 2;
        let parts = Parts {
            sizes: [draft.fluents, draft.actions],
            facts: draft.facts.clone(),
            lines: bytes[3 + draft.facts.len()..plan].to_vec(),
            plan: bytes[plan..goals].to_vec(),
            goals: draft.goals.clone(),
            whether: draft.whether.clone(),
        };
        assert_eq!(parts.bytes(), bytes, "the parts are those of the request");
        parts
    }

    pub fn bytes(&self) -> Vec<u8> {
        let mut bytes = self.sizes.to_vec();
        write_list(&mut bytes, &self.facts);
        bytes.extend(&self.lines);
        bytes.extend(&self.plan);
        write_list(&mut bytes, &self.goals);
        write_list(&mut bytes, &self.whether);
        bytes
    }

    /// The request with another plan.
    pub fn with_plan(&self, plan: Vec<u8>) -> Parts {
        Parts { plan, ..self.clone() }
    }

    /// From this request's facts, by both plans, to what the other one asks; both have one table.
    pub fn joined(&self, other: &Parts) -> Parts {
        assert_eq!((self.sizes, &self.lines), (other.sizes, &other.lines), "one table");
        Parts { plan: join(&self.plan, &other.plan), goals: other.goals.clone(), whether: other.whether.clone(), ..self.clone() }
    }
}

fn write_list(bytes: &mut Vec<u8>, entries: &[u8]) {
    bytes.push(entries.len().try_into().expect("a count of one byte"));
    bytes.extend(entries);
}

/// The plan without items.
pub const NO_ITEMS: [u8; 2] = [0, 0];

/// The two item counts are added, and the items of the one plan stand before those of the other.
pub fn join(one: &[u8], other: &[u8]) -> Vec<u8> {
    let said = |plan: &[u8]| u16::from_be_bytes([plan[0], plan[1]]);
    let items = said(one).checked_add(said(other)).expect("a count of two bytes");
    [&items.to_be_bytes(), &one[2..], &other[2..]].concat()
}

/// A plan over the table of a request, as bytes.
pub fn plan_bytes(table: &Request, plan: Vec<Item>) -> Vec<u8> {
    Parts::of(&Request { plan, ..table.clone() }).plan
}
