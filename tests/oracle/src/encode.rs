//! Writing requests, guarded requests, values requests, release files and derivations as bytes, with a mark on each byte that damage may aim at.

use crate::form::Form;
use crate::model::{Conclusion, Guarded, Item, Line, Proof, ProofLine, Request};
use crate::reader::BRANCHING;
use crate::values::Valued;

/// What a byte, or the first byte of two, stands for.
#[derive(Clone, Copy, Debug, PartialEq, Eq)]
pub enum Kind {
    Count,
    /// The count of a section that may have as many lines as a byte can say.
    LinesCount,
    ItemCount,
    LineCount,
    /// An action of a line of the table.
    Action,
    /// An action that is an item.
    Item,
    Literal,
    Fluent,
    /// A number of values, and the two bytes of a literal of a values request.
    Values,
    NamedFluent,
    Says,
    Branching,
    Rule,
    Citation,
    ClosingCount,
    Closing,
}

/// A byte's place and kind, and whether it is an entry of a list with another one before it.
#[derive(Clone, Copy, Debug)]
pub struct Mark {
    pub place: usize,
    pub kind: Kind,
    pub follows: bool,
}

/// Bytes and their marks.
#[derive(Clone, Debug, Default)]
pub struct Encoded {
    pub bytes: Vec<u8>,
    pub marks: Vec<Mark>,
}

/// Writes a request section by section. Nothing is looked at: what the structure holds, right
/// or wrong, is written.
pub fn encode_request(request: &Request) -> Encoded {
    let mut out = Encoded::default();
    out.table(request, &[]);
    out.asked(request);
    out
}

/// Writes a guarded request: a request, and then its guards.
pub fn encode_guarded(guarded: &Guarded) -> Encoded {
    let mut out = encode_request(&guarded.request);
    out.literals(&guarded.guards);
    out
}

/// Writes a values request.
pub fn encode_valued(valued: &Valued) -> Encoded {
    let mut out = Encoded::default();
    out.table(&valued.request, &valued.values);
    out.asked(&valued.request);
    out
}

/// A release file that was written, with where its plans start.
#[derive(Clone, Debug)]
pub struct EncodedRelease {
    pub whole: Encoded,
    /// Where the plan count stands, then where each plan starts, then the end.
    pub places: Vec<usize>,
}

/// Writes a release file: the table, the count of these plans, and each plan's sections 6 to 8.
pub fn encode_release(table: &Request, plans: &[Request]) -> EncodedRelease {
    let mut whole = Encoded::default();
    whole.table(table, &[]);
    let mut places = vec![whole.bytes.len()];
    whole.count(Kind::Count, plans.len());
    for plan in plans {
        places.push(whole.bytes.len());
        whole.asked(plan);
    }
    places.push(whole.bytes.len());
    EncodedRelease { whole, places }
}

/// Writes a derivation.
pub fn encode_derivation(lines: &[Line]) -> Encoded {
    let mut out = Encoded::default();
    out.wide(Kind::LineCount, lines.len());
    for line in lines {
        out.literals(&line.before);
        out.sequence(&line.sequence);
        out.literals(&line.after);
        out.byte(Kind::Rule, line.rule);
        out.cites(&line.cites);
    }
    out
}

/// Writes a derivation in the second layout. What stands in Y's place is what the line
/// concludes, whatever its rule.
pub fn encode_proof(proof: &Proof) -> Encoded {
    let mut out = Encoded::default();
    out.proof_lines(&proof.lines);
    out.count(Kind::ClosingCount, proof.closing.len());
    for &entry in &proof.closing {
        out.wide(Kind::Closing, usize::from(entry));
    }
    out
}

/// The place of a line of the second layout, or of the closing list's count after all lines.
pub fn proof_place(lines: &[ProofLine], index: usize) -> usize {
    let mut out = Encoded::default();
    out.proof_lines(&lines[..index]);
    out.bytes.len()
}

impl Encoded {
    pub(crate) fn entry(&mut self, kind: Kind, byte: u8, follows: bool) {
        self.marks.push(Mark {
            place: self.bytes.len(),
            kind,
            follows,
        });
        self.bytes.push(byte);
    }

    fn byte(&mut self, kind: Kind, byte: u8) {
        self.entry(kind, byte, false);
    }

    fn count(&mut self, kind: Kind, count: usize) {
        self.byte(kind, u8::try_from(count).expect("a count of one byte"));
    }

    fn wide(&mut self, kind: Kind, number: usize) {
        let [high, low] = u16::try_from(number)
            .expect("a number of two bytes")
            .to_be_bytes();
        self.byte(kind, high);
        self.bytes.push(low);
    }

    fn cites(&mut self, cites: &[u16]) {
        self.count(Kind::Count, cites.len());
        for &cite in cites {
            self.wide(Kind::Citation, usize::from(cite));
        }
    }

    fn proof_lines(&mut self, lines: &[ProofLine]) {
        self.wide(Kind::LineCount, lines.len());
        for line in lines {
            self.literals(&line.before);
            self.sequence(&line.sequence);
            self.byte(Kind::Rule, line.rule);
            match &line.gives {
                Conclusion::List(after) => self.literals(after),
                Conclusion::Fluent(fluent) => self.byte(Kind::Fluent, *fluent),
            }
            self.cites(&line.cites);
        }
    }

    /// Sections 1 to 5, of a values request with the numbers of values.
    fn table<L: Form>(&mut self, request: &Request<L>, values: &[u8]) {
        self.byte(Kind::Count, request.fluents);
        for &number in values {
            self.byte(Kind::Values, number);
        }
        self.byte(Kind::Count, request.actions);
        self.literals(&request.facts);
        self.count(Kind::LinesCount, request.effects.len());
        for line in &request.effects {
            self.byte(Kind::Action, line.action);
            line.literal.write(self, false);
            self.literals(&line.body);
        }
        self.count(Kind::LinesCount, request.allowances.len());
        for line in &request.allowances {
            self.byte(Kind::Action, line.action);
            self.literals(&line.body);
        }
        self.count(Kind::LinesCount, request.knowledge.len());
        for line in &request.knowledge {
            self.byte(Kind::Action, line.action);
            self.byte(Kind::Fluent, line.fluent);
        }
    }

    /// Sections 6 to 8.
    fn asked<L: Form>(&mut self, request: &Request<L>) {
        self.sequence(&request.plan);
        self.literals(&request.goals);
        self.count(Kind::Count, request.whether.len());
        for (index, &fluent) in request.whether.iter().enumerate() {
            self.entry(Kind::Fluent, fluent, index > 0);
        }
    }

    fn literals<L: Form>(&mut self, list: &[L]) {
        self.count(Kind::Count, list.len());
        for (index, literal) in list.iter().enumerate() {
            literal.write(self, index > 0);
        }
    }

    fn sequence<L: Form>(&mut self, items: &[Item<L>]) {
        self.wide(Kind::ItemCount, items.len());
        for item in items {
            match item {
                Item::Action { action, .. } => self.byte(Kind::Item, *action),
                Item::Branching { branches, .. } => {
                    self.byte(Kind::Branching, BRANCHING);
                    self.count(Kind::Count, branches.len());
                    for branch in branches {
                        self.literals(&branch.condition);
                        self.sequence(&branch.sequence);
                    }
                }
            }
        }
    }
}
