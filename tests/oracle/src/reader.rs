//! Reading of requests, guarded requests, values requests, release files and derivations from the left; the first
//! fault met is the answer.
//!
//! At one byte the order is 11, 21, 19, 12, 13, 14, 15; 20 is looked for when all is read. How a literal is read is
//! told in `form.rs`.

use crate::answer::Fault;
use crate::form::Form;
use crate::model::{
    Allowance, Branch, Conclusion, Effect, Guarded, Item, Knowledge, Line, Plan, Proof, ProofLine,
    Release, Request,
};
use crate::values::{literal::Literal, Valued};

/// Longest request in bytes.
pub const REQUEST_LIMIT: usize = 16_384;
/// Longest derivation in bytes.
pub const DERIVATION_LIMIT: usize = 32_768;
/// Most fluents. The masks of `table.rs` have room for 128, and so have literal bytes.
pub const FLUENT_LIMIT: usize = 128;
/// Most actions.
pub const ACTION_LIMIT: usize = 128;
/// Most entries of a list outside of bodies.
pub const LIST_LIMIT: usize = 128;
/// Most literals of a body.
pub const BODY_LIMIT: usize = 16;
/// Most branches of a branching.
pub const BRANCH_LIMIT: usize = 8;
/// Most branchings one inside another.
pub const NESTING_LIMIT: usize = 8;
/// Most items of a plan, nested ones counted.
pub const ITEM_LIMIT: usize = 1_024;
/// Most guards of a guarded request.
pub const GUARD_LIMIT: usize = 64;
/// Most plans of a release file.
pub const PLAN_LIMIT: usize = 64;
/// Most lines of a derivation.
pub const LINE_LIMIT: usize = 1_024;
/// Most citations of a line.
pub const CITATION_LIMIT: usize = 64;
/// The first byte of a branching.
pub const BRANCHING: u8 = 255;

pub(crate) type Read<T> = Result<T, Fault>;

/// What a reader is at: a part of a request, or of a derivation's line.
#[derive(Clone, Copy, Debug, PartialEq, Eq, PartialOrd, Ord)]
pub enum Part {
    Fluents,
    /// The numbers of values of a values request.
    Values,
    Actions,
    Facts,
    /// Sections 3 to 5.
    Table,
    Item,
    Condition,
    Goals,
    Whether,
    /// The ninth section.
    Guards,
    /// X.
    Before,
    /// Y.
    After,
    /// The fluent in Y's place.
    Concluded,
    /// What else a derivation has.
    Rest,
}

/// Reads a whole request: 10, then 11 to 15, 19, 21 from the left, then 20.
pub fn read_request(bytes: &[u8]) -> Read<Request> {
    refuse_length(bytes, REQUEST_LIMIT)?;
    let mut reader = Reader::new(bytes, 0, 0);
    let request = reader.request()?;
    reader.end()?;
    Ok(request)
}

/// Reads a guarded request in the same way, of nine sections.
pub fn read_guarded(bytes: &[u8]) -> Read<Guarded> {
    refuse_length(bytes, REQUEST_LIMIT)?;
    let mut reader = Reader::new(bytes, 0, 0);
    let guarded = reader.guarded()?;
    reader.end()?;
    Ok(guarded)
}

/// Reads a values request in the same way.
pub fn read_valued(bytes: &[u8]) -> Read<Valued> {
    refuse_length(bytes, REQUEST_LIMIT)?;
    let mut reader = Reader::new(bytes, 0, 0);
    let request = reader.request()?;
    reader.end()?;
    Ok(Valued {
        values: reader.values,
        request,
    })
}

/// Reads a release file: 10, then from the left sections 1 to 5 and the plan count, in which the
/// first fault is that of the file; then plan after plan, up to one that fails. 20 is looked for
/// where none fails.
pub fn read_release(bytes: &[u8]) -> Read<Release> {
    refuse_length(bytes, REQUEST_LIMIT)?;
    let mut reader = Reader::new(bytes, 0, 0);
    let table = reader.table()?;
    let table_end = reader.at;
    reader.part = Part::Rest;
    let count = reader.count(1, PLAN_LIMIT)?;
    let mut plans = Vec::new();
    let mut failed = false;
    while plans.len() < count && !failed {
        let start = reader.at;
        let read = reader.asked(table.clone());
        failed = read.is_err();
        plans.push(Plan { start, read });
    }
    let left_over = match failed {
        true => None,
        false => reader.end().err(),
    };
    Ok(Release {
        table,
        table_end,
        count,
        plans,
        left_over,
    })
}

/// Reads a whole derivation by the same order, with the request's numbers of fluents and actions.
pub fn read_derivation(bytes: &[u8], request: &Request) -> Read<Vec<Line>> {
    refuse_length(bytes, DERIVATION_LIMIT)?;
    let mut reader = Reader::new(bytes, request.fluents, request.actions);
    let lines = reader.lines(Reader::line)?;
    reader.end()?;
    Ok(lines)
}

/// Reads a whole derivation in the second layout, by the same order.
pub fn read_proof(bytes: &[u8], request: &Request) -> Read<Proof> {
    refuse_length(bytes, DERIVATION_LIMIT)?;
    let mut reader = Reader::new(bytes, request.fluents, request.actions);
    let proof = reader.proof()?;
    reader.end()?;
    Ok(proof)
}

/// The part of a request in which its reading ends.
pub fn last_of_request(bytes: &[u8]) -> Part {
    let mut reader = Reader::new(bytes, 0, 0);
    let _ = reader.request::<u8>();
    reader.part
}

/// The part of a values request in which its reading ends, and the place of the literal of which it
/// reads no more than the first byte, or refuses one of the two.
pub fn last_of_valued(bytes: &[u8]) -> (Part, Option<usize>) {
    let mut reader = Reader::new(bytes, 0, 0);
    let _ = reader.request::<Literal>();
    (reader.part, reader.within)
}

/// The part of a guarded request in which its reading ends.
pub fn last_of_guarded(bytes: &[u8]) -> Part {
    let mut reader = Reader::new(bytes, 0, 0);
    let _ = reader.guarded();
    reader.part
}

/// The part of a derivation in which its reading ends.
pub fn last_of_derivation(bytes: &[u8], request: &Request) -> Part {
    let mut reader = Reader::new(bytes, request.fluents, request.actions);
    let _ = reader.lines(Reader::line);
    reader.part
}

/// The same in the second layout.
pub fn last_of_proof(bytes: &[u8], request: &Request) -> Part {
    let mut reader = Reader::new(bytes, request.fluents, request.actions);
    let _ = reader.proof();
    reader.part
}

/// Whether one fluent stands in Y's place after this rule byte; a list does after all others.
pub fn gives_fluent(rule: u8) -> bool {
    matches!(rule, 7 | 8 | 10 | 11 | 12)
}

/// 10: the input is too long.
fn refuse_length(bytes: &[u8], limit: usize) -> Read<()> {
    if bytes.len() > limit {
        return Err(Fault::new(10, 0));
    }
    Ok(())
}

/// The input, the position in it and the part that is there, and how many fluents and actions
/// there are, in a values request also how many values of each fluent, and the place of the literal that
/// is being read.
pub struct Reader<'a> {
    bytes: &'a [u8],
    pub(crate) at: usize,
    pub(crate) part: Part,
    pub(crate) fluents: u8,
    pub(crate) values: Vec<u8>,
    pub(crate) within: Option<usize>,
    actions: u8,
}

impl Reader<'_> {
    fn new(bytes: &[u8], fluents: u8, actions: u8) -> Reader<'_> {
        Reader {
            bytes,
            at: 0,
            part: Part::Rest,
            fluents,
            values: Vec::new(),
            within: None,
            actions,
        }
    }

    /// The next byte, which stays unread. 11 where there is none, placed at the length.
    fn peek(&self) -> Read<u8> {
        self.bytes
            .get(self.at)
            .copied()
            .ok_or(Fault::new(11, self.bytes.len()))
    }

    /// The next byte, read.
    fn byte(&mut self) -> Read<u8> {
        let byte = self.peek()?;
        self.at += 1;
        Ok(byte)
    }

    /// 20: bytes are left after the last section or line.
    fn end(&self) -> Read<()> {
        if self.at < self.bytes.len() {
            return Err(Fault::new(20, self.at));
        }
        Ok(())
    }

    /// A one-byte count between limits, 12 otherwise.
    pub(crate) fn count(&mut self, least: usize, most: usize) -> Read<usize> {
        let place = self.at;
        let count = usize::from(self.byte()?);
        if count < least || count > most {
            return Err(Fault::new(12, place));
        }
        Ok(count)
    }

    /// A two-byte number, high byte first, judged by nobody here.
    fn wide(&mut self) -> Read<u16> {
        let high = self.byte()?;
        let low = self.byte()?;
        Ok(u16::from_be_bytes([high, low]))
    }

    /// A byte below a bound, 13 otherwise. With 128 fluents every byte is a literal.
    pub(crate) fn below(&mut self, bound: usize) -> Read<u8> {
        let place = self.at;
        let byte = self.byte()?;
        if usize::from(byte) >= bound {
            return Err(Fault::new(13, place));
        }
        Ok(byte)
    }

    pub(crate) fn fluent(&mut self) -> Read<u8> {
        self.below(usize::from(self.fluents))
    }

    fn action(&mut self) -> Read<u8> {
        self.below(usize::from(self.actions))
    }

    /// A list of literals: strictly ascending (14), and none that contradicts those before it (15).
    fn literals<L: Form>(&mut self, most: usize) -> Read<Vec<L>> {
        let count = self.count(0, most)?;
        let mut list = Vec::new();
        for _ in 0..count {
            let place = self.at;
            let literal = L::read(self)?;
            literal.refuse_after(&list, place)?;
            list.push(literal);
        }
        Ok(list)
    }

    /// A list of fluents: strictly ascending (14). Fluents have no complements.
    fn fluent_list(&mut self, most: usize) -> Read<Vec<u8>> {
        let count = self.count(0, most)?;
        let mut list: Vec<u8> = Vec::new();
        for _ in 0..count {
            let place = self.at;
            let fluent = self.fluent()?;
            if let Some(&before) = list.last() {
                ascending(before, fluent, place)?;
            }
            list.push(fluent);
        }
        Ok(list)
    }

    fn body<L: Form>(&mut self) -> Read<Vec<L>> {
        self.literals(BODY_LIMIT)
    }

    /// A list of literals that is no body.
    fn list<L: Form>(&mut self, part: Part) -> Read<Vec<L>> {
        self.part = part;
        self.literals(LIST_LIMIT)
    }

    fn request<L: Form>(&mut self) -> Read<Request<L>> {
        let table = self.table()?;
        self.asked(table)
    }

    fn guarded(&mut self) -> Read<Guarded> {
        let request = self.request()?;
        let guards_place = self.at;
        self.part = Part::Guards;
        let guards = self.literals(GUARD_LIMIT)?;
        Ok(Guarded {
            request,
            guards_place,
            guards,
        })
    }

    /// Sections 1 to 5.
    fn table<L: Form>(&mut self) -> Read<Request<L>> {
        self.part = Part::Fluents;
        self.fluents = self.count(1, FLUENT_LIMIT)? as u8;
        L::read_values(self)?;
        self.part = Part::Actions;
        self.actions = self.count(1, ACTION_LIMIT)? as u8;
        let facts = self.list(Part::Facts)?;
        self.part = Part::Table;
        let effects = self.section(Self::effect)?;
        let allowances_place = self.at;
        let allowances = self.section(Self::allowance)?;
        let knowledge = self.section(Self::knowledge)?;
        Ok(Request {
            fluents: self.fluents,
            actions: self.actions,
            facts,
            effects,
            allowances_place,
            allowances,
            knowledge,
            plan: Vec::new(),
            goals_place: 0,
            goals: Vec::new(),
            whether_place: 0,
            whether: Vec::new(),
        })
    }

    /// Sections 6 to 8, over a table that was read.
    fn asked<L: Form>(&mut self, table: Request<L>) -> Read<Request<L>> {
        let plan = self.plan()?;
        let goals_place = self.at;
        let goals = self.list(Part::Goals)?;
        let whether_place = self.at;
        self.part = Part::Whether;
        let whether = self.fluent_list(LIST_LIMIT)?;
        Ok(Request {
            plan,
            goals_place,
            goals,
            whether_place,
            whether,
            ..table
        })
    }

    /// Sections 3 to 5: a count of 0 to 255, then that many lines in any order.
    fn section<T>(&mut self, line: fn(&mut Self) -> Read<T>) -> Read<Vec<T>> {
        let count = self.count(0, 255)?;
        (0..count).map(|_| line(self)).collect()
    }

    fn effect<L: Form>(&mut self) -> Read<Effect<L>> {
        let place = self.at;
        let action = self.action()?;
        let literal_place = self.at;
        let literal = L::read(self)?;
        literal.refuse_effect(literal_place)?;
        let body = self.body()?;
        Ok(Effect {
            place,
            action,
            literal,
            body,
        })
    }

    fn allowance<L: Form>(&mut self) -> Read<Allowance<L>> {
        let action = self.action()?;
        let body = self.body()?;
        Ok(Allowance { action, body })
    }

    fn knowledge(&mut self) -> Read<Knowledge> {
        let place = self.at;
        let action = self.action()?;
        let fluent = self.fluent()?;
        Ok(Knowledge {
            place,
            action,
            fluent,
        })
    }

    /// A plan of its own: items and nesting are counted anew.
    fn plan<L: Form>(&mut self) -> Read<Vec<Item<L>>> {
        let mut items = 0;
        self.sequence(&mut items, 0)
    }

    /// A two-byte item count, which is never refused itself, then the items.
    fn sequence<L: Form>(&mut self, items: &mut usize, nesting: usize) -> Read<Vec<Item<L>>> {
        let count = self.wide()?;
        (0..count).map(|_| self.item(items, nesting)).collect()
    }

    /// An item. At its first byte: 11, then 21, then 19, then 13.
    fn item<L: Form>(&mut self, items: &mut usize, nesting: usize) -> Read<Item<L>> {
        let place = self.at;
        self.part = Part::Item;
        let first = self.peek()?;
        *items += 1;
        if *items > ITEM_LIMIT {
            return Err(Fault::new(21, place));
        }
        if first != BRANCHING {
            let action = self.action()?;
            return Ok(Item::Action { place, action });
        }
        if nesting == NESTING_LIMIT {
            return Err(Fault::new(19, place));
        }
        self.at += 1;
        let count = self.count(1, BRANCH_LIMIT)?;
        let branches = (0..count)
            .map(|_| self.branch(items, nesting + 1))
            .collect::<Read<Vec<_>>>()?;
        Ok(Item::Branching { place, branches })
    }

    fn branch<L: Form>(&mut self, items: &mut usize, nesting: usize) -> Read<Branch<L>> {
        self.part = Part::Condition;
        let condition = self.body()?;
        let sequence = self.sequence(items, nesting)?;
        Ok(Branch {
            condition,
            sequence,
        })
    }

    /// A derivation's lines: a two-byte line count of 1 to 1,024, then the lines.
    fn lines<T>(&mut self, line: fn(&mut Self) -> Read<T>) -> Read<Vec<T>> {
        let place = self.at;
        let count = usize::from(self.wide()?);
        if count == 0 || count > LINE_LIMIT {
            return Err(Fault::new(12, place));
        }
        (0..count).map(|_| line(self)).collect()
    }

    /// A citation count up to its limit, then that many line numbers.
    fn cites(&mut self) -> Read<Vec<u16>> {
        let count = self.count(0, CITATION_LIMIT)?;
        (0..count).map(|_| self.wide()).collect()
    }

    /// A line. Reading refuses no rule byte and no line number.
    fn line(&mut self) -> Read<Line> {
        let place = self.at;
        let before = self.list(Part::Before)?;
        let sequence = self.plan()?;
        let after = self.list(Part::After)?;
        self.part = Part::Rest;
        let rule = self.byte()?;
        let cites = self.cites()?;
        Ok(Line {
            place,
            before,
            sequence,
            after,
            rule,
            cites,
        })
    }

    /// A derivation in the second layout: the lines, then a count of any value and that many
    /// line numbers.
    fn proof(&mut self) -> Read<Proof> {
        let lines = self.lines(Self::proof_line)?;
        let closing_place = self.at;
        let count = self.byte()?;
        let closing = (0..count).map(|_| self.wide()).collect::<Read<Vec<_>>>()?;
        Ok(Proof {
            lines,
            closing_place,
            closing,
        })
    }

    /// A line of the second layout. The rule byte says what is due in Y's place, and reading
    /// refuses none.
    fn proof_line(&mut self) -> Read<ProofLine> {
        let place = self.at;
        let before = self.list(Part::Before)?;
        let sequence = self.plan()?;
        let rule = self.byte()?;
        let gives = match gives_fluent(rule) {
            true => {
                self.part = Part::Concluded;
                Conclusion::Fluent(self.fluent()?)
            }
            false => Conclusion::List(self.list(Part::After)?),
        };
        self.part = Part::Rest;
        let cites = self.cites()?;
        Ok(ProofLine {
            place,
            before,
            sequence,
            rule,
            gives,
            cites,
        })
    }
}

/// 14: an entry is not above the one before.
pub(crate) fn ascending<T: Ord>(before: T, entry: T, place: usize) -> Read<()> {
    if entry <= before {
        return Err(Fault::new(14, place));
    }
    Ok(())
}
