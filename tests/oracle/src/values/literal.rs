//! Literals of two bytes, for fluents that have 2 to 16 values.

use crate::answer::Fault;
use crate::encode::{Encoded, Kind};
use crate::form::Form;
use crate::reader::{ascending, Part, Read, Reader};

/// Fewest and most values of a fluent.
pub const VALUES: (u8, u8) = (2, 16);

/// A set of values, a bit for each.
pub type Set = u16;

/// All values of a fluent that has so many.
pub fn all_of(values: u8) -> Set {
    Set::MAX >> (Set::BITS - u32::from(values))
}

/// The values of a set, ascending.
pub fn members(set: Set) -> impl Iterator<Item = u8> {
    (0..VALUES.1).filter(move |value| set >> value & 1 == 1)
}

/// A fluent, the byte that says something of it, and the values of that fluent that satisfy this.
#[derive(Clone, Copy, Debug, Default, PartialEq, Eq, PartialOrd, Ord)]
pub struct Literal {
    pub fluent: u8,
    /// 2v for "is v", 2v + 1 for "is not v".
    pub says: u8,
    pub leaves: Set,
}

impl Literal {
    /// A literal that says so of a fluent with so many values.
    pub fn new(fluent: u8, says: u8, values: u8) -> Literal {
        let named = 1 << (says / 2);
        let leaves = match says % 2 {
            0 => named,
            _ => all_of(values) & !named,
        };
        Literal {
            fluent,
            says,
            leaves,
        }
    }

    /// "is v".
    pub fn is(fluent: u8, value: u8, values: u8) -> Literal {
        Literal::new(fluent, 2 * value, values)
    }

    /// "is not v".
    pub fn is_not(fluent: u8, value: u8, values: u8) -> Literal {
        Literal::new(fluent, 2 * value + 1, values)
    }

    /// The value that it names.
    pub fn value(self) -> u8 {
        self.says / 2
    }

    /// It says "is".
    pub fn says_is(self) -> bool {
        self.says % 2 == 0
    }
}

/// The values that satisfy all that a list says of a fluent, or none where it doesn't name it.
pub fn left(list: &[Literal], fluent: u8) -> Option<Set> {
    let said = list.iter().filter(|literal| literal.fluent == fluent);
    said.map(|literal| literal.leaves)
        .reduce(|one, other| one & other)
}

impl Form for Literal {
    /// A number of values for each fluent.
    fn read_values(reader: &mut Reader) -> Read<()> {
        reader.part = Part::Values;
        for _ in 0..reader.fluents {
            let (least, most) = VALUES;
            let values = reader.count(least.into(), most.into())?;
            reader.values.push(values as u8);
        }
        Ok(())
    }

    /// The first byte is judged before the second one is looked at.
    fn read(reader: &mut Reader) -> Read<Literal> {
        reader.within = Some(reader.at);
        let fluent = reader.fluent()?;
        let values = reader.values[usize::from(fluent)];
        let says = reader.below(2 * usize::from(values))?;
        reader.within = None;
        Ok(Literal::new(fluent, says, values))
    }

    fn refuse_after(self, before: &[Literal], place: usize) -> Read<()> {
        if let Some(last) = before.last() {
            ascending((last.fluent, last.says), (self.fluent, self.says), place)?;
        }
        match left(before, self.fluent) {
            Some(set) if set & self.leaves == 0 => Err(Fault::new(15, place)),
            _ => Ok(()),
        }
    }

    fn refuse_effect(self, place: usize) -> Read<()> {
        match self.says_is() {
            true => Ok(()),
            false => Err(Fault::new(46, place)),
        }
    }

    fn write(self, out: &mut Encoded, follows: bool) {
        out.entry(Kind::NamedFluent, self.fluent, follows);
        out.entry(Kind::Says, self.says, false);
    }

    fn exclusive(one: &[Literal], other: &[Literal]) -> bool {
        let disagree = |literal: &Literal| {
            let fluent = literal.fluent;
            let said = (left(one, fluent), left(other, fluent));
            matches!(said, (Some(one), Some(other)) if one & other == 0)
        };
        one.iter().any(disagree)
    }

    fn sets_otherwise(self, other: Literal) -> bool {
        self.fluent == other.fluent && self.says != other.says
    }
}
