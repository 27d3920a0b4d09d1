//! The two forms of a literal: one byte, or two where fluents have values (`values/literal.rs`). What
//! is read, written and settled of a request is the same in both but for this.

use crate::answer::Fault;
use crate::encode::{Encoded, Kind};
use crate::model::exclusive;
use crate::reader::{ascending, Read, Reader};

/// A literal.
pub trait Form: Copy {
    /// Reads what section 1 has between its two counts.
    fn read_values(reader: &mut Reader) -> Read<()>;

    /// Reads a literal.
    fn read(reader: &mut Reader) -> Read<Self>;

    /// 14 and 15: what an entry of a list that stands at a place is refused for, after those before it.
    fn refuse_after(self, before: &[Self], place: usize) -> Read<()>;

    /// 46: what an effect that has this literal is refused for.
    fn refuse_effect(self, place: usize) -> Read<()>;

    /// Writes a literal, which may follow another one of its list.
    fn write(self, out: &mut Encoded, follows: bool);

    /// No state has all literals of both lists known true, by what they say of some one fluent.
    fn exclusive(one: &[Self], other: &[Self]) -> bool;

    /// As effects the two give one fluent different values.
    fn sets_otherwise(self, other: Self) -> bool;
}

/// Literal byte 2f says that fluent f is true, 2f + 1 that it is false.
impl Form for u8 {
    fn read_values(_: &mut Reader) -> Read<()> {
        Ok(())
    }

    fn read(reader: &mut Reader) -> Read<u8> {
        reader.below(2 * usize::from(reader.fluents))
    }

    fn refuse_after(self, before: &[u8], place: usize) -> Read<()> {
        let Some(&last) = before.last() else {
            return Ok(());
        };
        ascending(last, self, place)?;
        match self == last ^ 1 {
            true => Err(Fault::new(15, place)),
            false => Ok(()),
        }
    }

    fn refuse_effect(self, _: usize) -> Read<()> {
        Ok(())
    }

    fn write(self, out: &mut Encoded, follows: bool) {
        out.entry(Kind::Literal, self, follows);
    }

    fn exclusive(one: &[u8], other: &[u8]) -> bool {
        exclusive(one, other)
    }

    fn sets_otherwise(self, other: u8) -> bool {
        self == other ^ 1
    }
}
