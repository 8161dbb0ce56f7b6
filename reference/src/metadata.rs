//! Metadata: the answer to a get, and the content of a set.

use crate::expression;
use crate::session::may_become;
use crate::store::{Record, RecordMut, Slot};

/// The tag that leads all metadata.
pub const METADATA: u8 = 0x20;

pub const LCSO: u8 = 0xC0;
pub const MAXIMUM: u8 = 0xC4;
pub const USED: u8 = 0xC5;
pub const CHANGE: u8 = 0xD0;
pub const READ: u8 = 0xD1;
pub const EXECUTE: u8 = 0xD3;

/// The tag of a slot's expression.
pub fn tag_of(slot: Slot) -> u8 {
    match slot {
        Slot::Change => CHANGE,
        Slot::Read => READ,
        Slot::Execute => EXECUTE,
    }
}

fn slot_of(tag: u8) -> Option<Slot> {
    Slot::ALL.into_iter().find(|&slot| tag_of(slot) == tag)
}

/// The count of bytes after 20 and L: C0, C4, C5, then the three expressions.
fn content_length(record: Record<'_>) -> usize {
    let expressions: usize = Slot::ALL
        .iter()
        .map(|&slot| 2 + record.expression(slot).len())
        .sum();
    3 + 4 + 4 + expressions
}

/// The count of bytes of a record's metadata, 20 and L among them.
pub fn answer_length(record: Record<'_>) -> usize {
    2 + content_length(record)
}

/// Writes a record's metadata to the front of `out`.
pub fn write_answer(record: Record<'_>, out: &mut [u8]) {
    out[0] = METADATA;
    out[1] = content_length(record) as u8;
    let mut place = 2;
    let mut put = |tag: u8, value: &[u8]| {
        out[place] = tag;
        out[place + 1] = value.len() as u8;
        out[place + 2..place + 2 + value.len()].copy_from_slice(value);
        place += 2 + value.len();
    };
    put(LCSO, &[record.lcso()]);
    put(MAXIMUM, &(record.maximum() as u16).to_be_bytes());
    put(USED, &(record.used() as u16).to_be_bytes());
    for slot in Slot::ALL {
        put(tag_of(slot), record.expression(slot));
    }
}

/// What a metadata write changes.
#[derive(Clone, Copy, Debug, Default, PartialEq, Eq)]
pub struct Changes<'c> {
    lcso: Option<u8>,
    expressions: [Option<&'c [u8]>; 3],
}

impl<'c> Changes<'c> {
    /// Takes one tag with its value, unless the value is not allowed.
    fn take(&mut self, tag: u8, value: &'c [u8], present: u8) -> Option<()> {
        if tag == LCSO {
            self.lcso = Some(allowed_lcso(value, present)?);
        } else {
            let slot = slot_of(tag)?;
            if !expression::is_well_formed(value) {
                return None;
            }
            self.expressions[slot as usize] = Some(value);
        }
        Some(())
    }

    /// Stores all the changes.
    pub fn store(&self, record: &mut RecordMut<'_>) {
        if let Some(state) = self.lcso {
            record.set_lcso(state);
        }
        for slot in Slot::ALL {
            if let Some(expression) = self.expressions[slot as usize] {
                record.set_expression(slot, expression);
            }
        }
    }
}

fn allowed_lcso(value: &[u8], present: u8) -> Option<u8> {
    match *value {
        [state] if may_become(present, state) => Some(state),
        _ => None,
    }
}

/// The changes named by the bytes after the object, if all of them are allowed.
pub fn read_changes(sent: &[u8], present: u8) -> Option<Changes<'_>> {
    let content = read_content(sent)?;
    let mut changes = Changes::default();
    let mut rest = content;
    // Every allowed tag is above 0.
    let mut previous = 0;
    while !rest.is_empty() {
        let (tag, value, after) = split_tag(rest)?;
        if tag <= previous {
            return None;
        }
        changes.take(tag, value, present)?;
        previous = tag;
        rest = after;
    }
    Some(changes)
}

/// The bytes after 20 and L, if there are exactly L and at least one.
fn read_content(sent: &[u8]) -> Option<&[u8]> {
    match sent {
        [METADATA, length, content @ ..]
            if usize::from(*length) == content.len() && !content.is_empty() =>
        {
            Some(content)
        }
        _ => None,
    }
}

/// The first tag, its value, and the bytes after them.
fn split_tag(bytes: &[u8]) -> Option<(u8, &[u8], &[u8])> {
    let [tag, length, rest @ ..] = bytes else {
        return None;
    };
    let (value, after) = rest.split_at_checked(usize::from(*length))?;
    Some((*tag, value, after))
}
