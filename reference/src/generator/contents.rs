//! What a metadata write sends after the object: good and bad.

use crate::expression::ALWAYS;
use crate::generator::expressions::{expression, BadExpression};
use crate::generator::names::Names;
use crate::generator::random::Random;
use crate::generator::stores::not_a_state;
use crate::metadata::{tag_of, CHANGE, EXECUTE, LCSO, MAXIMUM, METADATA, READ, USED};
use crate::session::STATES;
use crate::store::{Record, Slot};

/// The kinds of content of a metadata write.
#[derive(Clone, Copy, Debug, PartialEq, Eq)]
pub enum Content {
    Good,
    SendBack,
    LongestExpressions,
    WrongTwenty,
    LengthAbove,
    LengthBelow,
    LengthModulo256,
    Empty,
    UnknownTag,
    MaximumSent,
    UsedSent,
    TagsFalling,
    TagRepeated,
    LifeCycleFalls,
    LifeCycleNoState,
    LifeCycleLength,
    ValueCutShort,
    TagAlone,
    BadLastExpression,
    BadOnlyExpression(Slot, BadExpression),
}

impl Content {
    pub fn all() -> Vec<Content> {
        let mut all = vec![
            Content::Good,
            Content::SendBack,
            Content::LongestExpressions,
            Content::WrongTwenty,
            Content::LengthAbove,
            Content::LengthBelow,
            Content::LengthModulo256,
            Content::Empty,
            Content::UnknownTag,
            Content::MaximumSent,
            Content::UsedSent,
            Content::TagsFalling,
            Content::TagRepeated,
            Content::LifeCycleFalls,
            Content::LifeCycleNoState,
            Content::LifeCycleLength,
            Content::ValueCutShort,
            Content::TagAlone,
            Content::BadLastExpression,
        ];
        for slot in Slot::ALL {
            all.extend(BadExpression::ALL.map(|bad| Content::BadOnlyExpression(slot, bad)));
        }
        all
    }

    pub fn is_good(self) -> bool {
        matches!(
            self,
            Content::Good | Content::SendBack | Content::LongestExpressions
        )
    }

    /// The bytes after the object, for an object whose record is given; the
    /// expressions sent may name some of the names.
    pub fn make(self, record: Record<'_>, names: &Names, random: &mut Random) -> Vec<u8> {
        let present = record.lcso();
        match self {
            Content::Good => led(&join(&good_tags(present, names, random))),
            Content::SendBack => led(&join(&tags_of(record))),
            Content::LongestExpressions => led(&join(&longest_tags(names, random))),
            Content::WrongTwenty => {
                let mut sent = led(&join(&good_tags(present, names, random)));
                sent[0] = match random.chance(50) {
                    true => random.pick(&[0x00, 0x21, 0x02, 0xC0, 0xA0]),
                    false => random.byte_outside(&[METADATA]),
                };
                sent
            }
            Content::LengthAbove => {
                let mut sent = led(&join(&good_tags(present, names, random)));
                sent[1] += 1;
                sent
            }
            Content::LengthBelow => {
                let mut sent = led(&join(&good_tags(present, names, random)));
                sent[1] = match random.chance(70) {
                    true => sent[1] - 1,
                    false => 0,
                };
                sent
            }
            Content::LengthModulo256 => {
                let mut sent = led(&join(&good_tags(present, names, random)));
                sent.extend_from_slice(&random.bytes(256));
                sent
            }
            Content::Empty => led(&[]),
            Content::LifeCycleFalls => led(&join(&[life_cycle(lower_state(present, random))])),
            Content::LifeCycleNoState => {
                let mut tags = good_tags(present, names, random);
                tags.retain(|tag| tag[0] != LCSO);
                tags.insert(0, life_cycle(not_a_state(random)));
                led(&join(&tags))
            }
            Content::LifeCycleLength => {
                let bytes = vec![present; random.pick(&[0, 2, 3])];
                led(&tagged(LCSO, &bytes))
            }
            Content::ValueCutShort => {
                let mut content = join(&good_tags(present, names, random));
                content.pop();
                led(&content)
            }
            Content::TagAlone => {
                let mut content = led(&join(&[life_cycle(present)]));
                content.push(random.pick(&[CHANGE, READ, EXECUTE]));
                content[1] += 1;
                content
            }
            Content::UnknownTag => {
                let known = [LCSO, MAXIMUM, USED, CHANGE, READ, EXECUTE];
                let tag = match random.chance(60) {
                    true => random.pick(&[0xC1, 0xC2, 0xC3, 0xC6, 0xD2, 0xD4, 0xE0, 0xFF, 0x00]),
                    false => random.byte_outside(&known),
                };
                led(&with_tag(tag, &[ALWAYS], random))
            }
            Content::MaximumSent => {
                let value = (record.maximum() as u16).to_be_bytes();
                led(&with_tag(MAXIMUM, &value, random))
            }
            Content::UsedSent => {
                let value = (record.used() as u16).to_be_bytes();
                led(&with_tag(USED, &value, random))
            }
            Content::TagsFalling => {
                let mut tags = many_tags(present, names, random);
                let place = random.below(tags.len() - 1);
                tags.swap(place, place + 1);
                led(&join(&tags))
            }
            Content::TagRepeated => {
                let mut tags = many_tags(present, names, random);
                let place = random.below(tags.len());
                let again = tags[place].clone();
                tags.insert(place + 1, again);
                led(&join(&tags))
            }
            Content::BadLastExpression => {
                let mut tags = many_tags(present, names, random);
                let last = tags.len() - 1;
                let bad = random.pick(&BadExpression::ALL).make(random);
                tags[last] = tagged(tags[last][0], &bad);
                led(&join(&tags))
            }
            Content::BadOnlyExpression(slot, bad) => {
                let bad = bad.make(random);
                led(&tagged(tag_of(slot), &bad))
            }
        }
    }
}

/// The content led by 20 and L.
fn led(content: &[u8]) -> Vec<u8> {
    tagged(METADATA, content)
}

fn tagged(tag: u8, value: &[u8]) -> Vec<u8> {
    let mut bytes = vec![tag, value.len() as u8];
    bytes.extend_from_slice(value);
    bytes
}

fn life_cycle(state: u8) -> Vec<u8> {
    tagged(LCSO, &[state])
}

fn join(tags: &[Vec<u8>]) -> Vec<u8> {
    tags.concat()
}

/// The tags of a record's metadata, without C4 and C5.
fn tags_of(record: Record<'_>) -> Vec<Vec<u8>> {
    let mut tags = vec![life_cycle(record.lcso())];
    for slot in Slot::ALL {
        tags.push(tagged(tag_of(slot), record.expression(slot)));
    }
    tags
}

/// Some of the allowed tags, with allowed values.
fn good_tags(present: u8, names: &Names, random: &mut Random) -> Vec<Vec<u8>> {
    let chosen = random.between(1, 15);
    let mut tags = all_tags(present, names, random);
    let mut place = 0;
    tags.retain(|_| {
        place += 1;
        chosen >> (place - 1) & 1 == 1
    });
    tags
}

/// At least two of the allowed tags.
fn many_tags(present: u8, names: &Names, random: &mut Random) -> Vec<Vec<u8>> {
    let mut tags = all_tags(present, names, random);
    while tags.len() > 2 && random.chance(40) {
        tags.remove(random.below(tags.len()));
    }
    tags
}

fn all_tags(present: u8, names: &Names, random: &mut Random) -> Vec<Vec<u8>> {
    let change = match random.chance(50) {
        true => vec![ALWAYS],
        false => expression(names, random),
    };
    vec![
        life_cycle(later_state(present, random)),
        tagged(CHANGE, &change),
        tagged(READ, &expression(names, random)),
        tagged(EXECUTE, &expression(names, random)),
    ]
}

/// Expressions of 27 bytes.
fn longest_tags(names: &Names, random: &mut Random) -> Vec<Vec<u8>> {
    let mut tags: Vec<Vec<u8>> = Vec::new();
    for slot in Slot::ALL {
        let mut longest = Vec::new();
        while longest.len() != crate::expression::LONGEST {
            longest = expression(names, random);
        }
        tags.push(tagged(tag_of(slot), &longest));
    }
    let first = random.below(3);
    tags.split_off(first)
}

/// One tag among good ones, in its rising place.
fn with_tag(tag: u8, value: &[u8], random: &mut Random) -> Vec<u8> {
    let mut tags = vec![tagged(READ, &[ALWAYS]), tagged(EXECUTE, &[ALWAYS])];
    tags.truncate(random.below(3));
    tags.push(tagged(tag, value));
    tags.sort_by_key(|bytes| bytes[0]);
    join(&tags)
}

/// The present state or one above it.
fn later_state(present: u8, random: &mut Random) -> u8 {
    if random.chance(60) {
        return present;
    }
    loop {
        let state = random.pick(&STATES);
        if state >= present {
            return state;
        }
    }
}

/// A state below the present one, or 00 where there is none.
fn lower_state(present: u8, random: &mut Random) -> u8 {
    if present == STATES[0] {
        return 0;
    }
    loop {
        let state = random.pick(&STATES);
        if state < present {
            return state;
        }
    }
}
