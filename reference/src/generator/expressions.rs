//! Expressions of every form, well formed and not.

use crate::expression::{
    ALWAYS, AND, COUNTER, EQUAL, GREATER, LCSA, LCSG, LCSO, LESS, LONGEST, MOST_CONDITIONS,
    MOST_GROUPS, NEVER, OR,
};
use crate::generator::names::Names;
use crate::generator::random::Random;
use crate::session::{STATES, TERMINATION};

/// A well-formed expression; where there are names, conditions mostly name some.
pub fn expression(names: &Names, random: &mut Random) -> Vec<u8> {
    if !names.is_empty() && random.chance(80) {
        return naming_expression(names, random);
    }
    match random.below(100) {
        0..=29 => vec![ALWAYS],
        30..=37 => vec![NEVER],
        38..=59 => state_condition(random).to_vec(),
        60..=69 => chain(&Names::none(), MOST_CONDITIONS, random),
        _ => {
            let conditions = random.between(2, MOST_CONDITIONS);
            chain(&Names::none(), conditions, random)
        }
    }
}

/// Mostly few conditions, so that they often hold.
fn naming_expression(names: &Names, random: &mut Random) -> Vec<u8> {
    let conditions = match random.below(20) {
        0..=3 => 1,
        4..=7 => 2,
        8..=13 => 3,
        14..=16 => 4,
        17 => MOST_CONDITIONS,
        _ => random.between(5, MOST_CONDITIONS),
    };
    let most_ors = (MOST_GROUPS - 1).min(conditions - 1);
    let ors = match random.chance(40) {
        true => most_ors,
        false => random.between(0, most_ors),
    };
    let mut bytes = match random.chance(46) {
        true => joined_counters(names, random),
        false => chain_with_ors(names, conditions, ors, random),
    };
    let grows = may_have_another_group(&bytes);
    match random.below(20) {
        0..=4 => leave_last_group(&mut bytes),
        5..=7 if grows => bytes = [&ALWAYS_TRUE[..], &[OR], &bytes].concat(),
        8..=12 if grows => bytes.extend([&[OR], &ALWAYS_TRUE[..]].concat()),
        _ => {}
    }
    bytes
}

fn may_have_another_group(expression: &[u8]) -> bool {
    let joins = expression.iter().skip(3).step_by(4);
    let groups = 1 + joins.filter(|&&join| join == OR).count();
    expression.len() < LONGEST && groups < MOST_GROUPS
}

/// One to three counters in one group, often another one in a second group.
fn joined_counters(names: &Names, random: &mut Random) -> Vec<u8> {
    let mut made = Conditions::new(names);
    let mut bytes = counter_condition(made.number(random)).to_vec();
    let mut joins = match random.chance(22) {
        true => vec![OR],
        false => vec![AND; random.between(1, 2)],
    };
    joins.extend(random.pick(&[None, Some(OR), Some(OR)]));
    for join in joins {
        let condition = match join == AND && random.chance(16) {
            true => ALWAYS_TRUE,
            false => counter_condition(made.number(random)),
        };
        bytes.push(join);
        bytes.extend_from_slice(&condition);
    }
    bytes
}

/// Makes every group but the last one false by its last condition.
fn leave_last_group(bytes: &mut [u8]) {
    for place in (0..bytes.len() - 3).step_by(4) {
        if bytes[place + 3] == OR {
            put_condition(bytes, place, NEVER_TRUE);
        }
    }
}

/// True where access is judged at all, as LcsA is not 0F then.
const ALWAYS_TRUE: [u8; 3] = [LCSA, LESS, TERMINATION];
/// False there.
const NEVER_TRUE: [u8; 3] = [LCSA, EQUAL, TERMINATION];

fn state_condition(random: &mut Random) -> [u8; 3] {
    [
        random.pick(&[LCSG, LCSA, LCSO]),
        random.pick(&[EQUAL, GREATER, LESS]),
        random.pick(&STATES),
    ]
}

fn counter_condition(number: u16) -> [u8; 3] {
    let [high, low] = number.to_be_bytes();
    [COUNTER, high, low]
}

/// Makes the conditions of an expression; without names, on states only.
struct Conditions<'n> {
    names: &'n Names,
    /// The number named last.
    last: Option<u16>,
}

impl<'n> Conditions<'n> {
    fn new(names: &'n Names) -> Conditions<'n> {
        Conditions { names, last: None }
    }

    fn next(&mut self, random: &mut Random) -> [u8; 3] {
        if self.names.is_empty() {
            return state_condition(random);
        }
        match random.below(100) {
            0..=59 => counter_condition(self.number(random)),
            60..=74 => ALWAYS_TRUE,
            _ => state_condition(random),
        }
    }

    /// At times the number before once more.
    fn number(&mut self, random: &mut Random) -> u16 {
        let number = match self.last {
            Some(last) if random.chance(25) => last,
            _ => self.names.pick(random),
        };
        self.last = Some(number);
        number
    }
}

/// Conditions joined in 1 to 3 groups.
fn chain(names: &Names, conditions: usize, random: &mut Random) -> Vec<u8> {
    let most_ors = (MOST_GROUPS - 1).min(conditions - 1);
    let ors = random.between(0, most_ors);
    chain_with_ors(names, conditions, ors, random)
}

fn chain_with_ors(names: &Names, conditions: usize, ors: usize, random: &mut Random) -> Vec<u8> {
    let mut made = Conditions::new(names);
    let mut bytes = made.next(random).to_vec();
    let mut ors_left = ors;
    for place in 1..conditions {
        let joins_left = conditions - place;
        let is_or = random.below(joins_left) < ors_left;
        if is_or {
            ors_left -= 1;
        }
        bytes.push(if is_or { OR } else { AND });
        bytes.extend_from_slice(&made.next(random));
    }
    bytes
}

/// Any numbers, in a third of the cases.
fn any_names(random: &mut Random) -> Names {
    match random.chance(33) {
        true => Names::any(random),
        false => Names::none(),
    }
}

/// The ways in which an expression is not well formed.
#[derive(Clone, Copy, Debug, PartialEq, Eq)]
pub enum BadExpression {
    Empty,
    OtherSingleByte,
    WrongLength,
    UnknownLifeCycle,
    UnknownOperator,
    StateFour,
    UnknownState,
    UnknownJoin,
    AlwaysInside,
    NeverInside,
    FourGroups,
    EightConditions,
    /// 40 with one byte, or none.
    CounterCutShort,
    /// 40 with three bytes.
    CounterTooLong,
    /// Two bytes after 41, or another byte near 40.
    NearCounter,
}

impl BadExpression {
    pub const ALL: [BadExpression; 15] = [
        BadExpression::Empty,
        BadExpression::OtherSingleByte,
        BadExpression::WrongLength,
        BadExpression::UnknownLifeCycle,
        BadExpression::UnknownOperator,
        BadExpression::StateFour,
        BadExpression::UnknownState,
        BadExpression::UnknownJoin,
        BadExpression::AlwaysInside,
        BadExpression::NeverInside,
        BadExpression::FourGroups,
        BadExpression::EightConditions,
        BadExpression::CounterCutShort,
        BadExpression::CounterTooLong,
        BadExpression::NearCounter,
    ];

    /// An expression that is not well formed in this way only.
    pub fn make(self, random: &mut Random) -> Vec<u8> {
        let names = any_names(random);
        let conditions = random.between(1, MOST_CONDITIONS);
        let mut bytes = chain(&names, conditions, random);
        let place = 4 * random.below(conditions);
        match self {
            BadExpression::Empty => bytes.clear(),
            BadExpression::OtherSingleByte => {
                bytes = vec![random.byte_outside(&[ALWAYS, NEVER])];
            }
            BadExpression::WrongLength => wrong_length(&mut bytes, random),
            BadExpression::UnknownLifeCycle => {
                bytes[place] = random.byte_outside(&[LCSG, LCSA, LCSO, COUNTER, ALWAYS, NEVER]);
            }
            BadExpression::UnknownOperator => {
                put_condition(&mut bytes, place, state_condition(random));
                bytes[place + 1] = match random.below(3) {
                    0 => random.pick(&[AND, OR, 0xF9]),
                    _ => random.byte_outside(&[EQUAL, GREATER, LESS]),
                };
            }
            BadExpression::StateFour => {
                put_condition(&mut bytes, place, state_condition(random));
                bytes[place + 2] = 0x04;
            }
            BadExpression::UnknownState => {
                put_condition(&mut bytes, place, state_condition(random));
                bytes[place + 2] = random.byte_outside(&STATES);
            }
            BadExpression::UnknownJoin => {
                let conditions = random.between(2, MOST_CONDITIONS);
                bytes = chain(&names, conditions, random);
                let join = 4 * random.below(conditions - 1) + 3;
                bytes[join] = match random.below(3) {
                    0 => random.pick(&[EQUAL, GREATER, LESS]),
                    _ => random.byte_outside(&[AND, OR]),
                };
            }
            BadExpression::AlwaysInside => put_inside(&mut bytes, ALWAYS, random),
            BadExpression::NeverInside => put_inside(&mut bytes, NEVER, random),
            BadExpression::FourGroups => {
                let conditions = random.between(4, MOST_CONDITIONS);
                let ors = random.between(MOST_GROUPS, conditions - 1);
                bytes = chain_with_ors(&names, conditions, ors, random);
            }
            BadExpression::EightConditions => {
                bytes = chain(&names, MOST_CONDITIONS + 1, random);
            }
            BadExpression::CounterCutShort => {
                let last = bytes.len() - 3;
                bytes.truncate(last);
                bytes.push(COUNTER);
                // In the middle, what comes after stands at wrong places.
                bytes.extend(random.pick(&[None, Some(0x10), Some(0xFD), Some(0xFE)]));
                if bytes.len() < 10 && random.chance(30) {
                    bytes.extend_from_slice(&[AND, LCSO, LESS, 0x07]);
                }
            }
            BadExpression::CounterTooLong => {
                let number = random.number() as u16;
                bytes = counter_condition(number).to_vec();
                bytes.push(random.byte());
                if random.chance(50) {
                    bytes.push(random.pick(&[AND, OR]));
                    bytes.extend_from_slice(&counter_condition(number));
                }
            }
            BadExpression::NearCounter => {
                let condition = counter_condition(random.number() as u16);
                put_condition(&mut bytes, place, condition);
                bytes[place] = random.pick(&[0x41, 0x41, 0x3F, 0x42, 0x44, 0x04, 0xC0]);
            }
        }
        bytes
    }
}

fn put_condition(bytes: &mut [u8], place: usize, condition: [u8; 3]) {
    bytes[place..place + 3].copy_from_slice(&condition);
}

/// Takes 1 to 3 bytes from the end, at least 2 stay.
fn wrong_length(bytes: &mut Vec<u8>, random: &mut Random) {
    let cut = random.between(1, 3).min(bytes.len() - 2);
    bytes.truncate(bytes.len() - cut);
}

/// Puts always or never in the place of a condition, or of its first byte.
fn put_inside(bytes: &mut Vec<u8>, byte: u8, random: &mut Random) {
    let join = random.pick(&[AND, OR]);
    match random.below(5) {
        0 => *bytes = vec![byte; 3],
        1 => bytes[0] = byte,
        2 => {
            *bytes = state_condition(random).to_vec();
            bytes.extend_from_slice(&[join, byte]);
        }
        3 => {
            *bytes = vec![byte, join];
            bytes.extend_from_slice(&state_condition(random));
        }
        _ => *bytes = vec![byte; 2],
    }
}
