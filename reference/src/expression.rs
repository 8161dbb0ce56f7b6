//! Access expressions: their form, whether they hold, and the counters they move.

use crate::kinds::ObjectNumber;
use crate::session::is_state;

pub const MOST_CONDITIONS: usize = 7;
pub const MOST_GROUPS: usize = 3;
/// The most bytes an expression takes: seven conditions and six joins.
pub const LONGEST: usize = 27;

pub const ALWAYS: u8 = 0x00;
pub const NEVER: u8 = 0xFF;

pub const LCSG: u8 = 0x70;
pub const LCSA: u8 = 0xE0;
pub const LCSO: u8 = 0xE1;
/// Leads a condition on an up counter; its number follows.
pub const COUNTER: u8 = 0x40;

pub const EQUAL: u8 = 0xFA;
pub const GREATER: u8 = 0xFB;
pub const LESS: u8 = 0xFC;

pub const AND: u8 = 0xFD;
pub const OR: u8 = 0xFE;

/// Bytes of a condition, and of a condition with the join after it.
const CONDITION: usize = 3;
const CONDITION_AND_JOIN: usize = 4;

/// The life cycle states that conditions compare.
#[derive(Clone, Copy, Debug, PartialEq, Eq)]
pub struct States {
    pub lcsg: u8,
    pub lcsa: u8,
    pub lcso: u8,
}

/// Whether the bytes are always, never, or a chain of joined conditions.
pub fn is_well_formed(expression: &[u8]) -> bool {
    match expression {
        [ALWAYS] | [NEVER] => true,
        _ => is_chain(expression),
    }
}

/// Whether the bytes are 1 to 7 conditions in at most 3 groups.
fn is_chain(expression: &[u8]) -> bool {
    if expression.len() > LONGEST || expression.len() % CONDITION_AND_JOIN != CONDITION {
        return false;
    }
    let mut groups = 1;
    for part in expression.chunks(CONDITION_AND_JOIN) {
        if !is_condition(part[0], part[1], part[2]) {
            return false;
        }
        match part.get(CONDITION) {
            None | Some(&AND) => {}
            Some(&OR) => groups += 1,
            Some(_) => return false,
        }
    }
    groups <= MOST_GROUPS
}

fn is_condition(first: u8, second: u8, third: u8) -> bool {
    match first {
        COUNTER => true,
        LCSG | LCSA | LCSO => matches!(second, EQUAL | GREATER | LESS) && is_state(third),
        _ => false,
    }
}

/// The counters named in a group, each once.
#[derive(Clone, Copy, Debug, PartialEq, Eq)]
pub struct CounterSet {
    numbers: [ObjectNumber; MOST_CONDITIONS],
    count: usize,
}

impl CounterSet {
    pub const EMPTY: CounterSet = CounterSet {
        numbers: [ObjectNumber(0); MOST_CONDITIONS],
        count: 0,
    };

    pub fn numbers(&self) -> &[ObjectNumber] {
        &self.numbers[..self.count]
    }

    fn insert(&mut self, number: ObjectNumber) {
        if !self.numbers().contains(&number) {
            self.numbers[self.count] = number;
            self.count += 1;
        }
    }
}

/// Judges a well-formed expression: the counters to move if it holds.
/// `is_below` tells whether a number is that of an up counter below its threshold.
pub fn judge(
    expression: &[u8],
    states: States,
    is_below: impl Fn(ObjectNumber) -> bool,
) -> Option<CounterSet> {
    match expression {
        [ALWAYS] => Some(CounterSet::EMPTY),
        [NEVER] => None,
        _ => judge_groups(expression, states, is_below),
    }
}

/// The counters of the first group between ors in which all conditions hold.
fn judge_groups(
    expression: &[u8],
    states: States,
    is_below: impl Fn(ObjectNumber) -> bool,
) -> Option<CounterSet> {
    let mut group_holds = true;
    let mut counters = CounterSet::EMPTY;
    for part in expression.chunks(CONDITION_AND_JOIN) {
        group_holds &= match counter_of(part) {
            Some(number) => {
                counters.insert(number);
                is_below(number)
            }
            None => state_holds(part[0], part[1], part[2], states),
        };
        if part.get(CONDITION) == Some(&OR) {
            if group_holds {
                return Some(counters);
            }
            group_holds = true;
            counters = CounterSet::EMPTY;
        }
    }
    group_holds.then_some(counters)
}

/// The counter that a condition at the front of the bytes names.
fn counter_of(part: &[u8]) -> Option<ObjectNumber> {
    match *part {
        [COUNTER, high, low, ..] => Some(ObjectNumber(u16::from_be_bytes([high, low]))),
        _ => None,
    }
}

/// The counters that a well-formed expression names, in all of its groups.
pub fn counters_named(expression: &[u8]) -> impl Iterator<Item = ObjectNumber> + '_ {
    expression.chunks(CONDITION_AND_JOIN).filter_map(counter_of)
}

fn state_holds(life_cycle: u8, operator: u8, reference: u8, states: States) -> bool {
    let current = match life_cycle {
        LCSG => states.lcsg,
        LCSA => states.lcsa,
        _ => states.lcso,
    };
    match operator {
        EQUAL => current == reference,
        GREATER => current > reference,
        _ => current < reference,
    }
}

#[cfg(test)]
mod tests {
    use super::*;

    const FRESH: States = States {
        lcsg: 1,
        lcsa: 1,
        lcso: 1,
    };

    /// Judges an expression without conditions on counters.
    fn holds(expression: &[u8], states: States) -> bool {
        match judge(expression, states, |_| panic!("no counter is named")) {
            Some(counters) => {
                assert_eq!(counters, CounterSet::EMPTY);
                true
            }
            None => false,
        }
    }

    /// `count` conditions joined by the given joins.
    fn chain(count: usize, join: impl Fn(usize) -> u8) -> Vec<u8> {
        let mut bytes = vec![LCSO, LESS, 0x07];
        for place in 1..count {
            bytes.push(join(place));
            bytes.extend_from_slice(&[LCSG, EQUAL, 0x01]);
        }
        bytes
    }

    #[test]
    fn single_bytes() {
        for byte in 0..=255 {
            assert_eq!(is_well_formed(&[byte]), byte == ALWAYS || byte == NEVER);
        }
        assert!(!is_well_formed(&[]));
    }

    #[test]
    fn single_conditions() {
        for life_cycle in 0..=255u8 {
            for operator in 0..=255u8 {
                for reference in [0x00, 0x01, 0x03, 0x04, 0x07, 0x08, 0x0F, 0x10, 0xFF] {
                    let expected = life_cycle == 0x40
                        || [0x70, 0xE0, 0xE1].contains(&life_cycle)
                            && [0xFA, 0xFB, 0xFC].contains(&operator)
                            && [0x01, 0x03, 0x07, 0x0F].contains(&reference);
                    assert_eq!(is_well_formed(&[life_cycle, operator, reference]), expected);
                }
            }
        }
    }

    #[test]
    fn chains_by_count_of_conditions() {
        for count in 1..=7 {
            let expression = chain(count, |_| AND);
            assert_eq!(expression.len(), 4 * count - 1);
            assert!(is_well_formed(&expression));
            for cut in 0..expression.len() {
                let whole = cut % 4 == 3;
                assert_eq!(is_well_formed(&expression[..cut]), whole, "{count} {cut}");
            }
        }
        assert!(!is_well_formed(&chain(8, |_| AND)));
        assert!(!is_well_formed(&chain(64, |_| AND)));
    }

    #[test]
    fn chains_by_count_of_groups() {
        for ors in 0..=6 {
            let expression = chain(7, |place| if place <= ors { OR } else { AND });
            assert_eq!(is_well_formed(&expression), ors <= 2, "{ors}");
        }
        assert!(!is_well_formed(&chain(4, |_| OR)));
        assert!(is_well_formed(&chain(3, |_| OR)));
    }

    #[test]
    fn joins_other_than_and_or() {
        for join in 0..=255u8 {
            let expected = join == 0xFD || join == 0xFE;
            assert_eq!(is_well_formed(&chain(2, |_| join)), expected);
        }
    }

    #[test]
    fn always_and_never_stand_alone() {
        for byte in [ALWAYS, NEVER] {
            assert!(!is_well_formed(&[byte, AND, LCSO, LESS, 0x07]));
            assert!(!is_well_formed(&[LCSO, LESS, 0x07, AND, byte]));
            assert!(!is_well_formed(&[LCSO, LESS, 0x07, byte]));
            assert!(!is_well_formed(&[byte, byte, byte]));
            assert!(!is_well_formed(&[byte, LCSO, LESS, 0x07]));
        }
    }

    #[test]
    fn operators_compare_as_numbers() {
        for current in [0x01, 0x03, 0x07, 0x0F] {
            for reference in [0x01, 0x03, 0x07, 0x0F] {
                for life_cycle in [LCSG, LCSA, LCSO] {
                    let mut states = FRESH;
                    match life_cycle {
                        LCSG => states.lcsg = current,
                        LCSA => states.lcsa = current,
                        _ => states.lcso = current,
                    }
                    let judge = |operator| holds(&[life_cycle, operator, reference], states);
                    assert_eq!(judge(0xFA), current == reference);
                    assert_eq!(judge(0xFB), current > reference);
                    assert_eq!(judge(0xFC), current < reference);
                }
            }
        }
    }

    /// Compares the judgment of every chain of joins with or over and groups.
    #[test]
    fn and_binds_before_or() {
        let truth = |value: bool| [LCSG, EQUAL, if value { 0x01 } else { 0x03 }];
        for count in 1..=5usize {
            for values in 0..1u32 << count {
                for joins in 0..1u32 << (count - 1) {
                    let mut bytes = Vec::new();
                    let mut groups = vec![true];
                    for place in 0..count {
                        if place > 0 {
                            let or = joins >> (place - 1) & 1 == 1;
                            bytes.push(if or { OR } else { AND });
                            if or {
                                groups.push(true);
                            }
                        }
                        let value = values >> place & 1 == 1;
                        bytes.extend_from_slice(&truth(value));
                        *groups.last_mut().unwrap() &= value;
                    }
                    assert_eq!(is_well_formed(&bytes), groups.len() <= 3);
                    if groups.len() <= 3 {
                        assert_eq!(holds(&bytes, FRESH), groups.contains(&true));
                    }
                }
            }
        }
    }

    /// The numbers moved where those of `below` are below their thresholds.
    fn moved(expression: &[u8], below: &[u16]) -> Option<Vec<u16>> {
        assert!(is_well_formed(expression));
        let judged = judge(expression, FRESH, |number| below.contains(&number.0));
        judged.map(|counters| counters.numbers().iter().map(|number| number.0).collect())
    }

    #[test]
    fn any_number_of_a_counter() {
        for number in 0..=0xFFFF {
            let [high, low] = u16::to_be_bytes(number);
            let expression = [COUNTER, high, low];
            assert_eq!(moved(&expression, &[number]), Some(vec![number]));
            assert_eq!(moved(&expression, &[number.wrapping_add(1)]), None);
        }
    }

    #[test]
    fn lengths_of_a_counter() {
        for length in 0..=12 {
            let bytes = [COUNTER; 12];
            assert_eq!(is_well_formed(&bytes[..length]), length == 3, "{length}");
        }
    }

    #[test]
    fn the_first_true_group_moves() {
        // 0001 and 0002, or 0003, or 0001 and LcsG is 01.
        let expression = b"\x40\x00\x01\xFD\x40\x00\x02\xFE\x40\x00\x03\xFE\
                           \x40\x00\x01\xFD\x70\xFA\x01";
        assert_eq!(moved(expression, &[1, 2, 3]), Some(vec![1, 2]));
        assert_eq!(moved(expression, &[1, 3]), Some(vec![3]));
        assert_eq!(moved(expression, &[2, 3]), Some(vec![3]));
        assert_eq!(moved(expression, &[1]), Some(vec![1]));
        assert_eq!(moved(expression, &[2]), None);
        assert_eq!(moved(expression, &[]), None);
    }

    #[test]
    fn joins_stand_at_fixed_places() {
        // FDFE and FEFD, or FEFE.
        let expression = b"\x40\xFD\xFE\xFD\x40\xFE\xFD\xFE\x40\xFE\xFE";
        assert_eq!(
            moved(expression, &[0xFDFE, 0xFEFD]),
            Some(vec![0xFDFE, 0xFEFD])
        );
        assert_eq!(moved(expression, &[0xFDFE, 0xFEFE]), Some(vec![0xFEFE]));
        assert_eq!(moved(expression, &[0xFDFE]), None);
        let named: Vec<ObjectNumber> = counters_named(expression).collect();
        assert_eq!(named, [0xFDFE, 0xFEFD, 0xFEFE].map(ObjectNumber));
    }

    #[test]
    fn a_counter_stands_once_in_the_set() {
        let seven = [&b"\x40\x12\x34\xFD"[..]; 7].concat();
        assert_eq!(moved(&seven[..27], &[0x1234]), Some(vec![0x1234]));
        let others: Vec<u8> = (1..=7).flat_map(|low| [0x40, 0, low, AND]).collect();
        let numbers: Vec<u16> = (1..=7).collect();
        assert_eq!(moved(&others[..27], &numbers), Some(numbers));
    }
}
