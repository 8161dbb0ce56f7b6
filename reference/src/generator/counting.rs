//! Stores whose conditions use up counters.

use crate::counter::{self, Counter, Direction};
use crate::generator::expressions::expression;
use crate::generator::names::Names;
use crate::generator::queues::queue_maximum;
use crate::generator::random::Random;
use crate::generator::stores::{
    is_session_number, make_object, object_number, random_counter, Object,
};
use crate::store::{RecordKind, Slot};

/// How many of a hundred objects are queues for sure.
const QUEUES: usize = 22;

/// Objects of a store with conditions on its counters.
pub(super) fn counting_objects(random: &mut Random) -> Vec<Object> {
    let mut objects = objects_with_counters(random);
    let kinds = objects.iter().map(|object| (object.number, object.kind));
    let names = Names::of_objects(kinds, random);
    for object in &mut objects {
        ask_counters(object, &names, random);
    }
    objects
}

/// Objects of which many are up counters near their thresholds, no conditions on them yet.
pub(super) fn objects_with_counters(random: &mut Random) -> Vec<Object> {
    let count = match random.below(8) {
        0 => random.between(1, 2),
        1 => random.between(12, 20),
        _ => random.between(4, 13),
    };
    let mut objects: Vec<Object> = numbers(count, random)
        .into_iter()
        .map(|number| match random.chance(QUEUES) {
            true => Object::queue(number, queue_maximum(random), random),
            false => make_object(number, size(random), random),
        })
        .collect();
    for object in &mut objects {
        if object.maximum == counter::SIZE && object.kind != RecordKind::Queue {
            set_kind(object, random);
        }
        if random.chance(40) {
            object.lcso = crate::session::CREATION;
        }
    }
    objects
}

/// Makes an object of a counter's size an up counter, a down counter, or leaves it.
fn set_kind(object: &mut Object, random: &mut Random) {
    let counter = match random.below(20) {
        0..=12 => near_counter(random),
        13..=16 => random_counter(Direction::Down, random),
        _ => return,
    };
    object.kind = RecordKind::Counter(counter.direction);
    object.data = counter.to_data().to_vec();
}

/// Gives the object's expressions conditions on the named counters.
pub(super) fn ask_counters(object: &mut Object, names: &Names, random: &mut Random) {
    let names = match object.kind {
        RecordKind::Counter(Direction::Up) => names.with_own(object.number),
        _ => names.clone(),
    };
    for slot in Slot::ALL {
        if random.chance(90) {
            object.expressions[slot as usize] = expression(&names, random);
        }
    }
    // Most queues may be changed for a while.
    if object.kind == RecordKind::Queue && random.chance(60) {
        object.expressions[Slot::Change as usize] = expression(&names.up_counters(), random);
    }
}

fn size(random: &mut Random) -> usize {
    match random.below(20) {
        0..=11 => counter::SIZE,
        12 => random.between(1, 700),
        _ => random.between(1, 40),
    }
}

/// An up counter with few steps left, at its threshold or above it.
pub fn near_counter(random: &mut Random) -> Counter {
    let threshold = match random.below(6) {
        0 => random.between(1, 9) as u32,
        1 => u32::MAX - random.below(3) as u32,
        2 => 1 << random.pick(&[8, 16, 24, 31]),
        3 => random.number() as u32,
        _ => random.between(10, 3_000) as u32,
    };
    let value = match random.below(20) {
        0 | 1 => threshold,
        2 | 3 => threshold.saturating_add(1 + random.below(4) as u32),
        4..=6 => threshold.saturating_sub(1),
        7..=12 => threshold.saturating_sub(random.between(2, 9) as u32),
        _ => threshold.saturating_sub(random.between(10, 60) as u32),
    };
    Counter {
        direction: Direction::Up,
        value,
        threshold,
    }
}

/// Rising object numbers; in many of them joining bytes stand.
fn numbers(count: usize, random: &mut Random) -> Vec<u16> {
    let mut numbers = Vec::new();
    while numbers.len() < count {
        let number = match random.chance(30) {
            true => joining_number(random),
            false => object_number(random),
        };
        if !is_session_number(number) && !numbers.contains(&number) {
            numbers.push(number);
        }
    }
    numbers.sort_unstable();
    numbers
}

/// A number with FD or FE in it.
fn joining_number(random: &mut Random) -> u16 {
    let join = random.pick(&[0xFD, 0xFE]);
    let other = match random.chance(60) {
        true => random.pick(&[0xFD, 0xFE, 0x40, 0x70, 0xE1, 0x00, 0x07, 0xFF]),
        false => random.byte(),
    };
    match random.chance(50) {
        true => u16::from_be_bytes([join, other]),
        false => u16::from_be_bytes([other, join]),
    }
}
