//! The numbers that conditions on counters name.

use crate::counter::Direction;
use crate::expression::counters_named;
use crate::generator::random::Random;
use crate::generator::stores::object_number;
use crate::session::SessionObject;
use crate::store::{Record, RecordKind, Slot};

/// Numbers to name, some of them more than once; none where conditions name no counter.
#[derive(Clone, Debug, Default)]
pub struct Names {
    numbers: Vec<u16>,
    /// Those of them that are numbers of up counters, each once.
    up_counters: Vec<u16>,
}

/// How often a number stands among the names, by what has it.
const UP_COUNTER: usize = 8;
const DOWN_COUNTER: usize = 5;
const DATA: usize = 1;
const QUEUE: usize = 2;

impl Names {
    pub fn none() -> Names {
        Names::default()
    }

    /// Numbers of no particular object.
    pub fn any(random: &mut Random) -> Names {
        let mut numbers = vec![0xFDFE, 0xFEFD, 0x4040];
        numbers.extend([object_number(random), random.number() as u16]);
        Names {
            numbers,
            up_counters: Vec::new(),
        }
    }

    /// Mostly up counters among these objects; also others, missing ones and the session's.
    pub fn of_objects(
        objects: impl Iterator<Item = (u16, RecordKind)>,
        random: &mut Random,
    ) -> Names {
        let mut numbers: Vec<u16> = SessionObject::ALL
            .map(|object| object.number().0)
            .into_iter()
            .filter(|_| random.chance(70))
            .collect();
        let mut up_counters = Vec::new();
        for (number, kind) in objects {
            if kind == RecordKind::Counter(Direction::Up) {
                up_counters.push(number);
            }
            let weight = match kind {
                RecordKind::Counter(Direction::Up) => UP_COUNTER,
                RecordKind::Counter(Direction::Down) => DOWN_COUNTER,
                RecordKind::Data => DATA,
                RecordKind::Queue => QUEUE,
            };
            numbers.extend(vec![number; weight]);
        }
        for _ in 0..3 {
            numbers.push(missing(&numbers, random));
        }
        Names {
            numbers,
            up_counters,
        }
    }

    /// Those of the records of a store.
    pub fn of_records(records: &[Record<'_>], random: &mut Random) -> Names {
        let objects = records
            .iter()
            .filter_map(|record| Some((record.object().0, record.kind()?)));
        Names::of_objects(objects, random)
    }

    /// These names, and often the object's own number.
    pub fn with_own(&self, number: u16) -> Names {
        let mut numbers = self.numbers.clone();
        if !numbers.is_empty() {
            numbers.extend(vec![number; 1 + numbers.len() / 2]);
        }
        Names {
            numbers,
            up_counters: self.up_counters.clone(),
        }
    }

    /// Only the names that are wanted.
    pub fn only(&self, wanted: impl Fn(u16) -> bool) -> Names {
        let [numbers, up_counters] = [&self.numbers, &self.up_counters].map(|numbers| {
            let mut numbers = numbers.clone();
            numbers.retain(|&number| wanted(number));
            numbers
        });
        Names {
            numbers,
            up_counters,
        }
    }

    /// Only the up counters, or all names where there is none.
    pub fn up_counters(&self) -> Names {
        match self.up_counters.is_empty() {
            true => self.clone(),
            false => self.only(|number| self.up_counters.contains(&number)),
        }
    }

    pub fn is_empty(&self) -> bool {
        self.numbers.is_empty()
    }

    pub fn pick(&self, random: &mut Random) -> u16 {
        random.pick(&self.numbers)
    }
}

/// A number next to one of these, with its bytes swapped, or any; it may be there.
fn missing(numbers: &[u16], random: &mut Random) -> u16 {
    let any = object_number(random);
    if numbers.is_empty() {
        return any;
    }
    let near = random.pick(numbers);
    random.pick(&[any, near ^ 1, near.swap_bytes()])
}

/// Whether some condition of the record names a counter.
pub fn names_counter(record: Record<'_>) -> bool {
    let mut slots = Slot::ALL.into_iter();
    slots.any(|slot| names_counter_in(record, slot))
}

/// Whether some condition in the slot does.
pub fn names_counter_in(record: Record<'_>, slot: Slot) -> bool {
    counters_named(record.expression(slot)).next().is_some()
}
