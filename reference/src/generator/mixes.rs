//! Pairs of lists of read and write commands, each pair with a mix of its lists.

use std::collections::BTreeSet;

use crate::engine::{judge, FLUSH, GET, HEADER, SET};
use crate::expression::counters_named;
use crate::generator::commands::Commands;
use crate::generator::counting::{ask_counters, objects_with_counters};
use crate::generator::names::Names;
use crate::generator::random::Random;
use crate::generator::stores::{
    is_session_number, join, odd_session, valid_store, working_session, Damage,
};
use crate::replay::{Item, State};
use crate::session::Session;
use crate::store::{self, Record, Slot};

/// A command of a list, with its own room.
#[derive(Clone, Debug, PartialEq, Eq)]
pub struct Listed {
    pub command: Vec<u8>,
    pub room: Vec<u8>,
}

/// A command's list, 0 or 1, and its place in it.
#[derive(Clone, Copy, Debug, PartialEq, Eq)]
pub struct Turn {
    pub list: usize,
    pub place: usize,
}

/// Two lists of commands, what they begin from, and a mix of them.
#[derive(Clone, Debug)]
pub struct Pair {
    pub state: State,
    pub lists: [Vec<Listed>; 2],
    pub mix: Vec<Turn>,
}

/// The names of the orders in which a pair is run.
pub const ORDERS: [&str; 3] = [
    "the mix",
    "the first list, then the second",
    "the second list, then the first",
];

impl Pair {
    pub fn listed(&self, turn: Turn) -> &Listed {
        &self.lists[turn.list][turn.place]
    }

    /// The turns of each order.
    pub fn orders(&self) -> [Vec<Turn>; 3] {
        let [first, second] = [0, 1].map(|list| {
            let places = 0..self.lists[list].len();
            places.map(|place| Turn { list, place }).collect::<Vec<_>>()
        });
        [
            self.mix.clone(),
            [&first[..], &second].concat(),
            [&second[..], &first].concat(),
        ]
    }

    /// The three runs in the form that `replay` reads.
    pub fn items(&self) -> Vec<Item> {
        let mut items = Vec::new();
        for order in self.orders() {
            items.push(Item::Store {
                store: self.state.store.clone(),
                session: self.state.session,
            });
            for turn in order {
                let Listed { command, room } = self.listed(turn).clone();
                items.push(Item::Command { room, command });
            }
            items.push(Item::Bytes);
        }
        items
    }

    /// What a run of one list alone meets.
    fn run_alone(&self, list: usize) -> Alone {
        let commands = || self.lists[list].iter();
        let mut alone = Alone {
            objects: commands()
                .filter_map(|listed| named_object(&listed.command))
                .collect(),
            named: BTreeSet::new(),
            moves: false,
        };
        let mut state = self.state.clone();
        alone.look_at(&state);
        for Listed { command, room } in commands() {
            let judged = judge(command, &state.store, state.session, room.len());
            let moving = judged.is_ok_and(|granted| !granted.counters.numbers().is_empty());
            alone.moves |= moving && room.len() >= HEADER;
            state.execute(command, &mut room.clone());
            alone.look_at(&state);
        }
        alone
    }

    /// Looks at a run of each list alone.
    pub fn judge(&self) -> Judged {
        let [first, second] = [0, 1].map(|list| self.run_alone(list));
        Judged {
            keeps_apart: !first.touches(&second) && !second.touches(&first),
            moves: first.moves || second.moves,
        }
    }
}

/// What the runs of each list alone show of a pair.
#[derive(Clone, Copy, Debug, PartialEq, Eq)]
pub struct Judged {
    /// No number in a condition of one list's objects, before or during the run, is
    /// an object or such a number of the other's.
    pub keeps_apart: bool,
    /// Some command moves a counter by a condition.
    pub moves: bool,
}

/// The objects that a list names, and the numbers in their conditions.
struct Alone {
    objects: BTreeSet<u16>,
    named: BTreeSet<u16>,
    moves: bool,
}

impl Alone {
    /// Takes the numbers in all three expressions of the list's objects; a malformed
    /// store has no objects.
    fn look_at(&mut self, state: &State) {
        if !store::check_store(&state.store) {
            return;
        }
        let records = store::records(&state.store).map(|found| found.1);
        let own = records.filter(|record| self.objects.contains(&record.object().0));
        self.named.extend(own.flat_map(numbers_in_conditions));
    }

    /// Whether a number in its conditions is an object or such a number of the other's.
    fn touches(&self, other: &Alone) -> bool {
        let mut named = self.named.iter();
        named.any(|number| other.objects.contains(number) || other.named.contains(number))
    }
}

fn numbers_in_conditions(record: Record<'_>) -> Vec<u16> {
    let expressions = Slot::ALL.map(|slot| record.expression(slot));
    let numbers = expressions.into_iter().flat_map(counters_named);
    numbers.map(|number| number.0).collect()
}

/// The object that a get or set names in its fifth and sixth bytes, if it has them.
pub fn named_object(command: &[u8]) -> Option<u16> {
    match *command {
        [_, _, _, _, high, low, ..] => Some(u16::from_be_bytes([high, low])),
        _ => None,
    }
}

/// The pair of a seed and an index.
pub fn pair(seed: u64, index: u64) -> Pair {
    let mut mixer = Random::new(seed);
    let mut random = Random::new(mixer.number() ^ index);
    let owners = Owners::new(&mut random);
    let (state, names) = beginning(&owners, &mut random);
    let mut maker = Maker {
        commands: Commands::new(),
        owners,
        names,
        lists: [Vec::new(), Vec::new()],
        state: state.clone(),
    };
    let mix = mix(&mut random);
    for turn in &mix {
        maker.add_command(turn.list, &mut random);
    }
    Pair {
        state,
        lists: maker.lists,
        mix,
    }
}

/// The list that an object number belongs to.
struct Owners {
    salt: u64,
}

impl Owners {
    fn new(random: &mut Random) -> Owners {
        let salt = random.number();
        Owners { salt }
    }

    fn owner(&self, number: u16) -> usize {
        Random::new(self.salt ^ u64::from(number)).below(2)
    }
}

/// A store and session, and what conditions of each list's objects name.
fn beginning(owners: &Owners, random: &mut Random) -> (State, [Names; 2]) {
    let session = match random.chance(90) {
        true => working_session(random),
        false => odd_session(random),
    };
    let kind = random.below(100);
    let store = match kind {
        0..=5 => random.pick(&Damage::all()).make(random),
        6..=13 => valid_store(random),
        _ => return counting_beginning(session, owners, random),
    };
    let state = State { store, session };
    (state, [Names::none(), Names::none()])
}

/// A store whose conditions use up counters, in near half of the cases each list its
/// own: pairs of the others keep apart at times too.
fn counting_beginning(
    session: Session,
    owners: &Owners,
    random: &mut Random,
) -> (State, [Names; 2]) {
    let mut objects = objects_with_counters(random);
    while objects.len() < 6 && random.chance(90) {
        objects = objects_with_counters(random);
    }
    let kinds = objects.iter().map(|object| (object.number, object.kind));
    let all = Names::of_objects(kinds, random);
    let names = match random.chance(45) {
        true => [0, 1].map(|list| all.only(|number| owners.owner(number) == list)),
        false => [all.clone(), all],
    };
    for object in &mut objects {
        ask_counters(object, &names[owners.owner(object.number)], random);
    }
    let store = join(&objects);
    (State { store, session }, names)
}

/// A mix of two lists of up to 28 commands, either of them empty at times.
fn mix(random: &mut Random) -> Vec<Turn> {
    let lengths = [0, 1].map(|_| match random.below(20) {
        0 => 0,
        1 => 1,
        _ => random.between(2, 28),
    });
    let bias = random.pick(&[10, 50, 50, 50, 90]);
    let mut made = [0, 0];
    let mut mix = Vec::new();
    while made != lengths {
        let wanted = usize::from(random.chance(bias));
        let list = match made[wanted] < lengths[wanted] {
            true => wanted,
            false => 1 - wanted,
        };
        let place = made[list];
        mix.push(Turn { list, place });
        made[list] += 1;
    }
    mix
}

/// Makes the commands in the order of the mix, and follows what they do.
struct Maker {
    commands: Commands,
    owners: Owners,
    names: [Names; 2],
    lists: [Vec<Listed>; 2],
    state: State,
}

impl Maker {
    fn add_command(&mut self, list: usize, random: &mut Random) {
        let listed = self.next_command(list, random);
        self.state
            .execute(&listed.command, &mut listed.room.clone());
        self.lists[list].push(listed);
    }

    /// A get or set without the flush bit, of this list's objects or of none.
    fn next_command(&mut self, list: usize, random: &mut Random) -> Listed {
        loop {
            let is_own = |number| self.owners.owner(number) == list;
            let names = &self.names[list];
            let made = self.commands.make_aimed(&self.state, is_own, names, random);
            let (mut command, room) = (made.command, made.room);
            if let Some(cmd) = command.first_mut() {
                *cmd &= !FLUSH;
            }
            let reads_or_writes = matches!(command.first(), Some(&(GET | SET)));
            let may_name = |number| is_own(number) && !is_session_number(number);
            if reads_or_writes && named_object(&command).is_none_or(may_name) {
                return Listed { command, room };
            }
        }
    }
}
