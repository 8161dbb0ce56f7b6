//! Whole cases in the form that `replay` reads.

use crate::factory::{make_factory_store, FACTORY_SIZE};
use crate::generator::commands::{Commands, Generated};
use crate::generator::contents::Content;
use crate::generator::names::names_counter;
use crate::generator::random::Random;
use crate::generator::stores::{odd_session, valid_store, working_session, Damage};
use crate::replay::{Item, State};
use crate::session::TERMINATION;
use crate::store;

/// A generated item, with what it was made to be.
#[derive(Clone, Debug)]
pub struct Case {
    pub item: Item,
    /// For a malformed store: how it was damaged.
    pub damage: Option<Damage>,
    /// For a metadata write: what it sends.
    pub content: Option<Content>,
}

impl From<Item> for Case {
    fn from(item: Item) -> Case {
        Case {
            item,
            damage: None,
            content: None,
        }
    }
}

/// Gives all cases of a seed, with at least `count` commands, one after another.
pub fn cases<E>(
    seed: u64,
    count: usize,
    take: &mut impl FnMut(Case) -> Result<(), E>,
) -> Result<(), E> {
    let mut maker = Maker {
        random: Random::new(seed),
        commands: Commands::new(),
        state: State::empty(),
        damages: Damage::all(),
        turn: 0,
        made: 0,
    };
    // Commands before any store.
    maker.send_commands(2, take)?;
    while maker.made < count {
        maker.make_scenario(take)?;
    }
    Ok(())
}

/// The kinds of beginnings from which commands are sent.
#[derive(Clone, Copy)]
enum Beginning {
    Valid,
    OddSession,
    Factory,
    FactoryBytes,
    Damaged,
}

const BEGINNINGS: [(usize, Beginning); 5] = [
    (30, Beginning::Valid),
    (14, Beginning::OddSession),
    (6, Beginning::Factory),
    (4, Beginning::FactoryBytes),
    (80, Beginning::Damaged),
];

/// From one damage to the next: no divisor of their count, so that all have their turn.
const STRIDE: usize = 37;

/// Makes cases while it follows what they do to the store and session.
struct Maker {
    random: Random,
    commands: Commands,
    state: State,
    damages: Vec<Damage>,
    turn: usize,
    made: usize,
}

impl Maker {
    /// One beginning and the commands after it.
    fn make_scenario<E>(&mut self, take: &mut impl FnMut(Case) -> Result<(), E>) -> Result<(), E> {
        let count = match self.random.pick_weighted(&BEGINNINGS) {
            Beginning::Valid => {
                let store = valid_store(&mut self.random);
                self.begin_valid(store, take)?;
                self.length_of_run()
            }
            Beginning::OddSession => {
                let store = valid_store(&mut self.random);
                let session = odd_session(&mut self.random);
                self.put_store(State { store, session }, None, take)?;
                self.random.between(2, 9)
            }
            Beginning::Factory => {
                self.begin_factory(take)?;
                self.random.between(20, 90)
            }
            Beginning::FactoryBytes => {
                let mut store = vec![0; FACTORY_SIZE];
                make_factory_store(&mut store);
                self.begin_valid(store, take)?;
                self.random.between(20, 60)
            }
            Beginning::Damaged => {
                self.begin_damaged(take)?;
                self.random.between(1, 3)
            }
        };
        self.send_commands(count, take)?;
        if self.random.chance(10) {
            take(Item::Bytes.into())?;
        }
        Ok(())
    }

    /// How many commands follow a valid store: often more where counters can run out.
    fn length_of_run(&mut self) -> usize {
        let mut records = store::records(&self.state.store);
        match records.any(|(_, record)| names_counter(record)) && self.random.chance(70) {
            true => self.random.between(60, 140),
            false => self.random.between(10, 70),
        }
    }

    fn put_store<E>(
        &mut self,
        state: State,
        damage: Option<Damage>,
        take: &mut impl FnMut(Case) -> Result<(), E>,
    ) -> Result<(), E> {
        self.state = state.clone();
        take(Case {
            item: Item::Store {
                store: state.store,
                session: state.session,
            },
            damage,
            content: None,
        })
    }

    fn begin_valid<E>(
        &mut self,
        store: Vec<u8>,
        take: &mut impl FnMut(Case) -> Result<(), E>,
    ) -> Result<(), E> {
        let session = working_session(&mut self.random);
        self.put_store(State { store, session }, None, take)
    }

    /// A store with the next damage, and any session.
    fn begin_damaged<E>(&mut self, take: &mut impl FnMut(Case) -> Result<(), E>) -> Result<(), E> {
        let damage = self.damages[self.turn];
        self.turn = (self.turn + STRIDE) % self.damages.len();
        let store = damage.make(&mut self.random);
        let session = match self.random.chance(80) {
            true => working_session(&mut self.random),
            false => odd_session(&mut self.random),
        };
        self.put_store(State { store, session }, Some(damage), take)
    }

    /// The factory maker, at times first with a wrong length.
    fn begin_factory<E>(&mut self, take: &mut impl FnMut(Case) -> Result<(), E>) -> Result<(), E> {
        if self.random.chance(40) {
            let length = match self.random.below(3) {
                0 => self.random.pick(&[0, 1, 6_023, 6_025, 16_384, 20_000]),
                _ => self.random.between(0, 12_000),
            };
            self.make_factory(length, take)?;
            self.send_commands(2, take)?;
        }
        self.make_factory(FACTORY_SIZE, take)
    }

    fn make_factory<E>(
        &mut self,
        length: usize,
        take: &mut impl FnMut(Case) -> Result<(), E>,
    ) -> Result<(), E> {
        self.state.factory(length);
        take(Item::Factory { length }.into())
    }

    /// Sends commands; few more once the application has ended.
    fn send_commands<E>(
        &mut self,
        count: usize,
        take: &mut impl FnMut(Case) -> Result<(), E>,
    ) -> Result<(), E> {
        let mut ended = 0;
        for _ in 0..count {
            if self.state.session.lcsa == TERMINATION {
                ended += 1;
            }
            if ended > 5 {
                break;
            }
            let generated = self.commands.make(&self.state, &mut self.random);
            self.send(generated, take)?;
        }
        Ok(())
    }

    fn send<E>(
        &mut self,
        generated: Generated,
        take: &mut impl FnMut(Case) -> Result<(), E>,
    ) -> Result<(), E> {
        let Generated {
            command,
            room,
            content,
        } = generated;
        self.state.execute(&command, &mut room.clone());
        self.made += 1;
        take(Case {
            item: Item::Command { room, command },
            damage: None,
            content,
        })
    }
}
