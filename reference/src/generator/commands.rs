//! Commands of every row and their rooms, aimed at the present store and session.

use crate::counter::{self, Counter, Direction};
use crate::engine::{Row, CLOSE, FLUSH, GET, HEADER, IDENTIFIER, LONGEST_COMMAND, OPEN, SET};
use crate::expression::CounterSet;
use crate::generator::contents::Content;
use crate::generator::counting::near_counter;
use crate::generator::names::{names_counter, names_counter_in, Names};
use crate::generator::queues::{body_size, number_to_acknowledge};
use crate::generator::random::Random;
use crate::generator::stores::{not_a_state, object_number, random_counter};
use crate::metadata;
use crate::program::ROOM;
use crate::queue::{self, Queue, SequenceNumber};
use crate::replay::State;
use crate::session::{SessionObject, STATES, TERMINATION};
use crate::store::{self, Record, Slot};

/// A generated command with its room.
#[derive(Clone, Debug)]
pub struct Generated {
    pub command: Vec<u8>,
    pub room: Vec<u8>,
    /// For a metadata write at a stored object: what it sends.
    pub content: Option<Content>,
}

/// A command before its frame is made wrong, if at all, and its room is chosen.
struct Made {
    command: Vec<u8>,
    content: Option<Content>,
    answer: Answer,
}

impl Made {
    fn with_data(command: Vec<u8>, answer: Answer) -> Made {
        Made {
            command,
            content: None,
            answer,
        }
    }

    fn without_data(command: Vec<u8>) -> Made {
        Made::with_data(command, Answer::whole(0))
    }
}

/// What a command answers if it is done.
#[derive(Clone, Copy)]
struct Answer {
    out_len: usize,
    /// The OutLen that it asks for: above the other where the answer is short.
    asked: usize,
}

impl Answer {
    fn whole(out_len: usize) -> Answer {
        Answer {
            out_len,
            asked: out_len,
        }
    }

    /// The answer to a get of data; nothing where the offset is above used.
    fn to_read(used: usize, offset: usize, length: usize) -> Answer {
        Answer {
            out_len: length.min(used.saturating_sub(offset)),
            asked: length,
        }
    }
}

/// The most bytes that a write can bring.
const LONGEST_WRITE: usize = LONGEST_COMMAND - HEADER - 4;

/// The kinds of commands to choose from.
#[derive(Clone, Copy)]
enum Kind {
    Row(Row),
    UnknownCmd,
    UnknownParam,
    Short,
}

const KINDS: [(usize, Kind); 13] = [
    (36, Kind::Row(Row::GetData)),
    (9, Kind::Row(Row::GetMetadata)),
    (26, Kind::Row(Row::Write)),
    (14, Kind::Row(Row::EraseAndWrite)),
    (26, Kind::Row(Row::Count)),
    (30, Kind::Row(Row::Append)),
    (20, Kind::Row(Row::Acknowledge)),
    (22, Kind::Row(Row::SetMetadata)),
    (4, Kind::Row(Row::Open)),
    (2, Kind::Row(Row::Close)),
    (3, Kind::UnknownCmd),
    (3, Kind::UnknownParam),
    (2, Kind::Short),
];

/// Makes commands; `turn` leads through the kinds of metadata content.
pub struct Commands {
    contents: Vec<Content>,
    turn: usize,
}

impl Default for Commands {
    fn default() -> Self {
        Self::new()
    }
}

impl Commands {
    pub fn new() -> Commands {
        Commands {
            contents: Content::all(),
            turn: 0,
        }
    }

    /// A command for the present state, with its room.
    /// The store is looked at only if it is well formed.
    pub fn make(&mut self, state: &State, random: &mut Random) -> Generated {
        let view = View::new(state, random);
        self.make_for(&view, random)
    }

    /// As `make`, mostly at the wanted objects; conditions sent name some of the names.
    pub fn make_aimed(
        &mut self,
        state: &State,
        wanted: impl Fn(u16) -> bool,
        names: &Names,
        random: &mut Random,
    ) -> Generated {
        let mut records = records_of(state);
        records.retain(|record| wanted(record.object().0));
        let names = names.clone();
        let view = View {
            state,
            records,
            names,
        };
        self.make_for(&view, random)
    }

    fn make_for(&mut self, view: &View<'_>, random: &mut Random) -> Generated {
        let kind = pick_kind(view, random);
        let Made {
            mut command,
            content,
            answer,
        } = self.make_kind(kind, view, random);
        if random.chance(8) {
            wrong_frame(&mut command, random);
        }
        if let Some(cmd) = command.first_mut().filter(|_| random.chance(18)) {
            *cmd |= FLUSH;
        }
        let size = room_size(answer, random);
        let room = match random.chance(50) {
            true => vec![0xA5; size],
            false => random.bytes(size),
        };
        Generated {
            command,
            room,
            content,
        }
    }

    fn make_kind(&mut self, kind: Kind, view: &View<'_>, random: &mut Random) -> Made {
        match kind {
            Kind::Row(row) => self.make_row(row, view, random),
            Kind::UnknownCmd => Made::without_data(unknown_cmd(random)),
            Kind::UnknownParam => Made::without_data(unknown_param(view, random)),
            Kind::Short => {
                let whole = get_metadata(view.any_number(random));
                Made::without_data(whole[..random.below(HEADER)].to_vec())
            }
        }
    }

    fn make_row(&mut self, row: Row, view: &View<'_>, random: &mut Random) -> Made {
        match row {
            Row::GetData => get_data(view, random),
            Row::GetMetadata => {
                let target = view.target(random);
                let out_len = match target {
                    Target::Stored(record) => metadata::answer_length(record),
                    _ => 30,
                };
                Made::with_data(get_metadata(target.number()), Answer::whole(out_len))
            }
            Row::Write => Made::without_data(write(0x00, view, random)),
            Row::EraseAndWrite => Made::without_data(write(0x40, view, random)),
            Row::Count => Made::without_data(count(view, random)),
            Row::Append => Made::without_data(append(view, random)),
            Row::Acknowledge => Made::without_data(acknowledge(view, random)),
            Row::SetMetadata => self.set_metadata(view, random),
            Row::Open => Made::without_data(open(random)),
            Row::Close => Made::without_data(framed(CLOSE, 0x00, &[])),
        }
    }

    fn set_metadata(&mut self, view: &View<'_>, random: &mut Random) -> Made {
        let target = view.target_to_change(random);
        let mut in_data = target.number().to_be_bytes().to_vec();
        let content = match target {
            Target::Stored(record) => {
                let content = self.next_content(record, random);
                let names = match record.counter() {
                    Some(_) => view.names.with_own(record.object().0),
                    None => view.names.clone(),
                };
                in_data.extend(content.make(record, &names, random));
                Some(content)
            }
            _ => {
                in_data.extend([0x20, 0x03, 0xC0, 0x01, random.pick(&STATES)]);
                None
            }
        };
        Made {
            content,
            ..Made::without_data(framed(SET, 0x01, &in_data))
        }
    }

    /// Good content in half of the cases, each bad kind in turn otherwise.
    fn next_content(&mut self, record: Record<'_>, random: &mut Random) -> Content {
        if random.chance(45) {
            return Content::Good;
        }
        // A life cycle in creation has no state below it.
        if record.lcso() > STATES[0] && random.chance(10) {
            return Content::LifeCycleFalls;
        }
        self.turn = (self.turn + 1) % self.contents.len();
        self.contents[self.turn]
    }
}

/// A kind of command; while step 5 refuses most, more of those it judges apart.
fn pick_kind(view: &View<'_>, random: &mut Random) -> Kind {
    let session = view.state.session;
    if session.opened && session.lcsa != TERMINATION {
        return pick_judged_kind(view, random);
    }
    match random.below(100) {
        0..=49 => Kind::Row(Row::Open),
        50..=56 => Kind::UnknownCmd,
        57..=63 => Kind::UnknownParam,
        64..=68 => Kind::Row(Row::Close),
        _ => random.pick_weighted(&KINDS),
    }
}

/// A kind of command; without a counter or a queue, fewer of theirs; where conditions
/// use up counters, all that expressions grant about alike.
fn pick_judged_kind(view: &View<'_>, random: &mut Random) -> Kind {
    if !view.names.is_empty() && random.chance(28) {
        return Kind::Row(random.pick(&[Row::Write, Row::EraseAndWrite, Row::Count]));
    }
    if !view.names.is_empty() && view.has_queue() && random.chance(35) {
        return Kind::Row(random.pick(&[
            Row::Append,
            Row::Append,
            Row::Acknowledge,
            Row::Acknowledge,
            Row::SetMetadata,
        ]));
    }
    let kind = random.pick_weighted(&KINDS);
    let lacks_object = match kind {
        Kind::Row(Row::Count) => !view.has_counter(),
        Kind::Row(Row::Append | Row::Acknowledge) => !view.has_queue(),
        _ => false,
    };
    match lacks_object && random.chance(80) {
        true => random.pick_weighted(&KINDS),
        false => kind,
    }
}

/// The objects that a command can name.
enum Target<'s> {
    Stored(Record<'s>),
    Session(SessionObject),
    Absent(u16),
}

impl Target<'_> {
    fn number(&self) -> u16 {
        match self {
            Target::Stored(record) => record.object().0,
            Target::Session(object) => object.number().0,
            Target::Absent(number) => *number,
        }
    }
}

/// The records that commands are aimed at.
struct View<'s> {
    state: &'s State,
    records: Vec<Record<'s>>,
    /// What conditions sent to it name.
    names: Names,
}

fn is_queue(record: &Record<'_>) -> bool {
    record.queue().is_some()
}

/// All records, none if the store is malformed.
fn records_of(state: &State) -> Vec<Record<'_>> {
    match store::check_store(&state.store) {
        true => store::records(&state.store).map(|found| found.1).collect(),
        false => Vec::new(),
    }
}

impl<'s> View<'s> {
    fn new(state: &'s State, random: &mut Random) -> View<'s> {
        let records = records_of(state);
        let uses_counters = records.iter().any(|&record| names_counter(record));
        let names = match uses_counters || random.chance(6) {
            true => Names::of_records(&records, random),
            false => Names::none(),
        };
        View {
            state,
            records,
            names,
        }
    }

    fn target(&self, random: &mut Random) -> Target<'s> {
        match random.below(100) {
            0..=79 if !self.records.is_empty() => Target::Stored(random.pick(&self.records)),
            80..=91 => Target::Session(random.pick(&SessionObject::ALL)),
            _ => self.absent(random),
        }
    }

    /// Where conditions use up counters, mostly an object whose slot has some: one
    /// whose counters would move, one that refuses, or any.
    fn naming_target(&self, slot: Slot, random: &mut Random) -> Option<Target<'s>> {
        if self.names.is_empty() || random.chance(20) {
            return None;
        }
        let grants = |record: &Record<'_>| {
            let judged = self.judge(*record, slot);
            judged.is_some_and(|counters| !counters.numbers().is_empty())
        };
        let has_names = |record: &Record<'_>| names_counter_in(*record, slot);
        let refuses = |record: &Record<'_>| has_names(record) && !self.is_granted(*record, slot);
        let picked = match random.below(20) {
            0..=12 => self.pick_record(grants, random),
            13..=16 => self.pick_record(refuses, random),
            _ => self.pick_record(has_names, random),
        };
        picked.map(Target::Stored)
    }

    /// At times a counter that its own change expression would use up.
    fn own_target(&self, random: &mut Random) -> Option<Target<'s>> {
        if self.names.is_empty() || random.chance(70) {
            return None;
        }
        let uses_own = |record: &Record<'_>| {
            let judged = self.judge(*record, Slot::Change);
            judged.is_some_and(|counters| counters.numbers().contains(&record.object()))
        };
        let picked = self.pick_record(uses_own, random);
        picked.map(Target::Stored)
    }

    /// At times an up counter without a step left that may be written anew.
    fn spent_target(&self, random: &mut Random) -> Option<Target<'s>> {
        if self.names.is_empty() || random.chance(75) {
            return None;
        }
        let is_spent = |record: &Record<'_>| {
            let spent = record.counter().is_some_and(Counter::is_reached);
            spent && self.is_granted(*record, Slot::Change)
        };
        let picked = self.pick_record(is_spent, random);
        picked.map(Target::Stored)
    }

    /// A target whose data can often be changed.
    fn target_to_change(&self, random: &mut Random) -> Target<'s> {
        if let Some(target) = self.naming_target(Slot::Change, random) {
            return target;
        }
        let granted = |record: &Record<'_>| self.is_granted(*record, Slot::Change);
        self.preferred_target(granted, random)
    }

    /// A target whose data can often be read, at times a counter or an object of the session.
    fn target_to_read(&self, random: &mut Random) -> Target<'s> {
        if let Some(target) = self.naming_target(Slot::Read, random) {
            return target;
        }
        let granted = |record: &Record<'_>| self.is_granted(*record, Slot::Read);
        let counts = |record: &Record<'_>| record.counter().is_some() && granted(record);
        let queued = |record: &Record<'_>| is_queue(record) && granted(record);
        let has_data = |record: &Record<'_>| record.used() > 0 && granted(record);
        match random.below(100) {
            0..=27 => Target::Session(self.session_object_to_read(random)),
            28..=34 => match self.pick_record(queued, random) {
                Some(record) => Target::Stored(record),
                None => self.preferred_target(granted, random),
            },
            35..=46 => match self.pick_record(counts, random) {
                Some(record) => Target::Stored(record),
                None => self.preferred_target(granted, random),
            },
            47..=84 => self.preferred_target(has_data, random),
            _ => self.preferred_target(granted, random),
        }
    }

    /// One of the wanted records, if there is any.
    fn pick_record(
        &self,
        wanted: impl Fn(&Record<'_>) -> bool,
        random: &mut Random,
    ) -> Option<Record<'s>> {
        let mut records = self.records.clone();
        records.retain(wanted);
        (!records.is_empty()).then(|| random.pick(&records))
    }

    /// Any object of the session; while there is an error, often that.
    fn session_object_to_read(&self, random: &mut Random) -> SessionObject {
        match self.state.session.error {
            1.. if random.chance(30) => SessionObject::LastError,
            _ => random.pick(&SessionObject::ALL),
        }
    }

    /// A target that often has the size of a counter, and often is one that can be counted.
    fn target_to_count(&self, random: &mut Random) -> Target<'s> {
        if let Some(target) = self.own_target(random) {
            return target;
        }
        let mut records = self.records.clone();
        match random.chance(50) {
            true => records.retain(|&record| self.can_be_counted(record)),
            false => records.retain(|record| record.maximum() == counter::SIZE),
        }
        match random.chance(85) && !records.is_empty() {
            true => Target::Stored(random.pick(&records)),
            false => self.target_to_change(random),
        }
    }

    fn can_be_counted(&self, record: Record<'_>) -> bool {
        let goes_on = record
            .counter()
            .is_some_and(|counter| !counter.is_reached());
        goes_on && self.is_granted(record, Slot::Change)
    }

    fn judge(&self, record: Record<'_>, slot: Slot) -> Option<CounterSet> {
        let State { store, session } = self.state;
        record.judge(slot, *session, store)
    }

    fn is_granted(&self, record: Record<'_>, slot: Slot) -> bool {
        self.judge(record, slot).is_some()
    }

    fn has_counter(&self) -> bool {
        self.records.iter().any(|record| record.counter().is_some())
    }

    fn has_queue(&self) -> bool {
        self.records.iter().any(is_queue)
    }

    /// Mostly a queue: one that is ready and may be changed, often by using up counters,
    /// or any; at times a counter or another target.
    fn target_to_queue(
        &self,
        is_ready: impl Fn(Queue<'_>, &Record<'_>) -> bool,
        random: &mut Random,
    ) -> Target<'s> {
        let judge = |record: &Record<'_>| {
            let queue = record.queue().filter(|&queue| is_ready(queue, record));
            queue.and_then(|_| self.judge(*record, Slot::Change))
        };
        let moves = |record: &Record<'_>| {
            let judged = judge(record);
            judged.is_some_and(|counters| !counters.numbers().is_empty())
        };
        let granted = |record: &Record<'_>| judge(record).is_some();
        let picked = match random.below(20) {
            0..=8 if !self.names.is_empty() => self.pick_record(moves, random),
            0..=10 => self.pick_record(granted, random),
            11..=16 => self.pick_record(is_queue, random),
            17 => self.pick_record(|record| record.counter().is_some(), random),
            _ => return self.target_to_change(random),
        };
        match picked.or_else(|| self.pick_record(is_queue, random)) {
            Some(record) => Target::Stored(record),
            None => self.target_to_change(random),
        }
    }

    /// What plain writes are aimed at: few queues, as none takes any.
    fn to_write(&self, random: &mut Random) -> View<'s> {
        let mut records = self.records.clone();
        if random.chance(80) {
            records.retain(|record| !is_queue(record));
        }
        View {
            state: self.state,
            records,
            names: self.names.clone(),
        }
    }

    fn preferred_target(
        &self,
        preferred: impl Fn(&Record<'_>) -> bool,
        random: &mut Random,
    ) -> Target<'s> {
        for _ in 0..2 {
            match self.target(random) {
                Target::Stored(record) if !preferred(&record) => {}
                target => return target,
            }
        }
        self.target(random)
    }

    /// A number next to a stored one, or any; it may still be stored.
    fn absent(&self, random: &mut Random) -> Target<'s> {
        if self.records.is_empty() || random.chance(40) {
            return Target::Absent(object_number(random));
        }
        let near = random.pick(&self.records).object().0;
        let number = match random.below(3) {
            0 => near.wrapping_add(1),
            1 => near.wrapping_sub(1),
            _ => near.swap_bytes(),
        };
        Target::Absent(number)
    }

    fn any_number(&self, random: &mut Random) -> u16 {
        self.target(random).number()
    }
}

/// A command whose InLen counts the bytes of InData.
pub fn framed(cmd: u8, param: u8, in_data: &[u8]) -> Vec<u8> {
    let mut command = vec![cmd, param];
    command.extend_from_slice(&(in_data.len() as u16).to_be_bytes());
    command.extend_from_slice(in_data);
    command
}

/// The command that opens the application.
pub fn right_open() -> Vec<u8> {
    framed(OPEN, 0x00, &IDENTIFIER)
}

fn open(random: &mut Random) -> Vec<u8> {
    let mut identifier = IDENTIFIER;
    if random.chance(20) {
        let place = random.below(identifier.len());
        identifier[place] ^= 1 << random.below(8);
    }
    framed(OPEN, 0x00, &identifier)
}

fn get_metadata(number: u16) -> Vec<u8> {
    framed(GET, 0x01, &number.to_be_bytes())
}

fn get_data(view: &View<'_>, random: &mut Random) -> Made {
    let target = view.target_to_read(random);
    let (used, maximum) = match target {
        Target::Stored(record) => (record.used(), record.maximum()),
        Target::Session(_) => (1, 1),
        Target::Absent(_) => (10, 20),
    };
    let (offset, length) = match target {
        Target::Session(_) if random.chance(75) => session_part(random),
        _ => part_to_read(used, maximum, random),
    };
    let mut in_data = target.number().to_be_bytes().to_vec();
    in_data.extend_from_slice(&(offset as u16).to_be_bytes());
    in_data.extend_from_slice(&(length as u16).to_be_bytes());
    let answer = Answer::to_read(used, offset, length);
    Made::with_data(framed(GET, 0x00, &in_data), answer)
}

/// An offset and a length of a get of a session object.
fn session_part(random: &mut Random) -> (usize, usize) {
    let offset = match random.below(20) {
        0..=9 => 0,
        10..=14 => 1,
        15..=18 => 2,
        _ => random.pick(&[3, 256, 65_535]),
    };
    let length = match random.below(20) {
        0..=4 => 0,
        5..=10 => 1,
        11..=13 => 2,
        14..=16 => 65_535,
        _ => random.pick(&[3, 255, 256, 257, 1_500, 65_534]),
    };
    (offset, length)
}

/// An offset and a length of a get: within the used bytes, past them, or at any boundary.
fn part_to_read(used: usize, maximum: usize, random: &mut Random) -> (usize, usize) {
    match random.below(100) {
        0..=34 => inner_part(used, random),
        35..=79 => part_past(used, random),
        _ => {
            let offset = boundary(used, maximum, random);
            (offset, boundary_length(offset, used, maximum, random))
        }
    }
}

/// An offset at `used` or next to it, or below, with a length that mostly ends past `used`.
fn part_past(used: usize, random: &mut Random) -> (usize, usize) {
    let offset = match random.below(20) {
        0..=3 => 0,
        4..=7 => used.saturating_sub(1),
        8..=12 => used,
        13..=16 => used + 1,
        _ => random.between(0, used),
    };
    let left = used.saturating_sub(offset);
    let length = match random.below(20) {
        0..=4 => left + 1,
        5..=7 => left + random.between(2, 24),
        8..=11 => 65_535,
        // Sums of 65,535 and 65,536.
        12 => 65_535 - offset,
        13 => (65_536 - offset).min(65_535),
        14 => random.between(left, 65_535),
        15 => random.between(left, 1_600.max(left)),
        16 => 0,
        17 => 1,
        18 => left,
        _ => random.between(0, left),
    };
    (offset, length)
}

/// An offset and a length within `limit` bytes.
fn inner_part(limit: usize, random: &mut Random) -> (usize, usize) {
    let offset = match random.below(10) {
        0..=4 => 0,
        5 => limit,
        6 | 7 => limit.saturating_sub(1),
        _ => random.between(0, limit),
    };
    let left = limit - offset;
    let length = match random.below(10) {
        0 => 0,
        1 | 2 => left.min(1),
        3..=5 => left,
        _ => random.between(0, left),
    };
    (offset, length)
}

/// A number at a boundary.
fn boundary(used: usize, maximum: usize, random: &mut Random) -> usize {
    random.pick(&[
        0,
        1,
        used.saturating_sub(1),
        used,
        used + 1,
        maximum - 1,
        maximum,
        maximum + 1,
        65_535,
        65_536 - maximum,
    ])
}

/// A length that ends at a boundary, or is one.
fn boundary_length(offset: usize, used: usize, maximum: usize, random: &mut Random) -> usize {
    if random.chance(30) {
        return boundary(used, maximum, random);
    }
    let end = random.pick(&[
        used,
        used + 1,
        used.saturating_sub(1),
        maximum,
        maximum + 1,
        maximum - 1,
        // Sums that wrap in 16 bits.
        65_536,
        65_536 + used,
    ]);
    end.saturating_sub(offset).min(65_535)
}

fn write(param: u8, view: &View<'_>, random: &mut Random) -> Vec<u8> {
    let view = view.to_write(random);
    let target = view
        .own_target(random)
        .or_else(|| view.spent_target(random))
        .unwrap_or_else(|| match random.chance(30) {
            true => view.target_to_count(random),
            false => view.target_to_change(random),
        });
    let mut in_data = target.number().to_be_bytes().to_vec();
    let (offset, bytes) = match target {
        Target::Stored(record) => match record.counter() {
            Some(counter) => counter_write(counter, !view.names.is_empty(), random),
            None => stored_write(record.used(), record.maximum(), random),
        },
        Target::Session(object) => session_write(view.state, object, random),
        Target::Absent(_) => stored_write(10, 20, random),
    };
    in_data.extend_from_slice(&(offset as u16).to_be_bytes());
    in_data.extend_from_slice(&bytes);
    framed(SET, param, &in_data)
}

fn stored_write(used: usize, maximum: usize, random: &mut Random) -> (usize, Vec<u8>) {
    let (offset, length) = match random.chance(65) {
        true => {
            let offset = match random.below(5) {
                0 => 0,
                1 => used.min(maximum - 1),
                2 => maximum - 1,
                3 => (used + 3).min(maximum - 1),
                _ => random.below(maximum),
            };
            let left = maximum - offset;
            let length = match random.below(4) {
                0 => 1,
                1 => left,
                2 => random.between(1, left),
                _ => random.between(1, left.min(8)),
            };
            (offset, length)
        }
        false => {
            let offset = boundary(used, maximum, random);
            let length = match random.chance(8) {
                true => random.pick(&[LONGEST_WRITE, LONGEST_WRITE + 1]),
                false => boundary_length(offset, used, maximum, random).clamp(1, LONGEST_WRITE),
            };
            (offset, length)
        }
    };
    let bytes = match random.chance(10) {
        true => vec![0; length],
        false => random.bytes(length),
    };
    (offset, bytes)
}

/// All of a counter's data, or a write that does not fit it. An up counter that
/// conditions may use up is often left near its threshold.
fn counter_write(present: Counter, is_used: bool, random: &mut Random) -> (usize, Vec<u8>) {
    if random.chance(if is_used { 80 } else { 60 }) {
        let next = match present.direction {
            Direction::Up if is_used && random.chance(80) => near_counter(random),
            direction => random_counter(direction, random),
        };
        return (0, next.to_data().to_vec());
    }
    let (offset, length) = match random.below(4) {
        0 => (
            0,
            random.pick(&[1, 4, counter::SIZE - 1, counter::SIZE + 1]),
        ),
        1 => (1, random.pick(&[counter::SIZE - 1, counter::SIZE])),
        2 => (random.pick(&[4, 8, 256, 65_528, 65_535]), counter::SIZE),
        _ => return stored_write(counter::SIZE, counter::SIZE, random),
    };
    (offset, random.bytes(length))
}

/// A count; some have another length than the row, or an offset.
fn count(view: &View<'_>, random: &mut Random) -> Vec<u8> {
    let target = view.target_to_count(random);
    let counter = match target {
        Target::Stored(record) => record.counter(),
        _ => None,
    };
    let offset: u16 = match random.chance(12) {
        true => random.pick(&[1, 4, 7, 8, 256, 65_535]),
        false => 0,
    };
    let mut in_data = target.number().to_be_bytes().to_vec();
    in_data.extend_from_slice(&offset.to_be_bytes());
    match random.chance(5) {
        true => in_data.resize(in_data.len() + random.pick(&[0, 2, 4, 8]), 1),
        false => in_data.push(step(counter, random)),
    }
    framed(SET, 0x02, &in_data)
}

/// A step at an end of its byte, next to the one that reaches the threshold, or any.
fn step(counter: Option<Counter>, random: &mut Random) -> u8 {
    let left = counter.map_or(7, |counter| counter.value.abs_diff(counter.threshold));
    let left = left.min(u32::from(u8::MAX)) as u8;
    match random.below(10) {
        0 => 0,
        1 => 1,
        2 => u8::MAX,
        3 | 4 => left,
        5 => left.saturating_sub(1),
        6 => left.saturating_add(1),
        _ => random.byte(),
    }
}

/// An append; some bodies are empty or too long.
fn append(view: &View<'_>, random: &mut Random) -> Vec<u8> {
    let has_space = |queue: Queue<'_>, record: &Record<'_>| {
        let least = record.used() + queue::fare_size(1);
        least <= record.maximum() && queue.next_number() != SequenceNumber::LAST
    };
    let target = view.target_to_queue(has_space, random);
    let left = match target {
        Target::Stored(record) => record.maximum() - record.used(),
        _ => random.between(0, 300),
    };
    let size = body_size(left, random);
    let mut in_data = target.number().to_be_bytes().to_vec();
    in_data.extend(match random.chance(10) {
        true => vec![0; size],
        false => random.bytes(size),
    });
    framed(SET, 0x04, &in_data)
}

/// An acknowledgement; some have another length than the row.
fn acknowledge(view: &View<'_>, random: &mut Random) -> Vec<u8> {
    let has_fare = |queue: Queue<'_>, _: &Record<'_>| queue.fares().next().is_some();
    let target = view.target_to_queue(has_fare, random);
    let queue = match target {
        Target::Stored(record) => record.queue(),
        _ => None,
    };
    let number = match queue {
        Some(queue) => number_to_acknowledge(queue, random),
        None => random.between(0, 9) as u32,
    };
    let mut in_data = target.number().to_be_bytes().to_vec();
    in_data.extend_from_slice(&number.to_be_bytes());
    if random.chance(6) {
        in_data.resize(random.pick(&[2, 4, 5, 5, 7, 7, 8]), 0);
    }
    framed(SET, 0x05, &in_data)
}

fn session_write(state: &State, object: SessionObject, random: &mut Random) -> (usize, Vec<u8>) {
    let present = state.session.byte(object);
    let value = match random.below(10) {
        0..=3 => present,
        4..=6 => random.pick(&STATES[..3]),
        7 => random.pick(&STATES),
        _ => not_a_state(random),
    };
    match random.below(10) {
        0 => (1, vec![value]),
        1 => (0, vec![value; 2]),
        2 => (random.pick(&[0, 2, 65_535]), random.bytes(3)),
        _ => (0, vec![value]),
    }
}

/// A command whose Cmd is not in the table.
fn unknown_cmd(random: &mut Random) -> Vec<u8> {
    let cmd = match random.chance(60) {
        true => random.pick(&[0x00, 0x03, 0x0C, 0x30, 0x41, 0x6F, 0x72, 0x7F]),
        false => loop {
            let cmd = random.byte() & !FLUSH;
            if ![GET, SET, OPEN, CLOSE].contains(&cmd) {
                break cmd;
            }
        },
    };
    let count = random.pick(&[0, 2, 5, 6, 16]);
    framed(
        cmd,
        random.pick(&[0x00, 0x01, 0x40, 0xFF]),
        &random.bytes(count),
    )
}

/// A command whose Param is not in the table for its Cmd.
fn unknown_param(view: &View<'_>, random: &mut Random) -> Vec<u8> {
    let cmd = random.pick(&[GET, GET, SET, SET, OPEN, CLOSE]);
    let known: &[u8] = match cmd {
        GET => &[0x00, 0x01],
        SET => &[0x00, 0x01, 0x02, 0x04, 0x05, 0x40],
        _ => &[0x00],
    };
    let candidate = random.pick(&[
        0x01, 0x02, 0x03, 0x04, 0x05, 0x06, 0x40, 0x41, 0x42, 0x44, 0x45, 0x80, 0xC0, 0xFF,
    ]);
    let param = match known.contains(&candidate) {
        true => random.byte_outside(known),
        false => candidate,
    };
    let mut in_data = match cmd {
        OPEN => IDENTIFIER.to_vec(),
        CLOSE => Vec::new(),
        _ => view.any_number(random).to_be_bytes().to_vec(),
    };
    if cmd == GET || cmd == SET {
        let count = random.pick(&[0, 0, 3, 4, 5]);
        in_data.extend(random.bytes(count));
    }
    framed(cmd, param, &in_data)
}

/// Makes the length, or InLen, of a command wrong in some way.
fn wrong_frame(command: &mut Vec<u8>, random: &mut Random) {
    if command.len() < HEADER {
        return;
    }
    let in_len = (command.len() - HEADER) as u16;
    match random.below(8) {
        // InLen off by one.
        0 => put_in_len(command, in_len.wrapping_add(1)),
        1 => put_in_len(command, in_len.wrapping_sub(1)),
        // Bytes cut off or added, InLen as before.
        2 => command.truncate(random.below(command.len())),
        3 => command.push(random.byte()),
        // Bytes cut off or added, InLen as well: wrong for most rows.
        4 => {
            let in_len = random.pick(&[0, 1, 2, 3, 4, 5, 6, 7, 15, 16, 17]);
            resize(command, HEADER + in_len, random);
        }
        5 => {
            let length = random.between(HEADER, command.len() + 1);
            resize(command, length, random);
        }
        // The longest command, and one more byte.
        6 => resize(command, LONGEST_COMMAND, random),
        _ => {
            let length = random.pick(&[LONGEST_COMMAND + 1, LONGEST_COMMAND + 1, 2_000]);
            resize(command, length, random);
        }
    }
}

/// Gives the command another length and the InLen to it.
fn resize(command: &mut Vec<u8>, length: usize, random: &mut Random) {
    let added = length.saturating_sub(command.len());
    command.extend(random.bytes(added));
    command.truncate(length);
    put_in_len(command, (length - HEADER) as u16);
}

fn put_in_len(command: &mut [u8], in_len: u16) {
    command[2..HEADER].copy_from_slice(&in_len.to_be_bytes());
}

/// A room that fits exactly, is too small, or is larger.
fn room_size(answer: Answer, random: &mut Random) -> usize {
    let exact = (HEADER + answer.out_len).min(ROOM);
    let asked = (HEADER + answer.asked).clamp(exact, ROOM);
    match random.below(100) {
        0..=4 => random.below(HEADER),
        5..=9 => HEADER,
        10..=28 => exact,
        29..=41 => HEADER.max(exact - 1),
        42..=44 => random.between(HEADER - 1, exact),
        45..=54 => ROOM,
        // Where the answer is short, it fits these and what is asked does not.
        55..=62 => random.between(exact, exact.max(asked - 1)),
        63..=65 => asked,
        _ => exact + random.between(1, 24),
    }
}
