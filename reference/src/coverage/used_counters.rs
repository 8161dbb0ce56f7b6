//! What the cases cover of conditions that use up counters.
//!
//! Expressions are taken apart and judged here once more, apart from the engine.

use super::{chosen, number_at, CommandRow, Event, Verdict};
use crate::counter::{Counter, Direction};
use crate::engine::{Refusal, Row};
use crate::kinds::ObjectNumber;
use crate::session::SessionObject;
use crate::store::{self, Record, Slot};

/// The commands that an expression grants.
#[derive(Clone, Copy, Debug, PartialEq, Eq)]
pub enum Asker {
    Get,
    Write,
    Erase,
    Count,
    Append,
    Acknowledge,
    SetMetadata,
}

impl Asker {
    const ALL: [Asker; 7] = [
        Asker::Get,
        Asker::Write,
        Asker::Erase,
        Asker::Count,
        Asker::Append,
        Asker::Acknowledge,
        Asker::SetMetadata,
    ];

    fn of(row: CommandRow) -> Option<Asker> {
        match row {
            CommandRow::Known(Row::GetData) => Some(Asker::Get),
            CommandRow::Known(Row::Write) => Some(Asker::Write),
            CommandRow::Known(Row::EraseAndWrite) => Some(Asker::Erase),
            CommandRow::Known(Row::Count) => Some(Asker::Count),
            CommandRow::Known(Row::Append) => Some(Asker::Append),
            CommandRow::Known(Row::Acknowledge) => Some(Asker::Acknowledge),
            CommandRow::Known(Row::SetMetadata) => Some(Asker::SetMetadata),
            _ => None,
        }
    }

    fn slot(self) -> Slot {
        match self {
            Asker::Get => Slot::Read,
            _ => Slot::Change,
        }
    }

    /// The refusals after access.
    fn later_refusals(self) -> &'static [Refusal] {
        match self {
            Asker::Get => &[Refusal::OutOfBounds, Refusal::NoRoom],
            Asker::Write | Asker::Erase => &[Refusal::OutOfBounds],
            Asker::Count => &[Refusal::WrongParam, Refusal::OutOfBounds],
            Asker::Append => &[Refusal::WrongParam, Refusal::OutOfBounds, Refusal::NoRoom],
            Asker::Acknowledge => &[Refusal::WrongParam, Refusal::WrongValue],
            Asker::SetMetadata => &[Refusal::WrongValue],
        }
    }

    /// Whether a command of this kind, done, may be granted in this way.
    fn may_have(self, grant: Grant) -> bool {
        let at_counter = matches!(grant, Grant::MovedOwn | Grant::MovedOtherOfCounter);
        let at_queue = matches!(self, Asker::Append | Asker::Acknowledge);
        !(at_counter && at_queue)
    }
}

/// What a condition on a counter names.
#[derive(Clone, Copy, Debug, PartialEq, Eq)]
pub enum Named {
    Below,
    OneBelow,
    AtThreshold,
    Above,
    Missing,
    Data,
    Queue,
    DownCounter,
    OfSession,
}

impl Named {
    const ALL: [Named; 9] = [
        Named::Below,
        Named::OneBelow,
        Named::AtThreshold,
        Named::Above,
        Named::Missing,
        Named::Data,
        Named::Queue,
        Named::DownCounter,
        Named::OfSession,
    ];

    /// What the number names in a well-formed store.
    fn of(number: u16, store: &[u8]) -> Named {
        let number = ObjectNumber(number);
        if SessionObject::from_number(number).is_some() {
            return Named::OfSession;
        }
        let Some(place) = store::find(store, number) else {
            return Named::Missing;
        };
        let record = Record::at(store, place);
        match record.counter() {
            None if record.queue().is_some() => Named::Queue,
            None => Named::Data,
            Some(counter) if counter.direction == Direction::Down => Named::DownCounter,
            Some(Counter {
                value, threshold, ..
            }) => match i64::from(threshold) - i64::from(value) {
                1 => Named::OneBelow,
                2.. => Named::Below,
                0 => Named::AtThreshold,
                _ => Named::Above,
            },
        }
    }

    fn holds(self) -> bool {
        matches!(self, Named::Below | Named::OneBelow)
    }
}

/// How an expression grants a command that is done.
#[derive(Clone, Copy, Debug, PartialEq, Eq)]
pub enum Grant {
    Moved,
    MovedSeveral,
    /// The counter has no step left after it.
    MovedToThreshold,
    MovedByFirstGroup,
    MovedBySecondGroup,
    MovedByThirdGroup,
    /// An earlier group is false by its counter.
    MovedAfterFalseCounter,
    /// A later group without counters is true too.
    MovedThoughLaterIsPlain,
    /// A later group with other counters is true too.
    MovedThoughLaterHasOthers,
    MovedBesideState,
    MovedTwiceInGroup,
    /// Also in a later group that is true.
    MovedInTwoGroups,
    /// A number with FD or FE in it.
    MovedJoiningByte,
    MovedOwn,
    /// The object is a counter itself.
    MovedOtherOfCounter,
    /// A group without counters, and a later one with counters is true.
    PlainBeforeCounters,
    /// A group without counters, and an earlier one is false by its counter.
    PlainAfterFalseCounter,
}

impl Grant {
    const ALL: [Grant; 17] = [
        Grant::Moved,
        Grant::MovedSeveral,
        Grant::MovedToThreshold,
        Grant::MovedByFirstGroup,
        Grant::MovedBySecondGroup,
        Grant::MovedByThirdGroup,
        Grant::MovedAfterFalseCounter,
        Grant::MovedThoughLaterIsPlain,
        Grant::MovedThoughLaterHasOthers,
        Grant::MovedBesideState,
        Grant::MovedTwiceInGroup,
        Grant::MovedInTwoGroups,
        Grant::MovedJoiningByte,
        Grant::MovedOwn,
        Grant::MovedOtherOfCounter,
        Grant::PlainBeforeCounters,
        Grant::PlainAfterFalseCounter,
    ];
}

/// How a written value stands to its threshold, before the step.
#[derive(Clone, Copy, Debug, PartialEq, Eq)]
pub enum Written {
    Below,
    OneBelow,
    AtThreshold,
    Above,
}

/// A command at a counter that its own condition names.
#[derive(Clone, Copy, Debug, PartialEq, Eq)]
pub enum Own {
    Write(Written),
    Erase(Written),
    CountStaysBelow,
    /// The count leaves one step.
    CountReachesByCondition,
    CountReachesByItself,
    CountOfStepZero,
    Read,
    SetMetadata,
}

impl Own {
    fn all() -> Vec<Own> {
        let written = [
            Written::Below,
            Written::OneBelow,
            Written::AtThreshold,
            Written::Above,
        ];
        let mut all = Vec::new();
        all.extend(written.map(Own::Write));
        all.extend(written.map(Own::Erase));
        all.extend([
            Own::CountStaysBelow,
            Own::CountReachesByCondition,
            Own::CountReachesByItself,
            Own::CountOfStepZero,
            Own::Read,
            Own::SetMetadata,
        ]);
        all
    }
}

/// A row of the table of conditions that use up counters.
#[derive(Clone, Copy, Debug, PartialEq, Eq)]
pub enum UsedRow {
    /// The expression asked has a condition of this kind.
    Names(Asker, Named),
    Granted(Asker, Grant),
    /// 07, and in some group this condition alone is false.
    RefusedBy(Asker, Named),
    /// 07, and in some group with a counter below its threshold only states are false.
    RefusedByState(Asker),
    /// Granted with counters to move, then refused: nothing moves.
    GrantedButRefused(Asker, Refusal),
    Own(Own),
    MovedByLengthZero,
    /// A length above 0 at used.
    MovedAtUsed,
    /// Nothing moves though all that its expressions name could.
    GetOfMetadata,
    /// A command is done, and what the execute expression names stays.
    ExecuteNotAsked(Asker),
    /// The change expression that moved counters is replaced by another.
    Replaced,
    SentBack,
    /// A metadata write that is done brings a condition on a counter.
    Brought(Slot),
}

impl UsedRow {
    pub fn all() -> Vec<UsedRow> {
        let mut all = Vec::new();
        for asker in Asker::ALL {
            all.extend(Named::ALL.map(|named| UsedRow::Names(asker, named)));
            let grants = Grant::ALL
                .into_iter()
                .filter(|&grant| asker.may_have(grant));
            all.extend(grants.map(|grant| UsedRow::Granted(asker, grant)));
            let reasons = Named::ALL.into_iter().filter(|named| !named.holds());
            all.extend(reasons.map(|named| UsedRow::RefusedBy(asker, named)));
            all.push(UsedRow::RefusedByState(asker));
            let refusals = asker.later_refusals().iter();
            all.extend(refusals.map(|&refusal| UsedRow::GrantedButRefused(asker, refusal)));
            all.push(UsedRow::ExecuteNotAsked(asker));
        }
        all.extend(Own::all().into_iter().map(UsedRow::Own));
        all.extend([
            UsedRow::MovedByLengthZero,
            UsedRow::MovedAtUsed,
            UsedRow::GetOfMetadata,
            UsedRow::Replaced,
            UsedRow::SentBack,
        ]);
        all.extend(Slot::ALL.map(UsedRow::Brought));
        all
    }
}

/// A condition, and whether it holds.
#[derive(Clone, Copy)]
struct Condition {
    holds: bool,
    counter: Option<(u16, Named)>,
}

type Group = Vec<Condition>;

fn is_true(group: &Group) -> bool {
    group.iter().all(|condition| condition.holds)
}

fn has_counter(group: &Group) -> bool {
    group.iter().any(|condition| condition.counter.is_some())
}

/// Whether a condition on a counter makes the group false.
fn is_false_by_counter(group: &Group) -> bool {
    let is_false = |condition: &Condition| !condition.holds && condition.counter.is_some();
    group.iter().any(is_false)
}

fn numbers(group: &Group) -> Vec<u16> {
    let mut numbers: Vec<u16> = group
        .iter()
        .filter_map(|condition| condition.counter)
        .map(|(number, _)| number)
        .collect();
    numbers.sort_unstable();
    numbers
}

fn numbers_once(group: &Group) -> Vec<u16> {
    let mut numbers = numbers(group);
    numbers.dedup();
    numbers
}

fn has_joining_byte(number: u16) -> bool {
    number
        .to_be_bytes()
        .iter()
        .any(|byte| matches!(byte, 0xFD | 0xFE))
}

/// An expression as the store before the command has it, and what the command came to.
struct Asked<'e> {
    event: &'e Event<'e>,
    asker: Asker,
    record: Record<'e>,
    groups: Vec<Group>,
    /// The place of the first true group.
    deciding: Option<usize>,
}

impl Event<'_> {
    /// The rows of conditions on counters that the event shows.
    pub(super) fn used_rows(&self) -> Vec<UsedRow> {
        let Some(record) = self.stored_record() else {
            return Vec::new();
        };
        match self.asked(record) {
            Some(asked) => asked.rows(),
            None => self.metadata_rows(record),
        }
    }

    /// What in the access to a stored object, or in the counters after it, is not as
    /// judged here.
    pub(super) fn used_disagreement(&self) -> Option<&'static str> {
        self.asked(self.stored_record()?)?.disagreement()
    }

    /// The expression that the command asks, if it asks one: a plain write at a queue
    /// asks none.
    fn asked<'e>(&'e self, record: Record<'e>) -> Option<Asked<'e>> {
        let asker = Asker::of(self.row)?;
        if matches!(asker, Asker::Write | Asker::Erase) && record.queue().is_some() {
            return None;
        }
        let groups = self.groups(record, asker.slot());
        Some(Asked {
            event: self,
            asker,
            record,
            deciding: groups.iter().position(is_true),
            groups,
        })
    }

    /// Whether a record's change expression holds, and the counters it would move.
    pub(super) fn change_judged(&self, record: Record<'_>) -> (bool, Vec<u16>) {
        let groups = self.groups(record, Slot::Change);
        let group = groups.iter().find(|group| is_true(group));
        (group.is_some(), group.map_or(Vec::new(), numbers_once))
    }

    /// The stored object of a command that reached access.
    pub(super) fn stored_record(&self) -> Option<Record<'_>> {
        let reached_access = match self.verdict {
            Verdict::Done => true,
            Verdict::Refused(Refusal::NoAccess) => true,
            Verdict::Refused(refusal) => {
                let asker = Asker::of(self.row)?;
                asker.later_refusals().contains(&refusal)
            }
            Verdict::NoResponse => false,
        };
        let opens = matches!(self.row, CommandRow::Known(Row::Open | Row::Close));
        if !reached_access || opens {
            return None;
        }
        let number = ObjectNumber(number_at(self.command, 4) as u16);
        let place = store::find(&self.before.store, number)?;
        Some(Record::at(&self.before.store, place))
    }

    /// The groups of a slot's expression; always and never have one without a counter.
    fn groups(&self, record: Record<'_>, slot: Slot) -> Vec<Group> {
        let expression = record.expression(slot);
        if let [byte] = expression {
            let holds = *byte == 0x00;
            let counter = None;
            return vec![vec![Condition { holds, counter }]];
        }
        let mut groups = vec![Vec::new()];
        for start in (0..expression.len()).step_by(4) {
            let condition = self.condition(record, &expression[start..start + 3]);
            let last = groups.len() - 1;
            groups[last].push(condition);
            if expression.get(start + 3) == Some(&0xFE) {
                groups.push(Vec::new());
            }
        }
        groups
    }

    fn condition(&self, record: Record<'_>, bytes: &[u8]) -> Condition {
        let session = self.before.session;
        let present = match bytes[0] {
            0x40 => {
                let number = u16::from(bytes[1]) << 8 | u16::from(bytes[2]);
                let named = Named::of(number, &self.before.store);
                return Condition {
                    holds: named.holds(),
                    counter: Some((number, named)),
                };
            }
            0x70 => session.lcsg,
            0xE0 => session.lcsa,
            _ => record.lcso(),
        };
        let holds = match bytes[1] {
            0xFA => present == bytes[2],
            0xFB => present > bytes[2],
            _ => present < bytes[2],
        };
        let counter = None;
        Condition { holds, counter }
    }

    fn metadata_rows(&self, record: Record<'_>) -> Vec<UsedRow> {
        let slots = [Slot::Change, Slot::Read];
        let mut groups = slots
            .into_iter()
            .flat_map(|slot| self.groups(record, slot))
            .filter(has_counter);
        let could_move = groups.any(|group| is_true(&group));
        let unchanged = self.before.store == self.after.store;
        let done = self.verdict == Verdict::Done;
        chosen(&[(done && could_move && unchanged, UsedRow::GetOfMetadata)])
    }

    fn counter_in(store: &[u8], number: u16) -> Option<Counter> {
        let place = store::find(store, ObjectNumber(number))?;
        Record::at(store, place).counter()
    }

    /// Whether a counter has gone up by one.
    fn has_moved(&self, number: u16) -> bool {
        let before = Self::counter_in(&self.before.store, number);
        let after = Self::counter_in(&self.after.store, number);
        match (before, after) {
            (Some(before), Some(after)) => {
                before.threshold == after.threshold
                    && before.value.checked_add(1) == Some(after.value)
            }
            _ => false,
        }
    }

    fn has_stayed(&self, number: u16) -> bool {
        let [before, after] =
            [&self.before.store, &self.after.store].map(|store| Self::counter_in(store, number));
        before == after
    }
}

impl Asked<'_> {
    fn rows(&self) -> Vec<UsedRow> {
        let conditions = self.groups.iter().flatten();
        let mut rows: Vec<UsedRow> = conditions
            .filter_map(|condition| condition.counter)
            .map(|(_, named)| UsedRow::Names(self.asker, named))
            .collect();
        match self.event.verdict {
            Verdict::Done => rows.extend(self.done_rows()),
            Verdict::Refused(Refusal::NoAccess) => rows.extend(self.no_access_rows()),
            Verdict::Refused(refusal) => rows.extend(self.later_rows(refusal)),
            Verdict::NoResponse => {}
        }
        rows
    }

    fn own(&self) -> u16 {
        self.record.object().0
    }

    /// The counters of the deciding group, none where no group is true.
    fn moving(&self) -> Vec<u16> {
        let group = self.deciding.map(|place| &self.groups[place]);
        group.map_or(Vec::new(), numbers_once)
    }

    /// Whether all of these have moved; what the command itself wrote is looked at
    /// in the rows of own counters.
    fn have_moved(&self, moving: &[u16]) -> bool {
        let writes = matches!(self.asker, Asker::Write | Asker::Erase | Asker::Count);
        let is_written = |number: u16| writes && number == self.own();
        let mut moving = moving.iter();
        moving.all(|&number| is_written(number) || self.event.has_moved(number))
    }

    fn disagreement(&self) -> Option<&'static str> {
        let refused = self.event.is_refused(Refusal::NoAccess);
        if refused == self.deciding.is_some() {
            return Some("access is not as the groups have it");
        }
        let done = self.event.verdict == Verdict::Done;
        let moving = if done { self.moving() } else { Vec::new() };
        let writes_own = self.asker != Asker::Get && moving.contains(&self.own());
        if !self.have_moved(&moving) || writes_own && self.own_rows(&moving).is_empty() {
            return Some("a counter of the deciding group has not moved");
        }
        let is_other = |number: &u16| !moving.contains(number) && *number != self.own();
        let records = store::records(&self.event.before.store);
        let mut others = records
            .map(|(_, record)| record.object().0)
            .filter(is_other);
        if !others.all(|number| self.event.has_stayed(number)) {
            return Some("another counter has moved");
        }
        None
    }

    fn no_access_rows(&self) -> Vec<UsedRow> {
        let mut rows = Vec::new();
        for group in &self.groups {
            let mut lacking = group.iter().filter(|condition| !condition.holds);
            let (first, second) = (lacking.next(), lacking.next());
            if let (Some((_, named)), None) =
                (first.and_then(|condition| condition.counter), second)
            {
                rows.push(UsedRow::RefusedBy(self.asker, named));
            }
            if has_counter(group) && !is_false_by_counter(group) {
                rows.push(UsedRow::RefusedByState(self.asker));
            }
        }
        rows
    }

    fn later_rows(&self, refusal: Refusal) -> Vec<UsedRow> {
        let unchanged = self.event.before.store == self.event.after.store;
        let moving = !self.moving().is_empty();
        let row = UsedRow::GrantedButRefused(self.asker, refusal);
        chosen(&[(moving && unchanged, row)])
    }

    fn done_rows(&self) -> Vec<UsedRow> {
        let Some(place) = self.deciding else {
            return Vec::new();
        };
        let moving = self.moving();
        let mut rows = self.execute_rows(&moving);
        rows.extend(self.brought_rows());
        if moving.is_empty() {
            rows.extend(self.plain_rows(place));
        } else if self.have_moved(&moving) {
            rows.extend(self.moved_rows(place, &moving));
            rows.extend(self.get_rows());
            rows.extend(self.metadata_write_rows());
            rows.extend(self.own_rows(&moving));
        }
        rows
    }

    fn granted(&self, grants: Vec<Grant>) -> Vec<UsedRow> {
        let row = |grant| UsedRow::Granted(self.asker, grant);
        grants.into_iter().map(row).collect()
    }

    /// The deciding group has no counters.
    fn plain_rows(&self, place: usize) -> Vec<UsedRow> {
        let earlier = self.groups[..place].iter().any(is_false_by_counter);
        let mut later = self.groups[place + 1..].iter();
        let later = later.any(|group| is_true(group) && has_counter(group));
        self.granted(chosen(&[
            (later, Grant::PlainBeforeCounters),
            (earlier, Grant::PlainAfterFalseCounter),
        ]))
    }

    /// The deciding group has counters, and they have moved.
    fn moved_rows(&self, place: usize, moving: &[u16]) -> Vec<UsedRow> {
        let group = &self.groups[place];
        let later = || {
            self.groups[place + 1..]
                .iter()
                .filter(|group| is_true(group))
        };
        let later_others = later()
            .flat_map(numbers)
            .any(|number| !moving.contains(&number) && self.event.has_stayed(number));
        let later_same = later()
            .flat_map(numbers)
            .any(|number| moving.contains(&number));
        let is_last_step = |condition: &Condition| matches!(condition.counter, Some((number, Named::OneBelow)) if number != self.own());
        let joining = moving
            .iter()
            .any(|&number| has_joining_byte(number) && number != self.own());
        let own = moving.contains(&self.own());
        self.granted(chosen(&[
            (true, Grant::Moved),
            (moving.len() > 1, Grant::MovedSeveral),
            (group.iter().any(is_last_step), Grant::MovedToThreshold),
            (place == 0, Grant::MovedByFirstGroup),
            (place == 1, Grant::MovedBySecondGroup),
            (place == 2, Grant::MovedByThirdGroup),
            (
                self.groups[..place].iter().any(is_false_by_counter),
                Grant::MovedAfterFalseCounter,
            ),
            (
                later().any(|group| !has_counter(group)),
                Grant::MovedThoughLaterIsPlain,
            ),
            (later_others, Grant::MovedThoughLaterHasOthers),
            (
                group.iter().any(|condition| condition.counter.is_none()),
                Grant::MovedBesideState,
            ),
            (
                numbers(group).len() > moving.len(),
                Grant::MovedTwiceInGroup,
            ),
            (later_same, Grant::MovedInTwoGroups),
            (joining, Grant::MovedJoiningByte),
            (own, Grant::MovedOwn),
            (
                self.record.counter().is_some() && (!own || moving.len() > 1),
                Grant::MovedOtherOfCounter,
            ),
        ]))
    }

    fn get_rows(&self) -> Vec<UsedRow> {
        if self.asker != Asker::Get || self.event.out_len > 0 {
            return Vec::new();
        }
        let offset = number_at(self.event.command, 6);
        let length = number_at(self.event.command, 8);
        chosen(&[
            (length == 0, UsedRow::MovedByLengthZero),
            (
                length > 0 && offset == self.record.used(),
                UsedRow::MovedAtUsed,
            ),
        ])
    }

    /// The object's record after the command.
    fn record_after(&self) -> Option<Record<'_>> {
        let store = &self.event.after.store;
        let place = store::find(store, self.record.object())?;
        Some(Record::at(store, place))
    }

    fn metadata_write_rows(&self) -> Vec<UsedRow> {
        let Some(after) = self.record_after() else {
            return Vec::new();
        };
        if self.asker != Asker::SetMetadata {
            return Vec::new();
        }
        let is_same = |slot: Slot| self.record.expression(slot) == after.expression(slot);
        let all_same = Slot::ALL.into_iter().all(is_same) && self.record.lcso() == after.lcso();
        chosen(&[
            (!is_same(Slot::Change), UsedRow::Replaced),
            (all_same, UsedRow::SentBack),
        ])
    }

    fn brought_rows(&self) -> Vec<UsedRow> {
        let Some(after) = self.record_after() else {
            return Vec::new();
        };
        let brings = |slot: Slot| {
            let groups = self.event.groups(after, slot);
            self.record.expression(slot) != after.expression(slot) && groups.iter().any(has_counter)
        };
        let slots = Slot::ALL.into_iter().filter(|&slot| brings(slot));
        slots.map(UsedRow::Brought).collect()
    }

    fn execute_rows(&self, moving: &[u16]) -> Vec<UsedRow> {
        let groups = self.event.groups(self.record, Slot::Execute);
        let Some(group) = groups.iter().find(|group| is_true(group)) else {
            return Vec::new();
        };
        let named = numbers_once(group);
        let is_apart = |number: &u16| !moving.contains(number) && *number != self.own();
        let apart: Vec<u16> = named.into_iter().filter(is_apart).collect();
        let stayed = apart.iter().all(|&number| self.event.has_stayed(number));
        chosen(&[(
            !apart.is_empty() && stayed,
            UsedRow::ExecuteNotAsked(self.asker),
        )])
    }

    fn own_rows(&self, moving: &[u16]) -> Vec<UsedRow> {
        let store = &self.event.after.store;
        let (Some(before), Some(after)) =
            (self.record.counter(), Event::counter_in(store, self.own()))
        else {
            return Vec::new();
        };
        if !moving.contains(&self.own()) {
            return Vec::new();
        }
        let own = match self.asker {
            Asker::Write => self.written(after).map(Own::Write),
            Asker::Erase => self.written(after).map(Own::Erase),
            Asker::Count => self.counted(before, after),
            Asker::Get => (self.event.out_len > 0).then_some(Own::Read),
            Asker::SetMetadata => Some(Own::SetMetadata),
            // Done at queues only.
            Asker::Append | Asker::Acknowledge => None,
        };
        own.map(UsedRow::Own).into_iter().collect()
    }

    /// How the counter sent stands, if the one stored is a step further.
    fn written(&self, after: Counter) -> Option<Written> {
        let sent = Counter::from_data(Direction::Up, &self.event.command[8..]);
        let left = i64::from(sent.threshold) - i64::from(sent.value);
        let (written, expected) = match left {
            2.. => (Written::Below, sent.value + 1),
            1 => (Written::OneBelow, sent.threshold),
            0 => (Written::AtThreshold, sent.threshold),
            _ => (Written::Above, sent.threshold),
        };
        let fits = after.threshold == sent.threshold && after.value == expected;
        fits.then_some(written)
    }

    fn counted(&self, before: Counter, after: Counter) -> Option<Own> {
        let step = u32::from(self.event.command[8]);
        let left = before.threshold - before.value;
        let (own, expected) = match step {
            0 => (Own::CountOfStepZero, before.value + 1),
            _ if step >= left => (Own::CountReachesByItself, before.threshold),
            _ if step + 1 == left => (Own::CountReachesByCondition, before.threshold),
            _ => (Own::CountStaysBelow, before.value + step + 1),
        };
        (after.value == expected).then_some(own)
    }
}
