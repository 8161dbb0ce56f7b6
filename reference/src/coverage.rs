//! What the generated cases of a seed cover, judged by the reference itself.

pub mod counters;
pub mod docks;
pub mod queues;
pub mod reads;
pub mod used_counters;

use std::fmt::{self, Display, Write};

use crate::counter::Direction;
use crate::engine::{
    flush, judge, row_of, Refusal, Row, CLOSE, FLUSH, GET, HEADER, OPEN, REFUSED, SET,
};
use crate::generator::cases::{cases, Case};
use crate::generator::contents::Content;
use crate::generator::stores::Damage;
use crate::kinds::ObjectNumber;
use crate::program::response;
use crate::replay::{Item, State};
use crate::session::{is_state, SessionObject, TERMINATION};
use crate::store::{self, check_store, judge_store, Fault, Record, Slot};
use counters::{CounterRow, Standing};
use queues::{QueueRow, QueueStanding};
use reads::ReadRow;
use used_counters::UsedRow;

/// A row of the coverage table.
#[derive(Clone, Copy, Debug, PartialEq, Eq)]
pub enum CommandRow {
    Known(Row),
    UnknownCmd,
    UnknownParam,
    TooShort,
}

impl CommandRow {
    pub const ALL: [CommandRow; 13] = [
        CommandRow::Known(Row::GetData),
        CommandRow::Known(Row::GetMetadata),
        CommandRow::Known(Row::Write),
        CommandRow::Known(Row::EraseAndWrite),
        CommandRow::Known(Row::Count),
        CommandRow::Known(Row::Append),
        CommandRow::Known(Row::Acknowledge),
        CommandRow::Known(Row::SetMetadata),
        CommandRow::Known(Row::Open),
        CommandRow::Known(Row::Close),
        CommandRow::UnknownCmd,
        CommandRow::UnknownParam,
        CommandRow::TooShort,
    ];

    /// The row of a command by its first two bytes, if it has a whole header.
    pub fn of(command: &[u8]) -> CommandRow {
        if command.len() < HEADER {
            return CommandRow::TooShort;
        }
        let cmd = command[0] & !FLUSH;
        if ![GET, SET, OPEN, CLOSE].contains(&cmd) {
            return CommandRow::UnknownCmd;
        }
        row_of(cmd, command[1]).map_or(CommandRow::UnknownParam, CommandRow::Known)
    }

    fn name(self) -> &'static str {
        match self {
            CommandRow::Known(Row::GetData) => "get data",
            CommandRow::Known(Row::GetMetadata) => "get metadata",
            CommandRow::Known(Row::Write) => "write",
            CommandRow::Known(Row::EraseAndWrite) => "erase and write",
            CommandRow::Known(Row::Count) => "count",
            CommandRow::Known(Row::Append) => "append",
            CommandRow::Known(Row::Acknowledge) => "acknowledge",
            CommandRow::Known(Row::SetMetadata) => "set metadata",
            CommandRow::Known(Row::Open) => "open",
            CommandRow::Known(Row::Close) => "close",
            CommandRow::UnknownCmd => "unknown Cmd",
            CommandRow::UnknownParam => "unknown Param",
            CommandRow::TooShort => "too short",
        }
    }
}

/// A column of the coverage table.
#[derive(Clone, Copy, Debug, PartialEq, Eq)]
pub enum Verdict {
    Done,
    Refused(Refusal),
    NoResponse,
}

impl Verdict {
    pub fn all() -> Vec<Verdict> {
        let mut all = vec![Verdict::Done];
        all.extend(Refusal::ALL.map(Verdict::Refused));
        all.push(Verdict::NoResponse);
        all
    }

    /// The verdict on a command, by steps 1 to 13.
    pub fn of(command: &[u8], state: &State, room: usize) -> Verdict {
        if room < HEADER {
            return Verdict::NoResponse;
        }
        let session = flush(command, state.session);
        match judge(command, &state.store, session, room) {
            Ok(_) => Verdict::Done,
            Err(refusal) => Verdict::Refused(refusal),
        }
    }
}

impl Display for Verdict {
    fn fmt(&self, formatter: &mut fmt::Formatter<'_>) -> fmt::Result {
        match self {
            Verdict::Done => formatter.write_str("done"),
            Verdict::Refused(refusal) => write!(formatter, "{:02X}", refusal.code()),
            Verdict::NoResponse => formatter.write_str("outcome 1"),
        }
    }
}

/// Why a cell of the table never occurs, if it never does.
pub fn unreachable(row: CommandRow, verdict: Verdict) -> Option<&'static str> {
    let Verdict::Refused(refusal) = verdict else {
        return unreachable_done(row, verdict);
    };
    let Some(row) = known(row) else {
        return unreachable_unknown(row, refusal);
    };
    let names_object = !matches!(row, Row::Open | Row::Close);
    let is_of_one_kind = matches!(row, Row::Count | Row::Append | Row::Acknowledge);
    let has_bounds = matches!(
        row,
        Row::GetData | Row::Write | Row::EraseAndWrite | Row::Count | Row::Append
    );
    let answers_data = matches!(row, Row::GetData | Row::GetMetadata);
    let brings_value = !answers_data && !matches!(row, Row::Count | Row::Append | Row::Close);
    match refusal {
        Refusal::UnknownCmd => Some("the Cmd is known"),
        Refusal::WrongParam if !is_of_one_kind => Some("the Param is known"),
        Refusal::NoSuchObject | Refusal::NoAccess if !names_object => Some("names no object"),
        Refusal::OutOfBounds if !has_bounds => Some("has no offset and adds nothing"),
        Refusal::NoRoom if !answers_data && row != Row::Append => {
            Some("answers with no data, 4 bytes fit")
        }
        Refusal::WrongValue if !brings_value => {
            Some("brings no identifier, metadata, life cycle value or number of a fare")
        }
        _ => None,
    }
}

fn known(row: CommandRow) -> Option<Row> {
    match row {
        CommandRow::Known(row) => Some(row),
        _ => None,
    }
}

fn unreachable_done(row: CommandRow, verdict: Verdict) -> Option<&'static str> {
    match known(row) {
        None if verdict == Verdict::Done => Some("step 3, 4 or 6 refuses it at the latest"),
        _ => None,
    }
}

fn unreachable_unknown(row: CommandRow, refusal: Refusal) -> Option<&'static str> {
    let (reachable, reason): (&[Refusal], _) = match row {
        CommandRow::TooShort => (
            &[Refusal::Malformed, Refusal::WrongLength],
            "step 3 refuses it at the latest",
        ),
        CommandRow::UnknownCmd => (
            &[
                Refusal::Malformed,
                Refusal::WrongLength,
                Refusal::UnknownCmd,
            ],
            "step 4 refuses it at the latest",
        ),
        _ => (
            &[
                Refusal::Malformed,
                Refusal::WrongLength,
                Refusal::OutOfSequence,
                Refusal::WrongParam,
            ],
            "its Cmd is known and step 6 refuses it at the latest",
        ),
    };
    (!reachable.contains(&refusal)).then_some(reason)
}

/// Boundaries and situations that the cases must meet.
#[derive(Clone, Copy, Debug, PartialEq, Eq)]
pub enum Feature {
    StoreOfOneRecord,
    StoreOf32Records,
    StoreOf16384Bytes,
    FactoryStore,
    ClosedSession,
    TerminatedSession,
    WrongLcsG,
    WrongLcsA,
    EmptyCommand,
    CommandOf1557Bytes,
    CommandOf1558Bytes,
    InLenOneAbove,
    InLenOneBelow,
    FlushOfAnError,
    FlushWithoutResponse,
    RoomOf0,
    RoomOf1,
    RoomOf2,
    RoomOf3,
    RoomOf4,
    RoomOf1504,
    RoomFitsExactly,
    RoomOneShort,
    ReadNothingAtUsed,
    ReadNothingPastUsed,
    ReadToUsed,
    ReadWrapsAt16Bits,
    ReadAnError,
    ReadNothingOfAnError,
    ReadLifeCycle,
    WriteToMaximum,
    WriteOnePastMaximum,
    WriteAtMaximum,
    WriteWrapsAt16Bits,
    WriteAfterGap,
    WriteBeforeUsed,
    EraseLowersUsed,
    LifeCycleOfSessionRises,
    LcsOChanges,
    ChangeExpressionChanges,
}

impl Feature {
    pub const ALL: [Feature; 40] = [
        Feature::StoreOfOneRecord,
        Feature::StoreOf32Records,
        Feature::StoreOf16384Bytes,
        Feature::FactoryStore,
        Feature::ClosedSession,
        Feature::TerminatedSession,
        Feature::WrongLcsG,
        Feature::WrongLcsA,
        Feature::EmptyCommand,
        Feature::CommandOf1557Bytes,
        Feature::CommandOf1558Bytes,
        Feature::InLenOneAbove,
        Feature::InLenOneBelow,
        Feature::FlushOfAnError,
        Feature::FlushWithoutResponse,
        Feature::RoomOf0,
        Feature::RoomOf1,
        Feature::RoomOf2,
        Feature::RoomOf3,
        Feature::RoomOf4,
        Feature::RoomOf1504,
        Feature::RoomFitsExactly,
        Feature::RoomOneShort,
        Feature::ReadNothingAtUsed,
        Feature::ReadNothingPastUsed,
        Feature::ReadToUsed,
        Feature::ReadWrapsAt16Bits,
        Feature::ReadAnError,
        Feature::ReadNothingOfAnError,
        Feature::ReadLifeCycle,
        Feature::WriteToMaximum,
        Feature::WriteOnePastMaximum,
        Feature::WriteAtMaximum,
        Feature::WriteWrapsAt16Bits,
        Feature::WriteAfterGap,
        Feature::WriteBeforeUsed,
        Feature::EraseLowersUsed,
        Feature::LifeCycleOfSessionRises,
        Feature::LcsOChanges,
        Feature::ChangeExpressionChanges,
    ];
}

/// A command with the verdict on it, the state around it, its room's size and
/// the OutLen of its response.
struct Event<'e> {
    command: &'e [u8],
    row: CommandRow,
    verdict: Verdict,
    room: usize,
    out_len: usize,
    before: &'e State,
    after: &'e State,
}

impl Event<'_> {
    fn is_refused(&self, refusal: Refusal) -> bool {
        self.verdict == Verdict::Refused(refusal)
    }

    /// The features that the event shows.
    fn features(&self) -> Vec<Feature> {
        let mut features = self.frame_features();
        features.extend(self.room_features());
        match self.row {
            CommandRow::Known(Row::GetData) => features.extend(self.read_features()),
            CommandRow::Known(Row::Write | Row::EraseAndWrite) => {
                features.extend(self.write_features());
            }
            CommandRow::Known(Row::SetMetadata) => features.extend(self.metadata_features()),
            _ => {}
        }
        features
    }

    fn frame_features(&self) -> Vec<Feature> {
        let length = self.command.len();
        let flushes = flush(self.command, self.before.session) != self.before.session;
        let responds = self.verdict != Verdict::NoResponse;
        let mut features = chosen(&[
            (length == 0, Feature::EmptyCommand),
            (length == 1_557, Feature::CommandOf1557Bytes),
            (length == 1_558, Feature::CommandOf1558Bytes),
            (flushes && responds, Feature::FlushOfAnError),
            (flushes && !responds, Feature::FlushWithoutResponse),
        ]);
        if length >= HEADER {
            let in_len = number_at(self.command, 2);
            features.extend(chosen(&[
                (in_len + HEADER == length + 1, Feature::InLenOneAbove),
                (in_len + HEADER + 1 == length, Feature::InLenOneBelow),
            ]));
        }
        features
    }

    fn room_features(&self) -> Vec<Feature> {
        chosen(&[
            (self.room == 0, Feature::RoomOf0),
            (self.room == 1, Feature::RoomOf1),
            (self.room == 2, Feature::RoomOf2),
            (self.room == 3, Feature::RoomOf3),
            (self.room == 4, Feature::RoomOf4),
            (self.room == 1_504, Feature::RoomOf1504),
        ])
    }

    fn write_features(&self) -> Vec<Feature> {
        let done = self.verdict == Verdict::Done;
        let out_of_bounds = self.is_refused(Refusal::OutOfBounds);
        let Some((object, offset)) = self.object_and_offset() else {
            return Vec::new();
        };
        let length = self.command.len() - HEADER - 4;
        let end = offset + length;
        let Object::Stored(record) = object else {
            let rises = self.before.session.lcsa < self.after.session.lcsa
                || self.before.session.lcsg < self.after.session.lcsg;
            return chosen(&[(done && rises, Feature::LifeCycleOfSessionRises)]);
        };
        // Counters have rows of their own.
        if record.counter().is_some() {
            return Vec::new();
        }
        let (used, maximum) = (record.used(), record.maximum());
        let erases = self.row == CommandRow::Known(Row::EraseAndWrite);
        chosen(&[
            (done && end == maximum, Feature::WriteToMaximum),
            (
                out_of_bounds && end == maximum + 1,
                Feature::WriteOnePastMaximum,
            ),
            (
                out_of_bounds && offset == maximum && used == maximum,
                Feature::WriteAtMaximum,
            ),
            (
                out_of_bounds && end >= 65_536 && end % 65_536 <= maximum,
                Feature::WriteWrapsAt16Bits,
            ),
            (done && offset > used, Feature::WriteAfterGap),
            (done && !erases && end < used, Feature::WriteBeforeUsed),
            (done && erases && end < used, Feature::EraseLowersUsed),
        ])
    }

    fn metadata_features(&self) -> Vec<Feature> {
        if self.verdict != Verdict::Done {
            return Vec::new();
        }
        let number = ObjectNumber(number_at(self.command, 4) as u16);
        let Some(place) = store::find(&self.before.store, number) else {
            return Vec::new();
        };
        let before = Record::at(&self.before.store, place.clone());
        let after = Record::at(&self.after.store, place);
        chosen(&[
            (before.lcso() != after.lcso(), Feature::LcsOChanges),
            (
                before.expression(Slot::Change) != after.expression(Slot::Change),
                Feature::ChangeExpressionChanges,
            ),
        ])
    }

    /// The object that the command names, if the verdict rests on it.
    fn object(&self) -> Option<Object<'_>> {
        let judged_by_object = match self.verdict {
            Verdict::Done => true,
            Verdict::Refused(refusal) => matches!(
                refusal,
                Refusal::WrongParam | Refusal::NoAccess | Refusal::OutOfBounds | Refusal::NoRoom
            ),
            Verdict::NoResponse => false,
        };
        if !judged_by_object {
            return None;
        }
        let number = ObjectNumber(number_at(self.command, 4) as u16);
        match SessionObject::from_number(number) {
            Some(object) => Some(Object::Session(object)),
            None => {
                let place = store::find(&self.before.store, number)?;
                Some(Object::Stored(Record::at(&self.before.store, place)))
            }
        }
    }

    /// That object, and the offset of a command that has one.
    fn object_and_offset(&self) -> Option<(Object<'_>, usize)> {
        Some((self.object()?, number_at(self.command, 6)))
    }
}

/// Where an object lives.
enum Object<'s> {
    Session(SessionObject),
    Stored(Record<'s>),
}

fn chosen<T: Copy>(entries: &[(bool, T)]) -> Vec<T> {
    entries
        .iter()
        .filter(|entry| entry.0)
        .map(|entry| entry.1)
        .collect()
}

fn number_at(bytes: &[u8], place: usize) -> usize {
    usize::from(u16::from_be_bytes([bytes[place], bytes[place + 1]]))
}

/// The features of a store and session put in place.
fn state_features(state: &State) -> Vec<Feature> {
    let session = state.session;
    let records = match check_store(&state.store) {
        true => store::records(&state.store).count(),
        false => 0,
    };
    chosen(&[
        (records == 1, Feature::StoreOfOneRecord),
        (records == 32, Feature::StoreOf32Records),
        (
            records > 0 && state.store.len() == 16_384,
            Feature::StoreOf16384Bytes,
        ),
        (!session.opened, Feature::ClosedSession),
        (session.lcsa == TERMINATION, Feature::TerminatedSession),
        (!is_state(session.lcsg), Feature::WrongLcsG),
        (!is_state(session.lcsa), Feature::WrongLcsA),
    ])
}

/// How often each thing occurred.
#[derive(Debug)]
struct Tally<K> {
    counts: Vec<(K, usize)>,
}

impl<K: Copy + PartialEq + fmt::Debug> Tally<K> {
    fn new(keys: impl IntoIterator<Item = K>) -> Tally<K> {
        Tally {
            counts: keys.into_iter().map(|key| (key, 0)).collect(),
        }
    }

    fn add(&mut self, key: K) {
        let found = self.counts.iter_mut().find(|entry| entry.0 == key);
        found.expect("every key is listed").1 += 1;
    }

    fn add_all(&mut self, keys: Vec<K>) {
        for key in keys {
            self.add(key);
        }
    }

    fn count(&self, key: K) -> usize {
        let found = self.counts.iter().find(|entry| entry.0 == key);
        found.map_or(0, |entry| entry.1)
    }

    fn missing(&self) -> impl Iterator<Item = K> + '_ {
        self.counts
            .iter()
            .filter(|entry| entry.1 == 0)
            .map(|entry| entry.0)
    }

    /// The missing ones, each after this name.
    fn missing_of<'t>(&'t self, name: &'t str) -> impl Iterator<Item = String> + 't {
        self.missing().map(move |key| format!("{name} {key:?}"))
    }
}

/// What the cases of a seed covered.
#[derive(Debug)]
pub struct Coverage {
    commands: usize,
    accepted_stores: usize,
    cells: Tally<(CommandRow, Verdict)>,
    damages: Tally<Damage>,
    faults: Tally<Fault>,
    contents: Tally<Content>,
    features: Tally<Feature>,
    reads: Tally<ReadRow>,
    counters: Tally<CounterRow>,
    standings: Tally<(Direction, Standing)>,
    used: Tally<UsedRow>,
    queues: Tally<QueueRow>,
    queue_standings: Tally<QueueStanding>,
    errors: Vec<String>,
}

/// Runs the reference over the cases of a seed.
pub fn cover(seed: u64, count: usize) -> Coverage {
    let verdicts = Verdict::all();
    let cells = CommandRow::ALL
        .iter()
        .flat_map(|&row| verdicts.iter().map(move |&verdict| (row, verdict)));
    let mut coverage = Coverage {
        commands: 0,
        accepted_stores: 0,
        cells: Tally::new(cells),
        damages: Tally::new(Damage::all()),
        faults: Tally::new(Fault::ALL),
        contents: Tally::new(Content::all()),
        features: Tally::new(Feature::ALL),
        reads: Tally::new(ReadRow::all()),
        counters: Tally::new(CounterRow::all()),
        standings: Tally::new(Standing::all()),
        used: Tally::new(UsedRow::all()),
        queues: Tally::new(QueueRow::all()),
        queue_standings: Tally::new(QueueStanding::all()),
        errors: Vec::new(),
    };
    let mut state = State::empty();
    let mut take = |case: Case| -> Result<(), fmt::Error> {
        coverage.take(case, &mut state);
        Ok(())
    };
    cases(seed, count, &mut take).expect("taking a case gives no error");
    coverage
}

impl Coverage {
    fn take(&mut self, case: Case, state: &mut State) {
        match case.item {
            Item::Store { store, session } => {
                self.take_store(&store, case.damage);
                *state = State { store, session };
                self.features.add_all(state_features(state));
            }
            Item::Command { mut room, command } => {
                self.take_command(&command, &mut room, case.content, state);
            }
            Item::Bytes => {}
            Item::Factory { length } => {
                if state.factory(length).0 == 0 {
                    self.features.add(Feature::FactoryStore);
                }
            }
        }
    }

    fn take_store(&mut self, store: &[u8], damage: Option<Damage>) {
        let judged = judge_store(store);
        match judged {
            Ok(()) => self.take_well_formed(store),
            Err(fault) => self.faults.add(fault),
        }
        if let Some(damage) = damage {
            self.damages.add(damage);
        }
        if judged.err() != damage.map(Damage::fault) {
            self.errors
                .push(format!("damage {damage:?} is judged {judged:?}"));
        }
    }

    fn take_well_formed(&mut self, store: &[u8]) {
        self.accepted_stores += 1;
        for (_, record) in store::records(store) {
            self.standings.add_all(Standing::of(record));
            self.queue_standings.add_all(QueueStanding::of(record));
        }
    }

    fn take_command(
        &mut self,
        command: &[u8],
        room: &mut [u8],
        content: Option<Content>,
        state: &mut State,
    ) {
        let verdict = Verdict::of(command, state, room.len());
        let row = CommandRow::of(command);
        self.commands += 1;
        self.cells.add((row, verdict));
        if let Some(content) = content {
            if reaches_content(content, command, verdict) {
                self.contents.add(content);
            }
        }
        let before = state.clone();
        let outcome = state.execute(command, room);
        let event = Event {
            command,
            row,
            verdict,
            room: room.len(),
            out_len: response(outcome, room).len().saturating_sub(HEADER),
            before: &before,
            after: state,
        };
        self.add_rows(&event);
        let errors = [
            disagreement(command, verdict, outcome, room, &before, event.after),
            event.used_disagreement(),
            event.queue_disagreement(),
        ];
        for error in errors.into_iter().flatten() {
            self.errors.push(format!("{error}: {command:02X?}"));
        }
    }

    fn add_rows(&mut self, event: &Event<'_>) {
        self.features.add_all(event.features());
        self.reads.add_all(event.read_rows());
        self.counters.add_all(event.counter_rows());
        self.used.add_all(event.used_rows());
        self.queues.add_all(event.queue_rows());
    }

    /// The reachable cells and the things to generate that never occurred.
    pub fn missing(&self) -> Vec<String> {
        let cells = self
            .cells
            .missing()
            .filter(|&(row, verdict)| unreachable(row, verdict).is_none())
            .map(|(row, verdict)| format!("{} x {verdict}", row.name()));
        cells
            .chain(self.damages.missing_of("store damage"))
            .chain(self.faults.missing_of("store clause"))
            .chain(self.contents.missing_of("metadata content"))
            .chain(self.features.missing_of("feature"))
            .chain(self.reads.missing_of("get of data"))
            .chain(self.counters.missing_of("counter"))
            .chain(self.standings.missing_of("stored counter"))
            .chain(self.used.missing_of("condition on a counter"))
            .chain(self.queues.missing_of("queue"))
            .chain(self.queue_standings.missing_of("stored queue"))
            .collect()
    }

    /// Disagreements between what a case was made to be and what came of it.
    pub fn errors(&self) -> &[String] {
        &self.errors
    }

    /// The readable tables.
    pub fn table(&self) -> String {
        let mut text = String::new();
        self.put_table(&mut text)
            .expect("writing to a string gives no error");
        text
    }

    fn put_table(&self, text: &mut String) -> fmt::Result {
        let verdicts = Verdict::all();
        writeln!(text, "commands: {}", self.commands)?;
        writeln!(text, "well-formed stores: {}", self.accepted_stores)?;
        write!(text, "\n{:<16}", "")?;
        for verdict in &verdicts {
            write!(text, "{:>10}", verdict.to_string())?;
        }
        writeln!(text)?;
        for row in CommandRow::ALL {
            write!(text, "{:<16}", row.name())?;
            for &verdict in &verdicts {
                let count = self.cells.count((row, verdict));
                match unreachable(row, verdict) {
                    Some(_) if count == 0 => write!(text, "{:>10}", "-")?,
                    _ => write!(text, "{count:>10}")?,
                }
            }
            writeln!(text)?;
        }
        self.put_unreachable(text)?;
        self.put_tallies(text)
    }

    fn put_tallies(&self, text: &mut String) -> fmt::Result {
        put_tally(text, "store clauses broken (first one found)", &self.faults)?;
        put_tally(text, "stores by damage made", &self.damages)?;
        put_tally(
            text,
            "metadata contents that reached step 12",
            &self.contents,
        )?;
        put_tally(text, "boundaries and situations", &self.features)?;
        put_tally(text, "gets of data", &self.reads)?;
        put_tally(
            text,
            "counts, and other commands at counters",
            &self.counters,
        )?;
        put_tally(text, "counters of well-formed stores", &self.standings)?;
        put_tally(text, "conditions that use up counters", &self.used)?;
        put_tally(
            text,
            "appends, acknowledgements, and other commands at queues",
            &self.queues,
        )?;
        put_tally(text, "queues of well-formed stores", &self.queue_standings)
    }

    fn put_unreachable(&self, text: &mut String) -> fmt::Result {
        writeln!(text, "\nunreachable cells (-):")?;
        for &((row, verdict), _) in &self.cells.counts {
            if let Some(reason) = unreachable(row, verdict) {
                writeln!(text, "  {} x {verdict}: {reason}", row.name())?;
            }
        }
        Ok(())
    }
}

fn put_tally<K: Copy + PartialEq + fmt::Debug>(
    text: &mut String,
    title: &str,
    tally: &Tally<K>,
) -> fmt::Result {
    writeln!(text, "\n{title}:")?;
    for (key, count) in &tally.counts {
        writeln!(text, "{count:>10}  {key:?}")?;
    }
    Ok(())
}

/// Whether the content decided the verdict on a metadata write.
fn reaches_content(content: Content, command: &[u8], verdict: Verdict) -> bool {
    CommandRow::of(command) == CommandRow::Known(Row::SetMetadata)
        && match content.is_good() {
            true => verdict == Verdict::Done,
            false => verdict == Verdict::Refused(Refusal::WrongValue),
        }
}

/// What in an execution does not fit its verdict.
fn disagreement(
    command: &[u8],
    verdict: Verdict,
    outcome: u8,
    room: &[u8],
    before: &State,
    after: &State,
) -> Option<&'static str> {
    let fits = match verdict {
        Verdict::NoResponse => outcome == 1 && before == after,
        Verdict::Done => outcome == 0 && room[0] != REFUSED,
        Verdict::Refused(refusal) => {
            let mut session = flush(command, before.session);
            session.error = session.error.max(refusal.code());
            outcome == 0
                && room[..HEADER] == [REFUSED, 0, 0, 0]
                && before.store == after.store
                && after.session == session
        }
    };
    if !fits {
        return Some("the execution does not fit the verdict");
    }
    if check_store(&before.store) && !check_store(&after.store) {
        return Some("the store is malformed after the command");
    }
    None
}
