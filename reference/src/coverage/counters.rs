//! What the cases cover of counters.

use super::{chosen, number_at, CommandRow, Event, Object, Verdict};
use crate::counter::{self, Counter, Direction};
use crate::engine::{Refusal, Row, HEADER, LONGEST_COMMAND};
use crate::session::SessionObject;
use crate::store::Record;

/// What a count meets at a counter, the refusals in their order first.
#[derive(Clone, Copy, Debug, PartialEq, Eq)]
pub enum CountMet {
    NoAccess,
    /// 07 although 08 would be due as well.
    NoAccessAtThreshold,
    Offset,
    AtThreshold,
    AtThresholdStepZero,
    PastThreshold,
    StepZero,
    /// The value stays short of the threshold.
    Short,
    Reaching,
    Clipped,
    ClippedWrapsAt32Bits,
}

impl CountMet {
    pub const ALL: [CountMet; 11] = [
        CountMet::NoAccess,
        CountMet::NoAccessAtThreshold,
        CountMet::Offset,
        CountMet::AtThreshold,
        CountMet::AtThresholdStepZero,
        CountMet::PastThreshold,
        CountMet::StepZero,
        CountMet::Short,
        CountMet::Reaching,
        CountMet::Clipped,
        CountMet::ClippedWrapsAt32Bits,
    ];
}

/// What a write meets at a counter.
#[derive(Clone, Copy, Debug, PartialEq, Eq)]
pub enum WriteMet {
    Done,
    NoAccess,
    /// 08 although the bytes lie within the data.
    Part,
    PastMaximum,
}

impl WriteMet {
    pub const ALL: [WriteMet; 4] = [
        WriteMet::Done,
        WriteMet::NoAccess,
        WriteMet::Part,
        WriteMet::PastMaximum,
    ];
}

/// A row of the table of counts, and of other commands at counters.
#[derive(Clone, Copy, Debug, PartialEq, Eq)]
pub enum CounterRow {
    CountOfWrongLength,
    CountOfNoObject,
    CountOfDataNoAccess,
    CountOfData,
    /// 03 although the data has the size of a counter.
    CountOfDataOf8Bytes,
    /// 03 although 08 would be due for a counter.
    CountOfDataAtOffset,
    CountOfSession(SessionObject),
    Count(Direction, CountMet),
    Write(Direction, WriteMet),
    EraseAndWrite(Direction, WriteMet),
    GetData(Direction),
    /// Fewer bytes than the length asked, but some.
    GetDataShortened(Direction),
    /// A length above 0 at used.
    GetDataAtUsed(Direction),
    GetDataAboveUsed(Direction),
    GetMetadata(Direction),
    SetMetadata(Direction),
}

impl CounterRow {
    pub fn all() -> Vec<CounterRow> {
        let mut all = vec![
            CounterRow::CountOfWrongLength,
            CounterRow::CountOfNoObject,
            CounterRow::CountOfDataNoAccess,
            CounterRow::CountOfData,
            CounterRow::CountOfDataOf8Bytes,
            CounterRow::CountOfDataAtOffset,
        ];
        all.extend(SessionObject::ALL.map(CounterRow::CountOfSession));
        for direction in Direction::ALL {
            all.extend(CountMet::ALL.map(|met| CounterRow::Count(direction, met)));
            all.extend(WriteMet::ALL.map(|met| CounterRow::Write(direction, met)));
            all.extend(WriteMet::ALL.map(|met| CounterRow::EraseAndWrite(direction, met)));
            all.push(CounterRow::GetData(direction));
            all.push(CounterRow::GetDataShortened(direction));
            all.push(CounterRow::GetDataAtUsed(direction));
            all.push(CounterRow::GetDataAboveUsed(direction));
            all.push(CounterRow::GetMetadata(direction));
            all.push(CounterRow::SetMetadata(direction));
        }
        all
    }
}

impl Event<'_> {
    /// The rows of counters that the event shows.
    pub(super) fn counter_rows(&self) -> Vec<CounterRow> {
        let CommandRow::Known(row) = self.row else {
            return Vec::new();
        };
        match row {
            Row::Count => self.count_rows(),
            Row::Write => self.write_rows(CounterRow::Write),
            Row::EraseAndWrite => self.write_rows(CounterRow::EraseAndWrite),
            Row::GetData => self.get_data_rows(),
            Row::GetMetadata => self.done_rows(CounterRow::GetMetadata),
            Row::SetMetadata => self.done_rows(CounterRow::SetMetadata),
            Row::Append | Row::Acknowledge | Row::Open | Row::Close => Vec::new(),
        }
    }

    fn count_rows(&self) -> Vec<CounterRow> {
        let length = self.command.len();
        let is_frame = length <= LONGEST_COMMAND && number_at(self.command, 2) == length - HEADER;
        let Some((object, offset)) = self.object_and_offset() else {
            return chosen(&[
                (
                    is_frame && self.is_refused(Refusal::WrongLength),
                    CounterRow::CountOfWrongLength,
                ),
                (
                    self.is_refused(Refusal::NoSuchObject),
                    CounterRow::CountOfNoObject,
                ),
            ]);
        };
        match object {
            Object::Session(object) => self.session_count_rows(object),
            // Queues have rows of their own.
            Object::Stored(record) if record.queue().is_some() => Vec::new(),
            Object::Stored(record) => match record.counter() {
                None => self.data_count_rows(record, offset),
                Some(counter) => self.counter_count_rows(counter, offset),
            },
        }
    }

    fn session_count_rows(&self, object: SessionObject) -> Vec<CounterRow> {
        let due = match object {
            SessionObject::LcsG | SessionObject::LcsA => Refusal::WrongParam,
            SessionObject::LastError => Refusal::NoAccess,
        };
        chosen(&[(self.is_refused(due), CounterRow::CountOfSession(object))])
    }

    fn data_count_rows(&self, record: Record<'_>, offset: usize) -> Vec<CounterRow> {
        let wrong_param = self.is_refused(Refusal::WrongParam);
        chosen(&[
            (
                self.is_refused(Refusal::NoAccess),
                CounterRow::CountOfDataNoAccess,
            ),
            (wrong_param && offset == 0, CounterRow::CountOfData),
            (
                wrong_param && record.used() == counter::SIZE,
                CounterRow::CountOfDataOf8Bytes,
            ),
            (wrong_param && offset > 0, CounterRow::CountOfDataAtOffset),
        ])
    }

    fn counter_count_rows(&self, counter: Counter, offset: usize) -> Vec<CounterRow> {
        let step = i64::from(self.command[8]);
        let (value, threshold) = (i64::from(counter.value), i64::from(counter.threshold));
        // How far the threshold is, and the sum without any limit.
        let (left, sum) = match counter.direction {
            Direction::Up => (threshold - value, value + step),
            Direction::Down => (value - threshold, value - step),
        };
        let done = self.verdict == Verdict::Done;
        let no_access = self.is_refused(Refusal::NoAccess);
        let out_of_bounds = self.is_refused(Refusal::OutOfBounds);
        let at_start = offset == 0;
        let met = chosen(&[
            (no_access && at_start && left > 0, CountMet::NoAccess),
            (no_access && left <= 0, CountMet::NoAccessAtThreshold),
            (out_of_bounds && !at_start && left > 0, CountMet::Offset),
            (
                out_of_bounds && at_start && left == 0,
                CountMet::AtThreshold,
            ),
            (
                out_of_bounds && at_start && left == 0 && step == 0,
                CountMet::AtThresholdStepZero,
            ),
            (
                out_of_bounds && at_start && left < 0,
                CountMet::PastThreshold,
            ),
            (done && step == 0, CountMet::StepZero),
            (done && step > 0 && step < left, CountMet::Short),
            (done && step == left, CountMet::Reaching),
            (done && step > left, CountMet::Clipped),
            (
                done && step > left && u32::try_from(sum).is_err(),
                CountMet::ClippedWrapsAt32Bits,
            ),
        ]);
        met.into_iter()
            .map(|met| CounterRow::Count(counter.direction, met))
            .collect()
    }

    fn write_rows(&self, row: impl Fn(Direction, WriteMet) -> CounterRow) -> Vec<CounterRow> {
        let Some((Object::Stored(record), offset)) = self.object_and_offset() else {
            return Vec::new();
        };
        let Some(counter) = record.counter() else {
            return Vec::new();
        };
        let length = self.command.len() - HEADER - 4;
        let end = offset + length;
        let out_of_bounds = self.is_refused(Refusal::OutOfBounds);
        let met = chosen(&[
            (
                self.verdict == Verdict::Done && offset == 0 && length == counter::SIZE,
                WriteMet::Done,
            ),
            (self.is_refused(Refusal::NoAccess), WriteMet::NoAccess),
            (out_of_bounds && end <= counter::SIZE, WriteMet::Part),
            (out_of_bounds && end > counter::SIZE, WriteMet::PastMaximum),
        ]);
        met.into_iter()
            .map(|met| row(counter.direction, met))
            .collect()
    }

    fn get_data_rows(&self) -> Vec<CounterRow> {
        let mut rows = self.done_rows(CounterRow::GetData);
        let Some((Object::Stored(record), part)) = self.object_and_part() else {
            return rows;
        };
        let Some(Counter { direction, .. }) = record.counter() else {
            return rows;
        };
        let answers = self.answers(part);
        rows.extend(chosen(&[
            (
                answers && self.out_len > 0 && self.out_len < part.length,
                CounterRow::GetDataShortened(direction),
            ),
            (
                answers && part.offset == part.used && part.length > 0,
                CounterRow::GetDataAtUsed(direction),
            ),
            (
                self.is_refused(Refusal::OutOfBounds) && part.offset > part.used,
                CounterRow::GetDataAboveUsed(direction),
            ),
        ]));
        rows
    }

    fn done_rows(&self, row: impl Fn(Direction) -> CounterRow) -> Vec<CounterRow> {
        let Some(Object::Stored(record)) = self.object() else {
            return Vec::new();
        };
        let counter = record.counter();
        let done = counter.filter(|_| self.verdict == Verdict::Done);
        done.map(|counter| row(counter.direction))
            .into_iter()
            .collect()
    }
}

/// How the value and the threshold of a stored counter stand.
#[derive(Clone, Copy, Debug, PartialEq, Eq)]
pub enum Standing {
    AtThreshold,
    OneBelow,
    OneAbove,
    /// Further than one step.
    WellBelow,
    WellAbove,
    ValueZero,
    ValueLargest,
    ThresholdZero,
    ThresholdLargest,
}

impl Standing {
    const ALL: [Standing; 9] = [
        Standing::AtThreshold,
        Standing::OneBelow,
        Standing::OneAbove,
        Standing::WellBelow,
        Standing::WellAbove,
        Standing::ValueZero,
        Standing::ValueLargest,
        Standing::ThresholdZero,
        Standing::ThresholdLargest,
    ];

    /// All of them in each direction.
    pub fn all() -> Vec<(Direction, Standing)> {
        Direction::ALL
            .into_iter()
            .flat_map(|direction| Self::ALL.map(|standing| (direction, standing)))
            .collect()
    }

    /// The standings of a record's counter, none if it holds data.
    pub(super) fn of(record: Record<'_>) -> Vec<(Direction, Standing)> {
        let Some(counter) = record.counter() else {
            return Vec::new();
        };
        let above = i64::from(counter.value) - i64::from(counter.threshold);
        let step = i64::from(u8::MAX);
        let standings = chosen(&[
            (above == 0, Standing::AtThreshold),
            (above == -1, Standing::OneBelow),
            (above == 1, Standing::OneAbove),
            (above < -step, Standing::WellBelow),
            (above > step, Standing::WellAbove),
            (counter.value == 0, Standing::ValueZero),
            (counter.value == u32::MAX, Standing::ValueLargest),
            (counter.threshold == 0, Standing::ThresholdZero),
            (counter.threshold == u32::MAX, Standing::ThresholdLargest),
        ]);
        standings
            .into_iter()
            .map(|standing| (counter.direction, standing))
            .collect()
    }
}
