//! What the cases cover of gets of data.

use super::{chosen, number_at, CommandRow, Event, Feature, Object, Verdict};
use crate::engine::{flush, Refusal, Row, HEADER};
use crate::session::SessionObject;

/// What a get of data meets at a stored object.
#[derive(Clone, Copy, Debug, PartialEq, Eq)]
pub enum StoredRead {
    ShortenedByOne,
    ShortenedByMore,
    ShortenedLengthFFFF,
    /// The length asked ends past used, not past the maximum.
    ShortenedWithinMaximum,
    ShortenedFromOffset,
    LastByte,
    LastByteOfLengthAboveOne,
    /// A length above 0 at used.
    NothingAtUsed,
    NothingOfEmptyObject,
    /// Some bytes, though offset + length does not fit 16 bits.
    SumPast16BitsAnswered,
    OneAboveUsed,
    OneAboveUsedLengthZero,
    /// 08 in a room that the length asked does not fit.
    AboveUsedInSmallRoom,
    /// 07 although 08 would be due as well.
    AboveUsedNoAccess,
    /// The room fits the shortened answer exactly.
    RoomFitsShortened,
    /// The room is larger, and the length asked does not fit.
    RoomBetween,
    RoomOneShortOfShortened,
}

impl StoredRead {
    const ALL: [StoredRead; 17] = [
        StoredRead::ShortenedByOne,
        StoredRead::ShortenedByMore,
        StoredRead::ShortenedLengthFFFF,
        StoredRead::ShortenedWithinMaximum,
        StoredRead::ShortenedFromOffset,
        StoredRead::LastByte,
        StoredRead::LastByteOfLengthAboveOne,
        StoredRead::NothingAtUsed,
        StoredRead::NothingOfEmptyObject,
        StoredRead::SumPast16BitsAnswered,
        StoredRead::OneAboveUsed,
        StoredRead::OneAboveUsedLengthZero,
        StoredRead::AboveUsedInSmallRoom,
        StoredRead::AboveUsedNoAccess,
        StoredRead::RoomFitsShortened,
        StoredRead::RoomBetween,
        StoredRead::RoomOneShortOfShortened,
    ];
}

/// What a get of data meets at an object of the session.
#[derive(Clone, Copy, Debug, PartialEq, Eq)]
pub enum SessionRead {
    Byte,
    ByteOfLengthAboveOne,
    ByteOfLengthFFFF,
    /// A length above 1 in a room for one byte.
    ByteInRoomOf5,
    NoRoom,
    NoRoomOfLengthAboveOne,
    NothingOfLengthZero,
    NothingAtOne,
    NothingAtOneLengthZero,
    /// A length above 0 in a room for none.
    NothingAtOneInRoomOf4,
    RefusedAtTwo,
    RefusedAtTwoLengthZero,
}

impl SessionRead {
    const ALL: [SessionRead; 12] = [
        SessionRead::Byte,
        SessionRead::ByteOfLengthAboveOne,
        SessionRead::ByteOfLengthFFFF,
        SessionRead::ByteInRoomOf5,
        SessionRead::NoRoom,
        SessionRead::NoRoomOfLengthAboveOne,
        SessionRead::NothingOfLengthZero,
        SessionRead::NothingAtOne,
        SessionRead::NothingAtOneLengthZero,
        SessionRead::NothingAtOneInRoomOf4,
        SessionRead::RefusedAtTwo,
        SessionRead::RefusedAtTwoLengthZero,
    ];
}

/// What a get does to a last error that is not 0.
#[derive(Clone, Copy, Debug, PartialEq, Eq)]
pub enum ErrorRead {
    Cleared,
    ClearedByLengthAboveOne,
    KeptByLengthZero,
    /// By a length above 0 at offset 1.
    KeptAtOne,
    KeptAtTwo,
    KeptByNoRoom,
}

impl ErrorRead {
    const ALL: [ErrorRead; 6] = [
        ErrorRead::Cleared,
        ErrorRead::ClearedByLengthAboveOne,
        ErrorRead::KeptByLengthZero,
        ErrorRead::KeptAtOne,
        ErrorRead::KeptAtTwo,
        ErrorRead::KeptByNoRoom,
    ];
}

/// A row of the table of gets of data.
#[derive(Clone, Copy, Debug, PartialEq, Eq)]
pub enum ReadRow {
    Stored(StoredRead),
    Session(SessionObject, SessionRead),
    LastError(ErrorRead),
}

impl ReadRow {
    pub fn all() -> Vec<ReadRow> {
        let mut all = Vec::new();
        all.extend(StoredRead::ALL.map(ReadRow::Stored));
        for object in SessionObject::ALL {
            all.extend(SessionRead::ALL.map(|read| ReadRow::Session(object, read)));
        }
        all.extend(ErrorRead::ALL.map(ReadRow::LastError));
        all
    }
}

/// The part of an object's data that a get asks for.
#[derive(Clone, Copy)]
pub(super) struct Part {
    pub(super) offset: usize,
    pub(super) length: usize,
    pub(super) used: usize,
}

impl Part {
    fn end(self) -> usize {
        self.offset + self.length
    }

    /// How much of it there is.
    pub(super) fn present(self) -> usize {
        self.end().min(self.used).saturating_sub(self.offset)
    }
}

impl Event<'_> {
    /// The object of a get of data, and the part that it asks for.
    pub(super) fn object_and_part(&self) -> Option<(Object<'_>, Part)> {
        let (object, offset) = self.object_and_offset()?;
        let used = match &object {
            Object::Session(_) => 1,
            Object::Stored(record) => record.used(),
        };
        let length = number_at(self.command, 8);
        let part = Part {
            offset,
            length,
            used,
        };
        Some((object, part))
    }

    /// Whether a get is done and answers what there is of this part.
    pub(super) fn answers(&self, part: Part) -> bool {
        self.verdict == Verdict::Done && self.out_len == part.present()
    }

    pub(super) fn read_features(&self) -> Vec<Feature> {
        let Some((object, part)) = self.object_and_part() else {
            return Vec::new();
        };
        let mut features = self.part_features(part);
        match object {
            Object::Session(SessionObject::LastError) => {
                features.extend(self.error_features(part));
            }
            Object::Session(_) => {
                let byte = self.answers(part) && part.length == 1 && self.out_len == 1;
                features.extend(chosen(&[(byte, Feature::ReadLifeCycle)]));
            }
            Object::Stored(_) => features.extend(self.stored_features(part)),
        }
        features
    }

    fn part_features(&self, part: Part) -> Vec<Feature> {
        let answer = HEADER + part.present();
        let no_room = self.is_refused(Refusal::NoRoom);
        let out_of_bounds = self.is_refused(Refusal::OutOfBounds);
        chosen(&[
            (
                self.answers(part) && answer > HEADER && self.room == answer,
                Feature::RoomFitsExactly,
            ),
            (no_room && self.room + 1 == answer, Feature::RoomOneShort),
            (
                out_of_bounds && part.end() >= 65_536 && part.end() % 65_536 <= 1_500,
                Feature::ReadWrapsAt16Bits,
            ),
        ])
    }

    fn error_features(&self, part: Part) -> Vec<Feature> {
        let error = flush(self.command, self.before.session).error;
        let answers = self.answers(part) && error > 0;
        chosen(&[
            (
                answers && part.length == 1 && self.out_len == 1,
                Feature::ReadAnError,
            ),
            (answers && part.length == 0, Feature::ReadNothingOfAnError),
        ])
    }

    fn stored_features(&self, part: Part) -> Vec<Feature> {
        let answers = self.answers(part);
        let Part {
            offset,
            length,
            used,
        } = part;
        chosen(&[
            (
                answers && length == 0 && offset == used,
                Feature::ReadNothingAtUsed,
            ),
            (
                self.is_refused(Refusal::OutOfBounds) && length == 0 && offset == used + 1,
                Feature::ReadNothingPastUsed,
            ),
            (
                answers && length > 0 && part.end() == used,
                Feature::ReadToUsed,
            ),
        ])
    }

    /// The rows of gets of data that the event shows.
    pub(super) fn read_rows(&self) -> Vec<ReadRow> {
        if self.row != CommandRow::Known(Row::GetData) {
            return Vec::new();
        }
        let Some((object, part)) = self.object_and_part() else {
            return Vec::new();
        };
        match object {
            Object::Stored(record) => self.stored_rows(part, record.maximum()),
            Object::Session(object) => {
                let mut rows = self.session_rows(object, part);
                if object == SessionObject::LastError {
                    rows.extend(self.error_rows(part));
                }
                rows
            }
        }
    }

    fn stored_rows(&self, part: Part, maximum: usize) -> Vec<ReadRow> {
        let mut reads = self.answered_reads(part, maximum);
        reads.extend(self.refused_reads(part));
        reads.extend(self.shortened_room_reads(part));
        reads.into_iter().map(ReadRow::Stored).collect()
    }

    fn answered_reads(&self, part: Part, maximum: usize) -> Vec<StoredRead> {
        if !self.answers(part) {
            return Vec::new();
        }
        let Part {
            offset,
            length,
            used,
        } = part;
        let shortened = self.out_len > 0 && self.out_len < length;
        let at_last = offset + 1 == used;
        let nothing_at_used = length > 0 && offset == used;
        chosen(&[
            (
                shortened && self.out_len + 1 == length,
                StoredRead::ShortenedByOne,
            ),
            (
                shortened && self.out_len + 1 < length,
                StoredRead::ShortenedByMore,
            ),
            (
                shortened && length == 0xFFFF,
                StoredRead::ShortenedLengthFFFF,
            ),
            (
                shortened && part.end() <= maximum,
                StoredRead::ShortenedWithinMaximum,
            ),
            (shortened && offset > 0, StoredRead::ShortenedFromOffset),
            (at_last && length == 1, StoredRead::LastByte),
            (at_last && length > 1, StoredRead::LastByteOfLengthAboveOne),
            (nothing_at_used && used > 0, StoredRead::NothingAtUsed),
            (
                nothing_at_used && used == 0,
                StoredRead::NothingOfEmptyObject,
            ),
            (
                shortened && part.end() >= 65_536,
                StoredRead::SumPast16BitsAnswered,
            ),
        ])
    }

    fn refused_reads(&self, part: Part) -> Vec<StoredRead> {
        let out_of_bounds = self.is_refused(Refusal::OutOfBounds) && part.offset > part.used;
        let one_above = out_of_bounds && part.offset == part.used + 1;
        chosen(&[
            (one_above && part.length > 0, StoredRead::OneAboveUsed),
            (
                one_above && part.length == 0,
                StoredRead::OneAboveUsedLengthZero,
            ),
            (
                out_of_bounds && self.room < HEADER + part.length,
                StoredRead::AboveUsedInSmallRoom,
            ),
            (
                self.is_refused(Refusal::NoAccess) && part.offset > part.used,
                StoredRead::AboveUsedNoAccess,
            ),
        ])
    }

    /// Rooms of an answer that is shortened and not empty.
    fn shortened_room_reads(&self, part: Part) -> Vec<StoredRead> {
        let (answer, asked) = (HEADER + part.present(), HEADER + part.length);
        if answer == HEADER || answer == asked {
            return Vec::new();
        }
        let answers = self.answers(part);
        let no_room = self.is_refused(Refusal::NoRoom);
        chosen(&[
            (
                answers && self.room == answer,
                StoredRead::RoomFitsShortened,
            ),
            (
                answers && self.room > answer && self.room < asked,
                StoredRead::RoomBetween,
            ),
            (
                no_room && self.room + 1 == answer,
                StoredRead::RoomOneShortOfShortened,
            ),
        ])
    }

    fn session_rows(&self, object: SessionObject, part: Part) -> Vec<ReadRow> {
        let length = part.length;
        let answers = self.answers(part);
        let byte = answers && part.offset == 0 && length > 0;
        let at_one = answers && part.offset == 1;
        let no_room = self.is_refused(Refusal::NoRoom);
        let at_two = self.is_refused(Refusal::OutOfBounds) && part.offset == 2;
        let reads = chosen(&[
            (byte && length == 1, SessionRead::Byte),
            (byte && length > 1, SessionRead::ByteOfLengthAboveOne),
            (byte && length == 0xFFFF, SessionRead::ByteOfLengthFFFF),
            (
                byte && length > 1 && self.room == HEADER + 1,
                SessionRead::ByteInRoomOf5,
            ),
            (no_room && length == 1, SessionRead::NoRoom),
            (no_room && length > 1, SessionRead::NoRoomOfLengthAboveOne),
            (
                answers && part.offset == 0 && length == 0,
                SessionRead::NothingOfLengthZero,
            ),
            (at_one && length > 0, SessionRead::NothingAtOne),
            (at_one && length == 0, SessionRead::NothingAtOneLengthZero),
            (
                at_one && length > 0 && self.room == HEADER,
                SessionRead::NothingAtOneInRoomOf4,
            ),
            (at_two && length > 0, SessionRead::RefusedAtTwo),
            (at_two && length == 0, SessionRead::RefusedAtTwoLengthZero),
        ]);
        reads
            .into_iter()
            .map(|read| ReadRow::Session(object, read))
            .collect()
    }

    fn error_rows(&self, part: Part) -> Vec<ReadRow> {
        let error = flush(self.command, self.before.session).error;
        if error == 0 {
            return Vec::new();
        }
        let after = self.after.session.error;
        let cleared = self.answers(part) && self.out_len == 1 && after == 0;
        let kept = self.answers(part) && self.out_len == 0 && after == error;
        let raised =
            |refusal: Refusal| self.is_refused(refusal) && after == error.max(refusal.code());
        let reads = chosen(&[
            (cleared && part.length == 1, ErrorRead::Cleared),
            (
                cleared && part.length > 1,
                ErrorRead::ClearedByLengthAboveOne,
            ),
            (kept && part.length == 0, ErrorRead::KeptByLengthZero),
            (
                kept && part.length > 0 && part.offset == 1,
                ErrorRead::KeptAtOne,
            ),
            (
                raised(Refusal::OutOfBounds) && part.offset == 2,
                ErrorRead::KeptAtTwo,
            ),
            (raised(Refusal::NoRoom), ErrorRead::KeptByNoRoom),
        ]);
        reads.into_iter().map(ReadRow::LastError).collect()
    }
}
