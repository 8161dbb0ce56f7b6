//! What the generated dock streams cover.
//!
//! Each stream is taken apart here once more, whole and apart from `dock`, with the
//! remainder worked out from the highest bit.

use std::fmt::{self, Display, Write};

use super::{put_tally, Tally};
use crate::dock::{Fault, Fed, Kind, Stream, LONGEST_BODY, LONGEST_FRAME};
use crate::dock_replay::{write_number, Item, State, LARGEST_PIECE};
use crate::generator::frames::{Damage, BAD_KINDS, BAD_LENGTHS, EDGE_SIZES};
use crate::generator::held::HeldSort;
use crate::generator::streams::{streams, Case};

/// The size of a piece.
#[derive(Clone, Copy, Debug, PartialEq, Eq)]
pub enum PieceSize {
    Empty,
    One,
    Few,
    Many,
    AboveLongestFrame,
}

impl PieceSize {
    const ALL: [PieceSize; 5] = [
        PieceSize::Empty,
        PieceSize::One,
        PieceSize::Few,
        PieceSize::Many,
        PieceSize::AboveLongestFrame,
    ];

    fn of(size: usize) -> PieceSize {
        match size {
            0 => PieceSize::Empty,
            1 => PieceSize::One,
            2..=9 => PieceSize::Few,
            10..=LONGEST_FRAME => PieceSize::Many,
            _ => PieceSize::AboveLongestFrame,
        }
    }
}

/// Where in its piece a stream is stopped.
#[derive(Clone, Copy, Debug, PartialEq, Eq)]
pub enum StopPlace {
    /// The byte that stops it is the whole piece.
    Alone,
    First,
    /// Neither the first nor the last.
    Within,
    Last,
    /// After whole frames of the same piece.
    AfterFrames,
}

impl StopPlace {
    const ALL: [StopPlace; 5] = [
        StopPlace::Alone,
        StopPlace::First,
        StopPlace::Within,
        StopPlace::Last,
        StopPlace::AfterFrames,
    ];
}

/// Where a piece leaves a frame that is not yet whole.
#[derive(Clone, Copy, Debug, PartialEq, Eq)]
pub enum CutPlace {
    After(usize),
    InBody,
    BeforeCheck,
    InCheck,
    /// One byte before the end of the longest frame.
    InCheckOfLongest,
}

/// What a write meets.
#[derive(Clone, Copy, Debug, PartialEq, Eq)]
pub enum WriteMet {
    Exact,
    OneMore,
    Much,
    OneShort,
    Short,
    NoRoom,
    BodyTooLong(usize),
    BodyMuchTooLong,
    /// 1 although 2 would be due as well.
    BodyTooLongThoughNoRoom,
    Size(usize),
}

impl WriteMet {
    fn all() -> Vec<WriteMet> {
        let mut all = vec![
            WriteMet::Exact,
            WriteMet::OneMore,
            WriteMet::Much,
            WriteMet::OneShort,
            WriteMet::Short,
            WriteMet::NoRoom,
            WriteMet::BodyMuchTooLong,
            WriteMet::BodyTooLongThoughNoRoom,
        ];
        all.extend([1_558, 1_559, 1_560].map(WriteMet::BodyTooLong));
        all.extend(EDGE_SIZES.map(WriteMet::Size));
        all
    }

    fn of(body: usize, room: usize) -> Vec<WriteMet> {
        let enough = body + 6;
        let mut met = Vec::new();
        if body > LONGEST_BODY {
            met.push(match body {
                1_558..=1_560 => WriteMet::BodyTooLong(body),
                _ => WriteMet::BodyMuchTooLong,
            });
            if room < enough {
                met.push(WriteMet::BodyTooLongThoughNoRoom);
            }
            return met;
        }
        met.push(match room {
            _ if room == enough => WriteMet::Exact,
            _ if room == enough + 1 => WriteMet::OneMore,
            _ if room > enough => WriteMet::Much,
            _ if room == enough - 1 => WriteMet::OneShort,
            0 => WriteMet::NoRoom,
            _ => WriteMet::Short,
        });
        if room >= enough && EDGE_SIZES.contains(&body) {
            met.push(WriteMet::Size(body));
        }
        met
    }
}

/// What a stream stands at before a reset.
#[derive(Clone, Copy, Debug, PartialEq, Eq)]
pub enum Standing {
    Between,
    InFrame,
    Stopped(u16),
}

impl Standing {
    const ALL: [Standing; 5] = [
        Standing::Between,
        Standing::InFrame,
        Standing::Stopped(1),
        Standing::Stopped(2),
        Standing::Stopped(3),
    ];

    fn of(stream: Stream) -> Option<Standing> {
        match stream {
            Stream { stop: 0, collected } => match collected {
                0 => Some(Standing::Between),
                _ => Some(Standing::InFrame),
            },
            Stream { stop, .. } => (stop <= 3).then_some(Standing::Stopped(stop)),
        }
    }
}

/// What may occur.
#[derive(Clone, Copy, Debug, PartialEq, Eq)]
pub enum DockRow {
    Piece(PieceSize),
    /// As long as an item has it.
    LongestPiece,
    /// A whole frame with a body of this size.
    Frame(Kind, usize),
    FrameOther(Kind),
    /// A frame that came in one piece, in two, in more.
    FrameInPieces(usize),
    /// So many frames, or more, in one piece.
    FramesInPiece(usize),
    FrameEndsPiece,
    Cut(CutPlace),
    Stop(Fault, StopPlace),
    StopByLength(u16),
    StopByOtherLength,
    StopByKind(u16),
    StopByOtherKind,
    /// 1 although the kind is unknown as well.
    LengthThoughKind,
    /// 2 although the check is wrong as well.
    KindThoughCheck,
    AfterStop(u16, PieceSize),
    Reset(Standing),
    /// A stop that comes of a held value with the next byte.
    HeldStop(Fault),
    HeldFrame,
    HeldEmptyPiece,
    Write(Kind, WriteMet),
}

impl DockRow {
    pub fn all() -> Vec<DockRow> {
        let mut all = PieceSize::ALL.map(DockRow::Piece).to_vec();
        for kind in Kind::ALL {
            all.extend(EDGE_SIZES.map(|size| DockRow::Frame(kind, size)));
            all.push(DockRow::FrameOther(kind));
            let writes = WriteMet::all().into_iter();
            all.extend(writes.map(|met| DockRow::Write(kind, met)));
        }
        all.extend([1, 2, 3].map(DockRow::FrameInPieces));
        all.extend([1, 2, 3].map(DockRow::FramesInPiece));
        all.extend([1, 2, 3, 4, 5].map(|count| DockRow::Cut(CutPlace::After(count))));
        for fault in Fault::ALL {
            all.extend(StopPlace::ALL.map(|place| DockRow::Stop(fault, place)));
            all.extend(PieceSize::ALL.map(|size| DockRow::AfterStop(fault.number(), size)));
            all.push(DockRow::HeldStop(fault));
        }
        all.extend(BAD_LENGTHS.map(DockRow::StopByLength));
        all.extend(BAD_KINDS.map(DockRow::StopByKind));
        all.extend(Standing::ALL.map(DockRow::Reset));
        all.extend([
            DockRow::LongestPiece,
            DockRow::FrameEndsPiece,
            DockRow::Cut(CutPlace::InBody),
            DockRow::Cut(CutPlace::BeforeCheck),
            DockRow::Cut(CutPlace::InCheck),
            DockRow::Cut(CutPlace::InCheckOfLongest),
            DockRow::StopByOtherLength,
            DockRow::StopByOtherKind,
            DockRow::LengthThoughKind,
            DockRow::KindThoughCheck,
            DockRow::HeldFrame,
            DockRow::HeldEmptyPiece,
        ]);
        all
    }
}

/// A stream taken apart: kinds and bodies, then how it ends.
#[derive(Clone, Debug, PartialEq, Eq)]
struct Apart {
    frames: Vec<(u16, Vec<u8>)>,
    end: End,
}

#[derive(Clone, Debug, PartialEq, Eq)]
enum End {
    /// In a frame of which these bytes have come, or between frames.
    Within(Vec<u8>),
    Stopped(u16),
}

/// Takes all bytes of a stream apart, frame by frame.
fn take_apart(bytes: &[u8]) -> Apart {
    let mut frames = Vec::new();
    let mut rest = bytes;
    let end = loop {
        let [l0, l1, behind @ ..] = rest else {
            break End::Within(rest.to_vec());
        };
        let length = usize::from(*l0) + 256 * usize::from(*l1);
        if !(6..=1_563).contains(&length) {
            break End::Stopped(1);
        }
        let [k0, k1, ..] = behind else {
            break End::Within(rest.to_vec());
        };
        let kind = u16::from(*k0) + 256 * u16::from(*k1);
        if kind != 1 && kind != 2 {
            break End::Stopped(2);
        }
        let Some((frame, after)) = rest.split_at_checked(length) else {
            break End::Within(rest.to_vec());
        };
        let check = remainder_from_highest(&frame[..length - 2]);
        if frame[length - 2..] != [check as u8, (check >> 8) as u8] {
            break End::Stopped(3);
        }
        frames.push((kind, frame[4..length - 2].to_vec()));
        rest = after;
    };
    Apart { frames, end }
}

/// The remainder with all bits in the other order: by 1021, each byte's lowest bit first.
fn remainder_from_highest(bytes: &[u8]) -> u16 {
    let mut remainder = 0u16;
    for byte in bytes {
        for bit in 0..8 {
            let divides = (remainder >> 15) ^ u16::from(byte >> bit & 1) == 1;
            remainder = remainder << 1 ^ if divides { 0x1021 } else { 0 };
        }
    }
    remainder.reverse_bits()
}

/// A stream from its beginning on, as it is fed.
struct Run {
    start: State,
    damage: Option<Damage>,
    held: Option<HeldSort>,
    bytes: Vec<u8>,
    frames: Vec<(u16, Vec<u8>)>,
    /// Pieces since the last whole frame that had bytes of the present one.
    pieces: usize,
}

impl Run {
    fn new(start: State) -> Run {
        Run {
            start,
            damage: None,
            held: None,
            bytes: Vec::new(),
            frames: Vec::new(),
            pieces: 0,
        }
    }

    /// What must have come of the bytes fed.
    fn expected(&self) -> Apart {
        let Stream { collected, stop } = self.start.stream;
        let collected = usize::from(collected);
        let ended = |end| Apart {
            frames: Vec::new(),
            end,
        };
        match stop {
            1..=3 => return ended(End::Stopped(stop)),
            4.. => return ended(End::Stopped(1)),
            0 => {}
        }
        let before = self.start.lent.get(..collected);
        match before {
            None if self.bytes.is_empty() => ended(End::Within(Vec::new())),
            None => ended(End::Stopped(1)),
            Some(before) if self.bytes.is_empty() => ended(End::Within(before.to_vec())),
            Some([l0, l1, ..]) if usize::from(*l0) + 256 * usize::from(*l1) <= collected => {
                ended(End::Stopped(1))
            }
            Some(before) => take_apart(&[before, &self.bytes].concat()),
        }
    }

    /// What in the run is not as it must be.
    fn disagreement(&self, now: &State) -> Option<&'static str> {
        let expected = self.expected();
        if expected.frames != self.frames {
            return Some("other frames came");
        }
        let fits = match &expected.end {
            End::Stopped(stop) => now.stream == stopped_with(*stop),
            End::Within(_) if self.bytes.is_empty() => now == &self.start,
            End::Within(bytes) => {
                now.stream.stop == 0
                    && usize::from(now.stream.collected) == bytes.len()
                    && now.lent[..bytes.len()] == bytes[..]
            }
        };
        if !fits {
            return Some("the stream is left otherwise");
        }
        let due = self.damage.and_then(Damage::fault);
        let is_due = due.is_none_or(|fault| expected.end == End::Stopped(fault.number()));
        (!is_due).then_some("the damage did not stop the stream")
    }
}

fn stopped_with(stop: u16) -> Stream {
    Stream { collected: 0, stop }
}

pub struct DockCoverage {
    pieces: usize,
    rows: Tally<DockRow>,
    damages: Tally<Damage>,
    held: Tally<HeldSort>,
    errors: Vec<String>,
}

/// Runs the reference over the streams of a seed.
pub fn cover_docks(seed: u64, count: usize) -> DockCoverage {
    let mut coverage = DockCoverage {
        pieces: 0,
        rows: Tally::new(DockRow::all()),
        damages: Tally::new(Damage::all()),
        held: Tally::new(HeldSort::all()),
        errors: Vec::new(),
    };
    let mut state = State::new(0);
    let mut run = Run::new(state.clone());
    let mut take = |case: Case| -> Result<(), fmt::Error> {
        coverage.take(case, &mut state, &mut run);
        Ok(())
    };
    streams(seed, count, &mut take).expect("taking a case gives no error");
    coverage.close(&run, &state);
    coverage
}

impl DockCoverage {
    fn take(&mut self, case: Case, state: &mut State, run: &mut Run) {
        match case.item {
            Item::New { fill } => {
                if let Some(standing) = Standing::of(state.stream) {
                    self.rows.add(DockRow::Reset(standing));
                }
                self.begin(State::new(fill), state, run);
                run.damage = case.damage;
            }
            Item::Held { stream, lent } => {
                self.begin(State { stream, lent }, state, run);
                run.held = case.held;
            }
            Item::Piece(piece) => self.take_piece(&piece, state, run),
            Item::Write { kind, room, body } => self.take_write(kind, room, &body),
        }
    }

    fn begin(&mut self, start: State, state: &mut State, run: &mut Run) {
        self.close(run, state);
        *state = start.clone();
        *run = Run::new(start);
    }

    /// Judges the run as a whole.
    fn close(&mut self, run: &Run, state: &State) {
        if let Some(damage) = run.damage {
            self.damages.add(damage);
        }
        if let Some(held) = run.held {
            self.held.add(held);
        }
        if let Some(wrong) = run.disagreement(state) {
            let place = self.pieces;
            self.errors.push(format!("before piece {place}: {wrong}"));
        }
    }

    fn take_piece(&mut self, piece: &[u8], state: &mut State, run: &mut Run) {
        self.pieces += 1;
        self.see_piece(piece, state, run);
        let mut rest = piece;
        let mut frames = 0;
        loop {
            let stream = state.stream.settled();
            let fed = state.feed(rest);
            run.pieces += usize::from(!rest.is_empty());
            match fed.frame {
                Some(_) => {
                    frames += 1;
                    self.see_frame(fed, rest, state, run);
                }
                None if fed.stream.stop != stream.stop => {
                    self.see_stop(stream, rest, frames, state, run);
                }
                None => self.see_cut(fed.stream, state),
            }
            run.bytes.extend_from_slice(&rest[..fed.taken]);
            rest = &rest[fed.taken..];
            if rest.is_empty() {
                break;
            }
        }
        if frames > 0 {
            self.rows.add(DockRow::FramesInPiece(frames.min(3)));
        }
    }

    /// A piece before it is fed.
    fn see_piece(&mut self, piece: &[u8], state: &State, run: &Run) {
        let size = PieceSize::of(piece.len());
        self.rows.add(DockRow::Piece(size));
        if piece.len() == LARGEST_PIECE {
            self.rows.add(DockRow::LongestPiece);
        }
        let before = state.stream.settled();
        if before.stop != 0 {
            self.rows.add(DockRow::AfterStop(before.stop, size));
        }
        if piece.is_empty() && run.held.is_some() && run.bytes.is_empty() {
            self.rows.add(DockRow::HeldEmptyPiece);
        }
    }

    fn see_frame(&mut self, fed: Fed, rest: &[u8], state: &State, run: &mut Run) {
        let Some(frame) = fed.frame else { return };
        self.rows.add(match EDGE_SIZES.contains(&frame.size) {
            true => DockRow::Frame(frame.kind, frame.size),
            false => DockRow::FrameOther(frame.kind),
        });
        self.rows.add(DockRow::FrameInPieces(run.pieces.min(3)));
        if fed.taken == rest.len() {
            self.rows.add(DockRow::FrameEndsPiece);
        }
        if run.held.is_some() && run.frames.is_empty() {
            self.rows.add(DockRow::HeldFrame);
        }
        let body = frame.body(&state.lent).to_vec();
        run.frames.push((frame.kind.number(), body));
        run.pieces = 0;
    }

    /// A stop of a stream that stood at this value before the bytes.
    fn see_stop(&mut self, before: Stream, rest: &[u8], frames: usize, state: &State, run: &Run) {
        let Some(fault) = Fault::ALL
            .into_iter()
            .find(|fault| fault.number() == state.stream.stop)
        else {
            return self.errors.push("a stop without a fault".to_string());
        };
        let collected = usize::from(before.collected);
        if run.held.is_some() && run.bytes.is_empty() && collected > 0 {
            self.rows.add(DockRow::HeldStop(fault));
        }
        let Some(before) = state.lent.get(..collected) else {
            return;
        };
        let frame = [before, rest].concat();
        let seen = bytes_until(fault, &frame, collected);
        let place = match (seen.saturating_sub(collected), rest.len()) {
            _ if frames > 0 => StopPlace::AfterFrames,
            (1, 1) => StopPlace::Alone,
            (1, _) => StopPlace::First,
            (taken, all) if taken == all => StopPlace::Last,
            _ => StopPlace::Within,
        };
        self.rows.add(DockRow::Stop(fault, place));
        self.see_values(fault, &frame);
    }

    /// The length or kind that stopped a stream, and what else was wrong.
    fn see_values(&mut self, fault: Fault, frame: &[u8]) {
        let number = |place: usize| {
            let bytes = frame.get(place..)?.first_chunk()?;
            Some(u16::from_le_bytes(*bytes))
        };
        let (length, kind) = (number(0).unwrap_or(0), number(2));
        match (fault, kind) {
            (Fault::Length, _) => {
                self.rows.add(match BAD_LENGTHS.contains(&length) {
                    true => DockRow::StopByLength(length),
                    false => DockRow::StopByOtherLength,
                });
                if kind.is_some_and(|kind| kind != 1 && kind != 2) {
                    self.rows.add(DockRow::LengthThoughKind);
                }
            }
            (Fault::Kind, Some(kind)) => {
                self.rows.add(match BAD_KINDS.contains(&kind) {
                    true => DockRow::StopByKind(kind),
                    false => DockRow::StopByOtherKind,
                });
                let checked = usize::from(length) - 2;
                let right = frame.get(..checked).map(remainder_from_highest);
                if number(checked).is_some() && number(checked) != right {
                    self.rows.add(DockRow::KindThoughCheck);
                }
            }
            _ => {}
        }
    }

    /// A piece that ends in a frame.
    fn see_cut(&mut self, stream: Stream, state: &State) {
        let collected = usize::from(stream.collected);
        if stream.stop != 0 || collected == 0 || collected >= LONGEST_FRAME {
            return;
        }
        if collected <= 5 {
            self.rows.add(DockRow::Cut(CutPlace::After(collected)));
        }
        if collected < 4 {
            return;
        }
        let length = usize::from(u16::from_le_bytes([state.lent[0], state.lent[1]]));
        self.rows
            .add(DockRow::Cut(match length.wrapping_sub(collected) {
                1 if length == LONGEST_FRAME => CutPlace::InCheckOfLongest,
                1 => CutPlace::InCheck,
                2 => CutPlace::BeforeCheck,
                _ => CutPlace::InBody,
            }));
    }

    fn take_write(&mut self, kind: Kind, mut room: Vec<u8>, body: &[u8]) {
        for met in WriteMet::of(body.len(), room.len()) {
            self.rows.add(DockRow::Write(kind, met));
        }
        let before = room.clone();
        let number = write_number(kind, body, &mut room);
        let enough = body.len() + 6;
        let fits = match number {
            1 => body.len() > 1_557 && room == before,
            2 => body.len() <= 1_557 && before.len() < enough && room == before,
            _ => {
                let frames = vec![(kind.number(), body.to_vec())];
                let end = End::Within(Vec::new());
                take_apart(&room[..enough]) == Apart { frames, end }
                    && room[enough..] == before[enough..]
            }
        };
        if !fits {
            let place = self.pieces;
            self.errors.push(format!("a write before piece {place}"));
        }
    }

    /// What is reachable and never occurred.
    pub fn missing(&self) -> Vec<String> {
        let rows = self.rows.missing_of("dock");
        let damages = self.damages.missing_of("damaged frame");
        let held = self.held.missing_of("held value");
        rows.chain(damages).chain(held).collect()
    }

    pub fn errors(&self) -> &[String] {
        &self.errors
    }

    fn put(&self, text: &mut String) -> fmt::Result {
        writeln!(text, "{} pieces", self.pieces)?;
        put_tally(text, "pieces, frames, stops and writes", &self.rows)?;
        put_tally(text, "streams by damage made", &self.damages)?;
        put_tally(text, "held values", &self.held)
    }
}

impl Display for DockCoverage {
    fn fmt(&self, formatter: &mut fmt::Formatter<'_>) -> fmt::Result {
        let mut text = String::new();
        self.put(&mut text)?;
        formatter.write_str(&text)
    }
}

/// Bytes of a frame with which a fault is seen, some of them collected before.
fn bytes_until(fault: Fault, frame: &[u8], collected: usize) -> usize {
    let due = match fault {
        Fault::Length => 2,
        Fault::Kind => 4,
        Fault::Check => usize::from(frame[0]) + 256 * usize::from(frame[1]),
    };
    due.max(collected + 1)
}
