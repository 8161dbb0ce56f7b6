//! Generated dock streams: every way to cut them, the writer and the fast form.

use std::convert::Infallible;

use reference::coverage::docks::cover_docks;
use reference::dock::{self, Kind, Stream, LONGEST_BODY, LONGEST_FRAME};
use reference::dock_fast;
use reference::dock_replay::{Item, State};
use reference::generator::frames::{Damage, Sizes, EDGE_SIZES};
use reference::generator::held::HeldSort;
use reference::generator::random::Random;
use reference::generator::streams::{damaged_stream, sound_stream, streams, Bytes, Case, Cut};

/// Kinds and bodies of the frames that came, and what was left.
#[derive(Clone, Debug, PartialEq, Eq)]
struct Outcome {
    frames: Vec<(Kind, Vec<u8>)>,
    stream: Stream,
    /// All lent bytes.
    lent: Vec<u8>,
}

/// Feeds pieces to a state.
fn feed_pieces(mut state: State, pieces: &[&[u8]]) -> Outcome {
    let mut frames = Vec::new();
    for piece in pieces {
        let mut see = |fed: dock::Fed, lent: &dock::Lent| -> Result<(), Infallible> {
            let frame = fed.frame;
            frames.extend(frame.map(|frame| (frame.kind, frame.body(lent).to_vec())));
            Ok(())
        };
        state.feed_all(piece, &mut see).unwrap();
    }
    Outcome {
        frames,
        stream: state.stream,
        lent: state.lent.to_vec(),
    }
}

fn check_two_pieces(state: &State, bytes: &[u8], places: impl Iterator<Item = usize>) {
    let whole = feed_pieces(state.clone(), &[bytes]);
    for place in places {
        let (first, rest) = bytes.split_at(place);
        let cut = feed_pieces(state.clone(), &[first, rest]);
        assert_eq!(cut, whole, "{place}");
    }
    let singles: Vec<&[u8]> = bytes.chunks(1).collect();
    assert_eq!(feed_pieces(state.clone(), &singles), whole);
}

#[test]
fn short_streams_cut_at_every_place() {
    let mut random = Random::new(8);
    for damage in Damage::all() {
        for _ in 0..10 {
            let stream = damaged_stream(damage, Sizes::Short, &mut random);
            let places = 0..=stream.bytes.len();
            check_two_pieces(&State::new(0x5A), &stream.bytes, places);
        }
    }
    for _ in 0..200 {
        let stream = sound_stream(Sizes::Short, &mut random);
        let places = 0..=stream.bytes.len();
        check_two_pieces(&State::new(0x5A), &stream.bytes, places);
    }
}

#[test]
fn short_streams_cut_twice() {
    let mut random = Random::new(9);
    for _ in 0..30 {
        let bytes = sound_stream(Sizes::Short, &mut random).bytes;
        let whole = feed_pieces(State::new(0), &[&bytes]);
        for second in 0..=bytes.len() {
            for first in 0..=second {
                let pieces = [&bytes[..first], &bytes[first..second], &bytes[second..]];
                assert_eq!(feed_pieces(State::new(0), &pieces), whole);
            }
        }
    }
}

#[test]
fn streams_cut_in_every_way() {
    let mut random = Random::new(10);
    let mut check = |stream: Bytes| {
        let whole = feed_pieces(State::new(0xC3), &[&stream.bytes]);
        for cut in Cut::ALL {
            let pieces = cut.pieces(&stream, &mut random);
            assert_eq!(pieces.concat(), stream.bytes);
            let pieces: Vec<&[u8]> = pieces.iter().map(Vec::as_slice).collect();
            assert_eq!(feed_pieces(State::new(0xC3), &pieces), whole, "{cut:?}");
        }
    };
    let mut random = Random::new(11);
    for damage in Damage::all() {
        for _ in 0..6 {
            check(damaged_stream(damage, Sizes::Any, &mut random));
        }
    }
    for _ in 0..100 {
        check(sound_stream(Sizes::Any, &mut random));
    }
}

#[test]
fn held_values_cut_in_every_way() {
    let mut random = Random::new(12);
    for sort in HeldSort::all() {
        for _ in 0..5 {
            let held = sort.make(&mut random);
            let state = State {
                stream: held.stream,
                lent: held.lent,
            };
            let end = held.fed.len();
            // In the head and at the end.
            let places = (0..=end).filter(|place| *place < 9 || end - place < 9);
            check_two_pieces(&state, &held.fed, places);
        }
    }
}

#[test]
fn what_is_written_is_read() {
    let mut random = Random::new(13);
    let mut sizes: Vec<usize> = (0..=300).collect();
    sizes.extend(EDGE_SIZES);
    for size in sizes {
        for kind in Kind::ALL {
            let body = random.bytes(size);
            let mut room = random.bytes(LONGEST_FRAME + 3);
            let before = room.clone();
            assert_eq!(dock::write_frame(kind, &body, &mut room), Ok(()));
            let (frame, rest) = room.split_at(size + 6);
            assert_eq!(rest, &before[size + 6..]);
            let mut fast = before.clone();
            assert_eq!(dock_fast::write_frame(kind, &body, &mut fast), Ok(()));
            assert_eq!(fast, room);
            let expected = vec![(kind, body)];
            let place = random.between(0, frame.len());
            let outcome = feed_pieces(State::new(0), &[&frame[..place], &frame[place..]]);
            assert_eq!(outcome.frames, expected);
            assert_eq!(outcome.stream, Stream::BETWEEN_FRAMES);
        }
    }
    assert_eq!(LONGEST_BODY, 1_557);
}

/// Each call of `feed` and each write of generated items, by the other form as well.
fn compare_with_fast(item: Item, state: &mut State) {
    match item {
        Item::New { fill } => *state = State::new(fill),
        Item::Held { stream, lent } => *state = State { stream, lent },
        Item::Piece(piece) => {
            let mut rest = &piece[..];
            loop {
                let before = state.clone();
                let fed = state.feed(rest);
                let mut lent = before.lent;
                assert_eq!(dock_fast::feed(before.stream, &mut lent, rest), fed);
                assert_eq!(lent, state.lent);
                rest = &rest[fed.taken..];
                if rest.is_empty() {
                    break;
                }
            }
        }
        Item::Write { kind, room, body } => {
            let (mut slow, mut fast) = (room.clone(), room);
            let expected = dock::write_frame(kind, &body, &mut slow);
            assert_eq!(dock_fast::write_frame(kind, &body, &mut fast), expected);
            assert_eq!(fast, slow);
        }
    }
}

#[test]
fn the_fast_form_gives_the_same() {
    for seed in 1..=5 {
        let mut state = State::new(0);
        let mut take = |case: Case| -> Result<(), Infallible> {
            compare_with_fast(case.item, &mut state);
            Ok(())
        };
        streams(seed, 10_000, &mut take).unwrap();
    }
}

fn items(seed: u64, count: usize) -> Vec<u8> {
    let mut bytes = Vec::new();
    let mut take = |case: Case| case.item.write(&mut bytes);
    streams(seed, count, &mut take).unwrap();
    bytes
}

#[test]
fn fewer_items_are_the_beginning_of_more() {
    for seed in [1, 2, 77] {
        let many = items(seed, 2_000);
        assert_eq!(many, items(seed, 2_000));
        for count in [0, 1, 10, 500, 1_999] {
            let few = items(seed, count);
            assert!(many.starts_with(&few));
        }
        assert_ne!(items(seed + 1, 100), items(seed, 100));
    }
}

#[test]
fn all_that_is_reachable_occurs() {
    for seed in 1..=3 {
        let coverage = cover_docks(seed, 20_000);
        assert_eq!(coverage.missing(), Vec::<String>::new());
        assert_eq!(coverage.errors(), &[] as &[String]);
    }
}
