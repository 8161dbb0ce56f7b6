//! Prints how many bytes per second the dock streams take, the plain and the fast one,
//! for frames of 20, 200 and 1,563 bytes or of the sizes given.

use std::env;
use std::hint::black_box;
use std::time::Instant;

use reference::dock::{self, Fed, Kind, Lent, Stream, LONGEST_FRAME};
use reference::dock_fast;
use reference::generator::random::Random;

/// About so many bytes make a stream.
const STREAM: usize = 1 << 20;
const ROUNDS: usize = 20;
/// The best of so many measurements counts.
const REPEATS: usize = 5;

type Feed = fn(Stream, &mut Lent, &[u8]) -> Fed;

fn main() {
    let mut sizes: Vec<usize> = env::args().skip(1).flat_map(|size| size.parse()).collect();
    if sizes.is_empty() {
        sizes = vec![20, 200, LONGEST_FRAME];
    }
    for (name, feed, rounds) in [
        ("dock", dock::feed as Feed, 1),
        ("dock_fast", dock_fast::feed, ROUNDS),
    ] {
        for &size in &sizes {
            let stream = frames_of(size);
            for piece in [64, stream.len()] {
                let speed = (0..REPEATS).map(|_| measure(feed, &stream, piece, rounds));
                let best = speed.fold(0.0, f64::max);
                let way = match piece {
                    64 => "in pieces of 64",
                    _ => "whole",
                };
                println!("{name:>9}, frames of {size:>4}, {way:<16} {best:>14.0} bytes/s");
            }
        }
    }
}

/// A stream of right frames of this size.
fn frames_of(size: usize) -> Vec<u8> {
    let mut random = Random::new(1);
    let mut stream = vec![0; STREAM / size * size];
    for room in stream.chunks_exact_mut(size) {
        let body = random.bytes(size - 6);
        let kind = random.pick(&Kind::ALL);
        dock::write_frame(kind, &body, room).expect("the frame fits");
    }
    stream
}

/// Bytes per second.
fn measure(feed: Feed, stream: &[u8], piece: usize, rounds: usize) -> f64 {
    let mut lent = [0; LONGEST_FRAME];
    let start = Instant::now();
    for _ in 0..rounds {
        let mut frames = 0;
        let mut value = Stream::BETWEEN_FRAMES;
        for piece in black_box(stream).chunks(piece) {
            let mut rest = piece;
            while !rest.is_empty() {
                let fed = feed(value, &mut lent, rest);
                frames += usize::from(fed.frame.is_some());
                value = fed.stream;
                rest = &rest[fed.taken..];
            }
        }
        assert_eq!(value, Stream::BETWEEN_FRAMES);
        assert!(black_box(frames) > 0);
    }
    (rounds * stream.len()) as f64 / start.elapsed().as_secs_f64()
}
