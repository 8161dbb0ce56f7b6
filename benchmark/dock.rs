//! The stream of frames at the dock: bytes per second of both sides, by the frames' sizes.

use std::hint::black_box;
use std::rc::Rc;

use reference::dock::{self, Kind, Lent, Stream, HEAD, LONGEST_FRAME, SHORTEST_FRAME};
use reference::dock_fast;
use reference::generator::random::Random;

use crate::clock::Clock;
use crate::library::{self, DockStream};
use crate::lists::{self, ROOM};
use crate::sides::{Ours, Reference, Side};
use crate::stores::Beginning;
use crate::{rounds, Timed, DRAWN_ROUNDS};

/// About so many bytes make a stream of frames of one size.
const STREAM: usize = 1 << 17;

/// The sizes of frames, and of the pieces that are not whole streams.
const SIZES: [usize; 5] = [12, 20, 60, 200, LONGEST_FRAME];
const PIECE: usize = 64;

/// Kind and body size of a whole frame.
type Whole = (u16, usize);

/// One side: how it keeps a stream, and how it takes bytes of a piece.
trait Receiver {
    type Kept: Copy;

    const START: Self::Kept;

    fn stream(kept: Self::Kept) -> Stream;
    /// The bytes taken, and the frame that has become whole.
    fn feed(kept: &mut Self::Kept, lent: &mut Lent, piece: &[u8]) -> (usize, Option<Whole>);
}

impl Receiver for Ours {
    type Kept = DockStream;

    const START: DockStream = DockStream {
        collected: 0,
        stop: 0,
    };

    fn stream(kept: DockStream) -> Stream {
        let DockStream { collected, stop } = kept;
        Stream { collected, stop }
    }

    fn feed(kept: &mut DockStream, lent: &mut Lent, piece: &[u8]) -> (usize, Option<Whole>) {
        let fed = library::feed(*kept, lent, piece);
        *kept = fed.stream;
        let frame = (fed.kind != 0).then_some((fed.kind, usize::from(fed.size)));
        (fed.taken, frame)
    }
}

/// In the form that is made for speed.
impl Receiver for Reference {
    type Kept = Stream;

    const START: Stream = Stream::BETWEEN_FRAMES;

    fn stream(kept: Stream) -> Stream {
        kept
    }

    fn feed(kept: &mut Stream, lent: &mut Lent, piece: &[u8]) -> (usize, Option<Whole>) {
        let fed = dock_fast::feed(*kept, lent, piece);
        *kept = fed.stream;
        let frame = fed.frame.map(|frame| (frame.kind.number(), frame.size));
        (fed.taken, frame)
    }
}

/// Frames in a stream, each with its kind and its body.
struct Sent {
    name: String,
    bytes: Vec<u8>,
    frames: Vec<(Kind, Vec<u8>)>,
}

impl Sent {
    fn new(name: String, frames: Vec<(Kind, Vec<u8>)>) -> Sent {
        let mut bytes = Vec::new();
        for (kind, body) in &frames {
            let at = bytes.len();
            bytes.resize(at + SHORTEST_FRAME + body.len(), 0);
            dock::write_frame(*kind, body, &mut bytes[at..]).expect("the frame fits");
        }
        Sent {
            name,
            bytes,
            frames,
        }
    }

    /// Frames of one size, of both kinds.
    fn of_size(size: usize, random: &mut Random) -> Sent {
        let frame = |_| {
            let kind = random.pick(&Kind::ALL);
            (kind, random.bytes(size - SHORTEST_FRAME))
        };
        let frames = (0..STREAM / size).map(frame).collect();
        Sent::new(format!("frames of {size} bytes"), frames)
    }

    /// The commands of a day, each with its response.
    fn of_day(begin: &Beginning, random: &mut Random) -> Sent {
        let (mut store, mut session) = (begin.store.clone(), begin.session);
        let mut room = [0; ROOM];
        let mut frames = Vec::new();
        for (command, size) in lists::day(begin, random) {
            let room = &mut room[..size];
            Reference::execute(&command, &mut store, &mut session, room);
            let out_length = usize::from(u16::from_be_bytes([room[2], room[3]]));
            frames.push((Kind::Command, command));
            frames.push((Kind::Response, room[..4 + out_length].to_vec()));
        }
        let mut sent = Sent::new(String::new(), frames);
        let average = sent.bytes.len() / sent.frames.len();
        sent.name = format!("frames of a day, {average} bytes on average");
        sent
    }
}

/// What a stream leaves: its value, the lent bytes, and the sums of kinds and of body sizes.
#[derive(PartialEq)]
struct Left {
    stream: Stream,
    lent: Lent,
    kinds: u64,
    sizes: usize,
}

/// Receives a stream in pieces; gives the nanoseconds per byte, and what it leaves.
fn receive<R: Receiver>(bytes: &[u8], piece: usize) -> (f64, Left) {
    let mut kept = R::START;
    let mut lent = [0xA5; LONGEST_FRAME];
    let (mut kinds, mut sizes) = (0, 0);
    let start = Clock::start();
    for mut rest in black_box(bytes).chunks(piece) {
        while !rest.is_empty() {
            let (taken, frame) = R::feed(&mut kept, &mut lent, rest);
            if let Some((kind, size)) = frame {
                kinds += u64::from(kind);
                sizes += size;
            }
            rest = &rest[taken..];
        }
    }
    let time = start.nanoseconds() / bytes.len() as f64;
    let left = Left {
        stream: R::stream(kept),
        lent,
        kinds,
        sizes,
    };
    (time, left)
}

/// Compares the two sides after every call, and what comes out with the frames sent; gives what both leave.
fn compare(sent: &Sent, piece: usize) -> Left {
    let (mut ours, mut theirs) = (Ours::START, Reference::START);
    let mut lents = [[0xA5; LONGEST_FRAME]; 2];
    let mut expected = sent.frames.iter();
    let (mut kinds, mut sizes) = (0, 0);
    for mut rest in sent.bytes.chunks(piece) {
        while !rest.is_empty() {
            let came = Ours::feed(&mut ours, &mut lents[0], rest);
            let alike = came == Reference::feed(&mut theirs, &mut lents[1], rest)
                && Ours::stream(ours) == Reference::stream(theirs)
                && lents[0] == lents[1];
            assert!(alike, "{}: the two sides differ", sent.name);
            let (taken, frame) = came;
            if let Some((kind, size)) = frame {
                let body = &lents[0][HEAD..HEAD + size];
                let is_right = expected
                    .next()
                    .is_some_and(|sent| sent.0.number() == kind && sent.1 == body);
                assert!(is_right, "{}: another frame comes out", sent.name);
                kinds += u64::from(kind);
                sizes += size;
            }
            rest = &rest[taken..];
        }
    }
    assert!(expected.next().is_none(), "{}: a frame is lost", sent.name);
    Left {
        stream: theirs,
        lent: lents[0],
        kinds,
        sizes,
    }
}

/// A row of a stream in such pieces, after which both sides must leave the same.
fn over(sent: &Sent, piece: usize) -> Timed<'_> {
    let way = match piece {
        PIECE => "in pieces of 64",
        _ => "whole",
    };
    let left = Rc::new(compare(sent, piece));
    let [here, there] = [left.clone(), left];
    Timed {
        name: format!("{}, {way}", sent.name),
        size: piece,
        ours: Box::new(move || same(receive::<Ours>(&sent.bytes, piece), &here)),
        theirs: Box::new(move || same(receive::<Reference>(&sent.bytes, piece), &there)),
    }
}

fn same((time, after): (f64, Left), left: &Left) -> f64 {
    assert!(after == *left, "what a side leaves differs");
    time
}

/// The bytes per second of streams by the sizes of their frames, in pieces and whole; the day's commands are to this store.
pub fn streams(begin: &Beginning) {
    let random = &mut Random::new(7);
    let mut made: Vec<Sent> = SIZES.map(|size| Sent::of_size(size, random)).into();
    made.push(Sent::of_day(begin, random));
    let mut rows = Vec::new();
    for sent in &made {
        rows.extend([PIECE, sent.bytes.len()].map(|piece| over(sent, piece)));
    }
    println!("\nThe stream at the dock\n");
    println!("| stream | library, million bytes/s | reference, million bytes/s | time, library / reference |");
    println!("|---|---|---|---|");
    for (row, [ours, theirs, ratio]) in rows.iter().zip(rounds(&rows, DRAWN_ROUNDS)) {
        let [ours, theirs] = [ours, theirs].map(|time| 1_000.0 / time);
        println!("| {} | {ours:.0} | {theirs:.0} | {ratio:.2} |", row.name);
    }
}
