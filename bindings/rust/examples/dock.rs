//! A session at the dock in Rust, over the crate `element`: commands and responses in frames, received in pieces of random sizes.
//!
//!   make library
//!   cargo build --release --manifest-path bindings/rust/Cargo.toml --example dock     # bindings/rust/target/release/examples/dock
//!
//! usage: dock [SEED]      a line for each command, with its response; then a stream damaged in three ways. The seed, 0 to 4294967295, chooses how
//!                         the streams are cut, and no line depends on it. Exits 1 where an answer is not the one that the element gives without a
//!                         dock

use std::env;
use std::error::Error;
use std::io::{self, BufWriter, Write};
use std::process::ExitCode;

use element::command::{APPEND, CLOSE, DATA, GET, IDENTIFIER, METADATA, OPEN, SET};
use element::dock::{self, Fault, Frame, Kind, Stream, AROUND, LONGEST_FRAME};
use element::{tag, Element, Session, FACTORY_STORE_SIZE, LARGEST_ROOM, OPERATIONAL};

const LONGEST_PIECE: u32 = 40;
/// Bytes that are written to F1E0: many pieces.
const LARGE: usize = 300;

type Outcome = Result<(), Box<dyn Error>>;

fn main() -> ExitCode {
    let Some(seed) = seed() else {
        eprintln!("usage: dock [SEED]");
        return ExitCode::FAILURE;
    };
    let mut output = BufWriter::new(io::stdout().lock());
    let ended = run(Pieces { seed }, &mut output);
    match ended.and_then(|()| Ok(output.flush()?)) {
        Ok(()) => ExitCode::SUCCESS,
        Err(error) => {
            drop(output);
            eprintln!("dock: {error}");
            ExitCode::FAILURE
        }
    }
}

fn seed() -> Option<u32> {
    let mut words = env::args().skip(1);
    let seed = match words.next() {
        Some(word) if word.starts_with(|c: char| c.is_ascii_digit()) => word.parse().ok()?,
        Some(_) => return None,
        None => 1,
    };
    words.next().is_none().then_some(seed)
}

fn run(mut pieces: Pieces, output: &mut impl Write) -> Outcome {
    run_day(&mut pieces, output)?;
    for damage in DAMAGES {
        run_damage(damage, &mut pieces, output)?;
    }
    Ok(())
}

// Pieces.

/// How a stream is cut, by a small generator.
struct Pieces {
    seed: u32,
}

impl Pieces {
    /// The next piece of the bytes, and what stands behind it.
    fn split<'b>(&mut self, bytes: &'b [u8]) -> (&'b [u8], &'b [u8]) {
        self.seed = self
            .seed
            .wrapping_mul(1_664_525)
            .wrapping_add(1_013_904_223);
        let size = (self.seed >> 16) % (LONGEST_PIECE + 1);
        bytes.split_at(bytes.len().min(size as usize))
    }
}

/// Receives bytes in random pieces; each whole frame goes to the handler. All of them are handed over, also to a stream that has stopped.
fn receive(
    stream: &mut Stream,
    bytes: &[u8],
    pieces: &mut Pieces,
    mut handle: impl FnMut(Frame) -> Outcome,
) -> Result<Option<Fault>, Box<dyn Error>> {
    let mut rest = bytes;
    while !rest.is_empty() {
        let (piece, behind) = pieces.split(rest);
        let mut frames = stream.frames(piece);
        while let Ok(Some(frame)) = frames.next_frame() {
            handle(frame)?;
        }
        rest = behind;
    }
    Ok(stream.fault())
}

/// Puts a body behind the bytes, as a frame of its kind.
fn send(bytes: &mut Vec<u8>, kind: Kind, body: &[u8]) -> Outcome {
    let mut room = vec![0; body.len() + AROUND];
    bytes.extend(dock::write_frame(kind, body, &mut room)?);
    Ok(())
}

// The day.

/// A command: Cmd, Param, InLen in two bytes, InData.
fn command(cmd: u8, param: u8, data: &[u8]) -> Vec<u8> {
    let length = (data.len() as u16).to_be_bytes();
    [&[cmd, param], &length[..], data].concat()
}

fn day() -> Vec<Vec<u8>> {
    let write = command(SET, DATA, b"\xF1\xD0\x00\x00FARE 001");
    let read = command(GET, DATA, b"\xF1\xD0\x00\x00\xFF\xFF");
    let large: Vec<u8> = (0..LARGE).map(|i| i as u8).collect();
    let in_service = [0xF1, 0xD0, tag::METADATA, 3, tag::LCSO, 1, OPERATIONAL];
    vec![
        read.clone(), // refused: the application is closed
        command(OPEN, DATA, &IDENTIFIER),
        write.clone(),
        command(SET, DATA, b"\xF1\xD0\x00\x08FARE 002"),
        read,
        command(GET, METADATA, b"\xF1\xD0"),
        command(SET, DATA, b"\xF1\xD0\x00\x8B\xAB\xCD"), // refused: past the maximum
        command(SET, APPEND, b"\xF1\xD1FARE 003"),       // refused: F1D1 is no queue
        command(GET, DATA, b"\xF1\xC2\x00\x00\x00\x01"),
        command(SET, DATA, &[b"\xF1\xE0\x00\x00", &large[..]].concat()),
        command(GET, DATA, b"\xF1\xE0\x00\x00\xFF\xFF"),
        command(SET, METADATA, &in_service),
        write,      // refused: in service
        Vec::new(), // refused: no command at all
        command(CLOSE, DATA, &[]),
    ]
}

fn run_day(pieces: &mut Pieces, output: &mut impl Write) -> Outcome {
    let (mut store, mut session) = ([0; FACTORY_STORE_SIZE], Session::fresh());
    let mut validator = Element::factory(&mut store, &mut session)?;
    let mut commands = Vec::new();
    for command in day() {
        send(&mut commands, Kind::Command, &command)?;
    }
    let mut responses = Vec::new();
    let mut lent = [0; LONGEST_FRAME];
    let mut stream = Stream::new(&mut lent);
    let stop = receive(&mut stream, &commands, pieces, |frame| {
        answer(&mut validator, frame, &mut responses)
    })?;
    expect(stop.is_none(), "a command did not reach the validator")?;
    read_responses(&responses, pieces, validator.store(), output)
}

/// At the validator: a host that keeps its store over a reset keeps it here, before the response goes out (docs/INTEGRATION.md).
fn answer(validator: &mut Element, frame: Frame, responses: &mut Vec<u8>) -> Outcome {
    let what = "the validator received what is no command";
    expect(frame.kind == Kind::Command, what)?;
    let mut room = [0; LARGEST_ROOM];
    let answer = validator.send(frame.body, &mut room);
    send(responses, Kind::Response, answer.response)
}

/// At the dock: each response is that of the next command of the day, and the one that the element gives without a dock.
fn read_responses(
    responses: &[u8],
    pieces: &mut Pieces,
    validator_store: &[u8],
    output: &mut impl Write,
) -> Outcome {
    let (mut store, mut session) = ([0; FACTORY_STORE_SIZE], Session::fresh());
    let mut undocked = Element::factory(&mut store, &mut session)?;
    let mut due = day().into_iter();
    let mut lent = [0; LONGEST_FRAME];
    let mut stream = Stream::new(&mut lent);
    let stop = receive(&mut stream, responses, pieces, |frame| {
        tell(&mut undocked, due.next(), frame, output)
    })?;
    let all = stop.is_none() && due.next().is_none();
    expect(all, "a response did not reach the dock")?;
    let what = "the validator's store is not the one that the same commands leave without a dock";
    expect(undocked.store() == validator_store, what)
}

fn tell(
    undocked: &mut Element,
    command: Option<Vec<u8>>,
    frame: Frame,
    output: &mut impl Write,
) -> Outcome {
    let what = "the dock received what is no response, or one too many";
    let command = command.ok_or(what)?;
    expect(frame.kind == Kind::Response, what)?;
    writeln!(output, "{} {}", hex(&command), hex(frame.body))?;
    let mut room = [0; LARGEST_ROOM];
    let same = undocked.send(&command, &mut room).response == frame.body;
    let what = "the response is not the one that the element gives without a dock";
    expect(same, what)
}

fn expect(holds: bool, otherwise: &str) -> Outcome {
    if holds {
        Ok(())
    } else {
        Err(otherwise.into())
    }
}

fn hex(bytes: &[u8]) -> String {
    bytes.iter().map(|byte| format!("{byte:02X}")).collect()
}

// Damage.

/// What is damaged, the byte of the second frame that is changed, its new value, and the fault.
type Damage = (&'static str, usize, u8, Fault);

const DAMAGES: [Damage; 3] = [
    ("a length of 5", 0, 5, Fault::BadLength),
    ("kind 0003", 2, 3, Fault::UnknownKind),
    ("a bit of the body", 4, 0x70, Fault::BadCheck),
];

/// Three frames, the second damaged: the first comes out, then the stream has stopped, until a reset.
fn run_damage(damage: Damage, pieces: &mut Pieces, output: &mut impl Write) -> Outcome {
    let (name, at, byte, fault) = damage;
    let mut close = Vec::new();
    send(&mut close, Kind::Command, &command(CLOSE, DATA, &[]))?;
    let mut damaged = close.repeat(3);
    damaged[close.len() + at] = byte;
    let mut lent = [0; LONGEST_FRAME];
    let mut stream = Stream::new(&mut lent);
    let came = print_frames(&mut stream, &damaged, pieces, output)?;
    let number = came.1.map_or(0, Fault::number);
    writeln!(output, "{name}: stopped with {number}")?;
    let what = "the damage is not what stopped the stream, behind the first frame";
    expect(came == (1, Some(fault)), what)?;
    let came = print_frames(&mut stream, &close, pieces, output)?;
    let what = "a stream that has stopped goes on without a reset";
    expect(came == (0, Some(fault)), what)?;
    stream.reset();
    let came = print_frames(&mut stream, &close, pieces, output)?;
    expect(
        came == (1, None),
        "the frame after the reset is not received",
    )
}

/// Prints the frames of the bytes; how many there are, and why the stream has stopped.
fn print_frames(
    stream: &mut Stream,
    bytes: &[u8],
    pieces: &mut Pieces,
    output: &mut impl Write,
) -> Result<(usize, Option<Fault>), Box<dyn Error>> {
    let mut frames = 0;
    let stop = receive(stream, bytes, pieces, |frame| {
        frames += 1;
        let kind = frame.kind.number();
        Ok(writeln!(output, "received {kind}: {}", hex(frame.body))?)
    })?;
    Ok((frames, stop))
}
