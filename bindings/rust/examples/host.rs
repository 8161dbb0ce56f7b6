//! A host of the secure element in Rust, over the crate `element`.
//!
//!   make library
//!   cargo build --release --manifest-path bindings/rust/Cargo.toml --example host     # bindings/rust/target/release/examples/host
//!
//! usage: host          a list of commands on standard input, a line for each, as the program `bench` prints them
//!        host demo     a fare's story by typed calls; exits 1 at the first answer that is not the expected one
//!        host queue    the day of a fare queue: append until it is full, upload, acknowledge, go on; exits 1 where a fare is lost, doubled or out of order

use std::env;
use std::io::{self, BufWriter, Read, Write};
use std::process::ExitCode;

use element::{
    expression, kind, tag, Answer, Element, Error, FareNumber, Length, ObjectNumber, Offset,
    Refusal, Session, CREATION, FACTORY_STORE_SIZE, HEADER, LARGEST_COMMAND, LARGEST_ROOM, LEAD,
    OPERATIONAL, QUEUE_HEAD,
};

const LONGEST_LIST: usize = 16_384;

/// The first fare object: 140 bytes, written only below operational.
const FARES: ObjectNumber = ObjectNumber(0xF1D0);

/// What a write of one fare needs.
const SCRATCH: usize = LEAD + 8;

fn main() -> ExitCode {
    let mut output = BufWriter::new(io::stdout().lock());
    let arguments: Vec<String> = env::args().skip(1).collect();
    let ended = match arguments.iter().map(String::as_str).collect::<Vec<_>>()[..] {
        [] => run_input(&mut output),
        ["demo"] => run_demo(&mut output),
        ["queue"] => run_queue(&mut output),
        _ => Err(io::Error::other("usage: host [demo | queue]")),
    };
    match ended.and_then(|()| output.flush()) {
        Ok(()) => ExitCode::SUCCESS,
        Err(error) => {
            eprintln!("host: {error}");
            ExitCode::FAILURE
        }
    }
}

// A list of commands.

fn run_input(output: &mut impl Write) -> io::Result<()> {
    let mut list = Vec::new();
    // One byte above the longest list is enough to know that a list is too long.
    io::stdin()
        .take(LONGEST_LIST as u64 + 1)
        .read_to_end(&mut list)?;
    if list.len() > LONGEST_LIST {
        return writeln!(output, "too long");
    }
    run_list(&list, output)
}

fn run_list(list: &[u8], output: &mut impl Write) -> io::Result<()> {
    let mut store = [0; FACTORY_STORE_SIZE];
    let mut session = Session::fresh();
    let mut element = Element::factory(&mut store, &mut session).map_err(io::Error::other)?;
    let mut room = [0; LARGEST_ROOM];
    let mut rest = list;
    while !rest.is_empty() {
        let Some((command, after)) = split_command(rest) else {
            return writeln!(output, "cut");
        };
        print_answer(element.send(command, &mut room), output)?;
        rest = after;
    }
    Ok(())
}

/// The first command and what stands after it, unless its length or it is cut short.
fn split_command(list: &[u8]) -> Option<(&[u8], &[u8])> {
    let (length, rest) = list.split_first_chunk()?;
    rest.split_at_checked(usize::from(u16::from_be_bytes(*length)))
}

fn print_answer(answer: Answer, output: &mut impl Write) -> io::Result<()> {
    writeln!(output, "{} {}", answer.outcome, hex(answer.response))
}

fn hex(bytes: &[u8]) -> String {
    bytes.iter().map(|byte| format!("{byte:02X}")).collect()
}

// A fare's story.

/// Prints a step and what came of it, which has to be what was expected.
fn tell(
    output: &mut impl Write,
    step: &str,
    came: Result<&[u8], Error>,
    expected: Result<&[u8], Error>,
) -> io::Result<()> {
    writeln!(output, "{step}: {}", shown(came))?;
    if came == expected {
        return Ok(());
    }
    output.flush()?;
    Err(io::Error::other(format!(
        "{step}: expected {}",
        shown(expected)
    )))
}

fn shown(result: Result<&[u8], Error>) -> String {
    match result {
        Ok([]) => "done".to_string(),
        Ok(bytes) => hex(bytes),
        Err(error) => error.to_string(),
    }
}

/// A call that answers with no data.
fn no_data<'r>(result: Result<(), Error>) -> Result<&'r [u8], Error> {
    result.map(|()| &[][..])
}

/// The expected answers stand here by hand, from document 01.
fn run_demo(output: &mut impl Write) -> io::Result<()> {
    let mut store = [0; FACTORY_STORE_SIZE];
    let mut session = Session::fresh();
    let mut element = Element::factory(&mut store, &mut session).map_err(io::Error::other)?;
    tell_fare(&mut element, output)?;
    tell_service(&mut element, output)?;
    tell_errors(&mut element, output)?;
    tell_list(&mut element, output)
}

fn tell_fare(element: &mut Element, output: &mut impl Write) -> io::Result<()> {
    let mut room = [0; LARGEST_ROOM];
    let mut scratch = [0; SCRATCH];
    let early = no_data(element.write(FARES, Offset(0), b"FARE 001", &mut scratch));
    let closed = Err(Error::Refused(Refusal::NotAvailable));
    tell(output, "write before opening", early, closed)?;
    tell(output, "open", no_data(element.open()), Ok(&[]))?;
    let written = no_data(element.write(FARES, Offset(0), b"FARE 001", &mut scratch));
    tell(output, "write 8 bytes at 0 of F1D0", written, Ok(&[]))?;
    let read = element.read(FARES, Offset(0), Length(8), &mut room);
    tell(output, "read them", read, Ok(b"FARE 001"))?;
    let all = element.read(FARES, Offset(0), Length::ALL, &mut room[..12]);
    let step = "read all that is in use into a room of 12";
    tell(output, step, all, Ok(b"FARE 001"))?;
    let none = element.read(FARES, Offset(8), Length(8), &mut room);
    tell(output, "read at 8, where nothing is in use", none, Ok(&[]))?;
    let last = no_data(element.write(FARES, Offset(132), b"FARE 018", &mut scratch));
    tell(output, "write 8 bytes at 132 of 140", last, Ok(&[]))?;
    let past = no_data(element.write(FARES, Offset(133), b"FARE 019", &mut scratch));
    let full = Err(Error::Refused(Refusal::BoundaryExceeded));
    tell(output, "write 8 bytes at 133 of 140", past, full)?;
    let read = element.read(FARES, Offset(132), Length(8), &mut room);
    tell(output, "read at 132", read, Ok(b"FARE 018"))
}

fn tell_service(element: &mut Element, output: &mut impl Write) -> io::Result<()> {
    let mut room = [0; LARGEST_ROOM];
    let mut scratch = [0; SCRATCH];
    let set = no_data(element.set_metadata(FARES, &[tag::LCSO, 1, OPERATIONAL], &mut scratch));
    tell(output, "set LcsO of F1D0 to operational", set, Ok(&[]))?;
    let fields =
        b"\xC0\x01\x07\xC4\x02\x00\x8C\xC5\x02\x00\x8C\xD0\x03\xE1\xFC\x07\xD1\x01\x00\xD3\x01\x00";
    let metadata = element.metadata(FARES, &mut room);
    tell(output, "metadata of F1D0", metadata, Ok(fields))?;
    let late = no_data(element.write(FARES, Offset(0), b"FARE 020", &mut scratch));
    let denied = Err(Error::Refused(Refusal::AccessDenied));
    tell(output, "write 8 bytes at 0", late, denied)?;
    let late = no_data(element.erase_and_write(FARES, Offset(0), b"FARE 020", &mut scratch));
    tell(output, "erase and write 8 bytes at 0", late, denied)?;
    let read = element.read(FARES, Offset(0), Length(8), &mut room);
    tell(output, "read at 0", read, Ok(b"FARE 001"))
}

fn tell_errors(element: &mut Element, output: &mut impl Write) -> io::Result<()> {
    let mut room = [0; LARGEST_ROOM];
    let mut scratch = [0; LARGEST_COMMAND + 1];
    let wrong = Err(Error::WrongSize);
    let long = no_data(element.write(FARES, Offset(0), &[0; 1550], &mut scratch));
    tell(output, "write 1,550 bytes", long, wrong)?;
    let narrow = no_data(element.write(FARES, Offset(0), b"FARE", &mut scratch[..11]));
    tell(output, "write 4 bytes by a scratch of 11", narrow, wrong)?;
    let error = element.read(ObjectNumber::LAST_ERROR, Offset(0), Length(1), &mut room);
    tell(output, "the last error, the highest", error, Ok(&[0x0C]))?;
    let error = element.read(ObjectNumber::LAST_ERROR, Offset(0), Length(1), &mut room);
    tell(output, "once read it is cleared", error, Ok(&[0]))?;
    let small = element.read(FARES, Offset(0), Length(8), &mut room[..11]);
    let short = Err(Error::Refused(Refusal::InsufficientBuffer));
    tell(output, "read 8 bytes into a room of 11", small, short)?;
    let none = element.read(FARES, Offset(0), Length(8), &mut room[..3]);
    let no_room = Err(Error::NoRoom);
    tell(output, "read into a room of 3", none, no_room)?;
    tell(output, "close", no_data(element.close()), Ok(&[]))
}

/// Two commands by one call: open, then the last error.
fn tell_list(element: &mut Element, output: &mut impl Write) -> io::Result<()> {
    let list =
        b"\x70\x00\x00\x10\xD2\x76\x00\x00\x04GenAuthAppl\x01\x00\x00\x06\xF1\xC2\x00\x00\x00\x01";
    let mut rooms = [0xEE; 9];
    let mut outcomes = [0xEE; 2];
    let ran = element.run(list, &[20, 11], &mut rooms, &[4, 5], &mut outcomes);
    let wrong = Err(Error::WrongSize);
    tell(output, "run 31 of 30 bytes", no_data(ran), wrong)?;
    tell(output, "its rooms", Ok(&rooms), Ok(&[0xEE; 9]))?;
    let ran = element.run(list, &[20, 10], &mut rooms, &[4, 5], &mut outcomes);
    tell(output, "run both", no_data(ran), Ok(&[]))?;
    let responses = [0, 0, 0, 0, 0, 0, 0, 1, 0x0D];
    tell(output, "its rooms", Ok(&rooms), Ok(&responses))?;
    tell(output, "its outcomes", Ok(&outcomes), Ok(&[0, 0]))?;
    let formed = [u8::from(element.check_store())];
    tell(output, "the store is well formed", Ok(&formed), Ok(&[1]))
}

// The day of a fare queue.

const QUEUE: ObjectNumber = ObjectNumber(0xE130);
/// Three fares of the day fit, and not four.
const QUEUE_MAXIMUM: usize = 64;
/// What stands before the data in a record, and the place of an expression in it.
const RECORD_HEAD: usize = 96;
const SLOT: usize = 28;

const DAY: [&str; 10] = [
    "BUS 4 A-C",
    "TRAM 11 B-F",
    "BUS 27 C-D",
    "BUS 4 D-A",
    "METRO 2 A-H",
    "TRAM 9 F-B",
    "BUS 31 A-B",
    "BUS 4 C-E",
    "TRAM 11 E-A",
    "METRO 2 H-C",
];

/// What the office has received, in this order.
type Office = Vec<(FareNumber, Vec<u8>)>;

/// A store of one record: an empty queue that is always granted.
fn queue_store() -> Vec<u8> {
    let [size, maximum, used] =
        [RECORD_HEAD + QUEUE_MAXIMUM, QUEUE_MAXIMUM, QUEUE_HEAD].map(|number| number as u16);
    let mut store = [size, kind::QUEUE, QUEUE.0, maximum, used]
        .map(u16::to_le_bytes)
        .concat();
    store.extend([CREATION, 0]);
    for slot in 1..=3 {
        store.extend([1, expression::ALWAYS]);
        store.resize(12 + SLOT * slot, 0);
    }
    store.resize(size.into(), 0);
    store
}

fn run_queue(output: &mut impl Write) -> io::Result<()> {
    let mut store = queue_store();
    let mut session = Session::fresh();
    let mut element = Element::new(&mut store, &mut session);
    element.open().map_err(io::Error::other)?;
    let mut office = Office::new();
    run_day(&mut element, &mut office, output)?;
    if !all_uploaded(&office) {
        return Err(io::Error::other("a fare is lost, doubled or out of order"));
    }
    let fares = office.len();
    writeln!(
        output,
        "{fares} fares accepted, each uploaded once and in order"
    )?;
    // As after a cut of the power, where it is not known whether the acknowledgement was kept.
    match acknowledge(&mut element, FareNumber(DAY.len() as u32 - 1), output)? {
        Err(Error::Refused(Refusal::InvalidData)) => Ok(()),
        came => Err(io::Error::other(outcome(came))),
    }
}

/// A fare that a full queue refuses is appended again after the upload.
fn run_day(element: &mut Element, office: &mut Office, output: &mut impl Write) -> io::Result<()> {
    let mut accepted = 0;
    while let Some(body) = DAY.get(accepted) {
        let came = element.append(QUEUE, body.as_bytes());
        writeln!(output, "append {body}: {}", outcome(came))?;
        match came {
            Ok(()) => accepted += 1,
            Err(Error::Refused(Refusal::BoundaryExceeded)) => upload(element, office, output)?,
            Err(error) => return Err(io::Error::other(error)),
        }
    }
    upload(element, office, output)
}

/// Reads the whole queue, uploads its fares, and only then acknowledges the last of them.
fn upload(element: &mut Element, office: &mut Office, output: &mut impl Write) -> io::Result<()> {
    let mut room = [0; HEADER + QUEUE_MAXIMUM];
    let queue = element.queue(QUEUE, &mut room).map_err(io::Error::other)?;
    for fare in queue.fares() {
        let text = String::from_utf8_lossy(fare.body);
        writeln!(output, "upload {}: {text}", fare.number.0)?;
        office.push((fare.number, fare.body.to_vec()));
    }
    match queue.fares().last() {
        Some(last) if office.len() <= DAY.len() => {
            acknowledge(element, last.number, output)?.map_err(io::Error::other)
        }
        _ => Err(io::Error::other("no fare is uploaded, or one too many")),
    }
}

fn acknowledge(
    element: &mut Element,
    number: FareNumber,
    output: &mut impl Write,
) -> io::Result<Result<(), Error>> {
    let came = element.acknowledge(QUEUE, number);
    writeln!(output, "acknowledge {}: {}", number.0, outcome(came))?;
    Ok(came)
}

fn outcome(came: Result<(), Error>) -> String {
    match came {
        Ok(()) => "done".to_string(),
        Err(Error::Refused(refusal)) => format!("refused {:02X}", refusal.number()),
        Err(error) => error.to_string(),
    }
}

/// The office has every fare of the day, once and in order, under the numbers from 0 on.
fn all_uploaded(office: &Office) -> bool {
    let due = (0..)
        .zip(DAY)
        .map(|(number, body)| (FareNumber(number), body.as_bytes().to_vec()));
    office.iter().cloned().eq(due)
}
