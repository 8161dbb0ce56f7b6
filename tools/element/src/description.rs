//! Descriptions: an object to a line, and the store that they describe.
use element::{kind, COUNTER_SIZE, QUEUE_HEAD};

use crate::counter::{Counter, Direction};
use crate::expression;
use crate::faults;
use crate::hex;
use crate::names;
use crate::queue::{self, Fare, Queue};
use crate::record::{self, Record, HEAD, LARGEST_OBJECT, SLOT};
use crate::scan::{self, Scan};
use crate::trouble::Slip;

/// An object as a line describes it.
#[derive(Debug, PartialEq, Eq)]
struct Described {
    object: u16,
    kind: u16,
    maximum: usize,
    lcso: u8,
    expressions: [Vec<u8>; 3],
    data: Vec<u8>,
}

/// What a line says behind the object's number.
enum Front {
    Maximum(u16),
    Counter(Counter),
    Queue { next: Option<u32>, maximum: u16 },
}

/// The store that a text describes, or the first slip of each line that has one.
pub fn to_store(text: &str) -> Result<Vec<u8>, Vec<Slip>> {
    let mut store = Vec::new();
    let mut slips = Vec::new();
    let mut before = None;
    for (number, line, _) in scan::lines(text) {
        let scan = Scan::new(line, 1);
        if scan.is_end() {
            continue;
        }
        match described(scan, before) {
            Ok(object) => {
                before = Some(object.object);
                store.extend(packed(&object));
            }
            Err(slip) => slips.push(slip.on(number)),
        }
    }
    match slips.is_empty() {
        true => Ok(store),
        false => Err(slips),
    }
}

fn described(mut scan: Scan, before: Option<u16>) -> Result<Described, Slip> {
    let column = scan.column();
    let object = scan.one_of("an object number of four hex digits", hex::number)?;
    if let Some(why) = faults::object_fault(object, before) {
        return Err(Slip::at(column, why));
    }
    let front = read_front(&mut scan)?;
    keyword(&mut scan, "lcso")?;
    let lcso = scan.one_of(names::STATES_EXPECTED, names::state_of)?;
    let mut expressions: [Vec<u8>; 3] = Default::default();
    for (slot, name) in expressions.iter_mut().zip(names::SLOTS) {
        keyword(&mut scan, name)?;
        *slot = read_expression(&mut scan)?;
    }
    let (kind, maximum, data) = read_rest(&mut scan, front)?;
    Ok(Described {
        object,
        kind,
        maximum,
        lcso,
        expressions,
        data,
    })
}

/// `maximum COUNT`, `counter DIRECTION value NUMBER threshold NUMBER`, or `queue next NUMBER maximum COUNT`.
fn read_front(scan: &mut Scan) -> Result<Front, Slip> {
    match word_of(
        scan,
        "maximum, counter or queue",
        &["maximum", "counter", "queue"],
    )? {
        "counter" => read_counter(scan).map(Front::Counter),
        "queue" => read_queue(scan),
        _ => read_maximum(scan, 1).map(Front::Maximum),
    }
}

/// `next` may be left out.
fn read_queue(scan: &mut Scan) -> Result<Front, Slip> {
    let mut next = None;
    if word_of(scan, "next or maximum", &["next", "maximum"])? == "next" {
        next = Some(read_number(scan)?);
        keyword(scan, "maximum")?;
    }
    let maximum = read_maximum(scan, QUEUE_HEAD)?;
    Ok(Front::Queue { next, maximum })
}

/// What stands behind the expressions: the data of an object, nothing of a counter, the fares of a queue. Gives kind, maximum and data.
fn read_rest(scan: &mut Scan, front: Front) -> Result<(u16, usize, Vec<u8>), Slip> {
    match front {
        Front::Maximum(maximum) => {
            let data = read_data(scan, maximum)?;
            Ok((kind::DATA, maximum.into(), data))
        }
        Front::Counter(counter) => {
            scan.end("the end of the line")?;
            let data = counter.state.to_bytes().to_vec();
            Ok((counter.direction.kind(), COUNTER_SIZE, data))
        }
        Front::Queue { next, maximum } => {
            let queue = read_fares(scan, next, maximum.into())?;
            Ok((kind::QUEUE, queue.maximum, queue.bytes()))
        }
    }
}

/// `fare HEX`, as often as there are fares; one that does not fit is told by its column.
fn read_fares(scan: &mut Scan, next: Option<u32>, maximum: usize) -> Result<Queue, Slip> {
    let mut bodies = Vec::new();
    while !scan.is_end() {
        let column = scan.column();
        bodies.push(read_body(scan)?);
        Queue::numbered(&bodies, next, maximum).map_err(|why| Slip::at(column, why))?;
    }
    Queue::numbered(&bodies, next, maximum).map_err(|why| Slip::at(scan.column(), why))
}

fn read_body(scan: &mut Scan) -> Result<Vec<u8>, Slip> {
    word_of(scan, "fare or the end of the line", &["fare"])?;
    let column = scan.column();
    let body = scan.hex_before("fare")?;
    match queue::body_fault(body.len()) {
        None => Ok(body),
        Some(why) => Err(Slip::at(column, why)),
    }
}

fn read_maximum(scan: &mut Scan, least: usize) -> Result<u16, Slip> {
    let expected = format!("a number from {least} to {LARGEST_OBJECT}");
    scan.one_of(&expected, |word| maximum(word, least))
}

fn read_counter(scan: &mut Scan) -> Result<Counter, Slip> {
    let direction = scan.one_of("up or down", Direction::of_name)?;
    keyword(scan, "value")?;
    let value = read_number(scan)?;
    keyword(scan, "threshold")?;
    let threshold = read_number(scan)?;
    let state = element::Counter { value, threshold };
    Ok(Counter { direction, state })
}

fn read_number(scan: &mut Scan) -> Result<u32, Slip> {
    scan.one_of(&format!("a number from 0 to {}", u32::MAX), |word| {
        let digits = word.chars().all(|c| c.is_ascii_digit());
        digits.then(|| word.parse().ok()).flatten()
    })
}

/// Takes one of some words, in any case.
fn word_of<'w>(scan: &mut Scan, expected: &str, words: &[&'w str]) -> Result<&'w str, Slip> {
    scan.one_of(expected, |found| {
        let known = words.iter().find(|word| found.eq_ignore_ascii_case(word));
        known.copied()
    })
}

fn keyword(scan: &mut Scan, word: &str) -> Result<(), Slip> {
    scan.one_of(word, |found| found.eq_ignore_ascii_case(word).then_some(()))
}

fn maximum(word: &str, least: usize) -> Option<u16> {
    let digits = word.chars().all(|c| c.is_ascii_digit());
    let value = digits.then(|| word.parse::<u16>().ok()).flatten()?;
    (least..=LARGEST_OBJECT)
        .contains(&usize::from(value))
        .then_some(value)
}

/// `always`, `never`, or any expression in quotes.
fn read_expression(scan: &mut Scan) -> Result<Vec<u8>, Slip> {
    if scan.peek() == "\"" {
        let (text, column) = scan.quoted()?;
        return expression::from_text(&text, column);
    }
    scan.one_of("always, never or an expression in quotes", |word| {
        matches!(word.to_ascii_lowercase().as_str(), "always" | "never")
            .then(|| expression::from_text(word, 1).ok())
            .flatten()
    })
}

/// Where a line ends without data, none is in use.
fn read_data(scan: &mut Scan, maximum: u16) -> Result<Vec<u8>, Slip> {
    if scan.is_end() {
        return Ok(Vec::new());
    }
    scan.one_of("data or the end of the line", |word| {
        word.eq_ignore_ascii_case("data").then_some(())
    })?;
    let column = scan.column();
    let data = scan.hex()?;
    if data.len() > maximum.into() {
        let why = format!(
            "{} of data, expected at most the maximum of {maximum}",
            names::count(data.len(), "byte")
        );
        return Err(Slip::at(column, why));
    }
    Ok(data)
}

fn packed(object: &Described) -> Vec<u8> {
    let (maximum, used) = (object.maximum, object.data.len());
    let mut record = Vec::new();
    let number = |value: usize| u16::try_from(value).unwrap_or(u16::MAX).to_le_bytes();
    record.extend(number(HEAD + maximum));
    record.extend(object.kind.to_le_bytes());
    record.extend(object.object.to_le_bytes());
    record.extend(number(maximum));
    record.extend(number(used));
    record.extend([object.lcso, 0]);
    for expression in &object.expressions {
        let mut slot = vec![u8::try_from(expression.len()).unwrap_or(u8::MAX)];
        slot.extend(expression);
        slot.resize(SLOT, 0);
        record.extend(slot);
    }
    record.extend(&object.data);
    record.resize(HEAD + maximum, 0);
    record
}

/// The description of a well-formed store, from which `make` gives the same bytes.
pub fn of_store(store: &[u8]) -> String {
    let records = record::records(store);
    let objects = names::count(records.len(), "object");
    let lines: String = records.iter().map(line).collect();
    format!("# {objects}, {} bytes\n{lines}", store.len())
}

fn line(record: &Record) -> String {
    let (front, rest) = front_and_rest(record);
    let mut line = format!(
        "{:04X} {front} lcso {}",
        record.object(),
        names::state(record.lcso()).unwrap_or("(no state)")
    );
    for (index, name) in names::SLOTS.iter().enumerate() {
        let text = expression::to_text(record.expression(index)).unwrap_or_default();
        line.push_str(&match text.contains(' ') {
            true => format!(" {name} \"{text}\""),
            false => format!(" {name} {text}"),
        });
    }
    line.push_str(&rest);
    line.push('\n');
    line
}

/// What stands before LcsO, and what behind the expressions.
fn front_and_rest(record: &Record) -> (String, String) {
    if let Some(Counter { direction, state }) = Counter::of(record) {
        let element::Counter { value, threshold } = state;
        let name = direction.name();
        let front = format!("counter {name} value {value} threshold {threshold}");
        return (front, String::new());
    }
    if let Some(queue) = Queue::of(record) {
        let fare = |fare: &Fare| format!(" fare {}", hex::spaced(&fare.body));
        let front = format!("queue next {} maximum {}", queue.next, queue.maximum);
        return (front, queue.fares.iter().map(fare).collect());
    }
    let data = match record.data() {
        [] => String::new(),
        data => format!(" data {}", hex::spaced(data)),
    };
    (format!("maximum {}", record.maximum()), data)
}

#[cfg(test)]
mod tests {
    use super::*;
    use crate::check;
    use element::{Element, Session, FACTORY_STORE_SIZE};

    const UP: &str = "F1D0 counter up value 12 threshold 300 lcso operational change always read always execute never";
    const DOWN: &str =
        "F1D1 counter down value 10 threshold 0 lcso creation change \"LcsO < operational\" read always execute never";
    const QUEUE: &str = "F1D3 queue next 3 maximum 64 lcso operational change always read always execute never fare 46 41 52 45 fare 54 57 4F";
    const LINE: &str = "F1D0 maximum 140 lcso creation change \"LcsO < operational\" read always execute never data 01 02";

    fn slip(text: &str) -> (usize, usize, String) {
        let slips = to_store(text).unwrap_err();
        (slips[0].line, slips[0].column, slips[0].why.clone())
    }

    #[test]
    fn a_line_becomes_a_record() {
        let store = to_store(LINE).unwrap();
        assert!(check::is_well_formed(&store));
        assert_eq!(store.len(), 236);
        let records = record::records(&store);
        assert_eq!(records[0].data(), [1, 2]);
        assert_eq!(records[0].expression(2), [0xFF]);
        assert_eq!(of_store(&store), format!("# 1 object, 236 bytes\n{LINE}\n"));
    }

    #[test]
    fn a_counters_line_becomes_a_record() {
        let store = to_store(&format!("{UP}\n{DOWN}")).unwrap();
        assert!(check::is_well_formed(&store));
        assert_eq!(store.len(), 208);
        let front = [0x68, 0, 2, 0, 0xD0, 0xF1, 8, 0, 8, 0, 7, 0, 1, 0];
        assert_eq!(store[..14], front);
        assert_eq!(store[96..104], [0, 0, 0, 12, 0, 0, 0x01, 0x2C]);
        let front = [0x68, 0, 4, 0, 0xD1, 0xF1, 8, 0, 8, 0, 1, 0, 3, 0xE1];
        assert_eq!(store[104..118], front);
        assert_eq!(store[200..], [0, 0, 0, 10, 0, 0, 0, 0]);
        assert_eq!(
            of_store(&store),
            format!("# 2 objects, 208 bytes\n{UP}\n{DOWN}\n")
        );
    }

    #[test]
    fn every_counter_goes_both_ways() {
        for value in [0, 1, 299, 300, 301, u32::MAX] {
            let line = UP.replace("value 12", &format!("value {value}"));
            for line in [line.clone(), line.replace("up", "down")] {
                let line = line.replace("threshold 300", "threshold 4294967295");
                let store = to_store(&line).unwrap();
                assert!(check::is_well_formed(&store), "{line}");
                let written = of_store(&store);
                assert_eq!(written, format!("# 1 object, 104 bytes\n{line}\n"));
            }
        }
        let loose = "f1d0\tCounter UP Value 0012  threshold 300 LCSO 07 change ALWAYS read always execute \"never\" # x";
        assert_eq!(to_store(loose), to_store(UP));
    }

    #[test]
    fn a_queues_line_becomes_a_record() {
        let store = to_store(QUEUE).unwrap();
        assert!(check::is_well_formed(&store));
        assert_eq!(store.len(), 160);
        let front = [0xA0, 0, 3, 0, 0xD3, 0xF1, 64, 0, 27, 0, 7, 0, 1, 0];
        assert_eq!(store[..14], front);
        let next_and_first = [3, 0, 0, 0, 12, 0, 1, 0, 1, 0, 0, 0, 0x46, 0x41, 0x52, 0x45];
        assert_eq!(store[96..112], next_and_first);
        let second = [11, 0, 1, 0, 2, 0, 0, 0, 0x54, 0x57, 0x4F];
        assert_eq!(store[112..123], second);
        assert_eq!(store[123..], [0; 37]);
        let written = of_store(&store);
        assert_eq!(written, format!("# 1 object, 160 bytes\n{QUEUE}\n"));
    }

    #[test]
    fn every_queue_goes_both_ways() {
        let front =
            "F1D3 queue next N maximum 1500 lcso creation change always read never execute never";
        for (next, body) in [("0", 0), ("1", 1), ("2", 200), ("4294967295", 9)] {
            let mut line = front.replace('N', next);
            if body > 0 {
                line.push_str(&format!(" fare {}", ["A5"].repeat(body).join(" ")));
            }
            let store = to_store(&line).unwrap();
            assert!(check::is_well_formed(&store), "{line}");
            let written = of_store(&store);
            assert_eq!(written, format!("# 1 object, 1596 bytes\n{line}\n"));
        }
        let loose = "f1d3\tQueue NEXT 003 Maximum 64 LCSO 07 change ALWAYS read always execute \"never\" FARE 46415245 Fare 5457 4f # x";
        assert_eq!(to_store(loose), to_store(QUEUE));
    }

    #[test]
    fn without_a_next_number_fares_begin_at_0() {
        let unnumbered = QUEUE.replace("next 3 ", "");
        assert_eq!(
            to_store(&unnumbered),
            to_store(&QUEUE.replace("next 3", "next 2"))
        );
        let (front, _) = unnumbered.split_once(" fare").unwrap();
        let store = to_store(front).unwrap();
        assert_eq!((store[8], &store[96..104]), (4, &[0; 8][..]));
        assert!(of_store(&store).contains("F1D3 queue next 0 maximum 64 lcso"));
    }

    #[test]
    fn the_factory_store_is_described() {
        let mut store = vec![0; FACTORY_STORE_SIZE];
        let mut session = Session::fresh();
        Element::factory(&mut store, &mut session).unwrap();
        assert_eq!(to_store(&of_store(&store)), Ok(store));
    }

    #[test]
    fn every_way_to_write_a_line() {
        let loose = "\r\n\t f1d0  MAXIMUM 140 LcsO 01 change \"lcso<07\" read \"always\" execute \"never\" data 0102#x\r\n";
        assert_eq!(to_store(loose), to_store(LINE));
        assert_eq!(to_store("# nothing\n\n"), Ok(vec![]));
    }

    /// A text, the line and the column of its first slip, and what is said of it.
    type Told = (&'static str, usize, usize, &'static str);

    const WHOLE: [Told; 7] = [
        (
            "F1D maximum 1",
            1,
            1,
            "'F1D' stands here, expected an object number of four hex digits",
        ),
        (
            "\n+1D0",
            2,
            1,
            "'+1D0' stands here, expected an object number of four hex digits",
        ),
        (
            "F1D0 max 1",
            1,
            6,
            "'max' stands here, expected maximum, counter or queue",
        ),
        (
            "F1D0 maximum 0",
            1,
            14,
            "'0' stands here, expected a number from 1 to 1500",
        ),
        (
            "F1D0 maximum 1501",
            1,
            14,
            "'1501' stands here, expected a number from 1 to 1500",
        ),
        (
            "F1D0 maximum 1",
            1,
            15,
            "nothing stands here, expected lcso",
        ),
        (
            "F1C2 maximum 1",
            1,
            1,
            "object F1C2 is last error, which lives in the session, expected another number",
        ),
    ];

    /// What is replaced in the line, by what, and the column and words that follow.
    const REPLACED: [(&str, &str, usize, &str); 5] = [
        (
            "02",
            "0",
            94,
            "half a byte: one hex digit stands alone, expected two to a byte",
        ),
        (
            "140",
            "1",
            89,
            "2 bytes of data, expected at most the maximum of 1",
        ),
        (
            "always",
            "maybe",
            65,
            "'maybe' stands here, expected always, never or an expression in quotes",
        ),
        (
            "l\"",
            "l",
            39,
            "this quote is not closed, expected another \" on the same line",
        ),
        (
            "data",
            "dada",
            86,
            "'dada' stands here, expected data or the end of the line",
        ),
    ];

    /// What is replaced in the line of a counter, by what, and the column and words that follow.
    const COUNTERS: [(&str, &str, usize, &str); 10] = [
        (
            "up",
            "upward",
            14,
            "'upward' stands here, expected up or down",
        ),
        ("up ", "", 14, "'value' stands here, expected up or down"),
        ("value", "from", 17, "'from' stands here, expected value"),
        (
            "12",
            "-1",
            23,
            "'-1' stands here, expected a number from 0 to 4294967295",
        ),
        (
            "12",
            "0C",
            23,
            "'0C' stands here, expected a number from 0 to 4294967295",
        ),
        (
            "12 threshold",
            "12 to",
            26,
            "'to' stands here, expected threshold",
        ),
        (
            "300",
            "4294967296",
            36,
            "'4294967296' stands here, expected a number from 0 to 4294967295",
        ),
        (
            "lcso",
            "maximum 8 lcso",
            40,
            "'maximum' stands here, expected lcso",
        ),
        (
            "execute never",
            "execute never data 01",
            97,
            "'data' stands here, expected the end of the line",
        ),
        (
            "execute never",
            "execute",
            90,
            "nothing stands here, expected always, never or an expression in quotes",
        ),
    ];

    #[test]
    fn slips_of_counters_have_line_and_column() {
        for (old, new, column, why) in COUNTERS {
            let text = UP.replacen(old, new, 1);
            assert_eq!(slip(&text), (1, column, why.to_owned()), "{text}");
        }
        let (line, column, why) = slip("\nF1C0 counter up value 0 threshold 1");
        assert_eq!((line, column), (2, 1));
        assert!(why.starts_with("object F1C0 is LcsA"), "{why}");
    }

    /// What is replaced in the line of a queue, by what, and the column and words that follow.
    const QUEUES: [(&str, &str, usize, &str); 13] = [
        (
            "next 3",
            "3",
            12,
            "'3' stands here, expected next or maximum",
        ),
        (
            "3 maximum",
            "-1 maximum",
            17,
            "'-1' stands here, expected a number from 0 to 4294967295",
        ),
        ("maximum 64", "64", 19, "'64' stands here, expected maximum"),
        (
            "64",
            "3",
            27,
            "'3' stands here, expected a number from 4 to 1500",
        ),
        (
            "64",
            "1501",
            27,
            "'1501' stands here, expected a number from 4 to 1500",
        ),
        (
            "fare 46",
            "data 46",
            87,
            "'data' stands here, expected fare or the end of the line",
        ),
        (
            "46 41 52 45 ",
            "",
            92,
            "0 bytes of a fare's body, expected 1 to 200",
        ),
        (
            "54 57 4F",
            "",
            109,
            "0 bytes of a fare's body, expected 1 to 200",
        ),
        (
            "57 4F",
            "57 4",
            115,
            "half a byte: one hex digit stands alone, expected two to a byte",
        ),
        (
            "54 57",
            "\"TW",
            109,
            "'\"' is no hex digit, expected 0 to 9 or A to F",
        ),
        (
            "next 3",
            "next 1",
            104,
            "2 fares with the next number 1, expected at most 1",
        ),
        (
            "next 3",
            "next 0",
            87,
            "1 fare with the next number 0, expected at most 0",
        ),
        (
            "64",
            "26",
            104,
            "the next number and 2 fares take 27 bytes, expected at most the maximum of 26",
        ),
    ];

    #[test]
    fn slips_of_queues_have_line_and_column() {
        for (old, new, column, why) in QUEUES {
            let text = QUEUE.replacen(old, new, 1);
            assert_eq!(slip(&text), (1, column, why.to_owned()), "{text}");
        }
        let long = QUEUE.replace("54 57 4F", &"A5".repeat(201));
        let why = "201 bytes of a fare's body, expected 1 to 200";
        assert_eq!(slip(&long), (1, 109, why.to_owned()));
    }

    #[test]
    fn slips_have_line_and_column() {
        for (text, line, column, why) in WHOLE {
            assert_eq!(slip(text), (line, column, why.to_owned()), "{text}");
        }
        for (old, new, column, why) in REPLACED {
            let text = LINE.replace(old, new);
            assert_eq!(slip(&text), (1, column, why.to_owned()), "{text}");
        }
        let (line, column, why) = slip(&LINE.replace("operational", "ready"));
        assert_eq!((line, column), (1, 47));
        assert_eq!(
            why,
            format!("'ready' stands here, expected {}", names::STATES_EXPECTED)
        );
        let (line, column, why) = slip(&format!("{LINE}\n{LINE}"));
        assert_eq!((line, column), (2, 1));
        assert_eq!(why, "object F1D0 behind F1D0, expected a number above that");
    }
}
