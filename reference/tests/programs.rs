//! Input and output of the program, of replay and of the generator.

mod common;

use common::{factory_store, get_data, hex, write, Element, OPEN};
use reference::coverage::cover;
use reference::generator::cases::{cases, Case};
use reference::generator::lists::{list, ListKind};
use reference::replay::Item;
use reference::text::adler32;
use reference::{fresh_session, program, replay, Session};

fn program_output(input: &[u8]) -> String {
    let mut output = Vec::new();
    program::run(input, &mut output).unwrap();
    String::from_utf8(output).unwrap()
}

fn replay_output(input: &[u8]) -> String {
    let mut output = Vec::new();
    replay::run(&mut &input[..], &mut output).unwrap();
    String::from_utf8(output).unwrap()
}

/// A list of commands, each led by its length.
fn listed(commands: &[Vec<u8>]) -> Vec<u8> {
    let mut input = Vec::new();
    for command in commands {
        input.extend_from_slice(&(command.len() as u16).to_be_bytes());
        input.extend_from_slice(command);
    }
    input
}

#[test]
fn program_without_input() {
    assert_eq!(program_output(&[]), "");
}

#[test]
fn program_with_empty_commands() {
    // The refusals 04 and 0C, the read of the error after open.
    let read = get_data(0xF1C2, 0, 1);
    let input = listed(&[vec![], read.clone(), hex(OPEN), read.clone(), read]);
    let expected = "0 FF000000\n0 FF000000\n0 00000000\n0 000000010C\n0 0000000100\n";
    assert_eq!(program_output(&input), expected);
}

#[test]
fn program_with_the_largest_response() {
    let bytes: Vec<u8> = (0..1_500).map(|place| place as u8).collect();
    let input = listed(&[
        hex(OPEN),
        write(0xF1E0, 0, &bytes),
        get_data(0xF1E0, 0, 1_500),
    ]);
    let digits: String = bytes.iter().map(|byte| format!("{byte:02X}")).collect();
    let expected = format!("0 00000000\n0 00000000\n0 000005DC{digits}\n");
    assert_eq!(program_output(&input), expected);
}

#[test]
fn program_with_cut_input() {
    let whole = listed(&[hex(OPEN)]);
    for length in 1..whole.len() {
        assert_eq!(program_output(&whole[..length]), "cut\n");
    }
    let two = listed(&[hex(OPEN), get_data(0xF1C2, 0, 1)]);
    assert_eq!(program_output(&two[..23]), "0 00000000\ncut\n");
    assert_eq!(program_output(&two[..33]), "0 00000000\ncut\n");
    assert_eq!(program_output(&two), "0 00000000\n0 0000000100\n");
}

#[test]
fn program_with_the_longest_input() {
    let mut input = listed(&[hex(OPEN)]);
    input.extend_from_slice(&(16_384u16 - 24).to_be_bytes());
    input.resize(16_384, 0);
    assert_eq!(program_output(&input), "0 00000000\n0 FF000000\n");
    input.push(0);
    assert_eq!(program_output(&input), "too long\n");
}

#[test]
fn replay_before_any_store() {
    assert_eq!(replay_output(&[]), "");
    assert_eq!(replay_output(b"B"), "B \n");
    let input = hex("43 0005 A1A2A3A4A5 0000 43 0000 0001 70");
    let expected = "C 0 00010106 00000001 FF000000A5\nC 1 00010106 00000001 \n";
    assert_eq!(replay_output(&input), expected);
}

#[test]
fn replay_of_the_factory() {
    let store = factory_store();
    let mut input = hex("46 00001788 42");
    input.extend(hex("43 0004 EEEEEEEE 0014"));
    input.extend(hex(OPEN));
    input.extend(hex("46 00000003"));
    let digits: String = store.iter().map(|byte| format!("{byte:02X}")).collect();
    let expected = format!(
        "F 0 {0:08X}\nB {digits}\nC 0 01010100 {0:08X} 00000000\nF 2 {1:08X}\n",
        adler32(&store),
        adler32(&[0xEE; 3])
    );
    assert_eq!(replay_output(&input), expected);
}

#[test]
fn replay_of_a_store_and_session() {
    let store = factory_store();
    let mut input = hex("53 00001788");
    input.extend_from_slice(&store);
    input.extend(hex("7F 03 07 2A"));
    input.extend(hex("43 0006 111111111111 000A 01000006F1C200000001"));
    input.extend(hex("53 00000000 00 FF FE FD 43 0004 00000000 0001 80"));
    let expected = format!(
        "S 1\nC 0 01030700 {:08X} 000000012A11\nS 0\nC 0 00FFFE06 00000001 FF000000\n",
        adler32(&store)
    );
    assert_eq!(replay_output(&input), expected);
}

#[test]
fn replay_of_bad_input() {
    for input in [
        "00",
        "63",
        "53 00004E21",
        "53 0000",
        "53 00000001 00 010101",
        "43 1001",
        "43 0000 1001",
        "43 0001 00 00",
        "46 00004E21",
        "46 000000",
    ] {
        let mut input = hex(input);
        assert_eq!(replay_output(&input), "bad\n");
        input.splice(0..0, *b"B");
        assert_eq!(replay_output(&input), "B \nbad\n");
    }
    // At the limits.
    let mut input = hex("53 00004E20");
    input.resize(input.len() + 20_004, 0);
    input.extend(hex("43 1000"));
    input.resize(input.len() + 4_096, 0);
    input.extend(hex("1000"));
    input.resize(input.len() + 4_096, 0);
    input.extend(hex("46 00004E20"));
    let output = replay_output(&input);
    assert_eq!(output.lines().count(), 3);
    assert!(output.starts_with("S 0\nC 0 00000006 "));
    assert!(!output.contains("bad"));
}

#[test]
fn items_are_read_as_written() {
    let session = Session {
        opened: true,
        ..fresh_session()
    };
    let items = [
        Item::Store {
            store: Element::fresh().store,
            session,
        },
        Item::Command {
            room: vec![0; 4],
            command: get_data(0xF1D0, 0, 0),
        },
        Item::Bytes,
        Item::Factory { length: 5 },
    ];
    let mut input = Vec::new();
    for item in &items {
        item.write(&mut input).unwrap();
    }
    let letters: String = replay_output(&input)
        .lines()
        .map(|line| &line[..1])
        .collect();
    assert_eq!(letters, "SCBF");
}

fn generated(seed: u64, count: usize) -> Vec<u8> {
    let mut bytes = Vec::new();
    let mut take = |case: Case| case.item.write(&mut bytes);
    cases(seed, count, &mut take).unwrap();
    bytes
}

#[test]
fn cases_follow_from_the_seed() {
    let bytes = generated(5, 300);
    assert_eq!(bytes, generated(5, 300));
    assert_ne!(bytes, generated(6, 300));
    let output = replay_output(&bytes);
    let commands = output.lines().filter(|line| line.starts_with('C')).count();
    assert!(commands >= 300);
    assert!(!output.contains("bad"));
}

#[test]
fn lists_follow_from_the_seed_and_the_index() {
    for index in 0..30 {
        let bytes = list(9, index);
        assert_eq!(bytes, list(9, index));
        let output = program_output(&bytes);
        let last = output.lines().last().unwrap_or("");
        match ListKind::of_index(index) {
            ListKind::Empty => assert_eq!(output, ""),
            ListKind::OneTooMany | ListKind::TooLong => assert_eq!(output, "too long\n"),
            ListKind::CutLength | ListKind::CutCommand => assert_eq!(last, "cut"),
            ListKind::Full => assert_eq!(bytes.len(), 16_384),
            _ => assert!(last.starts_with("0 "), "{index}"),
        }
    }
}

/// The commands of a list that is not cut short.
fn commands_of(list: &[u8]) -> Vec<&[u8]> {
    let mut commands = Vec::new();
    let mut rest = list;
    while let [high, low, after @ ..] = rest {
        let length = usize::from(u16::from_be_bytes([*high, *low]));
        let (command, after) = after.split_at(length);
        commands.push(command);
        rest = after;
    }
    commands
}

#[test]
fn lists_hold_counts() {
    let is_count =
        |command: &&[u8]| command.len() == 9 && matches!(command[..4], [0x02 | 0x82, 0x02, 0, 5]);
    for index in (0..60).filter(|&index| ListKind::of_index(index) == ListKind::Full) {
        let list = list(9, index);
        let counts = commands_of(&list).into_iter().filter(is_count).count();
        assert!(counts > 0, "{index}");
    }
}

/// Whether a response to this command shows fewer bytes than it asks for.
fn is_short(command: &[u8], response: &[u8]) -> bool {
    let number = |bytes: &[u8], place: usize| u16::from_be_bytes([bytes[place], bytes[place + 1]]);
    let is_get = command.len() == 10 && matches!(command[..4], [0x01 | 0x81, 0x00, 0, 6]);
    is_get && response[0] == 0 && number(response, 2) < number(command, 8)
}

#[test]
fn lists_hold_short_reads() {
    let (mut some, mut none) = (0, 0);
    for index in (0..60).filter(|&index| ListKind::of_index(index) == ListKind::Full) {
        let mut element = Element::fresh();
        for command in commands_of(&list(9, index)) {
            let response = element.send(command);
            if is_short(command, &response) {
                match response.len() {
                    4 => none += 1,
                    _ => some += 1,
                }
            }
        }
    }
    assert!(some > 10 && none > 10, "{some} {none}");
}

#[test]
fn cases_cover_every_reachable_cell() {
    for seed in 1..=3 {
        let coverage = cover(seed, 20_000);
        assert_eq!(coverage.missing(), Vec::<String>::new());
        assert_eq!(coverage.errors(), &[] as &[String]);
    }
}
