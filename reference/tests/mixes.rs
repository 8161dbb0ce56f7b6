//! Pairs of lists, their mixes, and the comparison of the orders.

mod common;

use std::collections::BTreeSet;

use common::{count, counter_record, get_data, hex, set_metadata, write, Element};
use reference::generator::mixes::{named_object, pair, Judged, Listed, Pair, Turn};
use reference::mix_check::{check, Failure, Part, Summary};
use reference::replay::{self, State};
use reference::store::Slot;
use reference::{check_store, Session};

/// What `replay` prints for a pair, line by line.
fn lines_of(pair: &Pair) -> Vec<String> {
    let mut input = Vec::new();
    for item in pair.items() {
        item.write(&mut input).unwrap();
    }
    let mut output = Vec::new();
    replay::run(&mut &input[..], &mut output).unwrap();
    let text = String::from_utf8(output).unwrap();
    text.lines().map(str::to_string).collect()
}

/// What `replay` prints for the pairs of a seed, pair by pair.
fn outputs(seed: u64, count: u64) -> Vec<Vec<String>> {
    (0..count)
        .map(|index| lines_of(&pair(seed, index)))
        .collect()
}

fn checked(seed: u64, count: u64, outputs: &[Vec<String>]) -> Result<Summary, Failure> {
    let text: String = outputs
        .iter()
        .flatten()
        .fold(String::new(), |text, line| text + line + "\n");
    check(seed, count, text.as_bytes())
}

#[test]
fn pairs_are_such_as_demand_3_takes() {
    for index in 0..400 {
        let pair = pair(11, index);
        let mut named = [BTreeSet::new(), BTreeSet::new()];
        for (list, named) in pair.lists.iter().zip(&mut named) {
            for Listed { command, .. } in list {
                assert!(matches!(command[0], 0x01 | 0x02));
                named.extend(named_object(command));
            }
        }
        let [first, second] = named;
        assert!(first.is_disjoint(&second));
        for number in [0xE0C0, 0xF1C0, 0xF1C2] {
            assert!(!first.contains(&number) && !second.contains(&number));
        }
    }
}

#[test]
fn orders_hold_each_list_in_its_order() {
    for index in 0..100 {
        let pair = pair(12, index);
        for order in pair.orders() {
            for list in 0..2 {
                let places: Vec<usize> = order
                    .iter()
                    .filter(|turn| turn.list == list)
                    .map(|turn| turn.place)
                    .collect();
                let expected: Vec<usize> = (0..pair.lists[list].len()).collect();
                assert_eq!(places, expected);
            }
        }
        let [_, first, second] = pair.orders();
        assert!(first.is_sorted_by_key(|turn| turn.list));
        assert!(second.is_sorted_by_key(|turn| 1 - turn.list));
    }
}

#[test]
fn pairs_follow_from_the_seed_and_the_index() {
    let items = |seed, index| pair(seed, index).items();
    assert_eq!(items(5, 3), items(5, 3));
    assert_ne!(items(5, 3), items(5, 4));
    assert_ne!(items(5, 3), items(6, 3));
}

#[test]
fn pairs_are_of_many_kinds() {
    let pairs: Vec<Pair> = (0..400).map(|index| pair(13, index)).collect();
    let some = |wanted: &dyn Fn(&Pair) -> bool| pairs.iter().filter(|pair| wanted(pair)).count();
    let is_state = |byte: u8| [0x01, 0x03, 0x07, 0x0F].contains(&byte);
    let is_valid = |session: Session| is_state(session.lcsg) && is_state(session.lcsa);
    assert!(some(&|pair| !check_store(&pair.state.store)) > 5);
    assert!(some(&|pair| !is_valid(pair.state.session)) > 5);
    assert!(some(&|pair| !pair.state.session.opened) > 5);
    assert!(some(&|pair| pair.state.session.lcsa == 0x0F) > 2);
    assert!(some(&|pair| pair.lists[0].is_empty()) > 2);
    assert!(some(&|pair| pair.lists[1].is_empty()) > 2);
    for size in 0..5 {
        let has_room = |pair: &Pair| {
            pair.lists
                .iter()
                .flatten()
                .any(|one| one.room.len() == size)
        };
        assert!(some(&has_room) > 2);
    }
    let keeping = some(&|pair| pair.judge().keeps_apart);
    assert!((160..=280).contains(&keeping), "{keeping}");
    let moving = some(&|pair| pair.judge().keeps_apart && pair.judge().moves);
    assert!(2 * moving > keeping, "{moving} {keeping}");
    // Metadata writes that bring conditions during the run.
    let bringing = some(&|pair| pair.judge().keeps_apart && brings_condition(pair));
    assert!(bringing > 40, "{bringing}");
}

/// Whether a metadata write that is done brings D0, D1 or D3 of a single counter.
fn brings_condition(pair: &Pair) -> bool {
    let mut state = pair.state.clone();
    pair.mix.iter().any(|&turn| {
        let Listed { command, room } = pair.listed(turn);
        let mut room = room.clone();
        state.execute(command, &mut room);
        let brings = command
            .windows(3)
            .any(|bytes| matches!(bytes, [0xD0 | 0xD1 | 0xD3, 3..=27, 0x40]));
        command.starts_with(&[0x02, 0x01]) && brings && room.starts_with(&[0, 0, 0, 0])
    })
}

/// How many commands with this Param of a set are done in the mix.
fn done_sets(pair: &Pair, param: u8) -> usize {
    let mut state = pair.state.clone();
    let is_done = |turn: &&Turn| {
        let Listed { command, room } = pair.listed(**turn);
        let mut room = room.clone();
        state.execute(command, &mut room);
        command.starts_with(&[0x02, param]) && room.starts_with(&[0, 0, 0, 0])
    };
    pair.mix.iter().filter(is_done).count()
}

#[test]
fn pairs_append_and_acknowledge() {
    for keeps_apart in [true, false] {
        let pairs: Vec<Pair> = (0..400)
            .map(|index| pair(14, index))
            .filter(|pair| pair.judge().keeps_apart == keeps_apart)
            .collect();
        for param in [0x04, 0x05] {
            let done = |pair: &&Pair| done_sets(pair, param) > 0;
            let count = pairs.iter().filter(done).count();
            assert!(6 * count > pairs.len(), "{count} of {}", pairs.len());
        }
    }
}

#[test]
fn all_orders_are_alike_where_counters_are_apart() {
    let summary = checked(7, 150, &outputs(7, 150)).unwrap();
    assert_eq!(summary.keeping + summary.breaking, 150);
    assert!(summary.moving > 20 && summary.moving <= summary.keeping);
    assert!(summary.differing > 10 && summary.differing <= summary.breaking);
}

/// The first pair that keeps apart and has commands in both lists, and its output.
fn keeping_place(seed: u64) -> usize {
    let is_wanted = |index: &u64| {
        let pair = pair(seed, *index);
        pair.judge().keeps_apart && pair.lists.iter().all(|list| list.len() > 1)
    };
    (0..).find(is_wanted).unwrap() as usize
}

#[test]
fn differences_are_named() {
    let place = keeping_place(7);
    let pair = pair(7, place as u64);
    let commands = pair.mix.len();
    let right = outputs(7, 150);
    // Each block is S, the commands and B; the last command of the third block is
    // the last one of the first list.
    let last = right[place].len() - 2;
    let spoil = |line: usize, change: &dyn Fn(&str) -> String| {
        let mut outputs = right.clone();
        outputs[place][line] = change(&outputs[place][line]);
        match checked(7, 150, &outputs) {
            Err(Failure::Differs { pair, difference }) => {
                assert_eq!(pair, place as u64 + 1);
                (difference.order, difference.part)
            }
            other => panic!("{other:?}"),
        }
    };
    let other_outcome = |line: &str| line.replacen("C 0", "C 7", 1).replacen("C 1", "C 6", 1);
    let turn = Turn {
        list: 0,
        place: pair.lists[0].len() - 1,
    };
    assert_eq!(spoil(last, &other_outcome), (2, Part::Command(turn)));
    let turn = Turn { list: 0, place: 0 };
    let second_block = commands + 2;
    let found = spoil(second_block + 1, &other_outcome);
    assert_eq!(found, (1, Part::Command(turn)));
    // A session in the middle is not compared, the last one is.
    let other_session = |line: &str| {
        let mut parts: Vec<&str> = line.splitn(5, ' ').collect();
        parts[2] = "0101017F";
        parts.join(" ")
    };
    assert_eq!(spoil(last, &other_session), (2, Part::FinalSession));
    let mut outputs = right.clone();
    outputs[place][last - 1] = other_session(&outputs[place][last - 1]);
    assert!(checked(7, 150, &outputs).is_ok());
    // The store at the end, and its judgment.
    let other_store = |line: &str| match line.strip_prefix("B 0") {
        Some(rest) => format!("B 1{rest}"),
        None => format!("B 0{}", &line[3..]),
    };
    assert_eq!(spoil(last + 1, &other_store), (2, Part::FinalStore));
    let other_judgment = |line: &str| match line {
        "S 0" => "S 1".to_string(),
        _ => "S 0".to_string(),
    };
    let found = spoil(second_block, &other_judgment);
    assert_eq!(found, (1, Part::Beginning));
}

#[test]
fn a_byte_of_a_room_is_enough() {
    let place = keeping_place(9);
    let pair = pair(9, place as u64);
    let is_large = |turn: &&Turn| pair.listed(**turn).room.len() > 4;
    let turn = *pair.mix.iter().find(is_large).unwrap();
    let at = pair.mix.iter().position(|&other| other == turn).unwrap();
    let mut outputs = outputs(9, place as u64 + 1);
    let line = &mut outputs[place][at + 1];
    let digit = match line.pop().unwrap() {
        '0' => '1',
        _ => '0',
    };
    line.push(digit);
    match checked(9, place as u64 + 1, &outputs) {
        Err(Failure::Differs { difference, .. }) => {
            assert_eq!(difference.part, Part::Command(turn));
        }
        other => panic!("{other:?}"),
    }
}

#[test]
fn short_long_and_bad_input() {
    let right = outputs(7, 20);
    let mut short = right.clone();
    short[19].pop();
    assert!(matches!(
        checked(7, 20, &short),
        Err(Failure::Short { pair: 20 })
    ));
    assert!(matches!(
        checked(7, 20, &[]),
        Err(Failure::Short { pair: 1 })
    ));
    let mut long = right.clone();
    long[19].push("bad".to_string());
    assert!(matches!(checked(7, 20, &long), Err(Failure::Long)));
    assert!(matches!(checked(7, 19, &right), Err(Failure::Long)));
    for (line, text) in [
        (0, "S 2"),
        (0, "bad"),
        (1, "B "),
        (1, "C 0 01010100 00000001"),
    ] {
        let mut bad = right.clone();
        bad[4][line] = text.to_string();
        match checked(7, 20, &bad) {
            Err(Failure::BadLine { pair: 5, line }) => assert_eq!(line, text),
            other => panic!("{other:?}"),
        }
    }
    // Another seed has other pairs.
    assert!(checked(8, 20, &right).is_err());
}

/// The mix's answers in every order, as of an element to which the order is nothing.
fn evened(pair: &Pair, lines: &[String]) -> Vec<String> {
    let commands = pair.mix.len();
    let session = |line: &str| line.split(' ').nth(2).unwrap().to_string();
    let end = lines[commands].clone();
    let mut evened = Vec::new();
    for order in pair.orders() {
        evened.push(lines[0].clone());
        for turn in order {
            let at = pair.mix.iter().position(|&other| other == turn).unwrap();
            let mut parts: Vec<String> = lines[1 + at].splitn(5, ' ').map(str::to_string).collect();
            parts[2] = session(&end);
            evened.push(parts.join(" "));
        }
        evened.push(lines[commands + 1].clone());
    }
    evened
}

#[test]
fn some_pair_must_move_and_some_must_differ() {
    let evened: Vec<Vec<String>> = (0..100)
        .map(|index| pair(7, index))
        .map(|pair| evened(&pair, &lines_of(&pair)))
        .collect();
    match checked(7, 100, &evened) {
        Err(Failure::NoneDiffers(summary)) => assert!(summary.breaking > 10),
        other => panic!("{other:?}"),
    }
    assert!(matches!(checked(7, 0, &[]), Err(Failure::NoneMoves(_))));
}

const FIRST: u16 = 0x1000;
const SECOND: u16 = 0x1001;

/// Two counters with one step left, and factory objects that ask for them.
fn element(first: &str, second: &str) -> Element {
    let mut element = Element::with_records(&[
        counter_record(2, FIRST, 8, 9),
        counter_record(2, SECOND, 8, 9),
    ]);
    element.set_expression(0xF1D0, Slot::Change, &hex(first));
    element.set_expression(0xF1D1, Slot::Change, &hex(second));
    element
}

/// The pair of these lists, the second one first in its mix.
fn pair_of(element: &Element, lists: [&[Vec<u8>]; 2]) -> Pair {
    let turn = |list: usize| (0..lists[list].len()).map(move |place| Turn { list, place });
    Pair {
        state: State {
            store: element.store.clone(),
            session: element.session,
        },
        lists: lists.map(|list| {
            list.iter()
                .map(|command| Listed {
                    command: command.clone(),
                    room: vec![0xA5; 20],
                })
                .collect()
        }),
        mix: turn(1).chain(turn(0)).collect(),
    }
}

fn judged(element: &Element, lists: [&[Vec<u8>]; 2]) -> Judged {
    pair_of(element, lists).judge()
}

#[test]
fn pairs_judged_by_hand() {
    let writes = [0xF1D0, 0xF1D1].map(|object| vec![write(object, 0, &[1])]);
    let [first, second] = [&writes[0][..], &writes[1][..]];
    let apart = Judged {
        keeps_apart: true,
        moves: true,
    };
    let together = Judged {
        keeps_apart: false,
        moves: true,
    };
    // Each its own counter; the same one; no condition in the second.
    let own = element("40 1000", "40 1001");
    assert_eq!(judged(&own, [first, second]), apart);
    let shared = element("40 1000", "40 1000");
    assert_eq!(judged(&shared, [first, second]), together);
    let one = element("40 1000", "00");
    assert_eq!(judged(&one, [first, second]), apart);
    // The counter of the first list's condition is an object of the second.
    for command in [count(FIRST, 0, 1), get_data(FIRST, 0, 8)] {
        assert_eq!(
            judged(&own, [first, std::slice::from_ref(&command)]),
            together
        );
        assert_eq!(judged(&own, [&[command], first]), together);
    }
    // Brought during the run, also after which it is not asked any more.
    let bring = set_metadata(0xF1D1, &hex("D1 03 40 10 00"));
    let remove = set_metadata(0xF1D1, &hex("D1 01 00"));
    let brought = [bring, remove, writes[1][0].clone()];
    assert_eq!(judged(&one, [first, &brought]), together);
    assert_eq!(judged(&one, [first, &brought[1..]]), apart);
    // Refused, it is not brought.
    let refused = element("40 1000", "FF");
    assert_eq!(judged(&refused, [first, &brought]), apart);
    // Execute expressions count, objects that no command names do not.
    let mut execute = one.clone();
    execute.set_expression(0xF1D1, Slot::Execute, &hex("40 1000"));
    assert_eq!(judged(&execute, [first, second]), together);
    let mut other = one.clone();
    other.set_expression(0xF1D2, Slot::Change, &hex("40 1000"));
    assert_eq!(judged(&other, [first, second]), apart);
    // Nothing moves while closed, or in a room of 3.
    let mut closed = own.clone();
    closed.session.opened = false;
    let still = Judged {
        keeps_apart: true,
        moves: false,
    };
    assert_eq!(judged(&closed, [first, second]), still);
    let mut small = pair_of(&own, [first, &[]]);
    small.lists[0][0].room.truncate(3);
    assert_eq!(small.judge(), still);
}

#[test]
fn a_shared_counter_makes_the_order_matter() {
    let writes = [0xF1D0, 0xF1D1].map(|object| vec![write(object, 0, &[1])]);
    let shared = element("40 1000", "40 1000");
    let pair = pair_of(&shared, [&writes[0], &writes[1]]);
    let lines = lines_of(&pair);
    let is_refused = |line: usize| lines[line].contains(" FF000000");
    // Lines 0, 4 and 8 are S; whoever comes second is refused.
    assert_eq!(lines.len(), 12);
    assert!(!is_refused(1) && is_refused(2));
    assert!(!is_refused(5) && is_refused(6));
    assert!(!is_refused(9) && is_refused(10));
    // In the mix and in the third order the second list comes first.
    assert_eq!(lines[0..4], lines[8..12]);
    assert_ne!(lines[3], lines[7]);
}
