//! `run`: a list of commands on a kept element.
use std::fs::File;
use std::path::Path;

use element::command::{FLUSH, GET};
use element::{Element, Session, LARGEST_ROOM, LEAD};

use crate::answer::Exchange;
use crate::check;
use crate::command::{self, Action};
use crate::counter::{self, Counter};
use crate::expression;
use crate::files;
use crate::keep::{Kept, Place};
use crate::list::{self, Entry};
use crate::names;
use crate::queue::Queue;
use crate::record;
use crate::trouble::{Report, Status, Trouble};

const REFUSED: u8 = 0xFF;
const ACCESS_DENIED: u8 = 0x07;

/// How a list is run.
#[derive(Clone, Copy, Debug, PartialEq, Eq)]
pub struct Options {
    /// Nothing is kept.
    pub dry: bool,
    /// A command that is not done gives status 0 all the same.
    pub accept_refusals: bool,
    /// Lines as `bench` prints them.
    pub plain: bool,
    /// The bytes of each command's room.
    pub room: usize,
}

impl Default for Options {
    fn default() -> Options {
        Options {
            dry: false,
            accept_refusals: false,
            plain: false,
            room: LARGEST_ROOM,
        }
    }
}

/// `run FILE LIST`. What is shown is kept: the answers are printed only when the files are in their places.
pub fn run(file: &Path, list: &Path, options: &Options) -> Result<Report, Trouble> {
    let text = files::read_text(list)?;
    let entries =
        list::parse(&text).map_err(|slips| Trouble::slips(&files::text_name(list), &slips))?;
    let place = Place::new(file);
    let _held = place.hold(match options.dry {
        true => File::lock_shared,
        false => File::lock,
    });
    let mut kept = place.load()?;
    let before = kept.store.clone();
    let exchanges: Vec<Exchange> = entries
        .iter()
        .map(|entry| send(&mut kept, &entry.bytes, options.room))
        .collect();
    if !options.dry {
        let changed = kept.store != before;
        place.save(changed.then_some(&kept.store[..]), kept.session)?;
    }
    let judged = check::judged(&file.display().to_string(), &before);
    Ok(report(file, &judged, &entries, &exchanges, &kept, options))
}

/// Sends one command, and learns a refusal's own number and the counters that its conditions moved.
pub fn send(kept: &mut Kept, command: &[u8], room: usize) -> Exchange {
    let mut room = vec![0; room];
    let before = counter::all(&kept.store);
    let queue = queue_named(&kept.store, command);
    let answer = Element::new(&mut kept.store, &mut kept.session).send(command, &mut room);
    let (outcome, response) = (answer.outcome, answer.response.to_vec());
    let refused =
        (response.first() == Some(&REFUSED)).then(|| own_number(kept, command, &mut room));
    let due = match refused.is_some() || outcome != 0 {
        true => before,
        false => put_by(command, before),
    };
    Exchange {
        outcome,
        response,
        refused,
        last_error: kept.session.error,
        counter: counter_named(&due, command),
        used: used_named(&kept.store, command),
        queues: queue.zip(queue_named(&kept.store, command)),
        steps: steps(&due, &kept.store),
        asked: match refused {
            Some(ACCESS_DENIED) => asked(&kept.store, command),
            _ => None,
        },
    }
}

/// The counters as a command that is done itself leaves them, before the steps of its conditions.
fn put_by(command: &[u8], mut counters: Vec<(u16, Counter)>) -> Vec<(u16, Counter)> {
    let object = command::object(command);
    let bytes = command.get(LEAD..).unwrap_or(&[]);
    for (number, counter) in &mut counters {
        if Some(*number) != object {
            continue;
        }
        match (command::action(command), bytes) {
            (Some(Action::Count { .. }), [step]) => *counter = counter.counted(*step),
            (Some(Action::Write), bytes) => {
                if let Ok(bytes) = bytes.try_into() {
                    counter.state = element::Counter::from_bytes(bytes);
                }
            }
            _ => {}
        }
    }
    counters
}

/// The counters that stand in the store otherwise than the command itself leaves them: the conditions that granted it moved them.
fn steps(due: &[(u16, Counter)], store: &[u8]) -> Vec<(u16, Counter)> {
    let mut after = counter::all(store);
    after.retain(|one| !due.contains(one));
    after
}

/// The expression that a command asks in words, and what its conditions on counters find; nothing where it has none.
fn asked(store: &[u8], command: &[u8]) -> Option<String> {
    let record = record::find(store, command::object(command)?)?;
    let slot = match command.first()? & !FLUSH {
        GET => 1,
        _ => 0,
    };
    let bytes = record.expression(slot);
    let found: Vec<String> = expression::counters(bytes)
        .iter()
        .map(|number| counter::found(store, *number))
        .collect();
    let text = expression::to_text(bytes).ok()?;
    let name = names::SLOTS.get(slot)?;
    (!found.is_empty()).then(|| format!("{name}: {text}; {}", found.join(", ")))
}

fn counter_named(counters: &[(u16, Counter)], command: &[u8]) -> Option<Counter> {
    let object = command::object(command)?;
    let (_, counter) = counters.iter().find(|(number, _)| *number == object)?;
    Some(*counter)
}

fn queue_named(store: &[u8], command: &[u8]) -> Option<Queue> {
    Queue::of(&record::find(store, command::object(command)?)?)
}

/// An object of the session is one byte.
fn used_named(store: &[u8], command: &[u8]) -> Option<usize> {
    let object = command::object(command)?;
    match names::session_object(object) {
        Some(_) => Some(1),
        None => Some(record::find(store, object)?.used()),
    }
}

/// The last error may hold a higher number: the refused command is sent again on a session with a last error of 0. No judgment looks at the last error,
/// and a refused command changes nothing else. The room is the same, since 0D looks at it.
fn own_number(kept: &mut Kept, command: &[u8], room: &mut [u8]) -> u8 {
    let mut again = Session {
        error: 0,
        ..kept.session
    };
    Element::new(&mut kept.store, &mut again).send(command, room);
    again.error
}

fn report(
    file: &Path,
    judged: &Report,
    entries: &[Entry],
    exchanges: &[Exchange],
    kept: &Kept,
    options: &Options,
) -> Report {
    let refused = exchanges.iter().filter(|one| one.refused.is_some()).count();
    let undone = exchanges.iter().any(|one| !one.is_done());
    let malformed = judged.status != Status::Done;
    let status = match malformed || undone && !options.accept_refusals {
        true => Status::Differs,
        false => Status::Done,
    };
    if options.plain {
        let text = exchanges.iter().map(Exchange::plain).collect();
        return Report { text, status };
    }
    let mut text = String::new();
    if malformed {
        text.push_str(&format!("{}Every command is refused.\n\n", judged.text));
    }
    for (entry, exchange) in entries.iter().zip(exchanges) {
        text.push_str(&exchange.shown(entry));
    }
    text.push_str(&summary(exchanges, refused));
    text.push_str(&format!("session: {}\n", names::session(kept.session)));
    text.push_str(&match options.dry {
        true => "nothing is kept (--dry)\n".into(),
        false => format!("kept in {0} and {0}.session\n", file.display()),
    });
    Report { text, status }
}

fn summary(exchanges: &[Exchange], refused: usize) -> String {
    let unanswered = exchanges.iter().filter(|one| one.outcome != 0).count();
    let done = exchanges.len() - refused - unanswered;
    let mut text = format!(
        "{}: {done} done, {refused} refused",
        names::count(exchanges.len(), "command")
    );
    if unanswered > 0 {
        text.push_str(&format!(", {unanswered} without room for a response"));
    }
    text.push('\n');
    text
}

#[cfg(test)]
mod tests {
    use super::*;
    use crate::description;
    use crate::hex;
    use element::FACTORY_STORE_SIZE;

    fn factory() -> Kept {
        let mut kept = Kept {
            store: vec![0; FACTORY_STORE_SIZE],
            session: Session::fresh(),
        };
        Element::factory(&mut kept.store, &mut kept.session).unwrap();
        kept
    }

    fn said(kept: &mut Kept, text: &str) -> Exchange {
        send(kept, &hex::bytes(text, 1).unwrap(), LARGEST_ROOM)
    }

    const OPEN: &str = "70 00 00 10 D2 76 00 00 04 47 65 6E 41 75 74 68 41 70 70 6C";

    #[test]
    fn a_refusals_own_number_is_learned() {
        let mut kept = factory();
        said(&mut kept, OPEN);
        let past = said(&mut kept, "02 00 00 05 F1 D0 00 8C 01");
        assert_eq!((past.refused, past.last_error), (Some(8), 8));
        let store = kept.store.clone();
        let missing = said(&mut kept, "01 01 00 02 F2 00");
        assert_eq!((missing.refused, missing.last_error), (Some(1), 8));
        assert_eq!(kept.store, store);
        assert_eq!(kept.session.error, 8);
        let flushed = said(&mut kept, "81 01 00 02 F2 00");
        assert_eq!((flushed.refused, flushed.last_error), (Some(1), 1));
    }

    #[test]
    fn the_counter_that_a_command_names_is_learned() {
        let text = "F1D0 counter up value 8 threshold 10 lcso creation change always read always execute never\nF1D1 maximum 8 lcso creation change always read always execute never data 00 00 00 08 00 00 00 0A";
        let mut kept = Kept {
            store: description::to_store(text).unwrap(),
            session: Session::fresh(),
        };
        said(&mut kept, OPEN);
        let mut left = |text| {
            let exchange = said(&mut kept, text);
            let counter = exchange.counter.map(|counter| counter.state.value);
            (exchange.refused, counter)
        };
        assert_eq!(left("02 02 00 05 F1 D0 00 00 01"), (None, Some(9)));
        assert_eq!(left("02 02 00 05 F1 D0 00 00 FF"), (None, Some(10)));
        assert_eq!(left("02 02 00 05 F1 D0 00 00 01"), (Some(8), Some(10)));
        assert_eq!(left("02 02 00 05 F1 D1 00 00 01"), (Some(3), None));
        assert_eq!(left("02 02 00 05 F1 D2 00 00 01"), (Some(1), None));
    }

    /// A counter of trips, a ticket that is read and a stamp that is written by its conditions, and the counter of these, which asks itself.
    fn ticket() -> Kept {
        let text = "E120 counter up value 1 threshold 3 lcso creation change always read \"counter E120\" execute never
E121 maximum 8 lcso creation change \"counter E123\" read \"LcsO > creation or counter E120 and counter E123\" execute never data 41 42
E123 counter up value 7 threshold 9 lcso creation change \"counter E123\" read always execute never";
        let mut kept = Kept {
            store: description::to_store(text).unwrap(),
            session: Session::fresh(),
        };
        said(&mut kept, OPEN);
        kept
    }

    /// Each counter that moved with its value, and the value that the command itself leaves in the counter it names.
    fn moved(kept: &mut Kept, text: &str) -> (Option<u8>, Option<u32>, Vec<(u16, u32)>) {
        let exchange = said(kept, text);
        let value = |counter: &Counter| counter.state.value;
        let steps = exchange.steps.iter();
        (
            exchange.refused,
            exchange.counter.as_ref().map(value),
            steps.map(|(number, one)| (*number, value(one))).collect(),
        )
    }

    #[test]
    fn the_counters_that_conditions_move_are_learned() {
        let mut kept = ticket();
        let mut moved = |text| moved(&mut kept, text);
        let read = "01 00 00 06 E1 21 00 00 00 02";
        let both = vec![(0xE120, 2), (0xE123, 8)];
        assert_eq!(moved(read), (None, None, both));
        assert_eq!(
            moved("01 00 00 06 E1 21 00 03 00 02"),
            (Some(8), None, vec![])
        );
        assert_eq!(moved("01 01 00 02 E1 21"), (None, None, vec![]));
        let own = vec![(0xE120, 3)];
        let counter = "01 00 00 06 E1 20 00 00 00 08";
        assert_eq!(moved(counter), (None, Some(2), own));
        assert_eq!(moved(counter), (Some(7), Some(3), vec![]));
        assert_eq!(moved(read), (Some(7), None, vec![]));
    }

    #[test]
    fn a_step_after_a_write_or_a_count_is_told_apart() {
        let mut kept = ticket();
        let mut moved = |text| moved(&mut kept, text);
        let write = "02 00 00 0C E1 23 00 00 00 00 00 01 00 00 00 09";
        assert_eq!(moved(write), (None, Some(1), vec![(0xE123, 2)]));
        let count = "02 02 00 05 E1 23 00 00 03";
        assert_eq!(moved(count), (None, Some(5), vec![(0xE123, 6)]));
        let lcso = "02 01 00 07 E1 23 20 03 C0 01 03";
        assert_eq!(moved(lcso), (None, Some(6), vec![(0xE123, 7)]));
        let stamp = "02 40 00 05 E1 21 00 00 43";
        assert_eq!(moved(stamp), (None, None, vec![(0xE123, 8)]));
        let onto = "02 02 00 05 E1 23 00 00 FF";
        assert_eq!(moved(onto), (None, Some(9), vec![]));
        assert_eq!(moved(count), (Some(7), Some(9), vec![]));
    }

    #[test]
    fn what_a_refused_command_asked_of_counters_is_learned() {
        let mut kept = ticket();
        for _ in 0..2 {
            said(&mut kept, "01 00 00 06 E1 21 00 00 00 00");
        }
        let asked = |kept: &mut Kept, text| said(kept, text).asked;
        assert_eq!(
            asked(&mut kept, "81 00 00 06 E1 21 00 00 00 00").as_deref(),
            Some("read: LcsO > creation or counter E120 and counter E123; E120 is 3 of 3, at its threshold, E123 is 9 of 9, at its threshold")
        );
        assert_eq!(
            asked(&mut kept, "02 00 00 05 E1 21 00 00 43").as_deref(),
            Some("change: counter E123; E123 is 9 of 9, at its threshold")
        );
        assert_eq!(asked(&mut kept, "01 00 00 06 E1 22 00 00 00 00"), None);
        assert_eq!(asked(&mut kept, "02 00 00 05 F1 C2 00 00 00"), None);
    }

    /// A queue of 24 bytes with the fare 6, appends granted by a counter; a queue at its last number; an object that is none.
    fn queues() -> Kept {
        let rest = "lcso creation change always read always execute never";
        let text = format!(
            "E130 counter up value 0 threshold 3 {rest}
E131 queue next 7 maximum 24 lcso creation change \"counter E130\" read always execute never fare 41
E132 queue next 4294967294 maximum 64 {rest}
E133 maximum 8 {rest}"
        );
        let mut kept = Kept {
            store: description::to_store(&text).unwrap(),
            session: Session::fresh(),
        };
        said(&mut kept, OPEN);
        kept
    }

    /// The refusal, the numbers of the fares before and after, and the counters that moved.
    fn fares(kept: &mut Kept, text: &str) -> (Option<u8>, [Vec<u32>; 2], usize) {
        let exchange = said(kept, text);
        let numbers = |queue: &Queue| queue.fares.iter().map(|fare| fare.number).collect();
        let (before, after) = exchange.queues.unwrap();
        (
            exchange.refused,
            [numbers(&before), numbers(&after)],
            exchange.steps.len(),
        )
    }

    #[test]
    fn the_queue_that_a_command_names_is_learned() {
        let mut kept = queues();
        let mut fares = |text| fares(&mut kept, text);
        let append = "02 04 00 04 E1 31 42 43";
        assert_eq!(fares(append), (None, [vec![6], vec![6, 7]], 1));
        assert_eq!(fares(append), (Some(0x08), [vec![6, 7], vec![6, 7]], 0));
        let write = "02 00 00 05 E1 31 00 00 00";
        assert_eq!(fares(write), (Some(0x07), [vec![6, 7], vec![6, 7]], 0));
        let six = "02 05 00 06 E1 31 00 00 00 06";
        assert_eq!(fares(six), (None, [vec![6, 7], vec![7]], 1));
        assert_eq!(fares(six), (Some(0x05), [vec![7], vec![7]], 0));
        let read = "01 00 00 06 E1 31 00 00 FF FF";
        assert_eq!(fares(read), (None, [vec![7], vec![7]], 0));
        assert_eq!(said(&mut kept, "02 04 00 03 E1 33 41").queues, None);
        assert_eq!(said(&mut kept, "02 04 00 03 E1 34 41").queues, None);
    }

    #[test]
    fn what_a_queue_does_and_refuses_is_told() {
        let mut kept = queues();
        let mut told = |text: &str| {
            let entry = Entry {
                line: 1,
                note: String::new(),
                bytes: hex::bytes(text, 1).unwrap(),
            };
            kept.session.error = 0;
            let shown = send(&mut kept, &entry.bytes, LARGEST_ROOM).shown(&entry);
            let words = shown.trim_end().lines().last();
            words.unwrap_or_default().trim().to_owned()
        };
        for (text, words) in [
            ("02 04 00 04 E1 31 42 43", "done: fare 7 is appended; 2 fares are present, 6 to 7; 1 byte is free; counter E130 steps to 1 of 3, 2 to go"),
            ("02 04 00 03 E1 31 42", "refused 08: 9 bytes are needed, 1 byte is free"),
            ("01 00 00 06 E1 31 00 00 FF FF", "done: 23 bytes, all from there on: next number 8, fare 6 \"A\", fare 7 \"BC\""),
            ("01 00 00 06 E1 31 00 00 00 17", "done: 23 bytes: next number 8, fare 6 \"A\", fare 7 \"BC\""),
            ("01 00 00 06 E1 31 00 00 00 04", "done: 4 bytes, \"....\""),
            ("02 05 00 06 E1 31 00 00 00 08", "refused 05: fare 8 is not present; 2 fares are present, 6 to 7"),
            ("02 05 00 06 E1 31 00 00 00 07", "done: 2 fares are gone, 6 to 7; no fare is present; 20 bytes are free; counter E130 steps to 2 of 3, 1 to go"),
            ("02 05 00 06 E1 31 00 00 00 07", "refused 05: fare 7 is not present; no fare is present"),
            ("02 40 00 08 E1 31 00 00 00 00 00 00", "refused 07: plain writes to a queue are never granted"),
            ("02 01 00 07 E1 31 20 03 C0 01 03", "done; counter E130 steps to 3 of 3, at its threshold"),
            ("02 04 00 03 E1 31 41", "refused 07: the access condition does not hold (change: counter E130; E130 is 3 of 3, at its threshold)"),
            ("02 04 00 03 E1 32 41", "done: fare 4294967294 is appended; 1 fare is present, number 4294967294; 51 bytes are free"),
            ("02 04 00 03 E1 32 41", "refused 0D: the next number is 4294967295 (FFFFFFFF), which is never given"),
            ("02 05 00 06 E1 32 FF FF FF FF", "refused 05: fare 4294967295 is not present; 1 fare is present, number 4294967294"),
            ("02 04 00 02 E1 33", "refused 04: 0 bytes of a fare's body, expected 1 to 200"),
            ("02 04 00 03 E1 33 41", "refused 03: this object is no queue"),
            ("02 05 00 06 E0 C0 00 00 00 00", "refused 03: this object is no queue"),
            ("02 02 00 05 E1 32 00 00 01", "refused 03: this object is no counter"),
        ] {
            assert_eq!(told(text), words, "{text}");
        }
    }

    #[test]
    fn the_bytes_in_use_are_learned() {
        let mut kept = factory();
        said(&mut kept, OPEN);
        let mut left = |text| {
            let exchange = said(&mut kept, text);
            (exchange.refused, exchange.used)
        };
        assert_eq!(left("01 00 00 06 F1 D0 00 00 00 01"), (None, Some(0)));
        assert_eq!(left("02 00 00 05 F1 D0 00 02 AA"), (None, Some(3)));
        assert_eq!(left("01 00 00 06 F1 D0 00 03 FF FF"), (None, Some(3)));
        assert_eq!(left("01 00 00 06 F1 D0 00 04 00 00"), (Some(8), Some(3)));
        assert_eq!(left("01 00 00 06 F1 C2 00 02 00 01"), (Some(8), Some(1)));
        assert_eq!(left("01 00 00 06 F2 00 00 00 00 01"), (Some(1), None));
        assert_eq!(left("71 00 00 00"), (None, None));
    }

    #[test]
    fn the_room_counts() {
        let mut kept = factory();
        said(&mut kept, OPEN);
        let metadata = hex::bytes("01 01 00 02 F1 D0", 1).unwrap();
        assert_eq!(send(&mut kept, &metadata, 27).refused, Some(0x0D));
        assert_eq!(send(&mut kept, &metadata, 28).refused, None);
        let none = send(&mut kept, &metadata, 3);
        assert_eq!((none.outcome, none.plain().as_str()), (1, "1 \n"));
        said(&mut kept, "02 00 00 07 F1 D0 00 00 0A 0B 0C");
        let all = hex::bytes("01 00 00 06 F1 D0 00 00 FF FF", 1).unwrap();
        assert_eq!(send(&mut kept, &all, 7).plain(), "0 000000030A0B0C\n");
        assert_eq!(send(&mut kept, &all, 6).refused, Some(0x0D));
    }
}
