//! `show`: the objects of a store in readable form.
use std::path::Path;

use element::Session;

use crate::check;
use crate::counter::{self, Counter, Direction};
use crate::description;
use crate::expression;
use crate::hex;
use crate::keep::Kept;
use crate::names;
use crate::queue::{Fare, Queue};
use crate::record::{self, Record};
use crate::trouble::{Report, Status, Trouble};

const BAR: usize = 20;

/// `show FILE`, or with a description of it.
pub fn show(file: &Path, as_description: bool) -> Result<Report, Trouble> {
    let (store, session) = match as_description {
        true => (Kept::load_store(file)?, Session::fresh()),
        false => {
            let kept = Kept::load(file)?;
            (kept.store, kept.session)
        }
    };
    let judged = check::judged(&file.display().to_string(), &store);
    if judged.status != Status::Done {
        return Ok(judged);
    }
    if as_description {
        return Ok(Report::done(description::of_store(&store)));
    }
    let mut text = judged.text;
    text.push_str(&format!("session: {}\n", names::session(session)));
    for record in record::records(&store) {
        text.push('\n');
        text.push_str(&object(&record, &store));
    }
    Ok(Report::done(text))
}

/// An object; beside an expression stands what its conditions on counters find in the store.
fn object(record: &Record, store: &[u8]) -> String {
    let mut text = format!(
        "{:04X}  kind {:04X}  {}  LcsO {}\n",
        record.object(),
        record.kind(),
        how_far(record),
        names::state_shown(record.lcso()),
    );
    for (index, name) in names::SLOTS.iter().enumerate() {
        let bytes = record.expression(index);
        let shown = expression::to_text(bytes).unwrap_or_else(|why| why);
        text.push_str(&format!("      {name:<8} {shown}{}\n", found(bytes, store)));
    }
    text.push_str(&content(record));
    text
}

/// The data in use, row by row; of a queue the next number, then each fare.
fn content(record: &Record) -> String {
    let Some(queue) = Queue::of(record) else {
        return hex::rows(record.data(), "      ");
    };
    let fare = |Fare { number, body }: &Fare| {
        let bytes = names::count(body.len(), "byte");
        format!(
            "      fare {number}, {bytes}\n{}",
            hex::rows(body, "      ")
        )
    };
    let fares: String = queue.fares.iter().map(fare).collect();
    format!(
        "      {:<8} {}; {}\n{fares}",
        "next",
        queue.next_in_words(),
        queue.present()
    )
}

fn found(bytes: &[u8], store: &[u8]) -> String {
    let found: Vec<String> = expression::counters(bytes)
        .iter()
        .map(|number| counter::found(store, *number))
        .collect();
    match found.is_empty() {
        true => String::new(),
        false => format!("  ({})", found.join(", ")),
    }
}

/// How full an object is, or how far a counter is. A counter down has no bar: the value that it began with is not kept.
fn how_far(record: &Record) -> String {
    let (used, maximum) = (record.used(), record.maximum());
    let full = format!("{}  used {used} of {maximum}", bar(used, maximum));
    if let Some(queue) = Queue::of(record) {
        return format!("queue  {full}, {} free", queue.free());
    }
    let Some(counter) = Counter::of(record) else {
        return full;
    };
    let name = format!("counter {}", counter.direction.name());
    let words = counter.in_words();
    match counter.direction {
        Direction::Up => format!("{name}  {}  {words}", counter_bar(&counter)),
        Direction::Down => format!("{name}  {words}"),
    }
}

/// How far a counter up is: full from its threshold on.
fn counter_bar(counter: &Counter) -> String {
    let element::Counter { value, threshold } = counter.state;
    match counter.to_go() {
        Some(1..) => bar(value as usize, threshold as usize),
        _ => bar(1, 1),
    }
}

/// How full an object is: one byte in use is seen, and so is one that is free.
fn bar(used: usize, maximum: usize) -> String {
    let share = (used * BAR).checked_div(maximum).unwrap_or(0);
    let full = match used {
        0 => 0,
        _ if used < maximum => share.clamp(1, BAR - 1),
        _ => BAR,
    };
    format!("[{}{}]", "#".repeat(full), ".".repeat(BAR - full))
}

#[cfg(test)]
mod tests {
    use super::*;

    #[test]
    fn the_bar_tells_empty_and_full_apart() {
        assert_eq!(bar(0, 140), "[....................]");
        assert_eq!(bar(1, 1500), "[#...................]");
        assert_eq!(bar(70, 140), "[##########..........]");
        assert_eq!(bar(1499, 1500), "[###################.]");
        assert_eq!(bar(1, 1), "[####################]");
        assert_eq!(bar(9, 0), "[####################]");
    }

    #[test]
    fn the_bar_of_a_counter_is_full_from_its_threshold_on() {
        let of = |value, threshold| {
            let state = element::Counter { value, threshold };
            let direction = Direction::Up;
            counter_bar(&Counter { direction, state })
        };
        assert_eq!(of(0, 300), "[....................]");
        assert_eq!(of(12, 300), "[#...................]");
        assert_eq!(of(150, 300), "[##########..........]");
        assert_eq!(of(u32::MAX - 1, u32::MAX), "[###################.]");
        for (value, threshold) in [(300, 300), (301, 300), (0, 0), (u32::MAX, 0)] {
            assert_eq!(of(value, threshold), "[####################]");
        }
    }

    /// A counter as it is shown.
    fn shown(line: &str) -> String {
        let store = description::to_store(line).unwrap();
        object(&record::records(&store)[0], &store)
    }

    #[test]
    fn a_counter_up_is_shown() {
        let line = "F1D0 counter up value 12 threshold 300 lcso operational change always read always execute never";
        assert_eq!(
            shown(line),
            "F1D0  kind 0002  counter up  [#...................]  12 of 300, 288 to go  LcsO 07 operational\n      change   always\n      read     always\n      execute  never\n         0  00 00 00 0C 00 00 01 2C                          .......,\n"
        );
        let first = |value| {
            let text = shown(&line.replace("12", value));
            text.lines().next().map(str::to_owned)
        };
        assert_eq!(
            first("300").as_deref(),
            Some("F1D0  kind 0002  counter up  [####################]  300 of 300, at its threshold  LcsO 07 operational")
        );
        assert_eq!(
            first("301").as_deref(),
            Some("F1D0  kind 0002  counter up  [####################]  301 of 300, past its threshold  LcsO 07 operational")
        );
    }

    #[test]
    fn a_counter_down_is_shown() {
        let line = "F1D1 counter down value 10 threshold 2 lcso creation change \"LcsO < operational\" read always execute never";
        assert_eq!(
            shown(line),
            "F1D1  kind 0004  counter down  10 down to 2, 8 to go  LcsO 01 creation\n      change   LcsO < operational\n      read     always\n      execute  never\n         0  00 00 00 0A 00 00 00 02                          ........\n"
        );
    }

    #[test]
    fn a_queue_is_shown() {
        let line = "F1D3 queue next 3 maximum 64 lcso operational change always read always execute never fare 46 41 52 45 fare 00 57 4F";
        assert_eq!(
            shown(line),
            "F1D3  kind 0003  queue  [########............]  used 27 of 64, 37 free  LcsO 07 operational\n      change   always\n      read     always\n      execute  never\n      next     3; 2 fares are present, 1 to 2\n      fare 1, 4 bytes\n         0  46 41 52 45                                      FARE\n      fare 2, 3 bytes\n         0  00 57 4F                                         .WO\n"
        );
        let last = |line| shown(line).lines().last().map(str::to_owned);
        let empty = line.split(" fare").next().unwrap();
        assert_eq!(
            last(empty).as_deref(),
            Some("      next     3; no fare is present")
        );
        assert_eq!(
            last(&empty.replace("next 3", "next 4294967295")).as_deref(),
            Some("      next     4294967295 (FFFFFFFF), which is never given; no fare is present")
        );
    }

    #[test]
    fn an_object_is_shown() {
        let line = "F1D0 maximum 10 lcso operational change \"LcsO < operational\" read always execute never data 41 00";
        let store = description::to_store(line).unwrap();
        let shown = object(&record::records(&store)[0], &store);
        assert_eq!(
            shown,
            "F1D0  kind 0001  [####................]  used 2 of 10  LcsO 07 operational\n      change   LcsO < operational\n      read     always\n      execute  never\n         0  41 00                                            A.\n"
        );
    }

    #[test]
    fn what_conditions_on_counters_find_is_shown() {
        let text = "E120 counter up value 1 threshold 3 lcso creation change never read always execute never\nE121 maximum 8 lcso creation change \"counter E124 or counter E121\" read \"LcsO < operational or counter E120\" execute never";
        let store = description::to_store(text).unwrap();
        let shown = object(&record::records(&store)[1], &store);
        assert_eq!(
            shown,
            "E121  kind 0001  [....................]  used 0 of 8  LcsO 01 creation\n      change   counter E124 or counter E121  (E124 is not in the store, E121 is no counter up)\n      read     LcsO < operational or counter E120  (E120 is 1 of 3, 2 to go)\n      execute  never\n"
        );
    }
}
