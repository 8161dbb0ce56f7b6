//! Measures the proved library against the reference, over lists of commands of every kind and streams of frames.
//!
//! Both sides run the same lists from the same stores and sessions, by turns. Every figure is the median of the rounds,
//! in time of the processor, so that other programs disturb it little. A difference between the sides ends the run.
//!
//! usage: speed          all rounds; also draws the pictures in docs/pictures
//!        speed short    one round, to see that both sides do the same

mod clock;
mod dock;
mod library;
mod lists;
mod pictures;
mod queues;
mod sides;
mod stores;

use std::hint::black_box;
use std::rc::Rc;
use std::{env, fs, io};

use reference::generator::random::Random;
use reference::store::LARGEST_STORE;
use reference::Session;

use clock::Clock;
use lists::{List, ROOM, ROWS};
use pictures::{Pair, Point, Scale, Series};
use queues::Fares;
use sides::{Ours, Reference, Side};
use stores::{Beginning, Object, LARGEST};

fn is_short() -> bool {
    env::args().nth(1).as_deref() == Some("short")
}

/// The rounds of a list of one kind, and of a table that is drawn.
const KIND_ROUNDS: usize = 11;
const DRAWN_ROUNDS: usize = 101;

/// The commands of a list by size: all lists of the table stay in the processor's memory.
const SIZED_COMMANDS: usize = 1_000;

/// What a list leaves: store, session, room, and the sum of the outcomes.
#[derive(PartialEq)]
struct Left {
    store: Vec<u8>,
    session: Session,
    room: Vec<u8>,
    outcomes: u64,
}

/// Runs a list; gives the nanoseconds per command, and what it leaves.
fn run<S: Side>(list: &List, begin: &Beginning) -> (f64, Left) {
    if !begin.put_back.is_empty() {
        return run_put_back::<S>(list, begin);
    }
    let mut store = begin.store.clone();
    let mut kept = S::keep(begin.session);
    let mut room = vec![0xA5; ROOM];
    let mut outcomes = 0;
    let start = Clock::start();
    for (command, size) in black_box(list) {
        outcomes += u64::from(S::execute(
            command,
            &mut store,
            &mut kept,
            &mut room[..*size],
        ));
    }
    let time = start.nanoseconds() / list.len() as f64;
    let session = S::session(kept);
    (
        time,
        Left {
            store,
            session,
            room,
            outcomes,
        },
    )
}

/// The same, where each command is to meet the same bytes; the time of putting them back is taken off.
/// As many stores as are no larger than one full store are put back at once, so that a command seldom comes right behind its copy.
fn run_put_back<S: Side>(list: &List, begin: &Beginning) -> (f64, Left) {
    let mut stores = vec![begin.store.clone(); LARGEST_STORE / begin.store.len()];
    let mut kept = S::keep(begin.session);
    let mut room = vec![0xA5; ROOM];
    let mut outcomes = 0;
    let turns = list.chunks(stores.len());
    let before = time_of_putting_back(turns.len(), &mut stores, begin);
    let start = Clock::start();
    for commands in black_box(turns) {
        put_all_back(&mut stores, begin);
        outcomes += execute_each::<S>(commands, &mut stores, &mut kept, &mut room);
    }
    let time = (start.nanoseconds() - before) / list.len() as f64;
    let last = (list.len() - 1) % stores.len();
    let left = Left {
        store: stores.swap_remove(last),
        session: S::session(kept),
        room,
        outcomes,
    };
    (time, left)
}

/// Executes each command on its own store; gives the sum of the outcomes.
fn execute_each<S: Side>(
    commands: &[(Vec<u8>, usize)],
    stores: &mut [Vec<u8>],
    kept: &mut S::Kept,
    room: &mut [u8],
) -> u64 {
    let mut outcomes = 0;
    for ((command, size), store) in commands.iter().zip(stores) {
        outcomes += u64::from(S::execute(command, store, kept, &mut room[..*size]));
    }
    outcomes
}

/// Puts back the bytes that each command is to meet as they were at the beginning.
fn put_back(store: &mut [u8], begin: &Beginning) {
    let part = begin.put_back.clone();
    store[part.clone()].copy_from_slice(&begin.store[part]);
}

fn put_all_back(stores: &mut [Vec<u8>], begin: &Beginning) {
    for store in stores {
        put_back(store, begin);
    }
}

/// The nanoseconds of it alone, so many times.
fn time_of_putting_back(times: usize, stores: &mut [Vec<u8>], begin: &Beginning) -> f64 {
    let start = Clock::start();
    for _ in 0..times {
        put_all_back(black_box(stores), black_box(begin));
    }
    start.nanoseconds()
}

/// Compares the two sides after every command; gives what both leave.
fn compare(name: &str, list: &List, begin: &Beginning) -> Left {
    let mut stores = [begin.store.clone(), begin.store.clone()];
    let mut rooms = [vec![0xA5; ROOM], vec![0xA5; ROOM]];
    let mut ours = Ours::keep(begin.session);
    let mut theirs = begin.session;
    let mut sum = 0;
    for (place, (command, size)) in list.iter().enumerate() {
        stores.iter_mut().for_each(|store| put_back(store, begin));
        let outcomes = [
            Ours::execute(command, &mut stores[0], &mut ours, &mut rooms[0][..*size]),
            Reference::execute(command, &mut stores[1], &mut theirs, &mut rooms[1][..*size]),
        ];
        let alike = outcomes[0] == outcomes[1]
            && Ours::session(ours) == theirs
            && rooms[0] == rooms[1]
            && stores[0] == stores[1];
        assert!(
            alike,
            "{name}: the two sides differ at command {place}: {command:02X?}"
        );
        sum += u64::from(outcomes[0]);
    }
    let ([store, _], [room, _]) = (stores, rooms);
    Left {
        store,
        session: theirs,
        room,
        outcomes: sum,
    }
}

/// Every command of a kind is refused with the kind's code, or none is refused.
fn expect(name: &str, list: &List, begin: &Beginning, code: Option<u8>) {
    let mut store = begin.store.clone();
    let mut room = vec![0x00; ROOM];
    let mut kept = begin.session;
    for (command, size) in list {
        put_back(&mut store, begin);
        Reference::execute(command, &mut store, &mut kept, &mut room[..*size]);
        let status = if code.is_some() { 0xFF } else { 0x00 };
        let right = room[0] == status && kept.error == code.unwrap_or(0);
        assert!(
            right,
            "{name}: a command that is not of this kind: {command:02X?}"
        );
    }
}

fn median(mut values: Vec<f64>) -> f64 {
    values.sort_by(f64::total_cmp);
    values[values.len() / 2]
}

/// A row to be measured: each side once, in nanoseconds.
struct Timed<'a> {
    name: String,
    size: usize,
    ours: Box<dyn Fn() -> f64 + 'a>,
    theirs: Box<dyn Fn() -> f64 + 'a>,
}

/// The medians of both sides and of the ratio of each round; the sides take turns at being first.
/// All rows are measured in each round, so that a slow while of the machine falls on all of them.
fn rounds(rows: &[Timed], count: usize) -> Vec<[f64; 3]> {
    let mut times = vec![[const { Vec::new() }; 3]; rows.len()];
    for round in 0..if is_short() { 1 } else { count } {
        for (row, times) in rows.iter().zip(&mut times) {
            let (a, b) = match round % 2 {
                0 => {
                    let a = (row.ours)();
                    (a, (row.theirs)())
                }
                _ => {
                    let b = (row.theirs)();
                    ((row.ours)(), b)
                }
            };
            times[0].push(a);
            times[1].push(b);
            times[2].push(a / b);
        }
    }
    times.into_iter().map(|all| all.map(median)).collect()
}

fn heading(title: &str, first: &str) {
    println!("\n{title}\n");
    println!("| {first} | library, ns | reference, ns | library / reference |");
    println!("|---|---|---|---|");
}

/// Measures the rows and prints them; gives size, library and reference of each.
fn measure(rows: &[Timed], count: usize) -> Vec<Point> {
    let print = |(row, [ours, theirs, ratio]): (&Timed, [f64; 3])| {
        println!("| {} | {ours:.0} | {theirs:.0} | {ratio:.2} |", row.name);
        (row.size as f64, ours, theirs)
    };
    rows.iter().zip(rounds(rows, count)).map(print).collect()
}

/// A row of a list, after which both sides must leave the same.
fn over<'a>(name: String, size: usize, list: &'a List, begin: &'a Beginning) -> Timed<'a> {
    let left = Rc::new(compare(&name, list, begin));
    let [here, there] = [left.clone(), left];
    Timed {
        name,
        size,
        ours: Box::new(move || same(run::<Ours>(list, begin), &here)),
        theirs: Box::new(move || same(run::<Reference>(list, begin), &there)),
    }
}

fn same((time, after): (f64, Left), left: &Left) -> f64 {
    assert!(after == *left, "what a side leaves differs");
    time
}

/// A store to measure on: its heading, its name in a picture, and the beginning.
struct Measured {
    title: &'static str,
    name: &'static str,
    begin: Beginning,
}

/// The mixed list on each store.
fn mixed(stores: &[Measured]) -> Vec<Pair> {
    let random = &mut Random::new(1);
    heading("Mixed lists", "10,000 commands of every kind, on a store");
    let mut lists = Vec::new();
    for store in stores {
        lists.push(lists::mixed(&store.begin, random));
    }
    let mut rows = Vec::new();
    for (store, list) in stores.iter().zip(&lists) {
        rows.push(over(store.title.to_string(), 0, list, &store.begin));
    }
    let names = stores.iter().map(|store| store.name);
    let pair = |(name, (_, ours, theirs))| Pair { name, ours, theirs };
    names.zip(measure(&rows, DRAWN_ROUNDS)).map(pair).collect()
}

/// A list of each kind.
fn kinds(title: &str, begin: &Beginning) {
    let random = &mut Random::new(1);
    heading(title, "commands");
    for lists::Row { name, kind, code } in ROWS {
        if !kind.has_objects(begin) {
            continue;
        }
        let from = kind.begin(begin);
        let list = lists::of_kind(kind, &from, random);
        expect(name, &list, &from, code);
        measure(&[over(name.to_string(), 0, &list, &from)], KIND_ROUNDS);
    }
}

/// The names of the lines by store size, in the order of the rows of a count.
const SHAPES: [&str; 3] = [
    "maximum 16, none in use",
    "largest maximum, none in use",
    "largest maximum, all in use",
];

/// A row of a store's check alone.
fn checked(name: String, size: usize, store: Vec<u8>) -> Timed<'static> {
    let store = Rc::new(store);
    let [here, there] = [store.clone(), store];
    Timed {
        name,
        size,
        ours: Box::new(move || check::<Ours>(&here)),
        theirs: Box::new(move || check::<Reference>(&there)),
    }
}

/// The time of a store's check alone, by its records.
fn checks() -> [Series; 3] {
    let random = &mut Random::new(2);
    let mut rows = Vec::new();
    heading("Check of a store alone", "records");
    for count in [1, 2, 4, 8, 16, 32] {
        let large = (16_384 / count - 96).min(LARGEST);
        for (maximum, in_use) in [(16, false), (large, false), (large, true)] {
            let used = if in_use { "all" } else { "none" };
            let name = format!("{count} × maximum {maximum}, {used} in use");
            let store = stores::alike(count, maximum, in_use, random);
            rows.push(checked(name, count, store));
        }
    }
    let points = measure(&rows, DRAWN_ROUNDS);
    [0, 1, 2].map(|shape| Series {
        name: SHAPES[shape],
        points: points.iter().copied().skip(shape).step_by(3).collect(),
    })
}

fn check<S: Side>(store: &[u8]) -> f64 {
    const TIMES: usize = 2_000;
    let start = Clock::start();
    for _ in 0..TIMES {
        assert!(S::check_store(black_box(store)));
    }
    start.nanoseconds() / TIMES as f64
}

/// The time of a command by the bytes that it reads or writes, at the largest objects of the factory store.
fn sizes(begin: &Beginning) -> [Series; 2] {
    let random = &mut Random::new(3);
    heading("Bytes of an answer or a write, factory store", "command");
    let large = |objects: &[Object]| objects[objects.len() - 1];
    let (read, written) = (large(&begin.read), large(&begin.written));
    let mut made = Vec::new();
    for length in [0, 16, 64, 256, 1_024, 1_500] {
        let commands = (0..SIZED_COMMANDS).map(|_| lists::get_data(read, length, random));
        made.push(("get", length, with_room(commands)));
    }
    for length in [1, 16, 64, 256, 1_024, 1_500] {
        let commands = (0..SIZED_COMMANDS).map(|_| lists::write(0x00, written, length, random));
        made.push(("write", length, with_room(commands)));
    }
    let rows: Vec<Timed> = made
        .iter()
        .map(|(name, length, list)| over(format!("{name} of {length} bytes"), *length, list, begin))
        .collect();
    let points = measure(&rows, DRAWN_ROUNDS);
    let (gets, writes) = points.split_at(6);
    [("get", gets), ("write", writes)].map(|(name, points)| Series {
        name,
        points: points.to_vec(),
    })
}

/// The stores of full queues: how many, their maximum, the bodies of their fares.
const FULL_QUEUES: [(usize, usize, usize); 4] = [
    (1, LARGEST, 1),
    (1, LARGEST, 200),
    (32, 416, 1),
    (32, 416, 198),
];

/// The time of the check of a store of full queues, and of the same bytes as data.
fn queue_checks() {
    let random = &mut Random::new(5);
    let mut rows = Vec::new();
    heading("Check of a store of full queues alone", "records");
    for (count, maximum, body) in FULL_QUEUES {
        let fares = Fares::filling(maximum, body);
        let store = stores::alike_queues(count, maximum, fares, random);
        let name = format!("{count} × maximum {maximum}, {}", fares.words());
        let (data_name, data) = (format!("{name}, as data"), stores::as_data(&store));
        rows.push(checked(name, count, store));
        rows.push(checked(data_name, count, data));
    }
    measure(&rows, DRAWN_ROUNDS);
}

/// The queues by their fares: how many, and the bytes of a body.
const FILLS: [(usize, usize); 7] = [
    (0, 1),
    (10, 1),
    (50, 1),
    (150, 1),
    (1, 200),
    (3, 200),
    (7, 200),
];

/// The commands to a queue with these fares: an append, and acknowledgements of the first, the middle and the last one.
fn to_queue(number: u16, fares: Fares, random: &mut Random) -> Vec<(&'static str, Vec<u8>)> {
    let count = fares.count as u32;
    let acknowledged = [
        ("acknowledge the first", count),
        ("acknowledge the middle", count / 2 + 1),
        ("acknowledge the last", 1),
    ];
    let mut commands = vec![("append 16 bytes", lists::append(number, 16, random))];
    for (name, behind) in acknowledged.into_iter().take(fares.count) {
        commands.push((name, lists::acknowledge(number, fares.next - behind)));
    }
    commands
}

/// Lists of one command to a queue each, by its fares.
fn lists_by_fares() -> Vec<(String, List, Rc<Beginning>)> {
    let random = &mut Random::new(6);
    let mut made = Vec::new();
    for (count, body) in FILLS {
        let fares = Fares::some(count, body);
        let begin = Rc::new(stores::one_queue(fares, random));
        let commands = to_queue(begin.queues[0].number, fares, random);
        made.extend(commands.into_iter().map(|(name, command)| {
            let name = format!("{name}, {}", fares.words());
            (name, vec![(command, ROOM); SIZED_COMMANDS], begin.clone())
        }));
    }
    made
}

/// The time of an append and of an acknowledgement by the fares of a queue, on a store of that queue alone.
fn by_fares() {
    heading(
        "A command to a queue of maximum 1,500, by its fares",
        "command",
    );
    let made = lists_by_fares();
    let mut rows = Vec::new();
    for (name, list, begin) in &made {
        expect(name, list, begin, None);
        rows.push(over(name.clone(), 0, list, begin));
    }
    measure(&rows, DRAWN_ROUNDS);
}

fn with_room(commands: impl Iterator<Item = Vec<u8>>) -> List {
    commands.map(|command| (command, ROOM)).collect()
}

fn draw(mixed: &[Pair], checked: &[Series], sized: &[Series]) -> io::Result<()> {
    let title = "A command of a mixed list, by store";
    let text = pictures::bars(title, "10,000 commands of every kind", mixed);
    fs::write("docs/pictures/mixed.svg", text)?;
    let title = "Check of a store, by its records";
    let scale = Scale {
        most: 32.0,
        step: 8.0,
    };
    let text = pictures::lines(title, "records in the store", scale, checked);
    fs::write("docs/pictures/check.svg", text)?;
    let title = "A command, by the bytes that it reads or writes";
    let scale = Scale {
        most: 1_500.0,
        step: 250.0,
    };
    let text = pictures::lines(title, "bytes read or written, factory store", scale, sized);
    fs::write("docs/pictures/answer.svg", text)
}

fn main() {
    let random = &mut Random::new(4);
    let stores = [
        Measured {
            title: "factory: 14 records, 6,024 bytes",
            name: "factory",
            begin: stores::factory(random),
        },
        Measured {
            title: "full: 32 records, 16,384 bytes",
            name: "full",
            begin: stores::full(stores::SHORT_ONES, random),
        },
        Measured {
            title: "full, with expressions of 27 bytes",
            name: "27 bytes",
            begin: stores::full(stores::LONG_ONES, random),
        },
        Measured {
            title: "full, a condition on a counter in half of the records",
            name: "counters",
            begin: stores::half(stores::COUNTED_ONES, random),
        },
        Measured {
            title: "full, groups with conditions on counters in half of the records",
            name: "counters in groups",
            begin: stores::half(stores::GROUPED_ONES, random),
        },
    ];
    let mixed = mixed(&stores);
    let checked = checks();
    queue_checks();
    let sized = sizes(&stores[0].begin);
    by_fares();
    dock::streams(&stores[1].begin);
    for store in &stores {
        kinds(&format!("Each kind alone, {}", store.title), &store.begin);
    }
    if !is_short() {
        draw(&mixed, &checked, &sized).expect("the pictures cannot be written to docs/pictures");
    }
}
