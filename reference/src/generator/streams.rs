//! Dock streams in the form that `dock_replay` reads: each cut in several ways.

use crate::dock::{Kind, LONGEST_BODY, SHORTEST_FRAME};
use crate::dock_replay::{Item, LARGEST_BODY, LARGEST_PIECE, LARGEST_ROOM};
use crate::generator::frames::{body, right_frame, Damage, RawFrame, Sizes, EDGE_SIZES};
use crate::generator::held::HeldSort;
use crate::generator::random::Random;

/// A generated item, with what it was made to be.
#[derive(Clone, Debug)]
pub struct Case {
    pub item: Item,
    /// For a reset: the damage in the stream that follows.
    pub damage: Option<Damage>,
    /// For a held value: its sort.
    pub held: Option<HeldSort>,
}

impl From<Item> for Case {
    fn from(item: Item) -> Case {
        Case {
            item,
            damage: None,
            held: None,
        }
    }
}

/// Bytes of a stream, and where its frames begin and end.
#[derive(Clone, Debug, Default)]
pub struct Bytes {
    pub bytes: Vec<u8>,
    pub edges: Vec<usize>,
}

impl Bytes {
    fn push(&mut self, bytes: &[u8]) {
        self.bytes.extend_from_slice(bytes);
        self.edges.push(self.bytes.len());
    }

    fn push_right(&mut self, count: usize, sizes: Sizes, random: &mut Random) {
        for _ in 0..count {
            self.push(&right_frame(sizes, random).bytes());
        }
    }
}

/// Right frames, the last of them cut at times.
pub fn sound_stream(sizes: Sizes, random: &mut Random) -> Bytes {
    let mut stream = Bytes::default();
    let count = match sizes {
        Sizes::Short => random.between(1, 2),
        Sizes::Any => random.pick(&[0, 1, 1, 2, 2, 3, 4, 6]),
    };
    stream.push_right(count, sizes, random);
    if random.chance(40) {
        let last = right_frame(sizes, random).bytes();
        let present = random.between(1, last.len() - 1);
        stream.push(&last[..present]);
    }
    stream
}

/// Right frames, one that is damaged, and bytes after it.
pub fn damaged_stream(damage: Damage, sizes: Sizes, random: &mut Random) -> Bytes {
    let mut stream = Bytes::default();
    let before = match sizes {
        Sizes::Short => random.below(2),
        Sizes::Any => random.pick(&[0, 0, 1, 1, 2, 3]),
    };
    stream.push_right(before, sizes, random);
    stream.push(&damage.make(sizes, random).bytes());
    match (sizes, random.below(3)) {
        (Sizes::Any, 0) => stream.push_right(1, sizes, random),
        (_, 1) => {
            let size = random.between(1, 6);
            stream.push(&random.bytes(size));
        }
        _ => {}
    }
    stream
}

/// Any bytes, at times behind a head that may be right.
pub fn random_stream(random: &mut Random) -> Bytes {
    let size = random.between(1, 60);
    let mut bytes = random.bytes(size);
    if random.chance(50) {
        let head = [random.between(5, 40) as u8, 0, random.below(4) as u8, 0];
        bytes.splice(..0, head);
    }
    let mut stream = Bytes::default();
    stream.push(&bytes);
    stream
}

/// The ways to cut a stream into pieces.
#[derive(Clone, Copy, Debug, PartialEq, Eq)]
pub enum Cut {
    Whole,
    Singles,
    Few,
    Many,
    /// Near the beginnings and ends of frames.
    Edges,
    Two,
    /// With empty pieces between.
    Empties,
}

impl Cut {
    pub const ALL: [Cut; 7] = [
        Cut::Whole,
        Cut::Singles,
        Cut::Few,
        Cut::Many,
        Cut::Edges,
        Cut::Two,
        Cut::Empties,
    ];

    /// The pieces, at least one.
    pub fn pieces(self, stream: &Bytes, random: &mut Random) -> Vec<Vec<u8>> {
        let end = stream.bytes.len();
        let mut places = match self {
            Cut::Whole => Vec::new(),
            Cut::Singles => (1..end).collect(),
            Cut::Few => steps(end, 1, 9, random),
            Cut::Many => steps(end, 10, 600, random),
            Cut::Edges => near_edges(stream, random),
            Cut::Two => vec![random.between(0, end)],
            Cut::Empties => steps(end, 0, random.pick(&[1, 12, 300]), random),
        };
        places.push(end);
        let mut pieces = Vec::new();
        let mut start = 0;
        for place in places {
            pieces.push(stream.bytes[start..place].to_vec());
            start = place;
        }
        pieces
    }

    /// A way that seldom makes many pieces of so many bytes.
    fn for_size(size: usize, random: &mut Random) -> Cut {
        match random.pick(&Cut::ALL) {
            Cut::Singles if size > 40 && random.below(300) > 0 => Cut::Edges,
            Cut::Few if size > 160 => Cut::Many,
            Cut::Empties if size > 40 => Cut::Two,
            cut => cut,
        }
    }
}

/// Places with steps of these sizes between them, a step of 0 being an empty piece.
fn steps(end: usize, least: usize, most: usize, random: &mut Random) -> Vec<usize> {
    let mut places = Vec::new();
    let mut place = random.between(least, most);
    while place < end {
        places.push(place);
        place += random.between(least, most);
    }
    places
}

/// Some of the places in the head, at the check and at the end of each frame.
fn near_edges(stream: &Bytes, random: &mut Random) -> Vec<usize> {
    let mut starts = vec![0];
    starts.extend(&stream.edges);
    let mut places = Vec::new();
    for start in starts {
        for shift in 0..=7 {
            // From two bytes before the frame to five after its beginning.
            let place = (start + shift).saturating_sub(2);
            let is_new = places.last().is_none_or(|&last| last < place);
            if is_new && place < stream.bytes.len() && random.chance(40) {
                places.push(place);
            }
        }
    }
    places
}

/// Gives all items of a seed, with at least `count` pieces, one after another.
pub fn streams<E>(
    seed: u64,
    count: usize,
    take: &mut impl FnMut(Case) -> Result<(), E>,
) -> Result<(), E> {
    let mut maker = Maker {
        random: Random::new(seed),
        damages: Turns::new(Damage::all()),
        held: Turns::new(HeldSort::all()),
        made: Vec::new(),
    };
    // A stream before any reset.
    maker.go_on();
    let mut pieces = 0;
    loop {
        for case in maker.made.drain(..) {
            pieces += usize::from(matches!(case.item, Item::Piece(_)));
            take(case)?;
        }
        if pieces >= count {
            return Ok(());
        }
        maker.make_scenario();
    }
}

/// Choices that have their turn one after another.
struct Turns<T> {
    choices: Vec<T>,
    turn: usize,
}

impl<T: Copy> Turns<T> {
    fn new(choices: Vec<T>) -> Turns<T> {
        Turns { choices, turn: 0 }
    }

    fn next(&mut self) -> T {
        let choice = self.choices[self.turn % self.choices.len()];
        self.turn += 1;
        choice
    }
}

/// What is made at a time.
#[derive(Clone, Copy)]
enum Scenario {
    Sound,
    Damaged,
    /// A short stream in two pieces, cut at every place.
    EveryPlace,
    Held,
    Written,
    RandomBytes,
    /// A stream to whatever the one before left.
    GoingOn,
}

const SCENARIOS: [(usize, Scenario); 7] = [
    (14, Scenario::Sound),
    (22, Scenario::Damaged),
    (3, Scenario::EveryPlace),
    (18, Scenario::Held),
    (14, Scenario::Written),
    (5, Scenario::RandomBytes),
    (4, Scenario::GoingOn),
];

struct Maker {
    random: Random,
    damages: Turns<Damage>,
    held: Turns<HeldSort>,
    made: Vec<Case>,
}

impl Maker {
    fn make_scenario(&mut self) {
        match self.random.pick_weighted(&SCENARIOS) {
            Scenario::Sound => {
                let stream = sound_stream(Sizes::Any, &mut self.random);
                self.cut_in_ways(&stream, None);
            }
            Scenario::Damaged => self.damaged(),
            Scenario::EveryPlace => self.every_place(),
            Scenario::Held => self.held(),
            Scenario::Written => {
                for _ in 0..self.random.between(2, 6) {
                    self.written();
                }
            }
            Scenario::RandomBytes => {
                let stream = random_stream(&mut self.random);
                self.cut_in_ways(&stream, None);
            }
            Scenario::GoingOn => self.go_on(),
        }
    }

    fn reset(&mut self, fill: u8, damage: Option<Damage>) {
        self.made.push(Case {
            damage,
            ..Item::New { fill }.into()
        });
    }

    fn fill(&mut self) -> u8 {
        match self.random.chance(50) {
            true => self.random.pick(&[0x00, 0x01, 0xA5, 0xFF]),
            false => self.random.byte(),
        }
    }

    fn feed(&mut self, pieces: Vec<Vec<u8>>) {
        let cases = pieces.into_iter().map(|piece| Item::Piece(piece).into());
        self.made.extend(cases);
    }

    fn feed_cut(&mut self, stream: &Bytes) {
        let cut = Cut::for_size(stream.bytes.len(), &mut self.random);
        let pieces = cut.pieces(stream, &mut self.random);
        self.feed(pieces);
    }

    /// The same stream in several ways, the lent bytes alike before each.
    fn cut_in_ways(&mut self, stream: &Bytes, damage: Option<Damage>) {
        let fill = self.fill();
        for _ in 0..self.random.between(2, 4) {
            self.reset(fill, damage);
            self.feed_cut(stream);
        }
    }

    /// A damaged stream; after it at times more pieces, and a reset with a right frame.
    fn damaged(&mut self) {
        let damage = self.damages.next();
        let stream = damaged_stream(damage, Sizes::Any, &mut self.random);
        self.cut_in_ways(&stream, Some(damage));
        if self.random.chance(40) {
            self.go_on();
        }
        if self.random.chance(50) {
            let fill = self.fill();
            self.reset(fill, None);
            self.go_on();
        }
    }

    fn every_place(&mut self) {
        let (stream, damage) = match self.random.chance(60) {
            true => {
                let damage = self.damages.next();
                let stream = damaged_stream(damage, Sizes::Short, &mut self.random);
                (stream, Some(damage))
            }
            false => (sound_stream(Sizes::Short, &mut self.random), None),
        };
        let fill = self.fill();
        for place in 0..=stream.bytes.len() {
            self.reset(fill, damage);
            let (first, rest) = stream.bytes.split_at(place);
            self.feed(vec![first.to_vec(), rest.to_vec()]);
        }
        self.reset(fill, damage);
        let singles = Cut::Singles.pieces(&stream, &mut self.random);
        self.feed(singles);
    }

    /// A held value of the next sort, fed in two ways.
    fn held(&mut self) {
        let sort = self.held.next();
        let held = sort.make(&mut self.random);
        let fed = Bytes {
            edges: vec![held.fed.len()],
            bytes: held.fed,
        };
        for _ in 0..2 {
            let (stream, lent) = (held.stream, held.lent.clone());
            self.made.push(Case {
                held: Some(sort),
                ..Item::Held { stream, lent }.into()
            });
            if self.random.chance(40) {
                self.feed(vec![Vec::new()]);
            }
            self.feed_cut(&fed);
        }
    }

    /// A frame to write, and the same frame to read.
    fn written(&mut self) {
        let size = written_size(&mut self.random);
        let body = body(size, &mut self.random);
        let room = room_size(size, &mut self.random);
        let kind = self.random.pick(&Kind::ALL);
        let item = Item::Write {
            kind,
            room: match self.random.chance(50) {
                true => self.random.bytes(room),
                false => vec![self.random.byte(); room],
            },
            body: body.clone(),
        };
        self.made.push(item.into());
        if size <= LONGEST_BODY && self.random.chance(20) {
            let fill = self.fill();
            self.reset(fill, None);
            let mut stream = Bytes::default();
            stream.push(&RawFrame::new(kind, body).bytes());
            self.feed_cut(&stream);
        }
    }

    fn go_on(&mut self) {
        let mut stream = sound_stream(Sizes::Any, &mut self.random);
        if !self.random.chance(12) {
            return self.feed_cut(&stream);
        }
        stream.push_right(3, Sizes::Any, &mut self.random);
        if self.random.chance(12) {
            // The longest piece that an item has.
            while stream.bytes.len() < LARGEST_PIECE {
                stream.push_right(9, Sizes::Any, &mut self.random);
            }
            stream.bytes.truncate(LARGEST_PIECE);
        }
        self.feed(vec![stream.bytes]);
    }
}

/// The size of a body to write, at times too large.
fn written_size(random: &mut Random) -> usize {
    match random.below(20) {
        0..=7 => random.pick(&EDGE_SIZES),
        8 | 9 => LONGEST_BODY,
        10..=12 => LONGEST_BODY + random.between(1, 3),
        13 => random.between(LONGEST_BODY, LARGEST_BODY),
        14..=17 => random.between(0, 60),
        _ => random.between(0, LONGEST_BODY),
    }
}

/// The size of a room: enough, more, one short, less or none.
fn room_size(body: usize, random: &mut Random) -> usize {
    let enough = body + SHORTEST_FRAME;
    let room = match random.below(10) {
        0..=2 => enough,
        3 | 4 => enough - 1,
        5 => enough + 1,
        6 => enough + random.between(2, 300),
        7 => 0,
        8 => random.between(0, 6),
        _ => random.between(0, enough),
    };
    room.min(LARGEST_ROOM)
}
