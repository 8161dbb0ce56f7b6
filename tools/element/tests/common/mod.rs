//! Numbers that look random, the same for each seed.

/// A generator of numbers.
pub struct Numbers(u64);

#[allow(dead_code)]
impl Numbers {
    /// The generator of a seed.
    pub fn new(seed: u64) -> Numbers {
        Numbers(seed.wrapping_mul(2).wrapping_add(1))
    }

    /// A number below the limit, which is above 0.
    pub fn below(&mut self, limit: usize) -> usize {
        self.0 ^= self.0 << 13;
        self.0 ^= self.0 >> 7;
        self.0 ^= self.0 << 17;
        (self.0 >> 16) as usize % limit
    }

    /// Any byte.
    pub fn byte(&mut self) -> u8 {
        self.below(256) as u8
    }

    /// Any bytes, fewer than the limit.
    pub fn bytes(&mut self, limit: usize) -> Vec<u8> {
        let count = self.below(limit);
        (0..count).map(|_| self.byte()).collect()
    }

    /// One of the values.
    pub fn one<T: Copy>(&mut self, values: &[T]) -> T {
        values[self.below(values.len())]
    }

    /// Words of a grammar and of none, in any order.
    pub fn text(&mut self, words: &[&str]) -> String {
        let count = self.below(30);
        let text: Vec<&str> = (0..count).map(|_| self.one(words)).collect();
        text.join(self.one(&[" ", "", "  ", "\n", "\r\n"]))
    }
}

/// An expression in its readable form.
#[allow(dead_code)]
pub fn expression(numbers: &mut Numbers) -> String {
    let mut text = match numbers.below(4) {
        0 => return "always".into(),
        1 => return "never".into(),
        _ => condition(numbers),
    };
    let mut groups = 1;
    for _ in 0..numbers.below(7) {
        let joint = match groups {
            3 => "and",
            _ => numbers.one(&["and", "or"]),
        };
        groups += usize::from(joint == "or");
        text = format!("{text} {joint} {}", condition(numbers));
    }
    text
}

/// A condition on a life cycle, or on a counter of any number, with the bytes that join among them.
fn condition(numbers: &mut Numbers) -> String {
    if numbers.below(3) == 0 {
        let [high, low] = [(); 2].map(|()| match numbers.below(3) {
            0 => numbers.one(&[0xFD, 0xFE]),
            _ => numbers.byte(),
        });
        return format!("counter {high:02X}{low:02X}");
    }
    let states = ["creation", "initialisation", "operational", "termination"];
    format!(
        "{} {} {}",
        numbers.one(&["LcsG", "LcsA", "LcsO"]),
        numbers.one(&["=", ">", "<"]),
        numbers.one(&states)
    )
}

/// A description as `show --description` writes it, of a well-formed store.
#[allow(dead_code)]
pub fn description(numbers: &mut Numbers) -> String {
    let (mut lines, mut object, mut size) = (String::new(), 0, 0);
    for _ in 0..1 + numbers.below(32) {
        object += 1 + numbers.below(2000);
        let kind = numbers.one(&["counter", "queue", "data", "data"]);
        let maximum = match kind {
            "counter" => 8,
            "queue" => 4 + numbers.below(numbers_limit(size) - 4),
            _ => 1 + numbers.below(numbers_limit(size)),
        };
        if [0xE0C0, 0xF1C0, 0xF1C2].contains(&object) || size + 96 + maximum > 16384 {
            continue;
        }
        size += 96 + maximum;
        lines.push_str(&match kind {
            "counter" => counter_line(numbers, object),
            "queue" => queue_line(numbers, object, maximum),
            _ => object_line(numbers, object, maximum),
        });
    }
    lines
}

/// Large objects while there is room, small ones after.
fn numbers_limit(size: usize) -> usize {
    match size {
        0..=8000 => 1500,
        _ => 60,
    }
}

fn object_line(numbers: &mut Numbers, object: usize, maximum: usize) -> String {
    let mut line = format!("{object:04X} maximum {maximum}{}", middle(numbers));
    let data = numbers.bytes(maximum + 1);
    if !data.is_empty() {
        line.push_str(" data");
        line.extend(data.iter().map(|byte| format!(" {byte:02X}")));
    }
    line.push('\n');
    line
}

fn counter_line(numbers: &mut Numbers, object: usize) -> String {
    let limit = numbers.one(&[3, 300, 1 << 32]);
    format!(
        "{object:04X} counter {} value {} threshold {}{}\n",
        numbers.one(&["up", "down"]),
        numbers.below(limit),
        numbers.below(limit),
        middle(numbers)
    )
}

/// Fares up to a random number of bytes; a next number that has room for them, at the least, at the most or anywhere.
fn queue_line(numbers: &mut Numbers, object: usize, maximum: usize) -> String {
    let mut free = numbers.below(maximum - 3);
    let (mut fares, mut count) = (String::new(), 0);
    while free >= 9 {
        let body = 1 + numbers.below(body_limit(free - 8));
        free -= 8 + body;
        count += 1;
        fares.push_str(" fare");
        fares.extend((0..body).map(|_| format!(" {:02X}", numbers.byte())));
    }
    let next = match numbers.below(3) {
        0 => count,
        1 => u32::MAX as usize,
        _ => count + numbers.below(1 << 31),
    };
    let middle = middle(numbers);
    format!("{object:04X} queue next {next} maximum {maximum}{middle}{fares}\n")
}

/// The most bytes of a body that so many are free for; often few.
fn body_limit(left: usize) -> usize {
    left.min(match left % 3 {
        0 => 200,
        _ => 20,
    })
}

/// LcsO and the three expressions.
fn middle(numbers: &mut Numbers) -> String {
    let state = numbers.one(&["creation", "initialisation", "operational", "termination"]);
    let mut text = format!(" lcso {state}");
    for slot in ["change", "read", "execute"] {
        let words = expression(numbers);
        text.push_str(&match words.contains(' ') {
            true => format!(" {slot} \"{words}\""),
            false => format!(" {slot} {words}"),
        });
    }
    text
}
