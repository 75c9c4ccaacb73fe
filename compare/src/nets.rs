//! Nets on which steps of one kind can be taken, in a row where the step allows it, small and full, for timing.

use crate::plain::{PLACES, TRANSITIONS};

/// What a transition takes and puts, by place.
#[derive(Clone)]
struct Row {
    takes: [u16; PLACES],
    puts: [u16; PLACES],
}

impl Row {
    fn empty() -> Row {
        Row {
            takes: [0; PLACES],
            puts: [0; PLACES],
        }
    }

    fn taking(mut self, p: usize, weight: u16) -> Row {
        self.takes[p] = weight;
        self
    }

    fn putting(mut self, p: usize, weight: u16) -> Row {
        self.puts[p] = weight;
        self
    }
}

/// A net to be written as a stream.
struct Net {
    marks: Vec<u32>,
    rows: Vec<Row>,
    question: u8,
}

impl Net {
    fn write(&self) -> Vec<u8> {
        let mut bytes = Vec::new();
        for mark in &self.marks {
            bytes.push(0x10);
            bytes.extend(mark.to_be_bytes());
            bytes.push(0);
        }
        bytes.resize(bytes.len() + self.rows.len(), 0x11);
        for (t, row) in self.rows.iter().enumerate() {
            write_arcs(&mut bytes, 0x12, t, &row.takes);
            write_arcs(&mut bytes, 0x13, t, &row.puts);
        }
        bytes.extend([0x1F, self.question]);
        bytes
    }
}

fn write_arcs(bytes: &mut Vec<u8>, command: u8, t: usize, weights: &[u16; PLACES]) {
    for (p, &weight) in weights.iter().enumerate().filter(|(_, &w)| w > 0) {
        bytes.extend([command, t as u8, p as u8]);
        bytes.extend(weight.to_be_bytes());
    }
}

/// How large the nets are.
#[derive(Clone, Copy, Debug, PartialEq, Eq)]
pub enum Size {
    Small,
    Full,
}

impl Size {
    fn places(self) -> usize {
        match self {
            Size::Small => 8,
            Size::Full => PLACES,
        }
    }

    fn rows(self) -> usize {
        match self {
            Size::Small => 10,
            Size::Full => TRANSITIONS,
        }
    }

    /// How many steps are taken in a row.
    fn steps(self) -> usize {
        match self {
            Size::Small => 4,
            Size::Full => 30,
        }
    }

    /// How many places a row touches on a side.
    fn arcs(self) -> usize {
        match self {
            Size::Small => 3,
            Size::Full => 32,
        }
    }
}

/// A net with steps that are all taken.
pub struct Sample {
    pub name: &'static str,
    pub net: Vec<u8>,
    pub steps: Vec<u8>,
    pub count: usize,
}

fn sample(name: &'static str, net: Net, steps: Vec<Vec<u8>>) -> Sample {
    Sample {
        name,
        net: net.write(),
        count: steps.len(),
        steps: steps.concat(),
    }
}

/// A row with arcs at some of the places from the given one on; rows of other numbers have other weights.
fn dense(size: Size, number: usize, from: usize) -> Row {
    let places = size.places() - from;
    let mut row = Row::empty();
    for i in 0..size.arcs().min(places) {
        row.takes[from + (number + i) % places] = 1 + ((number + i) % 3) as u16;
        row.puts[from + (number + 2 * i) % places] = 1 + ((number + i) % 2) as u16;
    }
    row
}

fn times(row: &Row, k: u16) -> Row {
    Row {
        takes: row.takes.map(|weight| k * weight),
        puts: row.puts.map(|weight| k * weight),
    }
}

fn marks(size: Size, mark: u32) -> Vec<u32> {
    vec![mark; size.places()]
}

/// The first rows stay, and each of those behind is dropped for one of them.
fn dropping(
    size: Size,
    name: &'static str,
    question: u8,
    other: impl Fn(&Row, usize) -> Row,
    step: impl Fn(u8, u8) -> Vec<u8>,
) -> Sample {
    let half = size.rows() / 2;
    let first: Vec<Row> = (0..half).map(|i| dense(size, i, 1)).collect();
    let rest: Vec<Row> = first
        .iter()
        .enumerate()
        .map(|(i, row)| other(row, i))
        .collect();
    let mut marks = marks(size, 5);
    marks[0] = 0;
    let net = Net {
        marks,
        rows: [first, rest].concat(),
        question,
    };
    let steps = (0..size.steps())
        .map(|i| step(half as u8, i as u8))
        .collect();
    sample(name, net, steps)
}

fn composed(size: Size) -> Sample {
    let third = size.rows() / 3;
    let first: Vec<Row> = (0..third).map(|i| dense(size, i, 0)).collect();
    let back = first.iter().map(|row| Row {
        takes: row.puts,
        puts: row.takes,
    });
    let both = first.iter().map(|row| Row {
        takes: row.takes,
        puts: row.takes,
    });
    let rows = first.iter().cloned().chain(back).chain(both).collect();
    let net = Net {
        marks: marks(size, 5),
        rows,
        question: 3,
    };
    let steps = (0..size.steps().min(third))
        .map(|i| vec![0x22, 2 * third as u8, i as u8, (third + i) as u8])
        .collect();
    sample("22", net, steps)
}

fn sourceless(size: Size) -> Sample {
    let mut rows: Vec<Row> = (0..size.rows()).map(|i| dense(size, i, 0)).collect();
    rows[0].takes = [0; PLACES];
    let net = Net {
        marks: marks(size, 5),
        rows,
        question: 2,
    };
    sample("25", net, vec![vec![0x25, 0]])
}

/// Places behind place 0 that no transition lacks or drains.
fn places_going(size: Size, name: &'static str, step: impl Fn(u8) -> Vec<u8>) -> Sample {
    let going = size.steps();
    let rows = (0..size.rows())
        .map(|i| {
            let mut row = dense(size, i, 1 + going);
            for p in 0..=going {
                row = row.taking(p, 2).putting(p, 2);
            }
            row
        })
        .collect();
    let net = Net {
        marks: marks(size, 5),
        rows,
        question: 3,
    };
    sample(name, net, (1..=going as u8).map(step).collect())
}

fn set_step(first: u8, members: impl IntoIterator<Item = usize>) -> Vec<u8> {
    let set = members.into_iter().fold(0u64, |set, p| set | 1 << p);
    let mut step = vec![first];
    step.extend(set.to_le_bytes());
    step
}

/// Groups of empty places, each of which is a siphon.
fn siphons(size: Size) -> Sample {
    let (groups, each) = match size {
        Size::Small => (2, 2),
        Size::Full => (4, 8),
    };
    let dry = groups * each;
    let rows = (0..size.rows())
        .map(|i| {
            let group = i % (groups + 1);
            let mut row = dense(size, i, dry);
            if group < groups {
                for p in group * each..(group + 1) * each {
                    row = row.taking(p, 1).putting(p, 1);
                }
            }
            row
        })
        .collect();
    let mut marks = marks(size, 5);
    marks[..dry].fill(0);
    let net = Net {
        marks,
        rows,
        question: 3,
    };
    let steps = (0..groups)
        .map(|group| set_step(0x28, group * each..(group + 1) * each))
        .collect();
    sample("28", net, steps)
}

/// Groups of places at the end, each of which is left out in its turn, with what takes from it.
fn limits(size: Size) -> Sample {
    let (groups, each) = match size {
        Size::Small => (2, 2),
        Size::Full => (4, 8),
    };
    let inner = size.places() - groups * each;
    let rows = (0..size.rows())
        .map(|i| {
            let group = i % (groups + 1);
            let mut row = Row::empty();
            for p in 0..inner {
                row = row.taking(p, 2).putting(p, 1);
            }
            if group < groups {
                for p in inner + group * each..inner + (group + 1) * each {
                    row = row.taking(p, 1).putting(p, 1);
                }
            }
            row
        })
        .collect();
    let net = Net {
        marks: marks(size, 5),
        rows,
        question: 1,
    };
    let steps = (0..groups)
        .map(|group| set_step(0x29, 0..inner + (groups - 1 - group) * each))
        .collect();
    sample("29", net, steps)
}

/// Places with one feeder and one consumer each, which are agglomerated one after another.
fn chains(size: Size, name: &'static str, first: u8) -> Sample {
    let links = match size {
        Size::Small => 3,
        Size::Full => 20,
    };
    let outside = 2 * links;
    let pairs = (0..links).flat_map(|i| {
        let feeder = Row::empty().taking(links + i, 1).putting(i, 1);
        let mut consumer = Row::empty().taking(i, 1);
        consumer.puts[outside..size.places()].fill(1);
        [feeder, consumer]
    });
    let rest = (0..size.rows() - 2 * links).map(|i| dense(size, i, outside));
    let mut marks = marks(size, 5);
    marks[..links].fill(0);
    let net = Net {
        marks,
        rows: pairs.chain(rest).collect(),
        question: if first == 0x2C { 1 } else { 3 },
    };
    let steps = (0..links as u8).map(|p| vec![first, p]).collect();
    sample(name, net, steps)
}

/// A place with four feeders and eight consumers in a net that has 96 transitions afterwards.
fn crossed(name: &'static str, first: u8) -> Sample {
    let feeders = (0..4).map(|i| Row::empty().taking(1 + i, 1).putting(0, 1));
    let consumers = (0..8).map(|i| {
        let mut row = Row::empty().taking(0, 1);
        for p in 5..PLACES {
            row.puts[p] = 1 + ((p + i) % 3) as u16;
        }
        row
    });
    let rest = (0..64).map(|i| dense(Size::Full, i, 5));
    let mut marks = marks(Size::Full, 5);
    marks[0] = 0;
    let net = Net {
        marks,
        rows: feeders.chain(consumers).chain(rest).collect(),
        question: if first == 0x2C { 1 } else { 3 },
    };
    sample(name, net, vec![vec![first, 0]])
}

fn firing_ahead(size: Size) -> Sample {
    let mut rows: Vec<Row> = (0..size.rows()).map(|i| dense(size, i, 1)).collect();
    rows[0].takes = [0; PLACES];
    rows[0].takes[0] = 1;
    let mut marks = marks(size, 5);
    marks[0] = 1000;
    let net = Net {
        marks,
        rows,
        question: 3,
    };
    sample("2D", net, vec![vec![0x2D, 0, 0, 1]; size.steps()])
}

fn fused(size: Size) -> Sample {
    let pairs = match size {
        Size::Small => 3,
        Size::Full => 16,
    };
    let moves = (0..pairs).flat_map(|i| {
        let (p, q) = (2 * i, 2 * i + 1);
        [
            Row::empty().taking(p, 1).putting(q, 1),
            Row::empty().taking(q, 1).putting(p, 1),
        ]
    });
    let rest = (0..size.rows() - 2 * pairs).map(|i| dense(size, i, 0));
    let net = Net {
        marks: marks(size, 5),
        rows: moves.chain(rest).collect(),
        question: 3,
    };
    let steps = (0..pairs as u8)
        .map(|i| vec![0x2E, 2 * i, 2 * i + 1, 2 * i, 2 * i + 1])
        .collect();
    sample("2E", net, steps)
}

/// A sample for each kind of step.
pub fn samples(size: Size) -> Vec<Sample> {
    let mut samples = vec![
        dropping(size, "20", 3, |row, _| row.clone(), |t, u| vec![0x20, t, u]),
        dropping(
            size,
            "21",
            3,
            |row, _| times(row, 2),
            |t, u| vec![0x21, t, u, 0, 2],
        ),
        composed(size),
        dropping(
            size,
            "23",
            1,
            |row, _| Row {
                takes: times(row, 2).takes,
                puts: row.takes,
            },
            |t, _| vec![0x23, t],
        ),
        dropping(
            size,
            "24",
            3,
            |row, _| row.clone().taking(0, 1),
            |t, _| vec![0x24, t, 0],
        ),
        sourceless(size),
        places_going(size, "26", |p| vec![0x26, p]),
        places_going(size, "27", |p| vec![0x27, p, 0, 0, 1]),
        siphons(size),
        limits(size),
        chains(size, "2A, 1 x 1", 0x2A),
        chains(size, "2B, 1 x 1", 0x2B),
        chains(size, "2C, 1 x 1", 0x2C),
        firing_ahead(size),
        fused(size),
    ];
    if size == Size::Full {
        samples.extend([
            crossed("2A, 4 x 8", 0x2A),
            crossed("2B, 4 x 8", 0x2B),
            crossed("2C, 4 x 8", 0x2C),
        ]);
    }
    samples
}

/// A net without steps.
pub fn reading(size: Size) -> Vec<u8> {
    let net = Net {
        marks: marks(size, 5),
        rows: (0..size.rows()).map(|i| dense(size, i, 0)).collect(),
        question: 3,
    };
    net.write()
}

/// A net with 32,768 bytes of steps.
pub fn long_feeds(size: Size) -> Vec<Sample> {
    let Sample { net, steps, .. } = firing_ahead(size);
    let count = 32_768 / 4;
    let mut net = net;
    // The mark of the first place stands behind its command.
    net[1..5].copy_from_slice(&(count as u32).to_be_bytes());
    vec![Sample {
        name: "2D",
        net,
        steps: steps[..4].repeat(count),
        count,
    }]
}

#[cfg(test)]
mod tests {
    use super::*;
    use crate::plain::{reduce, SHEET};

    #[test]
    fn all_steps_of_the_samples_are_taken() {
        for size in [Size::Small, Size::Full] {
            for sample in samples(size).into_iter().chain(long_feeds(size)) {
                let mut sheet = vec![0; SHEET];
                let told = reduce(&sample.net, &sample.steps, &mut sheet);
                assert_eq!(
                    (told.number, told.taken),
                    (0, sample.count),
                    "{} {size:?}",
                    sample.name
                );
            }
        }
    }
}
