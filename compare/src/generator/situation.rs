//! Nets on which a step is taken: for each step a core, and surroundings that keep its conditions.

use super::draft::{Draft, Place, Transition};
use super::random::Random;

/// A net with a step, and the places and transitions that matter for it.
pub struct Situation {
    pub draft: Draft,
    pub step: Vec<u8>,
    pub places: Vec<usize>,
    pub transitions: Vec<usize>,
}

/// A situation in which the step with this first byte is taken.
pub fn make(random: &mut Random, first: u8) -> Situation {
    match first {
        0x20 => dominated(random),
        0x21 => multiple(random),
        0x22 => composed(random),
        0x23 => draining(random),
        0x24 => starved(random),
        0x25 => sourceless(random),
        0x26 => plentiful(random),
        0x27 => implied(random),
        0x28 => siphon(random),
        0x29 => limited(random),
        0x2A => post(random),
        0x2B => pre(random),
        0x2C => free(random),
        0x2D => ahead(random),
        _ => fusion(random),
    }
}

/// A random net with at least so many places, as a rule a small one.
pub fn surroundings(random: &mut Random, least: usize) -> Draft {
    let (places, transitions) = match random.below(40) {
        0 => (random.between(20, 64), random.between(0, 40)),
        1 => (random.between(20, 64), random.between(0, 5)),
        2..=6 => (random.between(8, 20), random.between(0, 12)),
        _ => (random.between(1, 7), random.between(0, 5)),
    };
    Draft::random(random, places.max(least), transitions)
}

fn bytes(numbers: &[usize]) -> Vec<u8> {
    numbers.iter().map(|&number| number as u8).collect()
}

/// The step with these operands of one byte.
pub fn step(first: u8, operands: &[usize]) -> Vec<u8> {
    let mut step = vec![first];
    step.extend(bytes(operands));
    step
}

/// The step with these operands of one byte and a factor behind them.
pub fn step_with_factor(first: u8, operands: &[usize], k: u16) -> Vec<u8> {
    let mut step = step(first, operands);
    step.extend(k.to_be_bytes());
    step
}

fn step_with_set(first: u8, set: u64) -> Vec<u8> {
    let mut step = vec![first];
    step.extend(set.to_le_bytes());
    step
}

fn members(set: u64) -> Vec<usize> {
    (0..64).filter(|&p| set >> p & 1 == 1).collect()
}

/// The places where the transition has arcs.
fn touched(transition: &Transition) -> Vec<usize> {
    (0..64)
        .filter(|&p| transition.takes[p] > 0 || transition.puts[p] > 0)
        .collect()
}

fn reach(random: &mut Random) -> u8 {
    random.pick(&[0, 1, 1])
}

/// A transition that now and then has heavy arcs.
fn transition(random: &mut Random, places: usize) -> Transition {
    let mut transition = Transition::random(random, places);
    if random.percent(10) {
        transition.takes[random.below(places)] = random.weight();
    }
    if random.percent(10) {
        transition.puts[random.below(places)] = random.weight();
    }
    transition
}

fn dominated(random: &mut Random) -> Situation {
    let mut draft = surroundings(random, 1);
    let places = draft.places.len();
    let u = transition(random, places);
    let mut t = u.clone();
    for _ in 0..random.below(3) {
        let p = random.below(places);
        let more = random.weight();
        if t.takes[p].max(t.puts[p]) <= u16::MAX - more {
            t.set(p, t.takes[p] + more, t.puts[p] + more);
        }
    }
    let touched = touched(&t);
    let at = draft.scatter(random, vec![t, u]);
    Situation {
        draft,
        step: step(0x20, &at),
        places: touched,
        transitions: at,
    }
}

fn multiple(random: &mut Random) -> Situation {
    let mut draft = surroundings(random, 1);
    let u = transition(random, draft.places.len());
    let largest = u.takes.iter().chain(&u.puts).max().map_or(1, |&w| w.max(1));
    let most = u16::MAX / largest;
    let k = match random.below(4) {
        0 => most,
        1 => 1,
        _ => most.min(random.between(1, 5) as u16),
    };
    let mut t = Transition::empty();
    for p in 0..draft.places.len() {
        t.set(p, u.takes[p] * k, u.puts[p] * k);
    }
    let touched = touched(&u);
    let at = draft.scatter(random, vec![t, u]);
    Situation {
        draft,
        step: step_with_factor(0x21, &at, k),
        places: touched,
        transitions: at,
    }
}

fn composed(random: &mut Random) -> Situation {
    let mut draft = surroundings(random, 1);
    let places = draft.places.len();
    let mut u = transition(random, places);
    let same = random.percent(20);
    let v = if same {
        for p in 0..places {
            let put = u.puts[p].min(u16::MAX / 2);
            u.set(p, u.takes[p].min(put), put);
        }
        u.clone()
    } else {
        follower(random, &u, places)
    };
    let mut t = Transition::empty();
    for p in 0..places {
        let left = u.puts[p] - v.takes[p] + v.puts[p];
        let most = (u16::MAX - u.takes[p]).min(u16::MAX - left);
        let more = random.pick(&[0, 0, 0, 0, 1, 2, u16::MAX]).min(most);
        t.set(p, u.takes[p] + more, left + more);
    }
    let touched = touched(&t);
    let core = if same { vec![t, u] } else { vec![t, u, v] };
    let mut at = draft.scatter(random, core);
    if same {
        at.push(at[1]);
    }
    Situation {
        draft,
        step: step(0x22, &at),
        places: touched,
        transitions: at,
    }
}

/// A transition that takes no more than u puts, so that what both leave is a weight.
fn follower(random: &mut Random, u: &Transition, places: usize) -> Transition {
    let mut v = transition(random, places);
    for p in 0..places {
        let take = random.pick(&[0, 1, u.puts[p]]).min(u.puts[p]);
        let room = u16::MAX - (u.puts[p] - take);
        v.set(p, take, v.puts[p].min(room));
    }
    v
}

fn draining(random: &mut Random) -> Situation {
    let mut draft = surroundings(random, 1);
    draft.question = reach(random);
    let mut t = transition(random, draft.places.len());
    for (p, place) in draft.places.iter().enumerate() {
        if place.support {
            t.puts[p] = t.takes[p];
        } else {
            t.puts[p] = t.puts[p].min(t.takes[p]);
        }
    }
    let touched = touched(&t);
    let at = draft.scatter(random, vec![t]);
    Situation {
        draft,
        step: step(0x23, &at),
        places: touched,
        transitions: at,
    }
}

fn starved(random: &mut Random) -> Situation {
    let mut draft = surroundings(random, 1);
    let p = random.below(draft.places.len());
    let mut t = transition(random, draft.places.len());
    for transition in &mut draft.transitions {
        transition.puts[p] = 0;
    }
    let weight = random.weight();
    t.set(p, weight, 0);
    let mark = if random.percent(50) {
        usize::from(weight) - 1
    } else {
        random.below(weight.into())
    };
    draft.places[p].mark = mark as u32;
    let at = draft.scatter(random, vec![t]);
    Situation {
        draft,
        step: step(0x24, &[at[0], p]),
        places: vec![p],
        transitions: at,
    }
}

fn sourceless(random: &mut Random) -> Situation {
    let mut draft = surroundings(random, 1);
    draft.question = 2;
    let mut t = transition(random, draft.places.len());
    t.takes.fill(0);
    let touched = touched(&t);
    let at = draft.scatter(random, vec![t]);
    Situation {
        draft,
        step: step(0x25, &at),
        places: touched,
        transitions: at,
    }
}

fn plentiful(random: &mut Random) -> Situation {
    let mut draft = surroundings(random, 1);
    let p = random.below(draft.places.len());
    let mut most = 0;
    for transition in &mut draft.transitions {
        let take = if random.percent(60) {
            random.weight()
        } else {
            0
        };
        let more = random.pick(&[0, 0, 0, 1, 2]);
        transition.set(p, take, take.saturating_add(more));
        most = most.max(take);
    }
    let more = if random.percent(60) { 0 } else { random.mark() };
    draft.places[p] = Place {
        mark: u32::from(most).saturating_add(more),
        support: false,
    };
    Situation {
        transitions: (0..draft.transitions.len()).collect(),
        draft,
        step: step(0x26, &[p]),
        places: vec![p],
    }
}

fn implied(random: &mut Random) -> Situation {
    let mut draft = surroundings(random, 2);
    let at = random.distinct(draft.places.len(), 2);
    let (p, q) = (at[0], at[1]);
    let heavy = random.percent(20);
    let k = if heavy {
        random.pick(&[65_535, 65_534, 32_767, 257])
    } else {
        random.between(1, 4) as u16
    };
    for transition in &mut draft.transitions {
        if heavy {
            heavily_implied(random, transition, p, q, k);
        } else {
            lightly_implied(random, transition, p, q, k);
        }
    }
    imply_mark(random, &mut draft, p, q, k);
    Situation {
        transitions: (0..draft.transitions.len()).collect(),
        draft,
        step: step_with_factor(0x27, &at, k),
        places: at,
    }
}

/// Gives the transition small weights at q, and as few as needed at p, or a little more.
fn lightly_implied(random: &mut Random, transition: &mut Transition, p: usize, q: usize, k: u16) {
    let (take, put) = (random.below(4) as u16, random.below(4) as u16);
    let less = random.pick(&[0, 0, 1]).min(k * take);
    let more = random.pick(&[0, 0, 1]);
    transition.set(q, take, put);
    transition.set(p, k * take - less, (k * put).saturating_sub(less) + more);
}

/// Gives the transition weights whose products with the factor are large.
fn heavily_implied(random: &mut Random, transition: &mut Transition, p: usize, q: usize, k: u16) {
    match random.below(4) {
        0 => {
            transition.set(q, 1, random.below(2) as u16);
            transition.set(p, k, k);
        }
        1 => {
            transition.set(q, 65_534, 65_535);
            transition.set(p, 0, k);
        }
        2 => {
            transition.set(q, random.pick(&[65_535, 65_534, 32_768]), 0);
            transition.set(p, random.weight(), random.weight());
        }
        _ => {
            transition.set(q, 0, 0);
            transition.set(p, 0, random.below(2) as u16);
        }
    }
}

/// Gives p k times the mark of q, or a little more.
fn imply_mark(random: &mut Random, draft: &mut Draft, p: usize, q: usize, k: u16) {
    let most = u32::MAX / u32::from(k);
    let few = random.between(0, 6) as u32;
    let mark = if random.percent(15) {
        most
    } else {
        most.min(few)
    };
    let more = random.pick(&[0, 0, 1]);
    draft.places[q].mark = mark;
    draft.places[p] = Place {
        mark: (mark * u32::from(k)).saturating_add(more),
        support: false,
    };
}

fn siphon(random: &mut Random) -> Situation {
    let mut draft = surroundings(random, 1);
    let places = draft.places.len();
    let size = random.between(1, places.min(6));
    let set = random.distinct(places, size);
    for transition in &mut draft.transitions {
        let puts = set.iter().any(|&p| transition.puts[p] > 0);
        let takes = set.iter().any(|&p| transition.takes[p] > 0);
        if puts && !takes {
            transition.takes[random.pick(&set)] = random.small_weight();
        }
    }
    for &p in &set {
        draft.places[p].mark = 0;
    }
    Situation {
        transitions: (0..draft.transitions.len()).collect(),
        draft,
        step: step_with_set(0x28, set.iter().fold(0, |bits, p| bits | 1 << p)),
        places: set,
    }
}

fn limited(random: &mut Random) -> Situation {
    let mut draft = surroundings(random, 1);
    draft.question = reach(random);
    let places = draft.places.len();
    let mut set = random.next() | random.next();
    for (p, place) in draft.places.iter().enumerate() {
        if place.support {
            set |= 1 << p;
        }
    }
    set &= u64::MAX >> (64 - places);
    let inside = |p: usize| set >> p & 1 == 1;
    for transition in &mut draft.transitions {
        if (0..places).any(|p| !inside(p) && transition.takes[p] > 0) {
            for p in (0..places).filter(|&p| inside(p)) {
                let most = transition.takes[p];
                transition.puts[p] = if draft.places[p].support {
                    most
                } else {
                    transition.puts[p].min(most)
                };
            }
        }
    }
    Situation {
        transitions: (0..draft.transitions.len()).collect(),
        draft,
        step: step_with_set(0x29, set),
        places: members(set),
    }
}

/// Makes the place empty, outside the support and without arcs.
fn vacate(draft: &mut Draft, p: usize) {
    draft.places[p] = Place {
        mark: 0,
        support: false,
    };
    draft.clear_arcs(p);
}

/// How many feeders and consumers a place has, as a rule few.
fn few_pairs(random: &mut Random) -> (usize, usize) {
    (
        random.pick(&[1, 1, 1, 2, 2, 3]),
        random.pick(&[1, 1, 1, 2, 2, 3]),
    )
}

fn post(random: &mut Random) -> Situation {
    let draft = surroundings(random, 1);
    let (feeders, consumers) = few_pairs(random);
    post_on(random, draft, feeders, consumers)
}

/// A place for 2A with so many feeders and consumers in this net.
pub fn post_on(
    random: &mut Random,
    mut draft: Draft,
    feeders: usize,
    consumers: usize,
) -> Situation {
    let places = draft.places.len();
    let p = random.below(places);
    vacate(&mut draft, p);
    let weight = random.pick(&[1, 1, 2, 3, 65_535]);
    let multiples = consumers == 1 && weight < 4;
    let mut core = Vec::new();
    for _ in 0..feeders {
        let times = random.between(1, 4) as u16;
        let mut feeder = Transition::random(random, places);
        feeder.set(p, 0, if multiples { weight * times } else { weight });
        core.push(feeder);
    }
    for _ in 0..consumers {
        let mut consumer = Transition::random(random, places);
        consumer.takes.fill(0);
        for (put, place) in consumer.puts.iter_mut().zip(&draft.places) {
            if place.support {
                *put = 0;
            }
        }
        consumer.set(p, weight, 0);
        core.push(consumer);
    }
    let at = draft.scatter(random, core);
    Situation {
        draft,
        step: step(0x2A, &[p]),
        places: vec![p],
        transitions: at,
    }
}

fn pre(random: &mut Random) -> Situation {
    let (feeders, consumers) = few_pairs(random);
    let draft = surroundings(random, feeders + 1);
    pre_on(random, draft, feeders, consumers)
}

/// A place for 2B with so many feeders and consumers in this net, which needs a place more than
/// feeders.
pub fn pre_on(
    random: &mut Random,
    mut draft: Draft,
    feeders: usize,
    consumers: usize,
) -> Situation {
    let own = feeders.max((feeders + random.below(3)).min(draft.places.len() - 1));
    let mut at = random.distinct(draft.places.len(), own + 1);
    let p = at[0];
    vacate(&mut draft, p);
    let mut core = vec![Transition::empty(); feeders];
    for (i, &place) in at[1..].iter().enumerate() {
        draft.places[place].support = false;
        for transition in &mut draft.transitions {
            transition.takes[place] = 0;
        }
        core[i % feeders].takes[place] = random.weight();
    }
    for feeder in &mut core {
        feeder.puts[p] = 1;
    }
    for _ in 0..consumers {
        let mut consumer = transition(random, draft.places.len());
        for &place in &at {
            consumer.takes[place] = 0;
        }
        consumer.set(p, 1, 0);
        core.push(consumer);
    }
    let transitions = draft.scatter(random, core);
    at.truncate(4);
    Situation {
        draft,
        step: step(0x2B, &[p]),
        places: at,
        transitions,
    }
}

fn free(random: &mut Random) -> Situation {
    let draft = surroundings(random, 2);
    let (feeders, consumers) = few_pairs(random);
    free_on(random, draft, feeders, consumers)
}

/// A place for 2C with so many feeders and consumers in this net.
pub fn free_on(
    random: &mut Random,
    mut draft: Draft,
    feeders: usize,
    consumers: usize,
) -> Situation {
    draft.question = reach(random);
    let places = draft.places.len();
    let p = random.below(places);
    vacate(&mut draft, p);
    let mut core = Vec::new();
    for _ in 0..feeders {
        let mut feeder = Transition::random(random, places);
        feeder.puts.fill(0);
        for (take, place) in feeder.takes.iter_mut().zip(&draft.places) {
            if place.support {
                *take = 0;
            }
        }
        feeder.set(p, 0, 1);
        core.push(feeder);
    }
    for _ in 0..consumers {
        let mut consumer = Transition::random(random, places);
        consumer.set(p, 1, 0);
        core.push(consumer);
    }
    let at = draft.scatter(random, core);
    Situation {
        draft,
        step: step(0x2C, &[p]),
        places: vec![p],
        transitions: at,
    }
}

fn ahead(random: &mut Random) -> Situation {
    let mut draft = surroundings(random, 1);
    let p = random.below(draft.places.len());
    let mut t = transition(random, draft.places.len());
    t.takes.fill(0);
    draft.places[p].support = false;
    for (put, place) in t.puts.iter_mut().zip(&draft.places) {
        if place.support {
            *put = 0;
        }
    }
    for transition in &mut draft.transitions {
        transition.takes[p] = 0;
    }
    let weight = random.weight();
    t.set(p, weight, 0);
    let k = random.factor().max(1);
    let more = if random.percent(50) { 0 } else { random.mark() };
    draft.places[p].mark = (u32::from(k) * u32::from(weight)).saturating_add(more);
    let mut focus = vec![p];
    focus.extend((0..draft.places.len()).filter(|&place| t.puts[place] > 0));
    let at = draft.scatter(random, vec![t]);
    Situation {
        draft,
        step: step_with_factor(0x2D, &at, k),
        places: focus,
        transitions: at,
    }
}

fn fusion(random: &mut Random) -> Situation {
    let mut draft = surroundings(random, 2);
    let places = random.distinct(draft.places.len(), 2);
    let (p, q) = (places[0], places[1]);
    for &place in &places {
        draft.places[place].support = false;
    }
    if draft.places[p]
        .mark
        .checked_add(draft.places[q].mark)
        .is_none()
    {
        draft.places[q].mark = u32::MAX - draft.places[p].mark;
    }
    let (mut a, mut b) = (Transition::empty(), Transition::empty());
    a.set(p, 1, 0);
    a.set(q, 0, 1);
    b.set(q, 1, 0);
    b.set(p, 0, 1);
    let at = draft.scatter(random, vec![a, b]);
    Situation {
        draft,
        step: step(0x2E, &[p, q, at[0], at[1]]),
        places,
        transitions: at,
    }
}

#[cfg(test)]
mod tests {
    use super::*;
    use crate::generator::draft::write;
    use crate::plain::{reduce, SHEET};

    #[test]
    fn the_steps_are_taken() {
        let mut sheet = vec![0; SHEET];
        for number in 0..3000 {
            let mut random = Random::new(5, number);
            let first = 0x20 + (number % 15) as u8;
            let Situation { draft, step, .. } = make(&mut random, first);
            let net = write(&draft.commands(&mut random));
            let report = reduce(&net, &step, &mut sheet);
            let full = first == 0x2D && report.number == 21;
            assert!(report.taken == 1 || full, "{step:02X?} {report:?}");
        }
    }
}
