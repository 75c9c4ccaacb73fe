//! Situations on both sides of the limits of pairs, rows, weights and marks.

use super::draft::{Draft, Place, Transition};
use super::random::Random;
use super::situation::{self, Situation};
use crate::plain::TRANSITIONS;

/// An agglomeration with so many neighbours that their pairs or the next rows are near a limit.
pub fn crowded(random: &mut Random) -> Situation {
    let (feeders, consumers) = random.pick(&[
        (1, 32),
        (32, 1),
        (1, 33),
        (33, 1),
        (2, 16),
        (16, 2),
        (4, 8),
        (8, 4),
        (5, 6),
        (6, 6),
        (3, 11),
        (11, 3),
        (5, 7),
        (3, 10),
    ]);
    let pairs = feeders * consumers;
    let room = TRANSITIONS - feeders - consumers;
    let others = match random.below(3) {
        0 => random.below(4),
        1 => (TRANSITIONS - pairs).min(room),
        _ => (TRANSITIONS - pairs + random.below(3)).min(room),
    };
    let first = random.pick(&[0x2A, 0x2B, 0x2C]);
    let least = if first == 0x2B { feeders + 1 } else { 2 };
    let places = least + random.below(4);
    let draft = Draft::random(random, places, others);
    match first {
        0x2A => situation::post_on(random, draft, feeders, consumers),
        0x2B => situation::pre_on(random, draft, feeders, consumers),
        _ => situation::free_on(random, draft, feeders, consumers),
    }
}

/// A situation with a sum at its limit or one past it.
pub fn heavy(random: &mut Random) -> Situation {
    match random.below(4) {
        0 => heavy_post(random),
        1 => heavy_free(random),
        2 => heavy_ahead(random),
        _ => heavy_fusion(random),
    }
}

/// Two places of the net, made empty, without arcs and outside the support.
fn two_places(random: &mut Random) -> (Draft, usize, usize) {
    let mut draft = situation::surroundings(random, 2);
    let at = random.distinct(draft.places.len(), 2);
    for &p in &at {
        draft.clear_arcs(p);
        draft.places[p] = Place {
            mark: 0,
            support: false,
        };
    }
    (draft, at[0], at[1])
}

fn heavy_post(random: &mut Random) -> Situation {
    let (mut draft, p, r) = two_places(random);
    let times = random.pick(&[1, 1, 2, 3, 255, 256, 257, 65_535]);
    let put = random.pick(&[0, 1, 2, 128, 255, 256, 257, 32_767, 32_768, 65_535]);
    let product = u32::from(times) * u32::from(put);
    let past = random.pick(&[0, 0, 1]);
    let most = (65_535 + past).min(product + 65_535);
    let rest = most.saturating_sub(product).min(65_535) as u16;
    let (mut feeder, mut consumer) = (Transition::empty(), Transition::empty());
    feeder.set(p, 0, times);
    feeder.puts[r] = rest;
    consumer.set(p, 1, 0);
    consumer.puts[r] = put;
    let mut core = vec![feeder.clone(), consumer];
    if random.percent(20) {
        feeder.puts[r] = random.weight();
        core.push(feeder);
    }
    let transitions = draft.scatter(random, core);
    Situation {
        draft,
        step: vec![0x2A, p as u8],
        places: vec![p, r],
        transitions,
    }
}

fn heavy_free(random: &mut Random) -> Situation {
    let (mut draft, p, r) = two_places(random);
    draft.question = random.pick(&[0, 1, 1, 1, 3]);
    let one = random.pick(&[1, 2, 255, 32_767, 32_768, 65_534, 65_535]);
    let past = random.pick(&[0, 0, 1]);
    let (mut feeder, mut consumer) = (Transition::empty(), Transition::empty());
    feeder.set(p, 0, 1);
    feeder.takes[r] = one;
    consumer.set(p, 1, 0);
    consumer.takes[r] = u16::MAX - one + past;
    consumer.puts[r] = random.pick(&[0, 1, 65_535]);
    let transitions = draft.scatter(random, vec![feeder, consumer]);
    Situation {
        draft,
        step: vec![0x2C, p as u8],
        places: vec![p, r],
        transitions,
    }
}

fn heavy_ahead(random: &mut Random) -> Situation {
    let (mut draft, p, r) = two_places(random);
    let k = random.pick(&[1u16, 2, 3, 256, 65_535]);
    let put = random.pick(&[1u16, 2, 255, 65_535]);
    let take = random.pick(&[1u16, 2, 65_535]);
    let past = random.pick(&[0, 0, 1]);
    draft.places[p].mark = u32::from(k) * u32::from(take);
    draft.places[r].mark = u32::MAX - u32::from(k) * u32::from(put) + past;
    let mut t = Transition::empty();
    t.set(p, take, 0);
    t.set(r, 0, put);
    let transitions = draft.scatter(random, vec![t]);
    let mut step = vec![0x2D, transitions[0] as u8];
    step.extend(k.to_be_bytes());
    Situation {
        draft,
        step,
        places: vec![p, r],
        transitions,
    }
}

fn heavy_fusion(random: &mut Random) -> Situation {
    let (mut draft, p, q) = two_places(random);
    let (mut a, mut b, mut other) = (
        Transition::empty(),
        Transition::empty(),
        Transition::random(random, 1),
    );
    a.set(p, 1, 0);
    a.set(q, 0, 1);
    b.set(q, 1, 0);
    b.set(p, 0, 1);
    other.set(p, random.small_weight(), random.small_weight());
    let past = random.pick(&[0, 0, 1]);
    match random.below(3) {
        0 => {
            draft.places[p].mark = random.mark().max(1);
            draft.places[q].mark = u32::MAX - draft.places[p].mark + past;
        }
        1 => other.takes[q] = (u16::MAX - other.takes[p]).wrapping_add(past as u16),
        _ => other.puts[q] = (u16::MAX - other.puts[p]).wrapping_add(past as u16),
    }
    let at = draft.scatter(random, vec![a, b, other]);
    Situation {
        draft,
        step: vec![0x2E, p as u8, q as u8, at[0] as u8, at[1] as u8],
        places: vec![p, q],
        transitions: at,
    }
}

/// A situation that would pass if a sum or product were cut to its low bits.
pub fn cut(random: &mut Random) -> Situation {
    match random.below(4) {
        0 => cut_multiple(random),
        1 => cut_effect(random),
        2 => cut_sum(random),
        _ => cut_mark(random),
    }
}

/// For 21: t has the low 16 bits of the factor times the weight of u.
fn cut_multiple(random: &mut Random) -> Situation {
    let (mut draft, p, r) = two_places(random);
    let (mut t, mut u) = (Transition::empty(), Transition::empty());
    let weight = random.pick(&[2, 256, 257, 65_535, 32_769]);
    let k = random.pick(&[256, 257, 32_769, 65_535, 65_534]);
    let low = u16::wrapping_mul(weight, k);
    u.set(p, weight, 0);
    u.set(r, 0, weight);
    t.set(p, low, 0);
    t.set(r, 0, low);
    let at = draft.scatter(random, vec![t, u]);
    Situation {
        draft,
        step: situation::step_with_factor(0x21, &at, k),
        places: vec![p, r],
        transitions: at,
    }
}

/// For 20: the effects have the same low 16 bits.
fn cut_effect(random: &mut Random) -> Situation {
    let (mut draft, p, r) = two_places(random);
    let (mut t, mut u) = (Transition::empty(), Transition::empty());
    let put = random.weight();
    t.set(p, u16::MAX, put - 1);
    u.set(p, 0, put);
    u.set(r, 1, 1);
    t.set(r, 1, 1);
    let at = draft.scatter(random, vec![t, u]);
    Situation {
        draft,
        step: situation::step(0x20, &at),
        places: vec![p, r],
        transitions: at,
    }
}

/// For 22: t has the low 16 bits of the sum of the effects.
fn cut_sum(random: &mut Random) -> Situation {
    let (mut draft, p, r) = two_places(random);
    let (mut t, mut u, mut v) = (
        Transition::empty(),
        Transition::empty(),
        Transition::empty(),
    );
    let (first, second) = (random.weight(), random.pick(&[65_535, 65_534, 32_768]));
    u.set(p, 0, first);
    v.set(p, 0, second);
    t.set(p, 0, first.wrapping_add(second));
    u.set(r, 1, 0);
    t.set(r, 1, 0);
    let at = draft.scatter(random, vec![t, u, v]);
    Situation {
        draft,
        step: situation::step(0x22, &at),
        places: vec![p, r],
        transitions: at,
    }
}

/// For 27: p has the low 32 bits of the factor times the mark of q.
fn cut_mark(random: &mut Random) -> Situation {
    let (mut draft, p, q) = two_places(random);
    let k = random.pick(&[2u16, 3, 256, 65_535, 65_534]);
    let mark = random.next() as u32;
    draft.places[q].mark = mark;
    draft.places[p].mark = mark.wrapping_mul(k.into());
    Situation {
        transitions: (0..draft.transitions.len()).collect(),
        draft,
        step: situation::step_with_factor(0x27, &[p, q], k),
        places: vec![p, q],
    }
}
