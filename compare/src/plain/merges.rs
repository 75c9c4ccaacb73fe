//! The agglomerations: a place goes, and its feeders and consumers become pairs.

use super::fault::{ensure, Fault};
use super::net::{Net, Question, MAX_WEIGHT, PLACES, ROW, TRANSITIONS};

/// The most pairs of a feeder and a consumer.
const PAIRS: usize = 32;

type Row = [u32; ROW];

pub fn post_agglomerate(net: &mut Net, p: u8) -> Result<(), Fault> {
    let p = named_place_outside_support(net, p)?;
    ensure(is_two_sided(net, p), Fault::Arcs)?;
    ensure(has_post_consumers(net, p), Fault::Arcs)?;
    ensure(has_post_weights(net, p), Fault::Arcs)?;
    merge(net, p, post_row)
}

pub fn pre_agglomerate(net: &mut Net, p: u8) -> Result<(), Fault> {
    let p = named_place_outside_support(net, p)?;
    ensure(is_two_sided(net, p), Fault::Arcs)?;
    ensure(has_free_feeders(net, p), Fault::Arcs)?;
    ensure(has_pre_feeders(net, p), Fault::Arcs)?;
    ensure(has_free_consumers(net, p), Fault::Arcs)?;
    merge(net, p, pre_row)
}

pub fn free_agglomerate(net: &mut Net, p: u8) -> Result<(), Fault> {
    ensure(net.question() == Question::Reach, Fault::NotServed)?;
    let p = named_place_outside_support(net, p)?;
    ensure(is_two_sided(net, p), Fault::Arcs)?;
    ensure(has_free_feeders(net, p), Fault::Arcs)?;
    ensure(has_free_consumers(net, p), Fault::Arcs)?;
    merge(net, p, pre_row)
}

fn named_place_outside_support(net: &Net, p: u8) -> Result<usize, Fault> {
    let p = net.named_place(p)?;
    ensure(!net.support().contains(p), Fault::Support)?;
    Ok(p)
}

/// Whether p has a feeder and a consumer, and no transition is both.
fn is_two_sided(net: &Net, p: usize) -> bool {
    net.feeders(p).next().is_some()
        && net.consumers(p).next().is_some()
        && net.feeders(p).all(|h| net.take(h, p) == 0)
}

/// Whether each consumer of p takes from p alone and puts nothing into the support.
fn has_post_consumers(net: &Net, p: usize) -> bool {
    net.consumers(p).all(|f| {
        net.inputs(f).all(|place| place == p)
            && net.outputs(f).all(|place| !net.support().contains(place))
    })
}

/// Whether the one consumer of p uses up all that a feeder brings, or all weights at p are equal.
fn has_post_weights(net: &Net, p: usize) -> bool {
    let mut consumers = net.consumers(p);
    let (Some(f), more) = (consumers.next(), consumers.next()) else {
        return false;
    };
    let weight = net.take(f, p);
    let multiples = more.is_none() && net.feeders(p).all(|h| net.put(h, p).is_multiple_of(weight));
    let equal = net.feeders(p).all(|h| net.put(h, p) == weight)
        && net.consumers(p).all(|f| net.take(f, p) == weight);
    multiples || equal
}

/// Whether each feeder of p puts 1 into p and nothing elsewhere, and takes nothing from the
/// support.
fn has_free_feeders(net: &Net, p: usize) -> bool {
    net.feeders(p).all(|h| {
        net.put(h, p) == 1
            && net.outputs(h).eq([p])
            && net.inputs(h).all(|place| !net.support().contains(place))
    })
}

/// Whether each feeder of p takes from somewhere, and nobody else takes from there.
fn has_pre_feeders(net: &Net, p: usize) -> bool {
    net.feeders(p).all(|h| {
        net.inputs(h).next().is_some() && net.inputs(h).all(|place| net.is_only_consumer(h, place))
    })
}

/// Whether each consumer of p takes 1 from it.
fn has_free_consumers(net: &Net, p: usize) -> bool {
    net.consumers(p).all(|f| net.take(f, p) == 1)
}

/// Asks for an empty p and the limits, then puts a transition for each pair of a feeder and a
/// consumer in place of p and all that touch it.
fn merge(
    net: &mut Net,
    p: usize,
    row: impl Fn(&Net, usize, usize, usize) -> Result<Row, Fault>,
) -> Result<(), Fault> {
    ensure(net.mark(p) == 0, Fault::Marks)?;
    let feeders = net.feeders(p).count();
    let consumers = net.consumers(p).count();
    ensure(feeders * consumers <= PAIRS, Fault::TooManyPairs)?;
    let others = net.transitions() - feeders - consumers;
    ensure(
        others + feeders * consumers <= TRANSITIONS,
        Fault::TooManyRows,
    )?;
    let mut rows = Vec::with_capacity(feeders * consumers);
    for h in net.feeders(p) {
        for f in net.consumers(p) {
            rows.push(row(net, p, h, f)?);
        }
    }
    net.retain_transitions(|net, t| net.take(t, p) == 0 && net.put(t, p) == 0);
    for row in &rows {
        net.append_transition(row);
    }
    net.remove_place(p);
    Ok(())
}

/// The transition that does what h does, and then f as often as h has paid for.
fn post_row(net: &Net, p: usize, h: usize, f: usize) -> Result<Row, Fault> {
    let times = u64::from(net.put(h, p) / net.take(f, p));
    let mut row = [0; ROW];
    row[..PLACES].copy_from_slice(net.takes(h));
    for place in (0..PLACES).filter(|&place| place != p) {
        let put = u64::from(net.put(h, place)) + times * u64::from(net.put(f, place));
        row[PLACES + place] = weight(put)?;
    }
    Ok(row)
}

/// The transition that does what h and f do.
fn pre_row(net: &Net, p: usize, h: usize, f: usize) -> Result<Row, Fault> {
    let mut row = [0; ROW];
    for place in (0..PLACES).filter(|&place| place != p) {
        let take = u64::from(net.take(h, place)) + u64::from(net.take(f, place));
        row[place] = weight(take)?;
    }
    row[PLACES..].copy_from_slice(net.puts(f));
    Ok(row)
}

/// The number as a weight, if it is in the limit.
fn weight(number: u64) -> Result<u32, Fault> {
    ensure(number <= u64::from(MAX_WEIGHT), Fault::PastLimit)?;
    Ok(number as u32)
}
