//! The steps that move tokens.

use super::fault::{ensure, Fault};
use super::net::{Net, MAX_WEIGHT, PLACES};

pub fn fire_ahead(net: &mut Net, t: u8, k: u16) -> Result<(), Fault> {
    let t = net.named_transition(t)?;
    ensure(k != 0, Fault::Nothing)?;
    let p = only_private_input(net, t).ok_or(Fault::Arcs)?;
    let k = u64::from(k);
    let taken = k * u64::from(net.take(t, p));
    ensure(u64::from(net.mark(p)) >= taken, Fault::Marks)?;
    ensure(
        (0..PLACES).all(|place| mark_after(net, t, place, k) <= u64::from(u32::MAX)),
        Fault::PastLimit,
    )?;
    for place in 0..PLACES {
        net.set_mark(place, mark_after(net, t, place, k) as u32);
    }
    Ok(())
}

/// The place that t takes from, if it is only one, t is its only consumer and puts nothing into
/// it or the support, and the place is outside the support.
fn only_private_input(net: &Net, t: usize) -> Option<usize> {
    let mut inputs = net.inputs(t);
    let p = inputs.next()?;
    let private = inputs.next().is_none()
        && net.is_only_consumer(t, p)
        && net.put(t, p) == 0
        && net.outputs(t).all(|place| !net.support().contains(place))
        && !net.support().contains(p);
    private.then_some(p)
}

/// The mark of the place after k firings of t, which the mark must allow.
fn mark_after(net: &Net, t: usize, place: usize, k: u64) -> u64 {
    u64::from(net.mark(place)) + k * u64::from(net.put(t, place))
        - k * u64::from(net.take(t, place))
}

pub fn fuse_places(net: &mut Net, p: u8, q: u8, a: u8, b: u8) -> Result<(), Fault> {
    let a = net.named_transition(a)?;
    let b = net.named_transition(b)?;
    let p = net.named_place(p)?;
    let q = net.named_place(q)?;
    ensure(p != q, Fault::NotDistinct)?;
    ensure(
        !net.support().contains(p) && !net.support().contains(q),
        Fault::Support,
    )?;
    ensure(carries(net, a, p, q) && carries(net, b, q, p), Fault::Arcs)?;
    let mark = net
        .mark(p)
        .checked_add(net.mark(q))
        .ok_or(Fault::PastLimit)?;
    ensure(
        (0..net.transitions()).all(|t| {
            net.take(t, p) + net.take(t, q) <= MAX_WEIGHT
                && net.put(t, p) + net.put(t, q) <= MAX_WEIGHT
        }),
        Fault::PastLimit,
    )?;
    net.set_mark(p, mark);
    for t in 0..net.transitions() {
        net.set_take(t, p, net.take(t, p) + net.take(t, q));
        net.set_put(t, p, net.put(t, p) + net.put(t, q));
    }
    net.remove_place(q);
    Ok(())
}

/// Whether t takes 1 from one place and puts 1 into the other, and has no other arcs.
fn carries(net: &Net, t: usize, from: usize, to: usize) -> bool {
    net.inputs(t).eq([from])
        && net.outputs(t).eq([to])
        && net.take(t, from) == 1
        && net.put(t, to) == 1
}
