//! The steps on one transition or one place.

use std::iter::zip;

use super::fault::{ensure, Fault};
use super::net::{Net, Question, PLACES};

pub fn drop_dominated(net: &mut Net, t: u8, u: u8) -> Result<(), Fault> {
    let t = net.named_transition(t)?;
    let u = net.named_transition(u)?;
    ensure(t != u, Fault::NotDistinct)?;
    ensure(is_dominated(net, t, u), Fault::Arcs)?;
    net.drop_transition(t);
    Ok(())
}

/// Whether t takes at least what u takes, and has the same effect.
fn is_dominated(net: &Net, t: usize, u: usize) -> bool {
    (0..PLACES).all(|p| net.take(t, p) >= net.take(u, p) && net.effect(t, p) == net.effect(u, p))
}

pub fn drop_multiple(net: &mut Net, t: u8, u: u8, k: u16) -> Result<(), Fault> {
    let t = net.named_transition(t)?;
    let u = net.named_transition(u)?;
    ensure(t != u, Fault::NotDistinct)?;
    ensure(k != 0, Fault::Nothing)?;
    ensure(
        is_multiple(net.takes(t), net.takes(u), k) && is_multiple(net.puts(t), net.puts(u), k),
        Fault::Arcs,
    )?;
    net.drop_transition(t);
    Ok(())
}

fn is_multiple(weights: &[u32], of: &[u32], k: u16) -> bool {
    zip(weights, of).all(|(&weight, &one)| u64::from(weight) == u64::from(k) * u64::from(one))
}

pub fn drop_composed(net: &mut Net, t: u8, u: u8, v: u8) -> Result<(), Fault> {
    let t = net.named_transition(t)?;
    let u = net.named_transition(u)?;
    let v = net.named_transition(v)?;
    ensure(t != u && t != v, Fault::NotDistinct)?;
    ensure(is_composed(net, t, u, v), Fault::Arcs)?;
    net.drop_transition(t);
    Ok(())
}

/// Whether u and then v can fire where t can, with the effect of t.
fn is_composed(net: &Net, t: usize, u: usize, v: usize) -> bool {
    (0..PLACES).all(|p| {
        net.take(u, p) <= net.take(t, p)
            && net.take(v, p) <= net.put(u, p)
            && net.effect(t, p) == net.effect(u, p) + net.effect(v, p)
    })
}

pub fn drop_draining(net: &mut Net, t: u8) -> Result<(), Fault> {
    ensure(net.question() == Question::Reach, Fault::NotServed)?;
    let t = net.named_transition(t)?;
    ensure(is_draining(net, t), Fault::Arcs)?;
    net.drop_transition(t);
    Ok(())
}

fn is_draining(net: &Net, t: usize) -> bool {
    (0..PLACES).all(|p| net.effect(t, p) <= 0)
        && net.support().iter().all(|p| net.effect(t, p) == 0)
}

pub fn drop_starved(net: &mut Net, t: u8, p: u8) -> Result<(), Fault> {
    let t = net.named_transition(t)?;
    let p = net.named_place(p)?;
    ensure(net.feeders(p).next().is_none(), Fault::Arcs)?;
    ensure(net.take(t, p) > net.mark(p), Fault::Marks)?;
    net.drop_transition(t);
    Ok(())
}

pub fn keep_sourceless(net: &mut Net, t: u8) -> Result<(), Fault> {
    ensure(net.question() == Question::Standstill, Fault::NotServed)?;
    let t = net.named_transition(t)?;
    ensure(net.inputs(t).next().is_none(), Fault::Arcs)?;
    net.retain_transitions(|_, other| other == t);
    Ok(())
}

pub fn remove_plentiful(net: &mut Net, p: u8) -> Result<(), Fault> {
    let p = net.named_place(p)?;
    ensure(!net.support().contains(p), Fault::Support)?;
    let mut transitions = 0..net.transitions();
    ensure(
        transitions.clone().all(|t| net.put(t, p) >= net.take(t, p)),
        Fault::Arcs,
    )?;
    ensure(
        transitions.all(|t| net.take(t, p) <= net.mark(p)),
        Fault::Marks,
    )?;
    net.remove_place(p);
    Ok(())
}

pub fn remove_implied(net: &mut Net, p: u8, q: u8, k: u16) -> Result<(), Fault> {
    let p = net.named_place(p)?;
    let q = net.named_place(q)?;
    ensure(p != q, Fault::NotDistinct)?;
    ensure(k != 0, Fault::Nothing)?;
    ensure(!net.support().contains(p), Fault::Support)?;
    let k = i64::from(k);
    ensure(
        (0..net.transitions()).all(|t| is_implied(net, t, p, q, k)),
        Fault::Arcs,
    )?;
    ensure(
        i64::from(net.mark(p)) >= k * i64::from(net.mark(q)),
        Fault::Marks,
    )?;
    net.remove_place(p);
    Ok(())
}

/// Whether the transition keeps at least k times as many tokens on p as on q, and needs no more
/// than that of p.
fn is_implied(net: &Net, t: usize, p: usize, q: usize, k: i64) -> bool {
    i64::from(net.take(t, p)) <= k * i64::from(net.take(t, q))
        && net.effect(t, p) >= k * net.effect(t, q)
}
