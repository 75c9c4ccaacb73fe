//! The steps on a set of places.

use super::fault::{ensure, Fault};
use super::net::{Net, Question};
use super::places::PlaceSet;

pub fn drop_siphon(net: &mut Net, set: PlaceSet) -> Result<(), Fault> {
    ensure(set.is_subset(net.standing()), Fault::NoPlace)?;
    ensure(!set.is_empty(), Fault::Nothing)?;
    ensure(is_siphon(net, set), Fault::Arcs)?;
    ensure(set.iter().all(|p| net.mark(p) == 0), Fault::Marks)?;
    net.retain_transitions(|net, t| !takes_from(net, t, set));
    Ok(())
}

/// Whether each transition that puts into the set takes from it.
fn is_siphon(net: &Net, set: PlaceSet) -> bool {
    (0..net.transitions()).all(|t| !puts_into(net, t, set) || takes_from(net, t, set))
}

pub fn limit_to(net: &mut Net, set: PlaceSet) -> Result<(), Fault> {
    ensure(net.question() == Question::Reach, Fault::NotServed)?;
    ensure(set.is_subset(net.standing()), Fault::NoPlace)?;
    ensure(net.support().is_subset(set), Fault::Support)?;
    let outside = net.standing().without(set);
    ensure(
        (0..net.transitions()).all(|t| !takes_from(net, t, outside) || only_drains(net, t, set)),
        Fault::Arcs,
    )?;
    net.retain_transitions(|net, t| !takes_from(net, t, outside));
    for p in outside.iter() {
        net.remove_place(p);
    }
    Ok(())
}

/// Whether the transition adds nothing to the set and leaves the support as it is.
fn only_drains(net: &Net, t: usize, set: PlaceSet) -> bool {
    set.iter().all(|p| net.effect(t, p) <= 0) && net.support().iter().all(|p| net.effect(t, p) == 0)
}

fn takes_from(net: &Net, t: usize, set: PlaceSet) -> bool {
    net.inputs(t).any(|p| set.contains(p))
}

fn puts_into(net: &Net, t: usize, set: PlaceSet) -> bool {
    net.outputs(t).any(|p| set.contains(p))
}
