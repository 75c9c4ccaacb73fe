//! Nets written out by hand, with what the steps make of them.

use super::*;

/// What a transition takes, and what it puts: places with weights.
type Arcs<'a> = (&'a [(u8, u16)], &'a [(u8, u16)]);

const REACH: u8 = 1;
const STANDSTILL: u8 = 2;
const BOTH: u8 = 3;

/// The stream of a net. A place is its mark and its support flag.
fn net(places: &[(u32, u8)], transitions: &[Arcs], question: u8) -> Vec<u8> {
    let mut bytes = Vec::new();
    for (mark, flag) in places {
        bytes.push(0x10);
        bytes.extend(mark.to_be_bytes());
        bytes.push(*flag);
    }
    for (t, (takes, puts)) in transitions.iter().enumerate() {
        bytes.push(0x11);
        for (byte, arcs) in [(0x12, takes), (0x13, puts)] {
            for (place, weight) in arcs.iter() {
                bytes.extend([byte, t as u8, *place]);
                bytes.extend(weight.to_be_bytes());
            }
        }
    }
    bytes.extend([0x1F, question]);
    bytes
}

/// The sheet of a net with these marks and transitions.
fn sheet(marks: &[u32], transitions: &[Arcs]) -> Vec<u32> {
    let mut sheet = vec![0; SHEET];
    sheet[..marks.len()].copy_from_slice(marks);
    for (t, (takes, puts)) in transitions.iter().enumerate() {
        for (place, weight) in takes.iter() {
            sheet[64 + 128 * t + usize::from(*place)] = (*weight).into();
        }
        for (place, weight) in puts.iter() {
            sheet[128 + 128 * t + usize::from(*place)] = (*weight).into();
        }
    }
    sheet
}

fn dirty() -> Vec<u32> {
    vec![0xDEAD_BEEF; SHEET]
}

/// Takes one step and compares the sheet and the standing places.
fn taken(net: &[u8], step: &[u8], standing: u64, marks: &[u32], transitions: &[Arcs]) {
    let mut actual = dirty();
    let report = reduce(net, step, &mut actual);
    assert_eq!((report.number, report.layer, report.taken), (0, 0, 1));
    assert_eq!(report.standing, standing);
    assert_eq!(report.transitions as usize, transitions.len());
    assert_eq!(report.used, net.len());
    assert!(actual == sheet(marks, transitions));
}

/// Proposes one step that the book refuses, and sees that the net stays.
fn refused(net: &[u8], step: &[u8], number: u32) {
    let mut before = dirty();
    let mut after = dirty();
    let read = read(net, &mut before);
    let report = reduce(net, step, &mut after);
    assert_eq!(read.number, 0);
    let expected = Report {
        number,
        layer: Layer::Book as u32,
        ..read
    };
    assert_eq!(report, expected);
    assert!(before == after);
}

/// Reads a stream that is refused.
fn misread(bytes: &[u8], number: u32, layer: Layer, byte: usize, count: usize) {
    let mut actual = dirty();
    let expected = Report {
        used: 0,
        taken: 0,
        byte,
        count,
        standing: 0,
        support: 0,
        number,
        layer: layer as u32,
        transitions: 0,
        question: 1,
    };
    assert_eq!(read(bytes, &mut actual), expected);
    assert!(actual.iter().all(|&number| number == 0));
    assert_eq!(reduce(bytes, &[0x23, 0], &mut actual), expected);
}

#[test]
fn reads_a_net() {
    let mut stream = net(
        &[(7, 0), (u32::MAX, 1)],
        &[(&[(0, 1)], &[(1, 65_535)])],
        BOTH,
    );
    let used = stream.len();
    stream.push(0xFF);
    let mut actual = dirty();
    let expected = Report {
        used,
        taken: 0,
        byte: 0,
        count: 0,
        standing: 3,
        support: 2,
        number: 0,
        layer: 0,
        transitions: 1,
        question: 3,
    };
    assert_eq!(read(&stream, &mut actual), expected);
    assert!(actual == sheet(&[7, u32::MAX], &[(&[(0, 1)], &[(1, 65_535)])]));
}

#[test]
fn question_0_is_kept_as_1() {
    assert_eq!(read(&[0x1F, 0], &mut dirty()).question, 1);
    assert_eq!(read(&[0x1F, 2], &mut dirty()).question, 2);
}

#[test]
fn refuses_sheets_of_other_sizes() {
    for size in [0, 1, SHEET - 1, SHEET + 1] {
        let mut actual = vec![9; size];
        let report = reduce(&[0x1F, 3], &[0x23, 0], &mut actual);
        assert_eq!((report.number, report.layer), (1, Layer::Net as u32));
        assert_eq!((report.byte, report.count, report.used), (0, 0, 0));
        assert_eq!((report.standing, report.question), (0, 1));
        assert!(actual.iter().all(|&number| number == 9));
    }
}

#[test]
fn refuses_short_and_unknown_commands() {
    misread(&[], 2, Layer::Reader, 0, 0);
    misread(&[0x11], 2, Layer::Reader, 1, 1);
    misread(&[0x11, 0x10, 0, 0, 0, 1], 2, Layer::Reader, 1, 1);
    misread(&[0x11, 0x12, 0, 0, 0], 2, Layer::Reader, 1, 1);
    misread(&[0x11, 0x11, 0x1F], 2, Layer::Reader, 2, 2);
    misread(&[0x11, 0x14], 3, Layer::Reader, 1, 1);
}

#[test]
fn refuses_wrong_operands() {
    let place = [0x10, 0, 0, 0, 5, 0];
    misread(&[0x11, 0x10, 0, 0, 0, 1, 2], 6, Layer::Net, 1, 1);
    misread(&[0x11, 0x1F, 4], 12, Layer::Net, 1, 1);
    misread(&[0x12, 0, 0, 0, 0], 8, Layer::Net, 0, 0);
    misread(&[0x11, 0x13, 0, 0, 0, 0], 9, Layer::Net, 1, 1);
    misread(&[0x11, 0x13, 0, 255, 0, 1], 9, Layer::Net, 1, 1);
    let with = |command: &[u8]| [&place[..], &[0x11], command].concat();
    misread(&with(&[0x12, 0, 0, 0, 0]), 10, Layer::Net, 7, 2);
    let twice = [0x12, 0, 0, 0, 1, 0x12, 0, 0, 0, 2];
    misread(&with(&twice), 11, Layer::Net, 12, 3);
    let then_zero = [0x12, 0, 0, 0, 1, 0x12, 0, 0, 0, 0];
    misread(&with(&then_zero), 10, Layer::Net, 12, 3);
}

#[test]
fn refuses_too_many_places_and_transitions() {
    let mut places = [0x10, 0, 0, 0, 1, 1].repeat(64);
    places.extend([0x10, 0, 0, 0, 1, 2]);
    misread(&places, 5, Layer::Net, 384, 64);
    misread(&[0x11; 97], 7, Layer::Net, 96, 96);
}

#[test]
fn feeds_until_a_refusal() {
    let stream = net(
        &[(1, 0)],
        &[(&[], &[]), (&[], &[]), (&[(0, 1)], &[])],
        REACH,
    );
    for (steps, number, layer, byte, count) in [
        (&[0x23, 0, 0x20][..], 2, Layer::Session, 2, 1),
        (&[0x23, 0, 0x2F], 3, Layer::Session, 2, 1),
        (&[0x23, 0, 0x23, 1, 0x23, 1], 8, Layer::Book, 4, 2),
        (&[0x10], 3, Layer::Session, 0, 0),
    ] {
        let report = reduce(&stream, steps, &mut dirty());
        assert_eq!((report.number, report.layer), (number, layer as u32));
        assert_eq!(
            (report.byte, report.count, report.taken),
            (byte, count, count)
        );
        assert_eq!(report.transitions as usize, 3 - count);
        assert_eq!(report.used, stream.len());
    }
}

#[test]
fn drop_dominated() {
    let arcs: &[Arcs] = &[(&[(0, 2)], &[(0, 1)]), (&[(0, 1)], &[])];
    let stream = net(&[(5, 1)], arcs, BOTH);
    taken(&stream, &[0x20, 0, 1], 1, &[5], &[(&[(0, 1)], &[])]);
    refused(&stream, &[0x20, 1, 0], 17);
    refused(&stream, &[0x20, 0, 0], 14);
    refused(&stream, &[0x20, 0, 2], 8);
    refused(&stream, &[0x20, 2, 2], 8);
    let other = net(&[(5, 1)], &[(&[(0, 2)], &[]), (&[(0, 1)], &[])], BOTH);
    refused(&other, &[0x20, 0, 1], 17);
}

#[test]
fn drop_multiple() {
    let arcs: &[Arcs] = &[(&[(0, 1)], &[(1, 2)]), (&[(0, 3)], &[(1, 6)])];
    let stream = net(&[(5, 1), (0, 1)], arcs, BOTH);
    taken(
        &stream,
        &[0x21, 1, 0, 0, 3],
        3,
        &[5],
        &[(&[(0, 1)], &[(1, 2)])],
    );
    refused(&stream, &[0x21, 1, 0, 0, 2], 17);
    refused(&stream, &[0x21, 1, 0, 0, 0], 15);
    refused(&stream, &[0x21, 1, 1, 0, 0], 14);
    refused(&stream, &[0x21, 1, 255, 0, 0], 8);
    // 65,537 × 65,535 is no weight even where 32 bits would wrap to one.
    let big = net(&[(5, 1)], &[(&[(0, 65_535)], &[]), (&[(0, 1)], &[])], BOTH);
    refused(&big, &[0x21, 1, 0, 0xFF, 0xFF], 17);
}

#[test]
fn drop_composed() {
    let arcs: &[Arcs] = &[
        (&[(0, 1)], &[(1, 1)]),
        (&[(1, 1)], &[(2, 1)]),
        (&[(0, 1)], &[(2, 1)]),
    ];
    let stream = net(&[(1, 1), (0, 0), (0, 1)], arcs, BOTH);
    taken(&stream, &[0x22, 2, 0, 1], 7, &[1], &arcs[..2]);
    refused(&stream, &[0x22, 2, 1, 0], 17);
    refused(&stream, &[0x22, 2, 2, 1], 14);
    refused(&stream, &[0x22, 2, 0, 2], 14);
    refused(&stream, &[0x22, 2, 0, 3], 8);
    let twice: &[Arcs] = &[(&[], &[(0, 2)]), (&[], &[(0, 1)])];
    taken(
        &net(&[(0, 0)], twice, REACH),
        &[0x22, 0, 1, 1],
        1,
        &[],
        &twice[1..],
    );
}

#[test]
fn drop_draining() {
    let arcs: &[Arcs] = &[(&[(0, 1), (1, 2)], &[(0, 1), (1, 1)]), (&[], &[(0, 1)])];
    let places = &[(1, 1), (2, 0)];
    let stream = net(places, arcs, 0);
    taken(&stream, &[0x23, 0], 3, &[1, 2], &arcs[1..]);
    refused(&stream, &[0x23, 1], 17);
    refused(&stream, &[0x23, 2], 8);
    refused(&net(places, arcs, STANDSTILL), &[0x23, 2], 13);
    refused(&net(places, arcs, BOTH), &[0x23, 0], 13);
    refused(&net(&[(1, 1), (2, 1)], arcs, REACH), &[0x23, 0], 17);
}

#[test]
fn drop_starved() {
    let arcs: &[Arcs] = &[(&[], &[(1, 1)]), (&[(0, 4)], &[(1, 9)]), (&[(0, 3)], &[])];
    let stream = net(&[(3, 1), (0, 0)], arcs, BOTH);
    taken(&stream, &[0x24, 1, 0], 3, &[3], &[arcs[0], arcs[2]]);
    refused(&stream, &[0x24, 2, 0], 18);
    refused(&stream, &[0x24, 1, 1], 17);
    refused(&stream, &[0x24, 1, 2], 9);
    refused(&stream, &[0x24, 3, 64], 8);
}

#[test]
fn keep_sourceless() {
    let arcs: &[Arcs] = &[(&[(0, 1)], &[]), (&[], &[(0, 4)]), (&[], &[])];
    let stream = net(&[(3, 1)], arcs, STANDSTILL);
    taken(&stream, &[0x25, 1], 1, &[3], &arcs[1..2]);
    refused(&stream, &[0x25, 0], 17);
    refused(&stream, &[0x25, 3], 8);
    refused(&net(&[(3, 1)], arcs, BOTH), &[0x25, 1], 13);
    refused(&net(&[(3, 1)], arcs, REACH), &[0x25, 3], 13);
}

#[test]
fn remove_plentiful() {
    let arcs: &[Arcs] = &[(&[(0, 2), (1, 1)], &[(0, 2)]), (&[], &[(0, 1), (1, 1)])];
    let stream = net(&[(2, 0), (5, 1)], arcs, BOTH);
    let after: &[Arcs] = &[(&[(1, 1)], &[]), (&[], &[(1, 1)])];
    taken(&stream, &[0x26, 0], 2, &[0, 5], after);
    refused(&stream, &[0x26, 1], 16);
    refused(&stream, &[0x26, 2], 9);
    refused(&net(&[(1, 0), (5, 1)], arcs, BOTH), &[0x26, 0], 18);
    refused(&net(&[(1, 0), (5, 0)], arcs, BOTH), &[0x26, 1], 17);
}

#[test]
fn remove_implied() {
    let arcs: &[Arcs] = &[(&[(0, 2), (1, 1)], &[]), (&[], &[(0, 3), (1, 1)])];
    let stream = net(&[(6, 0), (3, 1)], arcs, BOTH);
    let after: &[Arcs] = &[(&[(1, 1)], &[]), (&[], &[(1, 1)])];
    taken(&stream, &[0x27, 0, 1, 0, 2], 2, &[0, 3], after);
    refused(&stream, &[0x27, 0, 1, 0, 1], 17);
    refused(&stream, &[0x27, 0, 1, 0, 4], 17);
    refused(&stream, &[0x27, 0, 1, 0, 3], 18);
    refused(&stream, &[0x27, 0, 1, 0, 0], 15);
    refused(&stream, &[0x27, 0, 0, 0, 0], 14);
    refused(&stream, &[0x27, 0, 2, 0, 2], 9);
    refused(&stream, &[0x27, 1, 0, 0, 2], 16);
    refused(&net(&[(5, 0), (3, 1)], arcs, BOTH), &[0x27, 0, 1, 0, 2], 18);
    let full = net(&[(u32::MAX, 0), (u32::MAX, 0)], &[], BOTH);
    refused(&full, &[0x27, 0, 1, 0xFF, 0xFF], 18);
}

#[test]
fn drop_siphon() {
    let arcs: &[Arcs] = &[
        (&[(0, 1)], &[(9, 1)]),
        (&[(8, 1)], &[(8, 1)]),
        (&[(9, 2)], &[(0, 1), (1, 1)]),
    ];
    let mut places = vec![(0, 0); 10];
    places[9].1 = 1;
    let stream = net(&places, arcs, BOTH);
    // Places 0 and 9.
    let set = [0x28, 1, 2, 0, 0, 0, 0, 0, 0];
    taken(&stream, &set, 0x3FF, &[], &arcs[1..2]);
    refused(&stream, &[0x28, 2, 0, 0, 0, 0, 0, 0, 0], 17);
    refused(&stream, &[0x28, 0, 0, 0, 0, 0, 0, 0, 0], 15);
    refused(&stream, &[0x28, 0, 4, 0, 0, 0, 0, 0, 0], 9);
    places[9].0 = 1;
    refused(&net(&places, arcs, BOTH), &set, 18);
}

#[test]
fn limit_to() {
    let arcs: &[Arcs] = &[
        (&[(0, 1)], &[(1, 1), (2, 5)]),
        (&[(2, 1), (1, 2)], &[(1, 1)]),
        (&[], &[(2, 1)]),
    ];
    let places = &[(3, 1), (4, 0), (5, 0)];
    let stream = net(places, arcs, REACH);
    let set = |bits| [0x29, bits, 0, 0, 0, 0, 0, 0, 0];
    let after: &[Arcs] = &[(&[(0, 1)], &[(1, 1)]), (&[], &[])];
    taken(&stream, &set(3), 3, &[3, 4], after);
    taken(&stream, &set(7), 7, &[3, 4, 5], arcs);
    refused(&stream, &set(2), 16);
    refused(&stream, &set(11), 9);
    refused(&net(places, arcs, BOTH), &set(11), 13);
    refused(&net(&[(3, 0), (4, 0), (5, 0)], arcs, REACH), &set(6), 17);
    refused(&net(&[(3, 1), (4, 1), (5, 0)], arcs, REACH), &set(3), 17);
    taken(
        &net(&[(3, 0)], &[(&[(0, 1)], &[]), (&[], &[(0, 1)])], REACH),
        &set(0),
        0,
        &[],
        &[(&[], &[])],
    );
}

#[test]
fn post_agglomerate() {
    let arcs: &[Arcs] = &[
        (&[(0, 1)], &[(1, 4), (2, 1)]),
        (&[], &[(1, 2)]),
        (&[(1, 2)], &[(2, 3)]),
        (&[(2, 1)], &[(0, 1)]),
    ];
    let stream = net(&[(1, 1), (0, 0), (0, 0)], arcs, BOTH);
    let after: &[Arcs] = &[
        (&[(2, 1)], &[(0, 1)]),
        (&[(0, 1)], &[(2, 7)]),
        (&[], &[(2, 3)]),
    ];
    taken(&stream, &[0x2A, 1], 5, &[1], after);
    refused(&stream, &[0x2A, 3], 9);
    refused(&stream, &[0x2A, 0], 16);
    refused(&net(&[(1, 0), (1, 0), (0, 0)], arcs, BOTH), &[0x2A, 1], 18);
    refused(&net(&[(1, 0), (0, 0), (0, 1)], arcs, BOTH), &[0x2A, 1], 17);
    // With two consumers all weights must be equal.
    let split: &[Arcs] = &[(&[], &[(0, 2)]), (&[(0, 1)], &[]), (&[(0, 1)], &[(1, 1)])];
    refused(&net(&[(0, 0), (0, 0)], split, BOTH), &[0x2A, 0], 17);
    let equal: &[Arcs] = &[(&[], &[(0, 2)]), (&[(0, 2)], &[]), (&[(0, 2)], &[(1, 1)])];
    let pairs: &[Arcs] = &[(&[], &[]), (&[], &[(1, 1)])];
    taken(
        &net(&[(0, 0), (0, 0)], equal, BOTH),
        &[0x2A, 0],
        2,
        &[],
        pairs,
    );
    let reader: &[Arcs] = &[(&[], &[(0, 1)]), (&[(0, 1)], &[]), (&[(0, 1)], &[(0, 1)])];
    refused(&net(&[(0, 0)], reader, BOTH), &[0x2A, 0], 17);
}

#[test]
fn post_agglomerate_past_the_limit() {
    let at: &[Arcs] = &[(&[], &[(0, 2), (1, 1)]), (&[(0, 1)], &[(1, 32_767)])];
    let after: &[Arcs] = &[(&[], &[(1, 65_535)])];
    taken(&net(&[(0, 0), (0, 0)], at, BOTH), &[0x2A, 0], 2, &[], after);
    let past: &[Arcs] = &[(&[], &[(0, 2), (1, 2)]), (&[(0, 1)], &[(1, 32_767)])];
    refused(&net(&[(0, 0), (0, 0)], past, BOTH), &[0x2A, 0], 21);
    let far: &[Arcs] = &[
        (&[], &[(0, 65_535), (1, 65_535)]),
        (&[(0, 1)], &[(1, 65_535)]),
    ];
    refused(&net(&[(0, 0), (0, 0)], far, BOTH), &[0x2A, 0], 21);
}

/// Feeders and consumers of place 0, and others without arcs.
fn crossing(feeders: usize, consumers: usize, others: usize) -> Vec<u8> {
    let mut arcs: Vec<Arcs> = vec![(&[], &[]); others];
    arcs.extend(vec![(&[][..], &[(0, 1)][..]); feeders]);
    arcs.extend(vec![(&[(0, 1)][..], &[][..]); consumers]);
    net(&[(0, 0)], &arcs, REACH)
}

#[test]
fn agglomerations_keep_their_limits() {
    let empty: Arcs = (&[], &[]);
    for step in [[0x2A, 0], [0x2C, 0]] {
        taken(&crossing(4, 8, 64), &step, 0, &[], &[empty; 96]);
        refused(&crossing(4, 8, 65), &step, 20);
        refused(&crossing(3, 11, 65), &step, 19);
        refused(&crossing(33, 1, 0), &step, 19);
    }
}

#[test]
fn pre_agglomerate() {
    let arcs: &[Arcs] = &[
        (&[(1, 1), (2, 1)], &[(3, 1)]),
        (&[(0, 2)], &[(1, 1)]),
        (&[(1, 1)], &[(3, 5), (2, 1)]),
    ];
    let places = &[(4, 0), (0, 0), (0, 1), (0, 1)];
    let stream = net(places, arcs, STANDSTILL);
    let after: &[Arcs] = &[
        (&[(0, 2), (2, 1)], &[(3, 1)]),
        (&[(0, 2)], &[(2, 1), (3, 5)]),
    ];
    taken(&stream, &[0x2B, 1], 13, &[4], after);
    refused(&stream, &[0x2B, 2], 16);
    refused(&stream, &[0x2B, 4], 9);
    refused(&stream, &[0x2B, 0], 17);
    let marked = &[(4, 0), (1, 0), (0, 1), (0, 1)];
    refused(&net(marked, arcs, BOTH), &[0x2B, 1], 18);
    let in_support = &[(4, 1), (0, 0), (0, 1), (0, 1)];
    refused(&net(in_support, arcs, BOTH), &[0x2B, 1], 17);
    // A second consumer of place 0.
    let shared: Vec<Arcs> = [arcs, &[(&[(0, 1)], &[(0, 1)])]].concat();
    refused(&net(places, &shared, REACH), &[0x2B, 1], 17);
    refused(&crossing(1, 1, 0), &[0x2B, 0], 17);
}

#[test]
fn free_agglomerate() {
    let arcs: &[Arcs] = &[
        (&[(0, 2)], &[(1, 1)]),
        (&[], &[(1, 1)]),
        (&[(1, 1), (0, 1)], &[(2, 6)]),
        (&[(0, 1)], &[(0, 1)]),
    ];
    let places = &[(4, 0), (0, 0), (0, 1)];
    let after: &[Arcs] = &[
        (&[(0, 1)], &[(0, 1)]),
        (&[(0, 3)], &[(2, 6)]),
        (&[(0, 1)], &[(2, 6)]),
    ];
    taken(&net(places, arcs, REACH), &[0x2C, 1], 5, &[4], after);
    refused(&net(places, arcs, BOTH), &[0x2C, 9], 13);
    refused(&net(places, arcs, REACH), &[0x2C, 9], 9);
    refused(&net(places, arcs, REACH), &[0x2C, 2], 16);
    refused(&net(&[(4, 1), (0, 0), (0, 0)], arcs, REACH), &[0x2C, 1], 17);
    refused(&net(&[(4, 0), (2, 0), (0, 0)], arcs, REACH), &[0x2C, 1], 18);
    let past: &[Arcs] = &[(&[(0, 1)], &[(1, 1)]), (&[(1, 1), (0, 65_535)], &[])];
    refused(&net(places, past, REACH), &[0x2C, 1], 21);
}

#[test]
fn fire_ahead() {
    let arcs: &[Arcs] = &[(&[(0, 2)], &[(1, 3)]), (&[], &[(0, 1)])];
    let stream = net(&[(5, 0), (1, 0)], arcs, BOTH);
    taken(&stream, &[0x2D, 0, 0, 2], 3, &[1, 7], arcs);
    refused(&stream, &[0x2D, 0, 0, 3], 18);
    refused(&stream, &[0x2D, 0, 0, 0], 15);
    refused(&stream, &[0x2D, 2, 0, 0], 8);
    refused(&stream, &[0x2D, 1, 0, 1], 17);
    refused(&net(&[(5, 1), (1, 0)], arcs, BOTH), &[0x2D, 0, 0, 2], 17);
    refused(&net(&[(5, 0), (1, 1)], arcs, BOTH), &[0x2D, 0, 0, 2], 17);
    let at = net(&[(5, 0), (u32::MAX - 6, 0)], arcs, BOTH);
    taken(&at, &[0x2D, 0, 0, 2], 3, &[1, u32::MAX], arcs);
    let past = net(&[(5, 0), (u32::MAX - 5, 0)], arcs, BOTH);
    refused(&past, &[0x2D, 0, 0, 2], 21);
}

#[test]
fn fuse_places() {
    let arcs: &[Arcs] = &[
        (&[(1, 1)], &[(0, 1)]),
        (&[(0, 1)], &[(1, 1)]),
        (&[(0, 2), (1, 3)], &[(1, 4), (2, 1)]),
    ];
    let places = &[(5, 0), (1, 0), (0, 1)];
    let after: &[Arcs] = &[
        (&[(0, 1)], &[(0, 1)]),
        (&[(0, 1)], &[(0, 1)]),
        (&[(0, 5)], &[(0, 4), (2, 1)]),
    ];
    let stream = net(places, arcs, BOTH);
    taken(&stream, &[0x2E, 0, 1, 1, 0], 5, &[6], after);
    refused(&stream, &[0x2E, 0, 1, 0, 1], 17);
    refused(&stream, &[0x2E, 0, 1, 1, 1], 17);
    refused(&stream, &[0x2E, 0, 0, 1, 0], 14);
    refused(&stream, &[0x2E, 0, 2, 1, 0], 16);
    refused(&stream, &[0x2E, 9, 2, 1, 0], 9);
    refused(&stream, &[0x2E, 9, 2, 1, 3], 8);
    let full = net(&[(u32::MAX, 0), (1, 0), (0, 1)], arcs, BOTH);
    refused(&full, &[0x2E, 0, 1, 1, 0], 21);
    let heavy: &[Arcs] = &[arcs[0], arcs[1], (&[(0, 2), (1, 65_534)], &[])];
    refused(&net(places, heavy, BOTH), &[0x2E, 0, 1, 1, 0], 21);
}
