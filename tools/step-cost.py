#!/usr/bin/env python3
"""Counts the instructions that each step needs on nets of 64 places with thousands of arcs.

usage: tools/step-cost.py [PROGRAM]     (crates/bench/out/bench, built by `samples/run` or the gate)

A step's cost is what the program needs for a net and the step, less what it needs to read that net and to print the one that is left.
Reading is counted on a stream that lacks its last byte, printing on the net that is left, given as a stream of its own. Instructions
are counted by valgrind's callgrind, so that the numbers do not depend on what else the machine does. Of an instruction that moves a
string callgrind counts each byte: so the C library is told to move memory by plain ones.
"""
import os, re, subprocess, sys, tempfile

PROGRAM = sys.argv[1] if len(sys.argv) > 1 else 'crates/bench/out/bench'
PLAIN_MOVES = dict(os.environ, GLIBC_TUNABLES='glibc.cpu.hwcaps=-ERMS,-FSRM')


def run(data):
    out = subprocess.run([PROGRAM], input=data, capture_output=True)
    return out.stdout.decode().split('\n')[:-1]


def cost(data):
    with tempfile.TemporaryDirectory() as folder:
        said = subprocess.run(['valgrind', '--tool=callgrind', f'--callgrind-out-file={folder}/out', PROGRAM],
                              input=data, capture_output=True, env=PLAIN_MOVES).stderr.decode()
    return int(re.search(r'Collected : (\d+)', said).group(1))


def stream(places, rows, question):
    """The net stream of places (mark, flag) and rows (takes, puts), each a dictionary by place."""
    out = b''.join(bytes([0x10]) + mark.to_bytes(4, 'big') + bytes([flag]) for mark, flag in places)
    out += bytes([0x11]) * len(rows)
    for t, (takes, puts) in enumerate(rows):
        for code, side in ((0x12, takes), (0x13, puts)):
            out += b''.join(bytes([code, t, p]) + w.to_bytes(2, 'big') for p, w in sorted(side.items()))
    return out + bytes([0x1f, question])


def left(lines, question):
    """The net that was printed, as a stream; places that do not stand any more are closed up."""
    places, rows = {}, {}
    for line in lines:
        word, *numbers = line.split()
        numbers = [int(n) for n in numbers]
        if word == 'place':
            places[numbers[0]] = (numbers[1], 0)
        elif word in ('take', 'put'):
            rows.setdefault(numbers[0], ({}, {}))[word == 'put'][numbers[1]] = numbers[2]
    number = {p: i for i, p in enumerate(sorted(places))}
    net = [tuple({number[p]: w for p, w in side.items()} for side in rows.get(t, ({}, {})))
           for t in range(max(rows, default=-1) + 1)]
    return stream([places[p] for p in sorted(places)], net, question)


def dense(count, arcs, skip=()):
    """Rows with this many arcs a side at places that are not skipped."""
    places = [p for p in range(64) if p not in skip]
    return [({places[(t + i) % len(places)]: 1 + (t + i) % 3 for i in range(arcs)},
             {places[(t + 2 * i) % len(places)]: 1 + (t + i) % 2 for i in range(arcs)}) for t in range(count)]


def nets():
    marks = [(5, 0)] * 64
    many = dense(94, 32)
    yield '20', marks, [many[0], many[0]] + many, 3, bytes([0x20, 0, 1])
    twice = ({p: 2 * w for p, w in many[0][0].items()}, {p: 2 * w for p, w in many[0][1].items()})
    yield '21', marks, [twice, many[0]] + many, 3, bytes([0x21, 0, 1, 0, 2])
    u, v = many[0], (many[0][1], many[0][0])
    yield '22', marks, [(u[0], u[0]), u, v] + many[:93], 3, bytes([0x22, 0, 1, 2])
    yield '23', marks, [({p: 2 for p in range(64)}, {p: 1 for p in range(64)})] + many, 1, bytes([0x23, 0])
    unfed = dense(95, 33, skip=(0,))
    yield '24', [(0, 0)] + marks[1:], [({**unfed[0][0], 0: 1}, unfed[0][1])] + unfed, 3, bytes([0x24, 0, 0])
    yield '25', marks, [({}, many[0][1])] + many, 2, bytes([0x25, 0])
    fed = dense(95, 33, skip=(0,))
    yield '26', [(9, 0)] + marks[1:], [({**a, 0: 1}, {**b, 0: 2}) for a, b in fed[:90]], 3, bytes([0x26, 0])
    pair = dense(90, 33, skip=(0, 1))
    yield '27', [(9, 0), (3, 0)] + marks[2:], [({**a, 0: 2, 1: 2}, {**b, 0: 2, 1: 1}) for a, b in pair], 3, bytes([0x27, 0, 1, 0, 1])
    outside = dense(60, 32, skip=range(32))
    inside = [({**{p: 1 for p in range(32)}, **a}, {**{p: 1 for p in range(32)}, **b}) for a, b in dense(20, 16, skip=range(32))]
    half = bytes([255] * 4 + [0] * 4)
    yield '28', [(0, 0)] * 32 + marks[32:], outside + inside, 3, bytes([0x28]) + half
    within = dense(60, 32, skip=range(32, 64))
    falling = [({**{p: 2 for p in range(32)}, **a}, {p: 1 for p in range(64)}) for a, _ in dense(20, 16, skip=range(32))]
    yield '29', marks, within + falling, 1, bytes([0x29]) + half
    rest = dense(64, 18, skip=(0,))
    feed = [({p: 1 for p in range(1, 64)}, {**{p: 1 for p in range(1, 64)}, 0: 1}) for _ in range(4)]
    use = [({0: 1}, {p: 1 for p in range(1, 64)}) for _ in range(8)]
    yield '2A, 4 × 8 neighbours', [(0, 0)] + marks[1:], rest + feed + use, 3, bytes([0x2a, 0])
    yield '2A, 1 × 32 neighbours', [(0, 0)] + marks[1:], rest[:63] + feed[:1] + use * 4, 3, bytes([0x2a, 0])
    own = dense(64, 18, skip=range(0, 6))
    sources = [({1 + h: 1}, {0: 1}) for h in range(4)]
    sinks = [({0: 1, **{p: 1 for p in range(6, 64)}}, {p: 1 for p in range(6, 64)}) for _ in range(8)]
    yield '2B, 4 × 8 neighbours', [(0, 0)] + marks[1:], own + sources + sinks, 3, bytes([0x2b, 0])
    takers = [({p: 1 for p in range(1, 64)}, {0: 1}) for _ in range(4)]
    givers = [({**{p: 1 for p in range(1, 64)}, 0: 1}, {p: 1 for p in range(1, 64)}) for _ in range(8)]
    yield '2C, 4 × 8 neighbours', [(0, 0)] + marks[1:], rest + takers + givers, 1, bytes([0x2c, 0])
    ahead = dense(95, 32, skip=(0,))
    yield '2D', [(5, 0)] + marks[1:], [({0: 1}, {p: 1 for p in range(1, 64)})] + ahead, 3, bytes([0x2d, 0, 0, 3])
    fused = dense(90, 33)
    yield '2E', marks, [({0: 1}, {1: 1}), ({1: 1}, {0: 1})] + fused, 3, bytes([0x2e, 0, 1, 0, 1])


def main():
    print('| step | transitions | arcs | instructions |\n|---|---|---|---|')
    for name, places, rows, question, step in nets():
        net = stream(places, rows, question)
        lines = run(net + step)
        assert lines[0] == 'taken 1', (name, len(net), lines[:2])
        after = left(lines, question)
        assert run(after)[1:] or not lines[1:]
        reading = lambda s: cost(s[:-1])
        step_cost = cost(net + step) - reading(net) - (cost(after) - reading(after))
        arcs = sum(len(a) + len(b) for a, b in rows)
        print(f'| {name} | {len(rows)} | {arcs:,} | {step_cost:,} |')


main()
