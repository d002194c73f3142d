#!/usr/bin/env python3
"""Measures the built program beside a yardstick, and prints tables.

`decode`: each input has 16 MiB of hex lines. The yardstick turns the same digits into octets:
`xxd -r -p`, or a loop over `bytes.fromhex` where xxd is missing.

Beacons: 100,000 lines, each a Multi-Link element with two profiles and a mapping element. Where
tshark is installed, it shows the same elements in 100,000 Beacon frames of a capture file.

Mixed: 100,000 lines of all kinds, by `decode` and by `check`, in lines a second.

`run`: scenarios in which the AP queues, sends, and is acknowledged body by body, in rounds of five
commands and seven steps. The yardstick is Python: reading the scenario and writing it again with
`json`, and SHA-256 over its bodies twice with `hashlib`, as often as a body is sealed and opened.

Windows: windows of 64 and of 256 numbers in which one frame in a hundred is lost and sent again, and two
links whose frames arrive out of order, some on the other link and in another try; each at 2^10, 2^13 and 2^16
commands. A step is to take as long in the largest as in the smallest, within 1.5 times.

Loops: one loop of 8,000 rounds, with bodies of one octet and of 1,000, in steps a second. What the longer
bodies add is mostly hashing; the yardstick's two times show how much hashing that is.

Times are the least of some runs, in seconds of wall time; the ratio is the program's time over the
yardstick's. Memory is the peak of the program.

Usage: bench/run.py [--runs N]
"""

import argparse
import itertools
import json
import os
import random
import shutil
import subprocess
import sys
import tempfile

ROOT = os.path.dirname(os.path.dirname(os.path.abspath(__file__)))
SIZE = 16 * 1024 * 1024
GOAL_RATIO = 4.0
GOAL_MEMORY_MB = 1000
GOAL_RUN_MEMORY_MB = 400
GOAL_GROWTH = 1.5
GOAL_BEACON_US = 2.0
BEACONS = 100_000
LOSS = 0.01
SIZES = [1 << 10, 1 << 13, 1 << 16]
ROUNDS = 8000

PYTHON_YARDSTICK = """
import sys
out = sys.stdout.buffer
for line in sys.stdin:
    out.write(bytes.fromhex(line))
"""

# Runs a command over a file, and prints its time, its peak memory and its status. A process begins with the
# peak of the one that started it, which therefore is this small one, and not the one that makes the inputs.
MEASURER = """
import os, subprocess, sys, time
with open(sys.argv[1], "rb") as source, open(os.devnull, "wb") as sink:
    start = time.monotonic()
    child = subprocess.Popen(sys.argv[2:], stdin=source, stdout=sink)
    _, status, usage = os.wait4(child.pid, 0)
    taken = time.monotonic() - start
print(taken, usage.ru_maxrss, os.waitstatus_to_exitcode(status))
"""

JSON_YARDSTICK = """
import hashlib, json, sys
scenario = json.load(sys.stdin)
json.dump(scenario, sys.stdout)

def hash_bodies(commands, times):
    for command in commands:
        if command["do"] == "loop":
            hash_bodies(command["body"], command["times"])
        elif "body" in command:
            body = bytes.fromhex(command["body"])
            for _ in range(2 * times):
                hashlib.sha256(body).digest()

hash_bodies(scenario["before"], 1)
"""


def element(identity, body, ext=None):
    extension = b"" if ext is None else bytes([ext])
    return bytes([identity, len(extension) + len(body)]) + extension + body


def mixed_list():
    """Seven elements in 62 octets: raw ones, two mapping elements and a Non-Inheritance element."""
    return b"".join(
        [
            element(0, b"abcdef"),
            element(1, bytes(range(8))),
            element(221, bytes(range(14))),
            element(255, bytes.fromhex("21090102"), 109),
            element(255, bytes.fromhex("1a0134120100000300"), 109),
            element(45, b"\x01\x02"),
            element(255, b"\x00\x01", 56),
        ]
    )


def inputs():
    small = b"ff026d06\n"
    mixed = mixed_list().hex().encode() + b"\n"
    yield "the default mapping, 4 octets a line", small
    yield f"mixed elements, {len(mixed_list())} octets a line", mixed


def beacon_list():
    """A Basic Multi-Link element with two profiles, and a mapping element, as an AP's beacon has them."""
    common = bytes.fromhex("0c 020000000001 00 03 0000 6000")
    common = bytes([len(common)]) + common[1:]
    profiles = b""
    for link in (1, 2):
        control = link | 0x0020 | 0x0040 | 0x0080 | 0x0100 | 0x0800
        address = bytes([2, 0, 0, 0, 0, 0x10 + link])
        info = address + (100).to_bytes(2, "little") + (40 * link).to_bytes(8, "little") + b"\x01\x03\x05"
        body = control.to_bytes(2, "little") + bytes([1 + len(info)]) + info + b"\x11\x04"
        profiles += element(0, body)
    multi_link = element(255, (0x01B0).to_bytes(2, "little") + common + profiles, 107)
    return multi_link + element(255, bytes.fromhex("06"), 109)


def beacon_capture():
    """A capture file of so many Beacon frames with these elements."""
    frame = bytes.fromhex("80000000ffffffffffff0200000000100200000000100000") + bytes(8)
    frame += bytes.fromhex("64001104") + element(0, b"abc") + beacon_list()
    record = bytes(8) + len(frame).to_bytes(4, "little") * 2 + frame
    head = bytes.fromhex("d4c3b2a1020004000000000000000000") + (1 << 18).to_bytes(4, "little")
    return head + (105).to_bytes(4, "little") + record * BEACONS


def mixed_kinds():
    """Lines of each kind, from the examples: those that are accepted, without the beacon's."""
    lines = []
    for name in ("elements", "actions", "association", "frames"):
        with open(os.path.join(ROOT, "examples", f"{name}.hex"), encoding="ascii") as file:
            given = file.read().split("\n")[:-1]
        with open(os.path.join(ROOT, "examples", f"{name}.verdicts"), encoding="ascii") as file:
            verdicts = file.read().split("\n")[:-1]
        lines += [line for line, verdict in zip(given, verdicts) if line and verdict.startswith("ok")]
    return lines


def body_of(number, octets):
    """Hex digits of a body of so many octets, which begins with the number."""
    return ((number % 65536).to_bytes(2, "big").hex() + "a5" * octets)[: 2 * octets]


def queue(number, octets):
    return {"do": "queue", "end": "ap", "tid": 0, "body": body_of(number, octets)}


def send(link=0):
    return {"do": "send", "end": "ap", "link": link, "lane": 0}


def again(pos, link=0):
    return {"do": "again", "end": "ap", "link": link, "lane": 0, "pos": pos}


def deliver(link=0, nth=None):
    command = {"do": "deliver", "end": "sta", "link": link}
    return command if nth is None else {**command, "nth": nth}


ACKED = [{"do": "ack_out", "end": "sta", "lane": 0}, {"do": "ack_in", "end": "ap"}]


def body_by_body(octets):
    """Queue, send, deliver, acknowledge, and again."""
    for number in itertools.count():
        yield from [queue(number, octets), send(), deliver(), *ACKED]


def with_losses(window, octets):
    """Half a window of bodies at a time, and their acknowledgement; the frames lost among them are sent
    again, and acknowledged too."""
    source = random.Random(window)
    for start in itertools.count(0, window // 2):
        lost = []
        for pos in range(start, start + window // 2):
            yield from [queue(pos, octets), send()]
            if source.random() < LOSS:
                lost.append(pos)
            else:
                yield deliver()
        yield from ACKED
        for pos in lost:
            yield from [again(pos), deliver()]
        if lost:
            yield from ACKED


def over_two_links(octets):
    """Sixteen bodies at a time, by turns on two links. Each link's frames arrive backwards, the second
    link's first. The first frame is lost and sent again on the second link."""
    for start in itertools.count(0, 16):
        for pos in range(start, start + 16):
            yield from [queue(pos, octets), send(pos % 2)]
        block = start // 16
        yield from [deliver(1, 9 * block + nth) for nth in reversed(range(8))]
        yield from [deliver(0, 8 * block + nth) for nth in reversed(range(1, 8))]
        yield from [again(start, 1), deliver(1), *ACKED]


def scenario(commands, window=1, links=1):
    return {
        "version": 1,
        "ap": "020000000001",
        "sta": "020000000002",
        "key": "000102030405060708090a0b0c0d0e0f",
        "links": [{"id": i, "ap": f"02000000001{i}", "sta": f"02000000002{i}"} for i in range(links)],
        "window": window,
        "before": list(commands),
    }


def scenarios():
    for commands, octets in [(1 << 10, 1500), (1 << 12, 1500), (1 << 14, 1500), (1 << 16, 400)]:
        yield commands, octets


def measure(command, path, runs):
    """The least wall time in seconds, and the peak memory in MB."""
    best, peak = None, 0
    for _ in range(runs):
        told = subprocess.run([sys.executable, "-c", MEASURER, path, *command], capture_output=True, check=True)
        taken, memory, status = told.stdout.split()
        if int(status) != 0:
            sys.exit(f"{command[0]} ended with status {int(status)}")
        best = float(taken) if best is None else min(best, float(taken))
        peak = max(peak, int(memory) / 1024)
    return best, peak


def note_missed(label, ratio, memory, missed):
    if ratio > GOAL_RATIO:
        missed.append(f"{label}: {ratio:.1f} times the yardstick, goal {GOAL_RATIO:.0f}")
    if memory > GOAL_MEMORY_MB:
        missed.append(f"{label}: {memory:.0f} MB, goal {GOAL_MEMORY_MB}")


def decode_table(folder, program, yardstick, name, runs, missed):
    print(f"| 16 MiB of lines | mld decode | {name} | ratio | a line | memory |")
    print("|---|---|---|---|---|---|")
    for label, line in inputs():
        lines = SIZE // len(line)
        path = os.path.join(folder, "input.hex")
        with open(path, "wb") as file:
            file.write(line * lines)
        ours, memory = measure([program, "decode"], path, runs)
        theirs, _ = measure(yardstick, path, runs)
        ratio = ours / theirs
        per_line = ours / lines * 1e6
        print(
            f"| {label} | {ours:.2f} s | {theirs:.2f} s | {ratio:.1f} "
            f"| {per_line:.2f} us | {memory:.0f} MB |"
        )
        note_missed(label, ratio, memory, missed)


def beacon_table(folder, program, yardstick, name, runs, missed):
    line = beacon_list().hex().encode() + b"\n"
    path = os.path.join(folder, "beacons.hex")
    with open(path, "wb") as file:
        file.write(line * BEACONS)
    ours, memory = measure([program, "decode"], path, runs)
    theirs, _ = measure(yardstick, path, runs)
    print(f"| {BEACONS:,} beacons of {len(line) // 2} octets | time | a line | the program's ratio to it |")
    print("|---|---|---|---|")
    per_line = ours / BEACONS * 1e6
    print(f"| mld decode ({memory:.0f} MB) | {ours:.2f} s | {per_line:.2f} us | |")
    print(f"| {name} | {theirs:.2f} s | {theirs / BEACONS * 1e6:.2f} us | {ours / theirs:.1f} |")
    if per_line > GOAL_BEACON_US:
        missed.append(f"a beacon takes {per_line:.2f} us, goal {GOAL_BEACON_US}")
    if shutil.which("tshark"):
        capture = os.path.join(folder, "beacons.pcap")
        with open(capture, "wb") as file:
            file.write(beacon_capture())
        shark, _ = measure(["tshark", "-r", capture, "-V"], capture, 1)
        print(f"| tshark -V | {shark:.2f} s | {shark / BEACONS * 1e6:.2f} us | {ours / shark:.4f} |")


def mixed_table(folder, program, yardstick, name, runs, missed):
    lines = mixed_kinds()
    path = os.path.join(folder, "mixed.hex")
    with open(path, "w", encoding="ascii") as file:
        file.writelines(f"{lines[i % len(lines)]}\n" for i in range(BEACONS))
    digits = os.path.join(folder, "mixed.digits")
    with open(digits, "w", encoding="ascii") as file:
        file.writelines(f"{lines[i % len(lines)].split(' ')[-1]}\n" for i in range(BEACONS))
    theirs, _ = measure(yardstick, digits, runs)
    print(f"| {BEACONS:,} lines of all kinds | time | lines a second | ratio to {name} | memory |")
    print("|---|---|---|---|---|")
    for command in ("decode", "check"):
        ours, memory = measure([program, command], path, runs)
        print(f"| mld {command} | {ours:.2f} s | {BEACONS / ours:,.0f} | {ours / theirs:.1f} | {memory:.0f} MB |")
        note_missed(f"mixed lines by {command}", ours / theirs, memory, missed)


def run_table(folder, program, runs, missed):
    print("| commands, octets a body | mld run | json and hashlib | ratio | a step | memory |")
    print("|---|---|---|---|---|---|")
    steps_took = []
    for commands, octets in scenarios():
        path = os.path.join(folder, "scenario.json")
        with open(path, "w", encoding="ascii") as file:
            json.dump(scenario(itertools.islice(body_by_body(octets), commands)), file, separators=(",", ":"))
        ours, memory = measure([program, "run"], path, runs)
        theirs, _ = measure([sys.executable, "-c", JSON_YARDSTICK], path, runs)
        ratio = ours / theirs
        steps = commands // 5 * 7 + [0, 1, 4, 5, 6][commands % 5]
        per_step = ours / steps * 1e6
        label = f"{commands:,}, {octets:,}"
        print(
            f"| {label} | {ours:.3f} s | {theirs:.3f} s | {ratio:.1f} "
            f"| {per_step:.1f} us | {memory:.0f} MB |"
        )
        note_missed(label, ratio, memory, missed)
        if octets == 1500:
            steps_took.append(per_step)
    growth = steps_took[-1] / steps_took[0]
    if growth > GOAL_GROWTH:
        missed.append(f"a step takes {growth:.1f} times as long in the largest, goal {GOAL_GROWTH}")


def measure_run(folder, program, given, runs):
    """The times of the program and of the yardstick for a scenario, the program's memory, and the steps."""
    path = os.path.join(folder, "scenario.json")
    with open(path, "w", encoding="ascii") as file:
        json.dump(given, file, separators=(",", ":"))
    with open(path, "rb") as source:
        written = subprocess.run([program, "run"], stdin=source, capture_output=True, check=True).stdout
    report = json.loads(written.splitlines()[-1])
    queued, released = report["ap"]["queued"]["0"], report["sta"]["released"]["0"]
    if sum(last - first + 1 for first, last in released) < queued / 2:
        sys.exit("the scenario's bodies don't arrive")
    ours, memory = measure([program, "run"], path, runs)
    theirs, _ = measure([sys.executable, "-c", JSON_YARDSTICK], path, runs)
    return ours, theirs, memory, report["steps"]


def windows_table(folder, program, runs, missed):
    kinds = [
        ("window 64, 1 % lost", lambda: with_losses(64, 200), 64, 1),
        ("window 256, 1 % lost", lambda: with_losses(256, 200), 256, 1),
        ("two links, reordered, retries", lambda: over_two_links(200), 64, 2),
    ]
    print("| bodies of 200 octets | commands | mld run | json and hashlib | ratio | a step | memory |")
    print("|---|---|---|---|---|---|---|")
    for label, commands, window, links in kinds:
        steps_took = []
        for size in SIZES:
            given = scenario(itertools.islice(commands(), size), window, links)
            ours, theirs, memory, steps = measure_run(folder, program, given, runs)
            steps_took.append(ours / steps * 1e6)
            print(
                f"| {label} | {size:,} | {ours:.3f} s | {theirs:.3f} s | {ours / theirs:.1f} "
                f"| {steps_took[-1]:.1f} us | {memory:.0f} MB |"
            )
            if memory > GOAL_RUN_MEMORY_MB:
                missed.append(f"{label}, {size:,}: {memory:.0f} MB, goal {GOAL_RUN_MEMORY_MB}")
        growth = steps_took[-1] / steps_took[0]
        if growth > GOAL_GROWTH:
            missed.append(f"{label}: a step takes {growth:.1f} times as long in the largest, goal {GOAL_GROWTH}")


def loop_table(folder, program, runs, missed):
    print(f"| a loop of {ROUNDS:,} rounds | mld run | steps a second | json and hashlib | memory |")
    print("|---|---|---|---|---|")
    for octets in (1, 1000):
        body = list(itertools.islice(body_by_body(octets), 5))
        given = scenario([{"do": "loop", "times": ROUNDS, "body": body}])
        ours, theirs, memory, steps = measure_run(folder, program, given, runs)
        label = f"bodies of {octets:,} octets" if octets > 1 else "bodies of one octet"
        print(f"| {label} | {ours:.3f} s | {steps / ours:,.0f} | {theirs:.3f} s | {memory:.0f} MB |")
        if memory > GOAL_RUN_MEMORY_MB:
            missed.append(f"a loop, {label}: {memory:.0f} MB, goal {GOAL_RUN_MEMORY_MB}")


def main():
    parser = argparse.ArgumentParser(description=__doc__.splitlines()[0])
    parser.add_argument("--runs", type=int, default=5)
    runs = parser.parse_args().runs

    # The launcher builds the program where that is needed; the program itself is measured.
    subprocess.run([os.path.join(ROOT, "mld"), "decode"], stdin=subprocess.DEVNULL, check=True)
    program = os.path.join(ROOT, "crates", "mld", "out", "mld")
    if shutil.which("xxd"):
        yardstick, name = ["xxd", "-r", "-p"], "xxd -r -p"
    else:
        yardstick, name = [sys.executable, "-c", PYTHON_YARDSTICK], "bytes.fromhex"

    missed = []
    with tempfile.TemporaryDirectory() as folder:
        decode_table(folder, program, yardstick, name, runs, missed)
        print()
        beacon_table(folder, program, yardstick, name, runs, missed)
        print()
        mixed_table(folder, program, yardstick, name, runs, missed)
        print()
        run_table(folder, program, runs, missed)
        print()
        windows_table(folder, program, runs, missed)
        print()
        loop_table(folder, program, runs, missed)
    for line in missed:
        print(f"missed: {line}")


if __name__ == "__main__":
    main()
