#!/usr/bin/env python3
"""Processor seconds and peak memory of the program on sessions that grow, and how much more each takes than the one before.

    bench/measure.py [COMMAND]      COMMAND reads a session; without it, the proved program with the word `run`

The sessions are made here, the same ones each time: adders of gates with one sum bit seen wrong, ladders of pairs of buffers
whose labels double at each step, up to the most environments that all labels may have, polyboxes side by side, also with
all their diagnoses scored, and long sessions: of lines that change nothing, of words measured and taken back, and of words
measured, retracted and measured again. A session that takes more than LONGEST seconds is given up. This is no part of what
`.ci/run` tries.
"""
import os
import shlex
import subprocess
import sys
import tempfile

LONGEST = 60
TOP = os.path.dirname(os.path.dirname(os.path.abspath(__file__)))
QUESTIONS = ["conflicts", "diagnose", "first 10", "show"]


def adder(bits):
    """A ripple-carry adder of five gates a bit, with the sum bit 2 seen wrong."""
    lines = [f"net {name}{i} 1" for i in range(bits) for name in "ABSXGP"]
    lines += [f"net C{i} 1" for i in range(bits + 1)]
    for i in range(bits):
        lines += [f"xor Xa{i} A{i} B{i} X{i}", f"xor Xb{i} X{i} C{i} S{i}", f"and Na{i} A{i} B{i} G{i}"]
        lines += [f"and Nb{i} X{i} C{i} P{i}", f"or O{i} G{i} P{i} C{i + 1}"]
    a, b = 0b101101011011 % (1 << bits), 0b011011101101 % (1 << bits)
    lines.append("measure C0 0")
    for i in range(bits):
        lines += [f"measure A{i} {a >> i & 1}", f"measure B{i} {b >> i & 1}"]
        lines.append(f"measure S{i} {(a + b >> i & 1) ^ (i == 2)}")
    return lines + [f"label C{i}" for i in range(bits + 1)] + QUESTIONS


def ladder(steps):
    """Two buffers from each net to the next: the label of the last net has 2^steps environments."""
    lines = [f"net N{i} 1" for i in range(steps + 1)]
    for i in range(steps):
        lines += [f"buf U{i} N{i} N{i + 1}", f"buf V{i} N{i} N{i + 1}"]
    return lines + ["measure N0 1", f"label N{steps}"]


def full_load(cycles):
    """Ten nets, two buffers from each to the next, and a buffer from the last to each of 126: 65,535 environments a cycle."""
    nets = [f"N{i}" for i in range(10)] + [f"P{i}" for i in range(1, 127)] + ["W"]
    lines = [f"cycles {cycles}"] + [f"net {name} 1" for name in nets]
    for i in range(9):
        lines += [f"buf U{i} N{i} N{i + 1}", f"buf V{i} N{i} N{i + 1}"]
    lines += [f"buf Q{i} N9 P{i}" for i in range(1, 127)]
    return lines + [f"measure N0@{cycle} 1" for cycle in range(cycles)] + ["label W"]


def boxes(count, questions=QUESTIONS):
    """Polyboxes side by side, each with one output seen wrong: 4^count diagnoses."""
    lines = []
    for box in range(count):
        lines += [f"net {name}{box} {4 if name in 'ABCDE' else 8}" for name in "ABCDEXYZFG"]
        lines += [f"mul M1_{box} A{box} C{box} X{box}", f"mul M2_{box} B{box} D{box} Y{box}"]
        lines += [f"mul M3_{box} C{box} E{box} Z{box}", f"add A1_{box} X{box} Y{box} F{box}"]
        lines += [f"add A2_{box} Y{box} Z{box} G{box}"]
        lines += [f"measure {name}{box} {value}" for name, value in zip("ABCDEFG", (3, 2, 2, 3, 3, 10, 12))]
    return lines + questions


def scored(count):
    """The same with a pair of buffers that disagree, so twice as many diagnoses, and the best next measurement."""
    pair = ["net I 1", "net J 1", "net K 1", "buf U I J", "buf V J K", "measure I 0", "measure K 1"]
    return pair + boxes(count, ["diagnose", "probe"])


def refused(count):
    """Lines that are refused, one after another, in a full circuit."""
    lines = [f"net N{i} 8" for i in range(256)] + [f"buf U{i} N{i} N{i + 1}" for i in range(255)] + ["measure N0 3"]
    return lines + ["net N255 8", "measure N0 3", "buf U254 N0 N1", "cost U300 2"] * (count // 4)


def taken_back(count):
    """Words of 32 bits that are measured, asked for and taken back, each another one."""
    lines = ["net A 32", "net B 32", "net S 32", "add S1 A B S", "measure A 1"]
    for i in range(count // 3):
        lines += [f"measure B {i * 2_654_435_761 % (1 << 32)}", "label S", "undo"]
    return lines


def measured_again(count):
    """Two words of a net in turn, each retracted before the other is measured; what the history drops is forgotten."""
    lines = ["net A 32", "net B 32", "net S 32", "add S1 A B S", "measure A 1"]
    for i in range(count // 3):
        lines += [f"measure B {i % 2}", "label S", "retract B"]
    return lines


FAMILIES = {
    "adder, bits": (adder, (4, 6, 8, 10)),
    "ladder, steps": (ladder, (8, 10, 12)),
    "full load, cycles": (full_load, (1, 2, 4)),
    "polyboxes": (boxes, (2, 4, 6)),
    "boxes, scored": (scored, (2, 4, 6)),
    "refused lines": (refused, (2_500, 5_000, 10_000)),
    "taken back": (taken_back, (2_500, 5_000, 10_000)),
    "measured again": (measured_again, (2_500, 5_000, 10_000)),
}


def run(command, lines):
    """The processor seconds and the peak memory in mebibytes, or None where it took too long. (A child that Python starts
    has Python's own peak at first, so `time` starts it.)"""
    with tempfile.TemporaryFile("w+") as session, tempfile.NamedTemporaryFile("r") as peak:
        session.write("".join(line + "\n" for line in lines))
        session.seek(0)
        words = ["/usr/bin/time", "-f", "%M", "-o", peak.name, "timeout", str(LONGEST), *command]
        child = subprocess.Popen(words, stdin=session, stdout=subprocess.DEVNULL)
        _, status, usage = os.wait4(child.pid, 0)
        kilobytes = int(peak.read().split()[-1])
    too_long = os.waitstatus_to_exitcode(status) == 124
    return None if too_long else (usage.ru_utime + usage.ru_stime, kilobytes / 1024)


def main():
    program = os.path.join(TOP, "crates", "gde", "out", "gde")
    command = shlex.split(sys.argv[1]) if len(sys.argv) > 1 else [program, "run"]
    for name, (make, sizes) in FAMILIES.items():
        before = None
        for size in sizes:
            took = run(command, make(size))
            if took is None:
                print(f"{name:17} {size:6}    more than {LONGEST} s")
                break
            growth = f"{took[0] / before:6.1f} times" if before else ""
            print(f"{name:17} {size:6} {took[0]:9.3f} s {took[1]:7.1f} MiB {growth}")
            before = max(took[0], 0.001)


if __name__ == "__main__":
    main()
