"""Compares the built program with the independent reading in reference.py, on generated files, good and damaged.

    python3 tests/compare.py PROGRAM

It shows delay files and plan files, and checks plans and lists slacks under random ceilings, pins and counts. What is
printed must be the same to the letter, and the status too. The files are the same on every run. The last line is
'N passed, M failed', one for each run of the program.
"""

import random
import struct
import subprocess
import sys
import tempfile
from pathlib import Path

import reference

LIMITS = [-(2**31), -(2**31) + 1, -1_000_001, -1_000_000, -1, 0, 1, 999_999, 1_000_000, 1_000_001, 2**31 - 1]
FILE = "file.delays"
PLAN = "file.plan"


def register_record(number, name):
    return bytes([1, 0, 0, 0]) + struct.pack(">I", number) + name.ljust(24, b"\0")


def pair_record(launch, capture, low, high):
    return bytes([2, 0, 0, 0]) + struct.pack(">IIii", launch, capture, low, high) + bytes(12)


def head_record(period, offset, registers, late):
    return bytes([16, 0, 0, 0]) + struct.pack(">IIII", period, offset, registers, late) + bytes(12)


def word_record(first, word):
    return bytes([17, bin(word).count("1"), 0, 0]) + struct.pack(">IQ", first, word) + bytes(16)


def plan_bytes(period, offset, domains):
    records = [head_record(period, offset, len(domains), sum(domains))]
    for first in range(0, len(domains), 64):
        word = sum(domain << i for i, domain in enumerate(domains[first : first + 64]))
        records.append(word_record(first, word))
    return b"".join(records)


def random_name(rng):
    return bytes(rng.randint(33, 126) for _ in range(rng.choice([1, 2, 5, 23, 24])))


def random_pair(rng, registers):
    if rng.random() < 0.2:
        low, high = rng.choice(LIMITS), rng.choice(LIMITS)
    else:
        low = rng.randint(-1000, 1000)
        high = low + rng.randint(0, 1000)
    beyond = 1 if rng.random() < 0.05 else 0
    return pair_record(rng.randrange(registers + beyond), rng.randrange(registers), low, high)


def good_file(rng):
    registers = rng.choice([1, 2, 3, 8, 40])
    records = [register_record(k, random_name(rng)) for k in range(registers)]
    records += [random_pair(rng, registers) for _ in range(rng.choice([0, 1, 5, 60]))]
    return b"".join(records)


def damaged(rng, data):
    """One of the ways in which a file goes wrong on a disk or a wire."""
    data = bytearray(data)
    way = rng.randrange(6)
    if way == 0:
        data[rng.randrange(len(data))] ^= 1 << rng.randrange(8)
    elif way == 1:
        data[rng.randrange(len(data))] = rng.choice([0, 1, 2, 32, 120, 127, 128, 255])
    elif way == 2:
        del data[rng.randrange(len(data)) :]
    elif way == 3:
        at = 32 * rng.randrange(len(data) // 32)
        del data[at : at + 32]
    elif way == 4:
        a, b = (32 * rng.randrange(len(data) // 32) for _ in range(2))
        data[a : a + 32], data[b : b + 32] = data[b : b + 32], data[a : a + 32]
    else:
        at = 32 * rng.randrange(len(data) // 32 + 1)
        data[at:at] = data[: 32 * rng.randrange(3)]
    return bytes(data)


def delay_files():
    rng = random.Random(20261117)
    yield b""
    yield bytes(32)
    for count in (4095, 4096, 4097):
        yield b"".join(register_record(k, b"r%d" % k) for k in range(count))
    for _ in range(150):
        data = good_file(rng)
        yield data
        for _ in range(4):
            yield damaged(rng, data)


def plan_files():
    rng = random.Random(20261118)
    for registers in (1, 63, 64, 65, 128, 4096):
        for domains in ([0] * registers, [1] * registers, [rng.randrange(2) for _ in range(registers)]):
            yield plan_bytes(rng.randint(1, 4_096_000_000), rng.randint(0, 1_000_000), domains)
    # Every byte of a small plan, one at a time.
    small = plan_bytes(940, 15, [0, 1])
    for at, old in enumerate(small):
        for new in sorted({0, 1, 2, 16, 17, 255, old ^ 128} - {old}):
            yield small[:at] + bytes([new]) + small[at + 1 :]
    # Numbers at and past their limits.
    word = word_record(0, 1)
    for period in (0, 1, 4_096_000_000, 4_096_000_001, 2**32 - 1):
        yield head_record(period, 0, 1, 1) + word
    for offset in (0, 1_000_000, 1_000_001):
        yield head_record(1, offset, 1, 1) + word
    for registers in (0, 1, 2, 63, 64, 65, 4096, 4097):
        yield head_record(1, 0, registers, 1) + word
    for late in (0, 2):
        yield head_record(1, 0, 1, late) + word
    # Words: bits past the last register, and a count of ones that another fault hides.
    for bit in range(60, 64):
        yield head_record(1, 0, 62, 1) + word_record(0, 1 << bit)
    yield head_record(1, 0, 65, 2) + word_record(0, 1) + word_record(64, 2)
    yield head_record(1, 0, 65, 2) + word_record(64, 1) + word_record(0, 1)
    # Records that lack, or that are too many, and both at once with a wrong late number.
    yield word
    yield head_record(1, 0, 1, 1)
    yield head_record(1, 0, 1, 1) + word + word
    yield head_record(1, 0, 1, 7) + word + word
    yield head_record(1, 0, 129, 7) + word
    yield head_record(1, 0, 1, 1) + word + bytes([9]) + bytes(36)
    for _ in range(40):
        data = plan_bytes(rng.randint(1, 9999), rng.randint(0, 99), [rng.randrange(2) for _ in range(rng.randint(1, 200))])
        for _ in range(2):
            yield damaged(rng, data)


def random_circuit(rng):
    """A delay file whose names may hold = and may repeat, mostly without a faulty entry, and its pairs."""
    registers = rng.choice([1, 2, 3, 5, 8, 40])
    names = [b"r%d" % k + rng.choice([b"", b"", b"=late", b"=", b"[3]"]) for k in range(registers)]
    if rng.random() < 0.2:
        names[rng.randrange(registers)] = names[0]
    pairs = []
    for _ in range(rng.choice([0, 1, 4, 12, 60])):
        low = rng.randint(-20, 300)
        pairs.append((rng.randrange(registers), rng.randrange(registers), low, low + rng.randint(0, 900)))
    records = [register_record(k, name) for k, name in enumerate(names)]
    records += [pair_record(*pair) for pair in pairs]
    if rng.random() < 0.15:
        records.insert(rng.randint(registers, len(records)), pair_record(0, 0, rng.choice([2, -(2**31)]), 1))
    return [name.decode() for name in names], pairs, b"".join(records)


def random_plan(rng, registers, pairs):
    """A plan near the edge of what the pairs allow, so that about half of those with few pairs are legal."""
    domains = [rng.randrange(2) for _ in range(registers)]
    offset = rng.choice([0, 0, 1, 15, rng.randint(0, 120), 1_000_000])
    least = max((high + offset * (domains[a] - domains[b]) for a, b, _, high in pairs), default=1)
    period = min(max(1, least + rng.choice([-40, -1, 0, 0, 0, 0, 1, 50])), 4_096_000_000)
    if rng.random() < 0.05:
        domains.append(0)
    return period, offset, domains


def random_pins(rng, names, domains):
    """Pins, mostly as the plan has the domains."""
    pins = []
    for _ in range(rng.choice([0, 0, 1, 3])):
        register = rng.randrange(len(names))
        domain = domains[register] if rng.random() < 0.9 else rng.randrange(2)
        pins.append((names[register] if rng.random() < 0.95 else rng.choice(["r", "x=early", ""]), domain))
    return pins


class Comparison:
    def __init__(self, program, folder):
        self.program = program
        self.folder = Path(folder)
        self.passed = self.failed = 0

    def write(self, name, data):
        (self.folder / name).write_bytes(data)

    def run(self, arguments, expected):
        """Runs the program in the folder; it must print these lines and end with this status."""
        command = [self.program, *arguments]
        run = subprocess.run(command, cwd=self.folder, capture_output=True, text=True, check=False)
        lines, status = expected
        if run.stdout == "".join(line + "\n" for line in lines) and run.returncode == status:
            self.passed += 1
            return
        self.failed += 1
        number = self.passed + self.failed
        print(f"run {number}, {' '.join(arguments)}: status {run.returncode}, expected {status}")
        printed = run.stdout.splitlines()
        for k in range(max(len(lines), len(printed))):
            if lines[k : k + 1] != printed[k : k + 1]:
                print(f"  line {k}: expected {lines[k : k + 1]}, printed {printed[k : k + 1]}")
                break

    def show(self, data):
        self.write(FILE, data)
        self.run(["show", FILE], reference.listing(data))

    def judge(self, rng, file, plan, names, domains):
        """One check and one list of slacks of a plan for a delay file."""
        self.write(FILE, file)
        self.write(PLAN, plan)
        circuit = reference.Circuit(file, FILE, plan, PLAN)
        options, ceiling = [], 1_000_000
        if rng.random() < 0.5:
            ceiling = rng.choice([0, 14, 15, 119, 999_999, 1_000_000, 1_000_001, 2**32 - 1])
            options += ["--ceiling", str(ceiling)]
        pins = random_pins(rng, names, domains)
        for name, domain in pins:
            options += ["--pin", name + ("=late" if domain else "=early")]
        self.run(["check", FILE, PLAN, *options], reference.check(circuit, FILE, ceiling, pins))
        count = rng.choice([10, 0, 1, 3, 1000])
        options = [] if count == 10 else ["--count", str(count)]
        self.run(["slack", FILE, PLAN, *options], reference.slack(circuit, count))

    def judge_all(self):
        rng = random.Random(20261119)
        for index in range(300):
            names, pairs, file = random_circuit(rng)
            period, offset, domains = random_plan(rng, len(names), pairs)
            plan = plan_bytes(period, offset, domains)
            if index % 20 == 0:
                file = damaged(rng, file)
            if index % 20 == 10:
                plan = damaged(rng, plan)
            self.judge(rng, file, plan, names, domains)
        # As many entries as a check takes, and one more; slack takes any number.
        plan = plan_bytes(5, 0, [0])
        self.write(PLAN, plan)
        for count in (16_384, 16_385):
            file = register_record(0, b"r") + pair_record(0, 0, 0, 5) * count
            self.write(FILE, file)
            circuit = reference.Circuit(file, FILE, plan, PLAN)
            self.run(["check", FILE, PLAN], reference.check(circuit, FILE, 1_000_000, []))
            self.run(["slack", FILE, PLAN], reference.slack(circuit, 10))


def main():
    program = str(Path(sys.argv[1]).resolve())
    with tempfile.TemporaryDirectory() as folder:
        comparison = Comparison(program, folder)
        for data in delay_files():
            comparison.show(data)
        for data in plan_files():
            comparison.show(data)
        comparison.judge_all()
    print(f"{comparison.passed} passed, {comparison.failed} failed")
    return 1 if comparison.failed else 0


if __name__ == "__main__":
    sys.exit(main())
