"""An independent reading of delay files and plan files, and an independent check of plans.

It is written from docs/delay-files.md, docs/plan-files.md, docs/drafts.md and docs/refusals.md and shares no code with the
planner. listing, check and slack give the lines that the commands of these names must print, and the status.
"""

import struct

MISSING = -(2**31)
WORDS = {
    1: "register count outside 1 to 4,096, or not the session's",
    2: "no such register",
    3: "delay outside -1,000,000 to 1,000,000, or min above max",
    6: "over 16,384 entries, or pair memory full",
    7: "ceiling or offset outside 0 to 1,000,000",
    12: "length not whole records of 32 bytes",
    13: "record malformed",
    14: "delay missing",
    15: "faulty entry",
}


def refused(number, record=None):
    where = "" if record is None else f"record {record}: "
    return f"{where}refused {number}: {WORDS[number]}"


def read_record(record):
    """('register', number, name), ('pair', launch, capture, min, max), or the number it is refused with."""
    if len(record) != 32:
        return 12
    if record[1:4] != bytes(3):
        return 13
    if record[0] == 1:
        name, zero, rest = record[8:].partition(b"\0")
        if not name or any(not 33 <= b <= 126 for b in name) or rest.strip(b"\0"):
            return 13
        return ("register", struct.unpack(">I", record[4:8])[0], name.decode())
    if record[0] == 2 and not record[20:].strip(b"\0"):
        return ("pair", *struct.unpack(">IIii", record[4:20]))
    return 13


def judge(pair, registers):
    """The number that a pair is refused with, or None."""
    _, launch, capture, low, high = pair
    if launch >= registers or capture >= registers:
        return 2
    if MISSING in (low, high):
        return 14
    if not -1_000_000 <= low <= high <= 1_000_000:
        return 3
    return None


def open_file(data):
    """The names of the registers, or (number, record or None) that the file is refused with."""
    if len(data) % 32:
        return (12, None)
    names = []
    for at in range(0, len(data), 32):
        if data[at] != 1:
            break
        reading = read_record(data[at : at + 32])
        if not isinstance(reading, tuple) or reading[1] != len(names):
            return (13, len(names))
        names.append(reading[2])
    if not 1 <= len(names) <= 4096:
        return (1, None)
    return names


def text_of(pair, names):
    def register(number):
        return names[number] if number < len(names) else f"#{number}"

    def delay(value):
        return "-" if value == MISSING else str(value)

    _, launch, capture, low, high = pair
    return f"pair {register(launch)} {register(capture)} {delay(low)} {delay(high)}"


def faulty_line(data, k, names):
    """The line for record k of an opened file where it is a faulty entry, or None."""
    reading = read_record(data[32 * k : 32 * k + 32])
    if isinstance(reading, int):
        return refused(reading, k)
    if reading[0] == "register":
        return f"{refused(13, k)} (register {reading[2]} behind the registers)"
    number = judge(reading, len(names))
    return None if number is None else f"{refused(number, k)} ({text_of(reading, names)})"


def listing(data):
    """What `show` prints of a file, and its status. The kind of the first record tells a plan from delays."""
    if data[:1] in (b"\x10", b"\x11"):
        return plan_listing(data)
    names = open_file(data)
    records = [data[at : at + 32] for at in range(0, len(data), 32)]
    if isinstance(names, tuple):
        return unopened(records, *names), 1
    lines = [f"record {k}: register {name}" for k, name in enumerate(names)]
    faulty = 0
    for k in range(len(names), len(records)):
        fault = faulty_line(data, k, names)
        if fault is None:
            lines.append(f"record {k}: {text_of(read_record(records[k]), names)}")
        else:
            faulty += 1
            lines.append(fault)
    lines.append(f"registers {len(names)}, entries {len(records) - len(names)}, faulty {faulty}")
    return lines, 1 if faulty else 0


def unopened(records, number, record):
    lines = [refused(number, record), "the file does not open; its records, each read by itself:"]
    for k, data in enumerate(records):
        reading = read_record(data)
        if isinstance(reading, int):
            lines.append(refused(reading, k))
        elif reading[0] == "register":
            lines.append(f"record {k}: register {reading[2]} (number {reading[1]})")
        else:
            lines.append(f"record {k}: {text_of(reading, [])}")
    return lines


def read_head(record):
    """(period, offset, register count, late number), or None where a record is no head."""
    if len(record) != 32 or record[:4] != bytes([16, 0, 0, 0]) or any(record[20:]):
        return None
    period, offset, registers, late = struct.unpack(">IIII", record[4:20])
    if 1 <= period <= 4_096_000_000 and offset <= 1_000_000 and 1 <= registers <= 4096:
        return period, offset, registers, late
    return None


def read_word(record, first, registers):
    """The domains from register `first` on, 1 where late, or None where a record is not their word."""
    if len(record) != 32 or record[0] != 17 or any(record[2:4]) or any(record[16:]):
        return None
    at, word = struct.unpack(">IQ", record[4:16])
    bits = [word >> i & 1 for i in range(64)]
    inside = bits[: registers - first]
    if at != first or record[1] != sum(bits) or sum(inside) != sum(bits):
        return None
    return inside


def read_plan(data):
    """(period, offset, domains), or [number, record or None] that the file is refused with."""
    if len(data) % 32:
        return [12, None]
    records = [data[at : at + 32] for at in range(0, len(data), 32)]
    head = read_head(records[0]) if records else None
    if head is None:
        return [13, 0]
    period, offset, registers, late = head
    domains = []
    for k in range(1, max(len(records), (registers + 63) // 64 + 1)):
        word = None
        if k < len(records) and len(domains) < registers:
            word = read_word(records[k], len(domains), registers)
        if word is None:
            return [13, k]
        domains += word
    return (period, offset, domains) if sum(domains) == late else [13, 0]


def plan_listing(data):
    plan = read_plan(data)
    if isinstance(plan, list):
        return unread(data, *plan), 1
    period, offset, domains = plan
    lines = [f"record 0: period {period} offset {offset} registers {len(domains)} late {sum(domains)}"]
    for first in range(0, len(domains), 64):
        last = min(first + 63, len(domains) - 1)
        late = [str(r) for r in range(first, last + 1) if domains[r]]
        numbers = ": " + " ".join(late) if late else ""
        lines.append(f"record {first // 64 + 1}: registers {first} to {last}, late {len(late)}{numbers}")
    return lines, 0


def unread(data, number, record):
    lines = [refused(number, record), "the plan does not read; its records, each by itself:"]
    for at in range(0, len(data), 32):
        part = data[at : at + 32]
        said = f"record {at // 32}: kind {part[0]}"
        if len(part) != 32:
            said = f"record {at // 32}: {len(part)} bytes"
        elif part[0] == 16:
            numbers = struct.unpack(">IIII", part[4:20])
            said += ", byte 1 is %d: period %d offset %d registers %d late %d" % (part[1], *numbers)
        elif part[0] == 17:
            said += ", byte 1 is %d: first %d word %s" % (part[1], *struct.unpack(">I", part[4:8]), part[8:16].hex())
        lines.append(said)
    return lines


class Circuit:
    """A delay file and a plan for it, or `lines` that say why there is none."""

    def __init__(self, file, file_path, plan, plan_path):
        self.lines = None
        self.names = open_file(file)
        if isinstance(self.names, tuple):
            self.lines = [f"{file_path}: {refused(*self.names)}"]
            return
        numbers = read_plan(plan)
        if isinstance(numbers, list):
            self.lines = [f"{plan_path}: {refused(*numbers)}"]
            return
        self.period, self.offset, self.domains = numbers
        count = len(self.names)
        if len(self.domains) != count:
            self.lines = [f"{plan_path} is a plan of {len(self.domains)} registers, and {file_path} has {count}"]
            return
        self.pairs = [read_record(file[at : at + 32]) for at in range(32 * count, len(file), 32)]
        faults = [faulty_line(file, k, self.names) for k in range(count, len(file) // 32)]
        self.faults = [(place, line) for place, line in enumerate(faults) if line]

    def time(self, register):
        return self.offset * self.domains[register]

    def slacks(self, place):
        """What the setup and the hold limit of an entry have to spare."""
        _, launch, capture, low, high = self.pairs[place]
        later = self.time(launch) - self.time(capture)
        return self.period - high - later, low + later

    def entry(self, place):
        return f"record {len(self.names) + place}: {text_of(self.pairs[place], self.names)}"

    def clock(self, register):
        return f"{self.names[register]} {domain_word(self.domains[register])} at {self.time(register)}"

    def faulty(self):
        place, line = self.faults[0]
        return [f"{refused(15)} at place {place}", line], 1


def domain_word(domain):
    return "late" if domain else "early"


def check(circuit, file_path, ceiling, pins):
    """What `check` prints under a ceiling and pins, a list of (name, domain), and its status."""
    if circuit.lines:
        return circuit.lines, 1
    pinned = {}
    for name, domain in pins:
        count = circuit.names.count(name)
        if count != 1:
            several = f"{file_path} has several registers {name}"
            return [several if count else f"there is no register {name} in {file_path}"], 1
        pinned[circuit.names.index(name)] = domain
    if ceiling > 1_000_000:
        return [refused(7)], 1
    if len(circuit.pairs) > 16_384:
        return [refused(6)], 1
    if circuit.faults:
        return circuit.faulty()
    broken = first_broken(circuit, ceiling, pinned)
    return ([f"refused 16: {broken}"], 1) if broken else (["legal"], 0)


def first_broken(circuit, ceiling, pinned):
    offset = circuit.offset
    if offset > ceiling:
        return f"offset above the ceiling by {offset - ceiling} ps (offset {offset}, ceiling {ceiling})"
    for register, domain in enumerate(circuit.domains):
        wanted = pinned.get(register, domain)
        if wanted != domain:
            said = f"{circuit.names[register]} is {domain_word(domain)}, pinned {domain_word(wanted)}"
            return f"register not in its pinned domain ({said})"
    for place, (_, launch, capture, _, _) in enumerate(circuit.pairs):
        for limit, slack in zip(("setup", "hold"), circuit.slacks(place)):
            if slack < 0:
                clocks = f"{circuit.clock(launch)}, {circuit.clock(capture)}, period {circuit.period}"
                return f"{limit} limit broken by {-slack} ps at {circuit.entry(place)} ({clocks})"
    return None


def slack(circuit, count):
    """What `slack` prints of so many entries, and its status."""
    if circuit.lines:
        return circuit.lines, 1
    if circuit.faults:
        return circuit.faulty()
    order = sorted((min(circuit.slacks(place)), place) for place in range(len(circuit.pairs)))
    lines = []
    for least, place in order[:count]:
        setup, hold = circuit.slacks(place)
        lines.append(f"slack {least} (setup {setup}, hold {hold}): {circuit.entry(place)}")
    broken = sum(least < 0 for least, _ in order)
    lines.append(f"entries {len(order)}, broken {broken}, tightest {order[0][0]}" if order else "entries 0")
    return lines, 0
