"""An independent implementation of the program `calls`: the public calls of document 01, as
request [1] of document 02 changed them, and those of [2], by a script that docs/CALLS.md
describes.

    python3 tests/calls.py <SCRIPT

prints what `calls` must print for the script, byte for byte. Where lines were not
understood it ends with status 1, and a line on standard error says how many. It was written
from that page, and the calls are those of independent.py and stepping.py, so that the two
programs can be compared: where they differ, one has misread a page. Quotation marks hold
the words of docs/CALLS.md or of 01.
"""

import sys
from dataclasses import dataclass

sys.dont_write_bytecode = True  # no folder of compiled files beside the tests
from independent import (
    Sheet, checksum, plan_lent, price_lent, read_sheet, row, rule_lent, write_listing,
    write_sheet,
)
from stepping import State, advance, start

BYTE, NUMBER, LONG_NUMBER = 2**8 - 1, 2**32 - 1, 2**64 - 1  # the greatest of 8, 32, 64 bits
MOST_SPEEDS, MOST_JOBS = 9, 32  # "In memory a sheet has room for all entries"
MOST_LENT = {"values": 816_816, "plan": 1_000_000, "bytes": 65_536}
LONGEST_LINE = 65_536  # without its line feed
HEX_DIGITS = b"0123456789abcdefABCDEF"
# "line feeds and what can be printed (20 to 7E hex) as they are, any other byte as `?`"
PRINTABLE = bytes(byte if byte == 0x0A or 0x20 <= byte <= 0x7E else ord("?")
                  for byte in range(256))


class NotUnderstood(Exception):
    """What is wrong with a line, in the words of the page's last table."""


@dataclass(frozen=True)
class Count:
    """Speeds or jobs of which only the count is kept, since it is above the number of places.
    Such a count is refused before any entry is looked at; looking at one here is an error
    of Python."""

    count: int

    def __len__(self):
        return self.count


class Places:
    """Places of memory of which the first ones are lent, "and calls see those alone; a place
    that is not lent keeps what it holds"."""

    def __init__(self, places):
        self.places = places
        self.count = 0

    def lent(self):
        """What the lent places hold. A call may change it, and `put` puts it back."""
        return self.places[: self.count]

    def put(self, place, held):
        self.places[place : place + len(held)] = held

    def part(self, place, count):
        """So many lent places from this one on."""
        self.refuse_not_lent(place + count)
        return self.places[place : place + count]

    def refuse_not_lent(self, end):
        if end > self.count:
            raise NotUnderstood(f"only {self.count} places are lent")


class Memory:
    """All that one line leaves to the next. "A script begins with all of it zero, and nothing
    lent"."""

    def __init__(self):
        self.clear()
        self.state = State()
        self.lent = {"values": Places([0] * MOST_LENT["values"]),
                     "plan": Places(bytearray(MOST_LENT["plan"])),
                     "bytes": Places(bytearray(MOST_LENT["bytes"]))}
        self.least = 0

    def clear(self):
        """Every number of the sheet becomes 0, "also those past the counts"."""
        self.fields = {"bound": 0, "speeds": 0, "horizon": 0, "jobs": 0}
        self.speeds = [(0, 0)] * MOST_SPEEDS
        self.jobs = [(0, 0, 0)] * MOST_JOBS

    def sheet(self):
        """The sheet as a call gets it: nothing past the counts is looked at."""
        speeds, jobs = self.fields["speeds"], self.fields["jobs"]
        return Sheet(
            self.fields["bound"],
            tuple(self.speeds[:speeds]) if speeds <= MOST_SPEEDS else Count(speeds),
            self.fields["horizon"],
            tuple(self.jobs[:jobs]) if jobs <= MOST_JOBS else Count(jobs))

    def take(self, sheet):
        """What a read answered becomes the sheet; places past the counts are "zero when
        read"."""
        self.clear()
        self.fields = {"bound": sheet.bound, "speeds": len(sheet.speeds),
                       "horizon": sheet.horizon, "jobs": len(sheet.jobs)}
        self.speeds[: len(sheet.speeds)] = sheet.speeds
        self.jobs[: len(sheet.jobs)] = sheet.jobs

    def shown_sheet(self):
        """The fields "in the order of its bytes, with as many speeds and jobs as the counts
        say, but no more than nine and 32", and how many numbers past the counts are not 0."""
        speeds, jobs = self.fields["speeds"], self.fields["jobs"]
        fields = [self.fields["bound"], speeds, *flat(self.speeds[:speeds]),
                  self.fields["horizon"], jobs, *flat(self.jobs[:jobs])]
        others = [*flat(self.speeds[speeds:]), *flat(self.jobs[jobs:])]
        return f"sheet{spaced(fields)}, others {sum(number != 0 for number in others)}"

    def shown_state(self):
        state = self.state
        return f"queue{spaced(state.queue)}, slot {state.slot}, energy {state.energy}"


class Words:
    """The words of a line, which "are looked at from the left", each when it is asked for."""

    def __init__(self, line):
        self.words = [word for word in line.split(b" ") if word]
        self.looked_at = 0

    def more(self):
        return self.looked_at < len(self.words)

    def next(self):
        self.looked_at += 1
        if self.looked_at > len(self.words):
            self.refuse("is missing")
        return self.words[self.looked_at - 1]

    def refuse(self, wrong):
        raise NotUnderstood(f"word {self.looked_at} {wrong}")

    def number(self, most):
        """The next word as a number: "decimal digits, of a value from 0 to the greatest that
        fits its place"."""
        word = self.next()
        digits = word.lstrip(b"0") or b"0"
        if not word.isdigit() or len(digits) > len(str(most)) or int(digits) > most:
            self.refuse(f"is not a number from 0 to {most}")
        return int(digits)

    def numbers(self, count, most):
        return tuple([self.number(most) for _ in range(count)])

    def byte(self):
        """The next word as "a byte as two hex digits, in either case"."""
        word = self.next()
        if len(word) != 2 or any(digit not in HEX_DIGITS for digit in word):
            self.refuse("is not a byte of two hex digits")
        return int(word, 16)

    def held(self, name):
        """The next word as what a place of this name holds."""
        if name == "bytes":
            return self.byte()
        return self.number(BYTE if name == "plan" else LONG_NUMBER)

    def end(self):
        """The line is complete."""
        if self.more():
            self.looked_at += 1
            self.refuse("is one too many")


def flat(entries):
    return [number for entry in entries for number in entry]


def spaced(numbers, form="d"):
    """The numbers, each after a space."""
    return "".join(f" {number:{form}}" for number in numbers)


# Lines that put something into memory. Each looks at all words before it changes anything.


def clear(memory, words):
    words.end()
    memory.clear()


def set_field(memory, words, name):
    number = words.number(NUMBER)
    words.end()
    memory.fields[name] = number


def set_speed(memory, words):
    place = words.number(MOST_SPEEDS - 1)
    entry = words.numbers(2, NUMBER)
    words.end()
    memory.speeds[place] = entry


def set_job(memory, words):
    place = words.number(MOST_JOBS - 1)
    entry = words.numbers(3, NUMBER)
    words.end()
    memory.jobs[place] = entry


def set_state(memory, words):
    *queue, slot, energy = words.numbers(8, NUMBER)
    words.end()
    memory.state = State(tuple(queue), slot, energy)


def lend(memory, words, name):
    count = words.number(MOST_LENT[name])
    words.end()
    memory.lent[name].count = count


def fill(memory, words, name):
    held = words.held(name)
    words.end()
    places = memory.lent[name]
    places.put(0, [held] * places.count)


def put(memory, words, name):
    place = words.number(MOST_LENT[name])
    held = [words.held(name)]
    while words.more():
        held.append(words.held(name))
    memory.lent[name].refuse_not_lent(place + len(held))
    memory.lent[name].put(place, held)


def lend_bytes(memory, words):
    held = []
    while words.more():
        held.append(words.byte())
    memory.lent["bytes"].count = len(held)
    memory.lent["bytes"].put(0, held)


# Lines that make a call.


def read_call(memory, words):
    lent = memory.lent["bytes"]
    if words.words[1:2] == [b"plan"]:
        words.next()
        lent = memory.lent["plan"]
    words.end()
    number, sheet = read_sheet(lent.lent())
    memory.take(sheet)
    return f"read {number}, {memory.shown_sheet()}"


def write_call(memory, words):
    words.end()
    data = memory.lent["bytes"].lent()
    number, length = write_sheet(memory.sheet(), data)
    memory.lent["bytes"].put(0, data)
    return f"write {number}, length {length}"


def plan_call(memory, words):
    words.end()
    values, plan = memory.lent["values"].lent(), memory.lent["plan"].lent()
    number, queue_count, memory.least = plan_lent(memory.sheet(), values, plan)
    memory.lent["values"].put(0, values)
    memory.lent["plan"].put(0, plan)
    return f"plan {number}, queues {queue_count}, least {memory.least}"


def rule_call(memory, words):
    words.end()
    plan = memory.lent["plan"].lent()
    number, queue_count = rule_lent(memory.sheet(), plan)
    memory.lent["plan"].put(0, plan)
    return f"rule {number}, queues {queue_count}"


def price_call(memory, words):
    """The plan is not put back: it is not changed. Nor is the least energy, which is what "the
    last `plan` answered"."""
    words.end()
    values, plan = memory.lent["values"].lent(), memory.lent["plan"].lent()
    number, queue_count, price = price_lent(memory.sheet(), values, plan)
    memory.lent["values"].put(0, values)
    return f"price {number}, queues {queue_count}, price {price}"


def row_part(memory, words):
    slot = words.number(NUMBER)
    words.end()
    return row(memory.sheet(), memory.lent["plan"].lent(), slot)


def row_call(memory, words):
    part = row_part(memory, words)
    return f"row {len(part)} bytes:{spaced(part)}"


def sum_row(memory, words):
    part = row_part(memory, words)
    return f"row {len(part)} bytes, sum {checksum(part)}"


def list_call(memory, words):
    least = words.number(LONG_NUMBER) if words.more() else memory.least
    words.end()
    plan, data = memory.lent["plan"].lent(), memory.lent["bytes"].lent()
    number, length = write_listing(memory.sheet(), least, plan, data)
    memory.lent["bytes"].put(0, data)
    return f"list {number}, length {length}"


def start_call(memory, words):
    words.end()
    plan = memory.lent["plan"].lent()
    number, memory.state, speed = start(memory.sheet(), plan, memory.state)
    return f"start {number}, {memory.shown_state()}, speed {speed}"


def advance_call(memory, words):
    size, deadline = words.numbers(2, NUMBER)
    words.end()
    plan = memory.lent["plan"].lent()
    number, memory.state, speed = advance(memory.sheet(), plan, memory.state, size, deadline)
    return f"advance {number}, {memory.shown_state()}, speed {speed}"


# Lines that ask what stands in memory.


def show_sheet(memory, words):
    words.end()
    return memory.shown_sheet()


def show_speeds(memory, words):
    words.end()
    return f"speeds{spaced(flat(memory.speeds))}"


def show_jobs(memory, words):
    words.end()
    return f"jobs{spaced(flat(memory.jobs))}"


def show_state(memory, words):
    words.end()
    return f"state, {memory.shown_state()}"


def asked_part(memory, words, name):
    place, count = words.numbers(2, MOST_LENT[name])
    words.end()
    return memory.lent[name].part(place, count)


def show_places(memory, words, name):
    form = "02x" if name == "bytes" else "d"
    return f"{name}{spaced(asked_part(memory, words, name), form)}"


def show_text(memory, words):
    """The one answer that is not a line: "a line feed unless the text ends in one, or is
    empty" is all that follows."""
    text = bytes(asked_part(memory, words, "bytes")).translate(PRINTABLE)
    return text if text.endswith(b"\n") or not text else text + b"\n"


def sum_places(memory, words, name):
    return f"sum {checksum(asked_part(memory, words, name))}"


def each(function, *names):
    """The function for each of these second words; the word is passed to it."""
    return {name.encode(): lambda memory, words, name=name: function(memory, words, name)
            for name in names}


# What a line does, by its first word; where the second tells it, by that too.
LINES = {
    b"clear": clear,
    b"set": {**each(set_field, "bound", "speeds", "horizon", "jobs"),
             b"speed": set_speed, b"job": set_job, b"state": set_state},
    b"lend": each(lend, *MOST_LENT),
    b"fill": each(fill, *MOST_LENT),
    b"put": each(put, *MOST_LENT),
    b"bytes": lend_bytes,
    b"read": read_call,
    b"write": write_call,
    b"plan": plan_call,
    b"rule": rule_call,
    b"price": price_call,
    b"row": row_call,
    b"list": list_call,
    b"start": start_call,
    b"advance": advance_call,
    b"show": {**each(show_places, *MOST_LENT), b"text": show_text, b"sheet": show_sheet,
              b"speeds": show_speeds, b"jobs": show_jobs, b"state": show_state},
    b"sum": {**each(sum_places, *MOST_LENT), b"row": sum_row},
}


def obey(memory, line):
    """What a line that is understood is answered with: bytes as they are, text as a line,
    or nothing."""
    if len(line) > LONGEST_LINE:
        raise NotUnderstood(f"the line is longer than {LONGEST_LINE} bytes")
    words = Words(line)
    if line.startswith(b"#"):
        return line + b"\n"
    if not words.more():
        return b"\n"
    function = LINES.get(words.next())
    if isinstance(function, dict):
        function = function.get(words.next()) if words.more() else None
    if function is None:
        raise NotUnderstood("no line begins so")
    return function(memory, words)


def answer(memory, line):
    """(bytes, whether the line was understood) for a line without its line feed."""
    try:
        given = obey(memory, line)
    except NotUnderstood as wrong:
        return f"not understood: {wrong}\n".encode(), False
    if given is None:
        return b"", True
    return (given if isinstance(given, bytes) else f"{given}\n".encode()), True


def main():
    memory, not_understood = Memory(), 0
    for line in sys.stdin.buffer:
        given, understood = answer(memory, line.removesuffix(b"\n"))
        sys.stdout.buffer.write(given)
        not_understood += not understood
    sys.stdout.buffer.flush()
    if not_understood:
        lines = "1 line was" if not_understood == 1 else f"{not_understood} lines were"
        sys.exit(f"calls: {lines} not understood")


if __name__ == "__main__":
    main()
