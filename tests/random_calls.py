"""Compares a program `calls` with calls.py on a script of random calls.

    python3 tests/random_calls.py COMMAND...

makes a script of more than 5,000 calls, the same in every run, runs COMMAND, with its words,
once with the script on standard input, and compares what it writes with what calls.py
answers, line by line. It must end with status 0. Prints one line with how many answers there
were of each number of each call, or the first five differences, each with its script line,
and exits with 1. It exits with 1 before COMMAND is run when the script no longer has every
number that a call can give at least five times, of advance also 255 at the horizon and 16 for
the slot that ends and for the slot that begins, of price also 0 where some queue has none and
12 where some queue of slot 0 has a price (`refuse_narrow`).

    python3 tests/random_calls.py --script

prints the script alone. For each of the random sheets of agreement.py it has a part:
    reading    damaged bytes of a sheet, cut, lengthened or changed, and then the sheet itself,
               from its bytes or by `set` lines, with numbers past the counts
    calls      write, plan, rule, price, row and list, with just enough lent, one place less,
               more, none; afterwards the places before, at and after the end, also those not
               lent
    prices     of the planner's plan and of the rule's; of both with a wrong byte, at any place
               and at one that is reached from the empty queue; of a plan with rows of random
               speeds, and of one with the same byte throughout
    runs       from a random queue along random entries, and arrivals that are no entry; and
               from a later slot to the horizon and once more, where plan bytes follow the last
    states     at and around each bound of number 13, and at the horizon
    damages    a plan byte that is none, no speed, another speed, too slow: that of the state,
               which start and advance read, and that of the slot that begins, which advance
               reads as well; bytes beside it, which it does not read; and a plan that is none
               at all places but one
    refusals   the sheet with a number in memory that 4 to 10 refuse, wrong counts among them,
               and every call on it
Further parts are sheets at the edges of numbers 9 and 10, with prices up to the largest that
there are, and a plan whose places need more than 16 bits.
"""

import random
import subprocess
import sys
from collections import Counter
from dataclasses import replace
from functools import lru_cache

sys.dont_write_bytecode = True  # no folder of compiled files beside the tests
from agreement import (
    DAMAGES, accepted_sheet, eighth_powers, longest_sheet, raise_horizon, raise_queues,
)
from calls import (
    BYTE, LONG_NUMBER, MOST_JOBS, MOST_LENT, MOST_SPEEDS, NUMBER, Memory, answer, spaced,
)
from independent import (
    NONE_SPEED, NONE_VALUE, SHEET_A, Refused, Sheet, add_job, byte_fields, count_queues,
    listing, refuse_lent_plan, refuse_sheet, rule_row, run_slot, sheet_bytes, take_sheet,
)
from stepping import POSITIONS, State, at, planned_speed, queue_numbers

SEED, SHEETS = 1, 110
LEAST_CALLS, LEAST_OF_NUMBER = 5_000, 5
MOST_SHOWN = 5
SECONDS = 600
MARGIN = 4  # so many places past what is needed are looked at
TRIES = 30  # of finding a state that the plan has a speed for

# The answers of advance that its number does not tell: at the horizon, and 16 for either slot.
LAST = "0 and 255"
ENDING, BEGINNING = "16 for the slot that ends", "16 for the slot that begins"
# Those of price: a wrong byte that nothing leads to from the empty queue, or something does.
BUT_NONE, BUT_PRICE = "0 and a none", "12 and a price at slot 0"
# Every number that a call can give. A row gives no number: it is a part of the plan, which is
# empty on a refusal or where the slot is not below T.
ANSWERS = {
    "read": (*range(0, 11),),
    "write": (0, *range(4, 12)),
    "plan": (0, *range(4, 13)),
    "rule": (0, *range(4, 12)),
    "price": (0, BUT_NONE, *range(4, 13), BUT_PRICE),
    "row": ("a part", *range(4, 12), "no slot"),
    "list": (0, *range(4, 12)),
    "start": (0, *range(4, 12), 13, 16),
    "advance": (0, LAST, *range(4, 12), 13, 14, ENDING, 15, 17, BEGINNING),
}


class Script:
    """A script as it grows: its lines, what each is answered with, and the memory that they
    leave, so that a line can be made to fit."""

    def __init__(self):
        self.chance = random.Random(SEED)
        self.memory = Memory()
        self.lines, self.answers = [], []
        self.counts = Counter()

    def say(self, line):
        words = line.split(" ")
        is_row = "row" in words[:2]
        row_kind = self.kind_of_row(int(words[-1])) if is_row else None
        before = self.memory.state
        given, understood = answer(self.memory, line.encode())
        if not understood:
            sys.exit(f"`{line[:80]}` is no line of a script: {given.decode().strip()}")
        self.lines.append(line)
        self.answers.append(given)
        if is_row:
            self.counts["row", row_kind] += 1
        elif words[0] in ANSWERS:
            number = int(given.split()[1].rstrip(b","))
            if words[0] == "advance":
                number = self.kind_of_advance(number, given, before)
            if words[0] == "price":
                number = self.kind_of_price(number)
            self.counts[words[0], number] += 1
        return given

    def kind_of_row(self, slot):
        sheet = self.memory.sheet()
        number = refuse_lent_plan(sheet, self.lent("plan"))
        return number or ("a part" if slot < sheet.horizon else "no slot")

    def kind_of_advance(self, number, given, before):
        """Which answer of this number it is, where `ANSWERS` has more than one."""
        if number == 0:
            return LAST if given.endswith(b" 255\n") else 0
        if number != 16:
            return number
        sheet = self.memory.sheet()
        numbers = queue_numbers(sheet.bound, sheet.largest_speed())
        totals = before.queue[: sheet.bound]
        try:
            planned_speed(sheet, numbers, self.lent("plan"), before.slot, totals)
        except Refused:
            return ENDING
        return BEGINNING

    def kind_of_price(self, number):
        """The same for price, by what it left in the values."""
        if number not in (0, 12):
            return number
        sheet, values = self.memory.sheet(), self.lent("values")
        queue_count = count_queues(sheet)
        if number == 0:
            nones = values[: sheet.horizon * queue_count].count(NONE_VALUE)
            return BUT_NONE if nones else 0
        return 12 if values[:queue_count].count(NONE_VALUE) == queue_count else BUT_PRICE

    def lent(self, name):
        return self.memory.lent[name].lent()


def some_number(chance):
    """A number of 32 bits, right or wrong, wherever it stands."""
    return chance.choice((0, 1, chance.randint(0, 9), chance.randint(0, 255), 65_535, 65_536,
                          NUMBER))


def some_queue(chance, sheet):
    """A bearable queue."""
    return chance.choice(queues_of(sheet.bound, sheet.largest_speed()))


@lru_cache(maxsize=None)
def queues_of(bound, largest_speed):
    return list(queue_numbers(bound, largest_speed))


def greatest_energy(sheet):
    return max(energy for _, energy in sheet.speeds)


def some_entry(chance, sheet):
    """The size and the deadline of an entry."""
    _, size, deadline = chance.choice(sheet.jobs)
    return size, deadline


def no_entry(chance, sheet):
    """A size and a deadline that are those of an entry but for one of them, of one past the
    counts, or of none at all; by chance there may be an entry that has them."""
    size, deadline = some_entry(chance, sheet)
    return chance.choice(((size + 1, deadline), (size, deadline + 1), (size, 0), (0, deadline),
                          (NUMBER, deadline), (size, NUMBER), (NUMBER, NUMBER)))


# Reading


def read_bytes(script, data):
    """A read of these bytes: lent as they are or, seldom, in the memory for plans, or with a
    byte more, which is what stood there before."""
    way = script.chance.random()
    if way < 0.2 and data:
        script.say(f"lend plan {len(data)}")
        script.say(f"put plan 0{spaced(data)}")
        script.say("read plan")
        return
    script.say(f"bytes{spaced(data, '02x')}")
    if way > 0.95:
        script.say(f"lend bytes {len(data) + 1}")
    script.say("read")


def read_damaged(script, place):
    """A read of a damaged sheet, so that the next read replaces another sheet or none."""
    damage = DAMAGES[place % len(DAMAGES)]
    read_bytes(script, damage(script.chance, accepted_sheet(script.chance)))
    script.say(script.chance.choice(("show sheet", "show speeds", "show jobs")))


def set_lines(sheet):
    """The lines that set every field and entry of a sheet."""
    return [
        f"set bound {sheet.bound}",
        f"set speeds {len(sheet.speeds)}",
        *(f"set speed {place}{spaced(entry)}" for place, entry in enumerate(sheet.speeds)),
        f"set horizon {sheet.horizon}",
        f"set jobs {len(sheet.jobs)}",
        *(f"set job {place}{spaced(entry)}" for place, entry in enumerate(sheet.jobs)),
    ]


def past_lines(chance, sheet):
    """Lines that set some places past the counts, the last of all among them: to an entry of
    the sheet, or to any numbers."""
    lines = []
    for place in sorted({len(sheet.speeds), MOST_SPEEDS - 1}):
        if len(sheet.speeds) <= place < MOST_SPEEDS:
            lines.append(f"set speed {place} {some_number(chance)} {some_number(chance)}")
    for place in sorted({len(sheet.jobs), MOST_JOBS - 1}):
        if len(sheet.jobs) <= place < MOST_JOBS:
            size, deadline = chance.choice((some_entry, no_entry))(chance, sheet)
            lines.append(f"set job {place} {some_number(chance)} {size} {deadline}")
    return lines


def put_sheet(script, sheet):
    """Puts the sheet into memory: read or, where that is refused or by chance is not tried,
    set line by line in any order."""
    chance, lines = script.chance, []
    if chance.random() < 0.4:
        script.say(f"bytes{spaced(sheet_bytes(sheet), '02x')}")
        script.say("read")
    if script.memory.sheet() != sheet:
        lines = set_lines(sheet)
    if chance.random() < 0.7:
        lines += past_lines(chance, sheet)
    chance.shuffle(lines)
    for line in lines:
        script.say(line)
    script.say("show sheet")
    if script.memory.sheet() != sheet:
        sys.exit(f"the sheet in memory is not {sheet}")


# Lent memory


def lend_just(script, name, count):
    """Lends so many places, or all that there are."""
    script.say(f"lend {name} {min(max(count, 0), MOST_LENT[name])}")


def lend_about(script, name, needed):
    """Lends just what is needed or, each by chance, one place less, some more, or none. What
    the places hold stays."""
    lend_just(script, name, script.chance.choice(
        (needed, needed, needed, needed, needed - 1, needed + 1, needed + MARGIN, 0)))


def fill(script, name, needed):
    """All places that are looked at after a call hold something."""
    chance = script.chance
    lend_just(script, name, needed + MARGIN)
    script.say(f"fill {name} {chance.choice(('07', 'ee'))}" if name == "bytes"
               else f"fill {name} {chance.choice((7, 9, 255))}")


def lend(script, name, needed):
    """Lends about what is needed, of places that hold something."""
    fill(script, name, needed)
    lend_about(script, name, needed)


def look(script, name, needed):
    """What a call left: the places before, at and after the end of what it needs, also those
    that were not lent to it; and the checksum of all."""
    places = min(needed + MARGIN, MOST_LENT[name])
    first = max(0, needed - MARGIN)
    lend_just(script, name, places)
    script.say(f"show {name} {first} {places - first}")
    script.say(f"sum {name} 0 {places}")


def sizes(sheet):
    """How many values and plan bytes a plan needs; few where the sheet is refused."""
    if refuse_sheet(sheet) != 0:
        return 9, 9
    queue_count = count_queues(sheet)
    return (sheet.horizon + 1) * queue_count, sheet.horizon * queue_count


def call_write(script):
    """A write of whatever sheet stands in memory."""
    sheet = script.memory.sheet()
    needed = len(sheet_bytes(sheet)) if refuse_sheet(sheet) == 0 else 9
    lend(script, "bytes", needed)
    script.say("write")
    look(script, "bytes", needed)


def call_plan(script):
    """A plan of whatever sheet stands in memory."""
    values, plan = sizes(script.memory.sheet())
    lend(script, "values", values)
    lend(script, "plan", plan)
    script.say("plan")
    look(script, "values", values)
    look(script, "plan", plan)


def call_rule(script):
    """The rule's plan of whatever sheet stands in memory."""
    _, plan = sizes(script.memory.sheet())
    lend(script, "plan", plan)
    script.say("rule")
    look(script, "plan", plan)


def call_price(script):
    """A price of whatever sheet and plan stand in memory. One of the two that are lent is at
    least as long as needed."""
    chance = script.chance
    values, plan = sizes(script.memory.sheet())
    fill(script, "values", values)
    one, other = chance.sample((("values", values), ("plan", plan)), 2)
    lend_about(script, *one)
    lend_just(script, other[0], other[1] + chance.choice((0, 0, MARGIN)))
    script.say("price")
    look(script, "values", values)
    look(script, "plan", plan)


def call_row(script):
    """A row of one of the first slots, of the last one, or of a slot that there is not."""
    horizon = script.memory.sheet().horizon
    slot = script.chance.choice((0, 1, max(horizon, 1) - 1, horizon, min(horizon + 1, NUMBER),
                                 NUMBER))
    script.say(f"{script.chance.choice(('row', 'sum row'))} {slot}")


def call_list(script):
    """A listing of whatever sheet and plan there are, with the least energy that was planned
    or any."""
    chance = script.chance
    sheet, plan = script.memory.sheet(), script.lent("plan")
    least = chance.choice((None, None, 0, LONG_NUMBER, chance.randint(0, LONG_NUMBER)))
    needed = 9
    if refuse_lent_plan(sheet, plan) == 0:
        told = script.memory.least if least is None else least
        needed = min(len(listing(sheet, told, plan)), MOST_LENT["bytes"])
    lend(script, "bytes", needed)
    script.say("list" if least is None else f"list {least}")
    look(script, "bytes", needed)
    if chance.random() < 0.3:
        script.say(f"show text {max(0, needed - 60)} {min(needed, 60)}")


def right_plan(script, sheet):
    """The sheet's own plan, with nothing more lent than it needs."""
    values, plan = sizes(sheet)
    script.say(f"lend values {values}")
    script.say(f"lend plan {plan}")
    script.say("plan")


def rule_plan(script, sheet):
    """The rule's plan, with nothing more lent than it needs."""
    _, plan = sizes(sheet)
    script.say(f"lend plan {plan}")
    script.say("rule")


def some_plan(script, sheet):
    """Plan bytes of a sheet that takes long to plan: one of its speeds throughout."""
    _, plan = sizes(sheet)
    script.say(f"lend plan {plan}")
    script.say(f"fill plan {script.chance.choice(sheet.speeds)[0]}")


# Stepping


def put_state(script, state):
    script.say(f"set state{spaced(state.queue)} {state.slot} {state.energy}")


def call_advance(script, sheet, arrival):
    size, deadline = arrival(script.chance, sheet)
    script.say(f"advance {size} {deadline}")


def advance_along(script, sheet, slots):
    """So many advances by random entries, and some arrivals between them that are none."""
    for _ in range(slots):
        if script.chance.random() < 0.15:
            call_advance(script, sheet, no_entry)
        call_advance(script, sheet, some_entry)


def run(script, sheet):
    """A run from a random queue, at most eight slots and, where that is less, to the
    horizon and once more; where it is not started, from nothing waiting."""
    chance = script.chance
    queue = some_queue(chance, sheet) if chance.random() < 0.6 else (0,) * sheet.bound
    put_state(script, at(queue, some_number(chance), some_number(chance)))
    script.say("start")
    advance_along(script, sheet, min(sheet.horizon + 1, 8))


def run_late(script, sheet):
    """A run from one of the last slots to the horizon and once more, with a row more lent than
    there is."""
    _, plan = sizes(sheet)
    script.say(f"lend plan {plan + count_queues(sheet)}")
    left = script.chance.randint(1, min(sheet.horizon, 3))
    put_state(script, at((), sheet.horizon - left))
    advance_along(script, sheet, left + 1)
    script.say(f"lend plan {plan}")


def right_state(chance, sheet):
    """A state that 13 lets pass and that is not at the horizon."""
    slot = chance.choice((0, sheet.horizon - 1, chance.randrange(sheet.horizon)))
    return at(some_queue(chance, sheet), slot, chance.randint(0, slot * greatest_energy(sheet)))


def edge_states(chance, sheet):
    """States at and around each bound of 13; most are just right or just wrong."""
    state = right_state(chance, sheet)
    horizon, greatest, bound = sheet.horizon, greatest_energy(sheet), sheet.bound
    fullest = [position * sheet.largest_speed() for position in range(1, bound + 1)]
    above = list(fullest)
    above[chance.randrange(bound)] += 1
    falling = list(fullest)
    falling[-1] = falling[-2] - 1 if bound > 1 else NUMBER
    unused = list(state.queue)
    past = min(chance.randint(bound, POSITIONS), POSITIONS - 1)  # D itself where D is 6
    unused[past] = chance.choice((1, NUMBER))
    states = [replace(state, slot=slot, energy=min(state.energy, slot * greatest))
              for slot in (horizon - 1, horizon, horizon + 1, NUMBER)]
    slot = chance.randint(0, horizon)
    most = slot * greatest
    states += [replace(state, slot=slot, energy=energy)
               for energy in (most, max(most, 1) - 1, most + 1, NUMBER)]
    states += [at(queue, state.slot, state.energy) for queue in (fullest, above, falling)]
    states.append(replace(state, queue=tuple(unused)))
    states.append(State((NUMBER,) * POSITIONS, NUMBER, NUMBER))
    return states


def call_states(script, sheet):
    """Every state of `edge_states`, with advance and often start."""
    for state in edge_states(script.chance, sheet):
        put_state(script, state)
        call_advance(script, sheet, some_entry)
        if script.chance.random() < 0.5:
            put_state(script, state)
            script.say("start")


def slow_state(chance, sheet):
    """A state whose queue is as long as it can be with nothing due at once, so that doing
    nothing is too slow where D is more than 1."""
    state = right_state(chance, sheet)
    queue = [position * sheet.largest_speed() for position in range(1, sheet.bound + 1)]
    return replace(state, queue=at([0, *queue[1:]]).queue)


def place_of(sheet, slot, totals):
    """The place of the plan byte of this slot and queue."""
    numbers = queue_numbers(sheet.bound, sheet.largest_speed())
    return slot * len(numbers) + numbers[totals[: sheet.bound]]


def no_speed(chance, sheet):
    """A byte that is no speed of the sheet, and not none."""
    speeds = [speed for speed, _ in sheet.speeds]
    gaps = [byte for byte in range(BYTE) if byte not in speeds]
    return chance.choice((gaps[0], max(speeds) + 1, chance.choice(gaps)))


def damages(chance, sheet, right):
    """(state, byte): plan bytes that should not stand at the state's place. `right` gives
    the byte that stands there."""
    speeds = [speed for speed, _ in sheet.speeds]
    state = right_state(chance, sheet)
    yield state, NONE_SPEED
    yield state, no_speed(chance, sheet)
    beside = [speed for speed in speeds if speed != right(state)]
    yield state, chance.choice(beside)
    yield state, min(beside, key=lambda speed: abs(speed - right(state)))
    yield slow_state(chance, sheet), 0
    yield replace(state, queue=at(
        [position * max(speeds) for position in range(1, sheet.bound + 1)]).queue), speeds[-2]


def call_damaged(script, sheet):
    """Start and advance with one plan byte damaged, and then the byte as it was. Start reads
    it where the state is at slot 0."""
    chance, plan = script.chance, bytes(script.lent("plan"))

    def place(state):
        return place_of(sheet, state.slot, state.queue)

    for state, byte in damages(chance, sheet, lambda state: plan[place(state)]):
        script.say(f"put plan {place(state)} {byte}")
        put_state(script, state)
        script.say("start")
        put_state(script, state)
        if chance.random() < 0.3:
            call_advance(script, sheet, no_entry)
            put_state(script, state)
        call_advance(script, sheet, some_entry)
        script.say(f"put plan {place(state)} {plan[place(state)]}")


def planned_advance(chance, sheet, plan):
    """(state, size, deadline, totals): an advance that is done and after which a slot begins,
    with the queue of that slot. None where there is no such slot, or none was found."""
    for _ in range(TRIES):
        state = right_state(chance, sheet)
        size, deadline = some_entry(chance, sheet)
        speed = plan[place_of(sheet, state.slot, state.queue)]
        if state.slot + 1 < sheet.horizon and speed != NONE_SPEED:
            after = run_slot(state.queue[: sheet.bound], speed)
            return state, size, deadline, add_job(after, size, deadline)
    return None


def next_damages(chance, sheet, state, totals):
    """(place, byte): plan bytes of the slot that begins, with this queue, that should not stand
    there, and the slowest that may; and bytes at places that are like it and are not read."""
    place = place_of(sheet, state.slot + 1, totals)
    speeds = [speed for speed, _ in sheet.speeds]
    yield place, NONE_SPEED
    yield place, no_speed(chance, sheet)
    yield place, chance.choice(speeds)
    yield place, min(speed for speed in speeds if speed >= totals[0])
    if totals[0] > 0:
        yield place, max(speed for speed in speeds if speed < totals[0])
    if totals != state.queue[: sheet.bound]:
        yield place_of(sheet, state.slot + 1, state.queue), NONE_SPEED
        yield place_of(sheet, state.slot, totals), NONE_SPEED


def call_damaged_next(script, sheet):
    """Advance with one plan byte damaged that belongs to the slot that begins, and then the
    byte as it was."""
    chance, plan = script.chance, bytes(script.lent("plan"))
    for _ in range(2):
        found = planned_advance(chance, sheet, plan)
        if found is None:
            return
        state, size, deadline, totals = found
        for place, byte in next_damages(chance, sheet, state, totals):
            script.say(f"put plan {place} {byte}")
            put_state(script, state)
            if chance.random() < 0.2:
                call_advance(script, sheet, no_entry)
                put_state(script, state)
            script.say(f"advance {size} {deadline}")
            script.say(f"put plan {place} {plan[place]}")


def call_bare(script, sheet):
    """Start and advance with a plan that is none at all places but that of the state, and of
    which a row more is lent than there is."""
    chance = script.chance
    _, plan = sizes(sheet)
    script.say(f"lend plan {plan + count_queues(sheet)}")
    script.say(f"fill plan {NONE_SPEED}")
    for make_state in right_state, right_state, slow_state:
        state = make_state(chance, sheet)
        place = place_of(sheet, state.slot, state.queue)
        script.say(f"put plan {place} {chance.choice(sheet.speeds)[0]}")
        put_state(script, state)
        script.say("start")
        for arrival in no_entry, some_entry:
            put_state(script, state)
            call_advance(script, sheet, arrival)
        script.say(f"put plan {place} {NONE_SPEED}")


# Pricing


def reached(chance, sheet, plan):
    """A state that the plan leads to from the empty queue at slot 0, along random entries and
    for a random number of slots; no further where it has none."""
    totals, slots = (0,) * sheet.bound, chance.randrange(sheet.horizon)
    for slot in range(slots):
        speed = plan[place_of(sheet, slot, totals)]
        size, deadline = some_entry(chance, sheet)
        after = add_job(run_slot(totals, speed), size, deadline)
        if speed == NONE_SPEED or after not in queue_numbers(sheet.bound, sheet.largest_speed()):
            return at(totals, slot)
        totals = after
    return at(totals, slots)


def slower(chance, sheet, totals):
    """The slowest speed that is not below w(1), which is often inadmissible, or the fastest
    that is."""
    speeds = [speed for speed, _ in sheet.speeds]
    below = [speed for speed in speeds if speed < totals[0]]
    least = min(speed for speed in speeds if speed >= totals[0])
    return chance.choice((least, max(below, default=least)))


def call_damaged_price(script, sheet):
    """Prices of the plan in memory with one byte damaged, and then the byte as it was: at any
    place, or at one that is reached from the empty queue."""
    chance = script.chance
    _, needed = sizes(sheet)
    script.say(f"lend plan {needed}")
    plan = bytes(script.lent("plan"))
    for state in right_state(chance, sheet), reached(chance, sheet, plan):
        place = place_of(sheet, state.slot, state.queue)
        byte = chance.choice((NONE_SPEED, no_speed(chance, sheet), chance.choice(sheet.speeds)[0],
                              slower(chance, sheet, state.queue)))
        script.say(f"put plan {place} {byte}")
        call_price(script)
        script.say(f"lend plan {needed}")
        script.say(f"put plan {place} {plan[place]}")


def put_rows(script, sheet):
    """The rule's plan, and in the first slot, the last and one between them random speeds: not
    below the rule's or, less often, any."""
    chance = script.chance
    rule_plan(script, sheet)
    speeds = [speed for speed, _ in sheet.speeds]
    any_speed = chance.random() < 0.3
    for slot in sorted({0, sheet.horizon - 1, chance.randrange(sheet.horizon)}):
        least = [0 if any_speed else speed for speed in rule_row(sheet)]
        chosen = {speed: [other for other in speeds if other >= speed] for speed in set(least)}
        data = [chance.choice(chosen[speed]) for speed in least]
        script.say(f"put plan {slot * len(data)}{spaced(data)}")


def call_prices(script, sheet):
    """Prices of plans of all kinds."""
    chance = script.chance
    for make_plan in right_plan, rule_plan:
        make_plan(script, sheet)
        call_price(script)
        call_damaged_price(script, sheet)
    put_rows(script, sheet)
    call_price(script)
    speed, _ = chance.choice(sheet.speeds)
    script.say(f"fill plan {chance.choice((speed, sheet.largest_speed(), NONE_SPEED))}")
    call_price(script)


# Refusals


def spoiled(chance, sheet, number):
    """A line that makes a right sheet in memory one that this number, 4 to 8, refuses."""
    place = chance.randrange(len(sheet.speeds))
    speed, energy = sheet.speeds[place]
    last = len(sheet.speeds) - 1
    job = chance.randrange(len(sheet.jobs))
    weight, size, deadline = sheet.jobs[job]
    return chance.choice({
        4: [f"set bound {bound}" for bound in (0, 7, 200, NUMBER)],
        5: [*(f"set speeds {count}" for count in (0, 1, 10, 200, NUMBER)),
            f"set speed 0 1 {energy}",
            f"set speed {last} {sheet.speeds[last - 1][0]} {energy}",
            f"set speed {last} 9 {energy}",
            f"set speed {last} {NUMBER} {NUMBER}"],
        6: [f"set speed {place} {speed} {wrong}" for wrong in (65_536, 70_000, NUMBER)],
        7: [f"set horizon {horizon}" for horizon in (0, 201, NUMBER)],
        8: [*(f"set jobs {count}" for count in (0, 33, 200, NUMBER)),
            *(f"set job {job} {wrong} {size} {deadline}" for wrong in (0, 256, NUMBER)),
            *(f"set job {job} {weight} {wrong} {deadline}" for wrong in (256, NUMBER)),
            *(f"set job {job} {weight} {size} {wrong}"
              for wrong in (0, sheet.bound + 1, NUMBER))],
    }[number])


def call_all(script, sheet):
    """Every call, on whatever stands in memory, in any order; arrivals and queues are
    taken from the sheet."""
    chance = script.chance
    calls = [
        call_write, call_plan, call_rule, call_price, call_row, call_list,
        lambda script: script.say("start"),
        lambda script: call_advance(script, sheet, chance.choice((some_entry, no_entry))),
    ]
    chance.shuffle(calls)
    for call in calls:
        put_state(script, chance.choice((right_state(chance, sheet),
                                         chance.choice(edge_states(chance, sheet)))))
        call(script)


def call_refused(script, sheet, number):
    """Every call on the sheet with a number that 4 to 8 refuse, or on one like it that 9 or
    10 refuses."""
    if number <= 8:
        put_sheet(script, sheet)
        script.say(spoiled(script.chance, sheet, number))
    else:
        data = (raise_horizon, raise_queues)[number - 9](script.chance, sheet)
        put_sheet(script, take_sheet(byte_fields(iter(data))))
    call_all(script, sheet)


# The whole script


def add_sheet(script, place):
    """The part of one random sheet."""
    sheet = accepted_sheet(script.chance)
    script.say(f"# sheet {place}")
    for further in range(3):
        read_damaged(script, 3 * place + further)
    put_sheet(script, sheet)
    call_write(script)
    call_plan(script)
    call_row(script)
    call_rule(script)
    call_prices(script, sheet)
    right_plan(script, sheet)
    for _ in range(2):
        call_row(script)
        call_list(script)
    run(script, sheet)
    call_states(script, sheet)
    call_damaged(script, sheet)
    call_damaged_next(script, sheet)
    call_bare(script, sheet)
    right_plan(script, sheet)
    run_late(script, sheet)
    script.say(f"lend plan {max(0, len(script.lent('plan')) - script.chance.choice((0, 1)))}")
    call_all(script, sheet)
    for further in range(2):
        call_refused(script, sheet, 4 + (2 * place + further) % 7)


def add_edge(script, sheet, name):
    """Every call but a plan on a sheet at the edge of number 9 or 10."""
    script.say(f"# {name}")
    put_sheet(script, sheet)
    call_write(script)
    call_rule(script)
    if refuse_sheet(sheet) == 0:
        call_price(script)
        some_plan(script, sheet)
        call_states(script, sheet)
        call_list(script)
        dearest, _ = max(sheet.speeds, key=lambda entry: entry[1])
        script.say(f"fill plan {dearest}")
    call_price(script)
    put_state(script, at(()))
    script.say("start")
    call_advance(script, sheet, some_entry)
    script.say(f"sum row {sheet.horizon - 1}")
    script.say(f"sum row {sheet.horizon}")


def add_sums(script):
    """Arrivals that, with what waits, come to just what wraps in a signed byte or in a byte:
    no queue can bear one, and no queue has a plan."""
    most = 8  # M
    sizes = [whole - waiting for whole in (128, 256) for waiting in range(1, most + 1)]
    sheet = Sheet(2, ((0, 1), (most, 2)), 1, tuple((1, size, 1 + size % 2) for size in sizes))
    script.say("# sums that wrap in a byte, and nowhere here")
    put_sheet(script, sheet)
    some_plan(script, sheet)
    script.say("fill plan 0")
    for waiting in range(1, most + 1):
        for size in sizes:
            put_state(script, at((0, waiting)))
            script.say(f"advance {size} {1 + size % 2}")
    right_plan(script, sheet)
    script.say("sum values 0 234")
    script.say("row 0")


def add_far(script):
    """A plan of nearly as many bytes as there is room for: where it is damaged, the place is
    mostly one that 16 bits do not hold."""
    chance = script.chance
    sheet = Sheet(5, ((0, 3), (2, 0), (5, 7)), 15, ((1, 0, 1), (1, 5, 5), (1, 3, 2)))
    script.say("# a plan of 942,480 bytes")
    put_sheet(script, sheet)
    _, plan = sizes(sheet)
    script.say(f"lend plan {plan}")
    script.say("fill plan 5")
    for _ in range(20):
        state, (size, deadline) = right_state(chance, sheet), some_entry(chance, sheet)
        totals = add_job(run_slot(state.queue[: sheet.bound], 5), size, deadline)
        put_state(script, state)
        script.say(f"advance {size} {deadline}")
        if state.slot + 1 == sheet.horizon or totals not in queue_numbers(5, 5):
            continue
        place = place_of(sheet, state.slot + 1, totals)
        for byte in 2, NONE_SPEED:
            script.say(f"put plan {place} {byte}")
            put_state(script, state)
            script.say(f"advance {size} {deadline}")
        script.say(f"put plan {place} 5")
    script.say("# the rule's plan: there are not values enough for its price")
    rule_plan(script, sheet)
    script.say(f"sum plan 0 {plan}")
    script.say(f"lend values {MOST_LENT['values']}")
    script.say("price")
    script.say("# there are for twelve of its slots")
    script.say("set horizon 12")
    script.say("price")
    script.say(f"sum values 0 {MOST_LENT['values']}")


def refused_edges(chance):
    """(accepted, refused) sheets: the second has one slot more and is refused with 9."""
    for _ in range(6):
        data = raise_horizon(chance, accepted_sheet(chance))
        refused = take_sheet(byte_fields(iter(data)))
        if refused.horizon > 1:
            yield replace(refused, horizon=refused.horizon - 1), refused


def plain(bound, top):
    return Sheet(bound, ((0, 0), (top, 1)), 1, ((1, 0, 1), (2, 1, bound)))


def make_script():
    script = Script()
    script.say("# sheet A")
    put_sheet(script, SHEET_A)
    right_plan(script, SHEET_A)
    call_all(script, SHEET_A)
    for place in range(SHEETS):
        add_sheet(script, place)
    for accepted, refused in refused_edges(script.chance):
        add_edge(script, accepted, "the longest horizon before number 9")
        add_edge(script, refused, "one slot more")
    for energy in 2_047, 2_048:
        add_edge(script, eighth_powers(energy), "just below 2^63, and 2^63")
    for horizon in 3, 4, 200:
        add_edge(script, longest_sheet(horizon), "all places for speeds and jobs")
    for line in "set speeds 10", f"set speeds {NUMBER}", "set jobs 33", f"set jobs {NUMBER}":
        script.say("# every entry is right, and a count is more than there are places")
        put_sheet(script, longest_sheet(3))
        script.say(line)
        call_all(script, longest_sheet(3))
    for bound, top in (5, 5), (6, 3), (4, 8), (5, 6), (6, 4), (6, 8):
        add_edge(script, plain(bound, top), "the most queues, and more")
    add_sums(script)
    add_far(script)
    script.say("# a plan of 53,820 queues")
    put_sheet(script, plain(6, 3))
    right_plan(script, plain(6, 3))
    script.say("sum values 0 107640")
    script.say("sum row 0")
    script.say("price")
    script.say("sum values 0 107640")
    script.say("# the byte of the last of them, whose place needs all of 16 bits, becomes 0")
    script.say("put plan 53819 0")
    script.say("price")
    script.say("sum values 0 107640")
    return script


def refuse_narrow(counts):
    """The script must have every answer of every call, each five times, and many calls."""
    for call, numbers in ANSWERS.items():
        for number in numbers:
            if counts[call, number] < LEAST_OF_NUMBER:
                sys.exit(f"the script has `{call}` with {number} {counts[call, number]} times,"
                         f" {LEAST_OF_NUMBER} are needed")
    if counts.total() < LEAST_CALLS:
        sys.exit(f"the script has {counts.total()} calls, {LEAST_CALLS} are needed")


def answer_lines(script):
    """(script line by number and words, answer) for each line of the answers."""
    for number, (line, given) in enumerate(zip(script.lines, script.answers), 1):
        for answered in given.splitlines():
            yield f"script line {number}, `{line}`", answered


def show(line, expected, given):
    def shown(text):
        return "nothing" if text is None else text.decode(errors="backslashreplace")

    print(f"{line}\nexpected: {shown(expected)}\ngiven:    {shown(given)}")


def differing(script, output):
    """(script line, expected, given) for each line that is not as it should be."""
    given = output.split(b"\n")
    if given[-1] == b"":
        given.pop()
    expected = list(answer_lines(script))
    for place in range(max(len(expected), len(given))):
        line, wanted = expected[place] if place < len(expected) else ("after the last line", None)
        got = given[place] if place < len(given) else None
        if wanted != got:
            yield line, wanted, got


def summary(counts):
    calls = []
    for call, numbers in ANSWERS.items():
        found = ", ".join(f"{number}: {counts[call, number]}" for number in numbers)
        calls.append(f"{call} {found}")
    return "; ".join(calls)


def main(command):
    if not command:
        sys.exit("no command is named: python3 tests/random_calls.py COMMAND...")
    script = make_script()
    refuse_narrow(script.counts)
    text = "".join(f"{line}\n" for line in script.lines).encode()
    if command == ["--script"]:
        sys.stdout.buffer.write(text)
        return
    try:
        done = subprocess.run(command, input=text, stdout=subprocess.PIPE, timeout=SECONDS)
    except subprocess.TimeoutExpired:
        sys.exit(f"the command did not end within {SECONDS} seconds")
    differences = list(differing(script, done.stdout))
    for difference in differences[:MOST_SHOWN]:
        show(*difference)
    if differences:
        sys.exit(f"{len(differences)} lines of answers differ, status {done.returncode}")
    if done.returncode != 0:
        sys.exit(f"the answers agree, but the command ended with status {done.returncode}")
    print(f"{script.counts.total()} calls agree: {summary(script.counts)}")


if __name__ == "__main__":
    main(sys.argv[1:])
