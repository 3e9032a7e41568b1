"""An independent implementation of document 01: reading, refusing, planning and listing; and
of request [2] of document 02, "What the old rule costs": the rule's plan, and pricing a plan.

It was written from the text of document 01 and of [2], by someone who had not seen the proved
code, so that the two can be compared: where they differ, one has misread the page. What they
leave open was decided for both: decisions 1 to 18 of docs/DECISIONS.md, and those on [2], are
shared with the proved code, so that a misreading in one of those would be in both and no
comparison would tell. It is plain rather than fast: exact integers, queues listed one by one,
backward induction as on paper. Quotation marks hold 01's own words or, where [2] is named,
those of the request.

    python3 tests/independent.py [--price] [FILE...]

prints what 01's planning program writes for the bytes of each file or, where none is named,
of standard input (see `program`); with --price what the program `price` writes (see
`price_program`). stepping.py has the stepper, and calls.py makes any call, by a script;
test_independent.py holds this and the stepper against the pages' cases and definitions.
"""

import sys
from dataclasses import dataclass
from functools import lru_cache
from itertools import islice
from pathlib import Path

MOST_QUEUES = 65_535
# What the planning program reads, and what it lends.
PROGRAM_SHEET_BYTES, PROGRAM_VALUES, PROGRAM_PLAN_BYTES = 512, 8_000, 60_000
NONE_VALUE, NONE_SPEED = 2**64 - 1, 255  # how "none" is written in values and plan


class Refused(Exception):
    """A refusal; `number` is that of 01's table "Numbers returned"."""

    def __init__(self, number):
        super().__init__(f"refused {number}")
        self.number = number


@dataclass(frozen=True)
class Sheet:
    """A sheet in memory. The counts are the lengths, so there are no places past them.
    The default is the all-zero sheet."""

    bound: int = 0  # D
    speeds: tuple = ()  # (speed, energy)
    horizon: int = 0  # T
    jobs: tuple = ()  # (weight, size, deadline)

    def largest_speed(self):
        """M. The speeds rise, so it is the last."""
        return self.speeds[-1][0]

    def weight_sum(self):
        """W."""
        return sum(weight for weight, _, _ in self.jobs)


# 01's worked sheet, and its bytes in hex as they stand there.
SHEET_A = Sheet(2, ((0, 0), (1, 1), (2, 4)), 2, ((1, 0, 1), (1, 2, 2)))
SHEET_A_BYTES = "02 03 00 00 01 01 02 04 02 02 01 00 01 01 02 02"


def read_number(stream):
    """The next number of a stream of bytes: "groups of seven bits, the lowest group
    first, the high bit set on every byte but the last. At most three bytes"."""
    value = 0
    for group in range(3):
        byte = next(stream, None)
        if byte is None:
            raise Refused(1)
        value += (byte % 128) << (7 * group)
        if byte < 128:
            # "a last byte of 0 is allowed only when it is the single byte"
            if byte == 0 and group > 0:
                raise Refused(2)
            return value
    raise Refused(2)  # "its third byte has the high bit"


def byte_fields(stream):
    """The fields of sheet bytes, each read only when it is asked for."""
    while True:
        yield read_number(stream)


def memory_fields(sheet):
    """The fields of a sheet in memory, in the order of the bytes, each looked at only
    when it is asked for: no entry after a wrong count is."""
    yield sheet.bound
    yield len(sheet.speeds)
    for entry in sheet.speeds:
        yield from entry
    yield sheet.horizon
    yield len(sheet.jobs)
    for entry in sheet.jobs:
        yield from entry


def number_bytes(number):
    """The bytes of a number, in "the shortest form only"."""
    groups = []
    while number >= 128:
        groups.append(128 + number % 128)
        number //= 128
    return bytes([*groups, number])


def sheet_bytes(sheet):
    """The bytes of a sheet, also of one that is refused: 01's writer without its refusals."""
    return b"".join(number_bytes(number) for number in memory_fields(sheet))


def within(value, least, most, number):
    """The value, or the refusal with this number when it is out of range."""
    if not least <= value <= most:
        raise Refused(number)
    return value


def take_sheet(fields):
    """The sheet of these fields. For each, "its own range is tested before the next
    field"; a sheet in memory is tested "in that field order" as well."""
    bound = within(next(fields), 1, 6, 4)
    speeds = []
    for _ in range(within(next(fields), 2, 9, 5)):
        # "first not 0, not strictly rising, or one above 8"
        least, most = (speeds[-1][0] + 1, 8) if speeds else (0, 0)
        speed = within(next(fields), least, most, 5)
        energy = within(next(fields), 0, 65_535, 6)
        speeds.append((speed, energy))
    horizon = within(next(fields), 1, 200, 7)
    jobs = []
    for _ in range(within(next(fields), 1, 32, 8)):
        weight = within(next(fields), 1, 255, 8)
        size = within(next(fields), 0, 255, 8)
        deadline = within(next(fields), 1, bound, 8)
        jobs.append((weight, size, deadline))
    return Sheet(bound, tuple(speeds), horizon, tuple(jobs))


def refuse_too_large(sheet):
    """Numbers 9 and 10, the last two tests of every sheet."""
    # "G is the greatest energy, or 1 if that is 0"
    greatest = max(1, *(energy for _, energy in sheet.speeds))
    scaled = sheet.horizon * greatest * sheet.weight_sum() ** sheet.horizon
    within(scaled, 0, 2**63 - 1, 9)
    within(count_queues(sheet), 0, MOST_QUEUES, 10)


def read_sheet(data):
    """(number, sheet); "a refused read gives an all-zero sheet"."""
    stream = iter(data)
    try:
        sheet = take_sheet(byte_fields(stream))
        if next(stream, None) is not None:
            raise Refused(3)  # "After the last field: 3, 9, 10."
        refuse_too_large(sheet)
    except Refused as refusal:
        return refusal.number, Sheet()
    return 0, sheet


def refuse_sheet(sheet):
    """The number of a sheet in memory: 4 to 10, or 0 when it is accepted."""
    try:
        refuse_too_large(take_sheet(memory_fields(sheet)))
    except Refused as refusal:
        return refusal.number
    return 0


def bearable_queues(bound, largest_speed, queue=()):
    """The bearable queues that begin with `queue`, in dictionary order: never falling,
    and "w(u) is at most u times M for each u"."""
    if len(queue) == bound:
        yield queue
        return
    least = queue[-1] if queue else 0
    most = (len(queue) + 1) * largest_speed
    for work in range(least, most + 1):
        yield from bearable_queues(bound, largest_speed, (*queue, work))


@lru_cache(maxsize=None)
def count_bearable(bound, largest_speed):
    """How many bearable queues there are. One too many settles "N above 65,535"; the others
    need not be made."""
    return sum(1 for _ in islice(bearable_queues(bound, largest_speed), MOST_QUEUES + 1))


def count_queues(sheet):
    """N, where it is not above 65,535."""
    return count_bearable(sheet.bound, sheet.largest_speed())


def run_slot(queue, speed):
    """The queue after a slot and before the arrival: "w'(u) = w(u+1) - s, or 0 if that
    is negative, with w(D) standing for w(D+1)"."""
    return tuple([max(0, work - speed) for work in (*queue[1:], queue[-1])])


def add_job(queue, size, deadline):
    """The queue with a job: "c is added to w'(u) for every u from d to D"."""
    before = deadline - 1
    return (*queue[:before], *[work + size for work in queue[before:]])


def choices(sheet, queue):
    """(speed, energy, queue after the slot) for each speed that "is at least w(1)",
    slowest first. They are the same in every slot, so they are made once."""
    return [(speed, energy, run_slot(queue, speed))
            for speed, energy in sheet.speeds if speed >= queue[0]]


def value_after(sheet, after, numbers, next_values):
    """The sum over the entries of weight times the value of the queue each leads to.
    No value when one leads to a queue that is not bearable or has none: a way is good
    only when it is so "along every list of entries"."""
    total = 0
    for weight, size, deadline in sheet.jobs:
        number = numbers.get(add_job(after, size, deadline))
        if number is None or next_values[number] == NONE_VALUE:
            return NONE_VALUE
        total += weight * next_values[number]
    return total


def plan_row(sheet, slot, choices_of_queues, numbers, next_values):
    """The values and the plan speeds of one slot, from the values of the next."""
    # This slot's energy is spent along every list of the T-t entries to come, and the
    # products of the weights of all those lists add up to W to the power T-t.
    scale = sheet.weight_sum() ** (sheet.horizon - slot)
    known = {}  # value_after by queue: many queues and speeds lead to each of a few
    values, speeds = [], []
    for choices_of_queue in choices_of_queues:
        value, plan_speed = NONE_VALUE, NONE_SPEED  # number 9 keeps every cost below
        for speed, energy, after in choices_of_queue:
            if after not in known:
                known[after] = value_after(sheet, after, numbers, next_values)
            if known[after] == NONE_VALUE:
                continue
            cost = energy * scale + known[after]
            if cost < value:  # not when equal: "the smallest first speed"
                value, plan_speed = cost, speed
        values.append(value)
        speeds.append(plan_speed)
    return values, speeds


@lru_cache(maxsize=64)
def plan_sheet(sheet):
    """(number, N, least energy, values, plan), the last two for every slot and every
    bearable queue, also those that "can't be reached from empty". It is kept, and whoever
    asks again gets the same lists: they must not be changed."""
    number = refuse_sheet(sheet)
    if number != 0:
        return number, 0, 0, [], []
    queues = list(bearable_queues(sheet.bound, sheet.largest_speed()))
    numbers = {queue: place for place, queue in enumerate(queues)}
    choices_of_queues = [choices(sheet, queue) for queue in queues]
    # Backwards: "row T of values is 0 for every bearable queue".
    values, plan = [0] * len(queues), []
    for slot in reversed(range(sheet.horizon)):
        next_values = values[: len(queues)]
        values_of_slot, plan_of_slot = plan_row(
            sheet, slot, choices_of_queues, numbers, next_values)
        values, plan = values_of_slot + values, plan_of_slot + plan
    # "The empty queue is 0"; 12 "fills both buffers and reports N, least energy 0".
    if values[0] == NONE_VALUE:
        return 12, len(queues), 0, values, plan
    return 0, len(queues), values[0], values, plan


def plan_of(sheet):
    """The plan bytes of a sheet."""
    return plan_sheet(sheet)[4]


def refuse_lent_plan(sheet, plan):
    """The number of a sheet with the plan bytes lent for it: "4 to 10, 11". A plan longer
    than T times N bytes "is fine in every call" (decision 3)."""
    number = refuse_sheet(sheet)
    if number == 0 and len(plan) < sheet.horizon * count_queues(sheet):
        return 11
    return number


def refuse_lent(sheet, values, plan):
    """The same where values are lent too: "(T+1) times N places of 64 bits"."""
    number = refuse_lent_plan(sheet, plan)
    if number == 0 and len(values) < (sheet.horizon + 1) * count_queues(sheet):
        return 11
    return number


def plan_lent(sheet, values, plan):
    """(number, N, least energy) of the planner. It fills what it is lent: "values, (T+1)
    times N places of 64 bits, row t from place t times N; and the plan, T times N bytes,
    likewise. Places beyond are untouched". Nothing is planned before 11 is told."""
    number = refuse_lent(sheet, values, plan)
    if number != 0:
        return number, 0, 0
    number, queue_count, least, planned_values, planned_speeds = plan_sheet(sheet)
    values[: len(planned_values)] = planned_values
    plan[: len(planned_speeds)] = planned_speeds
    return number, queue_count, least


def rule_speed(sheet, queue):
    """The speed of "Optimal Available from document 004: the smallest sheet speed s with u
    times s at least w(u) for every u" ([2]). Every bearable queue has one, since M is one."""
    return min(speed for speed, _ in sheet.speeds
               if all(position * speed >= work for position, work in enumerate(queue, 1)))


@lru_cache(maxsize=64)
def rule_row(sheet):
    """The rule's speed of each bearable queue, which is the same in every slot. It is kept, and
    must not be changed."""
    return [rule_speed(sheet, queue)
            for queue in bearable_queues(sheet.bound, sheet.largest_speed())]


def rule_lent(sheet, plan):
    """(number, N) of the call that writes the rule's plan ([2]: "Write its plan"), a byte for
    each slot and bearable queue, as the planner's lie. "Refusals: 4 to 10, 11 as for the
    planner" ([2]); no values are lent, so 11 is of the plan. It gives no 12: there is no none
    in it, whatever its speeds lead to."""
    number = refuse_lent_plan(sheet, plan)
    if number != 0:
        return number, 0
    speeds = rule_row(sheet)
    plan[: sheet.horizon * len(speeds)] = speeds * sheet.horizon
    return 0, len(speeds)


def price_after(sheet, after, spent, numbers, next_prices):
    """The price of a slot that leaves this queue before the arrival. All lists of the entries
    to come, by the first of them: its weight times what those that follow it come to, which is
    `spent`, this slot's energy along all of those, and the price from the queue it leads to.
    None when "a queue reached is not bearable" ([2]) or has no price."""
    total = 0
    for weight, size, deadline in sheet.jobs:
        number = numbers.get(add_job(after, size, deadline))
        if number is None or next_prices[number] == NONE_VALUE:
            return NONE_VALUE
        total += weight * (spent + next_prices[number])
    return total


def price_row(sheet, slot, queues, numbers, plan_of_slot, next_prices):
    """The prices of one slot when each speed is that of these bytes, from the prices of the
    next slot: none "where along some list a byte is no sheet speed or is below w(1), or a
    queue reached is not bearable" ([2])."""
    energies = dict(sheet.speeds)
    # The products of the weights of all lists of the entries that follow this slot's.
    scale = sheet.weight_sum() ** (sheet.horizon - slot - 1)
    known = {}  # price_after by speed and queue: many queues lead to each of a few
    prices = []
    for queue, byte in zip(queues, plan_of_slot):
        if byte not in energies or byte < queue[0]:
            prices.append(NONE_VALUE)
            continue
        led_to = byte, run_slot(queue, byte)
        if led_to not in known:
            known[led_to] = price_after(
                sheet, led_to[1], energies[byte] * scale, numbers, next_prices)
        prices.append(known[led_to])
    return prices


def price_plan(sheet, plan):
    """The prices of these plan bytes, right or wrong, on an accepted sheet: "the scaled energy
    from each slot and queue when each speed is the plan's" ([2]), row by row as the planner's
    values lie. After the last slot nothing is spent: row T is 0 for every bearable queue."""
    queues = list(bearable_queues(sheet.bound, sheet.largest_speed()))
    numbers = {queue: place for place, queue in enumerate(queues)}
    rows = [[0] * len(queues)]  # the last slot's first
    for slot in reversed(range(sheet.horizon)):
        rows.append(price_row(
            sheet, slot, queues, numbers, row(sheet, plan, slot), rows[-1]))
    return [price for prices in reversed(rows) for price in prices]


def price_lent(sheet, values, plan):
    """(number, N, price of the empty queue at slot 0) of the call that prices a lent plan,
    which is not changed. It fills the values as the planner does. [2]: "Refusals: 4 to 10, 11
    as for the planner", and where the empty queue has none "it gives 12, price 0, buffer
    filled". A wrong byte is not refused: it leads to none."""
    number = refuse_lent(sheet, values, plan)
    if number != 0:
        return number, 0, 0
    prices = price_plan(sheet, plan)
    values[: len(prices)] = prices
    if prices[0] == NONE_VALUE:
        return 12, count_queues(sheet), 0
    return 0, count_queues(sheet), prices[0]


def row(sheet, plan, slot):
    """The row call, which answers "the part of the caller's plan that belongs to slot t, and
    an empty part on any refusal or when t is not below T", whatever the bytes are (decision
    4)."""
    if refuse_lent_plan(sheet, plan) != 0 or slot >= sheet.horizon:
        return []
    queue_count = count_queues(sheet)
    return plan[slot * queue_count : (slot + 1) * queue_count]


def listing(sheet, least, plan, more=""):
    """The bytes of the listing. "The header has N, W to the power T, and the empty queue's
    value at slot 0. Each further line has the slot, a colon and the plan byte of each queue
    in order. A line feed ends every line". Where there is more, it ends the header."""
    scale = sheet.weight_sum() ** sheet.horizon
    lines = [f"queues {count_queues(sheet)} scale {scale} least {least}{more}\n"]
    for slot in range(sheet.horizon):
        speeds = "".join(f" {byte}" for byte in row(sheet, plan, slot))
        lines.append(f"{slot}:{speeds}\n")
    return "".join(lines).encode()


def fill(lent, data):
    """(number, length) of a call that is not refused and answers in lent bytes: 11 for "a lent
    buffer shorter than needed", which "touches no lent place and reports zero for length";
    else places "past the writer's length" are untouched."""
    if len(lent) < len(data):
        return 11, 0
    lent[: len(data)] = data
    return 0, len(data)


def write_sheet(sheet, lent):
    """(number, length). "Planner, writer and row: 4 to 10, 11"."""
    number = refuse_sheet(sheet)
    return (number, 0) if number else fill(lent, sheet_bytes(sheet))


def write_listing(sheet, least, plan, lent):
    """(number, length). 01 has no such call by itself: it is refused as the writer is, and
    the plan is lent to it as it is to row."""
    number = refuse_lent_plan(sheet, plan)
    return (number, 0) if number else fill(lent, listing(sheet, least, plan))


def plan_input(data):
    """(number, sheet, least energy, plan) of these bytes of standard input: a program "reads up
    to 512 sheet bytes from standard input, lends 8,000 values and 60,000 plan bytes"."""
    number, sheet = read_sheet(data[:PROGRAM_SHEET_BYTES])
    if number != 0:
        return number, sheet, 0, []
    plan = [0] * PROGRAM_PLAN_BYTES
    number, _, least = plan_lent(sheet, [0] * PROGRAM_VALUES, plan)
    return number, sheet, least, plan


def refused(number):
    return f"refused {number}\n".encode()


def program(data):
    """What the planning program writes for these bytes of standard input: "either `refused n`,
    for any number but 0, or the listing"; 12 is a refusal here too, and a line feed ends that
    line as well (decision 8)."""
    number, sheet, least, plan = plan_input(data)
    return refused(number) if number else listing(sheet, least, plan)


def price_program(data):
    """What the program `price` writes: refused as the planning program is, with 12 too; else
    the rule's plan as in a listing, the header of which ends with what the empty queue costs
    by the rule at slot 0, or with the word none: the rule may fail where the planner does
    not. No text is too long for it."""
    number, sheet, least, _ = plan_input(data)
    if number != 0:
        return refused(number)
    plan = [0] * PROGRAM_PLAN_BYTES
    rule_lent(sheet, plan)
    number, _, price = price_lent(sheet, [0] * PROGRAM_VALUES, plan)
    return listing(sheet, least, plan, f" rule {'none' if number == 12 else price}")


def checksum(numbers):
    """One number for a long list, easily computed in any language."""
    total = 0
    for number in numbers:
        total = (total * 1_000_003 + number % 4_294_967_291) % 4_294_967_291
    return total


def main(names):
    write = program
    if names[:1] == ["--price"]:
        write, names = price_program, names[1:]
    named = [Path(name).read_bytes() for name in names]
    for data in named or [sys.stdin.buffer.read()]:
        sys.stdout.buffer.write(write(data))


if __name__ == "__main__":
    main(sys.argv[1:])
