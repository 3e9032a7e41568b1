"""An independent implementation of the stepper, start and advance: document 01's, as request
[1] of document 02, "One call per slot", changed it.

It builds on independent.py and is as independent of the proved code as that is, and no more:
written from 01 and [1] by someone who had not seen the code, with the decisions 1 to 18 of
docs/DECISIONS.md shared, and 127, which settles what [1] leaves open: that advance goes on
testing the byte of the slot that ends, that no byte is tested where the horizon is reached,
and that a queue without a plan is refused by start with 16. Quotation marks hold 01's own
words or, where [1] is named, those of the request. Number 11 means here that there are fewer
plan bytes than T times N.
"""

import sys
from dataclasses import dataclass
from functools import lru_cache

sys.dont_write_bytecode = True  # no folder of compiled files beside the tests
from independent import (
    NONE_SPEED, Refused, add_job, bearable_queues, refuse_sheet, run_slot, within,
)

POSITIONS = 6  # of a queue in memory, whatever D is
MOST_ENERGY = 4_294_967_295


@dataclass(frozen=True)
class State:
    """A state "has a queue, a slot number and the energy spent". The queue is six totals;
    those "past D are unused and zero". The default is the all-zero state."""

    queue: tuple = (0,) * POSITIONS
    slot: int = 0
    energy: int = 0


def at(totals, slot=0, energy=0):
    """The state with these totals at the first positions of its queue."""
    return State((*totals, *[0] * (POSITIONS - len(totals))), slot, energy)


@lru_cache(maxsize=None)
def queue_numbers(bound, largest_speed):
    """The number of each bearable queue, in a dictionary by its D totals."""
    queues = bearable_queues(bound, largest_speed)
    return {queue: place for place, queue in enumerate(queues)}


def accepted_queues(sheet):
    """The queues of a sheet by number, once it has passed: it "is tested 4 to 10 in that
    field order by every call"."""
    number = refuse_sheet(sheet)
    if number != 0:
        raise Refused(number)
    return queue_numbers(sheet.bound, sheet.largest_speed())


def refuse_short(sheet, numbers, plan):
    """11: fewer plan bytes than T times N, "whatever the slot" (decision 3)."""
    if len(plan) < sheet.horizon * len(numbers):
        raise Refused(11)


def refuse_queue(sheet, numbers, queue):
    """What 13 says of the queue: it "falls or is not bearable, an unused position is not
    zero". A queue that falls has no number either."""
    if queue[: sheet.bound] not in numbers or any(queue[sheet.bound:]):
        raise Refused(13)


def refuse_state(sheet, numbers, state):
    """All of 13: the queue, "the slot is above T, or the energy is above the slot number
    times the greatest energy", which is 0 where all are 0 (decision 2)."""
    refuse_queue(sheet, numbers, state.queue)
    within(state.slot, 0, sheet.horizon, 13)
    greatest = max(energy for _, energy in sheet.speeds)
    within(state.energy, 0, state.slot * greatest, 13)


def planned_speed(sheet, numbers, plan, slot, totals):
    """The plan byte of this slot and of the queue with these totals; 16 where it "is no sheet
    speed, or is below w(1)". It need not be an admissible speed (decision 11). In 01 a call
    "reads the plan byte at the state's slot and queue number"; [1] overrules it: "The separate
    speed call is withdrawn". Start and advance read their bytes here, advance that of the slot
    that ends and that of the slot that begins."""
    byte = plan[slot * len(numbers) + numbers[totals]]
    if byte not in dict(sheet.speeds) or byte < totals[0]:
        raise Refused(16)
    return byte


def first_speed(sheet, plan, queue):
    """The speed that start answers, or the first of its refusals. 01 has "Start: 4 to 10, 13."
    and [1] overrules it: "start checks 4 to 10, 11, 13, 16"."""
    numbers = accepted_queues(sheet)
    refuse_short(sheet, numbers, plan)
    refuse_queue(sheet, numbers, queue)
    return planned_speed(sheet, numbers, plan, 0, queue[: sheet.bound])


def next_state(sheet, plan, state, size, deadline):
    """The state that advance gives: "it runs the slot at that speed, adds its energy, adds
    the job, and moves the slot on by one". With it "the speed of the slot that begins, or 255
    when the horizon is reached" ([1]). Of the refusals 01 has "4 to 10, 11, 13, 14, 16" and
    "then 15, 17, 18"; [1] overrules the end: "advance ends with 17, 18, then 16 for the new
    slot". So the first 16 is for the slot that ends."""
    numbers = accepted_queues(sheet)
    refuse_short(sheet, numbers, plan)
    refuse_state(sheet, numbers, state)
    if state.slot == sheet.horizon:
        raise Refused(14)
    totals = state.queue[: sheet.bound]
    chosen = planned_speed(sheet, numbers, plan, state.slot, totals)
    if (size, deadline) not in [(c, d) for _, c, d in sheet.jobs]:
        raise Refused(15)
    totals = add_job(run_slot(totals, chosen), size, deadline)
    if totals not in numbers:
        raise Refused(17)
    energy = within(state.energy + dict(sheet.speeds)[chosen], 0, MOST_ENERGY, 18)
    after = at(totals, state.slot + 1, energy)
    if after.slot == sheet.horizon:
        return after, NONE_SPEED
    return after, planned_speed(sheet, numbers, plan, after.slot, totals)


def start(sheet, plan, state):
    """(number, state, speed). 01 has "Start takes a sheet and a queue and gives slot 0, energy
    0", and [1] "Start now takes the plan and answers the first speed". The queue is the
    state's, and the slot and energy that it had "are not looked at" (decision 10). "A refused
    start gives an all-zero state"; "a refused call's speed is 0" ([1])."""
    try:
        speed = first_speed(sheet, plan, state.queue)
    except Refused as refusal:
        return refusal.number, State(), 0
    return 0, State(state.queue, 0, 0), speed


def advance(sheet, plan, state, size, deadline):
    """(number, state, speed): "a refused advance hands back the state it got". That is also so
    of the last test: "If the new slot's plan byte is wrong, the whole advance is refused and
    the old state comes back; a refused call's speed is 0" ([1])."""
    try:
        return 0, *next_state(sheet, plan, state, size, deadline)
    except Refused as refusal:
        return refusal.number, state, 0
