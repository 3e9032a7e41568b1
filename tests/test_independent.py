"""Checks independent.py and stepping.py: document 01's cases, what request [1] of document 02
changed of them, what [2] adds, and the definition.

    python3 tests/test_independent.py

prints `ok`, or stops at the first check that fails. The cases are those of 01's
"Worked sheet" and of the decisions that concern reading, refusing, planning, listing
and stepping. `check_ways` then tries ALL ways of small sheets, as 01 defines them, with
queues stepped by code of its own; nothing there uses the backward induction.
`check_runs` steps small sheets along all lists of entries, which must spend the value;
the speeds are those that start and advance answered. `check_prices` does both for [2]: plans
of all kinds, right and wrong, are priced along all lists by the definition, and stepped.
"""

import random
import sys
from itertools import product

sys.dont_write_bytecode = True  # no folder of compiled files beside the tests
from independent import (
    NONE_SPEED, NONE_VALUE, SHEET_A, SHEET_A_BYTES, Refused, Sheet, add_job, bearable_queues,
    checksum, plan_lent, plan_of, plan_sheet, price_lent, price_plan, price_program, program,
    read_number, read_sheet, refuse_sheet, row, rule_lent, run_slot, sheet_bytes,
)
from stepping import State, advance, at, start


def read_hex(text):
    """The number that reading these sheet bytes gives, once the sheet agrees with it."""
    number, sheet = read_sheet(bytes.fromhex(text))
    assert (number == 0) == (sheet != Sheet()), text
    return number


def read_one(text):
    """What reading one number gives: its value or, as text, its refusal."""
    try:
        return read_number(iter(bytes.fromhex(text)))
    except Refused as refusal:
        return str(refusal)


def one_job(bound, speeds, horizon, job):
    return Sheet(bound, tuple(speeds), horizon, (job,))


def check_numbers():
    assert read_one("82 01") == 130 and read_one("AC 02") == 300
    assert read_one("00") == 0 and read_one("7F") == 127 and read_one("FF FF 7F") == 2**21 - 1
    assert read_one("80 00") == read_one("FF FF FF") == "refused 2"
    assert read_one("FF 80 00") == "refused 2"  # three bytes, the last of them 0
    assert read_one("FF FF") == read_one("") == "refused 1"


def check_reading():
    assert read_sheet(bytes.fromhex(SHEET_A_BYTES)) == (0, SHEET_A)
    whole = bytes.fromhex(SHEET_A_BYTES)
    assert sheet_bytes(SHEET_A) == whole
    for length in range(len(whole)):
        assert read_sheet(whole[:length]) == (1, Sheet())
    head = "02 02 00 00 01 01 "  # D 2, speeds 0 and 1 with energies 0 and 1
    for number, texts in {
        2: ["80 00", "02 80 00", "02 83 80 80", head + "02 81 00"],
        3: [SHEET_A_BYTES + "00", SHEET_A_BYTES + "FF FF FF", head + "3A 01 02 00 01 00"],
        4: ["00", "07", "07 80 00", "80 01"],
        5: ["02 01", "02 0A", "02 02 01", "02 02 00 00 00", "02 03 00 00 02 00 01",
            "02 02 00 00 09", "02 03 00 00 08 00 09"],
        6: ["02 02 00 80 80 04", "02 02 00 F0 A2 04 00 00"],  # the second: decision 1
        7: [head + "00", head + "C9 01"],
        8: [head + "02 00", head + "02 21", head + "02 01 00", head + "02 01 80 02",
            head + "02 01 01 80 02", head + "02 01 01 00 00", head + "02 01 01 00 03"],
        9: [head + "3A 01 02 00 01", "05 02 00 00 06 01 3A 01 02 00 01"],  # 9 before 10
        10: ["05 02 00 00 06 01 01 01 01 00 01", "06 02 00 00 08 01 01 01 01 00 01"],
        0: [SHEET_A_BYTES, head + "39 01 02 00 01", "02 02 00 FF FF 03 01 00 01 01 01 00 02",
            head + "C8 01 01 01 FF 01 02"],
    }.items():
        for text in texts:
            assert read_hex(text) == number, (number, text)


def check_memory():
    speeds, job = [(0, 0), (1, 1)], (1, 0, 1)
    for number, sheet in [
        (0, SHEET_A),
        (4, Sheet()),
        (4, one_job(7, [(1, 0), (0, 0)], 0, job)),  # the first field decides
        (5, one_job(2, [(0, 0), (9, 70_000)], 1, job)),
        (6, one_job(2, [(0, 70_000), (0, 0)], 1, job)),  # decision 1
        (6, one_job(2, [(0, 65_536), (1, 0)], 1, job)),
        (5, one_job(2, [(0, 0)] * 200, 1, job)),  # decision 5
        (7, one_job(2, speeds, 201, (0, 0, 0))),
        (8, one_job(2, speeds, 1, (256, 0, 1))),
        (8, one_job(2, speeds, 1, (1, 0, 3))),
        # All places used, each with its greatest number.
        (0, Sheet(1, tuple((speed, 65_535) for speed in range(9)), 1, ((255, 255, 1),) * 32)),
    ]:
        assert refuse_sheet(sheet) == number, (number, sheet)
    assert plan_sheet(Sheet()) == (4, 0, 0, [], [])


def check_sheet_a():
    number, queue_count, least, values, plan = plan_sheet(SHEET_A)
    assert (number, queue_count, least) == (0, 12, 0)
    assert values[0:12] == [0, 4, 8, 20, 32, 4, 8, 20, 32, 16, 20, 32]
    assert values[12:24] == [0, 0, 0, 2, 8, 2, 2, 2, 8, 8, 8, 8]
    assert values[24:] == [0] * 12
    assert plan[0:12] == [0, 0, 1, 1, 2, 1, 1, 1, 2, 2, 2, 2]
    assert plan[12:] == [0, 0, 0, 1, 2, 1, 1, 1, 2, 2, 2, 2]


def check_counts():
    for bound, largest_speed, count in [(2, 2, 12), (5, 5, 62_832), (5, 6, 141_778),
                                        (6, 2, 7_752)]:  # the last: decision 14
        assert sum(1 for _ in bearable_queues(bound, largest_speed)) == count
    assert refuse_sheet(one_job(5, [(0, 0), (5, 1)], 1, (1, 0, 1))) == 0
    assert refuse_sheet(one_job(5, [(0, 0), (6, 1)], 1, (1, 0, 1))) == 10
    # Dictionary order is the order of tuples.
    queues = list(bearable_queues(3, 3))
    assert queues == sorted(queues) and queues[0] == (0, 0, 0)
    # Decision 14: with D 1 "nothing is left".
    assert all(run_slot((work,), speed) == (0,) for speed in range(9) for work in range(speed + 1))


def check_horizon():
    for energy in 1, 0:  # decision 15: number 9 "still uses 1"
        speeds = [(0, 0), (1, energy)]
        assert refuse_sheet(one_job(1, speeds, 57, (2, 0, 1))) == 0
        assert refuse_sheet(one_job(1, speeds, 58, (2, 0, 1))) == 9
    # 16 * 2048 * 8^16 is 2^63, the least number that is refused.
    assert refuse_sheet(one_job(1, [(0, 0), (1, 2_047)], 16, (8, 0, 1))) == 0
    assert refuse_sheet(one_job(1, [(0, 0), (1, 2_048)], 16, (8, 0, 1))) == 9
    # "the greatest energy", whichever speed has it
    assert refuse_sheet(one_job(1, [(0, 2_048), (1, 0)], 16, (8, 0, 1))) == 9


def check_number_12():
    sheet = one_job(1, [(0, 0), (1, 1)], 1, (1, 2, 1))
    assert plan_sheet(sheet) == (12, 2, 0, [NONE_VALUE] * 2 + [0] * 2, [255, 255])
    # Decision 17: "buffers filled, N reported, least energy 0", though slot 1 has a
    # value. The work of one arrival can be borne, that of two cannot.
    number, queue_count, least, values, plan = plan_sheet(
        one_job(2, [(0, 0), (1, 1)], 2, (1, 2, 2)))
    assert (number, queue_count, least) == (12, 5, 0)
    assert values[:5] == [NONE_VALUE] * 5 and plan[:5] == [NONE_SPEED] * 5
    assert values[5] == 0 and plan[5] == 0


def check_decisions():
    # 6: admissible is not good.
    sheet = one_job(2, [(0, 0), (2, 4)], 2, (1, 3, 2))
    _, queue_count, _, values, plan = plan_sheet(sheet)
    queue = list(bearable_queues(2, 2)).index((0, 1))
    assert (plan[queue], values[queue]) == (2, 8)
    assert (plan[queue_count + queue], values[queue_count + queue]) == (0, 0)
    # 15: energies all zero.
    sheet = Sheet(2, ((0, 0), (1, 0), (2, 0)), 2, ((1, 1, 1), (3, 0, 2)))
    assert set(plan_sheet(sheet)[3]) == {0, NONE_VALUE}


def planned_in(sheet, value_places, plan_bytes):
    """What the planner reports with so much lent, and the places that it was lent."""
    values, plan = [7] * value_places, [9] * plan_bytes
    return plan_lent(sheet, values, plan), values, plan


def check_lent():
    _, _, _, values, plan = plan_sheet(SHEET_A)
    assert planned_in(SHEET_A, 36, 24) == ((0, 12, 0), values, plan)
    # "Places beyond are untouched", and all of them on a refusal.
    assert planned_in(SHEET_A, 38, 25) == ((0, 12, 0), values + [7] * 2, plan + [9])
    for value_places, plan_bytes in (35, 24), (36, 23), (35, 99), (99, 23), (0, 0):
        untouched = [7] * value_places, [9] * plan_bytes
        assert planned_in(SHEET_A, value_places, plan_bytes) == ((11, 0, 0), *untouched)
    assert planned_in(Sheet(), 1, 1) == ((4, 0, 0), [7], [9])
    # "12 is the exception: it fills both buffers and reports N, least energy 0".
    hopeless = one_job(1, [(0, 0), (1, 1)], 1, (1, 2, 1))
    assert planned_in(hopeless, 5, 3) == (
        (12, 2, 0), [NONE_VALUE] * 2 + [0] * 2 + [7], [NONE_SPEED] * 2 + [9])
    assert planned_in(hopeless, 3, 2)[0] == planned_in(hopeless, 4, 1)[0] == (11, 0, 0)


def check_rows():
    plan = plan_of(SHEET_A)
    for lent in plan, plan + [9]:
        assert row(SHEET_A, lent, 0) == plan[:12] and row(SHEET_A, lent, 1) == plan[12:]
        assert row(SHEET_A, lent, 2) == row(SHEET_A, lent, 4_294_967_295) == []
    # Decisions 3 and 4: T times N bytes "whatever the slot", "never the bytes".
    assert row(SHEET_A, plan[:-1], 0) == row(SHEET_A, [], 0) == row(Sheet(), plan, 0) == []
    assert row(SHEET_A, [200] * 24, 1) == [200] * 12


def check_listing():
    whole = bytes.fromhex(SHEET_A_BYTES)
    assert program(whole) == (
        b"queues 12 scale 4 least 0\n"
        b"0: 0 0 1 1 2 1 1 1 2 2 2 2\n"
        b"1: 0 0 0 1 2 1 1 1 2 2 2 2\n")
    # "W to the power T" is not W. Every list spends 6, and the products of the weights of
    # all lists add up to 25.
    sheet = Sheet(1, ((0, 3), (1, 3)), 2, ((2, 0, 1), (3, 1, 1)))
    assert program(sheet_bytes(sheet)) == b"queues 2 scale 25 least 150\n0: 0 1\n1: 0 1\n"
    # The empty queue has a plan and others have not: none "is written .. 255 in the plan".
    assert program(sheet_bytes(one_job(2, [(0, 0), (2, 4)], 2, (1, 3, 2)))) == (
        b"queues 12 scale 1 least 4\n"
        b"0: 0 2 2 255 255 2 2 255 255 2 255 255\n"
        b"1: 0 0 2 2 255 2 2 2 255 2 2 255\n")


def check_program():
    # Decision 8: the first 512 bytes are judged, "which is never an accepted sheet".
    whole = bytes.fromhex(SHEET_A_BYTES)
    for data, number in [
        (b"", 1),
        (b"\x80" * 512, 2),
        (whole.ljust(512, b"\0"), 3),
        (whole.ljust(600, b"\0"), 3),
        (sheet_bytes(one_job(1, [(0, 0), (1, 1)], 1, (1, 2, 1))), 12),
    ]:
        assert program(data) == f"refused {number}\n".encode(), number
    # 42 queues and 8,000 values: 190 rows of values fit, 191 do not, though 190 rows of the
    # plan would. 12 comes after 11, and 9 and 10 come before it.
    for size, horizon, answer in [
        (1, 189, b"queues 42 scale 1 least 189\n0: "),
        (1, 190, b"refused 11\n"),
        (255, 189, b"refused 12\n"),
        (255, 190, b"refused 11\n"),
    ]:
        sheet = one_job(4, [(0, 1), (1, 1)], horizon, (1, size, 1))
        assert program(sheet_bytes(sheet)).startswith(answer), (size, horizon)
    assert program(sheet_bytes(one_job(6, [(0, 0), (2, 1)], 58, (2, 0, 1)))) == b"refused 9\n"
    assert program(sheet_bytes(one_job(5, [(0, 0), (6, 1)], 1, (1, 0, 1)))) == b"refused 10\n"


def check_figure():
    """Document 000's first figure, as 01 and decision 18 tell it."""
    queue = add_job((0,) * 6, 2, 4)
    assert queue == (0, 0, 0, 2, 2, 2)
    for speed, size, deadline in (1, 1, 5), (0, 2, 6), (2, 2, 4):
        queue = add_job(run_slot(queue, speed), size, deadline)
    assert run_slot(queue, 1) == (0, 0, 1, 3, 3, 3)


def check_checksum():
    assert checksum([]) == 0 and checksum([7]) == 7 and checksum([1, 2]) == 1_000_005
    assert checksum([NONE_VALUE]) == NONE_VALUE % 4_294_967_291 == 24


def is_bearable(sheet, queue):
    """01's definition, by positions 1 to D."""
    return all(queue[u - 1] <= u * sheet.largest_speed() for u in range(1, sheet.bound + 1))


def step(sheet, queue, speed, size, deadline):
    """One slot and an arrival, position by position."""
    work = {u: queue[u - 1] for u in range(1, sheet.bound + 1)}
    work[sheet.bound + 1] = work[sheet.bound]
    moved = []
    for u in range(1, sheet.bound + 1):
        left = work[u + 1] - speed
        moved.append((left if left > 0 else 0) + (size if u >= deadline else 0))
    return tuple(moved)


def all_ways(sheet, length):
    """Every way over so many slots: a (speed, energy) for each list of the entries, by
    their places, that have arrived so far."""
    arrived = [entries for slot in range(length)
               for entries in product(range(len(sheet.jobs)), repeat=slot)]
    for chosen in product(sheet.speeds, repeat=len(arrived)):
        yield dict(zip(arrived, chosen))


def scaled_energy(sheet, queue, length, way):
    """The scaled energy of a way, or None when it is not a good way."""
    total = 0
    for entries in product(range(len(sheet.jobs)), repeat=length):
        now, weights, spent = queue, 1, 0
        for slot, entry in enumerate(entries):
            speed, energy = way[entries[:slot]]
            weight, size, deadline = sheet.jobs[entry]
            if speed < now[0]:
                return None
            now = step(sheet, now, speed, size, deadline)
            if not is_bearable(sheet, now):
                return None
            weights, spent = weights * weight, spent + energy
        total += weights * spent
    return total


def least_by_ways(sheet, queue, length):
    """The value by the definition, and the first speeds of the least good ways."""
    found = {}
    for way in all_ways(sheet, length):
        energy = scaled_energy(sheet, queue, length, way)
        if energy is not None:
            found.setdefault(energy, set()).add(way[()][0])
    return min(found.items(), default=(NONE_VALUE, {NONE_SPEED}))


def random_sheet(chance):
    bound, largest_speed = chance.randint(1, 2), chance.randint(1, 2)
    between = [1] if largest_speed == 2 and chance.random() < 0.6 else []
    speeds = [(speed, chance.randint(0, 4)) for speed in (0, *between, largest_speed)]
    jobs = [(chance.randint(1, 3), chance.randint(0, 3), chance.randint(1, bound))
            for _ in range(chance.randint(1, 2))]
    return Sheet(bound, tuple(speeds), chance.randint(1, 2), tuple(jobs))


def check_ways():
    chance = random.Random(1)
    sheets = [random_sheet(chance) for _ in range(300)]
    sheets.append(Sheet(2, SHEET_A.speeds, 3, SHEET_A.jobs))  # a longer one
    nones = ties = 0
    for sheet in sheets:
        assert read_sheet(sheet_bytes(sheet)) == (0, sheet)
        most = sheet.bound * sheet.largest_speed()
        queues = [queue for queue in product(range(most + 1), repeat=sheet.bound)
                  if list(queue) == sorted(queue) and is_bearable(sheet, queue)]
        number, queue_count, least, values, plan = plan_sheet(sheet)
        assert queue_count == len(queues) and values[-queue_count:] == [0] * queue_count
        assert len(values) == queue_count + len(plan) == queue_count * (sheet.horizon + 1)
        assert (number, least) == ((12, 0) if values[0] == NONE_VALUE else (0, values[0]))
        for slot in range(sheet.horizon):
            for place, queue in enumerate(queues, slot * queue_count):
                value, first_speeds = least_by_ways(sheet, queue, sheet.horizon - slot)
                assert values[place] == value, (sheet, slot, queue)
                assert plan[place] == min(first_speeds), (sheet, slot, queue)
                nones += value == NONE_VALUE
                ties += len(first_speeds) > 1
    assert nones > 100 and ties > 100  # the sheets tell the rules apart


def not_advanced(sheet, plan, state, size, deadline):
    """The number of an advance that is refused: the state comes back, and the speed is 0."""
    number, after, speed = advance(sheet, plan, state, size, deadline)
    assert number != 0 and (after, speed) == (state, 0), (number, after, speed)
    return number


def both(sheet, plan, state, size, deadline):
    """The number of start and of advance, which agree; each refused as 01 and [1] say."""
    number = not_advanced(sheet, plan, state, size, deadline)
    assert start(sheet, plan, state) == (number, State(), 0), number
    return number


def check_worked_run():
    own = plan_of(SHEET_A)
    for plan in own, own + [255, 7]:  # decision 3: "A longer plan is fine"
        number, state, speed = start(SHEET_A, plan, at((0, 2)))
        assert (number, state, speed) == (0, at((0, 2), 0, 0), 1)
        number, state, speed = advance(SHEET_A, plan, state, 2, 2)
        assert (number, state, speed) == (0, at((1, 3), 1, 1), 1)
        number, state, speed = advance(SHEET_A, plan, state, 0, 1)
        assert (number, state, speed) == (0, at((2, 2), 2, 2), 255)
        assert not_advanced(SHEET_A, plan, state, 0, 1) == 14


def check_states():
    plan = plan_of(SHEET_A)
    largest = 4_294_967_295  # decision 5: "nothing wraps"
    for totals in [(1, 0), (2, 1), (3, 3), (0, 5), (0, 2, 1), (0, 2, 2, 2, 2, 2),
                   (0, 0, 0, 0, 0, 1), (0, largest), (largest, largest)]:
        assert both(SHEET_A, plan, at(totals), 0, 1) == 13, totals
    for slot, energy in (0, 1), (1, 5), (2, 9), (3, 0), (largest, largest):
        state = at((0, 2), slot, energy)
        assert not_advanced(SHEET_A, plan, state, 0, 1) == 13, state
        # Decision 10: they "are not looked at".
        assert start(SHEET_A, plan, state) == (0, at((0, 2)), 1)
    # The energy spent before counts too.
    assert advance(SHEET_A, plan, at((1, 3), 1, 4), 0, 1) == (0, at((2, 2), 2, 5), 255)
    # Decision 9: "falls" is tested up to D, so (0, 2) and then zeros does not fall; with
    # a D of 6 every position is tested.
    assert at((0, 2)) == State((0, 2, 0, 0, 0, 0), 0, 0) and State() == at(())
    assert start(SHEET_A, plan, at((0, 2))) == (0, at((0, 2)), 1)
    wide = one_job(6, [(0, 0), (1, 1)], 1, (1, 0, 1))
    wide_plan = plan_of(wide)
    fullest = at((0, 0, 0, 0, 0, 6))
    assert start(wide, wide_plan, fullest) == (0, fullest, 1)
    for totals in (0, 0, 0, 0, 0, 7), (0, 0, 0, 0, 1):
        assert both(wide, wide_plan, at(totals), 0, 1) == 13, totals
    # Decision 10: "a run can begin from what the last one left".
    number, last, speed = advance(SHEET_A, plan, at((0, 2), 1, 4), 2, 2)
    assert (number, last, speed) == (0, at((2, 4), 2, 4), 255)
    assert start(SHEET_A, plan, last) == (0, at((2, 4)), 2)


def check_energies():
    """Decision 2: 13 uses "the plain greatest over all speeds, 0 where all are 0"."""
    sheet = one_job(2, [(0, 0), (1, 0)], 2, (1, 0, 1))
    plan = plan_of(sheet)
    assert advance(sheet, plan, State(), 0, 1) == (0, at((0, 0), 1, 0), 0)
    assert advance(sheet, plan, at((0, 0), 1, 0), 0, 1) == (0, at((0, 0), 2, 0), 255)
    assert not_advanced(sheet, plan, at((0, 0), 1, 1), 0, 1) == 13
    sheet = one_job(2, [(0, 5), (1, 1)], 2, (1, 0, 1))
    plan = plan_of(sheet)
    assert advance(sheet, plan, State(), 0, 1) == (0, at((0, 0), 1, 1), 1)
    assert advance(sheet, plan, at((0, 0), 1, 5), 0, 1) == (0, at((0, 0), 2, 6), 255)
    assert not_advanced(sheet, plan, at((0, 0), 1, 6), 0, 1) == 13
    # At a damaged byte of 0 the energy is that of speed 0.
    assert advance(sheet, [0] * len(plan), State(), 0, 1) == (0, at((0, 0), 1, 5), 0)


def check_no_plan():
    """By [1] start answers the first speed, which a queue that has no plan has not: its byte is
    255, and start is refused with 16, as advance is."""
    sheet = one_job(2, [(0, 0), (2, 4)], 2, (1, 3, 2))
    plan = plan_of(sheet)
    assert both(sheet, plan, at((2, 4)), 3, 2) == 16
    assert start(sheet, plan, at((2, 4), 7, 7)) == (16, State(), 0)
    # Number 12: from the empty queue too, though the later slot has a plan.
    sheet = one_job(2, [(0, 0), (1, 1)], 2, (1, 2, 2))
    plan = plan_of(sheet)
    assert both(sheet, plan, State(), 2, 2) == 16
    assert advance(sheet, plan, at((0, 0), 1, 0), 2, 2) == (0, at((0, 2), 2, 0), 255)
    # A damaged byte lets it start, and the slot that it leads to has no plan either.
    plan = [0] * 5 + plan[5:]
    assert start(sheet, plan, State()) == (0, State(), 0)
    assert plan[5 + 2] == NONE_SPEED and not_advanced(sheet, plan, State(), 2, 2) == 16


def check_damaged():
    """Decision 11: 16 is not "inadmissible", and that of the slot that ends is before 15."""
    state = at((0, 4))
    slow = [0] * 24
    assert start(SHEET_A, slow, state) == (0, state, 0)
    assert not_advanced(SHEET_A, slow, state, 0, 1) == 17
    assert not_advanced(SHEET_A, slow, state, 1, 1) == 15  # would be 17 too
    for size, deadline in (0, 2), (2, 1), (0, 0), (2, 3), (4_294_967_295, 4_294_967_295):
        assert not_advanced(SHEET_A, slow, state, size, deadline) == 15
    for byte in 3, 255:
        for job in (0, 1), (1, 1):
            assert both(SHEET_A, [byte] * 24, state, *job) == 16
    # A sheet speed "below w(1)", and one that is not.
    assert both(SHEET_A, [1] * 24, at((2, 2)), 0, 1) == 16
    assert start(SHEET_A, [2] * 24, at((2, 2))) == (0, at((2, 2)), 2)
    assert advance(SHEET_A, [2] * 24, at((2, 2)), 2, 2) == (0, at((0, 2), 1, 4), 2)
    # A number between two speeds is "no sheet speed".
    assert both(one_job(1, [(0, 0), (2, 1)], 1, (1, 0, 1)), [1] * 3, State(), 0, 1) == 16


def plan_with(bytes_at, other=255):
    """A plan for sheet A: these bytes by place, and at all other places this one."""
    return [bytes_at.get(place, other) for place in range(24)]


def check_places():
    """The bytes that are looked at, and no other is: of a start one of slot 0, of an advance
    that of the slot that ends and that of the slot that begins, where there is one."""
    state = at((1, 3))  # queue number 7; at speed 2 and by (0, 1) it becomes (1, 1), number 5
    for place in range(24):
        plan = plan_with({place: 2})
        assert (start(SHEET_A, plan, at((1, 3), 1)) == (0, state, 2)) == (place == 7)
        last = advance(SHEET_A, plan, at((1, 3), 1), 0, 1) == (0, at((1, 1), 2, 4), 255)
        assert last == (place == 12 + 7)
        for other in range(place):
            plan = plan_with({place: 2, other: 2})
            done = advance(SHEET_A, plan, state, 0, 1) == (0, at((1, 1), 1, 4), 2)
            assert done == ({place, other} == {7, 12 + 5})


def check_new_slot():
    """[1]: "advance answers the speed of the slot that begins", and "If the new slot's plan
    byte is wrong, the whole advance is refused and the old state comes back"."""
    energies = dict(SHEET_A.speeds)
    for ending, beginning in product((*range(10), 127, 128, 254, 255), repeat=2):
        after = advance(SHEET_A, plan_with({0: ending, 12: beginning}), State(), 0, 1)
        if ending in energies and beginning in energies:
            assert after == (0, at((0, 0), 1, energies[ending]), beginning)
        else:
            assert after == (16, State(), 0)
    # "below w(1)" is of the new queue: (1, 3), number 7. w(1) of the old one is 0.
    for beginning in range(256):
        after = advance(SHEET_A, plan_with({2: 1, 12 + 7: beginning}, 0), at((0, 2)), 2, 2)
        expected = (0, at((1, 3), 1, 1), beginning) if beginning in (1, 2) else (
            16, at((0, 2)), 0)
        assert after == expected, beginning
    # Nor is it of the old queue: the byte 0 is right for (0, 0), though (2, 2) ends.
    plan = plan_with({9: 2, 12: 0})
    assert advance(SHEET_A, plan, at((2, 2)), 0, 1) == (0, at((0, 0), 1, 4), 0)
    # The old state is the one that it got, with its slot and its energy.
    longer = Sheet(2, SHEET_A.speeds, 3, SHEET_A.jobs)
    plan = plan_of(longer)
    state = at((0, 2), 1, 3)
    assert advance(longer, plan, state, 2, 2) == (0, at((1, 3), 2, 4), 1)
    for byte in 255, 3, 0:
        damaged = [*plan[:24 + 7], byte, *plan[24 + 8:]]
        assert not_advanced(longer, damaged, state, 2, 2) == 16
        assert advance(longer, damaged, state, 0, 1) == (0, at((1, 1), 2, 4), 1)  # elsewhere


def check_last_slot():
    """[1]: "or 255 when the horizon is reached". There is no byte to be tested then, not even
    where one follows."""
    for horizon in range(1, 5):
        sheet = one_job(1, [(0, 0), (1, 1)], horizon, (1, 1, 1))  # 2 queues
        places = 2 * horizon
        for byte, past in product((0, 1), (0, 1, 2, 255)):
            for plan in [byte] * places, [byte] * places + [past] * 4:
                state = at((byte,), horizon - 1)
                assert advance(sheet, plan, state, 1, 1) == (0, at((1,), horizon, byte), 255)
        # The byte of the slot that ends is tested there as well; 0 is below w(1).
        for byte in 0, 2, 255:
            assert not_advanced(sheet, [byte] * places, at((1,), horizon - 1), 1, 1) == 16


def check_order():
    """Start: 4 to 10, 11, 13, 16. Advance: 4 to 10, 11, 13, 14, 16, 15, 17, 18, 16. Each
    refusal is before those after it."""
    plan = plan_of(SHEET_A)
    bad, end = at((2, 1), 3, 99), at((0, 2), 2, 8)
    for sheet, number in [
        (Sheet(), 4),
        (one_job(2, [(0, 0)], 2, (1, 0, 1)), 5),
        (one_job(2, [(0, 65_536), (1, 0)], 2, (1, 0, 1)), 6),
        (one_job(2, [(0, 0), (1, 0)], 0, (1, 0, 1)), 7),
        (one_job(2, [(0, 0), (1, 0)], 2, (1, 0, 3)), 8),
        (one_job(2, [(0, 0), (1, 1)], 58, (2, 0, 1)), 9),
        (one_job(5, [(0, 0), (6, 1)], 1, (1, 0, 1)), 10),
    ]:
        for lent in [], plan, [3] * 24:
            assert both(sheet, lent, bad, 0, 1) == number, number
    # Decisions 3 and 16: T times N bytes "whatever the slot, before 13 and 14".
    for short in plan[:-1], plan[:12], [], [3] * 23:
        for state in at((0, 2)), bad, end:
            assert both(SHEET_A, short, state, 0, 1) == 11
    # Decision 16: "14 and speed 0, after 11 and 13; a slot above T is 13".
    for longer in plan, plan + [3] * 24:
        assert not_advanced(SHEET_A, longer, end, 1, 1) == 14
        assert start(SHEET_A, longer, end) == (0, at((0, 2)), 1)
        for state in at((0, 2), 2, 9), at((2, 1), 2), at((0, 2, 1), 2), at((0, 2), 3), bad:
            assert not_advanced(SHEET_A, longer, state, 0, 1) == 13, state
    for state in bad, at((3, 3)), at((0, 2, 1)):
        assert both(SHEET_A, [3] * 24, state, 1, 1) == 13
    assert not_advanced(SHEET_A, [3] * 24, end, 1, 1) == 14


def check_order_of_bytes():
    """16 for the slot that ends is before 15 and 17, and 16 for the new slot is after both:
    what is wrong is put right one by one."""
    state, right = at((0, 4)), (0, at((2, 2), 1, 4), 2)  # queue number 4, then 9
    for number, ending, beginning, arrival in [
        (16, 3, 3, (1, 2)),
        (15, 0, 3, (1, 2)),
        (17, 0, 3, (0, 1)),
        (16, 2, 3, (0, 1)),
        (16, 2, 1, (0, 1)),
    ]:
        plan = [ending] * 12 + [beginning] * 12
        assert not_advanced(SHEET_A, plan, state, *arrival) == number, plan
    # Each alone, so that it is the byte that is meant which is refused.
    assert advance(SHEET_A, [2] * 24, state, 0, 1) == right
    assert not_advanced(SHEET_A, [3] * 12 + [2] * 12, state, 0, 1) == 16
    assert not_advanced(SHEET_A, [2] * 12 + [255] * 12, state, 1, 2) == 15  # (2, 3) if it were
    assert not_advanced(SHEET_A, [2] * 12 + [255] * 12, state, 0, 1) == 16
    # Where the new queue would not be bearable, (4, 6) here, it has no byte to be tested.
    assert not_advanced(SHEET_A, [0] * 12 + [255] * 12, state, 2, 2) == 17


def energy_of_lists(sheet, plan, state, speed):
    """Steps along every list of entries from this state to the horizon: the sum of the
    products of the weights times the energy spent at the end. The speed is what the call that
    gave the state answered."""
    if state.slot == sheet.horizon:
        _, size, deadline = sheet.jobs[0]
        assert not_advanced(sheet, plan, state, size, deadline) == 14
        assert speed == 255, (sheet, state)
        return state.energy
    totals, total = state.queue[: sheet.bound], 0
    for weight, size, deadline in sheet.jobs:
        number, after, answered = advance(sheet, plan, state, size, deadline)
        moved = step(sheet, totals, speed, size, deadline)
        spent = state.energy + dict(sheet.speeds)[speed]
        assert (number, after) == (0, at(moved, state.slot + 1, spent)), (sheet, state)
        total += weight * energy_of_lists(sheet, plan, after, answered)
    return total


def check_runs():
    planned = unplanned = 0
    for sheet in [
        SHEET_A,
        Sheet(1, ((0, 3), (1, 2), (4, 7)), 3, ((2, 1, 1), (3, 4, 1), (1, 0, 1))),
        Sheet(2, ((0, 0), (2, 4)), 2, ((1, 3, 2),)),
        Sheet(2, ((0, 1), (1, 0), (3, 5)), 3, ((3, 3, 2), (1, 1, 1), (2, 0, 2))),
        Sheet(3, ((0, 0), (1, 1), (2, 4)), 3, ((2, 2, 3), (1, 1, 2))),
        Sheet(3, ((0, 2), (2, 1)), 2, ((1, 4, 3), (2, 1, 1))),
        Sheet(4, ((0, 0), (1, 9)), 3, ((1, 1, 3), (5, 0, 4))),
        Sheet(6, ((0, 0), (1, 65_535)), 1, ((7, 3, 4), (1, 1, 6))),
        one_job(2, [(0, 0), (1, 1)], 2, (1, 2, 2)),  # number 12
    ]:
        _, _, _, values, plan = plan_sheet(sheet)
        queues = bearable_queues(sheet.bound, sheet.largest_speed())
        for queue, value, first in zip(queues, values, plan):
            number, state, speed = start(sheet, plan, at(queue, 201, 1))
            if value == NONE_VALUE:
                _, size, deadline = sheet.jobs[0]
                assert (number, state, speed) == (16, State(), 0)
                assert both(sheet, plan, at(queue), size, deadline) == 16
                unplanned += 1
            else:
                assert (number, state, speed) == (0, at(queue), first)
                assert energy_of_lists(sheet, plan, state, speed) == value, (sheet, queue)
                planned += 1
    assert planned > 100 and unplanned > 20, (planned, unplanned)


# Request [2]: the rule's plan, and what a plan costs.

# Sheet A's speeds, and jobs with which the rule fails and the planner does not: of two units
# due within two slots it does one, and then two more may come that are due at once.
RULE_FAILS = Sheet(2, SHEET_A.speeds, 2, ((1, 2, 2), (1, 2, 1)))
# A sheet for each of the numbers 4 to 10.
REFUSED_SHEETS = [
    (4, Sheet()),
    (5, one_job(2, [(0, 0)], 2, (1, 0, 1))),
    (6, one_job(2, [(0, 65_536), (1, 0)], 2, (1, 0, 1))),
    (7, one_job(2, [(0, 0), (1, 0)], 0, (1, 0, 1))),
    (8, one_job(2, [(0, 0), (1, 0)], 2, (1, 0, 3))),
    (9, one_job(2, [(0, 0), (1, 1)], 58, (2, 0, 1))),
    (10, one_job(5, [(0, 0), (6, 1)], 1, (1, 0, 1))),
]


def rule_of(sheet):
    """The bytes of the rule's plan, which its call writes, and no more."""
    queue_count = sum(1 for _ in bearable_queues(sheet.bound, sheet.largest_speed()))
    places = queue_count * sheet.horizon
    plan = [9] * (places + 3)
    assert rule_lent(sheet, plan) == (0, queue_count) and plan[places:] == [9] * 3
    return plan[:places]


def priced(sheet, plan, value_places):
    """What pricing reports with so many values lent, and those; the plan stays as it is."""
    values, lent = [7] * value_places, list(plan)
    answer = price_lent(sheet, values, lent)
    assert lent == list(plan)
    return answer, values


def check_rule():
    assert rule_of(SHEET_A) == [0, 1, 1, 2, 2, 1, 1, 2, 2, 2, 2, 2] * 2
    # Just room, and a byte too few: nothing is touched.
    for places, answer in (24, (0, 12)), (23, (11, 0)), (12, (11, 0)), (0, (11, 0)):
        plan = [9] * places
        assert rule_lent(SHEET_A, plan) == answer
        assert plan == (rule_of(SHEET_A) if places == 24 else [9] * places)
    for number, sheet in REFUSED_SHEETS:
        for places in 0, 24:  # 4 to 10 come before 11
            plan = [9] * places
            assert rule_lent(sheet, plan) == (number, 0) and plan == [9] * places, number
    # It gives no 12 and writes no 255, also where no queue has a plan.
    hopeless = one_job(1, [(0, 0), (1, 1)], 1, (1, 2, 1))
    assert plan_sheet(hopeless)[0] == 12 and rule_of(hopeless) == [0, 1]
    # Gaps: what is due at once takes the next sheet speed.
    gaps = one_job(1, [(0, 0), (3, 1), (4, 1), (8, 1)], 1, (1, 0, 1))
    assert rule_of(gaps) == [0, 3, 3, 3, 4, 8, 8, 8, 8]


def needed_speed(sheet, queue):
    """The rule's speed another way: what each position asks of every slot before it, rounded
    up, and the first sheet speed that is not below any."""
    need = max(-(-work // u) for u, work in enumerate(queue, 1))
    return min(speed for speed, _ in sheet.speeds if speed >= need)


def check_rule_definition():
    """"the smallest sheet speed s with u times s at least w(u) for every u", for all sets of
    speeds with each M, and every bearable queue: one does it, and no slower one does."""
    energies = 9, 0, 1, 4, 2, 65_535, 3, 8, 5  # which do not matter
    for bound, largest_speed in (1, 8), (2, 5), (3, 4), (4, 2), (5, 2), (6, 1):
        queues = list(bearable_queues(bound, largest_speed))
        for chosen in product((False, True), repeat=largest_speed - 1):
            speeds = [0, *(speed for speed, taken in enumerate(chosen, 1) if taken),
                      largest_speed]
            sheet = one_job(bound, zip(speeds, energies), 2, (1, 255, 1))
            plan = rule_of(sheet)
            assert plan[len(queues):] == plan[: len(queues)]  # both slots
            for queue, byte in zip(queues, plan):
                does = [speed for speed in speeds
                        if all(u * speed >= queue[u - 1] for u in range(1, bound + 1))]
                assert byte == min(does) == needed_speed(sheet, queue), (sheet, queue)


def check_price_of_a():
    none = NONE_VALUE
    rule, own = rule_of(SHEET_A), plan_of(SHEET_A)
    by_rule = [2, 6, 14, 26, 32, 6, 14, 26, 32, 18, 26, 32,
               0, 2, 2, 8, 8, 2, 2, 8, 8, 8, 8, 8] + [0] * 12
    assert priced(SHEET_A, rule, 36) == ((0, 12, 2), by_rule)
    assert priced(SHEET_A, own, 36) == ((0, 12, 0), plan_sheet(SHEET_A)[3])
    # Places beyond stay, and plan bytes beyond are not looked at.
    assert priced(SHEET_A, rule + [255] * 3, 39) == ((0, 12, 2), by_rule + [7] * 3)
    # "the empty queue at slot 0 costs 2 by the rule and 0 by the planner", and here the rule
    # has none. Of slot 1 the queues that bear both jobs after the rule's speed have a price.
    assert plan_sheet(RULE_FAILS)[:3] == (0, 12, 16)
    assert priced(RULE_FAILS, rule_of(RULE_FAILS), 37) == (
        (12, 12, 0),
        [none] * 12 + [0, 2, none, none, none, 2, none, none, none, 8, none, none]
        + [0] * 12 + [7])


def check_price_refused():
    """Nothing is touched, and 0 reported; 11 for either buffer, after 4 to 10."""
    rule = rule_of(SHEET_A)
    for value_places, plan in (35, rule), (36, rule[:-1]), (99, rule[:-1]), (35, rule + [0]), (
            0, rule), (36, []), (0, []), (24, [255] * 24):
        assert priced(SHEET_A, plan, value_places) == ((11, 0, 0), [7] * value_places)
    for number, sheet in REFUSED_SHEETS:
        for value_places, plan in (0, []), (36, rule):
            assert priced(sheet, plan, value_places) == ((number, 0, 0), [7] * value_places)
    # 12 fills all places of the values, as the planner's does.
    hopeless = one_job(1, [(0, 0), (1, 1)], 1, (1, 2, 1))
    for plan in [255, 255], [0, 1], [1, 1], [2, 0]:
        assert priced(hopeless, plan, 5) == ((12, 2, 0), [NONE_VALUE] * 2 + [0] * 2 + [7])
        assert priced(hopeless, plan, 3)[0] == priced(hopeless, plan[1:], 4)[0] == (11, 0, 0)


def price_by_lists(sheet, plan, slot, queue):
    """The price by the definition, along every list of the entries to come by itself. Queues
    are stepped, and found among the bearable ones, by this file's own code."""
    most = sheet.bound * sheet.largest_speed()
    queues = [queue for queue in product(range(most + 1), repeat=sheet.bound)
              if list(queue) == sorted(queue) and is_bearable(sheet, queue)]
    total = 0
    for entries in product(sheet.jobs, repeat=sheet.horizon - slot):
        now, weights, spent = queue, 1, 0
        for later, (weight, size, deadline) in enumerate(entries, slot):
            byte = plan[later * len(queues) + queues.index(now)]
            found = [energy for speed, energy in sheet.speeds if speed == byte]
            if found == [] or byte < now[0]:
                return NONE_VALUE
            now = step(sheet, now, byte, size, deadline)
            if not is_bearable(sheet, now):
                return NONE_VALUE
            weights, spent = weights * weight, spent + found[0]
        total += weights * spent
    return total


def price_by_steps(sheet, plan, state, speed):
    """The price as the stepper runs it from a state at which a slot begins with this speed;
    none where an advance is refused, which is with 16 or 17."""
    if state.slot == sheet.horizon:
        return state.energy
    total = 0
    for weight, size, deadline in sheet.jobs:
        number, after, answered = advance(sheet, plan, state, size, deadline)
        assert number in (0, 16, 17), number
        price = NONE_VALUE if number else price_by_steps(sheet, plan, after, answered)
        if price == NONE_VALUE:
            return NONE_VALUE
        total += weight * price
    return total


def damaged(chance, sheet, plan):
    """The plan with one to three bytes that are none, no sheet speed, another speed, or any."""
    plan = list(plan)
    speeds = [speed for speed, _ in sheet.speeds]
    for _ in range(chance.randint(1, 3)):
        plan[chance.randrange(len(plan))] = chance.choice(
            (255, max(speeds) + 1, speeds[0], chance.choice(speeds), chance.randrange(256)))
    return plan


def plans_to_price(chance, sheet):
    """The planner's plan and the rule's, either damaged, one of random sheet speeds, one of
    those that the rule's are not above, the largest speed alone, and 0 alone."""
    own, rule = plan_of(sheet), rule_of(sheet)
    speeds = [speed for speed, _ in sheet.speeds]
    return [own, rule, damaged(chance, sheet, own), damaged(chance, sheet, rule),
            [chance.choice(speeds) for _ in own],
            [chance.choice([speed for speed in speeds if speed >= byte]) for byte in rule],
            [max(speeds)] * len(own), [0] * len(own)]


def check_prices():
    """On small sheets every price is what the definition says, and what the stepper spends;
    none is below the planner's value, and the planner's own plan has just those."""
    chance = random.Random(2)
    sheets = [random_sheet(chance) for _ in range(120)]
    sheets += [SHEET_A, RULE_FAILS, Sheet(2, SHEET_A.speeds, 3, SHEET_A.jobs),
               Sheet(3, ((0, 2), (2, 1)), 2, ((1, 4, 3), (2, 1, 1))),
               Sheet(1, ((0, 3), (1, 2), (4, 7)), 3, ((2, 1, 1), (3, 4, 1), (3, 4, 1)))]
    dearer = nones = equal = 0
    for sheet in sheets:
        queues = list(bearable_queues(sheet.bound, sheet.largest_speed()))
        values = plan_sheet(sheet)[3]
        for kind, plan in enumerate(plans_to_price(chance, sheet)):
            prices = price_plan(sheet, plan)
            assert len(prices) == len(values) and prices[len(plan):] == [0] * len(queues)
            assert all(price >= value for price, value in zip(prices, values))
            assert kind != 0 or prices == values
            assert priced(sheet, plan, len(values)) == (
                (12, len(queues), 0) if prices[0] == NONE_VALUE
                else (0, len(queues), prices[0]), prices)
            for slot in range(sheet.horizon):
                for place, queue in enumerate(queues, slot * len(queues)):
                    found = price_by_lists(sheet, plan, slot, queue)
                    assert prices[place] == found, (sheet, plan, slot, queue)
                    nones += values[place] < found == NONE_VALUE
                    dearer += values[place] < found < NONE_VALUE
                    equal += values[place] == found < NONE_VALUE
            for queue, price in zip(queues, prices):
                number, state, speed = start(sheet, plan, at(queue))
                assert number in (0, 16)
                found = NONE_VALUE if number else price_by_steps(sheet, plan, state, speed)
                assert price == found, (sheet, plan, queue)
    # The sheets tell the rules apart.
    assert min(nones, dearer, equal) > 500, (nones, dearer, equal)


def check_wrong_bytes():
    """Each byte of the rule's plan for sheet A becomes each of these: its own price and those
    from which the way leads there are as the definition says, and all the others stay."""
    rule = rule_of(SHEET_A)
    queues = list(bearable_queues(2, 2))
    before = price_plan(SHEET_A, rule)
    for place in range(24):
        slot, number = divmod(place, 12)
        for byte in (*range(6), 127, 128, 254, 255):
            plan = [*rule[:place], byte, *rule[place + 1:]]
            prices = price_plan(SHEET_A, plan)
            for other in range(24):
                at_slot, at_number = divmod(other, 12)
                if other == place or at_slot < slot:
                    assert prices[other] == price_by_lists(
                        SHEET_A, plan, at_slot, queues[at_number]), (place, byte, other)
                else:
                    assert prices[other] == before[other], (place, byte, other)
            if byte > 2 or byte < queues[number][0]:
                assert prices[place] == NONE_VALUE
    # Inadmissible and not below w(1): at 0 or 1 queue (0, 4), number 4, becomes (3, 3) or more,
    # which is not bearable; after the last slot as well.
    for place, byte in product((4, 12 + 4), (0, 1)):
        plan = [*rule[:place], byte, *rule[place + 1:]]
        assert price_plan(SHEET_A, plan)[place] == NONE_VALUE
    # At 0 queue (0, 1) becomes (1, 1) or (1, 3): no less admissible than the rule's speed 1.
    assert price_plan(SHEET_A, [0, 0, *rule[2:]])[:2] == [2, 10]
    # Nothing leads from the empty queue to (2, 4), number 11; the second entry leads to (0, 2),
    # number 2, in the last slot.
    for byte in 255, 3, 1, 0:
        plan = [*rule[:23], byte]
        answer, prices = priced(SHEET_A, plan, 36)
        assert answer == (0, 12, 2) and prices[23] == NONE_VALUE, byte
        plan = [*rule[:12 + 2], byte, *rule[12 + 3:]]
        answer, prices = priced(SHEET_A, plan, 36)
        expected = {255: (12, 12, 0), 3: (12, 12, 0), 1: (0, 12, 2), 0: (0, 12, 0)}
        assert answer == expected[byte], byte


def forward_price(sheet, plan, queue):
    """The price from slot 0 of a plan that has one, slot by slot forwards: the products of the
    weights that lead to each queue, times its speed's energy, times those that follow."""
    numbers = {queue: place for place, queue in enumerate(
        bearable_queues(sheet.bound, sheet.largest_speed()))}
    total, weights = 0, {queue: 1}
    for slot in range(sheet.horizon):
        later = {}
        for now, product_so_far in weights.items():
            byte = plan[slot * len(numbers) + numbers[now]]
            follow = sheet.weight_sum() ** (sheet.horizon - slot)
            total += product_so_far * dict(sheet.speeds)[byte] * follow
            for weight, size, deadline in sheet.jobs:
                reached = step(sheet, now, byte, size, deadline)
                later[reached] = later.get(reached, 0) + product_so_far * weight
        weights = later
    return total


def check_long_prices():
    """Longer horizons, larger weights and energies, up to the limit of number 9."""
    sheets = [
        Sheet(2, SHEET_A.speeds, 30, SHEET_A.jobs),
        Sheet(3, ((0, 1), (1, 3), (2, 9), (3, 24)), 24, ((2, 0, 1), (1, 2, 2), (1, 3, 3))),
        Sheet(4, ((0, 5), (1, 20), (3, 140)), 7, ((90, 0, 1), (7, 2, 3), (3, 3, 4))),
        Sheet(2, ((0, 65_535), (4, 0), (8, 65_535)), 11, ((5, 4, 2), (5, 8, 2), (5, 4, 2))),
        one_job(1, [(0, 0), (1, 65_535)], 200, (1, 1, 1)),
        one_job(1, [(0, 0), (1, 2_047)], 16, (8, 0, 1)),
    ]
    for sheet in sheets:
        queues = list(bearable_queues(sheet.bound, sheet.largest_speed()))
        own, rule = plan_of(sheet), rule_of(sheet)
        values, by_rule = price_plan(sheet, own), price_plan(sheet, rule)
        assert values == plan_sheet(sheet)[3]
        assert all(price >= value for price, value in zip(by_rule, values))
        for place in range(0, len(queues), 1 + len(queues) // 12):
            for plan, prices in (own, values), (rule, by_rule):
                if prices[place] != NONE_VALUE:
                    assert prices[place] == forward_price(sheet, plan, queues[place])
    # The dearest there is: 2^63 less 2^52.
    assert price_plan(sheets[-1], [1] * 32)[0] == 16 * 2_047 * 8**16 == 2**63 - 2**52


def check_price_program():
    rows = b"0: 0 1 1 2 2 1 1 2 2 2 2 2\n1: 0 1 1 2 2 1 1 2 2 2 2 2\n"
    whole = bytes.fromhex(SHEET_A_BYTES)
    assert price_program(whole) == b"queues 12 scale 4 least 0 rule 2\n" + rows
    assert price_program(sheet_bytes(RULE_FAILS)) == (
        b"queues 12 scale 4 least 16 rule none\n" + rows)
    sheet = Sheet(1, ((0, 3), (1, 3)), 2, ((2, 0, 1), (3, 1, 1)))
    assert price_program(sheet_bytes(sheet)) == (
        b"queues 2 scale 25 least 150 rule 150\n0: 0 1\n1: 0 1\n")
    # Refused as the planning program is, with 12 too, though the rule's plan can be written.
    for data in [b"", b"\x80" * 512, whole.ljust(600, b"\0"),
                 sheet_bytes(one_job(1, [(0, 0), (1, 1)], 1, (1, 2, 1))),
                 *(sheet_bytes(sheet) for _, sheet in REFUSED_SHEETS),
                 *(sheet_bytes(one_job(4, [(0, 1), (1, 1)], 190, (1, size, 1)))
                   for size in (1, 255))]:
        assert program(data) == price_program(data) and program(data).startswith(b"refused ")
    sheet = one_job(4, [(0, 1), (1, 1)], 189, (1, 1, 1))  # as long as there is room
    assert price_program(sheet_bytes(sheet)).startswith(
        b"queues 42 scale 1 least 189 rule 189\n0: 0 1 1 1 1 ")


if __name__ == "__main__":
    check_numbers()
    check_reading()
    check_memory()
    check_sheet_a()
    check_counts()
    check_horizon()
    check_number_12()
    check_decisions()
    check_lent()
    check_rows()
    check_listing()
    check_program()
    check_figure()
    check_checksum()
    check_ways()
    check_worked_run()
    check_states()
    check_energies()
    check_no_plan()
    check_damaged()
    check_places()
    check_new_slot()
    check_last_slot()
    check_order()
    check_order_of_bytes()
    check_runs()
    check_rule()
    check_rule_definition()
    check_price_of_a()
    check_price_refused()
    check_prices()
    check_wrong_bytes()
    check_long_prices()
    check_price_program()
    print("ok")
