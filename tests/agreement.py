"""Compares a planning program with `program` of independent.py, or a program `price` with
`price_program`, input by input.

    python3 tests/agreement.py plan COMMAND...
    python3 tests/agreement.py price COMMAND...

runs COMMAND, with its words, once for each input and one after the other. It must write to
standard output, byte for byte, what independent.py works out from the text of document 01 or,
where it is `price`, of request [2] of document 02 as well, and end with status 0. Sheet A is
also handed over in two pieces. The inputs, which are the same for both programs:
    named      sheet A, a sheet on which the rule of [2] fails, no bytes, more bytes than a
               sheet can have, the longest sheets, two at number 9's limit, and every line
               `bytes` of the cases (crates/calls/stdin)
    examples   every file of the folder `examples` beside `tests`, but for those ending in .md
    accepted   150 random sheets that the program's lent memory has room for: speeds with
               gaps, energies in any order and often equal, T from 1 to the longest there is
    damaged    150 more, each damaged in one of the ways of `DAMAGES`
The random ones are the same in every run. Prints one line, `I inputs agree: L listings,
refused 1: R, ..` with how many outputs there were of each kind; the listings of `price` are of
three kinds, by what the rule costs: `rule dearer`, above the least energy, `rule equal` to it,
and `rule none`. Otherwise it exits with 1: after all inputs when some differ, with the first
five of them; before any when the random ones no longer meet what makes the comparison worth
something (`refuse_narrow`).
"""

import random
import subprocess
import sys
import time
from collections import Counter
from dataclasses import replace
from pathlib import Path

sys.dont_write_bytecode = True  # no folder of compiled files beside the tests
from independent import (
    PROGRAM_SHEET_BYTES, PROGRAM_VALUES, SHEET_A, Sheet, count_queues, memory_fields,
    number_bytes, price_program, program, refuse_sheet, sheet_bytes,
)

SEED, RANDOM_INPUTS = 1, 300
# What the program that is compared must write for an input, and how many outputs of each kind
# the random inputs must have; of each refusal, 1 to 12, it is LEAST_OF_NUMBER.
PROGRAMS = {"plan": program, "price": price_program}
LEAST_OF_KIND = {"plan": {"listings": 100},
                 "price": {"rule dearer": 30, "rule equal": 30, "rule none": 10}}
LEAST_OF_NUMBER = 2
MOST_SHOWN = 5
SECONDS = 120

# By D, the largest M with which three rows of N values are within the 8,000 lent.
LARGEST_SPEEDS = {1: 8, 2: 8, 3: 8, 4: 4, 5: 2, 6: 1}


def some_speeds(chance, largest_speed):
    """Speeds with gaps. Where the energy grows evenly with the speed, or is 0, work costs the
    same now and later; where it is one of a few numbers, different speeds cost the same.
    Either way equal costs are frequent."""
    step = chance.randint(1, 9)
    energy_of = chance.choice([
        lambda speed: 0,
        lambda speed: speed * step,
        lambda speed: speed * speed,
        lambda speed: chance.randint(0, 2),
        lambda speed: chance.randint(0, 65_535),
    ])
    between = [speed for speed in range(1, largest_speed) if chance.random() < 0.6]
    return tuple((speed, energy_of(speed)) for speed in (0, *between, largest_speed))


def some_jobs(chance, bound, largest_speed):
    """Jobs that the largest speed always finishes within a slot, sometimes just so: then what
    is put off may be too much later, and the rule of [2] often has no price. Or, half the time,
    jobs each of which is bearable alone: together they are sometimes too much, and the number
    is 12."""
    single, full = chance.choice(((False, False), (False, True), (True, False), (True, False)))
    heaviest = chance.choice((1, 1, 3, 255))
    jobs = []
    for _ in range(chance.choice((1, 1, 2, 3, 5, 32))):
        deadline = chance.randint(1, bound)
        most = largest_speed * (deadline if single else 1)
        least = most - 1 if full else 0
        jobs.append((chance.randint(1, heaviest), chance.randint(least, most), deadline))
    return tuple(jobs)


def longest_horizon(sheet):
    """The largest T that neither 9 nor 11 refuses."""
    horizon = min(200, PROGRAM_VALUES // count_queues(sheet) - 1)
    while refuse_sheet(replace(sheet, horizon=horizon)) == 9:
        horizon -= 1
    return horizon


def accepted_sheet(chance):
    """A random sheet that the program accepts and has room for."""
    bound = chance.randint(1, 6)
    largest_speed = chance.randint(1, LARGEST_SPEEDS[bound])
    sheet = Sheet(bound, some_speeds(chance, largest_speed), 1,
                  some_jobs(chance, bound, largest_speed))
    longest = longest_horizon(sheet)
    horizon = chance.choice((min(2, longest), chance.randint(1, longest), longest))
    return replace(sheet, horizon=horizon)


def with_number(chance, entries, part, number):
    """The entries, with another number for this part of one of them."""
    changed = [list(entry) for entry in entries]
    chance.choice(changed)[part] = number
    return tuple(tuple(entry) for entry in changed)


def change_byte(chance, sheet):
    data = bytearray(sheet_bytes(sheet))
    data[chance.randrange(len(data))] = chance.randrange(256)
    return bytes(data)


def cut_short(chance, sheet):
    data = sheet_bytes(sheet)
    return data[: chance.randrange(len(data))]


def add_bytes(chance, sheet):
    """Bytes after a sheet that would often be refused with 9 as well; 3 comes first."""
    sheet = replace(sheet, horizon=chance.choice((sheet.horizon, 200)))
    return sheet_bytes(sheet) + chance.randbytes(chance.choice((1, 2, PROGRAM_SHEET_BYTES)))


def lengthen_number(chance, sheet):
    """A number whose last byte is 0 though it is not the single one, or that has more than
    three bytes."""
    numbers = [number_bytes(number) for number in memory_fields(sheet)]
    place = chance.randrange(len(numbers))
    *lower, last = numbers[place]
    more = chance.choice(((0,), (128, 0), (128, 128, 1)))
    numbers[place] = bytes((*lower, 128 + last, *more))
    return b"".join(numbers)


def spoil_bound(chance, sheet):
    return sheet_bytes(replace(sheet, bound=chance.choice((0, 7, 200))))


def spoil_speeds(chance, sheet):
    speeds = sheet.speeds
    return sheet_bytes(replace(sheet, speeds=chance.choice([
        speeds[:1],
        (speeds * 5)[:10],
        speeds[1:] + speeds[-1:],  # the first is not 0
        speeds[:1] + speeds,
        (*speeds[:-1], (9, 0)),
    ])))


def spoil_energy(chance, sheet):
    energy = chance.choice((65_536, 70_000, 2**21 - 1))
    return sheet_bytes(replace(sheet, speeds=with_number(chance, sheet.speeds, 1, energy)))


def spoil_horizon(chance, sheet):
    return sheet_bytes(replace(sheet, horizon=chance.choice((0, 201, 65_536))))


def spoil_jobs(chance, sheet):
    jobs = sheet.jobs
    return sheet_bytes(replace(sheet, jobs=chance.choice([
        (),
        (jobs * 33)[:33],
        with_number(chance, jobs, 0, 0),
        with_number(chance, jobs, 0, 256),
        with_number(chance, jobs, 1, 256),
        with_number(chance, jobs, 2, 0),
        with_number(chance, jobs, 2, sheet.bound + 1),
    ])))


def raise_horizon(chance, sheet):
    """The least T that 9 refuses; there is one when W is not 1."""
    sheet = replace(sheet, horizon=1, jobs=with_number(chance, sheet.jobs, 0, 2))
    while refuse_sheet(sheet) == 0:
        sheet = replace(sheet, horizon=sheet.horizon + 1)
    return sheet_bytes(sheet)


def raise_weights(chance, sheet):
    """The longest T, and weights that are often too much for it."""
    jobs = tuple((chance.randint(weight, 255), size, deadline)
                 for weight, size, deadline in sheet.jobs)
    return sheet_bytes(replace(sheet, horizon=longest_horizon(sheet), jobs=jobs))


def raise_queues(chance, sheet):
    """A D and an M with more than 65,535 queues; the longer T is often refused with 9 first."""
    bound, least = chance.choice(((5, 6), (6, 4)))
    jobs = tuple((weight, size, min(deadline, bound)) for weight, size, deadline in sheet.jobs)
    speeds = (sheet.speeds[0], (chance.randint(least, 8), sheet.speeds[-1][1]))
    return sheet_bytes(Sheet(bound, speeds, chance.choice((1, 200)), jobs))


def raise_values(chance, sheet):
    """A T that needs one row of values more than there is room for, while there would be room
    for T rows, as many as the plan has."""
    speeds = (sheet.speeds[0], (chance.randint(2, 4), sheet.speeds[-1][1]))
    jobs = ((1, chance.choice((0, 1, 255)), 1),)
    sheet = Sheet(chance.randint(3, 4), speeds, 1, jobs)
    return sheet_bytes(replace(sheet, horizon=PROGRAM_VALUES // count_queues(sheet)))


DAMAGES = [
    change_byte, cut_short, add_bytes, lengthen_number,
    change_byte, spoil_bound, spoil_speeds, spoil_energy, spoil_horizon, spoil_jobs,
    change_byte, raise_horizon, raise_weights, raise_queues, raise_values,
]


def random_inputs():
    """Accepted and damaged sheets by turns."""
    chance = random.Random(SEED)
    inputs = []
    for place in range(RANDOM_INPUTS // 2):
        inputs.append(sheet_bytes(accepted_sheet(chance)))
        damage = DAMAGES[place % len(DAMAGES)]
        inputs.append(damage(chance, accepted_sheet(chance)))
    return inputs


def longest_sheet(horizon):
    """Nine speeds and 32 jobs, every number but T in as many bytes as it may have."""
    speeds = tuple((speed, 65_535) for speed in range(9))
    return Sheet(3, speeds, horizon, ((255, 255, 3),) * 32)


def eighth_powers(energy):
    """One of the few sheets at the limit of number 9."""
    return Sheet(1, ((0, 0), (1, energy)), 16, ((8, 0, 1),))


def case_inputs():
    """The bytes of every line `bytes` of the script that is the cases of document 01."""
    script = Path(__file__).resolve().parent.parent / "crates" / "calls" / "stdin"
    lines = [line.split(" ", 1) for line in script.read_text().splitlines()]
    inputs = [bytes.fromhex("".join(words[1:])) for words in lines if words[0] == "bytes"]
    if not inputs:
        sys.exit(f"there is no line `bytes` in {script}; its inputs belong to these")
    return inputs


def named_inputs():
    whole = sheet_bytes(SHEET_A)
    return [
        whole,
        sheet_bytes(replace(SHEET_A, jobs=((1, 2, 2), (1, 2, 1)))),  # the rule fails
        b"",
        b"\x80" * PROGRAM_SHEET_BYTES,
        b"\x80" * 1_000_000,
        whole.ljust(600, b"\0"),
        sheet_bytes(longest_sheet(3)),  # 200 bytes, the longest that 9 lets pass
        sheet_bytes(longest_sheet(200)),  # 201 bytes, the longest that 4 to 8 let pass
        sheet_bytes(eighth_powers(2_047)),  # below 2^63, by one part in 2,048
        sheet_bytes(eighth_powers(2_048)),  # 16 times 2,048 times 8 to the power 16 is 2^63
        *case_inputs(),
    ]


def sheet_files():
    """The bytes of the files in the folder `examples`, in the order of their names."""
    folder = Path(__file__).resolve().parent.parent / "examples"
    if not folder.is_dir():
        sys.exit("there is no folder `examples` beside `tests`; its sheets belong to the inputs")
    files = [path for path in sorted(folder.iterdir()) if not path.name.endswith(".md")]
    if not files:
        sys.exit("there is no sheet in the folder `examples` beside `tests`")
    return [path.read_bytes() for path in files]


def kind_of(output):
    """A refusal with its number, a listing or, of `price`, what the rule costs beside the least
    energy."""
    header = output.decode().split("\n")[0]
    if header.startswith("refused "):
        return header
    _, _, costs = header.partition(" least ")
    least, _, rule = costs.partition(" rule ")
    if not rule:
        return "listings"
    if rule == "none":
        return "rule none"
    return "rule equal" if rule == least else "rule dearer"


def kinds(outputs):
    """How many of the outputs there are of each kind."""
    return Counter(kind_of(output) for output in outputs)


def refuse_narrow(name, outputs):
    """The random inputs must have all kinds of outputs, and listings above all."""
    found = kinds(outputs)
    needed = {**LEAST_OF_KIND[name],
              **{f"refused {number}": LEAST_OF_NUMBER for number in range(1, 13)}}
    for kind, least in needed.items():
        if found[kind] < least:
            sys.exit(f"the random inputs have {found[kind]} of `{kind}`, {least} are needed")


def answer(command, data):
    """What the command writes for this input, and how it ends."""
    try:
        done = subprocess.run(command, input=data, stdout=subprocess.PIPE, timeout=SECONDS)
    except subprocess.TimeoutExpired:
        return b"", f"not within {SECONDS} seconds"
    return done.stdout, f"status {done.returncode}"


def answer_to_pieces(command, first, second):
    """The same where the input comes in two pieces: short reads "are repeated until the
    buffer is full or the input ends" (decision 8)."""
    with subprocess.Popen(command, stdin=subprocess.PIPE, stdout=subprocess.PIPE) as running:
        running.stdin.write(first)
        running.stdin.flush()
        time.sleep(1)  # so that the first read ends before the second piece comes
        given, _ = running.communicate(second, timeout=SECONDS)
        return given, f"status {running.returncode}"


def show(data, expected, given, end):
    print(f"input {data.hex(' ')}")
    print(f"expected, status 0:\n{expected.decode()}")
    print(f"given, {end}:\n{given.decode(errors='backslashreplace')}")


def summary(name, outputs):
    found = kinds(outputs)
    listings = [f"{found[kind]} {kind}" for kind in LEAST_OF_KIND[name]]
    refused = [f"refused {number}: {found[f'refused {number}']}"
               for number in range(1, 13) if f"refused {number}" in found]
    return ", ".join([*listings, *refused])


def main(words):
    name, *command = words or [""]
    if name not in PROGRAMS or not command:
        sys.exit("no program or no command is named:"
                 " python3 tests/agreement.py plan|price COMMAND...")
    expected_of = PROGRAMS[name]
    inputs = named_inputs() + sheet_files() + random_inputs()
    outputs = [expected_of(data) for data in inputs]
    refuse_narrow(name, outputs[-RANDOM_INPUTS:])
    differences = 0
    for data, expected in zip(inputs, outputs):
        given, end = answer(command, data)
        if (given, end) != (expected, "status 0"):
            differences += 1
            if differences <= MOST_SHOWN:
                show(data, expected, given, end)
    whole = sheet_bytes(SHEET_A)
    given, end = answer_to_pieces(command, whole[:5], whole[5:])
    if (given, end) != (expected_of(whole), "status 0"):
        differences += 1
        show(whole, expected_of(whole), given, f"in two pieces, {end}")
    if differences:
        sys.exit(f"{differences} of {len(inputs) + 1} outputs differ")
    print(f"{len(inputs)} inputs agree: {summary(name, outputs)}")


if __name__ == "__main__":
    main(sys.argv[1:])
