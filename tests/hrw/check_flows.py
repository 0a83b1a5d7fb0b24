#!/usr/bin/env python3
"""Checks elections by multicast flow: check_flows.py DRIVER SIDE

A second, independent computation of document 02, M-106, as check.py is one of document 01's
algorithm 1, whose weights it takes. DRIVER is benchmarks/src/bin/flow_driver.rs, which makes calls
that it reads as lines; SIDE is what it makes them on. All calls are fed to one run of it, and every
line that it answers is compared with the one computed here: the numbers that the operator sets, the
agreement with them, plain queries, flow queries of both kinds with their refusals, and whole
answers. Routes carry 0, 1 or 4 to 31. The exit status is 1 on a difference.
"""

import random
import subprocess
import sys
import zlib
from collections import Counter

sys.dont_write_bytecode = True  # check.py is no package: nothing is left beside it

from check import (
    community_of,
    heaviest,
    octets_of,
    own_values_hold,
    route_of,
    some_addresses,
    some_esi,
    some_tag,
)

RUNS = 1000
QUERIES_PER_RUN = 24
TIME_LIMIT_SECONDS = 30
MOST_READY = 64
RESERVED_TAGS = (0, 2**32 - 1)
# So many kinds of answer there are, and each must come up so often in all runs together.
KINDS = 19
LEAST = 200


def flow_digest(flow, tag, esi):
    """The CRC-32 of the flow's octets, the tag and the identifier, with its top bit dropped."""
    return zlib.crc32(flow + tag.to_bytes(4, "big") + esi) % 2**31


def may_be_set(numbers):
    return numbers[0] != numbers[1] and all(4 <= number <= 30 for number in numbers)


def is_flow(octets):
    """Whether the octets of a flow, G or S and G, have lengths that may be."""
    return len(set(map(len, octets))) < 2 and all(len(part) in (4, 16) for part in octets)


class Segment:
    """What the calls have made: the identifier, what each router carries, the numbers set."""

    def __init__(self, esi):
        self.esi = esi
        self.routes = {}
        self.numbers = None

    def agreement(self):
        """The algorithm and the AC-DF bit that all routes agree on; else 0 without AC-DF."""
        carried = set(self.routes.values())
        if len(carried) == 1:
            algorithm, ac_df = carried.pop()
            if algorithm < 4 or self.numbers and algorithm in self.numbers:
                return algorithm, ac_df
        return 0, False

    def elect(self, octets, tag, ready):
        """The answer to a query for a flow of these octets, one part or two; none for a plain one.
        Also what kind of answer it is."""
        if tag in RESERVED_TAGS:
            return refused(10), "10"
        if len(ready) > MOST_READY:
            return refused(11), "11"
        if not is_flow(octets):
            return refused(18), "18"
        algorithm, ac_df = self.agreement()
        routers = sorted(self.routes)
        eligible = [router for router in routers if not ac_df or router in ready]
        if not eligible:
            return refused(12), "12"
        parts = len(octets)
        if algorithm == 0:
            elected, kind = eligible[tag % len(eligible)], f"by modulus, {parts} parts"
        elif algorithm == self.number_for(parts):
            elected = heaviest(eligible, flow_digest(b"".join(octets), tag, self.esi))
            kind = f"by flow, {parts} parts of {len(octets[0])}"
        else:
            kind = f"under 1, carried {'1' if algorithm == 1 else 'a number'}, {parts} parts"
            elected, algorithm = heaviest(eligible, flow_digest(b"", tag, self.esi)), 1
        places = sum(1 << place for place, router in enumerate(routers) if router in eligible)
        return answer(0, elected, algorithm, len(eligible), places), kind

    def number_for(self, parts):
        """The number set for flows of so many parts, if there is one."""
        if parts == 0 or self.numbers is None:
            return None
        return self.numbers[0] if parts == 2 else self.numbers[1]


def answer(number, address, algorithm, count, places):
    """The line that the driver answers to a query."""
    family, octets = (address[0], octets_of(address)) if address else (0, b"")
    return f"{number} {family} {octets.ljust(16, bytes(1)).hex()} {algorithm} {count} {places:016x}"


def refused(number):
    return answer(number, None, 0, 0, 0)


def written(octets):
    return octets.hex() or "-"


def some_octets(source, length):
    """An address of a flow: any octets, or those of a multicast group that looks like another."""
    if length > 3 and source.random() < 0.3:
        return bytes([232]) + bytes(length - 2) + bytes([source.randrange(4)])
    return source.randbytes(length)


def some_flow(source):
    """The parts of a flow: none for a plain query, G, or S and G. One in ten has other lengths."""
    parts = source.choice([0, 1, 1, 2, 2])
    length = source.choice([4, 16])
    lengths = [length] * parts
    if source.random() < 0.1:
        lengths = [source.choice([0, 3, 4, 5, 8, 15, 16, 17, 20]) for _ in range(parts)]
    return [some_octets(source, length) for length in lengths]


def some_ready(source, routers):
    """Some of the routers and a stranger; now and then more than a list may have."""
    ready = [router for router in routers if source.random() < 0.5] + [(4, source.getrandbits(32))]
    if source.random() < 0.1:
        ready = [source.choice(ready) for _ in range(source.choice([64, 65, 70]))]
    source.shuffle(ready)
    return ready


def some_numbers(source):
    """Two numbers, most times such that may be set."""
    if source.random() < 0.6:
        return tuple(source.sample(range(4, 31), 2))
    return source.choice([(7, 7), (3, 9), (9, 3), (31, 4), (4, 31), (0, 0), (255, 30), (30, 255)])


class Run:
    """The lines of a run, those that must be answered, and how often each kind of answer came."""

    def __init__(self, source, kinds):
        self.source = source
        self.kinds = kinds
        self.calls = []
        self.answers = []
        self.segment = Segment(some_esi(source))
        self.say(f"fresh {self.segment.esi.hex()}", 0)

    def say(self, call, expected):
        self.calls.append(call)
        self.answers.append(str(expected))

    def set_numbers(self, numbers):
        accepted = may_be_set(numbers)
        if accepted:
            self.segment.numbers = numbers
        self.kinds["set" if accepted else "15"] += 1
        self.say(f"numbers {numbers[0]} {numbers[1]}", 0 if accepted else 15)

    def announce(self, address, algorithm, ac_df):
        self.segment.routes[address] = (algorithm, ac_df)
        route = route_of(self.segment.esi, address)
        self.say(f"announce {route.hex()} {community_of(algorithm, ac_df).hex()}", 0)

    def withdraw(self, address):
        del self.segment.routes[address]
        self.say(f"withdraw {octets_of(address).hex()}", 0)

    def query(self):
        octets = some_flow(self.source)
        tag = some_tag(self.source)
        if self.source.random() < 0.05:
            tag = self.source.choice(RESERVED_TAGS)
        ready = some_ready(self.source, list(self.segment.routes))
        expected, kind = self.segment.elect(octets, tag, ready)
        words = [("plain", "g", "sg")[len(octets)], *map(written, octets), str(tag)]
        self.say(" ".join(words + [octets_of(address).hex() for address in ready]), expected)
        self.kinds[kind] += 1

    def play(self):
        """Numbers before the routes or after them, then queries, with changes in between."""
        source = self.source
        numbers = tuple(source.sample(range(4, 31), 2))
        algorithm = source.choice([*numbers, *numbers, *numbers, 0, 1, source.randrange(4, 32)])
        ac_df = source.random() < 0.4
        is_first = source.random() < 0.5
        if is_first:
            self.set_numbers(numbers)
        for address in some_addresses(source):
            self.announce(address, algorithm, ac_df)
        self.query()
        if not is_first:
            self.set_numbers(numbers)
        for _ in range(QUERIES_PER_RUN - 1):
            self.query()
            self.change(numbers, algorithm, ac_df)

    def change(self, numbers, algorithm, ac_df):
        """Now and then other numbers, a route that carries something else or as before, or none."""
        source = self.source
        chance = source.random()
        if chance < 0.05:
            self.set_numbers(some_numbers(source))
        elif chance < 0.15:
            self.set_numbers(numbers)
        elif chance < 0.18:
            routes = self.segment.routes
            address = source.choice(list(routes))
            self.announce(address, source.choice([*numbers, 1]), source.random() < 0.5)
            self.query()
            self.announce(address, algorithm, ac_df)
        elif chance < 0.21 and len(self.segment.routes) > 1:
            self.withdraw(source.choice(list(self.segment.routes)))


def output_of(driver, side, lines):
    try:
        done = subprocess.run(
            [driver, side], input=lines.encode(), stdout=subprocess.PIPE, timeout=TIME_LIMIT_SECONDS
        )
    except (OSError, subprocess.SubprocessError) as error:
        return [str(error)]
    return done.stdout.decode("latin-1").splitlines()


def own_flow_values_hold():
    """A text whose CRC-32 is published, cut into G, tag and identifier."""
    fox = b"The quick brown fox jumps over the lazy dog"
    return flow_digest(fox[:29], int.from_bytes(fox[29:33], "big"), fox[33:]) == 0x414FA339


def main():
    if len(sys.argv) != 3:
        print("usage: check_flows.py DRIVER SIDE", file=sys.stderr)
        return 1
    if not own_values_hold() or not own_flow_values_hold():
        print("flows: the check's own values do not hold", file=sys.stderr)
        return 1
    kinds = Counter()
    calls, answers = [], []
    for seed in range(RUNS):
        run = Run(random.Random(seed), kinds)
        run.play()
        calls += run.calls
        answers += run.answers
    got = output_of(sys.argv[1], sys.argv[2], "".join(call + "\n" for call in calls))
    for at, (call, expected) in enumerate(zip(calls, answers)):
        line = got[at] if at < len(got) else "nothing"
        if line != expected:
            print(f"flows: DIFFERENCE at call {at}: {call}\nexpected: {expected}\ngot: {line}")
            return 1
    if len(got) != len(answers) or len(kinds) != KINDS or min(kinds.values()) < LEAST:
        print(f"flows: {len(got)} answers to {len(answers)} calls, {dict(kinds)}")
        return 1
    flows = sum(count for kind, count in kinds.items() if kind.startswith("by flow"))
    print(f"flows: {len(calls)} calls of {sys.argv[2]}, {flows} elections by flow, 0 differences")
    return 0


if __name__ == "__main__":
    sys.exit(main())
