#!/usr/bin/env python3
"""Checks HRW elections of a bench program: check.py PROGRAM

A second, independent computation of document 01's algorithm 1, with addresses of both families
(document 02, M-105). It makes runs in which all routes carry algorithm 1, computes each elected
address and N itself (the CRC-32 is that of zlib, the weights are whole numbers of any length), and
compares the program's whole output. The exit status is 1 on a difference.

An address is a pair of its family, 4 or 6, and its number; pairs stand in the order of the house
rule, every IPv4 address before every IPv6 one.
"""

import random
import subprocess
import sys
import zlib

RUNS = 800
QUERIES_PER_RUN = 12
MULTIPLIER = 1103515245
INCREMENT = 12345
TIME_LIMIT_SECONDS = 30
# By family: the octets of an address, the kind of a query, and the most addresses that one lists.
LENGTH = {4: 4, 6: 16}
QUERY_KIND = {4: 3, 6: 5}
MOST_READY = {4: 62, 6: 15}


def digest(tag, esi):
    """The CRC-32 of tag and identifier with its top bit dropped."""
    return zlib.crc32(tag.to_bytes(4, "big") + esi) % 2**31


def weight(number, digest_value):
    """The formula over the whole number of an address, of 32 or of 128 bits."""
    inner = (MULTIPLIER * number + INCREMENT) ^ digest_value
    return (MULTIPLIER * inner + INCREMENT) % 2**31


def heaviest(addresses, digest_value):
    """The address of greatest weight; of equal weights the lowest address."""
    best = max(weight(number, digest_value) for _, number in addresses)
    return min(address for address in addresses if weight(address[1], digest_value) == best)


def elect(addresses, tag, esi):
    return heaviest(addresses, digest(tag, esi))


def octets_of(address):
    """The octets of an address, 4 or 16."""
    family, number = address
    return number.to_bytes(LENGTH[family], "big")


def printed(address):
    """Dotted decimals, or 32 lower-case hex digits."""
    if address[0] == 6:
        return octets_of(address).hex()
    return ".".join(str(octet) for octet in octets_of(address))


def record(kind, body):
    return bytes([0xD5, 0x4F, kind, len(body)]) + body


def route_of(esi, address):
    """The octets of a route, 25 or 37."""
    octets = octets_of(address)
    rest = bytes(8) + esi + bytes([8 * len(octets)]) + octets
    return bytes([4, len(rest)]) + rest


def community_of(algorithm, ac_df):
    """The 8 octets of an election community, without DP or a preference."""
    return bytes([6, 6, algorithm, 0x40 if ac_df else 0x00, 0, 0, 0, 0])


def announcement(esi, address, ac_df):
    return record(1, route_of(esi, address) + community_of(1, ac_df))


def query(family, tag, ready):
    """A query that lists ready routers of one family: kind 3 or kind 5."""
    body = tag.to_bytes(4, "big") + b"".join(octets_of(address) for address in ready)
    return record(QUERY_KIND[family], body)


def some_esi(source):
    """An identifier that is not reserved."""
    while True:
        esi = source.randbytes(10)
        if esi not in (bytes(10), b"\xff" * 10):
            return esi


def some_numbers(source, count):
    """Different numbers of 32 bits; in half of the runs some tie in the low 31 bits."""
    if source.random() < 0.5:
        numbers = {source.randrange(1, 2**32) for _ in range(count)}
    else:
        first = source.randrange(1, 2**31 - 64)
        numbers = {first + step for step in range(count)}
    if source.random() < 0.5:
        numbers |= {number ^ 2**31 for number in list(numbers)}
    return numbers - {0}


def ipv6_of(source, number):
    """An IPv6 address with the low 32 bits of a number, under some upper part."""
    upper = [0, 0xFFFF, 0x20010DB8 << 64, number << 64, source.getrandbits(96), 2**96 - 1]
    return (6, source.choice(upper) << 32 | number)


def some_addresses(source):
    """Up to 64 different addresses: all IPv4, all IPv6, both, or each number in both families."""
    count = source.choice([1, 2, 3, 5, 8, 20, 64])
    numbers = some_numbers(source, count)
    fours = {(4, number) for number in numbers}
    sixes = {ipv6_of(source, number) for number in numbers}
    both = {address for pair in zip(fours, sixes) for address in pair}
    mixed = {source.choice(pair) for pair in zip(fours, sixes)}
    addresses = sorted(source.choice([fours, sixes, both, mixed]))
    source.shuffle(addresses)
    return addresses[:64]


def some_tag(source):
    return source.choice([source.randint(1, 4094), source.randint(1, 2**32 - 2)])


def some_ready(source, addresses, family):
    """A part of the addresses of a family, with strangers and a repeat. One stranger is the number
    of an address of the other family."""
    ready = [address for address in addresses if address[0] == family and source.random() < 0.5]
    other = source.choice(addresses)[1] % 2**32
    ready += [(family, source.getrandbits(8 * LENGTH[family])), (family, other)] + ready[:1]
    source.shuffle(ready)
    return ready[: MOST_READY[family]]


def answer(addresses, ac_df, tag, ready, esi):
    """The line that a query must print."""
    eligible = [address for address in addresses if not ac_df or address in ready]
    if not eligible:
        return "q 12"
    return f"q 0 {printed(elect(eligible, tag, esi))} {len(eligible)}"


def make_run(source):
    """An input, and the output it must give."""
    esi = some_esi(source)
    addresses = some_addresses(source)
    ac_df = source.random() < 0.4
    octets = record(0, esi.hex(":").encode())
    lines = ["p 0"]
    for address in addresses:
        octets += announcement(esi, address, ac_df)
        lines.append("a 0")
    for _ in range(QUERIES_PER_RUN):
        tag, family = some_tag(source), source.choice([4, 6])
        ready = some_ready(source, addresses, family)
        octets += query(family, tag, ready)
        lines.append(answer(addresses, ac_df, tag, ready, esi))
    return octets, "".join(line + "\n" for line in lines)


def own_values_hold():
    """The values that document 01 gives, over the functions above."""
    return (
        zlib.crc32(b"123456789") == 0xCBF43926
        and weight(0, 0) == 1406932606
        and weight(0, 12345) == 12345
        and weight(0x0A000001, 0) == weight(0x8A000001, 0)
        and weight(0x0A000001, 5) == weight(0xFFFF0A000001, 5)
        and weight(0x0A000001, 5) == weight((2**97 - 1) << 31 | 0x0A000001, 5)
    )


def output_of(program, octets):
    try:
        done = subprocess.run(
            [program], input=octets, stdout=subprocess.PIPE, timeout=TIME_LIMIT_SECONDS
        )
    except (OSError, subprocess.SubprocessError) as error:
        return f"{error}\n"
    return done.stdout.decode("latin-1")


def main():
    if len(sys.argv) != 2:
        print("usage: check.py PROGRAM", file=sys.stderr)
        return 1
    if not own_values_hold():
        print("hrw: the check's own values do not hold", file=sys.stderr)
        return 1
    for seed in range(RUNS):
        octets, expected = make_run(random.Random(seed))
        got = output_of(sys.argv[1], octets)
        if got != expected:
            print(f"hrw: DIFFERENCE at seed {seed}\ninput: {octets.hex()}")
            print(f"expected:\n{expected}got:\n{got}")
            return 1
    print(f"hrw: {RUNS} runs, {RUNS * QUERIES_PER_RUN} elections compared, 0 differences")
    return 0


if __name__ == "__main__":
    sys.exit(main())
