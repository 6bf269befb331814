#!/usr/bin/env python3
"""Writes a plan and a long script that is accepted to the last line.

    generate.py SHAPE DIR [LINES [SEED]]

writes DIR/plan and DIR/script. Same shape, lines and seed give the same bytes.

Shapes:
    long    P 4,096, 16 domains, slot lines only
    mixed   a drawn plan, one line in twenty a yield
    short   P 16, 4 domains, some yields: much output
    none    P 64, no domain: best effort alone
"""

import math
import os
import random
import sys

LINES = {"long": 3_000_000, "mixed": 2_000_000, "short": 2_000_000, "none": 2_000_000}

BLOCK = 1 << 16  # lines that are joined before they are written


def record(*fields):
    """A record of 16 bytes: (offset, length, value) for each field, zeros elsewhere."""
    data = bytearray(16)
    for at, length, value in fields:
        data[at:at + length] = value.to_bytes(length, "little")
    return bytes(data)


def plan_bytes(period, domains):
    """domains: a list of (number, reservation, reclaim cap, writeback cap, writeback reservation, mark). The chain
    takes in every record, so there are no leftovers."""
    parts = [record((0, 2, period), (2, 2, 1 if domains else 0))]
    for index, (number, q, r, w, v, mark) in enumerate(domains, 1):
        following = index + 1 if index < len(domains) else 0
        head = (0, 2, following), (2, 1, number), (3, 1, mark)
        parts.append(record(*head, (4, 2, q), (6, 2, r), (8, 2, w), (10, 2, v)))
    return b"".join(parts)


def shares(rng, period, count):
    """What `count` domains have reserved, of both kinds; it sums to at most the period, and to most of it."""
    weights = [rng.random() + 0.2 for _ in range(count)]
    spent = period * rng.uniform(0.6, 0.95)
    return [int(spent * w / sum(weights)) for w in weights]


def drawn_plan(rng, period, numbers):
    domains = []
    for number, share in zip(numbers, shares(rng, period, len(numbers))):
        r = rng.randint(0, period // 8)
        w = rng.randint(0, max(1, share // 2))
        # None of the writeback cap, half of it, or all of it is reserved, by turns; the rest of
        # the share is for accesses.
        v = min(share, w * (number % 3) // 2)
        # Every other number is marked: it yields by forecast.
        domains.append((number, share - v, r, w, v, number % 2))
    return domains


def draw_offers(rng, domains):
    """One slot line's digits: an access from three in eight, a writeback from one in eight; from a marked domain
    each a sixteenth, so that it has something to yield."""
    digits = ["0"] * 17
    for n, mark in [(0, 0)] + [(d[0], d[5]) for d in domains]:
        digits[n] = ("0001110120001102", "0000010000000002")[mark][rng.getrandbits(4)]
    return "".join(digits)


def masks(digits):
    accesses = sum(1 << n for n, d in enumerate(digits) if d == "1")
    writebacks = sum(1 << n for n, d in enumerate(digits) if d == "2")
    return accesses, writebacks


class Run:
    """Follows the regulator far enough to know every domain's claim."""

    def __init__(self, period, domains):
        self.period = period
        self.domains = domains
        self.turn = 0
        self.estimates = {}
        self.begin()

    def begin(self):
        self.left = self.period
        self.stock = 0
        self.claim = [0] * 17
        self.writeback_claim = [0] * 17
        self.reclaims_left = [0] * 17
        self.writebacks_left = [0] * 17
        for number, q, r, w, v, _ in self.domains:
            self.claim[number] = q
            self.writeback_claim[number] = v
            self.reclaims_left[number] = r
            self.writebacks_left[number] = w
        self.has_claim = sum(1 << n for n in range(17) if self.claim[n])
        self.has_writeback_claim = sum(1 << n for n in range(17) if self.writeback_claim[n])
        self.may_reclaim = sum(1 << n for n in range(17) if self.reclaims_left[n])
        self.has_room = 1 | sum(1 << n for n in range(17) if self.writebacks_left[n])
        self.loose = self.period - sum(self.claim) - sum(self.writeback_claim)
        self.passes = [0] * 17
        for number, z in self.estimates.items():
            spare = self.claim[number] - math.ceil(z)
            if spare > 0:
                self.give(number, spare)

    def close(self):
        for number, _, _, _, _, mark in self.domains:
            if mark:
                z = self.estimates.get(number, self.passes[number])
                self.estimates[number] = z + (self.passes[number] - z) * 0.25
        self.begin()

    def slot(self, accesses, writebacks):
        on_claim = accesses & self.has_claim | writebacks & self.has_writeback_claim
        if self.loose <= 0 and on_claim:
            passing = on_claim
        else:
            passing = accesses & (self.has_claim | 1 | (self.may_reclaim if self.stock else 0))
            passing |= writebacks & self.has_room
        asked = passing >> self.turn << self.turn or passing
        if asked:
            bit = asked & -asked
            n = bit.bit_length() - 1
            self.turn = n + 1 if n < 16 else 0
            if on_claim & bit:
                self.loose += 1
            if n and writebacks & bit:
                if on_claim & bit:
                    self.writeback_claim[n] -= 1
                    if not self.writeback_claim[n]:
                        self.has_writeback_claim ^= bit
                self.writebacks_left[n] -= 1
                if not self.writebacks_left[n]:
                    self.has_room ^= bit
            elif on_claim & bit:
                self.passes[n] += 1
                self.claim[n] -= 1
                if not self.claim[n]:
                    self.has_claim ^= bit
            elif n:
                self.passes[n] += 1
                self.stock -= 1
                self.reclaims_left[n] -= 1
                if not self.reclaims_left[n]:
                    self.may_reclaim ^= bit
        self.loose -= 1
        self.left -= 1
        if not self.left:
            self.close()

    def give(self, domain, k):
        self.claim[domain] -= k
        self.stock += k
        self.loose += k
        if not self.claim[domain]:
            self.has_claim &= ~(1 << domain)


def slot_lines(rng, domains):
    """A pool of drawn slot lines with their masks: drawing from it is quicker than drawing digits."""
    pool = []
    for _ in range(1 << 15):
        digits = draw_offers(rng, domains)
        pool.append(("s " + digits + "\n", *masks(digits)))
    return pool


def script(rng, period, domains, lines, yields):
    """The script in blocks of text. `yields` is the part of lines that are to be yields."""
    pool = slot_lines(rng, domains)
    if not yields:
        texts = [line for line, _, _ in pool]
        for start in range(0, lines, BLOCK):
            yield "".join(rng.choices(texts, k=min(BLOCK, lines - start)))
        return
    run = Run(period, domains)
    numbers = [d[0] for d in domains]
    block = []
    for _ in range(lines):
        givers = [n for n in numbers if run.claim[n]] if rng.random() < yields else []
        if givers:
            domain = rng.choice(givers)
            k = rng.randint(1, min(run.claim[domain], 1 + period // 64))
            run.give(domain, k)
            block.append("y %d %d\n" % (domain, k))
        else:
            line, accesses, writebacks = pool[rng.getrandbits(15)]
            run.slot(accesses, writebacks)
            block.append(line)
        if len(block) == BLOCK:
            yield "".join(block)
            block = []
    yield "".join(block)


def shape_plan(rng, shape):
    if shape == "long":
        return 4096, drawn_plan(rng, 4096, range(1, 17)), 0
    if shape == "mixed":
        period = rng.randint(64, 1024)
        numbers = sorted(rng.sample(range(1, 17), rng.randint(4, 12)))
        return period, drawn_plan(rng, period, numbers), 0.05
    if shape == "short":
        return 16, [(1, 4, 2, 3, 1, 1), (2, 2, 2, 4, 2, 0), (7, 3, 1, 0, 0, 1), (16, 1, 3, 2, 0, 0)], 0.02
    if shape == "none":
        return 64, [], 0
    sys.exit("no such shape: " + shape)


def main(words):
    if not 2 <= len(words) <= 4:
        sys.exit(__doc__)
    shape, folder = words[0], words[1]
    if shape not in LINES:
        sys.exit("no such shape: %s (there are: %s)" % (shape, ", ".join(LINES)))
    lines = int(words[2]) if len(words) > 2 else LINES[shape]
    seed = int(words[3]) if len(words) > 3 else 1
    rng = random.Random("%s %d" % (shape, seed))
    period, domains, yields = shape_plan(rng, shape)
    os.makedirs(folder, exist_ok=True)
    with open(os.path.join(folder, "plan"), "wb") as out:
        out.write(plan_bytes(period, domains))
    with open(os.path.join(folder, "script"), "w", newline="\n") as out:
        for block in script(rng, period, domains, lines, yields):
            out.write(block)


if __name__ == "__main__":
    main(sys.argv[1:])
