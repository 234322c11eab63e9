#!/usr/bin/env python3
"""Makes the script at which portplan is checked, and works out by itself the lines that portplan has to write for it.

Everything here follows docs/PLANNING.md, docs/SCRIPT.md and docs/REFUSALS.md, and nothing of the crates is read or run.
So the lines are a second opinion of what the program does.

usage: python3 tools/portplan_script.py [--check]

Writes crates/portplan/stdin and crates/portplan/stdout, and tells how often each outcome comes. With --check it writes
nothing: it holds the candidates and the search against the definitions, at small ports, with every selection tried and
in exact fractions.
"""

import itertools
import math
import os
import random
import sys
from collections import Counter
from fractions import Fraction
from functools import lru_cache
from typing import NamedTuple

# The rules of planning.
GAPS = (1, 2, 4, 8, 16, 32, 64, 128)  # in ms
MTU_MAX = 1471
FRAME_OVERHEAD = 67  # what a frame is counted with beside the bytes of its message
BITS = 8  # in a byte
UNITS_PER_KBIT = 16
JITTER_BYTES = 400  # the jitter rule: 400 x the bytes of frames are at most 23 x the rate
JITTER_RATE = 23
RATE_MAX = 1_000_000
LINKS_MAX = 64
FLOWS_MAX = 256
PAYLOAD_MAX = 8192
CYCLE_MAX = 10_000
COMMON_CYCLE_MAX = 1_000_000

# The same jitter rule in microseconds, for --check alone.
LATEST = 500
HARDWARE = 40

# Scripts.
SCRIPT_MAX = 32_768
PORT, LINK, FLOW, AMEND, WITHDRAW, SOLVE = b"PLFAWS"
WIDTHS = {PORT: (4, 4, 1), LINK: (2,), FLOW: (2, 2, 2, 2), AMEND: (2, 2, 2), WITHDRAW: (2,), SOLVE: (1, 4)}
RESERVE, BURST = 1, 2
ENDS_RUN = {1, 2, 3, 24, 25, 26, 27}
ALLOWANCE_MAX = 2**32 - 1


# ---------------------------------------------------------------- what a script comes to


class Refused(Exception):
    def __init__(self, number, detail):
        self.number = number
        self.detail = detail


def ask(number, answer, detail=0):
    if not answer:
        raise Refused(number, detail)


class Port(NamedTuple):
    rate: int
    share: int
    floor: int

    def judge(self):
        ask(1, 1 <= self.rate <= RATE_MAX)
        ask(2, 1 <= self.share <= self.rate)
        ask(3, self.floor in GAPS)

    def admits(self, gap, units, size):
        """Whether one more pair with this gap may stand, which makes so many units and bytes of frames in all."""
        return (
            gap >= self.floor
            and units <= UNITS_PER_KBIT * self.share
            and JITTER_BYTES * size <= JITTER_RATE * self.rate
        )


class Plan:
    def __init__(self):
        self.links = []  # names in plan order
        self.flows = {}  # name: (link, payload, cycle)

    def add_link(self, name):
        ask(4, len(self.links) < LINKS_MAX)
        ask(5, name not in self.links)
        self.links.append(name)

    def add_flow(self, link, name, payload, cycle):
        ask(6, link in self.links)
        ask(7, name not in self.flows)
        ask(8, len(self.flows) < FLOWS_MAX)
        self.enter(link, name, payload, cycle)

    def amend(self, name, payload, cycle):
        ask(12, name in self.flows)
        self.enter(self.flows[name][0], name, payload, cycle)

    def withdraw(self, name):
        ask(12, name in self.flows)
        del self.flows[name]

    def enter(self, link, name, payload, cycle):
        ask(9, 1 <= payload <= PAYLOAD_MAX)
        ask(10, 1 <= cycle <= CYCLE_MAX)
        others = [flow[2] for other, flow in self.flows.items() if flow[0] == link and other != name]
        ask(11, math.lcm(cycle, *others) <= COMMON_CYCLE_MAX)
        self.flows[name] = (link, payload, cycle)


class Candidate(NamedTuple):
    gap: int
    mtu: int
    size: int  # bytes of a frame
    units: int


@lru_cache(None)
def candidates(flows):
    """The candidates of a link with these flows (payload, cycle), in rising gap."""
    common = math.lcm(*(cycle for _, cycle in flows))
    sent = [(payload, common // cycle) for payload, cycle in flows]
    least = {}
    for mtu in range(1, MTU_MAX + 1):
        frames = sum(-(-payload // mtu) * messages for payload, messages in sent)
        for gap in GAPS:
            if gap not in least and gap * frames <= common:
                least[gap] = mtu
    return tuple(
        Candidate(gap, least[gap], least[gap] + FRAME_OVERHEAD,
                  (least[gap] + FRAME_OVERHEAD) * BITS * UNITS_PER_KBIT // gap)
        for gap in GAPS if gap in least
    )


class Found(NamedTuple):
    visits: int
    setting: tuple  # a candidate of every link, or None


class Spent(Exception):
    pass


def search(choices, port, measure, allowance):
    """The visits and the named setting of links with these candidates; None if the visits exceed the allowance."""
    visits = 0
    least = None
    setting = None
    chosen = []

    def go_on(units, size):
        """Visits what goes on from the chosen candidates, which are within the limit."""
        nonlocal visits, least, setting
        total = (units,) if measure == RESERVE else (size, units)
        if len(chosen) == len(choices):
            if least is None or total < least:
                least, setting = total, tuple(chosen)
            return
        for candidate in choices[len(chosen)]:
            if least is not None and least <= total:
                return
            visits += 1
            if visits > allowance:
                raise Spent
            more_units, more_size = units + candidate.units, size + candidate.size
            if port.admits(candidate.gap, more_units, more_size):
                chosen.append(candidate)
                go_on(more_units, more_size)
                chosen.pop()

    try:
        go_on(0, 0)
    except Spent:
        return None
    return Found(visits, setting)


KNOWN = {}  # the searches that were made, each with the allowance that it had


def search_once(choices, port, measure, allowance):
    """What search tells; it does not search again where that is known."""
    key = (choices, port, measure)
    had, found = KNOWN.get(key, (-1, None))
    if found is None and had < allowance:
        found = search(choices, port, measure, allowance)
        KNOWN[key] = (allowance, found)
    return found if found is not None and found.visits <= allowance else None


class Run:
    """What stands after some commands."""

    def __init__(self):
        self.port = None
        self.plan = Plan()

    def choices(self):
        """The candidates of each link, which has a flow and a candidate."""
        flows = {name: [] for name in self.plan.links}
        for link, payload, cycle in self.plan.flows.values():
            flows[link].append((payload, cycle))
        for name, of_link in flows.items():
            ask(13, of_link, name)
        found = {name: candidates(tuple(sorted(of_link))) for name, of_link in flows.items()}
        for name, of_link in found.items():
            ask(16, of_link, name)
        return tuple(found.values())

    def solve(self, measure, allowance):
        """What the lines of a solve have behind its number and the 0, and then each link."""
        ask(28, measure in (RESERVE, BURST))
        found = search_once(self.choices(), self.port, measure, allowance)
        ask(17, found is not None)
        ask(18, found.setting is not None)
        figures = sum(pair.units for pair in found.setting), sum(pair.size for pair in found.setting), found.visits
        rows = [(name, pair.gap, pair.mtu) for name, pair in zip(self.plan.links, found.setting)]
        return [figures, *rows]

    def perform(self, byte, operands):
        """Performs a command, and tells what its lines have behind its number and the 0."""
        if byte == PORT:
            port = Port(*operands)
            port.judge()
            self.port = port
        elif byte == LINK:
            self.plan.add_link(*operands)
        elif byte == FLOW:
            self.plan.add_flow(*operands)
        elif byte == AMEND:
            self.plan.amend(*operands)
        elif byte == WITHDRAW:
            self.plan.withdraw(*operands)
        else:
            return self.solve(*operands)
        return [()]


def read_command(script, place):
    """The byte and the operands of the command at a place, and the place of the next."""
    byte = script[place]
    ask(25, byte in WIDTHS, place)
    end = place + 1 + sum(WIDTHS[byte])
    ask(26, end <= len(script), place)
    ask(27, (byte == PORT) == (place == 0), place)
    operands = []
    at = place + 1
    for width in WIDTHS[byte]:
        operands.append(int.from_bytes(script[at:at + width], "big"))
        at += width
    return byte, operands, end


def lines_of(script):
    """The lines of each command of a script; each line is a list of numbers."""
    if len(script) > SCRIPT_MAX:
        return [[[0, 24, 0]]]
    lines = []
    run = Run()
    place = 0
    for command in itertools.count(1):
        if place == len(script):
            return lines
        try:
            byte, operands, place = read_command(script, place)
            first, *rows = run.perform(byte, operands)
            lines.append([[command, 0, *first], *rows])
        except Refused as refused:
            lines.append([[command, refused.number, refused.detail]])
            if refused.number in ENDS_RUN:
                return lines


# ---------------------------------------------------------------- the script

SEED = 664
FEW_VISITS = 12_000  # what most searches of the script are kept below
MANY_VISITS = 200_000  # what all of them are kept below
CYCLES = (1, 2, 3, 4, 5, 6, 8, 10, 12, 16, 20, 25, 32, 40, 50, 60, 64, 80, 100, 120, 125, 128, 160, 200, 220, 250, 256,
          320, 400, 500, 512, 640, 800, 1000, 1024, 1280, 2000, 2500, 3200, 4000, 5000, 6400, 8000, 10_000)
ODD_CYCLES = (7, 9, 11, 97, 101, 127, 509, 997, 999, 1001, 4999, 9973, 9999)
FIRST_LINKS = (1, 2, 0, 65_535, 256, 513, 255, 32_768)  # the names of the links that can have a setting together
WORDS = {"link": LINK, "flow": FLOW, "amend": AMEND, "withdraw": WITHDRAW, "solve": SOLVE}
MEASURES = {"reserve": RESERVE, "burst": BURST}


class Maker:
    """A script in the making, and what stands after it."""

    def __init__(self):
        self.script = bytearray()
        self.run = Run()
        self.plan = self.run.plan
        self.random = random.Random(SEED)

    def write(self, byte, *operands):
        """Writes a command, and tells the number that refuses it, or 0."""
        self.script.append(byte)
        for operand, width in zip(operands, WIDTHS[byte], strict=True):
            self.script += operand.to_bytes(width, "big")
        try:
            self.run.perform(byte, operands)
        except Refused as refused:
            return refused.number
        return 0

    def write_all(self, text):
        """Writes commands that stand in words, each behind the number that it is told; - stands for any number.

        The allowance of a solve may be `visits`, which is just enough, or `below`, which is one less.
        """
        for line in text.splitlines():
            words = line.split("#")[0].split()
            if not words:
                continue
            number, name, *operands = words
            operands = [MEASURES.get(word, word) for word in operands]
            if operands[-1] in ("visits", "below"):
                operands[-1] = self.visits(operands[0], MANY_VISITS) - (operands[-1] == "below")
            told = self.write(WORDS[name], *map(int, operands))
            if number not in ("-", str(told)):
                sys.exit(f"portplan_script: {line.strip()}: told {told}")

    def visits(self, measure, most):
        """The visits of a solve, or None where there are more, or it is refused before they count."""
        try:
            found = search_once(self.run.choices(), self.run.port, measure, most)
        except Refused:
            return None
        return None if found is None else found.visits

    def told(self, measure, allowance):
        """The refusal of a solve that is not written."""
        try:
            self.run.solve(measure, allowance)
        except Refused as refused:
            return refused
        return Refused(0, 0)

    def room(self):
        """The most bytes that the frames of all links together may have."""
        return JITTER_RATE * self.run.port.rate // JITTER_BYTES

    def crowded(self):
        """Whether there are too many links for a setting."""
        return len(self.plan.links) * (FRAME_OVERHEAD + 1) > self.room()

    def free_name(self, taken):
        name = self.random.randrange(65_536)
        return name if name not in taken else self.free_name(taken)

    def new_link(self):
        return self.free_name(self.plan.links)

    def new_flow(self):
        """A name that no flow has: often one of those that are soon withdrawn and added again."""
        usual = [name for name in (0, 1, 255, 256, 65_535) if name not in self.plan.flows]
        if usual and self.random.randrange(4) == 0:
            return self.random.choice(usual)
        return self.free_name(self.plan.flows)

    def any_link(self):
        """A link: often one of the first, which decide how a search goes."""
        links = self.plan.links
        return self.random.choice(links[:9] if self.random.randrange(3) == 0 else links)

    def any_flow(self):
        """A flow that stands, of any link."""
        link = self.any_link()
        return self.random.choice(self.named(link) or sorted(self.plan.flows))

    def named(self, link):
        return sorted(name for name, flow in self.plan.flows.items() if flow[0] == link)

    def figures(self):
        """Payload and cycle of a flow: mostly such that all links may have a setting together."""
        draw = self.random
        most = max(2, self.room() // min(len(self.plan.links), 8) - FRAME_OVERHEAD)
        cycle = draw.choice(ODD_CYCLES if draw.randrange(16) == 0 else CYCLES)
        if draw.randrange(24) == 0:
            return draw.randint(PAYLOAD_MAX - 400, PAYLOAD_MAX), cycle
        if draw.randrange(12) == 0:
            return draw.randint(1, 3), cycle
        return draw.randint(1, min(PAYLOAD_MAX, max(1, most * cycle // draw.choice((1, 2, 2, 3))))), cycle


def solve(maker, most=FEW_VISITS):
    """A solve with an allowance that is just enough, just too small, or any other."""
    draw = maker.random
    measure = draw.choice((RESERVE, BURST))
    visits = maker.visits(measure, most)
    if visits is not None:
        allowance = draw.choice((visits,) * 5 + (visits - 1,) * 2 + (
            ALLOWANCE_MAX, visits + draw.randint(1, 70_000), draw.randrange(visits)))
    elif maker.told(measure, 0).number == 17:
        allowance = draw.choice((0, draw.randint(1, 255), draw.randint(256, most)))
    else:
        allowance = draw.choice((0, draw.randint(1, 2**20), ALLOWANCE_MAX))
    maker.write(SOLVE, measure, allowance)


def slip(maker):
    """A command that is refused, unless its figures happen to be allowed."""
    draw = maker.random
    links, flows = maker.plan.links, maker.plan.flows
    payload, cycle = maker.figures()
    low_or_high = (0, PAYLOAD_MAX + 1, draw.randint(PAYLOAD_MAX + 2, 65_535))
    short_or_long = (0, CYCLE_MAX + 1, draw.randint(CYCLE_MAX + 2, 65_535))
    stands, other = draw.choice(sorted(flows)), maker.new_flow()
    link = maker.any_link()
    kind = draw.randrange(11)
    if kind == 0:
        maker.write(LINK, draw.choice(links))
    elif kind == 1:
        maker.write(FLOW, maker.new_link(), draw.choice((stands, other)), payload, cycle)
    elif kind == 2:
        maker.write(FLOW, link, stands, payload, cycle)
    elif kind == 3:
        maker.write(FLOW, link, other, draw.choice(low_or_high), draw.choice((cycle, *short_or_long)))
    elif kind == 4:
        maker.write(FLOW, link, other, payload, draw.choice(short_or_long))
    elif kind == 5:
        maker.write(AMEND, stands, draw.choice(low_or_high), draw.choice((cycle, *short_or_long)))
    elif kind == 6:
        maker.write(AMEND, stands, payload, draw.choice(short_or_long))
    elif kind == 7:
        maker.write(AMEND, other, payload, cycle)
    elif kind == 8:
        maker.write(WITHDRAW, other)
    elif kind == 9:
        maker.write(SOLVE, draw.choice((0, 3, 80, 255)), draw.choice((0, ALLOWANCE_MAX)))
    else:
        maker.write(AMEND, stands, payload, draw.choice(ODD_CYCLES))


def edit(maker):
    """One edit, or two that move a flow to another link."""
    draw = maker.random
    flows = maker.plan.flows
    kind = draw.randrange(20)
    if kind < 11 and flows:
        maker.write(AMEND, maker.any_flow(), *maker.figures())
    elif kind < 14 or not flows:
        maker.write(FLOW, maker.any_link(), maker.new_flow(), *maker.figures())
    elif kind < 15:
        maker.write(WITHDRAW, maker.any_flow())
    elif kind < 17:
        name = maker.any_flow()
        maker.write(WITHDRAW, name)
        maker.write(FLOW, maker.any_link(), name, *maker.figures())
    else:
        slip(maker)


def mend(maker, told):
    """An edit towards a plan with a setting, or with fewer visits, after a solve that is told this."""
    draw = maker.random
    if told.number == 13:
        if len(maker.plan.flows) == FLOWS_MAX:
            maker.write(WITHDRAW, maker.any_flow())
        maker.write(FLOW, told.detail, maker.new_flow(), *maker.figures())
        return
    if told.number == 16:
        names = maker.named(told.detail)
    else:
        names = [name for link in maker.plan.links[:9] for name in maker.named(link)]
    name = max(names, key=lambda name: Fraction(*maker.plan.flows[name][1:]))
    if told.number == 17 or draw.randrange(3) == 0:
        name = draw.choice(names)
    before = maker.plan.flows[name]
    for _ in range(6):
        payload, cycle = maker.figures()
        if told.number == 17:
            cycle = draw.randint(1, 3)
            payload = draw.randint(1, 3 * cycle)
        try:
            maker.plan.amend(name, payload, cycle)
        except Refused:
            continue
        now = maker.told(RESERVE, FEW_VISITS).number
        maker.plan.flows[name] = before
        if now == 0 or now == 18 and maker.crowded():
            break
    maker.write(AMEND, name, payload, cycle)


def rounds(maker, size):
    """Edits and solves at random, until the script has so many bytes."""
    draw = maker.random
    while len(maker.script) < size:
        told = maker.told(RESERVE, FEW_VISITS)
        well = told.number == 0 or told.number == 18 and maker.crowded()
        if not well and draw.randrange(4):
            mend(maker, told)
        else:
            edit(maker)
        if draw.randrange(10) < (3 if well else 2):
            solve(maker)


def worked(maker):
    """The two links whose search docs/PLANNING.md works through."""
    maker.write(PORT, 10_000, 10_000, 1)
    maker.write_all("""
        0 link 1
        0 flow 1 1 200 80
        0 flow 1 2 250 160
        0 link 2
        0 flow 2 3 250 220
        0 flow 2 4 200 40
        - solve reserve 42
    """)


def asked(maker):
    """Every question of an edit, and which of two comes first."""
    maker.write_all(f"""
        17 solve reserve below
        0 solve reserve visits
        0 solve burst visits
        17 solve burst below
        0 solve burst {ALLOWANCE_MAX}
        17 solve reserve 0
        28 solve 0 42
        28 solve 3 42
        28 solve 255 {ALLOWANCE_MAX}
        5 link 1
        5 link 2
        6 flow 3 5 200 80
        6 flow 256 1 0 0
        6 flow 513 5 200 80
        7 flow 1 1 200 80
        7 flow 2 1 0 10001
        9 flow 1 5 0 80
        9 flow 1 5 8193 80
        9 flow 2 5 65535 0
        10 flow 1 5 1 0
        10 flow 2 5 8192 10001
        10 flow 2 5 8192 65535
        12 amend 5 200 80
        12 amend 256 0 0
        12 withdraw 5
        12 withdraw 1024
        9 amend 1 0 80
        9 amend 4 8193 10001
        10 amend 1 8192 0
        10 amend 4 1 10001
        11 amend 1 200 9999
        11 flow 2 5 200 9973
        0 solve reserve visits
        0 solve burst visits
    """)


def amended(maker):
    """The amendments of docs/PLANNING.md, one going on from the other, and flows withdrawn and added again."""
    maker.write_all("""
        0 amend 4 200 20            # link 2 has no candidate at 32 ms any more
        0 solve reserve visits
        0 solve burst visits
        0 amend 4 200 40
        0 amend 1 400 80
        0 solve reserve visits
        17 solve reserve below
        0 amend 3 8192 5            # no pair serves link 2
        16 solve reserve 0
        16 solve burst 4294967295
        0 amend 3 8192 6            # now one does, with a flow of 40 ms beside it none
        16 solve reserve 100
        0 withdraw 4
        18 solve reserve visits     # a frame of (1, 1366) is too long
        17 solve reserve below
        18 solve burst visits
        17 solve burst below
        0 withdraw 3
        13 solve reserve 0
        13 solve burst 4294967295
        12 withdraw 3
        12 amend 3 200 80
        0 flow 1 3 250 220          # the name is free for any link
        13 solve reserve 1000
        7 flow 2 3 250 220
        0 withdraw 3
        0 flow 2 3 250 220
        0 flow 2 4 200 40
        0 amend 1 200 80
        0 solve reserve visits
        17 solve reserve below
    """)


def common_cycles(maker):
    """Common cycles about the greatest that is allowed."""
    maker.write_all("""
        0 withdraw 2
        0 amend 1 200 1000
        0 flow 1 2 250 999          # 999,000
        - solve reserve visits
        11 amend 2 250 1001         # 1,001,000
        11 flow 1 5 1 7             # 6,993,000
        0 flow 1 5 1 8
        0 withdraw 2
        11 flow 1 2 250 1001        # 1,001,000
        11 amend 5 200 1001
        0 withdraw 5
        0 amend 1 200 1001          # its cycle of 1,000 does not count
        0 solve reserve visits
        11 flow 1 2 250 1000        # 1,001,000
        0 flow 1 2 250 999          # 999,999
        - solve burst visits
        0 withdraw 1
        0 amend 2 250 101
        11 flow 1 1 200 9901        # 1,000,001
        0 flow 1 1 200 9900         # 999,900
        - solve reserve visits
        11 amend 2 250 103
        11 amend 1 200 9901         # 1,000,001
        0 withdraw 2
        0 amend 1 200 9901
        11 flow 1 2 250 9999
        11 flow 1 2 250 101
        0 amend 1 200 10000
        0 flow 1 2 250 10000
        0 solve reserve visits
        0 amend 2 250 64
        0 amend 1 200 625           # 40,000
        11 flow 1 5 1 27
        11 flow 1 5 1 6561
        0 flow 1 5 1 25             # 40,000
        0 amend 5 1 11              # 440,000
        11 amend 5 1 33             # 1,320,000
        - solve reserve visits
        0 withdraw 5
        0 amend 1 200 80
        0 amend 2 250 160
        0 solve reserve visits
    """)


def edges(maker):
    """Figures at the ends of their ranges, gaps that are filled exactly, and equal MTUs at several gaps."""
    maker.write_all("""
        0 withdraw 2
        0 amend 1 1 1               # (1, 1)
        0 solve reserve visits
        0 solve burst visits
        0 amend 1 1 10000           # MTU 1 at every gap
        0 solve reserve visits
        0 solve burst visits
        17 solve burst below
        0 amend 1 8192 10000
        0 solve reserve visits
        0 solve burst visits
        0 amend 1 8192 1
        16 solve reserve 4294967295
        0 amend 1 1471 128          # fills a gap of 128 ms at MTU 1,471
        0 solve reserve visits
        17 solve reserve below
        0 solve burst visits
        0 amend 1 1471 127          # and here it is more
        0 solve reserve visits
        17 solve reserve below
        0 solve burst visits
        0 amend 1 1472 128
        - solve reserve visits
        17 solve reserve below
        0 amend 1 1471 1            # (1, 1471)
        - solve reserve visits
        17 solve reserve below
        0 amend 1 1472 1
        16 solve reserve 1
        0 amend 1 100 3
        0 flow 1 2 100 3
        0 flow 1 9 100 3            # three frames in 3 ms fill a gap of 1 ms
        0 solve reserve visits
        0 amend 9 100 2
        16 solve reserve 2
        0 amend 2 100 6
        0 solve burst visits
        0 flow 1 0 1 10000          # and with one more frame in 10,000 ms they do not
        16 solve burst 3
        7 flow 1 0 1 10000
        0 withdraw 9
        0 withdraw 2
        0 flow 2 65535 1 10000
        0 solve reserve visits
        0 amend 65535 8192 10000
        0 solve burst visits
        0 withdraw 0
        0 withdraw 65535
        0 amend 1 200 80
        0 flow 1 2 250 160
        0 solve reserve visits
    """)


def single_flows(maker, figures):
    """Leaves each link one flow, with the figures that are given."""
    for link, (payload, cycle) in zip(maker.plan.links, figures, strict=True):
        first, *others = maker.named(link) or [maker.new_flow()]
        for name in others:
            maker.write(WITHDRAW, name)
        if first in maker.plan.flows:
            maker.write(AMEND, first, payload, cycle)
        else:
            maker.write(FLOW, link, first, payload, cycle)


def solve_exactly(maker):
    """By each measure a solve that is just allowed its visits, and one that is not, if these can be counted."""
    for measure in (RESERVE, BURST):
        visits = maker.visits(measure, MANY_VISITS)
        if visits is None:
            solve(maker)
            continue
        maker.write(SOLVE, measure, visits)
        maker.write(SOLVE, measure, visits - 1)


def brim(maker):
    """Frames that fill the 460 microseconds exactly, and those that are a byte too long."""
    count = len(maker.plan.links)
    left = maker.room() - count * FRAME_OVERHEAD
    sizes = [left // count] * (count - 1)
    sizes.append(left - sum(sizes))
    single_flows(maker, [(size, 1) for size in sizes])
    solve_exactly(maker)
    last = maker.named(maker.plan.links[-1])[0]
    maker.write(AMEND, last, sizes[-1] + 1, 1)
    solve_exactly(maker)
    maker.write(AMEND, maker.named(maker.plan.links[0])[0], 2 * sizes[0] - 2, 2)
    solve_exactly(maker)
    maker.write(AMEND, last, 2 * sizes[-1], 2)
    solve_exactly(maker)


@lru_cache(None)
def tied(cycle):
    """The least payload that in this cycle has two candidates which reserve as much as each other."""
    for payload in range(1, PAYLOAD_MAX + 1):
        units = [pair.units for pair in candidates(((payload, cycle),))]
        if len(set(units)) < len(units):
            return payload
    return 1


def ties(maker):
    """Settings that total the same, of which the first is named: pairs that reserve the same, and links alike."""
    links = maker.plan.links
    single_flows(maker, [(tied(3), 3)] * len(links))
    solve_exactly(maker)
    single_flows(maker, [(200, 80)] * len(links))
    solve_exactly(maker)
    maker.write(FLOW, links[-1], maker.new_flow(), 1, 10_000)
    solve_exactly(maker)


def many_visits(maker):
    """By each measure the longest search of some plans that are an amendment away."""
    for measure in (RESERVE, BURST):
        tried = []
        for _ in range(20):
            name = maker.any_flow()
            figures = maker.random.randint(1, 60), maker.random.choice((16, 40, 80, 160, 320, 640))
            before = maker.plan.flows[name]
            try:
                maker.plan.amend(name, *figures)
            except Refused:
                continue
            tried.append((maker.visits(measure, MANY_VISITS) or 0, name, *figures))
            maker.plan.flows[name] = before
        visits, *operands = max(tried)
        if visits:
            maker.write(AMEND, *operands)
            maker.write(SOLVE, measure, visits)
            maker.write(SOLVE, measure, visits - 1)


def lacks(maker):
    """Two links without a candidate and two without a flow: the first in plan order is told, and 13 before 16."""
    draw = maker.random
    links = [link for link in maker.plan.links if maker.named(link)]
    if len(links) < 4:
        return
    links = draw.sample(links, 4)
    starved, bare = links[:2], links[2:]
    before = {}
    for link in starved:
        name = maker.named(link)[0]
        before[link] = name, *maker.plan.flows[name][1:]
        maker.write(AMEND, name, PAYLOAD_MAX, 1)
    solve(maker)
    for link in bare:
        for name in maker.named(link):
            before[link] = name, *maker.plan.flows[name][1:]
            maker.write(WITHDRAW, name)
    solve(maker)
    for link in draw.sample(bare, 2):
        maker.write(FLOW, link, *before[link])
        solve(maker)
    for link in draw.sample(starved, 2):
        maker.write(AMEND, *before[link])
        solve(maker)


def grow(maker, name):
    """One more link, with solves before and after it has a flow."""
    maker.write(LINK, name)
    solve(maker)
    maker.write(LINK, name)
    maker.write(FLOW, name, maker.new_flow(), *maker.figures())
    solve(maker)


def all_links(maker, size):
    """Links until there are as many as may be, in groups that get their flows in another order."""
    draw = maker.random
    start = len(maker.script)
    count = LINKS_MAX - len(maker.plan.links)
    while len(maker.plan.links) < LINKS_MAX:
        left = LINKS_MAX - len(maker.plan.links)
        group = [maker.new_link() for _ in range(min(draw.randint(1, 5), left))]
        for name in group:
            maker.write(LINK, name)
        draw.shuffle(group)
        for name in group:
            if draw.randrange(3) == 0:
                solve(maker)
            maker.write(FLOW, name, maker.new_flow(), *maker.figures())
        left = LINKS_MAX - len(maker.plan.links)
        rounds(maker, start + (size - start) * (count - left) // count)
    for name in (maker.new_link(), maker.plan.links[0], maker.new_link()):
        maker.write(LINK, name)
    solve(maker)


def all_flows(maker):
    """Flows until there are as many as may be."""
    draw = maker.random
    long_cycles = [cycle for cycle in CYCLES if cycle >= 50]
    while len(maker.plan.flows) < FLOWS_MAX:
        link = draw.choice([link for link in maker.plan.links if len(maker.named(link)) < 8])
        maker.write(FLOW, link, maker.new_flow(), draw.randint(1, 400), draw.choice(long_cycles))
        told = maker.told(RESERVE, FEW_VISITS)
        if told.number == 16:
            mend(maker, told)
        if draw.randrange(12) == 0:
            solve(maker)
    first, stands = maker.plan.links[0], maker.any_flow()
    free = maker.new_flow()
    solve(maker)
    maker.write(FLOW, first, free, 200, 80)
    maker.write(FLOW, first, free, 0, 0)
    maker.write(FLOW, first, stands, 200, 80)
    maker.write(FLOW, maker.new_link(), free, 200, 80)
    maker.write(AMEND, stands, 0, 80)
    maker.write(LINK, first)
    maker.write(WITHDRAW, stands)
    maker.write(FLOW, first, free, 0, 80)
    maker.write(FLOW, maker.plan.links[-1], stands, 200, 8000)
    maker.write(FLOW, maker.plan.links[-1], free, 200, 8000)
    solve(maker)


def full(maker, size):
    """Edits and solves of a full plan, with links and flows that find no place."""
    draw = maker.random
    while len(maker.script) < size:
        rounds(maker, min(size, len(maker.script) + draw.randint(20, 90)))
        kind = draw.randrange(7)
        if kind == 0:
            maker.write(LINK, maker.new_link())
        elif kind < 3:
            while len(maker.plan.flows) < FLOWS_MAX and draw.randrange(6):
                maker.write(FLOW, draw.choice(maker.plan.links), maker.new_flow(), draw.randint(1, 400), 8000)
            maker.write(FLOW, draw.choice(maker.plan.links), maker.new_flow(), *maker.figures())
        elif kind == 3:
            for name in maker.named(draw.choice(maker.plan.links[1:])):
                maker.write(WITHDRAW, name)
            solve(maker)
        elif kind == 4:
            maker.write(AMEND, draw.choice(sorted(maker.plan.flows)), PAYLOAD_MAX, draw.randint(1, 5))
            solve(maker)
        elif kind == 5:
            lacks(maker)


def unread(maker):
    """The figures of a port once more, which end the run, and commands behind them, which nothing reads."""
    maker.write(PORT, 10_000, 10_000, 1)
    maker.write(SOLVE, RESERVE, 42)
    maker.write(LINK, 3)
    maker.write(PORT, 0, 0, 0)
    while len(maker.script) < SCRIPT_MAX:
        maker.write(WITHDRAW, maker.any_flow())
    del maker.script[SCRIPT_MAX:]


def made_script():
    maker = Maker()
    for part in (worked, asked, amended, common_cycles, edges, ties, brim):
        part(maker)
    rounds(maker, 3_000)
    for name in FIRST_LINKS[2:]:
        grow(maker, name)
        rounds(maker, len(maker.script) + 500)
        ties(maker)
        rounds(maker, len(maker.script) + 500)
        brim(maker)
        rounds(maker, len(maker.script) + 400)
        lacks(maker)
        many_visits(maker)
        rounds(maker, len(maker.script) + 300)
    all_links(maker, 24_000)
    lacks(maker)
    all_flows(maker)
    full(maker, SCRIPT_MAX - 200)
    rounds(maker, SCRIPT_MAX - 60)
    unread(maker)
    return bytes(maker.script)


# ---------------------------------------------------------------- the definitions, tried on small ports


def candidates_by_definition(flows):
    """Gaps and MTUs of a link with these flows (payload, cycle)."""
    def served(gap, mtu):
        return sum(Fraction(math.ceil(Fraction(payload, mtu)), cycle) for payload, cycle in flows) <= Fraction(1, gap)

    least = [(gap, next((mtu for mtu in range(1, MTU_MAX + 1) if served(gap, mtu)), None)) for gap in GAPS]
    return [pair for pair in least if pair[1] is not None]


def found_by_definition(choices, port, measure):
    """The visits and the named setting, from every partial and every complete selection of these pairs."""
    def size(pairs):
        return sum(mtu + FRAME_OVERHEAD for _, mtu in pairs)

    def reserved(pairs):
        return sum((Fraction(mtu + FRAME_OVERHEAD, gap) for gap, mtu in pairs), Fraction(0))

    def within(pairs):
        late = Fraction(HARDWARE, 10**6) + Fraction(BITS * size(pairs), 1000 * port.rate)
        return (
            all(gap >= port.floor for gap, _ in pairs)
            and BITS * reserved(pairs) * 1000 <= port.share * 1000
            and late <= Fraction(LATEST, 10**6)
        )

    def no_more(first, second):
        if measure == RESERVE:
            return reserved(first) <= reserved(second)
        return size(first) < size(second) or size(first) == size(second) and reserved(first) <= reserved(second)

    def before(first, second):
        return next((one[0] < other[0] for one, other in zip(first, second) if one != other), False)

    admitted = [pairs for pairs in itertools.product(*choices) if within(pairs)]
    visits = 0
    for count in range(1, len(choices) + 1):
        for pairs in itertools.product(*choices[:count]):
            parent = pairs[:-1]
            visits += within(parent) and not any(
                before(pairs_before, pairs) and no_more(pairs_before, parent) for pairs_before in admitted)
    least = [pairs for pairs in admitted if all(no_more(pairs, other) for other in admitted)]
    named = [pairs for pairs in least if all(pairs == other or before(pairs, other) for other in least)]
    return visits, named[0] if named else None


def check():
    draw = random.Random(SEED)
    outcomes = Counter()
    for _ in range(60):
        flows = []
        for _ in range(draw.randint(1, 3)):
            cycle = draw.choice(CYCLES)
            flows.append((draw.randint(1, min(PAYLOAD_MAX, 60 * cycle)), cycle))
        pairs = [(pair.gap, pair.mtu) for pair in candidates(tuple(sorted(flows)))]
        assert pairs == candidates_by_definition(flows), flows
        outcomes["links"] += 1
    for _ in range(400):
        flows = [draw.choice((((200, 80), (250, 160)), ((201, 3),), ((20, draw.choice((3, 7, 14))),), ((1, 6),),
                              ((draw.randint(1, 600), draw.choice((3, 5, 9, 18))), (draw.randint(1, 90), 12))))
                 for _ in range(draw.randint(0, 3))]
        choices = tuple(candidates(of_link) for of_link in flows)
        rate = draw.choice((10_000, draw.randint(1_000, 20_000)))
        share = draw.choice((rate, draw.randint(1, rate), draw.randint(1, rate // 10)))
        port = Port(rate, share, draw.choice((1, 1, 1, 2, 4)))
        measure = draw.choice((RESERVE, BURST))
        found = search(choices, port, measure, ALLOWANCE_MAX)
        plain = [[(pair.gap, pair.mtu) for pair in of_link] for of_link in choices]
        setting = found.setting and tuple((pair.gap, pair.mtu) for pair in found.setting)
        visits, named = found_by_definition(plain, port, measure)
        assert (found.visits, found.setting and setting) == (visits, named), (flows, port, measure)
        if visits:
            assert search(choices, port, measure, visits - 1) is None
        outcomes["unmeetable" if named is None else "settings"] += 1
    print(dict(outcomes))


# ---------------------------------------------------------------- files


def main():
    if sys.argv[1:] == ["--check"]:
        check()
        return
    if sys.argv[1:]:
        sys.exit(__doc__)
    script = made_script()
    lines = lines_of(script)
    written = "".join(" ".join(map(str, line)) + "\n" for of_command in lines for line in of_command)
    folder = os.path.join(os.path.dirname(os.path.abspath(__file__)), "..", "crates", "portplan")
    with open(os.path.join(folder, "stdin"), "wb") as file:
        file.write(script)
    with open(os.path.join(folder, "stdout"), "w", encoding="ascii", newline="\n") as file:
        file.write(written)
    report(len(script), len(written), lines)


def report(script_bytes, written_bytes, lines):
    """Tells how much there is of everything."""
    refused = Counter(of_command[0][1] for of_command in lines if of_command[0][1])
    accepted = Counter(len(of_command) - 1 for of_command in lines if len(of_command[0]) == 5)
    solves = sum(accepted.values()) + sum(refused[number] for number in (13, 16, 17, 18, 28))
    print(f"script: {script_bytes} bytes, {len(lines)} commands; lines: {written_bytes} bytes")
    print(f"solves: {solves}, accepted: {sum(accepted.values())}")
    for title, counts in (("accepted, by links", accepted), ("refused, by number", refused)):
        print(f"{title}:", ", ".join(f"{key}: {counts[key]}" for key in sorted(counts)))


if __name__ == "__main__":
    main()
