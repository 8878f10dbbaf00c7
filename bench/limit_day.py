#!/usr/bin/env python3
"""Prints a day at the limits in which flights have to wait: the same text at every run.

    bench/limit_day.py >DAY

It has 2,000 flights with networks of 4, 12 or 32 nodes, 20,000 nodes and 84,500 legs in all; 512 periods, and
windows that end with the day; 1,000 places and 4,000 connections. The flights go in four rounds, one after the
other, and those of a round are connected to flights of the next one that leave from where they arrive. Most
sectors hold two flights, some one, and storms close one in five for a while. So flights wait on the ground, in the
air, or go another way round; there is time for that.
"""
import itertools
import sys

PERIODS, AIRPORTS, SECTORS, FLIGHTS, CONNECTIONS = 512, 100, 900, 2000, 4000
ROUND = FLIGHTS // 4
# the nodes and legs of forty flights
SHAPES = [(32, 64)] * 2 + [(12, 64)] * 23 + [(4, 6)] * 15
# what a period of delay costs, on the ground and in the air
COSTS = [(50, 100), (1, 2), (60, 60), (30, 20)]


def legs_between(nodes, legs):
    """So many legs, from lower to higher nodes: first those to the next node, then those to the one after
    that, and so on; in the order of their starts."""
    wide = [(start, start + hop) for hop in range(1, nodes) for start in range(nodes - hop)]
    return sorted(wide[:legs])


def airports(flight):
    """Five flights of a round leave from each airport, and five arrive there."""
    turn, number = divmod(flight, ROUND)
    origin = number % AIRPORTS
    return origin, (origin + 1 + number // AIRPORTS + 7 * turn) % AIRPORTS


def flight_lines(flight):
    """The records of a flight and its legs. It is to arrive as early as its legs allow."""
    origin, destination = airports(flight)
    nodes, legs = SHAPES[flight * 7 % len(SHAPES)]
    sectors = [f"S{(flight * 7 + node * 31) % SECTORS}" for node in range(nodes - 2)]
    route = [f"A{origin}", *sectors, f"A{destination}"]
    lines, earliest = [], [0] + [PERIODS] * (nodes - 1)
    for start, end in legs_between(nodes, legs):
        least = end - start + (flight + start + end) % 2
        earliest[end] = min(earliest[end], earliest[start] + least)
        lines.append(f"leg,F{flight},{route[start]},{route[end]},{least}")
    leaves = flight // ROUND * 12 + flight % 5
    ground, airborne = COSTS[flight % len(COSTS)]
    arrives = leaves + earliest[-1]
    yield f"flight,F{flight},{route[0]},{route[-1]},{leaves},{arrives},511,511,{ground},{airborne}"
    yield from lines


def connections():
    """Up to three a flight, of the five flights of the next round that leave from where it arrives."""
    for first in range(FLIGHTS - ROUND):
        start = (first // ROUND + 1) * ROUND + airports(first)[1]
        for k in range(3):
            yield first, start + AIRPORTS * ((first + k) % 5)


def day():
    yield f"day,2011-03-14T06:00,2,{PERIODS}"
    for airport in range(AIRPORTS):
        yield f"airport,A{airport},1,1"
    for sector in range(SECTORS):
        yield f"sector,S{sector},{1 if sector % 4 == 0 else 2}"
        if sector % 5 == 0:
            storm = sector * 37 % 90
            yield f"cap,sector,S{sector},{storm},{storm + 30},0"
    for flight in range(FLIGHTS):
        yield from flight_lines(flight)
    for first, second in itertools.islice(connections(), CONNECTIONS):
        yield f"connect,F{first},F{second},{first % 6}"


def main():
    for line in day():
        sys.stdout.write(line + "\n")


if __name__ == "__main__":
    main()
