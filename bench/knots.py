#!/usr/bin/env python3
"""Prints a knot: a small day on which few flights want the same little room at once.

    bench/knots.py SEED >DAY

The text is always the same for a seed. It has 5 to 7 flights in 9 to 14 periods, three airports
and three sectors, most of which take one flight at a time; one sector is closed for a while. Most
flights are to leave in the first two periods, each by one of two or three ways, and some wait for
the aircraft of another one. What waiting costs is told by prices or by tables.

All that is drawn is a fraction from 0 to 1, so the texts don't hang on how Python shuffles.
"""
import random
import sys

AIRPORTS, SECTORS = 3, 3


class Drawn:
    """What a seed gives, number by number."""

    def __init__(self, seed):
        self.numbers = random.Random(seed)

    def between(self, low, high):
        return low + int(self.numbers.random() * (high - low + 1))

    def some(self, count, things):
        """So many of the things, none twice."""
        left, taken = list(things), []
        for _ in range(count):
            taken.append(left.pop(self.between(0, len(left) - 1)))
        return taken


def network(drawn, origin, destination):
    """The legs of two or three ways: over one sector, over another, and maybe over both."""
    first, second = drawn.some(2, [f"Z{k}" for k in range(SECTORS)])
    legs = [(origin, first, 0), (origin, second, drawn.between(0, 1))]
    if drawn.between(0, 2):
        legs.append((first, second, drawn.between(1, 2)))
    legs.append((first, destination, drawn.between(1, 3)))
    legs.append((second, destination, drawn.between(1, 3)))
    return legs


def shortest(legs, origin, destination):
    """The least time by any way, of legs that stand in an order in which they can be flown."""
    least = {origin: 0}
    for start, end, time in legs:
        least[end] = min(least.get(end, 99), least[start] + time)
    return least[destination]


def costs(drawn, flight, waits, late):
    """Two prices, and where the flight has tables, their records."""
    ground = drawn.between(1, 4)
    air = ground + drawn.between(0, 4)
    records = []
    if drawn.between(0, 2) == 0:
        totals, credits = [0], [0]
        for _ in range(late):
            totals.append(totals[-1] + drawn.between(1, 9))
        for _ in range(waits):
            credits.append(credits[-1] + drawn.between(-1, 3))
        records.append(f"table,Late{flight}," + ",".join(map(str, totals)))
        records.append(f"table,Wait{flight}," + ",".join(map(str, credits)))
        records.append(f"cost,F{flight},Late{flight},Wait{flight}")
    return ground, air, records


def knot(seed):
    # from here on the first twenty have three without a plan, each for want of room
    seed += 100
    drawn = Drawn(seed)
    periods, flights = drawn.between(9, 14), drawn.between(5, 7)
    yield f"day,2011-03-14T06:00,15,{periods}"
    for airport in range(AIRPORTS):
        yield f"airport,P{airport},{drawn.between(1, 2)},{drawn.between(1, 2)}"
    for sector in range(SECTORS):
        yield f"sector,Z{sector},{2 if sector == seed % SECTORS else 1}"
    begins = drawn.between(1, 4)
    yield f"cap,sector,Z{drawn.between(0, SECTORS - 1)},{begins},{begins + drawn.between(0, 1)},0"
    before = []
    for flight in range(flights):
        origin, destination = drawn.some(2, [f"P{k}" for k in range(AIRPORTS)])
        leaves, waits, late = drawn.between(0, 1), drawn.between(2, 4), drawn.between(2, 5)
        feeder = [other for other in before if other[1] == origin]
        connected = feeder and drawn.between(0, 1)
        if connected:
            leaves = feeder[0][2]
        legs = network(drawn, origin, destination)
        arrives = min(leaves + shortest(legs, origin, destination), periods - 1)
        ground, air, records = costs(drawn, flight, waits, late)
        times = f"{leaves},{arrives},{waits},{late}"
        yield f"flight,F{flight},{origin},{destination},{times},{ground},{air}"
        for start, end, time in legs:
            yield f"leg,F{flight},{start},{end},{time}"
        yield from records
        if connected:
            yield f"connect,{feeder[0][0]},F{flight},{drawn.between(0, 1)}"
        before.append((f"F{flight}", destination, arrives))


def main():
    if len(sys.argv) != 2 or not sys.argv[1].isdigit():
        sys.exit(__doc__)
    for line in knot(int(sys.argv[1])):
        print(line)


if __name__ == "__main__":
    main()
