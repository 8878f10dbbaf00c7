#!/usr/bin/env python3
"""Prints what the cheapest plan of a small day costs, or `none` where no plan keeps every rule.

    bench/least.py DAY

It lists all trips of each flight, and tries each flight's trips from the cheapest on, depth first,
with counts of what is taken; it turns back where the trips so far and the cheapest ones of the
flights to come cost no less than the best plan that was found. It shares nothing with the program.
The day has to be one that the program reads, without quotes. Days of more than some ten flights
take too long.
"""
import collections
import itertools
import sys

Flight = collections.namedtuple(
    "Flight", "origin destination leaves arrives waits late ground air legs tables"
)
Trip = collections.namedtuple("Trip", "cost leaves arrives taken")


class Day:
    """The records of a text."""

    def __init__(self, text):
        self.periods, self.connections = 0, []
        self.room, self.flights, self.tables = {}, {}, {}
        for line in text.splitlines():
            kind, *fields = line.split(",")
            if kind != "note":
                getattr(self, kind)(*fields)

    def fill(self, what, place, first, last, room):
        for period in range(first, last + 1):
            self.room[what, place, period] = room

    def day(self, _start, _minutes, periods):
        self.periods = int(periods)

    def airport(self, name, departures, arrivals):
        self.fill("dep", name, 0, self.periods - 1, int(departures))
        self.fill("arr", name, 0, self.periods - 1, int(arrivals))

    def sector(self, name, room):
        self.fill("sector", name, 0, self.periods - 1, int(room))

    def cap(self, what, place, first, last, room):
        self.fill(what, place, int(first), int(last), int(room))

    def flight(self, name, origin, destination, *numbers):
        self.flights[name] = Flight(origin, destination, *map(int, numbers), [], [])

    def leg(self, flight, start, end, least):
        self.flights[flight].legs.append((start, end, int(least)))

    def table(self, name, *values):
        self.tables[name] = list(map(int, values))

    def cost(self, flight, totals, credits):
        self.flights[flight].tables.extend((self.tables[totals], self.tables[credits]))

    def connect(self, first, second, turnaround):
        self.connections.append((first, second, int(turnaround)))


def ways(day, flight):
    """All lists of stops to the destination: places, each with the period of its entry."""
    latest = min(flight.leaves + flight.waits, day.periods - 1)
    begun = [[(flight.origin, period)] for period in range(flight.leaves, latest + 1)]
    while begun:
        stops = begun.pop()
        place, period = stops[-1]
        if place == flight.destination:
            yield stops
            continue
        for start, end, least in flight.legs:
            if start != place:
                continue
            low, high = period + least, day.periods - 1
            if end == flight.destination:
                low, high = max(low, flight.arrives), min(high, flight.arrives + flight.late)
            begun.extend(stops + [(end, entered)] for entered in range(low, high + 1))


def trip_of(flight, stops):
    """What the stops cost, and what they take: a departure, an arrival, and room in sectors."""
    leaves, arrives = stops[0][1], stops[-1][1]
    waits, late = leaves - flight.leaves, arrives - flight.arrives
    if flight.tables:
        cost = flight.tables[0][late] - flight.tables[1][waits]
    else:
        cost = flight.air * late - (flight.air - flight.ground) * waits
    taken = [("dep", flight.origin, leaves), ("arr", flight.destination, arrives)]
    for (place, entered), (_, left) in itertools.pairwise(stops[1:]):
        taken.extend(("sector", place, period) for period in range(entered, left))
    return Trip(cost, leaves, arrives, tuple(taken))


def trips_of(day, flight):
    """All its trips from the cheapest on; of several that take the same, and so cost it, one."""
    trips = {trip_of(flight, stops) for stops in ways(day, flight)}
    return sorted(trip for trip in trips if all(day.room[what] > 0 for what in trip.taken))


def least_cost(day):
    """The cost of the cheapest plan, or None."""
    names = list(day.flights)
    trips = [trips_of(day, day.flights[name]) for name in names]
    if not all(trips):
        return None
    rest = [sum(flight[0].cost for flight in trips[at:]) for at in range(len(names) + 1)]
    room, plan, best = dict(day.room), {}, None

    def in_time(name, trip):
        for first, second, turnaround in day.connections:
            if name == second and first in plan:
                if trip.leaves < plan[first].arrives + turnaround:
                    return False
            if name == first and second in plan:
                if plan[second].leaves < trip.arrives + turnaround:
                    return False
        return True

    def place(at, cost):
        nonlocal best
        if at == len(names):
            best = cost
            return
        name = names[at]
        for trip in trips[at]:
            if best is not None and cost + trip.cost + rest[at + 1] >= best:
                return
            if not in_time(name, trip) or any(not room[what] for what in trip.taken):
                continue
            for what in trip.taken:
                room[what] -= 1
            plan[name] = trip
            place(at + 1, cost + trip.cost)
            del plan[name]
            for what in trip.taken:
                room[what] += 1

    place(0, 0)
    return best


def least_of(text):
    """The least cost of the text's day, as it is printed."""
    cost = least_cost(Day(text))
    return "none" if cost is None else str(cost)


def main():
    if len(sys.argv) != 2:
        sys.exit(__doc__)
    with open(sys.argv[1]) as file:
        print(least_of(file.read()))


if __name__ == "__main__":
    main()
