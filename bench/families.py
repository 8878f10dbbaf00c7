"""Families of days, the same texts at every run: banks of flights at a hub, storms on a network, few slots for many, a
ground delay programme, rotations of aircraft, tight knots, and a front that moves over a network."""


class Lots:
    """Knuth's linear congruential generator modulo 2^64, of whose state the upper half is used."""

    def __init__(self, seed):
        self.state = seed

    def below(self, count):
        self.state = (self.state * 6364136223846793005 + 1442695040888963407) % 2**64
        return (self.state >> 32) % count


def hub_day(flights, seed=1):
    """Banks of arrivals, then of departures, at one hub that has room for a fifth of a bank in a period. Each
    departure waits for one or two of the arrivals, and a period on the ground costs from 1 to 3."""
    lots = Lots(seed)
    banks, spokes = min(6, 2 + flights // 100), 8
    wave = flights // (2 * banks) + 1
    yield "day,2024-07-01T05:00,15,96"
    yield f"airport,H,{1 + wave // 5},{1 + wave // 5}"
    yield from (f"airport,S{k},{1 + wave // 8},{1 + wave // 8}" for k in range(spokes))
    yield from (f"sector,E{k},{2 + wave // 4}" for k in range(spokes))
    yield from (f"sector,A{k},{2 + wave * 2 // 5}" for k in range(4))
    connections, bank, arrivals = [], 0, []
    for flight in range(flights):
        here = flight * banks // flights
        if here != bank:
            bank, arrivals = here, []
        first = -(-bank * flights // banks)
        size = -(-(bank + 1) * flights // banks) - first
        spoke, ground = lots.below(spokes), 1 + lots.below(3)
        if flight - first < (size + 1) // 2:
            arrives, near = 9 + 14 * bank + lots.below(3), lots.below(2)
            yield f"flight,F{flight},S{spoke},H,{arrives - 6},{arrives},10,10,{ground},{ground + 1}"
            yield f"leg,F{flight},S{spoke},E{spoke},1"
            for way in (near, 1 - near)[: 1 + (lots.below(3) == 0)]:
                yield f"leg,F{flight},E{spoke},A{way},3"
                yield f"leg,F{flight},A{way},H,2"
            arrivals.append(flight)
        else:
            leaves, near = 14 + 14 * bank + lots.below(3), 2 + lots.below(2)
            yield f"flight,F{flight},H,S{spoke},{leaves},{leaves + 6},10,10,{ground},{ground + 1}"
            yield f"leg,F{flight},H,A{near},1"
            yield f"leg,F{flight},A{near},E{spoke},2"
            yield f"leg,F{flight},E{spoke},S{spoke},3"
            feeders = {arrivals[lots.below(len(arrivals))] for _ in range(1 + lots.below(2))}
            connections += [(feeder, flight) for feeder in sorted(feeders)]
    yield from (f"connect,F{feeder},F{flight},2" for feeder, flight in connections)


def storm_day(flights, seed=1):
    """A network on which each flight has two ways, a third of them fly on with the aircraft of another one, delays
    cost by tables, and in four sectors one after another there is room for half as many for an hour."""
    lots = Lots(seed)
    airports, sectors = 6, 12
    room = 1 + flights // 40
    yield "day,2024-07-02T06:00,15,80"
    yield from (f"airport,P{k},{1 + flights // 100},{1 + flights // 100}" for k in range(airports))
    yield from (f"sector,Z{k},{room}" for k in range(sectors))
    for storm in range(4):
        sector, begin = 3 * storm + lots.below(3), 12 + 9 * storm + lots.below(6)
        yield f"cap,sector,Z{sector},{begin},{begin + 3},{room // 2}"
    for name, cost in (
        ("late0", lambda d: 2 * d + d * d // 4),
        ("late1", lambda d: 3 * max(0, d - 2)),
        ("late2", lambda d: 4 * (d // 3) + d),
        ("ground0", lambda g: g),
        ("ground1", lambda g: g // 2),
    ):
        yield f"table,{name}," + ",".join(str(cost(d)) for d in range(13))
    connections, landed = [], None
    for flight in range(flights):
        if flight % 3 == 2 and landed:
            feeder, origin, arrived = landed
            destination = (origin + 1 + lots.below(airports - 1)) % airports
            leaves = arrived + 2
            connections.append((feeder, flight))
            landed = None
        else:
            origin = lots.below(airports)
            destination = (origin + 1 + lots.below(airports - 1)) % airports
            leaves = lots.below(48)
        first, last = 2 * origin + lots.below(2), 2 * destination + lots.below(2)
        other = (last + 2 + lots.below(sectors - 3)) % sectors
        while other in (first, last):
            other = (other + 1) % sectors
        yield f"flight,F{flight},P{origin},P{destination},{leaves},{leaves + 6},8,8,1,2"
        yield f"leg,F{flight},P{origin},Z{first},1"
        yield f"leg,F{flight},Z{first},Z{last},3"
        yield f"leg,F{flight},Z{first},Z{other},2"
        yield f"leg,F{flight},Z{other},Z{last},2"
        yield f"leg,F{flight},Z{last},P{destination},2"
        yield f"cost,F{flight},late{lots.below(3)},ground{lots.below(2)}"
        if flight % 3 == 1:
            landed = flight, destination, leaves + 6
    yield from (f"connect,F{feeder},F{flight},2" for feeder, flight in connections)


class Room:
    """What is free on a day while trips are laid on it, one after the other. The days below are made around such
    trips: how late a flight may be is never less than how late its laid trip is. So each of them has a plan."""

    def __init__(self, minutes, periods):
        self.records, self.free, self.periods = [f"day,2024-07-03T05:00,{minutes},{periods}"], {}, periods

    def airport(self, name, departures, arrivals):
        self.records.append(f"airport,{name},{departures},{arrivals}")
        self.free["dep", name] = [departures] * self.periods
        self.free["arr", name] = [arrivals] * self.periods

    def sector(self, name, room):
        self.records.append(f"sector,{name},{room}")
        self.free["sector", name] = [room] * self.periods

    def cap(self, what, name, first, last, room):
        self.records.append(f"cap,{what},{name},{first},{last},{room}")
        self.free[what, name][first : last + 1] = [room] * (last + 1 - first)

    def lay(self, ways, earliest):
        """Takes the room of the trip that leaves first of those that fit, by the first such way; its departure and
        arrival."""
        for leaves in range(earliest, self.periods):
            for way in ways:
                arrives, taken = leaves + sum(way[1::2]), uses(way, leaves)
                if arrives < self.periods and all(self.free[what, name][period] for what, name, period in taken):
                    for what, name, period in taken:
                        self.free[what, name][period] -= 1
                    return leaves, arrives
        raise ValueError("the day is too short")


def uses(way, leaves):
    """What a trip takes that leaves then and waits nowhere. A way is a place, a time, the next place, and so on."""
    taken, entered = [("dep", way[0], leaves)], leaves + way[1]
    for sector, time in zip(way[2::2], way[3::2]):
        taken += [("sector", sector, period) for period in range(entered, entered + time)]
        entered += time
    return [*taken, ("arr", way[-1], entered)]


def shortest(ways):
    return min(sum(way[1::2]) for way in ways)


def lateness(ways, leaves, laid, spare):
    """How late a flight may leave and arrive: as its laid trip, and so many periods more."""
    return laid[0] - leaves + spare, laid[1] - leaves - shortest(ways) + spare


def flight_records(flight, ways, leaves, late, costs):
    """A flight that is to leave then and to arrive by the shortest way, and the legs of its ways, each once, those
    from places that come late on a way behind the others."""
    arrives, ends = leaves + shortest(ways), f"{ways[0][0]},{ways[0][-1]}"
    yield f"flight,F{flight},{ends},{leaves},{arrives},{late[0]},{late[1]},{costs[0]},{costs[1]}"
    turns, times = {}, {}
    for way in ways:
        for turn, place in enumerate(way[::2]):
            turns[place] = max(turn, turns.get(place, 0))
        times.update(((start, end), time) for start, time, end in zip(way[::2], way[1::2], way[2::2]))
    for start, end in sorted(times, key=lambda leg: turns[leg[0]]):
        yield f"leg,F{flight},{start},{end},{times[start, end]}"


def table_records(lots, flight, late):
    """Tables of a flight's own: totals that rise by 1 to 9 a period, credits that rise by up to 3 or fall by 1."""
    totals, credits = [0], [0]
    for _ in range(late[1]):
        totals.append(totals[-1] + 1 + lots.below(9))
    for _ in range(late[0]):
        credits.append(credits[-1] + lots.below(5) - 1)
    yield f"table,Late{flight}," + ",".join(map(str, totals))
    yield f"table,Wait{flight}," + ",".join(map(str, credits))
    yield f"cost,F{flight},Late{flight},Wait{flight}"


def shuffled(lots, count):
    order = list(range(count))
    for last in range(count - 1, 0, -1):
        drawn = lots.below(last + 1)
        order[last], order[drawn] = order[drawn], order[last]
    return order


def slot_day(flights, seed=1):
    """Few slots for many: all flights are to land at once, where a period has one slot for every sixty of them, and
    in some periods none. They are alike in all but the origin, of which there are three, and each may be as late as
    the last one has to be."""
    lots = Lots(seed)
    slots, leaves = -(-flights // 60), 4
    room = Room(15, 24 + 3 * flights // (2 * slots))
    for k in range(3):
        room.airport(f"O{k}", slots, 0)
    room.airport("H", 0, slots)
    room.sector("E", 4 * slots)
    for closed in sorted({8 + lots.below(flights // slots) for _ in range(6)}):
        room.cap("arr", "H", closed, closed, 0)
    ground = 1 + lots.below(3)
    ways = [[[f"O{lots.below(3)}", 1, "E", 4, "H"]] for _ in range(flights)]
    late = max(lateness(way, leaves, room.lay(way, leaves), 2) for way in ways)
    yield from room.records
    for flight, way in enumerate(ways):
        yield from flight_records(flight, way, leaves, late, (ground, ground + 1))


def programme_day(flights, seed=1):
    """A ground delay programme: the flights of six hours, in periods of five minutes, to an airport that takes half as
    many an hour. Those from the two farthest origins have their slots first, and may be ten minutes later than that.
    The others have theirs in the order in which they are to arrive, and may be twenty minutes to an hour later.
    Waiting in the air is twice as dear, and a third of the flights costs more than the others."""
    lots = Lots(seed)
    begins, asked, origins = 40, 72, 12
    few = flights // (2 * asked)
    room = Room(5, begins + 2 * asked + 24)
    for k in range(origins):
        room.airport(f"O{k}", 1 + few, 0)
    room.airport("H", 0, few)
    for k in range(3):
        room.sector(f"E{k}", 4 + flights // 12)
    for period in range(begins, room.periods):
        if (period + 1) * flights // (2 * asked) - period * flights // (2 * asked) > few:
            room.cap("arr", "H", period, period, few + 1)
    arrivals, drawn = sorted(begins + lots.below(asked) for _ in range(flights)), []
    for flight, arrives in enumerate(arrivals):
        k = lots.below(origins)
        ways = [[f"O{k}", 2 + 2 * k, f"E{k % 3}", 4 + k, "H"]]
        drawn.append((k < origins - 2, flight, ways, arrives - shortest(ways)))
    records = {}
    for is_near, flight, ways, leaves in sorted(drawn):
        spare = 4 + lots.below(9) if is_near else lots.below(3)
        ground = 2 + lots.below(3) if lots.below(3) == 0 else 1
        late = lateness(ways, leaves, room.lay(ways, leaves), spare)
        records[flight] = flight_records(flight, ways, leaves, late, (ground, 2 * ground))
    yield from room.records
    for flight in range(flights):
        yield from records[flight]


def rotation_day(flights, seed=1):
    """Aircraft that fly six legs each, one after the other, between five airports, with little time on the ground:
    who is late passes it on. Three times a sector has less room for an hour and a half. There are a sixth as many
    aircraft as flights, rounded down."""
    lots = Lots(seed)
    aircraft, airports = flights // 6, 5
    room = Room(15, 110)
    for k in range(airports):
        room.airport(f"P{k}", 1 + aircraft // 16, 1 + aircraft // 16)
    for k in range(airports):
        room.sector(f"Z{k}", 1 + aircraft // 8)
    for k in range(3):
        begin = 8 + 14 * k + lots.below(6)
        room.cap("sector", f"Z{lots.below(airports)}", begin, begin + 5, max(1, aircraft // 12))
    places = [lots.below(airports) for _ in range(aircraft)]
    ready = [(begin, begin) for begin in (4 + lots.below(8) for _ in range(aircraft))]
    records, connections = [], []
    for flight in (6 * number + leg for leg in range(6) for number in range(aircraft)):
        origin, (leaves, earliest) = places[flight // 6], ready[flight // 6]
        destination = (origin + 1 + lots.below(airports - 1)) % airports
        ways = [[f"P{origin}", 1, f"Z{origin}", 1 + lots.below(2), f"Z{destination}", 2, f"P{destination}"]]
        laid = room.lay(ways, max(leaves, earliest))
        ground, turnaround = 1 + lots.below(3), 1 + lots.below(2)
        late = lateness(ways, leaves, laid, 2 + lots.below(3))
        records += flight_records(flight, ways, leaves, late, (ground, ground + 1 + lots.below(2)))
        places[flight // 6] = destination
        ready[flight // 6] = leaves + shortest(ways) + turnaround + lots.below(2), laid[1] + turnaround
        if flight % 6 < 5:
            connections.append(f"connect,F{flight},F{flight + 1},{turnaround}")
    yield from room.records
    yield from records
    yield from connections


def tight_knot_day(flights, seed=1):
    """Flights that meet in few sectors, most of which take one at a time, by two or three ways: over one sector, over
    another, and maybe over both. A third have tables, and a fourth wait for the aircraft of another one. Trips are
    laid in a drawn order: so those that may be late least are any, and a plan in the order of the text may fail."""
    lots = Lots(seed)
    airports, sectors = 4, 3 + flights // 40
    room = Room(15, 36 + flights)
    for k in range(airports):
        room.airport(f"P{k}", 1 + flights // 100, 1 + flights // 100)
    for k in range(sectors):
        room.sector(f"Z{k}", 2 if k % 3 == 0 else 1)
    closed = 4 + lots.below(8)
    room.cap("sector", f"Z{1 + lots.below(sectors - 1)}", closed, closed + 3, 0)
    records, connections, landed = {}, [], None
    for turn, flight in enumerate(shuffled(lots, flights)):
        if turn % 4 == 3:
            feeder, origin, leaves, earliest = landed
            connections.append(f"connect,F{feeder},F{flight},1")
        else:
            origin, leaves, earliest = lots.below(airports), lots.below(4 + flights // 4), 0
        destination = (origin + 1 + lots.below(airports - 1)) % airports
        ways = knot_ways(lots, f"P{origin}", f"P{destination}", sectors)
        laid = room.lay(ways, max(leaves, earliest))
        late = lateness(ways, leaves, laid, 1 + lots.below(4))
        ground = 1 + lots.below(4)
        records[flight] = [*flight_records(flight, ways, leaves, late, (ground, ground + lots.below(5)))]
        if lots.below(3) == 0:
            records[flight] += table_records(lots, flight, late)
        landed = flight, destination, leaves + shortest(ways) + 1, laid[1] + 1
    yield from room.records
    for flight in range(flights):
        yield from records[flight]
    yield from connections


def knot_ways(lots, start, end, sectors):
    """Over one sector, over another, and two times of three over both."""
    first, hop = lots.below(sectors), 1 + lots.below(sectors - 1)
    one, other = f"Z{first}", f"Z{(first + hop) % sectors}"
    out, on = 1 + lots.below(3), 1 + lots.below(3)
    ways = [[start, 0, one, out, end], [start, lots.below(2), other, on, end]]
    if lots.below(3):
        ways.append([start, 0, one, 1 + lots.below(2), other, on, end])
    return ways


def weather_day(flights, seed=1):
    """A front that goes from west to east over four columns of five sectors, each of which takes half as many flights
    at most, or none, while it is there. Flights go from one side to the other through the sectors of a row; those of
    the next row, or of the two next ones, are other ways for them, a period longer."""
    lots = Lots(seed)
    rows, columns, full = 5, 4, 1 + flights // 75
    room = Room(15, 112)
    for k in range(rows):
        room.airport(f"W{k}", 1 + flights // 150, 1 + flights // 150)
        room.airport(f"E{k}", 1 + flights // 150, 1 + flights // 150)
    for column in range(columns):
        for row in range(rows):
            begin = 10 + 8 * column + lots.below(4)
            room.sector(f"Z{row}{column}", full)
            room.cap("sector", f"Z{row}{column}", begin, begin + 6 + lots.below(4), lots.below(1 + full // 2))
    records = []
    for leaves, flight in sorted((lots.below(44), flight) for flight in range(flights)):
        row, others = lots.below(rows), (1, rows - 1)[: 1 + lots.below(2)]
        sides, over = ("WE", range(columns)) if lots.below(2) else ("EW", range(columns - 1, -1, -1))
        start, end = f"{sides[0]}{row}", f"{sides[1]}{lots.below(rows)}"
        ways = []
        for hop in (0, *others):
            crossed = [part for k in over for part in (f"Z{(row + hop) % rows}{k}", 1 + k % 2)]
            ways.append([start, 1 + (hop > 0), *crossed, end])
        late = lateness(ways, leaves, room.lay(ways, leaves), 2 + lots.below(4))
        ground = 1 + lots.below(3)
        records += flight_records(flight, ways, leaves, late, (ground, ground + 1 + lots.below(2)))
    yield from room.records
    yield from records
