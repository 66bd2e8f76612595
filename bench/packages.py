"""Packages of hours for the comparison: sound, refused and damaged.

Every package follows from its number alone (`package`), so a run can be repeated and a single case
looked at: `python3 bench/packages.py NUMBER` writes it to standard output.
"""

import random
import struct
import sys

SEED = 20_407
MAX_BYTES = 44_340
MAX_PRICE = 1_000_000
MAX_RENT = 3_000_000_000
OWNERS = 128
LARGEST = (32, 256, 1024)


class Hour:
    """The rows of one package, each a list so that a case can spoil a figure."""

    def __init__(self, rng):
        weekday, ending = rng.randrange(7), rng.randint(1, 24)
        self.day = [rng.randint(1, 744), weekday, ending, 0]
        self.constraints = []  # shadow price, deration factor
        self.points = []  # letter, price, minimum, maximum
        self.factors = []  # a list for each point
        self.holdings = []  # owner, letter, source, sink, quantity, block, actual, Real-Time quantity

    def block(self):
        _, weekday, ending, _ = self.day
        if not 7 <= ending <= 22:
            return "N"
        return "W" if weekday < 5 else "E"

    def records(self):
        """The package's records in their order, each as a letter and its fields."""
        yield "D", struct.pack(">HBBQ", *self.day)
        for row in self.constraints:
            yield "C", struct.pack(">IH", *row)
        for (letter, *prices), factors in zip(self.points, self.factors):
            yield "P", struct.pack(f">c3i{len(factors)}h", letter.encode(), *prices, *factors)
        for owner, letter, source, sink, quantity, block, actual, real_time in self.holdings:
            yield "H", struct.pack(">HcHHIcII", owner, letter.encode(), source, sink, quantity,
                                   block.encode(), actual, real_time)

    def encode(self):
        return package_of(framed(letter, fields) for letter, fields in self.records())


def framed(letter, fields):
    return struct.pack(">Hc", len(fields) + 1, letter.encode()) + fields


def package_of(records):
    body = b"\x01" + b"".join(records)
    return struct.pack(">I", len(body)) + body


def records_of(hour):
    return [framed(letter, fields) for letter, fields in hour.records()]


# Sound hours


def random_point(rng):
    letter = rng.choice("RRRRZZH")
    price = rng.randint(-1500, 9000)
    if letter != "R":
        return [letter, price, 0, 0]
    low, high = sorted((rng.randint(-3000, 9000), rng.randint(-3000, 9000)))
    return [letter, price, low, high]


def add_tables(hour, rng, constraints, points):
    # Deration takes a little of most payments, some of them, or all that is above the floor.
    dearest = rng.choice((50, 1000, 60_000))
    hour.constraints = [[rng.randint(0, dearest), rng.randint(0, 10_000)] for _ in range(constraints)]
    hour.points = [random_point(rng) for _ in range(points)]
    hour.factors = [[rng.randint(-5000, 5000) for _ in range(constraints)] for _ in range(points)]


def random_holding(hour, rng, letters):
    """A holding that is served, or None where the points picked do not serve its letter."""
    source, sink = rng.sample(range(len(hour.points)), 2)
    letter = rng.choice(letters)
    refund = letter in "bo"
    if refund and (hour.points[source][0] != "R" or hour.points[sink][0] == "R"):
        return None
    actual = rng.randint(0, 12_000) if refund else 0
    real_time = rng.choice((0, rng.randint(0, 4000))) if refund else 0
    quantity = rng.randint(1, 6000)
    return [rng.randrange(OWNERS), letter, source, sink, quantity, hour.block(), actual, real_time]


def add_holdings(hour, rng, count, letters="BObo"):
    """Adds holdings of different rights, all served; fewer where the points have no more to give."""
    rights = {tuple(holding[:4]) for holding in hour.holdings}
    if len(hour.points) < 2:
        return
    for _ in range(20 * count + 20):
        if len(hour.holdings) == count:
            break
        holding = random_holding(hour, rng, letters)
        if holding and tuple(holding[:4]) not in rights:
            rights.add(tuple(holding[:4]))
            hour.holdings.append(holding)


def hour_of(rng, constraints, points, holdings):
    hour = Hour(rng)
    add_tables(hour, rng, constraints, points)
    add_holdings(hour, rng, holdings)
    # About what such holdings are paid, so that hours with and without a shortfall both come.
    hour.day[3] = rng.randint(0, 400_000) * (len(hour.holdings) + 1)
    return hour


def few(rng):
    return hour_of(rng, rng.randint(0, 4), rng.randint(2, 8), rng.randint(0, 8))


def middling(rng):
    return hour_of(rng, rng.randint(0, 32), rng.randint(2, 64), rng.randint(0, 96))


def largest(rng):
    return hour_of(rng, *LARGEST)


def empty(rng):
    hour = Hour(rng)
    power = 10 ** rng.randint(1, 9)
    hour.day[3] = rng.choice((0, power, power - 1, MAX_RENT, rng.randint(0, MAX_RENT)))
    return hour


def only_tables(rng):
    hour = empty(rng)
    add_tables(hour, rng, rng.choice((0, 1, 31, 32)), rng.choice((0, 1, 2, 255, 256)))
    return hour


def shortage(rng):
    hour = hour_of(rng, rng.randint(0, 8), rng.randint(2, 32), rng.randint(1, 64))
    hour.day[3] = rng.choice((0, 1, rng.randint(0, 100_000)))
    return hour


def edge(rng, least, most):
    return rng.choice((least, least + 1, (least + most) // 2, most - 1, most, rng.randint(least, most)))


def edge_point(rng, price):
    letter = rng.choice("RRZH")
    if letter != "R":
        return [letter, edge(rng, -price, price), 0, 0]
    low, high = sorted((edge(rng, -price, price), edge(rng, -price, price)))
    return [letter, edge(rng, -price, price), low, high]


def extremes(rng):
    """Every figure at or near an end of its range. Price and quantity are seldom both large, since the
    hour's money would pass its limit."""
    hour = Hour(rng)
    hour.day = [edge(rng, 1, 744), edge(rng, 0, 6), edge(rng, 1, 24), edge(rng, 0, MAX_RENT // 2)]
    price, quantity = rng.choice(((MAX_PRICE, 2000), (9000, 100_000), (MAX_PRICE, 100_000), (5, 5)))
    count = rng.choice((1, 2, 31, 32))
    hour.constraints = [[edge(rng, 0, MAX_PRICE), edge(rng, 0, 10_000)] for _ in range(count)]
    hour.points = [edge_point(rng, price) for _ in range(rng.choice((2, 3, 8, 256)))]
    hour.factors = [[edge(rng, -10_000, 10_000) for _ in range(count)] for _ in hour.points]
    add_holdings(hour, rng, rng.randint(1, 12))
    for holding in hour.holdings:
        holding[0] = edge(rng, 0, OWNERS - 1)
        holding[4] = edge(rng, 1, quantity)
        if holding[1] in "bo":
            holding[6:] = [edge(rng, 0, 800_000), edge(rng, 0, 100_000)]
    drop_repeats(hour)
    return hour


def drop_repeats(hour):
    kept = {tuple(holding[:4]): holding for holding in hour.holdings}
    hour.holdings = list(kept.values())


def halves(rng):
    """Small prices and quantities, where each rounding meets a half or lies just beside one."""
    hour = Hour(rng)
    hour.day[3] = rng.randint(0, 100)
    # Together these two derate by half a cent, or by a hundred-millionth of one less or more.
    hour.constraints = [[5000, 9999], [rng.choice((4999, 5000, 5001)), 1]]
    for _ in range(rng.randint(2, 8)):
        low, high = sorted((rng.randint(-6, 6), rng.randint(-6, 6)))
        letter = rng.choice("RRRZH")
        hour.points.append([letter, rng.randint(-6, 6), *((low, high) if letter == "R" else (0, 0))])
        hour.factors.append([rng.choice((-1, 0, 0, 1)) for _ in hour.constraints])
    add_holdings(hour, rng, rng.randint(1, 12))
    for holding in hour.holdings:
        holding[4] = rng.choice((1, 5, 15, 25, rng.randint(1, 100)))
        if holding[1] in "bo":
            holding[6:] = [rng.randint(0, 60), rng.choice((0, rng.randint(0, 60)))]
    return hour


# Hours that posting refuses


def some_holdings(rng):
    hour = hour_of(rng, rng.randint(0, 6), rng.randint(3, 24), rng.randint(2, 40))
    if not hour.holdings:
        hour.points[:2] = [["R", 100, 0, 0], ["Z", 200, 0, 0]]
        hour.holdings = [[0, "B", 0, 1, 10, hour.block(), 0, 0]]
    return hour


def off_roll(hour, rng):
    rng.choice(hour.holdings)[0] = rng.choice((OWNERS, OWNERS + 1, 256, 65_535, rng.randint(OWNERS, 65_535)))


def no_pair(hour, rng):
    holding, end = rng.choice(hour.holdings), rng.choice((2, 3))
    past = len(hour.points)
    holding[end] = rng.choice((past, 65_535, rng.randint(past, 65_535), holding[5 - end]))


def other_block(hour, rng):
    rng.choice(hour.holdings)[5] = rng.choice([block for block in "WEN" if block != hour.block()])


def not_served(hour, rng):
    """Refund from a point that is not R, or to one that is."""
    hour.points[0], hour.points[1] = ["Z", 5, 0, 0], ["H", 7, 0, 0]
    hour.points[2] = ["R", 6, -1, 8]
    source, sink = rng.choice(((0, 1), (0, 2), (1, 2), (1, 0)))
    rng.choice(hour.holdings)[1:4] = [rng.choice("bo"), source, sink]


def repeated(hour, rng):
    again = list(rng.choice(hour.holdings))
    again[4] = rng.randint(1, 6000)
    hour.holdings.insert(rng.randint(0, len(hour.holdings)), again)


def nearly_repeated(hour, rng):
    """One of owner, letter and pair differs, so the right is another."""
    again = list(rng.choice(hour.holdings))
    if rng.random() < 0.5:
        again[0] = (again[0] + rng.choice((1, 64, 127))) % OWNERS
    else:
        again[1] = {"B": "O", "O": "B", "b": "o", "o": "b"}[again[1]]
    hour.holdings.append(again)


def credits_over(hour, rng):
    spend(hour, rng, +1)


def charges_over(hour, rng):
    spend(hour, rng, -1)


def spend(hour, rng, sign):
    """Payments or charges of 3,000,000,000 cents and a few more or fewer, over several owners."""
    hour.points = [["Z", 0, 0, 0], ["H", sign * 300_000, 0, 0], ["Z", sign, 0, 0]]
    hour.factors = [[0] * len(hour.constraints) for _ in hour.points]
    parts = rng.choice(([100_000], [60_000, 40_000], [50_000, 25_000, 25_000], [99_999]))
    hour.holdings = [[owner, "B", 0, 1, part, hour.block(), 0, 0] for owner, part in enumerate(parts)]
    more = rng.choice((4, 5, 10, 14))
    hour.holdings.append([rng.randrange(OWNERS), "B", 0, 2, more, hour.block(), 0, 0])
    hour.day[3] = rng.choice((0, 1, MAX_RENT)) if sign > 0 else rng.choice((0, 0, 1))


def balance_over(hour, rng):
    """A rent at its limit, and charges about as high as the credits, or a little above."""
    hour.day[3] = MAX_RENT
    hour.points = [["Z", 0, 0, 0], ["H", 1, 0, 0], ["Z", -1, 0, 0]]
    hour.factors = [[0] * len(hour.constraints) for _ in hour.points]
    hour.holdings = [[1, "B", 0, 1, rng.choice((4, 5, 10, 15)), hour.block(), 0, 0],
                     [2, "B", 0, 2, rng.choice((4, 5, 10, 15)), hour.block(), 0, 0]]


SPOIL = (off_roll, no_pair, other_block, not_served, repeated)
MONEY = (credits_over, charges_over, balance_over)


def spoiled(rng, *ways):
    hour = some_holdings(rng)
    for way in ways:
        way(hour, rng)
    return hour


def twice_spoiled(rng):
    """Two faults in one hour: the first holding's counts, and in one holding the first test's."""
    return spoiled(rng, rng.choice(SPOIL), rng.choice(SPOIL))


# Damaged packages


def flipped(data, rng):
    data = bytearray(data)
    for _ in range(rng.choice((1, 1, 1, 2, 3))):
        data[rng.randrange(len(data))] ^= 1 << rng.randrange(8)
    return bytes(data)


def with_length(data):
    """The package with its length made true again, so that a later test is the one to refuse it."""
    return struct.pack(">I", len(data) - 4) + data[4:] if len(data) >= 4 else data


def truncated(data, rng):
    data = data[:rng.randrange(len(data))]
    return with_length(data) if rng.random() < 0.7 else data


def trailed(data, rng):
    data += rng.choice((b"\0", b"\0\0", b"\0\1", b"\0\1H", b"\0\1X", b"\n", rng.randbytes(rng.randint(1, 30))))
    return with_length(data) if rng.random() < 0.7 else data


def wrong_length(data, rng):
    wrong = rng.choice((0, 1, len(data), len(data) - 5, len(data) - 3, 2**31 - 1, 2**32 - 1, len(data) << 8))
    return struct.pack(">I", wrong) + data[4:]


def wrong_version(data, rng):
    return data[:4] + bytes([rng.choice((0, 2, 3, 0x31, 255))]) + data[5:]


def tiny(rng):
    return rng.choice((b"", b"\0", b"\0\0\0\0", b"\0\0\0\1\1", b"\0\0\0\1\2", b"\0\0\0\0\1", b"\0\0\0\2\1\0",
                       b"\0\0\0\3\1\0\0", b"\0\0\0\4\1\0\1D", rng.randbytes(rng.randint(0, 40)),
                       with_length(b"\0\0\0\0\1" + rng.randbytes(rng.randint(0, 40)))))


def over_long(rng):
    data = largest(rng).encode()
    data += rng.choice((b"\0", bytes(4096), bytes(60_000)))
    return with_length(data) if rng.random() < 0.5 else data


def misplaced(rng):
    """A record moved, exchanged, doubled, left out or given a letter that is unknown."""
    records = records_of(some_holdings(rng))
    at, other = rng.randrange(len(records)), rng.randrange(len(records))
    way = rng.randrange(5)
    if way == 0:
        records[at], records[other] = records[other], records[at]
    elif way == 1:
        records.insert(at, records.pop(other))
    elif way == 2:
        records.insert(other, records[0])
    elif way == 3:
        records.pop(rng.choice((0, at)))
    else:
        records[at] = records[at][:2] + rng.choice((b"A", b"d", b"\0", b"\xff", b"Q")) + records[at][3:]
    return package_of(records)


def resized(rng):
    """A record with a byte too many or too few, or with a length that does not fit its bytes."""
    records = records_of(some_holdings(rng))
    at = rng.randrange(len(records))
    length, body = len(records[at]) - 2, records[at][2:]
    way = rng.randrange(4)
    if way == 0:
        body += bytes(rng.choice((1, 2)))
    elif way == 1:
        body = body[:-rng.choice((1, 2))]
    if way < 2:
        length = len(body)
    else:
        length = rng.choice((0, 1, length - 1, length + 1, 0xFFFF))
    records[at] = struct.pack(">H", length) + body
    return package_of(records)


def one_too_many(rng):
    """A 33rd C, a 257th P or a 1,025th H: sound, too short or out of range, which does not matter."""
    letter = rng.choice("CPH")
    hour = hour_of(rng, 32 if letter == "C" else rng.randint(0, 2), 256 if letter == "P" else 64, 0)
    if letter == "H":
        add_holdings(hour, rng, 1024)
    records = records_of(hour)
    last = max(at for at, record in enumerate(records) if record[2:3] == letter.encode())
    sound_one = records[last]
    out_of_range = sound_one[:3] + b"\xff" * (len(sound_one) - 3)
    records.insert(last + 1, rng.choice((sound_one, framed(letter, b""), out_of_range)))
    return package_of(records)


PAST_RANGE = {
    "day": ((0, (0, 745, 65_535)), (1, (7, 255)), (2, (0, 25, 255)), (3, (MAX_RENT + 1, 2**32, 2**63, 2**64 - 1))),
    "constraints": ((0, (MAX_PRICE + 1, 2**31, 2**32 - 1)), (1, (10_001, 65_535))),
    "points": ((0, ("A", "r", "z", "\0")),
               *((at, (MAX_PRICE + 1, -MAX_PRICE - 1, -2**31, 2**31 - 1)) for at in (1, 2, 3))),
    "factors": ((0, (10_001, -10_001, -2**15, 2**15 - 1)), (-1, (10_001, -10_001))),
    "holdings": ((1, ("A", "w", "\0")), (4, (0, 100_001, 2**32 - 1)), (5, ("w", "B", "\0")),
                 (6, (800_001, 2**31, 2**32 - 1)), (7, (100_001, 2**32 - 1))),
}


def past_range(rng):
    """One figure or letter out of its range."""
    hour = spoiled(rng)
    if not hour.constraints:
        hour.constraints = [[1, 1]]
        hour.factors = [[0] for _ in hour.points]
    table = rng.choice(list(PAST_RANGE))
    row = hour.day if table == "day" else rng.choice(getattr(hour, table))
    at, values = rng.choice(PAST_RANGE[table])
    row[at] = rng.choice(values)
    return hour.encode()


def crossed_range(rng):
    """Figures that are in range by themselves but not beside the rest of their row."""
    hour = some_holdings(rng)
    way, point, holding = rng.randrange(4), rng.choice(hour.points), rng.choice(hour.holdings)
    if way == 0:
        point[:] = ["R", 0, 1, 0]
    elif way == 1:
        point[:] = [rng.choice("ZH"), 0, *rng.choice(((0, 1), (-1, 0), (-1, 1), (1, 1)))]
    else:
        holding[1], holding[way + 4] = rng.choice("BO"), rng.choice((1, 100_000))
    return hour.encode()


def damaged(*ways):
    return lambda rng: rng.choice(ways)(rng.choice((few, middling))(rng).encode(), rng)


def sound(hour):
    return lambda rng: hour(rng).encode()


def refused(*ways):
    return lambda rng: spoiled(rng, rng.choice(ways)).encode()


# Each kind with how many of a thousand cases are of it.
KINDS = (
    (140, "few", sound(few)),
    (120, "middling", sound(middling)),
    (10, "largest", sound(largest)),
    (15, "empty", sound(empty)),
    (15, "only tables", sound(only_tables)),
    (50, "shortage", sound(shortage)),
    (80, "extremes", sound(extremes)),
    (40, "halves", sound(halves)),
    (30, "nearly repeated", refused(nearly_repeated)),
    (120, "refused by posting", refused(*SPOIL)),
    (60, "refused twice", sound(twice_spoiled)),
    (60, "money", refused(*MONEY)),
    (50, "bits flipped", damaged(flipped)),
    (30, "truncated", damaged(truncated)),
    (20, "trailed", damaged(trailed)),
    (20, "length or version", damaged(wrong_length, wrong_version)),
    (15, "tiny", tiny),
    (5, "over-long", over_long),
    (35, "misplaced", misplaced),
    (25, "resized", resized),
    (10, "one too many", one_too_many),
    (40, "out of range", past_range),
    (10, "out of range together", crossed_range),
)


def package(number):
    """The case of this number: the name of its kind, and its bytes."""
    rng = random.Random(SEED * 1_000_003 + number)
    weights = [weight for weight, _, _ in KINDS]
    (_, name, make), = rng.choices(KINDS, weights)
    return name, make(rng)


def measured(constraints, points, holdings, derated=False):
    """The hour whose instructions are counted. All with the same tables share their holdings' order, so
    a smaller count of holdings is a part of a larger one."""
    rng = random.Random(SEED)
    hour = hour_of(rng, constraints, points, 0)
    if derated:
        # A floor of 0 and a positive target price: deration counts for every holding.
        hour.points = [["R", 1000, 9000, 9000] if at % 2 else ["Z", 5000 + at, 0, 0] for at in range(points)]
    letters = "bo" if derated else "BObo"
    add_holdings(hour, rng, LARGEST[2], letters)
    hour.holdings = hour.holdings[:holdings]
    hour.day[3] = 100_000_000
    return hour.encode()


if __name__ == "__main__":
    sys.stdout.buffer.write(package(int(sys.argv[1]))[1])
