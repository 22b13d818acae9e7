#!/usr/bin/env python3
"""The script that the gate runs the program on, and what it must print.

    tests/cases.py           write crates/settle/stdin and crates/settle/stdout
    tests/cases.py --run     read a script from standard input and print what the program must print

The expected lines come from the model below, which is written from docs/ and shares nothing with the crates.
"""
import os
import random
import sys

TOP = os.path.join(os.path.dirname(os.path.abspath(__file__)), "..")

# ---- the register

MOST = {"region": 8, "corridor": 8, "link": 8, "point": 128, "dna": 8}
RANGES = {
    "region": [(1, 2**32 - 1)],
    "corridor": [(0, 7), (0, 7)],
    "link": [(0, 7), (0, 10000)],
    "point": [(0, 7), (0, 8), (5000, 15000), (8000, 12000)],
    "dna": [(0, 7), (0, 8), (5000, 15000)],
}


class Box:
    def __init__(self):
        self.entries = {kind: [] for kind in MOST}
        self.segments = {}
        self.plan = [(2**40, "lossless")]
        self.rule = ("equal", [1], [])


def enter(box, kind, fields):
    for i, (field, (low, high)) in enumerate(zip(fields, RANGES[kind])):
        if not low <= field <= high:
            return f"{kind} refused 11 register {i}"
    entries = box.entries[kind]
    if len(entries) >= MOST[kind]:
        return f"{kind} refused 10 register {len(entries)}"
    entries.append(tuple(fields))
    if kind != "point":
        return f"{kind} {len(entries) - 1}"
    factor, left = divmod(fields[2] * fields[3], 10000)
    return f"point {len(entries) - 1} factor {factor + (left >= 5000)}"


def broken(box):
    regions = len(box.entries["region"])
    corridors, links = box.entries["corridor"], box.entries["link"]
    points, dnas = box.entries["point"], box.entries["dna"]
    for i, (a, b) in enumerate(corridors):
        if not a < b < regions or (a, b) in corridors[:i]:
            return 256 + i
    for i, (corridor, _) in enumerate(links):
        if corridor >= len(corridors):
            return 512 + i
    for i, (region, dna, _, _) in enumerate(points):
        if region >= regions or dna and (dna > len(dnas) or dnas[dna - 1][0] != region):
            return 768 + i
    for i, (region, dna, _) in enumerate(dnas):
        feeders = sum(p[1] == i + 1 for p in points) + sum(d[1] == i + 1 for d in dnas)
        if region >= regions or dna and (dna > i or dnas[dna - 1][0] != region) or feeders > 16:
            return 1024 + i
    return None


# ---- losses and links


def fill(box, link, direction, upper, slope):
    line = box.segments.get((link, direction), [])
    if link > 7:
        return 0
    if direction > 1:
        return 1
    if not 1 <= upper <= 200000 or line and upper <= line[-1][0]:
        return 2
    if slope > 10000:
        return 3
    if len(line) >= 8:
        return 4
    box.segments[link, direction] = line + [(upper, slope)]
    return None


def loss(box, link, flow):
    kind = next(kind for below, kind in box.plan if link < below)
    if kind == "lossless":
        return 0
    line = box.segments.get((link, 0 if flow >= 0 else 1), [])
    total, low = 0, 0
    for i, (upper, slope) in enumerate(line):
        end = abs(flow) if i == len(line) - 1 else min(abs(flow), upper)
        total += slope * max(0, end - low)
        low = upper
    return total // 10000


def show_flows(box, flows, prices):
    place = broken(box)
    if place is not None:
        return [f"flows refused 8 register {place}"]
    words = [0x10000000]
    words += [2 << 28 | i << 24 | p & 0xFFFFFF for i, p in enumerate(prices)]
    words += [3 << 28 | i << 24 | f & 0xFFFFFF for i, f in enumerate(flows)]
    read = read_words(box, words + [6 << 28 | len(words)])
    if isinstance(read, str):
        return ["flows " + read]
    lines = []
    residue, together, net = [0] * 8, [0] * 8, [0] * 8
    for i, (corridor, part1) in enumerate(box.entries["link"]):
        exporter, importer = box.entries["corridor"][corridor]
        borne = part1
        if flows[i] <= 0:
            exporter, importer, borne = importer, exporter, 10000 - part1
        lost = loss(box, i, flows[i])
        entry = 10000 * abs(flows[i]) + borne * lost
        left = 10000 * abs(flows[i]) - (10000 - borne) * lost
        lines.append(f"link {i} from {exporter} to {importer} loss {lost} entry {entry} exit {left}")
        residue[corridor] += prices[importer] * left - prices[exporter] * entry
        together[corridor] += flows[i]
        net[exporter] += entry
        net[importer] -= left
    for c in range(len(box.entries["corridor"])):
        cents, grains = divmod(residue[c], 10**7)
        direction, sign = int(together[c] < 0), int(residue[c] < 0)
        lines.append(f"corridor {c} cents {cents} grains {grains} direction {direction} sign {sign}")
    return lines + [f"region {r} net {net[r]}" for r in range(len(box.entries["region"]))]


# ---- the words of an interval


def read_words(box, words):
    """A refusal as text, or the figures with the number of words used."""
    figures = {"number": 0, 2: [], 3: [], 4: {}, 5: {}}
    last, at = -1, 0
    due = [(1, 0, None)]
    due += [(2, i, (-100000, 2000000)) for i in range(len(box.entries["region"]))]
    due += [(3, i, (-200000, 200000)) for i in range(len(box.entries["link"]))]
    for at, (kind, number, limits) in enumerate(due):
        if at >= len(words):
            return f"refused 1 words {len(words)}"
        if words[at] >> 28 != kind:
            return f"refused 2 words {at}"
        if kind == 1:
            figures["number"] = words[at] & 0xFFFFFFF
            continue
        if words[at] >> 24 & 15 != number:
            return f"refused 4 words {at}"
        value = words[at] & 0xFFFFFF
        value -= (value >> 23) << 24
        if not limits[0] <= value <= limits[1]:
            return f"refused 3 words {at}"
        figures[kind].append(value)
    for at in range(len(due), len(words)):
        kind, point, energy = words[at] >> 28, words[at] >> 20 & 255, words[at] & 0xFFFFF
        if kind == 6:
            return (figures, at + 1) if words[at] & 0xFFFFFFF == at else f"refused 5 words {at}"
        if kind not in (4, 5):
            return f"refused 2 words {at}"
        if 2 * point + kind - 4 <= last:
            return f"refused 4 words {at}"
        if point >= len(box.entries["point"]) or energy > 200000:
            return f"refused 3 words {at}"
        last = 2 * point + kind - 4
        figures[kind][point] = energy
    return f"refused 1 words {len(words)}"


def show_read(box, words):
    read = read_words(box, words)
    if isinstance(read, str):
        return "read " + read
    figures, used = read
    fields = ["read words", used, "number", figures["number"]]
    fields += ["prices"] + figures[2] + ["flows"] + figures[3]
    for kind, name in (4, "sent"), (5, "taken"):
        for point, energy in sorted(figures[kind].items()):
            if energy:
                fields += [name, point, energy]
    return " ".join(map(str, fields))


# ---- rules


def choose_rule(box, words):
    parts = []
    while words[0] == "derogation":
        parts.append(int(words[1]))
        words = words[2:]
    kind, numbers = words[0], [int(w) for w in words[1:]]
    if kind == "equal" and not (len(numbers) == 1 and 1 <= numbers[0] <= 64):
        return "rule refused 12 making 0"
    if kind != "equal" and not (1 <= len(numbers) <= 16 and 1 <= sum(numbers) <= 10**6):
        return f"rule refused 12 making {len(numbers)}"
    box.rule = (kind, [1] * numbers[0] if kind == "equal" else numbers, parts)
    return "rule"


def show_shares(box, amount):
    kind, weights, parts = box.rule
    owners = len(weights) + len(parts)
    if owners > 64:
        return f"share {amount}: over 64 owners"
    shares, rest, total = [], amount, sum(weights)
    for part in parts:
        shares.append(rest * min(part, 10000) // 10000)
        rest -= shares[-1]
    if kind == "nearest":
        down = [rest * w // total for w in weights]
        order = sorted(range(len(weights)), key=lambda k: (-(rest * weights[k] % total), k))
        for k in order[: rest - sum(down)]:
            down[k] += 1
        shares += down
    else:
        upto = [rest * sum(weights[:k]) // total for k in range(len(weights) + 1)]
        shares += [b - a for a, b in zip(upto, upto[1:])]
    if abs(amount) > 10**12:
        shares = [0] * owners
    return f"share {amount}: " + " ".join(map(str, shares))


# ---- a script

COUNTS = {kind: len(ranges) for kind, ranges in RANGES.items()} | {"check": 0, "clear": 0, "segment": 4, "share": 1}


def fault(words):
    """What is wrong with a line, of the commands that take numbers alone."""
    name, rest = words[0], words[1:]
    if name not in COUNTS and name != "read":
        return "unknown command"
    if name != "read" and len(rest) != COUNTS[name]:
        return "wrong number of words"
    for word in rest:
        try:
            value = int(word, 16 if word.startswith("0x") else 10)
        except ValueError:
            value = None
        low, high = (-(2**63), 2**63) if name == "share" else (0, 2**32)
        if value is None or not low <= value < high:
            return "not a number, or one that does not fit"
    return "a command"


def run(script):
    box, lines = Box(), []
    for text in script.split("\n"):
        words = text.split("#")[0].split()
        if not words:
            continue
        name, rest = words[0], words[1:]
        if name == "clear":
            box = Box()
            lines.append("clear")
        elif name == "check":
            place = broken(box)
            lines.append("check: all references hold" if place is None else f"check refused 8 register {place}")
        elif name == "book":
            if len(rest) == 1:
                box.plan = [(8, rest[0])]
            else:
                box.plan = [(int(rest[i + 1]), rest[i + 2]) for i in range(0, len(rest) - 1, 3)]
                box.plan.append((2**40, rest[-1]))
            lines.append("book")
        elif name == "segment":
            unfit = fill(box, *[int(w) for w in rest])
            lines.append("segment" if unfit is None else f"segment refused 12 making {unfit}")
        elif name == "flows":
            at = rest.index("prices")
            lines += show_flows(box, [int(w) for w in rest[:at]], [int(w) for w in rest[at + 1 :]])
        elif name == "rule":
            lines.append(choose_rule(box, rest))
        elif name == "share":
            lines.append(show_shares(box, int(rest[0])))
        elif name == "read":
            lines.append(show_read(box, [int(w, 0) for w in rest]))
        elif name == "try":
            lines.append("try: " + fault(rest))
        else:
            lines.append(enter(box, name, [int(w, 0) for w in rest]))
    return "\n".join(lines) + "\n"


# ---- the cases


def example(name):
    with open(os.path.join(TOP, "examples", name)) as f:
        return f.read().rstrip()


def registers(out):
    """Entering at the edges of every range, full rolls, and each kind of broken reference."""
    base = {"region": [7], "corridor": [0, 1], "link": [0, 5000], "point": [0, 0, 10000, 10000], "dna": [0, 0, 10000]}
    out("", "clear", "# the edges of every range, one field at a time")
    for kind, ranges in RANGES.items():
        for i, (low, high) in enumerate(ranges):
            for value in ([low - 1] if low else []) + [low, high] + ([high + 1] if high < 2**32 - 1 else []):
                fields = list(base[kind])
                fields[i] = value
                out(" ".join(map(str, [kind] + fields)))
    out("", "clear", "# of several fields out of range the first counts", "corridor 8 9", "link 8 10001")
    out("point 8 9 4999 7999", "point 0 9 4999 7999", "point 0 0 15001 12001", "dna 8 9 4999", "dna 0 9 15001")
    out("", "clear", "# full rolls; a field out of range comes before a full roll")
    out(*[f"region {i + 1}" for i in range(9)], "region 0")
    out(*["corridor 0 1"] * 9, "corridor 0 8")
    out(*[f"link 0 {i}" for i in range(9)], *["dna 0 0 10000"] * 9)
    out(*[f"point 0 0 {5000 + i} 12000" for i in range(129)], "point 0 0 4000 12000")
    out("", "clear", "# factors: halves up", "point 0 0 10001 8500", "point 0 0 10001 8499", "point 0 0 10003 8500")
    out("point 0 0 15000 12000", "point 0 0 5000 8000", "point 0 0 9999 9999")


def references(out):
    def case(title, *lines):
        out("", "clear", "# " + title, *lines, "check")

    two, at0 = ["region 1", "region 2"], "point 0 0 10000 10000"
    case("nothing entered")
    case("a corridor of a region with itself", *two, "corridor 1 1")
    case("the higher region first", *two, "corridor 1 0")
    case("a region that is not entered", *two, "corridor 0 2")
    case("the last region entered", *two, "region 3", "corridor 0 1", "corridor 1 2", "corridor 0 2")
    case("the pair of an earlier corridor", *two, "region 3", "corridor 0 1", "corridor 1 2", "corridor 0 1")
    case("a link of a corridor that is not entered", *two, "corridor 0 1", "link 0 0", "link 1 10000")
    case("a corridor fails before a link", *two, "link 3 1", "corridor 1 0")
    case("a point in a region that is not entered", *two, "point 1 0 10000 10000", "point 2 0 10000 10000")
    case("a point of an asset that is not entered", *two, "dna 1 0 10000", "point 1 1 10000 10000", "point 1 2 10000 10000")
    case("a point of an asset in another region", *two, "dna 1 0 10000", "point 0 1 10000 10000")
    case("a link fails before a point", "region 1", "point 4 0 10000 10000", "link 0 1")
    case("an asset in a region that is not entered", *two, "dna 2 0 10000")
    case("an asset downstream of itself", *two, "dna 1 1 10000")
    case("a downstream asset with a higher number", *two, "dna 1 2 10000", "dna 1 0 10000")
    case("a downstream asset in another region", *two, "dna 0 0 10000", "dna 1 1 10000")
    case("a chain of eight", *two, *[f"dna 1 {i} 10000" for i in range(8)])
    case("a point fails before an asset", "region 1", "dna 3 0 10000", at0, "point 7 0 10000 10000")
    feeder = "point 0 1 10000 10000"
    case("sixteen points feed an asset", "region 1", "dna 0 0 10000", *[feeder] * 16)
    case("seventeen points feed an asset", "region 1", "dna 0 0 10000", *[feeder] * 17)
    star = ["dna 0 0 10000"] + ["dna 0 1 10000"] * 7
    case("nine points and seven assets feed an asset", "region 1", *star, *[feeder] * 9)
    case("ten points and seven assets feed an asset", "region 1", *star, *[feeder] * 10)
    chain = ["dna 0 0 10000", "dna 0 1 10000"] + ["dna 0 2 10000"] * 6
    case("eleven points and six assets feed asset 1", "region 1", *chain, *["point 0 2 10000 10000"] * 11)
    case("the last point fails", "region 1", *[at0] * 127, "point 1 0 10000 10000")
    case("the last link fails", "region 1", "region 2", "corridor 0 1", *["link 0 0"] * 7, "link 1 0")


def faults(out):
    out("", "clear", "# lines that are no command")
    for line in (
        "region 4294967295",
        "region 4294967296",
        "region 0xFFFFFFFF",
        "region 0x1FFFFFFFF",
        "region -1",
        "region",
        "region 1 2",
        "Region 1",
        "corridor 0 x",
        "corridor 0",
        "link 1 2 3",
        "point 0 0 1 2 3",
        "dna 0 0 9 9",
        "check 1",
        "clear",
        "segment 1 2 3",
        "share 9223372036854775807",
        "share 9223372036854775808",
        "share -9223372036854775808",
        "share 1 2",
        "read 0 0x",
        "read",
        "pay 1",
    ):
        out("try " + line)


def words(out):
    """Each refusal of the reader at its first and last places, the edges of the ranges, the order of the checks."""

    def read(*ws):
        out(" ".join(["read"] + ["0x%08X" % w for w in ws]))

    def figure(kind, i, value):
        return kind << 28 | i << 24 | value & 0xFFFFFF

    def sent(point, energy):
        return 4 << 28 | point << 20 | energy

    def taken(point, energy):
        return 5 << 28 | point << 20 | energy

    def end(count):
        return 6 << 28 | count

    out("", "clear", "# words of an interval: refusals at their first and last places")
    out("region 1", "region 2", "corridor 0 1", "link 0 6000", "link 0 0", *["point 0 0 10000 10000"] * 3)
    head = [1 << 28 | 7, figure(2, 0, 100), figure(2, 1, -5), figure(3, 0, 10), figure(3, 1, -10)]
    full = head + [sent(0, 1), taken(0, 2), sent(1, 3), taken(2, 4), end(9)]
    read()
    read(*full)
    for n in range(len(full)):
        read(*full[:n])
    for i, word in enumerate(full):
        for kind in range(16):
            if kind != word >> 28:
                read(*full[:i], kind << 28 | word & 0xFFFFFFF, *full[i + 1 :])
    for count in (0, 8, 10, 0xFFFFFFF):
        read(*full[:-1], end(count))
    read(0x1FFFFFFF, *full[1:])
    for price in (-100001, -100000, 2000000, 2000001, 8388607, -8388608):
        read(full[0], figure(2, 0, price), *full[2:])
        read(*full[:2], figure(2, 1, price), *full[3:])
    for flow in (-200001, -200000, 200000, 200001):
        read(*full[:3], figure(3, 0, flow), *full[4:])
        read(*full[:4], figure(3, 1, flow), *full[5:])
    for energy in (0, 200000, 200001, 1048575):
        read(*head, sent(2, energy), end(6))
        read(*head, taken(0, energy), end(6))
    for point in (2, 3, 127, 255):
        read(*head, sent(point, 1), end(6))
    out("# order of the checks within a word, and readings that do not rise")
    read(full[0], figure(2, 1, 9999999), *full[2:])
    read(full[0], 3 << 28 | 1 << 24 | 0x700000, *full[2:])
    for first, second in (
        (taken(0, 1), sent(0, 1)),
        (sent(1, 1), sent(1, 1)),
        (taken(1, 1), taken(1, 2)),
        (sent(2, 1), taken(1, 1)),
        (sent(1, 1), taken(1, 1)),
        (taken(0, 1), sent(1, 1)),
        (sent(2, 1), sent(1, 999999)),
        (sent(2, 1), 7 << 28 | 1),
    ):
        read(*head, first, second, end(7))
    read(*full, 0, 1, 2)
    read(*head, end(5), end(6))
    read(*head, sent(0, 0), end(6))


def between_regions(out, rnd):
    def some(low, high):
        near = rnd.randint(max(low, -50), min(high, 50))
        return rnd.choice([low, high, rnd.randint(low, high), rnd.randint(low, high), near])

    books = ["lossless", "segments", "segments", "split 1 segments lossless", "split 2 lossless segments"]
    books += ["split 1 lossless split 3 segments lossless", "split 0 lossless split 2 segments segments"]
    out("", "# random registers, books and flows")
    for _ in range(40):
        regions = rnd.randint(2, 8)
        pairs = [(a, b) for a in range(regions) for b in range(a + 1, regions)]
        rnd.shuffle(pairs)
        corridors, links = rnd.randint(1, min(8, len(pairs))), rnd.randint(1, 8)
        out("", "clear", *[f"region {i + 1}" for i in range(regions)])
        out(*[f"corridor {a} {b}" for a, b in pairs[:corridors]])
        out(*[f"link {rnd.randrange(corridors)} {some(0, 10000)}" for _ in range(links)])
        for _ in range(rnd.randint(0, 14)):
            link, direction = rnd.choice([0, 0, 1, 1, 2, 3, 7, 8]), rnd.choice([0, 0, 1, 1, 2])
            out(f"segment {link} {direction} {some(1, 200001)} {some(0, 10001)}")
        out("book " + rnd.choice(books))
        for _ in range(3):
            flows = [some(-200000, 200000) for _ in range(links)]
            prices = [some(-100000, 2000000) for _ in range(regions)]
            if rnd.random() < 0.08:
                flows.append(1)
            if rnd.random() < 0.08:
                prices.pop()
            if rnd.random() < 0.08:
                flows[rnd.randrange(len(flows))] = rnd.choice([200001, -200001])
            out(" ".join(map(str, ["flows"] + flows + ["prices"] + prices)))
    out("", "clear", "# a ninth segment; segments at their edges")
    out(*[f"segment 7 1 {1000 * (i + 1)} {i * 100}" for i in range(9)])
    out("segment 7 1 200000 10000", "segment 7 1 9001 1", "segment 0 0 1 10000", *["segment 0 0 200000 0"] * 2)
    out("region 1", "region 2", "corridor 0 1", *["link 0 5000"] * 8, "book segments")
    for flow in (0, 1, 2, 200000, -1, -1000, -1001, -9000, -200000):
        out(f"flows {' '.join([str(flow)] * 8)} prices 1 -1")


def rules(out, rnd):
    unfit = [[0], [0, 0], [1000000], [1000001], [500000, 500001], list(range(17)), [999999, 1, 0]]
    edges = [0, 1, -1, 99, -99, 10**12, -(10**12), 10**12 + 1, -(10**12) - 1, 2**63 - 1, -(2**63)]
    out("", "clear", "# random rules and amounts")
    for _ in range(60):
        kind = rnd.choice(["equal", "running", "nearest"])
        words = []
        for _ in range(rnd.choice([0, 0, 1, 2])):
            words += ["derogation", rnd.choice([0, 1, 5000, 9999, 10000, 10001, rnd.randint(0, 12000)])]
        if kind == "equal":
            numbers = [rnd.choice([0, 1, 2, 3, 5, 17, 40, 62, 63, 64, 65])]
        elif rnd.random() < 0.1:
            numbers = rnd.choice(unfit)
        else:
            numbers = [rnd.choice([0, 1, 62500, rnd.randint(0, 62500)]) for _ in range(rnd.choice([1, 2, 3, 3, 4, 7, 15, 16]))]
        out(" ".join(map(str, ["rule"] + words + [kind] + numbers)))
        for _ in range(3):
            out(f"share {rnd.choice([rnd.randint(-(10**12), 10**12), rnd.randint(-1000, 1000)])}")
        out(f"share {rnd.choice(edges)}")


def script():
    lines = [example("register.txt")]

    def out(*more):
        lines.extend(more)

    registers(out)
    references(out)
    for name in ("between-regions.txt", "shares.txt", "words.txt"):
        out("", "clear", example(name))
    faults(out)
    words(out)
    rnd = random.Random(20261118)
    between_regions(out, rnd)
    rules(out, rnd)
    return "\n".join(lines) + "\n"


def main():
    if sys.argv[1:] == ["--run"]:
        sys.stdout.write(run(sys.stdin.read()))
        return
    text = script()
    for name, content in ("stdin", text), ("stdout", run(text)):
        with open(os.path.join(TOP, "crates", "settle", name), "w") as f:
            f.write(content)


main()
