#!/usr/bin/env python3
"""Checks of the member, against a second computation that keeps all that came as plain lists: tests/member_check.py PROGRAM

tests/run runs them too. What goes wrong is printed, and the status is then 1. What the program's exchange sent is read from its LIVE and
SNAP lines; which bytes of them, changed or not, are delivered is drawn or runs through all changes of one byte.
"""

import concurrent.futures
import csv
import functools
import itertools
import pathlib
import random
import socket
import struct
import subprocess
import sys
import tempfile
import time

TOP = pathlib.Path(__file__).resolve().parent.parent
SAMPLE = TOP / "samples" / "sample.csv"
SECONDS = 120
WORKERS = 4

# The messages of each channel behind the header, by their templates, and what each template is on the feed.
LIVE_ROLES = ["Heartbeat", "OrderAdd", "OrderModify", "OrderModifySamePriority", "OrderDelete", "OrderMassDelete", "PartialOrderExecution", "FullOrderExecution", "ExecutionSummary"]
SNAP_ROLES = ["ProductSummary", "InstrumentSummary", "SnapshotOrder"]
UNNUMBERED = ["PacketHeader", "Heartbeat", *SNAP_ROLES]
PRICES = ["Price", "PrevPrice", "LastPx"]
QUANTITIES = ["DisplayQty", "PrevDisplayQty", "LastQty"]
STAMPS = ["TrdRegTSTimePriority", "TrdRegTSPrevTimePriority", "AggressorTime"]
TOP_NUMBER = 2**32 - 1


class Template:
    """Where the fields of a message lie, by the rows of a layout table."""

    def __init__(self, rows):
        self.name = rows[0]["template"]
        self.length = max(int(row["offset"]) + int(row["width"]) for row in rows)
        self.fields = [(row["field"], int(row["offset"]), int(row["width"]), row["kind"] == "I", row["null"]) for row in rows if not row["field"].startswith("Pad")]

    def values(self, message):
        """The numbers of the fields, and whether one of them stands for no value."""
        numbers, null = {}, False
        for name, offset, width, signed, none in self.fields:
            numbers[name] = int.from_bytes(message[offset : offset + width], "little", signed=signed)
            counts = name != "MsgSeqNum" or self.name not in UNNUMBERED
            null = null or (counts and none != "" and numbers[name] == int(none))
        return numbers, null


@functools.cache
def templates():
    with open(SAMPLE, newline="") as file:
        rows = [row for row in csv.DictReader(file) if row["family"] == "EOBI"]
    return {int(ident): Template(list(group)) for ident, group in itertools.groupby(rows, lambda row: row["id"])}


class Bad(Exception):
    """A datagram is refused: why, and the place of the message in fault."""


def is_in_range(name, number):
    if name in ("ApplSeqNum", "MsgSeqNum"):
        return 1 <= number < TOP_NUMBER
    if name == "LastMsgSeqNumProcessed":
        return number < TOP_NUMBER
    if name in ("Side", "AggressorSide"):
        return number in (1, 2)
    if name in PRICES:
        return abs(number) <= 10**17
    if name in QUANTITIES:
        return 1 <= number <= 10**15
    return name not in STAMPS or 1 <= number < 2**63


def message_at(data, place, roles):
    """The message at a place: its bytes, its template or None, and its numbers where it has a role here."""
    length = int.from_bytes(data[place : place + 2], "little")
    if len(data) - place < 8 or not 8 <= length <= len(data) - place:
        raise Bad("cut", place)
    message = data[place : place + length]
    template = templates().get(int.from_bytes(message[2:4], "little"))
    name = template.name if template else None
    if place == 0 and name != "PacketHeader":
        raise Bad("no header", 0)
    if template and length < template.length:
        raise Bad("length", place)
    if name not in (["PacketHeader"] if place == 0 else roles):
        return message, name, None
    numbers, null = template.values(message)
    if null:
        raise Bad("null", place)
    if not all(is_in_range(field, number) for field, number in numbers.items() if field != "MsgSeqNum" or name not in UNNUMBERED):
        raise Bad("value", place)
    if place == 0 and numbers["MarketSegmentID"] != 7:
        raise Bad("product", 0)
    return message, name, numbers


def read(data, roles):
    """The number of a datagram, and its messages with a role of the channel, or any that has a number."""
    if len(data) > 1472:
        raise Bad("too long", 1472)
    message, _, header = message_at(data, 0, roles)
    place, items = len(message), []
    while place < len(data):
        message, name, numbers = message_at(data, place, roles)
        place += len(message)
        if numbers is None and roles is LIVE_ROLES:
            number = int.from_bytes(message[4:8], "little")
            if 1 <= number < TOP_NUMBER:
                items.append(("Other", {"MsgSeqNum": number}))
        elif numbers is not None:
            items.append((name, numbers))
    return header["ApplSeqNum"], items


class Misfit(Exception):
    """A message doesn't fit the book: why."""


class Book:
    """The resting orders by security, side and stamp: each a price and a quantity."""

    def __init__(self, securities):
        self.securities, self.orders = securities, {}

    def tested(self, name, price=None, quantity=None):
        if name not in self.orders:
            raise Misfit("absent")
        kept_price, kept = self.orders[name]
        if price not in (None, kept_price):
            raise Misfit(f"price {kept_price} {price}")
        if quantity not in (None, kept):
            raise Misfit(f"quantity {kept} {quantity}")
        return kept

    def add(self, name, price, quantity):
        if name in self.orders:
            raise Misfit("present")
        if len(self.orders) >= 20_000:
            raise Misfit("full")
        self.orders[name] = (price, quantity)

    def apply(self, kind, said):
        """Carries out a message that fits; else the book is as before."""
        if kind == "Other":
            return
        if said["SecurityID"] not in self.securities:
            raise Misfit("security")
        name = (said["SecurityID"], said.get("Side"), said.get("TrdRegTSTimePriority"))
        price, quantity, last = said.get("Price"), said.get("DisplayQty"), said.get("LastQty")
        if kind == "OrderAdd":
            self.add(name, price, quantity)
        elif kind == "OrderModify":
            before = (*name[:2], said["TrdRegTSPrevTimePriority"])
            self.tested(before, said["PrevPrice"], said["PrevDisplayQty"])
            if name != before and name in self.orders:
                raise Misfit("present")
            del self.orders[before]
            self.orders[name] = (price, quantity)
        elif kind == "OrderModifySamePriority":
            self.tested(name, price, said["PrevDisplayQty"])
            self.orders[name] = (price, quantity)
        elif kind == "OrderMassDelete":
            self.orders = {other: order for other, order in self.orders.items() if other[0] != name[0]}
        elif kind == "PartialOrderExecution":
            kept = self.tested(name, price)
            if last >= kept:
                raise Misfit(f"quantity {kept} {last}")
            self.orders[name] = (price, kept - last)
        elif kind != "ExecutionSummary":
            self.tested(name, price, quantity if kind == "OrderDelete" else last)
            del self.orders[name]

    def lines(self):
        def place(entry):
            (security, side, stamp), (price, _) = entry
            return self.securities.index(security), side, -price if side == 1 else price, stamp

        return "".join(f"{name[0]} {'BS'[name[1] - 1]} {price} {quantity} {name[2]}\n" for name, (price, quantity) in sorted(self.orders.items(), key=place))


class Member:
    """What a member shows of deliveries, from plain lists of all that came: messages, and the first snapshot datagram of each number."""

    def __init__(self, window, packets, securities):
        self.window, self.packets, self.securities = window, packets, securities
        self.base, self.refused, self.book = None, None, Book(securities)
        self.waiting, self.first = {}, {}
        self.highest = self.highest_packet = self.known = self.bad = 0
        self.tallies = {feed: [0, 0] for feed in ("LA", "LB", "SA", "SB")}

    def deliver(self, feed, data):
        """Takes a delivery, and gives the line that it prints, if any."""
        try:
            number, items = read(data, LIVE_ROLES if feed[0] == "L" else SNAP_ROLES)
        except Bad as fault:
            self.bad += 1
            return f"BAD {fault.args[0]} {fault.args[1]}\n"
        fresh = [self.hear(*item) for item in items] if feed[0] == "L" else [self.receive(number, items)]
        self.tallies[feed][0] += 1
        self.tallies[feed][1] += any(fresh)
        return ""

    def step(self, number, item):
        """Applies message number, the one behind the base."""
        try:
            self.book.apply(*item)
            self.base = number
        except Misfit as why:
            self.base, self.refused, self.book = None, (number, why.args[0]), Book(self.securities)

    def go_on(self):
        while self.base is not None and self.base + 1 in self.waiting:
            self.step(self.base + 1, self.waiting.pop(self.base + 1))

    def hear(self, kind, said):
        """Takes a live message. Whether it is new."""
        if kind == "Heartbeat":
            self.known = max(self.known, said["LastMsgSeqNumProcessed"])
            return False
        number = said["MsgSeqNum"]
        self.known, self.highest = max(self.known, number), max(self.highest, number)
        self.waiting = {k: item for k, item in self.waiting.items() if k + self.window > self.highest}
        is_next = self.base is not None and number == self.base + 1
        new = number not in self.waiting and (self.base is None or number > self.base) and (is_next or number + self.window > self.highest)
        if new and number + self.window > self.highest:
            self.waiting[number] = (kind, said)
        elif new:
            self.step(number, (kind, said))
        self.go_on()
        return new

    def cycle(self, number):
        """The number and the orders of the whole cycle in which a snapshot datagram stands, or None."""
        near = {i: items for i, items in self.first.items() if i + self.packets > self.highest_packet}
        begin = number
        while begin in near and not (near[begin] and near[begin][0][0] == "ProductSummary"):
            begin -= 1
        items, end = [], begin
        while end in near:
            items += near[end]
            whole = cycle_of(items, self.securities)
            if whole is not None:
                return whole if number <= end else None
            end += 1
        return None

    def receive(self, number, items):
        """Takes a snapshot datagram. Whether it is new."""
        new = number not in self.first and number + self.packets > self.highest_packet
        self.highest_packet = max(self.highest_packet, number)
        if new:
            self.first[number] = items
        self.known = max([self.known, *(said["LastMsgSeqNumProcessed"] for kind, said in items if kind == "ProductSummary")])
        m, orders = self.cycle(number) or (None, None)
        if m is None or (self.base is not None and m <= self.base) or (self.refused and m < self.refused[0]):
            return new
        book = Book(self.securities)
        try:
            for order in orders:
                book.apply("OrderAdd", order)
        except Misfit:
            return new
        self.base, self.refused, self.book = m, None, book
        self.go_on()
        return new

    def state(self):
        if self.refused:
            return f"REFUSED {self.refused[0]} {self.refused[1]}\n"
        if self.base is None:
            return "WAIT\n"
        return f"SYNC {self.base}\n" if self.base == self.known else f"MISS {self.base + 1}\n"

    def report(self):
        return self.state() + self.book.lines()

    def lines(self):
        return "".join(f"LINE {feed} {taken} {fresh}\n" for feed, (taken, fresh) in self.tallies.items())


def cycle_of(items, securities):
    """The number and the orders where these items are one whole cycle: a summary of the product, and of each security in turn its summary and orders."""
    if not items or items[0][0] != "ProductSummary":
        return None
    orders, at = [], 1
    for security in securities:
        if at >= len(items) or items[at][0] != "InstrumentSummary" or items[at][1]["SecurityID"] != security:
            return None
        count = items[at][1]["TotNoOrders"]
        told = items[at + 1 : at + 1 + count]
        if len(told) != count or any(kind != "SnapshotOrder" for kind, _ in told):
            return None
        orders += [{**said, "SecurityID": security} for _, said in told]
        at += 1 + count
    return (items[0][1]["LastMsgSeqNumProcessed"], orders) if at == len(items) else None


class Day:
    """What an exchange does by the lines of a script, and what it sent: its live and snapshot datagrams by their numbers from 1."""

    def __init__(self, program, window, packets, datagram, securities, lines):
        self.window, self.packets, self.securities = window, packets, securities
        listed = "".join(f"security,{security},1\n" for security in securities)
        self.product = f"product,7\nwindow,{window}\npackets,{packets}\ndatagram,{datagram}\n{listed}session,21\nsession,22\n"
        self.lines = "".join(lines)
        shown = replayed(program, self.product, "RAW\n" + self.lines).splitlines(keepends=True)
        sent = [line.split() for line in shown if line.startswith(("LIVE", "SNAP"))]
        self.live, self.snaps = ([bytes.fromhex(cells[2]) for cells in sent if cells[0] == word] for word in ("LIVE", "SNAP"))
        self.shown = "".join(line for line in shown if not line.startswith(("OUT", "LIVE", "SNAP", "END")))
        self.end = shown[-1]

    def member(self):
        return Member(self.window, self.packets, self.securities)


def replayed(program, product, script):
    """What `replay` prints."""
    with tempfile.TemporaryDirectory() as name:
        folder = pathlib.Path(name)
        (folder / "product").write_text(product)
        (folder / "script").write_text(script)
        done = subprocess.run([program, "replay", SAMPLE, folder / "product", folder / "script"], capture_output=True, text=True, timeout=SECONDS)
    return done.stdout if done.returncode == 0 else f"status {done.returncode}: {done.stdout}"


def differs(program, day, events):
    """What is wrong with what the program shows of these deliveries, each behind the day and followed by the report, or None."""
    member, lines, printed = day.member(), [], []
    for feed, number, data in events:
        lines.append(f"{feed} {number}\n" if data is None else f"FORGE {feed} {data.hex() or '-'}\n")
        sent = day.live if feed[0] == "L" else day.snaps
        printed.append(member.deliver(feed, sent[number - 1] if data is None else data))
        lines.append("SHOW\n")
        printed.append(member.report())
    wanted = day.shown + "".join(printed) + day.end
    shown = replayed(program, day.product, day.lines + "".join(lines))
    if shown == wanted:
        return None
    at = next((k for k, (a, b) in enumerate(zip(shown.splitlines(), wanted.splitlines())) if a != b), -1)
    return f"behind {''.join(lines[-6:])!r}: line {at} is {shown.splitlines()[at : at + 2]}, and not {wanted.splitlines()[at : at + 2]}"


LOGON = f"OPEN 1\nIN 1 {struct.pack('<IH2xIII4x', 24, 101, 1, 30_000, 21).hex()}\n"


def order(seq, side, price, quantity, security=1001):
    return f"IN 1 {struct.pack('<IH2xIB3xqQqq', 48, 104, seq, side, security, seq, price, quantity).hex()}\n"


def changed(seq, number, price, quantity):
    return f"IN 1 {struct.pack('<IH2xI4xQQqq', 48, 105, seq, number, seq, price, quantity).hex()}\n"


def deleted(seq, number):
    return f"IN 1 {struct.pack('<IH2xI4xQQ', 32, 106, seq, number, seq).hex()}\n"


def in_pool(work, jobs):
    """The first thing that is wrong with a job, or None."""
    with concurrent.futures.ProcessPoolExecutor(WORKERS) as pool:
        return next((wrong for wrong in pool.map(work, jobs, chunksize=8) if wrong is not None), None)


# Six datagrams of a day in which an order is lowered, trades and goes.
SIX = [LOGON, "SNAP\n", order(2, 1, 100, 50), order(3, 1, 99, 10), changed(4, 1, 100, 40), order(5, 2, 100, 15), deleted(6, 2), order(7, 1, 101, 5)]


def in_one_order(job):
    program, day, numbers, seed = job
    draw = random.Random(seed)
    both = [(draw.choice(["LA", "LB"]), k, None) for k in numbers]
    if len(numbers) > 6:
        both = [("LB" if k > 6 else "LA", (k - 1) % 6 + 1, None) for k in numbers]
    snapshot = draw.randrange(len(both) + 1)
    return differs(program, day, [*both[:snapshot], ("SA", 1, None), *both[snapshot:]])


def every_order_of_six(program):
    """Six datagrams in each of their 720 orders, each on a drawn line, with the snapshot at a drawn place; and in 1,000 drawn orders on both lines."""
    day = Day(program, 4, 8, 1472, [1001, 1002], SIX)
    if len(day.live) != 6:
        return f"{len(day.live)} datagrams"
    draw = random.Random(1)
    orders = [*itertools.permutations(range(1, 7)), *(draw.sample(range(1, 13), 12) for _ in range(1000))]
    return in_pool(in_one_order, [(program, day, numbers, seed) for seed, numbers in enumerate(orders)])


def with_byte(data, place, byte):
    return data[:place] + bytes([byte]) + data[place + 1 :]


# So many values has a byte beside its own.
OTHERS = 255


@functools.cache
def plain_day(program):
    """An order rests all day; then 255 times an order comes and goes, and a snapshot follows."""
    lines = [LOGON, "SNAP\n", order(2, 1, 50, 7), "SNAP\n"]
    for k in range(1, OTHERS + 1):
        lines += [order(2 * k + 1, 1, 100, 50), deleted(2 * k + 2, k + 1), "SNAP\n"]
    return Day(program, 8, 16, 1472, [1001, 1002], lines)


def changes_of_live(job):
    """Each other value of one byte: the changed datagram comes, then the true one, and then a snapshot behind both."""
    program, place = job
    day = plain_day(program)
    events = [("SA", 1, None), ("LA", 1, None)]
    for k in range(1, OTHERS + 1):
        true = day.live[2 * k - 1]
        events += [("LA", 0, with_byte(true, place, (true[place] + k) % 256)), ("LB", 2 * k, None), ("SA", k + 2, None)]
    return differs(program, day, events)


def changes_of_snapshot(job):
    """Each other value of one byte of a snapshot datagram: the changed one comes, and then the true one."""
    program, place = job
    day = plain_day(program)
    events = [("SA", 1, None), ("LA", 1, None)]
    for k in range(1, OTHERS + 1):
        true = day.snaps[k + 1]
        events += [("SA", 0, with_byte(true, place, (true[place] + k) % 256)), ("SB", k + 2, None)]
    return differs(program, day, events)


# The three orders of the first example, of which the second is lost on line A and comes late on line B.
THREE = [LOGON, "SNAP\n", order(2, 1, 100, 50), order(3, 1, 99, 10), order(4, 1, 100, 20)]


def with_one_changed(job):
    """The deliveries of the first example, of which one has another byte."""
    program, day, at, place, byte = job
    events = [("SA", 1, None), ("LA", 1, None), ("LA", 3, None), ("LB", 2, None)]
    feed, number, _ = events[at]
    true = (day.live if feed[0] == "L" else day.snaps)[number - 1]
    events[at] = (feed, 0, with_byte(true, place, byte))
    return differs(program, day, events)


def with_prefixes(job):
    """The deliveries of the first example, before each of which come all its prefixes but itself."""
    program, day = job
    events = []
    for feed, number in [("SA", 1), ("LA", 1), ("LA", 3), ("LB", 2)]:
        true = (day.live if feed[0] == "L" else day.snaps)[number - 1]
        events += [*((feed, 0, true[:length]) for length in range(len(true))), (feed, number, None)]
    return differs(program, day, events)


def every_change_of_a_byte(program):
    """Each other value of each byte of a live and of a snapshot datagram; in the first example, of the bytes of numbers, those in turn; and each prefix."""
    day, three = plain_day(program), Day(program, 4, 8, 1472, [1001, 1002], THREE)
    live, snap = len(day.live[1]), len(day.snaps[2])
    numbers = [(at, place, byte) for at, places in [(0, (8, 9, 10, 11, 24, 25, 26, 27)), (1, (20, 21, 22, 23)), (2, (20, 21, 22, 23)), (3, (20, 21, 22, 23))] for place in places for byte in range(256)]
    return (
        with_prefixes((program, three))
        or in_pool(changes_of_live, [(program, place) for place in range(live)])
        or in_pool(changes_of_snapshot, [(program, place) for place in range(snap)])
        or in_pool(with_one_changed, [(program, three, *change) for change in numbers])
    )


def drawn_lines(draw, count):
    """The lines of a drawn day of so many events: orders that rest and trade, changes, deletions, snapshots and heartbeats."""
    lines, seq, orders = [LOGON, "SNAP\n"], 1, 0
    for _ in range(count):
        kind = draw.randrange(10)
        if kind < 4 or orders == 0:
            seq, orders = seq + 1, orders + 1
            lines.append(order(seq, draw.choice([1, 2]), draw.randrange(98, 103), 10 * draw.randrange(1, 6), draw.choice([1001, 1001, 1002])))
        elif kind < 6:
            seq += 1
            lines.append(changed(seq, draw.randrange(1, orders + 1), draw.randrange(98, 103), 10 * draw.randrange(1, 6)))
        elif kind == 6:
            seq += 1
            lines.append(deleted(seq, draw.randrange(1, orders + 1)))
        else:
            lines.append(draw.choice(["SNAP\n"] * 8 + ["BEAT\n", f"CLEAR {draw.choice([1001, 1002])}\n"]))
    return lines


# So many drawn days, and so many drawn runs of deliveries on each.
DAYS, RUNS = 50, 200


@functools.cache
def drawn_day(program, seed):
    draw = random.Random(seed)
    return Day(program, draw.choice([2, 4, 7]), draw.choice([3, 6]), 256, [1001, 1002], drawn_lines(draw, 40))


def drawn_deliveries(draw, day, count):
    """So many deliveries on four feeds: near to one another, some of them again, and in a run of two some of changed bytes."""
    forges, live, snap, events = draw.randrange(2) == 0, 1.0, 1.0, []
    for _ in range(count):
        live += draw.choice([0, 1]) * len(day.live) / count * 2
        snap += draw.choice([0, 1]) * len(day.snaps) / count * 2
        on_live = draw.randrange(3) > 0
        sent, near = (day.live, live) if on_live else (day.snaps, snap)
        number = min(max(1, round(near) - draw.randrange(4)), len(sent))
        feed = ("L" if on_live else "S") + draw.choice("AB")
        forged = None
        if forges and draw.randrange(8) == 0:
            true = sent[number - 1]
            forged = with_byte(true, draw.randrange(len(true)), draw.choice([0, 1, 2, 3, draw.randrange(256)]))[: draw.choice([len(true)] * 9 + [draw.randrange(len(true))])]
        events.append((feed, number, forged))
    return events


def drawn_run(job):
    program, seed = job
    day = drawn_day(program, seed // RUNS)
    wrong = differs(program, day, drawn_deliveries(random.Random(seed), day, 40))
    return None if wrong is None else f"run {seed}: {wrong}"


def drawn_runs(program):
    """Ten thousand drawn runs of deliveries, lost, doubled, out of turn, and every other run some of changed bytes."""
    return in_pool(drawn_run, [(program, seed) for seed in range(DAYS * RUNS)])


def bound_ports():
    """The ports of datagrams that something listens to, with how many bytes wait there."""
    rows = [line.split() for line in pathlib.Path("/proc/net/udp").read_text().splitlines()[1:]]
    return {int(cells[1].split(":")[1], 16): int(cells[4].split(":")[1], 16) for cells in rows}


def until(holds):
    """Waits until something holds; whether it came to that."""
    for _ in range(20_000):
        if holds():
            return True
        time.sleep(0.0002)
    return False


def sent_to_member(program, day, events, ports):
    """What the member prints of these datagrams, each sent once the one before is taken; `events` is a list of feeds and bytes."""
    with tempfile.TemporaryDirectory() as name, socket.socket(socket.AF_INET, socket.SOCK_DGRAM) as sender:
        product = pathlib.Path(name) / "product"
        product.write_text(day.product)
        feeds = [f"127.0.0.1:{port}" for port in ports]
        words = [program, "member", SAMPLE, product, *feeds, str(len(events) + 10)]
        member = subprocess.Popen(words, stdin=subprocess.DEVNULL, stdout=subprocess.PIPE, stderr=subprocess.PIPE, text=True)
        until(lambda: set(ports) <= set(bound_ports()))
        for feed, data in events:
            port = ports[["LA", "LB", "SA", "SB"].index(feed)]
            sender.sendto(data, ("127.0.0.1", port))
            until(lambda: bound_ports().get(port, 0) == 0)
        return member.communicate(timeout=SECONDS)[0]


def counts_of_feeds(program):
    """The member on the network prints each change of its status, its orders, and the counts of its feeds."""
    with socket.socket(socket.AF_INET, socket.SOCK_DGRAM) as probe:
        try:
            probe.bind(("127.0.0.1", 0))
        except OSError:
            print("the counts of the feeds: skipped, there are no ports")
            return None
    for seed in range(4):
        day = drawn_day(program, seed)
        events = [
            (feed, (day.live if feed[0] == "L" else day.snaps)[number - 1] if data is None else data)
            for feed, number, data in drawn_deliveries(random.Random(seed), day, 120)
            if data is None or data
        ]
        held = [socket.socket(socket.AF_INET, socket.SOCK_DGRAM) for _ in range(4)]
        for one in held:
            one.bind(("127.0.0.1", 0))
        ports = [one.getsockname()[1] for one in held]
        for one in held:
            one.close()
        member, states = day.member(), []
        for feed, data in events:
            member.deliver(feed, data)
            states += [member.state()] if states[-1:] != [member.state()] else []
        wanted = "".join(states) + member.report() + member.lines() + f"END {len(events)}\n"
        shown = sent_to_member(program, day, events, ports)
        if shown not in (wanted, "WAIT\n" + wanted):
            return f"day {seed}: printed {shown[-300:]!r}, and not {wanted[-300:]!r}"
    return None


CHECKS = [
    ("six datagrams in every order", every_order_of_six),
    ("every change of a byte of a datagram", every_change_of_a_byte),
    ("ten thousand drawn runs of a member", drawn_runs),
    ("the counts of a member's feeds", counts_of_feeds),
]


def main(words):
    wrong = [f"{name}: {said}" for name, check in CHECKS if (said := check(words[0])) is not None]
    print("\n".join(wrong) or "the member is as computed")
    return 1 if wrong else 0


if __name__ == "__main__":
    sys.exit(main(sys.argv[1:]))
