#!/usr/bin/env python3
"""The drill, computed a second time: tests/drill_check.py SEED ORDERS prints the lines that `drill SEED ORDERS` must print.

It follows the manual alone: the exchange's book, the greedy packing of datagrams with the sizes of the sample table, and what the
member keeps of the deliveries, each in the plainest form. It shares nothing with the program.
"""

import sys

SECURITIES = [1001, 1002]
WINDOW, PACKETS, ROOM = 64, 1024, 1472 - 16
SIZE = {"add": 48, "modify": 72, "same": 56, "delete": 48, "partial": 56, "full": 56, "summary": 48}
MOST, MOST_OF_SECURITY, MOST_COMMANDS = 20_000, 10_000, 200_000


class Draw:
    def __init__(self, seed):
        self.state = seed

    def next(self, k):
        self.state = (self.state * 6364136223846793005 + 1442695040888963407) % 2**64
        return (self.state >> 33) % k


class Order:
    def __init__(self, number, owner, security, side, price, total, stamp):
        self.number, self.owner, self.security, self.side = number, owner, security, side
        self.price, self.total, self.executed, self.stamp = price, total, 0, stamp

    def left(self):
        return self.total - self.executed

    def key(self):
        return (SECURITIES.index(self.security), self.side, -self.price if self.side == 1 else self.price, self.stamp)


class Book:
    """The orders as one list for each security and side, the best first."""

    def __init__(self):
        self.sides = {(s, d): [] for s in SECURITIES for d in (1, 2)}
        self.by_number = {}
        self.last, self.stamp, self.commands = 0, 0, 0

    def orders(self):
        return [o for s in SECURITIES for d in (1, 2) for o in self.sides[s, d]]

    def insert(self, order):
        side = self.sides[order.security, order.side]
        low, high = 0, len(side)
        while low < high:
            middle = (low + high) // 2
            if side[middle].key() < order.key():
                low = middle + 1
            else:
                high = middle
        side.insert(low, order)
        self.by_number[order.number] = order

    def remove(self, order):
        self.sides[order.security, order.side].remove(order)
        del self.by_number[order.number]

    def new_stamp(self):
        self.stamp += 1
        return self.stamp

    def crossing(self, order):
        other = self.sides[order.security, 3 - order.side]
        if not other:
            return None
        best = other[0]
        crosses = best.price <= order.price if order.side == 1 else best.price >= order.price
        return best if crosses else None

    def place(self, order):
        """The messages of an order that comes to the book, by their kinds."""
        if self.crossing(order) is None:
            self.insert(order)
            return ["add"]
        kinds = ["summary"]
        while order.left() > 0:
            maker = self.crossing(order)
            if maker is None:
                break
            quantity = min(order.left(), maker.left())
            order.executed += quantity
            maker.executed += quantity
            if maker.left() == 0:
                self.remove(maker)
                kinds.append("full")
            else:
                kinds.append("partial")
        if order.left() > 0:
            self.insert(order)
            kinds.append("add")
        return kinds

    def new(self, owner, security, side, price, total):
        count = len(self.sides[security, 1]) + len(self.sides[security, 2])
        if self.commands >= MOST_COMMANDS or len(self.by_number) >= MOST or count >= MOST_OF_SECURITY:
            return None
        self.commands += 1
        self.last += 1
        return self.place(Order(self.last, owner, security, side, price, total, self.new_stamp()))

    def modify(self, owner, number, price, total):
        order = self.by_number.get(number)
        if self.commands >= MOST_COMMANDS or order is None or order.owner != owner or total <= order.executed:
            return None
        self.commands += 1
        if price == order.price and total <= order.total:
            order.total = total
            return ["same"]
        self.remove(order)
        order.price, order.total, order.stamp = price, total, self.new_stamp()
        if self.crossing(order) is None:
            self.insert(order)
            return ["modify"]
        return ["delete"] + self.place(order)

    def delete(self, owner, number):
        order = self.by_number.get(number)
        if self.commands >= MOST_COMMANDS or order is None or order.owner != owner:
            return None
        self.commands += 1
        self.remove(order)
        return ["delete"]


def cut(sizes):
    """How many items each datagram has, as many as fit."""
    runs, room = [], -1
    for size in sizes:
        if size <= room:
            runs[-1] += 1
            room -= size
        else:
            runs.append(1)
            room = ROOM - size
    return runs


class Member:
    """What came, and what of it was new. The orders are left out: only numbers count here."""

    def __init__(self):
        self.base, self.known, self.highest, self.highest_packet = None, 0, 0, 0
        self.kept, self.ring, self.adopted = set(), {}, None
        self.tally = {feed: [0, 0] for feed in ("LA", "LB", "SA", "SB")}

    def live(self, feed, first, count):
        fresh = any([self.hear(first + i) for i in range(count)])
        self.count(feed, fresh)

    def beat(self, feed, last):
        self.known = max(self.known, last)
        self.count(feed, False)

    def count(self, feed, fresh):
        self.tally[feed][0] += 1
        self.tally[feed][1] += fresh

    def hear(self, number):
        self.known = max(self.known, number)
        self.highest = max(self.highest, number)
        old = (self.base is not None and number <= self.base) or number in self.kept
        outside = number + WINDOW <= self.highest
        fresh = False
        if not old and not outside:
            self.kept.add(number)
            fresh = True
        self.kept = {k for k in self.kept if k + WINDOW > self.highest}
        if not old and outside and self.base is not None and number == self.base + 1:
            self.base = number
            fresh = True
        self.chain()
        return fresh

    def chain(self):
        while self.base is not None and self.base + 1 in self.kept:
            self.base += 1
            self.kept.remove(self.base)

    def snap(self, feed, number, cycle, place, last, message):
        """Datagram `place` of a cycle at a message, whose last place is `last`."""
        new = number + PACKETS > self.highest_packet and number not in self.ring
        self.highest_packet = max(self.highest_packet, number)
        if new:
            self.ring[number] = (cycle, place, last, message)
        if place == 0:
            self.known = max(self.known, message)
        self.count(feed, new)
        self.ring = {k: v for k, v in self.ring.items() if k + PACKETS > self.highest_packet}
        first = number - place
        if all(first + i in self.ring for i in range(last + 1)):
            if self.base is None or message > self.base:
                self.base = message
                self.kept = {k for k in self.kept if k > message}
                self.chain()


class Drill:
    def __init__(self, seed):
        self.draw, self.book, self.member = Draw(seed), Book(), Member()
        self.rejects, self.messages, self.packets = 0, 0, 0
        self.copies, self.left, self.cycles = [], [], 0

    def request(self, kinds):
        for first, count in self.copies:
            self.member.live("LB", first, count)
        self.copies = []
        if kinds is None:
            self.rejects += 1
            return
        for count in cut([SIZE[kind] for kind in kinds]):
            first = self.messages + 1
            self.messages += count
            if self.draw.next(4) != 0:
                self.member.live("LA", first, count)
            if self.draw.next(4) != 0:
                self.copies.append((first, count))

    def next_snap(self):
        if not self.left:
            self.cycles += 1
            sizes = [16]
            for security in SECURITIES:
                sizes += [24] + [40] * (len(self.book.sides[security, 1]) + len(self.book.sides[security, 2]))
            count = len(cut(sizes))
            self.left = [(self.cycles, place, count - 1, self.messages) for place in range(count)]
        self.packets += 1
        return (self.packets, *self.left.pop(0))

    def after(self, i):
        if i % 4 == 0:
            packet = self.next_snap()
            if self.draw.next(8) != 0:
                self.member.snap("SA", *packet)

    def opening(self, i):
        security = 1001 if i % 2 == 1 else 1002
        if i % 4 in (1, 2):
            self.request(self.book.new(21, security, 1, 1000 - i % 100, 10))
        else:
            self.request(self.book.new(21, security, 2, 2000 + i % 100, 10))
        self.after(i)

    def step(self, i):
        draw, book = self.draw.next, self.book
        kind, owner = draw(10), 21 + draw(2)
        if kind <= 5 or book.last == 0:
            security, side, price, quantity = 1001 + draw(2), 1 + draw(2), 1400 + draw(200), 1 + draw(50)
            kinds = book.new(owner, security, side, price, quantity)
        elif kind <= 7:
            number, price, quantity = 1 + draw(book.last), 1400 + draw(200), 1 + draw(50)
            kinds = book.modify(owner, number, price, quantity)
        else:
            kinds = book.delete(owner, 1 + draw(book.last))
        self.request(kinds)
        self.after(i)

    def close(self):
        for first, count in self.copies:
            self.member.live("LB", first, count)
        while self.left:
            self.member.snap("SB", *self.next_snap())
        self.member.snap("SB", *self.next_snap())
        while self.left:
            self.member.snap("SB", *self.next_snap())
        self.member.beat("LA", self.messages)


def main():
    seed, orders = int(sys.argv[1]), int(sys.argv[2])
    drill = Drill(seed)
    for i in range(1, orders + 1):
        drill.opening(i)
    for i in range(1, 20_001):
        drill.step(i)
    drill.close()
    member, left = drill.member, drill.book.orders()
    print(f"COMMANDS {drill.book.commands}\nREJECTS {drill.rejects}\nMESSAGES {drill.messages}")
    for feed, (taken, fresh) in member.tally.items():
        print(f"LINE {feed} {taken} {fresh}")
    totals = f"{len(left)} {sum(order.left() for order in left)}"
    # On datagrams of one exchange the member's book is the exchange's beside its number; at the last message they are one.
    print(f"BOOK {totals}")
    print(f"MEMBER {totals}" if member.base == drill.messages else "MEMBER (another number)")
    print(f"SYNC {member.base}" if member.base == member.known else f"MISS {(member.base or 0) + 1}")
    print(f"END {drill.messages}")


main()
