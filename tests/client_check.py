#!/usr/bin/env python3
"""Checks of the client in `replay`, against the plainest computation: tests/client_check.py PROGRAM

tests/run runs them too. What goes wrong is printed, and the status is then 1.
"""

import pathlib
import random
import struct
import subprocess
import sys
import tempfile

TOP = pathlib.Path(__file__).resolve().parent.parent
SAMPLE = TOP / "samples" / "sample.csv"
PRODUCT = TOP / "samples" / "product.csv"
SECONDS = 120

# How many bytes each frame has by the sample table.
LOGON, RESEND, ORDER = 24, 48, 48
LOGGED_ON, ANSWER = 16, 48
SIZES = {"NEW": 48, "CLEARED": 40, "EXEC": 72}


def logon(session):
    return struct.pack("<IH2xIII4x", 24, 101, 1, 30_000, session).hex()


def sell(seq, price, quantity):
    return struct.pack("<IH2xIB3xqQqq", 48, 104, seq, 2, 1001, seq, price, quantity).hex()


def replayed(program, script, printed):
    """What is wrong with what a script prints, or None."""
    with tempfile.TemporaryDirectory() as name:
        path = pathlib.Path(name) / "script"
        path.write_text(script)
        done = subprocess.run([program, "replay", SAMPLE, PRODUCT, path], capture_output=True, text=True, timeout=SECONDS)
    return None if done.stdout == printed and done.returncode == 0 else f"status {done.returncode}, printed {done.stdout[-300:]!r}"


# The responses of a client that was away while its order was executed twice, and the bytes before each one's end, behind its logon and the answer.
MISSED = ["1 NEW 1 9 1\n", "2 EXEC 1 B 40 10 10 100\n", "3 EXEC 1 B 25 25 15 100\n"]
ENDS = [LOGGED_ON + ANSWER + 48, LOGGED_ON + ANSWER + 48 + 72, LOGGED_ON + ANSWER + 48 + 72 + 72]
AWAY = (
    "DIAL 1 21\nUP *\nDOWN *\nUP *\nDOWN *\nORDER 1001 1 100 50 9\nUP *\nDOWN 20\nCUT 1\n"
    f"OPEN 2\nIN 2 {logon(22)}\nIN 2 {sell(2, 100, 10)}\nIN 2 {sell(3, 100, 15)}\n"
)


def cut_after_each_byte(program):
    """The client that comes back is cut after each number of bytes, and recovers all on a third connection."""
    for count in range(ENDS[-1] + 1):
        again = f"DOWN {count}\n" if count <= LOGGED_ON else f"DOWN *\nUP *\nDOWN {count - LOGGED_ON}\n"
        script = f"{AWAY}DIAL 3 21\nUP *\n{again}CUT 3\nLIST\nDIAL 4 21\nUP *\nDOWN *\nUP *\nDOWN *\nLIST\n"
        whole = [line for line, end in zip(MISSED, ENDS) if end <= count]
        wrong = replayed(program, script, f"PARTIAL {len(whole)}\n{''.join(whole)}RECOVERED 3\n{''.join(MISSED)}END 5\n")
        if wrong is not None:
            return f"after {count} bytes: {wrong}"
    return None


class Day:
    """An exchange with one book of buys, all of the client's, and the client. It knows what each frame is, and counts bytes alone."""

    def __init__(self):
        self.book, self.orders, self.kept, self.messages = [], 0, [], 0
        self.gathered, self.answered, self.logged_on = [], None, False
        self.on_line, self.upward, self.came_up, self.downward, self.came_down = False, [], 0, [], 0
        self.knows = False

    def keep(self, kind, rest):
        """A response of the client's session, which goes out where the session is logged on."""
        self.kept.append(f"{kind} {rest}\n")
        if self.knows:
            self.downward.append((SIZES[kind], ("kept", len(self.kept))))

    def dial(self):
        self.cut()
        self.on_line, self.upward = True, [(LOGON, ("logon",))]

    def cut(self):
        self.on_line, self.knows, self.logged_on, self.answered = False, False, False, None
        self.upward, self.came_up, self.downward, self.came_down = [], 0, [], 0

    def order(self, price, quantity, client):
        self.upward.append((ORDER, ("order", price, quantity, client)))

    def up(self, count):
        """Bytes come to the exchange, which treats each frame that is whole."""
        self.came_up += count
        while self.upward and self.upward[0][0] <= self.came_up:
            size, request = self.upward.pop(0)
            self.came_up -= size
            self.treat(*request)

    def treat(self, kind, *cells):
        if kind == "logon":
            self.knows = True
            self.downward.append((LOGGED_ON, ("logon",)))
        elif kind == "resend":
            self.downward.append((ANSWER, ("answer", len(self.kept))))
            self.downward += [(SIZES[line.split()[0]], ("kept", at)) for at, line in enumerate(self.kept, 1) if at > cells[0]]
        else:
            price, quantity, client = cells
            self.orders += 1
            self.messages += 1
            self.keep("NEW", f"{self.orders} {client} {self.orders}")
            self.book.append([-price, self.orders, quantity, 0])

    def down(self, count):
        """Bytes come to the client, which treats each frame that is whole."""
        self.came_down += count
        while self.downward and self.downward[0][0] <= self.came_down:
            size, response = self.downward.pop(0)
            self.came_down -= size
            if response[0] == "logon":
                self.logged_on = True
                self.upward.append((RESEND, ("resend", len(self.gathered))))
            elif response[0] == "answer":
                self.answered = response[1]
            elif response[1] == len(self.gathered) + 1:
                self.gathered.append(self.kept[response[1] - 1])

    def sell_one(self):
        """One piece is sold to the best buy."""
        self.orders += 1
        self.messages += 2
        best = min(self.book)
        best[2] -= 1
        best[3] += 1
        self.keep("EXEC", f"{best[1]} B {best[2]} {best[3]} 1 {-best[0]}")
        self.book = [buy for buy in self.book if buy[2] > 0]

    def clear(self):
        self.messages += 1
        if self.book:
            self.keep("CLEARED", f"1001 {len(self.book)}")
        self.book = []

    def queued(self):
        return sum(size for size, _ in self.upward) - self.came_up

    def coming(self):
        return sum(size for size, _ in self.downward) - self.came_down

    def report(self):
        recovered = self.answered is not None and self.answered <= len(self.gathered)
        lines = "".join(f"{at} {line}" for at, line in enumerate(self.gathered, 1))
        return f"{'RECOVERED' if recovered else 'PARTIAL'} {len(self.gathered)}\n{lines}"


def some_of(draw, there):
    """All of so many bytes, or a drawn number of them: how the line says it, and how many they are."""
    if draw.randrange(3) == 0:
        return "*", there
    count = draw.randrange(min(there, 150) + 1)
    return str(count), count


def drawn_day(draw, events):
    """A drawn day: its lines, and what they are to print."""
    day, lines, printed, sold, clients = Day(), [f"OPEN 2\nIN 2 {logon(22)}\n"], [], 1, 0
    for _ in range(events):
        kind = draw.randrange(20)
        if kind == 0 and day.on_line:
            day.cut()
            lines.append("CUT 1\n")
        elif kind < 3 and not day.on_line:
            day.dial()
            lines.append("DIAL 1 21\n")
        elif kind < 6 and day.on_line:
            said, count = some_of(draw, day.queued())
            day.up(count)
            lines.append(f"UP {said}\n")
        elif kind < 10 and (day.on_line or clients):
            said, count = some_of(draw, day.coming())
            day.down(count)
            lines.append(f"DOWN {said}\n")
        elif kind < 14 and day.logged_on:
            clients += 1
            price, quantity = draw.randrange(50, 60), draw.randrange(1, 4)
            day.order(price, quantity, clients)
            lines.append(f"ORDER 1001 1 {price} {quantity} {clients}\n")
        elif kind < 16 and day.book:
            sold += 1
            day.sell_one()
            lines.append(f"IN 2 {sell(sold, 1, 1)}\n")
        elif kind == 16 and draw.randrange(4) == 0:
            day.clear()
            lines.append("CLEAR 1001\n")
        elif day.on_line or clients:
            printed.append(day.report())
            lines.append("LIST\n")
    return "".join(lines), "".join(printed) + f"END {day.messages}\n"


def drawn_days(program, first=0, last=100):
    """On drawn days, whose connections are cut wherever it be, the client's reports are what the plainest computation says."""
    for seed in range(first, last):
        wrong = replayed(program, *drawn_day(random.Random(seed), 300))
        if wrong is not None:
            return f"day {seed}: {wrong}"
    return None


CHECKS = [("a client that is cut after each byte", cut_after_each_byte), ("drawn days of a client", drawn_days)]


def main(words):
    wrong = [f"{name}: {said}" for name, check in CHECKS if (said := check(words[0])) is not None]
    print("\n".join(wrong) or "the client is as computed")
    return 1 if wrong else 0


if __name__ == "__main__":
    sys.exit(main(sys.argv[1:]))
