#!/usr/bin/env python3
"""A day on the loopback with real processes: tests/sockets_check.py PROGRAM

An exchange listens, a member listens to its four feeds, session 21 enters the requests of samples/orders.frames, and a gatherer recovers its
responses. Each ends by its COUNT. What the gatherer and the member print is compared with what was entered; the moments of the clock, which
stand in stamps, aside. Where no ports can be had it prints `skipped`. The status is 1 where something is wrong, with a line that says what.
"""

import pathlib
import re
import resource
import socket
import struct
import subprocess
import sys
import time

TOP = pathlib.Path(__file__).resolve().parent.parent
TABLE, PRODUCT = TOP / "samples" / "sample.csv", TOP / "samples" / "product.csv"
SECONDS = 60

# What session 21 was answered, and what rests in the book: the first buy lowered to 40, and the second.
GATHERED = r"RECOVERED 5\n1 NEW 1 1 \d+\n2 NEW 2 2 \d+\n3 NEW 3 3 \d+\n4 CHANGED 1 4 \d+\n5 DELETED 3 5\nEND 5\n"
REPORT = r"SYNC 5\n1001 B 100 40 \d+\n1001 B 99 10 \d+\nLINE LA \d+ [1-9]\d*\nLINE LB \d+ \d+\nLINE SA \d+ [1-9]\d*\nLINE SB \d+ \d+\nEND \d+\n"


def free_ports():
    """One port for connections and four for datagrams that are free now, or None."""
    try:
        stream = socket.socket()
        stream.bind(("127.0.0.1", 0))
        held = [stream]
        for _ in range(4):
            held.append(socket.socket(socket.AF_INET, socket.SOCK_DGRAM))
            held[-1].bind(("127.0.0.1", 0))
        ports = [one.getsockname()[1] for one in held]
        for one in held:
            one.close()
        return ports
    except OSError:
        return None


def started(program, *words):
    return subprocess.Popen([program, *map(str, words)], stdin=subprocess.DEVNULL, stdout=subprocess.PIPE, stderr=subprocess.PIPE, text=True)


def ended(name, process, status, shown):
    """What is wrong with how a process ended and what it printed, or None."""
    out, err = process.communicate(timeout=SECONDS)
    if process.returncode != status or err:
        return f"{name}: status {process.returncode}, printed {out[-300:]!r}, {err[-200:]!r}"
    return None if re.search(shown, out) else f"{name} printed {out[-400:]!r}"


def is_listening(port):
    """The exchange listens; the connection that asks is closed at once, and is two of its events."""
    for _ in range(100):
        try:
            socket.create_connection(("127.0.0.1", port), timeout=1).close()
            return True
        except OSError:
            time.sleep(0.05)
    return False


def day(program, ports):
    """What is wrong with a day, or None."""
    listen, *feeds = [f"127.0.0.1:{port}" for port in ports]
    member = started(program, "member", TABLE, PRODUCT, *feeds, 200)
    exchange = started(program, "exchange", TABLE, PRODUCT, listen, *feeds, 120)
    running = [exchange, member]
    try:
        if not is_listening(ports[0]):
            return "the exchange doesn't listen"
        entered = subprocess.run([sys.executable, TOP / "tools" / "enter", TABLE, listen, TOP / "samples" / "orders.frames"], capture_output=True, text=True, timeout=SECONDS)
        if not entered.stdout.endswith("7 frames came back\n"):
            return f"tools/enter: {entered.stdout[-300:]!r}, {entered.stderr[-200:]!r}"
        gatherer = started(program, "gather", TABLE, PRODUCT, listen, 21, 50)
        running.append(gatherer)
        return (
            ended("gather", gatherer, 0, rf"\A{GATHERED}\Z")
            or ended("member", member, 0, rf"\A(WAIT\n)?(SYNC \d\n)*{REPORT}\Z")
            or ended("exchange", exchange, 0, r"\AEND 5\n\Z")
        )
    finally:
        for process in running:
            if process.poll() is None:
                process.kill()
                process.communicate()


def refused(program, ports):
    """What is wrong with how commands end whose sockets can't be had, or None."""
    listen, *feeds = [f"127.0.0.1:{port}" for port in ports]
    with socket.socket() as taken:
        taken.bind(("127.0.0.1", ports[0]))
        taken.listen()
        wrong = ended("exchange on a taken port", started(program, "exchange", TABLE, PRODUCT, listen, *feeds, 1), 8, r"\Anet fault\n\Z")
    return (
        wrong
        or ended("gather from nobody", started(program, "gather", TABLE, PRODUCT, listen, 21, 1), 8, r"\Anet fault\n\Z")
        or ended("member at no address", started(program, "member", TABLE, PRODUCT, "nowhere", *feeds[1:], 1), 8, r"\Anet fault\n\Z")
        or ended("member of nobody", started(program, "member", TABLE, PRODUCT, *feeds, 2), 0, r"\AWAIT\nWAIT\nLINE LA 0 0\nLINE LB 0 0\nLINE SA 0 0\nLINE SB 0 0\nEND 0\n\Z")
    )


def answered_by(answer, program):
    """How a gatherer ends whose peer answers its logon with these bytes and closes."""
    with socket.create_server(("127.0.0.1", 0)) as server:
        gatherer = started(program, "gather", TABLE, PRODUCT, f"127.0.0.1:{server.getsockname()[1]}", 21, 50)
        connection, _ = server.accept()
        connection.recv(100)
        connection.sendall(answer)
        connection.close()
        out, _ = gatherer.communicate(timeout=SECONDS)
    return gatherer.returncode, out


def bad_peers(program):
    """What is wrong with how a gatherer ends whose peer closes, sends garbage, or half a frame, or None."""
    cases = [(b"", 10, "peer: closed\n"), (b"\x00" * 8, 10, "peer: byte 0\n"), (b"\x18\x00\x00\x00", 10, "peer: closed\n")]
    for answer, status, printed in cases:
        found = answered_by(answer, program)
        if found != (status, printed):
            return f"a gatherer that was answered {answer!r} ends with {found}"
    return None


def garbage(program, ports):
    """What is wrong with an exchange whose peer sends garbage, and a member that gets an empty datagram and one of 65,507 bytes, or None."""
    listen, *feeds = [f"127.0.0.1:{port}" for port in ports]
    exchange = started(program, "exchange", TABLE, PRODUCT, listen, *feeds, 20)
    if not is_listening(ports[0]):
        return "the exchange doesn't listen"
    with socket.create_connection(("127.0.0.1", ports[0]), timeout=5) as connection:
        connection.settimeout(5)
        connection.sendall(b"\xff" * 100)
        came = b"".join(iter(lambda: connection.recv(4_096), b""))
    if not came:
        return "garbage isn't answered before the close"
    wrong = ended("exchange with a peer that sends garbage", exchange, 0, r"\AEND 0\n\Z")
    if wrong is not None:
        return wrong
    member = started(program, "member", TABLE, PRODUCT, *feeds, 30)
    time.sleep(0.5)
    with socket.socket(socket.AF_INET, socket.SOCK_DGRAM) as sender:
        for size in (0, 65_507):
            sender.sendto(b"\x00" * size, ("127.0.0.1", ports[1]))
    return ended("member that gets what is no datagram", member, 0, r"\AWAIT\nWAIT\nLINE LA 0 0\nLINE LB 0 0\nLINE SA 0 0\nLINE SB 0 0\nEND 2\n\Z")


def logged_on(port):
    """A connection on which session 21 is logged on, with the longest interval between heartbeats."""
    connection = socket.create_connection(("127.0.0.1", port), timeout=SECONDS)
    connection.sendall(struct.pack("<IH2xIII4x", 24, 101, 1, 60_000, 21))
    if len(connection.recv(16, socket.MSG_WAITALL)) != 16:
        raise OSError("the logon isn't answered")
    return connection


def too_long(program, ports):
    """What is wrong with an exchange to which one connection gives 64 MiB of heartbeats, and then more, or None."""
    listen, *feeds = [f"127.0.0.1:{port}" for port in ports]
    exchange = started(program, "exchange", TABLE, PRODUCT, listen, *feeds, 1_000_000)
    if not is_listening(ports[0]):
        return "the exchange doesn't listen"
    heartbeats = struct.pack("<IH2x", 8, 103) * 131_072
    with logged_on(ports[0]) as connection:
        connection.sendall((heartbeats * 64)[: (64 << 20) - 24])
        time.sleep(0.5)
        if exchange.poll() is not None:
            return f"the exchange ended with {exchange.returncode} before 64 MiB were passed"
        connection.sendall(heartbeats[:8])
        return ended("exchange with more than 64 MiB on one connection", exchange, 9, r"\Atoo long\n\Z")


def many_openings(program, ports):
    """What is wrong with an exchange on which 1,024 connections are open and one more is opened, or None."""
    listen, *feeds = [f"127.0.0.1:{port}" for port in ports]
    least, most = resource.getrlimit(resource.RLIMIT_NOFILE)
    if most < 3_000:
        return None
    resource.setrlimit(resource.RLIMIT_NOFILE, (max(least, 3_000), most))
    exchange = started(program, "exchange", TABLE, PRODUCT, listen, *feeds, 1_000_000)
    if not is_listening(ports[0]):
        return "the exchange doesn't listen"
    connections = []
    try:
        # (each is open before the next is opened: a silent one would be closed after some seconds)
        for _ in range(1_024):
            connections.append(logged_on(ports[0]) if not connections else socket.create_connection(("127.0.0.1", ports[0]), timeout=SECONDS))
        further = socket.create_connection(("127.0.0.1", ports[0]), timeout=SECONDS)
        connections.append(further)
        further.settimeout(SECONDS)
        if further.recv(1) != b"":
            return "an opening beyond 1,024 got bytes"
        connections[0].sendall(struct.pack("<IH2xI4x", 16, 102, 2))
        if len(connections[0].recv(16, socket.MSG_WAITALL)) != 16:
            return "the first of 1,024 connections isn't answered"
    finally:
        for connection in connections:
            connection.close()
        exchange.kill()
        exchange.communicate()
    return None


def main(program):
    for check in (day, refused, garbage, too_long, many_openings, bad_peers):
        ports = free_ports()
        if ports is None:
            print("skipped: no ports")
            return 0
        wrong = check(program) if check is bad_peers else check(program, ports)
        if wrong is not None:
            print(wrong)
            return 1
    return 0


if __name__ == "__main__":
    sys.exit(main(sys.argv[1]))
