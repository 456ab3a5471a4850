#!/usr/bin/env python3
"""The commands of the network over a network and a clock in memory: tests/stage_check.py PROGRAM [NAME..]

PROGRAM is crates/t7_stage/out/t7_stage, which the gate builds. Each folder of tests/stages/ is a case:

    stage       what comes and which calls fail, one record a line (crates/t7_stage/src/stage.rt lists the records)
    words       the words of the command, one a line; TABLE and PRODUCT stand for samples/sample.csv and samples/product.csv
    product.csv the product file, where it is another
    stdout      what is printed: the command's lines, and behind them what was listened at, dialed, sent, bound and cast
    status      the exit status; 0 where the file is missing

Behind them a gatherer hears responses in any cutting: live ones before, between and behind those that are sent again, answers that say that more are stored
than they send, bytes that are no response, and each single byte changed.

Each case is run as it is, and then with each call of the link failing once, and each of the lines: then the command ends with `net fault`, and what
it printed, sent and cast before is a front of what the whole run prints, sends and casts. Where a call that fails isn't made the run is the whole one.
"""

import pathlib
import struct
import subprocess
import sys
import tempfile

TOP = pathlib.Path(__file__).resolve().parent.parent
STAGES = TOP / "tests" / "stages"
FILES = {"TABLE": TOP / "samples" / "sample.csv", "PRODUCT": TOP / "samples" / "product.csv"}
SECONDS = 60
# The first words of the lines of what was asked, and of what was sent and cast.
ASKED, SENT, CAST = ("LISTEN", "DIAL", "BIND", "JOIN"), ("SENT", "CLOSE"), ("CAST",)


def run(program, case, further=""):
    """The status of a case with further records of its stage, and what it printed."""
    files = FILES | ({"PRODUCT": case / "product.csv"} if (case / "product.csv").exists() else {})
    words = [str(files.get(word, word)) for word in (case / "words").read_text().split("\n")[:-1]]
    with tempfile.NamedTemporaryFile("w") as stage:
        stage.write((case / "stage").read_text() + further)
        stage.flush()
        done = subprocess.run([program, stage.name, *words], capture_output=True, text=True, stdin=subprocess.DEVNULL, timeout=SECONDS)
    if done.stderr:
        raise ValueError(f"{case.name} wrote to standard error: {done.stderr[:200]!r}")
    return done.returncode, done.stdout


def parts_of(printed):
    """The lines that the command printed, what it asked, and what it sent and cast."""
    lines = printed.splitlines()
    told = [[line for line in lines if line.split(" ")[0] in words] for words in (ASKED, SENT, CAST)]
    return [[line for line in lines if line.split(" ")[0] not in ASKED + SENT + CAST], *told]


def is_front(some, whole):
    return some == whole[: len(some)]


def is_cut(status, printed, whole):
    """A run ended with a net fault, and all before is a front of the whole run's."""
    if status != 8:
        return False
    lines, asked, sent, cast = parts_of(printed)
    all_lines, all_asked, all_sent, all_cast = parts_of(whole)
    # (the call that fails stands last of what was asked; of bytes that fail a front is sent)
    asked = [line.replace(" failed", "") for line in asked]
    sent_fits = is_front(sent, all_sent) or (is_front(sent[:-1], all_sent) and all_sent[len(sent) - 1].startswith(sent[-1]))
    return lines[-1] == "net fault" and is_front(lines[:-1], all_lines) and is_front(asked, all_asked) and sent_fits and is_front(cast, all_cast)


def failing_calls(program, case, whole):
    """What is wrong where a call fails, or None."""
    cuts = 0
    for word in ("link fails", "lines fail"):
        number = 1
        while True:
            status, printed = run(program, case, f"{word},{number}\n")
            if (status, printed) == whole:
                break
            if not is_cut(status, printed, whole[1]):
                return f"{word} at call {number}: status {status}, printed {printed[-300:]!r}"
            number, cuts = number + 1, cuts + 1
    return None if cuts else "no call failed"


def check_case(program, case):
    """What is wrong with a case, or None."""
    expected = int((case / "status").read_text()) if (case / "status").exists() else 0, (case / "stdout").read_text()
    found = run(program, case)
    if found != expected:
        return f"status {found[0]}, printed {found[1][-400:]!r}"
    return None if expected[0] == 8 else failing_calls(program, case, found)


# What a gatherer hears, by the sample table.
LOGGED_ON = struct.pack("<IH2xII", 16, 201, 1, 30_000)


def answer(last, known):
    """An answer that tells of responses up to number `last`, of `known` that are stored."""
    return struct.pack("<IH2xIH2x", 48, 205, 2, last) + last.to_bytes(16, "big") + known.to_bytes(16, "big")


def new(number):
    """The response of this number: order `number` was entered, which the client calls 9."""
    return struct.pack("<IH2x", 48, 211) + number.to_bytes(16, "big") + struct.pack("<QQQ", number, 9, 1)


# What comes behind the logon's answer, how many responses are gathered, whether that is all, and how often the gatherer asks.
HEARD = [
    ([answer(2, 2), new(1), new(2)], 2, True, 1),
    ([answer(2, 2), new(1)], 1, False, 1),
    ([answer(0, 0)], 0, True, 1),
    ([new(1)], 1, False, 1),
    ([new(1), answer(1, 1)], 1, True, 1),
    ([answer(2, 3), new(3), new(1), new(2), answer(3, 3), new(3)], 3, True, 2),
    ([answer(1, 3), new(1), new(2)], 2, False, 2),
    ([answer(0, 2)], 0, False, 2),
    ([answer(2, 3), answer(3, 3), new(1), new(2), new(3)], 3, True, 1),
]

# Bytes that are no response: lengths of 7 and of 4,097, no template, a request's, a frame that is shorter than its template, a MsgSeqNum without a value,
# and a reason 18.
MISFITS = [
    struct.pack("<I", 7),
    struct.pack("<I", 4_097),
    struct.pack("<IH2x", 8, 999),
    struct.pack("<IH2xI4x", 16, 102, 3),
    struct.pack("<IH2x", 8, 201),
    struct.pack("<IH2xII", 16, 201, 0xFFFF_FFFF, 30_000),
    struct.pack("<IH2xII", 16, 204, 1, 18),
]


def gathers(program, pieces):
    """The status of a gatherer that hears these pieces, what it printed, and the bytes that it sent."""
    with tempfile.NamedTemporaryFile("w") as stage:
        stage.write("".join(f"bytes,1,{piece.hex()}\n" for piece in pieces if piece))
        stage.flush()
        words = [program, stage.name, "gather", FILES["TABLE"], FILES["PRODUCT"], "there", "21", "9"]
        done = subprocess.run(words, capture_output=True, text=True, stdin=subprocess.DEVNULL, timeout=SECONDS)
    lines, _, sent, _ = parts_of(done.stdout)
    return done.returncode, lines, bytes.fromhex("".join(line.split(" ")[2] for line in sent)), done.stderr


def ending(gathered, recovered):
    """The status of a gatherer that has so many responses at its end, and what it prints."""
    if not recovered:
        return 11, [f"unfinished: {gathered}"]
    return 0, [f"RECOVERED {gathered}", *[f"{number} NEW {number} 9 1" for number in range(1, gathered + 1)], f"END {gathered}"]


def cuttings(bytes_heard):
    return [(bytes_heard[:at], bytes_heard[at:]) for at in range(len(bytes_heard) + 1)]


def gathered_in_any_cutting(program):
    """What is wrong with what a gatherer makes of what it hears, or None."""
    for frames, gathered, recovered, asked in HEARD:
        for pieces in cuttings(LOGGED_ON + b"".join(frames)):
            status, lines, sent, errors = gathers(program, pieces)
            if (status, lines) != ending(gathered, recovered) or len(sent) != 24 + 48 * asked or errors:
                return f"{len(frames)} frames cut at {len(pieces[0])}: status {status}, printed {lines}, sent {len(sent)} bytes"
    return None


def misfits_at_their_place(program):
    """What is wrong with how a gatherer ends that hears what is no response, or None."""
    for misfit in MISFITS:
        for pieces in cuttings(LOGGED_ON + answer(2, 2) + new(1) + misfit + b"more"):
            status, lines, _, errors = gathers(program, pieces)
            if (status, lines) != (10, ["peer: byte 112"]) or errors:
                return f"{misfit.hex()} cut at {len(pieces[0])}: status {status}, printed {lines}"
    return None


def changed_bytes_are_answered(program):
    """What is wrong with a gatherer of which one byte is changed, or None: it ends as a gatherer may, and a change behind the responses changes none of them."""
    heard = LOGGED_ON + answer(2, 2) + new(1) + new(2)
    for at in range(len(heard)):
        for change in (0x01, 0x80, 0xFF):
            status, lines, _, errors = gathers(program, [heard[:at] + bytes([heard[at] ^ change]) + heard[at + 1 :]])
            wanted = {0: "END 2", 10: "peer: ", 11: "unfinished: "}.get(status)
            if wanted is None or not lines[-1].startswith(wanted) or errors:
                return f"byte {at} changed by {change}: status {status}, printed {lines}"
            if status == 0 and at >= 112 and lines[1] != "1 NEW 1 9 1":
                return f"byte {at} changed by {change} changes an earlier response"
    return None


GATHERERS = [gathered_in_any_cutting, misfits_at_their_place, changed_bytes_are_answered]


def check(program, names=()):
    """The cases with what is wrong with each, or None."""
    found = [(case.name, check_case(program, case)) for case in sorted(STAGES.iterdir()) if not names or case.name in names]
    return found if names else found + [(one.__name__, one(program)) for one in GATHERERS]


def main(program, *names):
    wrong = [(name, why) for name, why in check(program, names) if why is not None]
    for name, why in wrong:
        print(f"FAILED {name}: {why}")
    return 1 if wrong else 0


if __name__ == "__main__":
    sys.exit(main(*sys.argv[1:]))
