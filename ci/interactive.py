#!/usr/bin/env python3
"""One line, its whole reply, then the next line: ci/interactive.py [program ...], by default those of target/bin

A program is known by its name, bench or desk. Lines and replies are stored ones (ci/outputs.sh holds them to the
reference): sessions for bench, crates/desk/stdin for desk. A program that waits for more input before it answers, or
ends before its input does, fails here. Every seventh line comes in two pieces. The last line comes without its line
feed, and is answered once the input is closed. Then what docs/PROTOCOL.md says of an output that is closed and of an
input that is not ready. Exit 1, naming what was to come and what came.
"""
import os
import re
import select
import subprocess
import sys
import time
from io import BytesIO
from pathlib import Path
from subprocess import PIPE

import stored

SESSIONS = ["protocol.in", "refusals.in", "readings.in", "stops.in", "dwell.in", "opening.in", "settle.in"]
WAITING = re.compile(rb"W[04]([0-9A-Fa-f]{6}[0-9A-Fa-f]?)?\n?")  # an accepted W line: a T line gives its block
LIMIT = 20  # seconds for a reply
PAUSE = 0.01  # seconds in which nothing may be printed


class Wrong(Exception):
    pass


def exchanges(name):
    """Each line of a stored session with its reply: none to a silent line and to an accepted W line, twelve blocks to
    q 8, to a T line the sums and before them the block of a W line if it comes, else one line."""
    replies = BytesIO(stored.answers(name)).readlines()
    for line in BytesIO(stored.given(name)):
        ticks, first = line[:1] == b"T", b"".join(replies[:1])[:1]
        if WAITING.fullmatch(line) or line[1:2] == b"4" and not ticks:
            count = 0
        elif line.startswith(b"q08") and first == b"S":
            count = 12
        else:
            count = 2 if ticks and first == b"R" else 1
        yield line, b"".join(replies[:count])
        del replies[:count]
    if replies:
        raise Wrong(f"{name}: {len(replies)} stored replies belong to no line")


def bench_sessions():
    """Each stored session with its exchanges."""
    for name in SESSIONS:
        yield name, list(exchanges(name))


def desk_sessions():
    """The stored lines of the desk, each with its answer."""
    try:
        yield "crates/desk/stdin", list(stored.desk())
    except ValueError as wrong:
        raise Wrong(wrong) from None


# What each program is given: its sessions, and a line with its reply before it is made to stop.
PROGRAMS = {
    "bench": (bench_sessions, b"Q06\n", b"S0600000\n"),
    "desk": (desk_sessions, b"status\n", b"Q0600000\n"),
}


class Running:
    """The program with a pipe at each end."""

    def __init__(self, program, **kept):
        self.process = subprocess.Popen([program], bufsize=0, **{"stdin": PIPE, "stdout": PIPE, **kept})

    def give(self, data):
        try:
            self.process.stdin.write(data)
        except BrokenPipeError:
            raise Wrong(f"{data!r}: the program has ended") from None

    def quiet(self, line):
        if select.select([self.process.stdout], [], [], PAUSE)[0]:
            raise Wrong(f"{line!r}: nothing was to come, and {self.process.stdout.read(4096)!r} came")

    def expect(self, line, reply):
        came, end = b"", time.monotonic() + LIMIT
        while len(came) < len(reply):
            if not select.select([self.process.stdout], [], [], max(0, end - time.monotonic()))[0]:
                raise Wrong(f"{line!r}: {reply!r} was to come, and {came!r} came in {LIMIT} s")
            piece = self.process.stdout.read(len(reply) - len(came))
            if not piece:
                raise Wrong(f"{line!r}: {reply!r} was to come, and {came!r} came before the program ended")
            came += piece
        if came != reply:
            raise Wrong(f"{line!r}: {reply!r} was to come, and {came!r} came")

    def over(self, case, status, said=None):
        """The program ends so, prints nothing more, and says this on standard error."""
        try:
            ended = self.process.wait(LIMIT)
        except subprocess.TimeoutExpired:
            self.process.kill()
            raise Wrong(f"{case}: the program does not end") from None
        left = self.process.stdout.read() if self.process.stdout else b""
        told = self.process.stderr.read() if self.process.stderr else None
        if (left, ended, told) != (b"", status, said):
            raise Wrong(f"{case}: the program ended with status {ended}, printed {left!r} last and said {told!r}")


def sessions(program, stored_sessions):
    """Every session line by line. Returns the number of lines."""
    lines = 0
    for name, exchanged in stored_sessions():
        running = Running(program)
        *told, (last, end) = exchanged
        for line, reply in told:
            lines += 1
            if lines % 7 == 0 and len(line) > 1:
                running.give(line[:-2])
                running.quiet(line[:-2])
                running.give(line[-2:])
            else:
                running.give(line)
            running.expect(line, reply)
            if not reply:
                running.quiet(line)
        running.give(last.rstrip(b"\n"))
        running.quiet(last)
        running.process.stdin.close()
        running.expect(last, end)
        running.over(name, 0)
    return lines


def stops(program, line, reply):
    """Three ways to stop before the end of the input, which stays open."""
    stopped = f"{os.path.basename(program)}: stopped, input or output failed\n".encode()
    for case, ignored in [("output closed", False), ("output closed, SIGPIPE ignored", True)]:
        # either way the same: a program of this toolchain ignores SIGPIPE itself, as Rust's do
        running = Running(program, stderr=PIPE, restore_signals=not ignored)
        running.process.stdout.close()
        running.process.stdout = None
        running.give(line)
        running.over(case, 0, stopped)
    end, other = os.pipe()
    os.set_blocking(end, False)
    os.write(other, line + line[:2])
    running = Running(program, stdin=end, stderr=PIPE)
    running.expect(line, reply)
    running.over("input not ready", 0, stopped)
    os.close(end)
    os.close(other)


def main():
    programs = [os.path.abspath(program) for program in sys.argv[1:]]
    os.chdir(Path(__file__).resolve().parent.parent)
    for program in programs or [os.path.abspath(f"target/bin/{name}") for name in PROGRAMS]:
        try:
            if os.path.basename(program) not in PROGRAMS:
                raise Wrong(f"a program of another name than {' or '.join(PROGRAMS)}")
            stored_sessions, line, reply = PROGRAMS[os.path.basename(program)]
            lines = sessions(program, stored_sessions)
            stops(program, line, reply)
        except Wrong as wrong:
            print(f"interactive: {os.path.relpath(program)}: {wrong}")
            return 1
        print(f"interactive: {os.path.relpath(program)}: {lines} lines, each answered before the next")
    return 0


if __name__ == "__main__":
    sys.exit(main())
