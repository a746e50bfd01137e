#!/usr/bin/env python3
"""Gives the bench program a terminal line of its own: docs/terminal.py [program]

Prints the name of a pty. A terminal program (screen, minicom, picocom) that opens it is connected to the bench
program: the Enter key, which sends 0D, ends a line, and each line feed that the bench prints is sent as 0D 0A.
Control-C ends it.
"""
import os
import subprocess
import sys
import threading
import tty


def pass_on(source, target, old, new):
    """All bytes that come, until no more do, with one byte written as another."""
    while True:
        try:
            got = os.read(source, 4096)
        except OSError:
            return
        if not got:
            return
        os.write(target, got.replace(old, new))


def main():
    program = sys.argv[1] if len(sys.argv) > 1 else "target/bin/bench"
    line, terminal = os.openpty()
    tty.setraw(terminal)
    bench = subprocess.Popen([program], stdin=subprocess.PIPE, stdout=subprocess.PIPE, bufsize=0)
    print(os.ttyname(terminal), flush=True)
    out = (bench.stdout.fileno(), line, b"\n", b"\r\n")
    threading.Thread(target=pass_on, args=out, daemon=True).start()
    try:
        pass_on(line, bench.stdin.fileno(), b"\r", b"\n")
    except KeyboardInterrupt:
        pass
    bench.terminate()


if __name__ == "__main__":
    main()
