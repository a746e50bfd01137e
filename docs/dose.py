#!/usr/bin/env python3
"""Draws docs/dose.svg: five travels over time, in a dose that is slowed once and stopped.

    ci/build.sh bench && python3 docs/dose.py

Writes the session docs/dose.in, runs target/bin/bench on it, checks every travel read and draws the replies.
"""
import subprocess
from pathlib import Path

HERE = Path(__file__).resolve().parent
PROGRAM = HERE.parent / "target/bin/bench"

# The blend: the distance of each pump in pulses; pump 0 is the master.
DISTANCES = [524287, 400009, 271828, 181081, 100000]
MASTER = DISTANCES[0]
SLOPE = 37  # units of 1.25 kHz/s
FAST, SLOW = 400000, 120000  # units of 0.25 Hz

TICK_SECONDS = 4e-6
STEP = 25000  # ticks between two readings
SLOWED, STOPPED, STEPS = 30, 52, 65  # the orders stand before these steps

READINGS = [f"Q0{k}" for k in range(5)]

# Other replies are U0000000; the last status says: at rest, stopped by order.
REPLIES = {"Q080": "S0800000", "Q09": "S0900000", "Q06": "S0600008"}

WIDTH, HEIGHT = 900, 520
LEFT, RIGHT, TOP, BOTTOM = 84, 664, 112, 460
SECONDS, PULSES = 6.5, 350000
COLOURS = ["#0072b2", "#c24e00", "#007a5a", "#9c3f78", "#7a5c00"]
GREY = "#555555"


# ---- The session


def session():
    """The lines of the session; each prints one line."""
    lines = [f"P0{k}{d:05X}" for k, d in enumerate(DISTANCES)]
    lines += [f"P09{SLOPE:05X}", f"P08{FAST:05X}", "Q080"]
    for step in range(STEPS):
        if step == SLOWED:
            lines.append(f"P08{SLOW:05X}")
        if step == STOPPED:
            lines.append("Q09")
        lines.append(f"T {STEP} 000000")
        lines += READINGS
    return lines + ["Q06"]


def replies(lines):
    """What the bench program prints for each line."""
    given = "".join(line + "\n" for line in lines)
    (HERE / "dose.in").write_text(given, encoding="ascii")
    done = subprocess.run([PROGRAM], input=given, stdout=subprocess.PIPE, check=True, encoding="ascii")
    printed = done.stdout.splitlines()
    if len(printed) != len(lines):
        raise SystemExit(f"dose: {len(lines)} lines sent, {len(printed)} printed")
    return printed


def samples(lines, printed):
    """The five travels after each step, read by Q 0-4; the pulses that the T lines sum up must be the same."""
    sent, read, found = [0] * 5, [], [[0] * 5]
    for line, reply in zip(lines, printed):
        if line.startswith("T"):
            sent = [total + int(pulses) for total, pulses in zip(sent, reply.split())]
            read = []
        elif line in READINGS:
            read.append(int(reply[3:], 16))
            if len(read) == 5:
                check(read, sent)
                found.append(read)
        elif reply != REPLIES.get(line, "U0000000"):
            raise SystemExit(f"dose: {line} answers {reply}")
    return found


def check(read, sent):
    """No pump is ahead of its exact share or a whole pulse behind."""
    m = read[0]
    for t, d in zip(read, DISTANCES):
        if not t * MASTER <= m * d < (t + 1) * MASTER:
            raise SystemExit(f"dose: travel {t} at m {m}, distance {d}")
    if read != sent:
        raise SystemExit(f"dose: travels {read}, pulses {sent}")


# ---- The picture


def across(step):
    return LEFT + (RIGHT - LEFT) * step * STEP * TICK_SECONDS / SECONDS


def up(pulses):
    return BOTTOM - (BOTTOM - TOP) * pulses / PULSES


def text(x, y, words, size=13, anchor="start", colour="#222222", more=""):
    place = f'x="{x:.1f}" y="{y:.1f}" font-size="{size}" text-anchor="{anchor}"'
    return f'<text {place} fill="{colour}"{more}>{words}</text>'


def rule(x1, y1, x2, y2, colour, more=""):
    return f'<line x1="{x1:.1f}" y1="{y1:.1f}" x2="{x2:.1f}" y2="{y2:.1f}" stroke="{colour}"{more}/>'


def axes():
    parts = []
    for pulses in range(0, PULSES + 1, 50000):
        y = up(pulses)
        parts += [rule(LEFT, y, RIGHT, y, "#e3e3e0"), text(LEFT - 8, y + 4, f"{pulses:,}", 12, "end", GREY)]
    for second in range(7):
        x = across(second / STEP / TICK_SECONDS)
        parts += [rule(x, BOTTOM, x, BOTTOM + 5, GREY), text(x, BOTTOM + 20, second, 12, "middle", GREY)]
    parts.append(rule(LEFT, BOTTOM, RIGHT, BOTTOM, GREY))
    parts.append(text((LEFT + RIGHT) / 2, BOTTOM + 42, "time in s", 13, "middle"))
    turned = f' transform="rotate(-90 20 {(TOP + BOTTOM) / 2:.1f})"'
    parts.append(text(20, (TOP + BOTTOM) / 2, "travel in pulses", 13, "middle", more=turned))
    return parts


def mark(step, words, below):
    """An order: a dashed upright with its words in two lines above it."""
    x = across(step)
    parts = [rule(x, TOP, x, BOTTOM, GREY, ' stroke-dasharray="4 4"')]
    parts.append(text(x, TOP - 24, words, 13, "middle", more=' font-weight="bold"'))
    return parts + [text(x, TOP - 8, below, 12, "middle", GREY)]


def share(m, d):
    """m × d / M, cut after three decimals."""
    whole, rest = divmod(m * d, MASTER)
    return f"{whole:,}" if rest == 0 else f"{whole:,}.{rest * 1000 // MASTER:03}…"


def pump(k, found):
    points = " ".join(f"{across(step):.1f},{up(travels[k]):.1f}" for step, travels in enumerate(found))
    m, t = found[-1][0], found[-1][k]
    x, y = RIGHT + 10, up(t)
    return [
        f'<polyline points="{points}" fill="none" stroke="{COLOURS[k]}" stroke-width="2.2" stroke-linejoin="round"/>',
        f'<circle cx="{RIGHT}" cy="{y:.1f}" r="4" fill="{COLOURS[k]}"/>',
        text(x, y - 2, f"pump {k}: {t:,}", 14, colour=COLOURS[k], more=' font-weight="bold"'),
        text(x, y + 14, f"share {share(m, DISTANCES[k])} (d {DISTANCES[k]:,})", 12, colour=GREY),
    ]


def picture(found):
    m = found[-1][0]
    told = f"Travels read from the bench program every 0.1 s. M {MASTER:,}, stopped at m {m:,}; share: m × d / M"
    parts = [
        f'<svg xmlns="http://www.w3.org/2000/svg" viewBox="0 0 {WIDTH} {HEIGHT}" width="{WIDTH}" height="{HEIGHT}"'
        ' font-family="Helvetica, Arial, sans-serif">',
        "<title>Five travels of a dose that is slowed once and stopped</title>",
        f'<rect width="{WIDTH}" height="{HEIGHT}" fill="#fdfdfb"/>',
        text(LEFT, 32, "A dose, slowed once and stopped at a crooked pulse", 18, more=' font-weight="bold"'),
        text(LEFT, 54, told, 13, colour=GREY),
    ]
    parts += axes()
    parts += mark(SLOWED, "slowed", f"from {FAST // 4000} to {SLOW // 4000} kHz")
    parts += mark(STOPPED, "stopped", "by order Q 9")
    for k in range(5):
        parts += pump(k, found)
    return "\n".join(parts + ["</svg>", ""])


def main():
    lines = session()
    found = samples(lines, replies(lines))
    (HERE / "dose.svg").write_text(picture(found), encoding="utf-8")
    counters = ", ".join(f"{t:,}" for t in found[-1])
    print(f"dose: {len(found) - 1} readings of five travels, each at its share; stopped at {counters}")


if __name__ == "__main__":
    main()
