#!/usr/bin/env python3
"""Draws the lines of a run as one picture.

usage: draw_run.py LINES PICTURE

LINES is a file with the lines that `cinema encode` printed, or - for standard input; PICTURE is
the file to write, its suffix says the format (.png, .svg, .pdf). From the top, frame by frame in
the order of the lines:

  bytes       what each byte budget holds, headers included, in parts of its limit
  price       the price of a byte in each budget that refused a step, in units of distortion
  gap         how far above the least possible the distortion can be, as a part of the distortion

A refused frame is a grey band with its name of refusal. Needs matplotlib (python3-matplotlib).
The script ends with status 2 for bad words or a line that is none of a run.
"""

import math
import re
import sys

import matplotlib

matplotlib.use("Agg")
import matplotlib.pyplot as plt
from matplotlib.ticker import MaxNLocator, PercentFormatter

BUDGETS = {
    "frame": ("whole codestream", "#202020", "o"),
    "inner": ("2K portion", "#7f3fbf", "D"),
    "c0": ("component 0", "#1f77b4", "^"),
    "c1": ("component 1", "#2ca02c", "s"),
    "c2": ("component 2", "#d62728", "v"),
}
BUDGET = re.compile(r"(frame|inner|c0|c1|c2)=(\d+)/(\d+)/(\d+)")
NUMBER = re.compile(r"(distortion|gap)=(\d+)")
REFUSED = re.compile(r"refused (\S+) (\d+) (\w+)( .+)?")


class Frame:
    """One line: a frame that was written, or one that was refused."""

    def __init__(self, line):
        words = line.split(" ")
        refused = REFUSED.fullmatch(line)
        self.budgets, self.numbers, self.refusal = {}, {}, None
        if refused:
            self.name, self.refusal = refused[1], refused[3]
        elif words[0] == "ok" and len(words) > 4:
            self.name = words[1]
            for word in words[4:]:
                if budget := BUDGET.fullmatch(word):
                    self.budgets[budget[1]] = tuple(map(int, budget.groups()[1:]))
                elif number := NUMBER.fullmatch(word):
                    self.numbers[number[1]] = int(number[2])
        if self.refusal is None and not ("frame" in self.budgets and len(self.numbers) == 2):
            raise ValueError(f"no line of a run: {line}")

    def price(self, budget):
        """What a byte of the budget is worth: its multiplier is 2^32 times that."""
        return self.budgets[budget][2] / 2**32 if budget in self.budgets else 0

    def share(self, budget):
        """What the budget holds, in parts of its limit."""
        held, limit, _ = self.budgets[budget]
        return held / limit

    def relative_gap(self):
        """The gap in parts of the distortion; 0 where no choice is better."""
        gap, distortion = self.numbers["gap"], self.numbers["distortion"]
        return gap / distortion if gap else 0


def read_frames(lines):
    return [Frame(line.rstrip("\n")) for line in lines]


def draw_line(axes, values, **form):
    """One line over the frames, broken where the value is 0; nothing where all are."""
    if any(values):
        axes.plot([value or math.nan for value in values], markersize=4, linewidth=0.8, **form)


def draw_series(axes, frames, value):
    """One line a budget."""
    for budget, (label, colour, marker) in BUDGETS.items():
        values = [value(frame, budget) if budget in frame.budgets else 0 for frame in frames]
        draw_line(axes, values, color=colour, marker=marker, label=label)


def draw_gaps(axes, frames):
    gaps = [0 if frame.refusal else frame.relative_gap() for frame in frames]
    draw_line(axes, gaps, color="#202020", marker="o")
    if any(gaps):
        axes.set_yscale("log")
    none = [n for n, frame in enumerate(frames) if not frame.refusal and gaps[n] == 0]
    for n in none:
        axes.axvline(n, ymin=0, ymax=0.05, color="#2ca02c", linewidth=3)
    if none:
        axes.text(0.995, 0.07, "green: no choice is better (gap 0)", ha="right",
                  transform=axes.transAxes, fontsize=8, color="#2ca02c")


def mark_refused(panels, frames):
    for n, frame in enumerate(frames):
        if frame.refusal:
            for axes in panels:
                axes.axvspan(n - 0.4, n + 0.4, color="#bbbbbb", linewidth=0)
            panels[0].text(n, 0.03, f"{frame.name}: {frame.refusal}", rotation=90, ha="center",
                           va="bottom", fontsize=8, transform=panels[0].get_xaxis_transform())


def draw(frames, picture):
    figure, panels = plt.subplots(3, 1, sharex=True, figsize=(9, 8), layout="constrained")
    panels[0].axhline(1, color="#d62728", linewidth=1)
    draw_series(panels[0], frames, Frame.share)
    panels[0].set(ylabel="bytes held / limit", ylim=(0, 1.08))
    panels[0].yaxis.set_major_formatter(PercentFormatter(1))
    draw_series(panels[1], frames, Frame.price)
    panels[1].set_ylabel("price of a byte\n(units of distortion)")
    if panels[1].lines:
        panels[1].set_yscale("log")
    draw_gaps(panels[2], frames)
    panels[2].set_ylabel("gap / distortion")
    mark_refused(panels, frames)
    for axes in panels:
        axes.grid(alpha=0.3)
        axes.set_xlim(-0.6, len(frames) - 0.4)
    panels[2].xaxis.set_major_locator(MaxNLocator(integer=True))
    panels[2].set_xlabel("frame, in the order of the lines")
    if panels[0].lines[1:]:
        panels[0].legend(loc="lower left", bbox_to_anchor=(0, 1), ncol=5, fontsize=8, frameon=False)
    figure.savefig(picture, dpi=120)


def main(words):
    if len(words) != 2:
        print("usage: draw_run.py LINES PICTURE", file=sys.stderr)
        return 2
    try:
        if words[0] == "-":
            frames = read_frames(sys.stdin)
        else:
            with open(words[0], encoding="ascii") as lines:
                frames = read_frames(lines)
    except (OSError, ValueError) as fault:
        print(fault, file=sys.stderr)
        return 2
    if not frames:
        print("no frames", file=sys.stderr)
        return 2
    draw(frames, words[1])
    return 0


if __name__ == "__main__":
    sys.exit(main(sys.argv[1:]))
