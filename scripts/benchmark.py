#!/usr/bin/env python3
"""Measures the built encoder beside other encoders on a folder of frames.

usage: benchmark.py FRAMES [--profile 2k|4k] [--rounds N] [--program PROGRAM]

FRAMES is a folder of binary PPM files of maxval 4095 and of at least one frame. PROGRAM is the
built encoder, crates/encode_cli/out/encode_cli beside this script's folder if left out. Beside it
each of `opj_compress` (OpenJPEG) and `grk_compress` (Grok) that is on the path is run with its
cinema profile at 24 frames a second, on one thread. Each program gets every frame alone, in a
process of its own; the programs take turns frame by frame, N rounds (3 if left out). Printed are,
of each frame and of all, the median over the rounds of the processor seconds (user and system),
their ratio to each other program's, the bytes of the codestream, and the peak memory.

A program that ends with another status than 0 is named, and its figures count all the same.
"""

import argparse
import os
import shutil
import statistics
import subprocess
import sys
import tempfile
from pathlib import Path

TOP = Path(__file__).resolve().parent.parent


class Encoder:
    """A program that makes a codestream of one frame."""

    def __init__(self, name, words):
        self.name, self.words = name, words

    def run(self, frame, profile, folder):
        """Returns processor seconds, peak memory in kilobytes and bytes of the codestream."""
        source, target = folder / "source", folder / "target"
        for made in (source, target):
            shutil.rmtree(made, ignore_errors=True)
            made.mkdir()
        link = source / frame.name
        link.symlink_to(frame.resolve())
        output = target / (frame.stem + ".j2c")
        words = self.words(link, output, profile)
        with open(folder / "log", "wb") as log:
            process = subprocess.Popen(words, stdout=log, stderr=log)
            _, status, usage = os.wait4(process.pid, 0)
            process.returncode = os.waitstatus_to_exitcode(status)
        if process.returncode != 0:
            said = (folder / "log").read_text(errors="replace").strip().splitlines()
            print(f"{self.name} on {frame.name}: status {process.returncode}: {said[-1:]}",
                  file=sys.stderr)
        size = output.stat().st_size if output.exists() else 0
        return usage.ru_utime + usage.ru_stime, usage.ru_maxrss, size


def encoders(program):
    """This encoder, and the others that are on the path."""
    found = [Encoder("cinema", lambda source, target, profile: [
        program, "encode", source.parent, target.parent, "--profile", profile])]
    if shutil.which("opj_compress"):
        found.append(Encoder("openjpeg", lambda source, target, profile: [
            "opj_compress", f"-cinema{profile.upper()}", "24", "-i", source, "-o", target]))
    if shutil.which("grk_compress"):
        found.append(Encoder("grok", lambda source, target, profile: [
            "grk_compress", "-cinema2K" if profile == "2k" else "-cinema4k", "24", "-H", "1",
            "-i", source, "-o", target]))
    return found


def measure(found, frames, profile, rounds):
    """For each frame and program, the list of results of the rounds."""
    results = {(frame.name, one.name): [] for frame in frames for one in found}
    with tempfile.TemporaryDirectory() as made:
        for _ in range(rounds):
            for frame in frames:
                for one in found:
                    results[frame.name, one.name].append(one.run(frame, profile, Path(made)))
    return results


def median_seconds(results):
    return statistics.median(seconds for seconds, _, _ in results)


def print_table(found, frames, results):
    print(f"{'frame':20} {'program':10} {'seconds':>8} {'ratio':>6} {'peak MB':>8} {'bytes':>9}")
    totals = {one.name: [0.0, 0] for one in found}
    for frame in frames:
        ours = median_seconds(results[frame.name, found[0].name])
        for one in found:
            rows = results[frame.name, one.name]
            seconds, peak = median_seconds(rows), max(row[1] for row in rows)
            totals[one.name][0] += seconds
            totals[one.name][1] = max(totals[one.name][1], peak)
            print(f"{frame.name:20} {one.name:10} {seconds:8.2f} {ours / seconds:6.2f} "
                  f"{peak / 1000:8.0f} {rows[-1][2]:9}")
    ours = totals[found[0].name][0]
    for one in found:
        seconds, peak = totals[one.name]
        print(f"{'all':20} {one.name:10} {seconds:8.2f} {ours / seconds:6.2f} {peak / 1000:8.0f}")


def main():
    parser = argparse.ArgumentParser(description="Measures the encoder beside others.")
    parser.add_argument("frames", type=Path)
    parser.add_argument("--profile", choices=["2k", "4k"], default="2k")
    parser.add_argument("--rounds", type=int, default=3)
    parser.add_argument("--program", default=TOP / "crates/encode_cli/out/encode_cli")
    words = parser.parse_args()
    frames = sorted(words.frames.glob("*.ppm"))
    if not frames or words.rounds < 1 or not os.access(words.program, os.X_OK):
        parser.error("a folder with frames, at least one round and a built program are needed")
    found = encoders(words.program)
    print_table(found, frames, measure(found, frames, words.profile, words.rounds))


if __name__ == "__main__":
    main()
