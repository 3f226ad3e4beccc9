#!/usr/bin/env python3
"""Kills runs over an image at random moments, and tells whether anything that was acknowledged is lost.

    scripts/kill_runs.py crates/cabinet/out/cabinet [KILLS [SEED]]

A run of random events over one image is killed, `check` tells how many entries the image has, and the next run goes on with it.
At the end one trial carries out just the events that were recorded, with the power off and on between the runs. It must print
each line that was printed before a kill, and show the same texts as the image does.

What is tried is the end of a process at any moment, and not a loss of power: what a killed program wrote stands in the system's
memory, whether it was synced or not.
"""

import os
import random
import re
import subprocess
import sys
import tempfile
import time

LINES = [
    "bill 100", "bill 500", "bill 1000", "coin 25", "play reels 1", "play reels 9", "play poker 5", "pick 1", "pick 3",
    "hold 00000", "hold 11000", "red", "black", "take", "cashout", "coin-paid open", "printed open", "print-fail open",
    "hopper-empty open", "clear-tilt print-fail", "clear-tilt hopper-empty", "open main", "shut main", "handpay",
]
LINES_OF_A_RUN = 3000
LONGEST = 0.5
TEXTS = ["meters", "state", "recall", "events", "order"]


def called(program, words, script=""):
    """What the program prints for these words, and its status."""
    done = subprocess.run([program, *words], input=script.encode(), stdout=subprocess.PIPE, check=False)
    return done.stdout.decode(), done.returncode


def entries_of(program, image):
    """How many entries the image has, which is the later of the counts of its sound copies."""
    told, status = called(program, ["check", image])
    assert status == 0, f"check ends with {status}: {told}"
    counts = [int(n) for n in re.findall(r"^[ab] sound (\d+)$", told, re.M)]
    assert counts, told
    return max(counts)


def killed_run(program, image, folder, script, after):
    """The whole lines that a run printed before it was killed."""
    into, report = os.path.join(folder, "script"), os.path.join(folder, "report")
    with open(into, "w", encoding="ascii") as file:
        file.write(script)
    with open(into, "rb") as source, open(report, "wb") as sink:
        run = subprocess.Popen([program, "run", image], stdin=source, stdout=sink)
        time.sleep(after)
        run.kill()
        run.wait()
    with open(report, encoding="ascii") as file:
        told = file.read()
    return told[: told.rfind("\n") + 1].splitlines()


def last_count(lines, before):
    """The count of entries that the last line tells."""
    counts = [int(n) for line in lines for n in re.findall(r"^(?:ack .* |start )at (\d+)", line)]
    return counts[-1] if counts else before


def main():
    program = os.path.abspath(sys.argv[1])
    kills = int(sys.argv[2]) if len(sys.argv) > 2 else 100
    draw = random.Random(int(sys.argv[3]) if len(sys.argv) > 3 else 1)
    assert kills <= 255, "a trial has 256 power-ons at most"
    with tempfile.TemporaryDirectory() as folder:
        image = os.path.join(folder, "m")
        assert called(program, ["init", image]) == ("made\n", 0)
        before, untold, runs = 0, 0, []
        for _ in range(kills):
            lines = [draw.choice(LINES) for _ in range(LINES_OF_A_RUN)]
            told = killed_run(program, image, folder, "".join(f"{line}\n" for line in lines), draw.uniform(0, LONGEST))
            count = entries_of(program, image)
            last = last_count(told, before)
            assert last <= count <= last + 1, f"{last} entries were told and {count} stand"
            untold += count - last
            if count > before:
                runs.append((lines[: count - before - 1], told))
            before = count
        shown = "".join(called(program, ["show", text, image])[0] for text in TEXTS)

        recorded = "off\non\n".join("".join(f"{line}\n" for line in lines) for lines, _ in runs)
        asked = "".join("order\n" if text == "order" else f"show {text}\n" for text in TEXTS)
        report, status = called(program, ["trial"], recorded + asked)
        assert status == 0, report.splitlines()[-1]
        assert report[: report.rindex("end at")].endswith(shown), "the image shows another text than the trial"
        parts = report.split("\noff\n")
        assert len(parts) == len(runs)
        for (_, told), part in zip(runs, parts):
            answers = [line for line in told if line.startswith("ack ")]
            whole = [line for line in part.splitlines() if line.startswith("ack ")]
            assert answers == whole[: len(answers)], "a line was told that the trial doesn't tell"
            assert len(whole) - len(answers) <= 1
    print(f"{kills} kills, {before} entries, {untold} of them recorded and not told; nothing that was told is lost")


if __name__ == "__main__":
    main()
