"""Times scripts of one kind of work each by several hosts, and prints ratios of processor time and of memory, and the memory of each run.

The time of a host is the least user time of a few runs, since other work on the machine only adds to it. Each host must print what the
first other host prints. It needs GNU time. Usage: walk.py [--runs N] PROGRAM [WORD..], where PROGRAM and the words run a script that is named behind them.
"""
import math
import os
import shutil
import subprocess
import sys
import tempfile

HERE = os.path.dirname(os.path.abspath(__file__))
FOLDERS = ("walk", "objects", "classes", "arrays")
HOSTS = ("ruby", "mruby")


def once(command):
    """Runs a command by GNU time; answers its user seconds, the most KiB that it had, and what it wrote."""
    with tempfile.NamedTemporaryFile("r") as told:
        timed = [shutil.which("time"), "-q", "-f", "%U %M", "-o", told.name, *command]
        ran = subprocess.run(timed, stdin=subprocess.DEVNULL, stdout=subprocess.PIPE, check=False)
        seconds, room = told.read().split()
    return float(seconds), int(room), ran.stdout


def least(command, runs):
    """The least user seconds and KiB of a few runs, and what the first of them wrote."""
    made = [once(command) for _ in range(runs)]
    return min(one[0] for one in made), min(one[1] for one in made), made[0][2]


def mean(ratios):
    """The geometric mean."""
    return math.exp(sum(map(math.log, ratios)) / len(ratios))


def compare(folder, words, runs, others):
    """Times the scripts of a folder, and prints a line for each and the means."""
    ratios = {name: [] for name in others}
    shares = {name: [] for name in others}
    print(f"{folder:20}{'ours':>8}" + "".join(f"{name:>8}{'ratio':>7}" for name in others) + "   KiB")
    for script in sorted(os.listdir(os.path.join(HERE, folder))):
        path = os.path.join(HERE, folder, script)
        ours, ours_room, text = least([*words, path], runs)
        line, rooms, same = f"{script:20}{ours:8.2f}", [ours_room], True
        for name in others:
            seconds, room, wanted = least([name, path], runs)
            ratios[name].append(ours / seconds)
            shares[name].append(ours_room / room)
            line += f"{seconds:8.2f}{ours / seconds:7.2f}"
            rooms.append(room)
            same = same and text == wanted
        print(line + "   " + " ".join(f"{it:,}" for it in rooms) + ("" if same else "   OTHER OUTPUT"), flush=True)
    for name in others:
        print(f"geometric mean, of the time of {name}: {mean(ratios[name]):.2f}, of its memory: {mean(shares[name]):.2f}")


def main():
    words = sys.argv[1:]
    runs = 5
    if words[:1] == ["--runs"]:
        runs, words = int(words[1]), words[2:]
    if not words:
        sys.exit(__doc__)
    if not shutil.which("time"):
        print("walk.py: GNU time is not installed, skipped")
        return
    others = [name for name in HOSTS if shutil.which(name)]
    for folder in FOLDERS:
        compare(folder, words, runs, others)


if __name__ == "__main__":
    main()
