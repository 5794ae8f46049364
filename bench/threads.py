"""Times what threads share, by this host and by `ruby` where that is on the PATH, and prints ratios of one run.

It times `work` at four sizes, beside a run of the same script from a file; a loop that gives a value to a local and to a global variable, less the
loop alone; a counter under a mutex, an array that grows and a hash, each changed as often by one thread, by two and by four; and what it costs to give
a global variable a graph in place of a local, by the size of the graph, in time and in memory. A figure is the least of a few runs by the clock, which
are made by turns, since other work on the machine only adds to it. The start of a host, which is the time of a script that prints a number in the same
turns, is taken off; where less than 5 milliseconds are left, there is no ratio.
Usage: threads.py [--runs N] PROGRAM"""
import os
import shutil
import subprocess
import sys
import tempfile
import time

HERE = os.path.dirname(os.path.abspath(__file__))
SCRIPTS = os.path.join(HERE, "threads")
SIZES = (100, 1_000, 10_000, 100_000)
MOVED = (1_000, 10_000, 100_000, 1_000_000)
COUNTS = (1, 2, 4)
CHANGED = ("counter", "grown", "pairs")
ROUNDS = 1_000_000
LITTLE = 0.005

# How a graph begins, and what each of its things is made by.
GRAPHS = {
    "objects": "class Link\n  def initialize(more)\n    @more = more\n  end\nend\nx = nil\n",
    "list": "x = []\n",
    "pairs": "x = {}\n",
}
GROWS = {"objects": "x = Link.new(x)", "list": "x << i", "pairs": "x[i] = i"}
MOVES = "{start}i = 0\nwhile i < {size}\n  {grows}\n  i += 1\nend\n{name} = x\nputs i\n"

WORK = """$a = Array.new({1}, 0)
$m = Mutex.new
$t = 0
threads = []
4.times do |k|
  threads << Thread.new(k) do |j|
    s = {0} + j
    i = j
    while i < {1}
      s = (s * 1103515245 + 12345) % 2147483648
      $a[i] = s % 1000
      i += 4
    end
    $m.synchronize {{ $t += s % 1000 }}
  end
end
threads.each {{ |x| x.join }}
sum = 0
$a.each {{ |v| sum += v }}
puts sum
puts $t
"""


def once(command):
    """Runs a command; answers its seconds by the clock, and what it wrote."""
    begun = time.perf_counter()
    ran = subprocess.run(command, stdin=subprocess.DEVNULL, stdout=subprocess.PIPE, check=False)
    return time.perf_counter() - begun, ran.stdout


def least(hosts, commands, runs):
    """The least seconds of each command, by its host and what it does, over a few rounds, in each of which all of them run, less the start of the
    host; and what the first round wrote."""
    starts = {(name, "start"): [*words, os.path.join(HERE, "start_up.rb")] for name, words in hosts.items()}
    rounds = [[once(command) for command in {**starts, **commands}.values()] for _ in range(runs)]
    whole = dict(zip([*starts, *commands], (min(one[0] for one in each) for each in zip(*rounds))))
    own = {key: whole[key] - whole[key[0], "start"] for key in commands}
    return own, [one[1] for one in rounds[0][len(starts) :]]


def ratio(one, other):
    """One time as a part of another, as a text."""
    return f"{one / other:7.2f}" if min(one, other) >= LITTLE else f"{'-':>7}"


def tell(line, texts):
    """Prints a line, with a word where hosts wrote different texts."""
    print(line + ("" if len(set(texts)) == 1 else "   OTHER OUTPUT"), flush=True)


def time_work(program, hosts, runs, room):
    """`work` at each size, by the command and from a file, and for each place of the array."""
    print(f"{'work':>10}{'seconds':>9}{'a place':>11}" + "".join(f"{name:>10}{'ratio':>7}" for name in hosts))
    for size in SIZES:
        path = os.path.join(room, f"work_{size}.rb")
        with open(path, "w", encoding="ascii") as script:
            script.write(WORK.format(1, size))
        commands = {("rbso", "work"): [program, "work", "--number", "1", "--size", str(size)]}
        commands.update({(name, "file"): [*words, path] for name, words in hosts.items()})
        own, texts = least(hosts, commands, runs)
        seconds = own["rbso", "work"]
        line = f"{size:10,}{seconds:9.3f}{seconds / size * 1e6:9.2f}us"
        for name in hosts:
            line += f"{own[name, 'file']:10.3f}{ratio(seconds, own[name, 'file'])}"
        tell(line, texts)


def time_access(hosts, runs):
    """What one assignment to a local and one to a global variable cost."""
    print(f"{'access':>10}{'local':>10}{'global':>10}{'ratio':>7}")
    kinds = ("loop", "locals", "globals")
    commands = {(name, kind): [*words, os.path.join(SCRIPTS, f"{kind}.rb")] for name, words in hosts.items() for kind in kinds}
    own, _ = least(hosts, commands, runs)
    for name in hosts:
        one, other = (own[name, kind] - own[name, "loop"] for kind in kinds[1:])
        print(f"{name:>10}{one / ROUNDS * 1e9:8.1f}ns{other / ROUNDS * 1e9:8.1f}ns{ratio(other, one)}", flush=True)


def time_changes(hosts, runs):
    """What threads change at once: the seconds with one thread, and those with more as parts of it."""
    print(f"{'changes':>10}{'host':>10}" + "".join(f"{f'{n} threads':>11}" for n in COUNTS))
    for kind in CHANGED:
        commands = {(name, n): [*words, os.path.join(SCRIPTS, f"{kind}_{n}.rb")] for name, words in hosts.items() for n in COUNTS}
        own, texts = least(hosts, commands, runs)
        for name in hosts:
            line = "".join(f"    {ratio(own[name, n], own[name, 1])}" for n in COUNTS[1:])
            tell(f"{kind:>10}{name:>10}{own[name, 1]:10.3f}s{line}", texts)


def room_of(command):
    """The most memory that a command had, in megabytes; not below what this program has, with which each command begins."""
    with subprocess.Popen(command, stdin=subprocess.DEVNULL, stdout=subprocess.DEVNULL) as ran:
        return os.wait4(ran.pid, 0)[2].ru_maxrss / 1024


def time_moves(program, runs, room):
    """What a graph costs that is given to a global variable in place of a local, by its size."""
    hosts = {"rbso": [program, "run", "--steps", "1000000000000"]}
    print(f"{'moves':>10}{'things':>10}{'more':>10}{'a thing':>11}{'kept':>9}{'moved':>9}")
    for kind, start in GRAPHS.items():
        for size in MOVED:
            commands = {}
            for name in ("x_kept", "$moved"):
                path = os.path.join(room, f"{kind}_{size}_{name[1:]}.rb")
                with open(path, "w", encoding="ascii") as script:
                    script.write(MOVES.format(start=start, size=size, grows=GROWS[kind], name=name))
                commands["rbso", name] = [*hosts["rbso"], path]
            own, _ = least(hosts, commands, runs)
            more = own["rbso", "$moved"] - own["rbso", "x_kept"]
            rooms = "".join(f"{room_of(command):7.0f}MB" for command in commands.values())
            print(f"{kind:>10}{size:10,}{more:9.3f}s{more / size * 1e9:9.0f}ns{rooms}", flush=True)


def main():
    words = sys.argv[1:]
    runs = 5
    if words[:1] == ["--runs"]:
        runs, words = int(words[1]), words[2:]
    if len(words) != 1:
        sys.exit(__doc__)
    program = os.path.abspath(words[0])
    hosts = {"rbso": [program, "run", "--steps", "1000000000000"]}
    if shutil.which("ruby"):
        hosts["ruby"] = ["ruby"]
    else:
        print("threads.py: ruby is not installed, skipped")
    with tempfile.TemporaryDirectory() as room:
        time_work(program, hosts, runs, room)
        time_moves(program, runs, room)
    time_access(hosts, runs)
    time_changes(hosts, runs)


if __name__ == "__main__":
    main()
