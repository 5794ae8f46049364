"""Times scripts by several hosts and prints ratios, and the start-up time and memory of the built program."""
import os
import shutil
import statistics
import subprocess
import sys
import tempfile
import time

RUNS = 7


def once(command):
    """Runs a command; answers its seconds, its output and its status."""
    begun = time.perf_counter()
    ran = subprocess.run(command, stdin=subprocess.DEVNULL, stdout=subprocess.PIPE, check=False)
    return time.perf_counter() - begun, ran.stdout, ran.returncode


def median(command):
    """The median of the seconds of a few runs, and what the first of them wrote and answered."""
    runs = [once(command) for _ in range(RUNS)]
    return statistics.median(run[0] for run in runs), runs[0][1], runs[0][2]


def peak(command):
    """The most memory that a run of a command has, as a text, by GNU time where it is installed."""
    timer = shutil.which("time")
    if not timer:
        return "memory not measured"
    ran = subprocess.run(
        [timer, "-f", "%M", *command], stdin=subprocess.DEVNULL, stdout=subprocess.DEVNULL, stderr=subprocess.PIPE, check=False
    )
    return f"{int(ran.stderr.split()[-1]):,} KiB"


def main():
    program, folder = sys.argv[1:3]
    hosts = [("rbso", [os.path.abspath(program), "run"])]
    for name in ("ruby", "mruby"):
        path = shutil.which(name)
        if path:
            hosts.append((name, [path]))
        else:
            print(f"bench: {name} is not installed, skipped")
    with tempfile.TemporaryDirectory() as made:
        write_many_lines(os.path.join(made, "many_lines.rb"))
        for place in (folder, made):
            compare(hosts, place)
    with tempfile.TemporaryDirectory() as made:
        write_large_sources(made)
        compare(hosts[:1], made)


LARGEST = 1_048_576


def write_large_sources(folder):
    """Sources of the largest size, each of one kind of token, to see that reading them stays linear."""
    sources = {
        "spaces.rb": " " * LARGEST,
        "one_text.rb": '"' + "a" * (LARGEST - 2) + '"',
        "nested_code.rb": '"#{' * (LARGEST // 3),
        "lines_of_code.rb": "a = 1\n" * (LARGEST // 6),
        "words.rb": "word " * (LARGEST // 5),
        "one_comment.rb": "#" * LARGEST,
        "ordinary_code.rb": ordinary_code(),
    }
    for name, text in sources.items():
        with open(os.path.join(folder, name), "w", encoding="ascii") as script:
            script.write(text)


METHOD = """# The greatest common divisor, with a word about it.
def divisor_{0}(first, second, quiet)
  until second == 0
    rest = first % second
    first = second
    second = rest
  end
  unless quiet || first < 2
    3.times {{ |turn| print turn, " " if turn != 1 }}
    puts "divisor #{{first}} of method {0}"
  end
  first > 0 ? first : -first
end

"""


def ordinary_code():
    """As many methods as the largest source has room for, none of which is called: the front end alone works on it."""
    methods, size = [], 0
    while size + len(METHOD) + 12 < LARGEST:
        methods.append(METHOD.format(len(methods)))
        size += len(methods[-1])
    return "".join(methods)


def write_many_lines(path):
    """A script of 30,000 lines: sums over fifty names, every second of them printed."""
    with open(path, "w", encoding="ascii") as script:
        script.write("a0 = 1\n")
        for line in range(1, 20_000):
            script.write(f"a{line % 50} = a{(line - 1) % 50} + {line}\n")
            if line % 2 == 0:
                script.write(f"puts a{line % 50} * 3\n")


def compare(hosts, folder):
    """Prints a line for each script of a folder and each host."""
    for script in sorted(name for name in os.listdir(folder) if name.endswith(".rb")):
        path = os.path.join(folder, script)
        base = None
        for name, words in hosts:
            seconds, text, status = median(words + [path])
            if base is None:
                base = (seconds, text)
            same = "" if text == base[1] else ", OTHER OUTPUT"
            ratio = seconds / base[0]
            print(f"{script}: {name}: {seconds * 1000:.1f} ms, {ratio:.2f} of rbso, {peak(words + [path])}, status {status}{same}")


if __name__ == "__main__":
    main()
