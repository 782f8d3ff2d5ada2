"""Calls the program under limits, and says how it ended and what it took, for the scripts beside it.

It wants a Linux with prlimit and /usr/bin/time; that starts the program, since a child of Python's counts Python's memory too.
"""
import argparse, collections, hashlib, os, subprocess, tempfile

TOP = os.path.dirname(os.path.dirname(os.path.abspath(__file__)))
OUT_OF_TIME = -24

# The status, or below zero the number of the signal that ended it; seconds of a processor; MB in use at the most.
Ended = collections.namedtuple("Ended", "status output errors seconds megabytes")


def limits(seconds=120, gigabytes=6, stack=8192):
    """Returns the words that start a program with so many seconds of a processor, GB of addresses, and KB of stack or `unlimited`."""
    size = stack if stack == "unlimited" else stack * 1024
    return ["prlimit", "--core=0", f"--cpu={seconds}:{seconds + 1}", f"--as={gigabytes * 10**9}", f"--stack={size}:"]


def call(words, folder, limit=limits()):
    """Calls a program in the folder, with nothing on its input."""
    with tempfile.NamedTemporaryFile("r") as taken:
        timed = [*limit, "/usr/bin/time", "-q", "-f", "%U %S %M", "-o", taken.name, *words]
        ended = subprocess.run(timed, cwd=folder, stdin=subprocess.DEVNULL, stdout=subprocess.PIPE, stderr=subprocess.PIPE)
        user, kernel, kilobytes = taken.read().split()[-3:]
    # (to the number of a signal time adds 128)
    status = 128 - ended.returncode if ended.returncode > 128 else ended.returncode
    return Ended(status, ended.stdout, ended.stderr, float(user) + float(kernel), int(kilobytes) * 1024 / 10**6)


def save(folder, name, content):
    """Writes a file of text or bytes into the folder, and returns its name."""
    with open(os.path.join(folder, name), "wb") as file:
        file.write(content.encode() if isinstance(content, str) else content)
    return name


def save_zeros(folder, name, size):
    """Writes a file of so many zeros, which takes no room."""
    with open(os.path.join(folder, name), "wb") as file:
        file.truncate(size)


def last_line(ended):
    """Returns the last line that a call wrote, on errors or else on output."""
    lines = (ended.errors.strip() or ended.output.strip()).decode(errors="replace").split("\n")
    return lines[-1]


def told(ended):
    """Says how a call ended: its last line, or what stopped it."""
    if ended.status == OUT_OF_TIME:
        return "out of time"
    return f"signal {-ended.status}" if ended.status < 0 else last_line(ended)


def row(cells):
    return f"| {' | '.join(map(str, cells))} |"


def head(cells):
    """Returns the first two lines of a table."""
    return f"{row(cells)}\n{row(['---'] * len(cells))}"


def built():
    """Returns the program that ./acute runs, once that has run; it proves and builds the program first where that has to be done."""
    first = subprocess.run([f"{TOP}/acute", "run", f"{TOP}/crates/acute/data/seven.ac"], stdout=subprocess.DEVNULL)
    if first.returncode:
        raise SystemExit("./acute doesn't run")
    folder = hashlib.sha256(f"{TOP}\n".encode()).hexdigest()[:16]
    cached = os.environ.get("XDG_CACHE_HOME") or os.path.expanduser("~/.cache")
    return f"{cached}/acute/{folder}/crates/acute/out/acute"


def words_of(usage, flags=()):
    """Reads a script's own words, which its usage tells: --program FILE, these flags with a number each, and names.

    A flag is (name, number without it).
    """
    reader = argparse.ArgumentParser(description=usage, formatter_class=argparse.RawDescriptionHelpFormatter)
    reader.add_argument("--program", metavar="FILE", help="the program that runs; without it what ./acute runs")
    for name, number in flags:
        reader.add_argument(f"--{name}", type=int, default=number, metavar="N")
    reader.add_argument("names", nargs="*", metavar="NAME")
    read = reader.parse_args()
    read.program = os.path.abspath(read.program) if read.program else built()
    return read
