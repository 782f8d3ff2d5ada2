"""What the prover's processes use while a command runs: seconds of a processor, and memory."""
import os, re, subprocess, time

TICKS = os.sysconf("SC_CLK_TCK")
# seconds between two looks
PAUSE = 2


class Process:
    """A check of the prover, as it was when it was last looked at."""

    def __init__(self, folder, words, parent, mark):
        self.folder, self.words, self.parent, self.mark = folder, words, parent, mark
        self.seconds = self.held = 0

    def crate(self):
        return self.words[self.words.index("--crate-name") + 1] if "--crate-name" in self.words else ""

    def kind(self):
        """Returns what the check is for: an edit is tried in a folder of its own, and so is the proof that edits begin with."""
        if os.path.basename(self.folder).startswith("rt-edit"):
            return "edits"
        return "tests" if "--test" in self.words else "proof"


def text_of(file):
    with open(file, errors="replace") as it:
        return it.read()


def is_below(number, top):
    """Returns whether a process was begun by another one, or by one that this began."""
    while number > 1 and number != top:
        number = int(text_of(f"/proc/{number}/stat").rpartition(")")[2].split()[1])
    return number == top


def look(seen, top, mark):
    """Notes what each process of the prover below top has used until now, by its number and start."""
    for number in filter(str.isdigit, os.listdir("/proc")):
        at = f"/proc/{number}"
        try:
            if text_of(f"{at}/comm") != "rattle\n" or not is_below(int(number), top):
                continue
            # behind the name: state, parent, .., seconds in the program and in the kernel, and those of children that ended
            stat = text_of(f"{at}/stat").rpartition(")")[2].split()
            key = int(number), stat[19]
            if key not in seen:
                words, folder = text_of(f"{at}/cmdline").split("\0"), os.readlink(f"{at}/cwd")
                seen[key] = Process(folder, words, int(stat[1]), mark(folder))
            seen[key].seconds = sum(map(int, stat[11:15])) / TICKS
            seen[key].held = int(re.search(r"VmHWM:\s+(\d+)", text_of(f"{at}/status"))[1]) * 1024
        except (OSError, TypeError):
            # (it has ended meanwhile)
            continue


def memory_used():
    kilobytes = dict(re.findall(r"(\w+):\s+(\d+)", text_of("/proc/meminfo")))
    return 1024 * (int(kilobytes["MemTotal"]) - int(kilobytes["MemAvailable"]))


def stolen():
    """Returns the seconds of a processor that the host of a virtual machine gave to others."""
    return int(text_of("/proc/stat").split("\n")[0].split()[8]) / TICKS


def outermost(seen):
    """Returns the processes that no other of them began: what a child used is its parent's too."""
    numbers = {number for number, _ in seen}
    return [it for it in seen.values() if it.parent not in numbers]


def watch(words, folder, log, mark=lambda folder: None, seen=None):
    """Runs a command with its output in the file log. Returns its status, the prover's outermost processes that it began, and
    the most memory that was in use on the machine. Each process is marked by the folder that it runs in. Where seen is given,
    the processes are noted there too, for a caller that is stopped."""
    seen, most = {} if seen is None else seen, 0
    with open(log, "w") as out:
        run = subprocess.Popen(words, cwd=folder, stdout=out, stderr=subprocess.STDOUT, stdin=subprocess.DEVNULL)
        try:
            while run.poll() is None:
                look(seen, run.pid, mark)
                most = max(most, memory_used())
                time.sleep(PAUSE)
        finally:
            if run.poll() is None:
                run.terminate()
    return run.returncode, outermost(seen), most
