#!/usr/bin/env python3
"""Refuses each allocation of the program in turn: it has to end with status 4, or as it does with memory, and what was written has
to be the front of what it writes with memory.

usage: perf/memory.py [--program FILE] [CALL..]
The program is FILE, or what ./acute runs. It runs as often as it allocates, with one allocation refused, and as often again with
all refused from one on. A row has how many allocations a call makes, and how its runs ended. It wants a C compiler, cc or what
CC names, which makes a library of refuse.c that stands between the program and glibc. The status is 1 where a run is wrong.
"""
import collections, concurrent.futures, os, subprocess, sys, tempfile

import calls

OUT_OF_MEMORY, LINE = 4, b"acute: out of memory\n"
HERE = os.path.dirname(os.path.abspath(__file__))

# A call: the files that it gets, its words, the file that it may write, and its status and output with memory.
Call = collections.namedtuple("Call", "files words writes status output")
# What a run left: its status, output, errors, and the file that it may write, where there is one.
Left = collections.namedtuple("Left", "status output errors written")

SENDS = """module M1 : sig val y : int end version 1 = struct val y : int = 6 end
import M1 : sig val y : int end version * by Here_Already
mark "MK"
module M2 : sig val z : int end = struct val z : int = 3 end
IO.send (marshal "MK" (fun (u : unit) -> (M1.y, M2.z)) : unit -> int * int)
"""
RECEIVES = """module M1 : sig val y : int end version 2 = struct val y : int = 7 end
match (unmarshal (IO.receive ()) as unit -> int * int) () with
((a : int), (b : int)) -> IO.print_int a; IO.print_string ","; IO.print_int b end
"""
HANDS_ON = """mark "MK"
import P : sig val k : int end version 1.* by "lib:p"
module M1 : sig val y : int end version 2 = struct val y : int = 7 end
match (unmarshal (IO.receive ()) as unit -> int * int) () with ((a : int), (b : int)) ->
  IO.print_int (a + P.k); IO.send (marshal "MK" (fun (u : unit) -> b + P.k) : unit -> int); IO.print_string "." end
"""
LIBRARY = "module P : sig val k : int end version 1.3 = struct val k : int = 41 end"
LISTS = """mark "MK"
module L : sig type t val mk : int -> t val get : t -> int end =
struct type t = int val mk : int -> t = fun (x : int) -> x
val get : t -> int = fun (x : t) -> x end
"""
MAKES = """let l : L.t list = L.mk 1 :: L.mk 2 :: ([] : L.t list) in
let f : unit -> L.t list = fun (u : unit) -> l in
let g : unit -> unit -> L.t list = fun (u : unit) -> f in
IO.send (marshal "MK" g : unit -> unit -> L.t list)
"""
PASSES = """IO.send (marshal "MK" (unmarshal (IO.receive ()) as unit -> unit -> L.t list)
: unit -> unit -> L.t list)
"""

# In the channel `ch` stands what the call `send` sends.
CALLS = {
    "send": Call({"s.ac": SENDS}, "run s.ac --out out", "out", 0, ""),
    "receive": Call({"r.ac": RECEIVES}, "run r.ac --in ch", None, 0, "7,3"),
    "chain": Call(
        {"a.ac": LISTS + MAKES, "b.ac": LISTS + PASSES},
        "chain a.ac b.ac",
        None,
        0,
        "program 1: status 0\nprogram 2: status 0\nnative\n",
    ),
    "check": Call({"a": "IO.print_int (3 + 4)", "b": ""}, "check a b", None, 1, "a: accepted\nb: refused: syntax at 0\n"),
    "shelf": Call(
        {"h.ac": HANDS_ON, "p.mod": LIBRARY, "l": "lib:p p.mod\n"}, "run h.ac --shelf l --in ch --out out", "out", 0, "48."
    ),
}


class Desk:
    """Where the program runs: its path, that of the library, and what stands in the channel."""

    def __init__(self, program, folder):
        self.program, self.folder, self.channel = program, folder, b""
        self.library = os.path.join(folder, "refuse.so")
        words = [os.environ.get("CC", "cc"), "-O2", "-shared", "-fPIC", "-o", self.library, os.path.join(HERE, "refuse.c")]
        subprocess.run(words, check=True)

    def run(self, call, refused):
        """Runs a call with these allocations refused, (first, last), and returns what it left and how many there were."""
        with tempfile.TemporaryDirectory(dir=self.folder) as folder:
            for name, content in {**call.files, "ch": self.channel}.items():
                calls.save(folder, name, content)
            refusal = {"LD_PRELOAD": self.library, "FIRST": str(refused[0]), "LAST": str(refused[1]), "COUNTED": f"{folder}/counted"}
            how = {"stdin": subprocess.DEVNULL, "stdout": subprocess.PIPE, "stderr": subprocess.PIPE}
            ended = subprocess.run([self.program, *call.words.split()], cwd=folder, env={**os.environ, **refusal}, **how)
            written = content_of(f"{folder}/{call.writes}") if call.writes else None
            counted = int.from_bytes(content_of(f"{folder}/counted"), sys.byteorder)
            return Left(ended.returncode, ended.stdout, ended.stderr, written), counted


def content_of(file):
    """Returns the bytes of a file, or None where there is none."""
    if not os.path.exists(file):
        return None
    with open(file, "rb") as it:
        return it.read()


def is_front(some, whole):
    """Says whether bytes are the front of others. A file that isn't there yet is the front of any."""
    return some is None or whole is not None and whole.startswith(some)


def is_right(left, whole):
    if left.status != OUT_OF_MEMORY:
        return left == whole
    fronts = is_front(left.output, whole.output) and is_front(left.written, whole.written)
    return fronts and is_front(left.errors, whole.errors + LINE)


def tried(desk, call, whole, refusals):
    """Runs a call with each of the refusals, and returns how many runs ended with which status, and the wrong ones."""
    statuses, wrong = collections.Counter(), []
    with concurrent.futures.ThreadPoolExecutor(os.cpu_count()) as pool:
        for refused, (left, _) in zip(refusals, pool.map(lambda it: desk.run(call, it), refusals)):
            statuses[left.status] += 1
            if not is_right(left, whole):
                wrong.append((refused, left))
    return statuses, wrong


def told(statuses):
    return ", ".join(f"{count} with status {status}" for status, count in sorted(statuses.items()))


def try_call(desk, name, call):
    """Tries all refusals of a call, prints its row, and returns the wrong runs."""
    whole, counted = desk.run(call, (0, 0))
    if (whole.status, whole.output.decode(), whole.errors) != (call.status, call.output, b""):
        raise SystemExit(f"{name} with memory: {whole}")
    numbers, most = range(1, counted + 1), 2**63
    one, wrong = tried(desk, call, whole, [(it, it) for it in numbers])
    all_from, worse = tried(desk, call, whole, [(it, most) for it in numbers])
    print(calls.row([f"`{name}`: `{call.words}`", len(numbers), told(one), told(all_from), len(wrong) + len(worse)]), flush=True)
    return wrong + worse


def main():
    words = calls.words_of(__doc__)
    missing = set(words.names) - set(CALLS)
    if missing:
        raise SystemExit(f"no such call: {', '.join(missing)}; there are {', '.join(CALLS)}")
    wrong = []
    with tempfile.TemporaryDirectory() as folder:
        desk = Desk(words.program, folder)
        desk.channel = desk.run(CALLS["send"], (0, 0))[0].written
        print(calls.head(["call", "allocations", "one refused", "all refused from one on", "wrong"]), flush=True)
        for name in words.names or CALLS:
            wrong += try_call(desk, name, CALLS[name])
    for refused, left in wrong:
        print(f"refused {refused}: {left}")
    return len(wrong) > 0


if __name__ == "__main__":
    sys.exit(main())
