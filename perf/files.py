#!/usr/bin/env python3
"""Tries `acute` on files, pipes and links of the system, and prints PASS or FAIL for each case.

usage: perf/files.py PROGRAM [PART]
PROGRAM is the built program, as ./acute. With PART, a number, cases of many rounds take so many times fewer. It wants bash
and dd. The last line counts the cases that failed, and the status is 1 where one did. Files go to a folder of their own,
which is removed at the end.
"""
import os, random, shutil, signal, struct, subprocess, sys, tempfile, threading, time

PROGRAM = os.path.abspath(sys.argv[1]) if len(sys.argv) > 1 else sys.exit(__doc__)
PART = int(sys.argv[2]) if len(sys.argv) > 2 else 1
EXAMPLES = os.path.join(os.path.dirname(os.path.dirname(os.path.abspath(__file__))), "examples")
# Seconds that one call may take.
PATIENCE = 120
WRITE_FAULT = (6, b"acute: write fault\n")
READ_FAULT = (5, b"acute: read fault\n")

SENDS_ONE = 'IO.send "new"'
PRINTS_ALL = """let rec next (n : int) : int =
  match (try Some (IO.receive ()) with End_of_file -> (None : string option) end) with
    None -> n
  | Some (s : string) -> IO.print_string (s ^ "\\n"); next (n + 1)
  end in
IO.print_int (next 0)"""
# Prints the length of each string that it receives, and then how the channel ends.
PRINTS_LENGTHS = """let rec next (u : unit) : unit =
  IO.print_string (Str.of_int (Str.length (IO.receive ())) ^ "\\n"); next () in
try next () with
  End_of_file -> IO.print_string "end\\n"
| Sys_error (why : string) -> IO.print_string (why ^ "\\n")
end"""
# Sends one string, waits until its input ends or has a frame, and sends another.
SENDS_TWO = """IO.send "first"; IO.print_string "sent\\n";
IO.print_string (try IO.receive () with End_of_file -> "nothing" end); IO.send "second\""""


class Fault(Exception):
    """What a case expected and didn't find."""


def expect(found, wanted, what):
    if found != wanted:
        raise Fault(f"{what}: found {str(found)[:200]}, wanted {str(wanted)[:200]}")


def write(name, data):
    with open(name, "wb") as file:
        file.write(data.encode() if isinstance(data, str) else data)
    return name


def read(name):
    with open(name, "rb") as file:
        return file.read()


def frame(data):
    return struct.pack(">I", len(data)) + data


def parts_of(channel):
    """Returns the strings of the whole frames of a channel, and the bytes behind them."""
    strings, at = [], 0
    while len(channel) - at >= 4:
        end = at + 4 + struct.unpack_from(">I", channel, at)[0]
        if end > len(channel):
            break
        strings.append(channel[at + 4:end])
        at = end
    return strings, channel[at:]


def start(*words, **streams):
    streams = {"stdin": subprocess.DEVNULL, "stdout": subprocess.PIPE, "stderr": subprocess.PIPE, **streams}
    return subprocess.Popen([PROGRAM, *words], **streams)


def call(*words, stdin=subprocess.DEVNULL, data=None):
    """Runs the program to its end, and returns its status, output and errors."""
    done = subprocess.run([PROGRAM, *words], stdin=None if data is not None else stdin, input=data,
                          stdout=subprocess.PIPE, stderr=subprocess.PIPE, timeout=PATIENCE)
    return done.returncode, done.stdout, done.stderr


def shell(line):
    """Runs a line of bash in which `acute` is the program, and returns its status, output and errors."""
    done = subprocess.run(["bash", "-c", f'acute() {{ "{PROGRAM}" "$@"; }}; {line}'], stdin=subprocess.DEVNULL,
                          stdout=subprocess.PIPE, stderr=subprocess.PIPE, timeout=PATIENCE)
    return done.returncode, done.stdout, done.stderr


def ended(process, data=None):
    """Waits for a process, and returns its status, output and errors."""
    output, errors = process.communicate(data, timeout=PATIENCE)
    return process.returncode, output, errors


def beside(work):
    """Does some work in a thread, such as the other end of a pipe."""
    thread = threading.Thread(target=work, daemon=True)
    thread.start()
    return thread


def wait_for(holds, what):
    until = time.monotonic() + PATIENCE
    while not holds():
        if time.monotonic() > until:
            raise Fault(f"waited in vain for {what}")
        time.sleep(0.01)


def rounds(count):
    return range(max(1, count // PART))


# --- texts ---

def replaced_file():
    """a program's file is replaced by a rename while it is read: 1,000 times no text is mixed"""
    for name, x, more in ("a", 1, 10), ("b", 2, 20):
        write(f"{name}.ac", f"let x : int = {x} in (*{' ' * 900_000}*) IO.print_int (x + {more})")
    stop = threading.Event()

    def replace():
        while not stop.is_set():
            for name in "ab":
                os.link(f"{name}.ac", "next")
                os.rename("next", "live.ac")

    shutil.copy("a.ac", "live.ac")
    thread = beside(replace)
    seen = {}
    for _ in rounds(1000):
        answer = call("run", "live.ac")
        seen[answer] = seen.get(answer, 0) + 1
    stop.set()
    thread.join()
    expect(set(seen) <= {(0, b"11", b""), (0, b"22", b"")}, True, f"answers {seen}")


def unreadable_files():
    """a missing file, a folder, a file in a folder that is missing: a read fault, or a write fault"""
    write("p.ac", SENDS_ONE)
    write("r.ac", PRINTS_ALL)
    os.mkdir("folder")
    for name in "missing", "folder", "missing/x", "p.ac/x":
        for words in ("run", name), ("check", "p.ac", name), ("run", "p.ac", "--shelf", name), ("run", "r.ac", "--in", name):
            status, output, errors = call(*words)
            expect((status, output, errors), (5, b"", READ_FAULT[1]), words)
    for name in "folder", "missing/x", "p.ac/x", "/dev/full":
        status, _, errors = call("run", "p.ac", "--out", name)
        expect((status, errors), WRITE_FAULT, name)
    expect(call("run", "p.ac", "--out", "/dev/null"), (0, b"", b""), "/dev/null")
    if os.getuid() != 0:
        write("secret", SENDS_ONE)
        os.chmod("secret", 0)
        expect(call("run", "secret")[0], 5, "a file that may not be read")


# --- what is read is kept ---

def names_of(name):
    """Makes other names of a file, and returns them."""
    os.link(name, f"{name}.hard")
    os.symlink(name, f"{name}.soft")
    os.symlink(f"{name}.soft", f"{name}.softer")
    os.makedirs("sub", exist_ok=True)
    return [f"./{name}", f"sub/../{name}", os.path.abspath(name), f"{name}.hard", f"{name}.soft", f"{name}.softer"]


def kept(what, file, *words, stdin=None):
    """Runs with each other name of a file as the output channel, and expects a write fault and the file as it was."""
    before = read(file)
    others = names_of(file) + ([file] if "--in" not in words else [])
    for other in others:
        source = open(stdin, "rb") if stdin else subprocess.DEVNULL
        status, output, errors = call(*words, "--out", other, stdin=source)
        expect((status, errors, output), (*WRITE_FAULT, b""), f"{what} as {other}")
        expect(read(file), before, f"{what} as {other} is kept")


def kept_program():
    """--out leads to the program's own file"""
    write("p.ac", SENDS_ONE)
    kept("the program", "p.ac", "run", "p.ac")


def kept_shelf():
    """--out leads to the list of the shelf, or to the file of a module of it"""
    write("m.mod", "module M : sig val x : int end = struct val x : int = 1 end")
    write("n.mod", "module N : sig val x : int end = struct val x : int = 2 end")
    write("list", "lib:m m.mod\nlib:n n.mod\n")
    write("p.ac", SENDS_ONE)
    for name in "list", "m.mod", "n.mod":
        kept(name, name, "run", "p.ac", "--shelf", "list")


def kept_channel():
    """--out leads to the file of --in, which is read later, or to standard input"""
    write("p.ac", "IO.send (IO.receive ())")
    write("ch", frame(b"old"))
    kept("the channel", "ch", "run", "p.ac", "--in", "ch")
    expect(call("run", "p.ac", "--in", "ch", "--out", "ch"), (7, b"", b"acute: words refused\n"), "one name")
    write("db", frame(b"old"))
    kept("standard input", "db", "run", "p.ac", "--in", "-", stdin="db")
    write("f.ac", SENDS_ONE)
    status, _, errors = call("run", "/dev/stdin", "--out", "f.ac", stdin=open("f.ac", "rb"))
    expect((status, errors, read("f.ac")), (*WRITE_FAULT, SENDS_ONE.encode()), "the program on standard input")


def not_refused():
    """--out is another file, also one that looks alike: it is written"""
    write("p.ac", SENDS_ONE)
    write("ch", frame(b"old"))
    for other in "new", "run", "ch2", "p.ac.copy":
        shutil.copy("p.ac", "p.ac.copy")
        expect(call("run", "p.ac", "--in", "ch", "--out", other), (0, b"", b""), other)
        expect(read(other), frame(b"new"), other)
    expect(call("run", "p.ac", "--in", "missing", "--out", "new"), (0, b"", b""), "a missing channel that isn't read")
    write("refused.ac", "IO.send 1")
    expect(call("run", "refused.ac", "--out", "new")[0], 1, "a program that is refused")
    expect(read("new"), frame(b"new"), "the channel of a program that is refused")


# --- writers ---

def two_writers():
    """a second writer of a channel: a write fault, and the channel has what the first sends"""
    write("w.ac", SENDS_TWO)
    write("p.ac", SENDS_ONE)
    first = start("run", "w.ac", "--in", "-", "--out", "ch", stdin=subprocess.PIPE)
    expect(first.stdout.readline(), b"sent\n", "the first writer")
    os.link("ch", "link")
    for name in "ch", "link":
        status, _, errors = call("run", "p.ac", "--out", name)
        expect((status, errors, read("ch")), (*WRITE_FAULT, frame(b"first")), name)
    write("r.ac", PRINTS_ALL)
    expect(call("run", "r.ac", "--in", "ch"), (0, b"first\n1", b""), "a reader beside the writer")
    expect(ended(first)[0], 0, "the first writer")
    expect(read("ch"), frame(b"first") + frame(b"second"), "the channel")
    expect(call("run", "p.ac", "--out", "ch")[0], 0, "a writer behind it")


def moved_channel():
    """a channel is moved away in mid-run: all frames are in the one file"""
    write("w.ac", SENDS_TWO)
    writer = start("run", "w.ac", "--in", "-", "--out", "ch", stdin=subprocess.PIPE)
    expect(writer.stdout.readline(), b"sent\n", "the writer")
    os.rename("ch", "ch.1")
    expect(ended(writer), (0, b"nothing", b""), "the writer")
    expect((read("ch.1"), os.path.exists("ch")), (frame(b"first") + frame(b"second"), False), "the channel")


def lengths_of(channel):
    """Returns what PRINTS_LENGTHS prints of a channel."""
    strings, rest = parts_of(channel)
    return "".join(f"{len(s)}\n" for s in strings) + ("frame\n" if rest else "end\n")


def killed_writer():
    """a writer is killed at a random moment, 200 times: a prefix is there, and a reader gets its whole frames"""
    write("w.ac", """let rec grow (s : string) : string = if Str.length s < 1000000 then grow (s ^ s) else s in
let big : string = grow "0123456789abcdef" in
let rec go (n : int) : unit = if n = 0 then () else (IO.send (Str.of_int n); IO.send big; go (n - 1)) in go 12""")
    write("r.ac", PRINTS_LENGTHS)
    began = time.monotonic()
    expect(call("run", "w.ac", "--out", "whole")[0], 0, "the whole run")
    whole, span = read("whole"), time.monotonic() - began
    torn = 0
    for _ in rounds(200):
        writer = start("run", "w.ac", "--out", "ch")
        time.sleep(random.random() * span)
        writer.send_signal(signal.SIGKILL)
        ended(writer)
        channel = read("ch") if os.path.exists("ch") else b""
        expect(whole.startswith(channel), True, "a prefix")
        if os.path.exists("ch"):
            expect(call("run", "r.ac", "--in", "ch"), (0, lengths_of(channel).encode(), b""), "the reader")
        torn += bool(parts_of(channel)[1])
    print(f"  {torn} of {len(rounds(200))} channels ended within a frame")
    for end in 0, 1, 3, 4, 5, 6, 7, 50_000, len(whole) - 1:
        write("cut", whole[:end])
        expect(call("run", "r.ac", "--in", "cut"), (0, lengths_of(whole[:end]).encode(), b""), f"a channel of {end} bytes")


# --- pipes ---

def feed(name, data):
    def work():
        try:
            write(name, data)
        except BrokenPipeError:
            pass

    os.mkfifo(name)
    return beside(work)


def fifos():
    """FIFOs as FILE, as the list and a file of a shelf, as --in and as --out"""
    text = "IO.print_int 1 (*" + "." * 300_000 + "*)"
    feed("p", text)
    expect(call("run", "p"), (0, b"1", b""), "FILE")
    feed("q", text)
    write("plain.ac", text)
    expect(call("check", "q", "plain.ac"), (0, b"q: accepted\nplain.ac: accepted\n", b""), "check")
    feed("m", "module M : sig val x : int end = struct val x : int = 7 end")
    feed("list", "lib:m m\n")
    write("i.ac", 'import M : sig val x : int end version * by "lib:m"\nIO.print_int M.x')
    expect(call("run", "i.ac", "--shelf", "list"), (0, b"7", b""), "a shelf")
    strings = [b"x" * n for n in (0, 1, 70_000, 3)]
    feed("ch", b"".join(map(frame, strings)))
    write("r.ac", PRINTS_LENGTHS)
    expect(call("run", "r.ac", "--in", "ch"), (0, b"0\n1\n70000\n3\nend\n", b""), "--in")
    os.mkfifo("out")
    got = []
    reader = beside(lambda: got.append(read("out")))
    write("w.ac", 'IO.send ""; IO.send "' + "y" * 70_000 + '"')
    expect(call("run", "w.ac", "--out", "out"), (0, b"", b""), "--out")
    reader.join(PATIENCE)
    expect(got, [frame(b"") + frame(b"y" * 70_000)], "what came through --out")
    write("silent.ac", "IO.print_int 1")
    expect(call("run", "silent.ac", "--in", "ch", "--out", "out"), (0, b"1", b""), "pipes that are never used")


def two_fifos():
    """two programs that talk in both directions through two FIFOs, 1,000 rounds"""
    count = len(rounds(1000))
    write("asks.ac", f"""let rec ask (n : int) : unit =
  if n = {count} then IO.print_string "all" else (IO.send (Str.of_int n);
    if IO.receive () = "got " ^ Str.of_int n then ask (n + 1) else IO.print_string "wrong") in ask 0""")
    write("answers.ac", """let rec answer (n : int) : int =
  match (try Some (IO.receive ()) with End_of_file -> (None : string option) end) with
    None -> n | Some (s : string) -> IO.send ("got " ^ s); answer (n + 1) end in IO.print_int (answer 0)""")
    os.mkfifo("there")
    os.mkfifo("back")
    other = start("run", "answers.ac", "--in", "there", "--out", "back")
    expect(call("run", "asks.ac", "--in", "back", "--out", "there"), (0, b"all", b""), "who asks")
    expect(ended(other), (0, str(count).encode(), b""), "who answers")


def stopped_reader():
    """the reader of a FIFO goes away: a write fault"""
    write("w.ac", "let rec go (n : int) : unit = if n = 0 then () else (IO.send \"x\"; go (n - 1)) in go 100000")
    os.mkfifo("out")
    writer = start("run", "w.ac", "--out", "out")
    with open("out", "rb") as pipe:
        pipe.read(100)
    status, _, errors = ended(writer)
    expect((status, errors), WRITE_FAULT, "the writer")


def substitution():
    """process substitution: <(..) as FILE and --in, >(..) as --out"""
    write("p.ac", "IO.print_int 1 (*" + "." * 300_000 + "*)")
    write("r.ac", PRINTS_ALL)
    write("ch", frame(b"a") + frame(b"bc"))
    write("w.ac", 'IO.send "to"; IO.send "who"')
    expect(shell("acute run <(cat p.ac)"), (0, b"1", b""), "FILE")
    expect(shell("acute run r.ac --in <(cat ch)"), (0, b"a\nbc\n2", b""), "--in")
    expect(shell("acute run w.ac --out >(cat >copy; echo >done)")[0], 0, "--out")
    wait_for(lambda: os.path.exists("done"), "the reader")
    expect(read("copy"), frame(b"to") + frame(b"who"), "what came through --out")


def standard_input():
    """/dev/stdin as FILE and as --in, from a pipe and from a file"""
    text = "IO.print_int 1 (*" + "." * 300_000 + "*)"
    write("p.ac", text)
    write("r.ac", PRINTS_ALL)
    channel = frame(b"a") + frame(b"bc")
    write("ch", channel)
    expect(call("run", "/dev/stdin", data=text.encode()), (0, b"1", b""), "FILE from a pipe")
    expect(call("run", "/dev/stdin", stdin=open("p.ac", "rb")), (0, b"1", b""), "FILE from a file")
    expect(call("run", "r.ac", "--in", "/dev/stdin", data=channel), (0, b"a\nbc\n2", b""), "--in from a pipe")
    expect(call("run", "r.ac", "--in", "/dev/stdin", stdin=open("ch", "rb")), (0, b"a\nbc\n2", b""), "--in from a file")
    expect(call("run", "r.ac", "--in", "-", data=channel), (0, b"a\nbc\n2", b""), "-")


def line_of(name):
    """Returns the shell lines in the first comment of an example, which are indented by five spaces."""
    with open(name) as file:
        comment = file.read().split("*)")[0]
    return "\n".join(line.strip() for line in comment.splitlines() if line.startswith("     "))


def example_pair():
    """the examples that talk both ways, by the line in their first comment"""
    for name in "guess.ac", "number.ac":
        shutil.copy(os.path.join(EXAMPLES, name), name)
    status, output, errors = shell(line_of("guess.ac") + "; wait")
    expect((status, output, errors), (0, b"500 750 625 687 718 702 710 706 704 703 found\n", b""), "the pair")


# --- times ---

def seconds(work):
    began = time.monotonic()
    work()
    return time.monotonic() - began


def dd(*words):
    subprocess.run(["dd", *words], check=True, stderr=subprocess.DEVNULL)


def fast_channels():
    """100,000 sends of 10 bytes, and receiving them: at most three times what dd takes"""
    write("w.ac", 'let rec go (n : int) : unit = if n = 0 then () else (IO.send "0123456789"; go (n - 1)) in go 100000')
    write("r.ac", """let rec go (n : int) : int =
  match (try Some (IO.receive ()) with End_of_file -> (None : string option) end) with
    None -> n | Some (s : string) -> go (n + 1) end in IO.print_int (go 0)""")
    ours, theirs = {}, {}
    for _ in range(5):
        for what, ours_is, theirs_is in (
            ("send", ["run", "w.ac", "--out", "ch"], ["if=/dev/zero", "of=dd"]),
            ("receive", ["run", "r.ac", "--in", "ch"], ["if=dd", "of=/dev/null"]),
        ):
            answers = []
            ours.setdefault(what, []).append(seconds(lambda: answers.append(call(*ours_is))))
            expect(answers[0][0], 0, what)
            theirs.setdefault(what, []).append(seconds(lambda: dd(*theirs_is, "bs=14", "count=100000")))
    expect(os.path.getsize("ch"), 1_400_000, "bytes sent")
    expect(answers[0][1], b"100000", "strings received")
    for what in ours:
        a, b = min(ours[what]), min(theirs[what])
        print(f"  {what}: {a:.3f} s, dd {b:.3f} s, {a / b:.1f} times")
    expect(all(min(ours[w]) <= 3 * min(theirs[w]) for w in ours), True, "at most three times")


CASES = [replaced_file, unreadable_files, kept_program, kept_shelf, kept_channel, not_refused, two_writers, moved_channel,
         killed_writer, fifos, two_fifos, stopped_reader, substitution, standard_input, example_pair, fast_channels]


def main():
    room, failed = tempfile.mkdtemp(), 0
    for case in CASES:
        place = os.path.join(room, case.__name__)
        os.mkdir(place)
        os.chdir(place)
        try:
            case()
            print(f"PASS {case.__doc__}", flush=True)
        except (Fault, OSError, subprocess.SubprocessError) as why:
            failed += 1
            print(f"FAIL {case.__doc__}\n  {why}", flush=True)
        os.chdir(room)
    shutil.rmtree(room, ignore_errors=True)
    print(f"{len(CASES) - failed} passed, {failed} failed")
    sys.exit(failed > 0)


main()
