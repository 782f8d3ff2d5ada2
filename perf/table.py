#!/usr/bin/env python3
"""Measures the table of the library against a list, and prints a table for docs/STATUS.md.

usage: perf/table.py [--program FILE] [--keys N] [--gigabytes N]
N keys (10,000), decimal numbers by chance, are put into a table of std:table, and then each is asked for; the same of a list
of pairs, whose put looks for the key first. FILE is the program, or what ./acute runs. A row has applications and seconds of a
processor for all puts and for all gets, without what else a run does, and the memory in use at the most. The list takes
its keys in ten runs, since a run keeps all values. A run ends where it wants more than N GB (6).
"""
import tempfile

import calls

SHELF = f"{calls.TOP}/lib/std.shelf"
MOST = 10**9

# The table, and a list in its place.
TABLE = """import Table : sig type t val empty : t val put : string * string -> t -> t val get : string -> t -> string option end
  version 1.* like struct type t = int * (string * int * (string * int * (string * string) list) list) list end by "std:table"
"""
LIST = """module Table : sig
  type t
  val empty : t
  val put : string * string -> t -> t
  val push : string * string -> t -> t
  val get : string -> t -> string option
end =
struct
  type t = (string * string) list
  val empty : t = ([] : t)
  val get : string -> t -> string option =
    fun (key : string) ->
      rec go (t : t) : string option =
        match t with
          [] -> (None : string option)
        | ((other : string), (value : string)) :: (rest : t) -> if other = key then Some value else go rest
        end
  val push : string * string -> t -> t = fun (item : string * string) -> fun (t : t) -> item :: t
  val changed : string * string -> t -> t =
    fun (item : string * string) ->
      match item with ((key : string), _) ->
        rec go (t : t) : t =
          match t with
            [] -> t
          | ((other : string), (value : string)) :: (rest : t) ->
              if other = key then item :: rest else (other, value) :: go rest
          end
      end
  val put : string * string -> t -> t =
    fun (item : string * string) -> fun (t : t) ->
      match item with ((key : string), _) ->
        match get key t with None -> item :: t | Some _ -> changed item t end
      end
end
"""
# What makes the keys, puts them in and asks for them. The list that is asked is made without looking for keys.
WALKS = """let next : int -> int = fun (x : int) -> x * 48271 mod 2147483647 in
let rec keys (at : int * int) : int =
  match at with (0, (x : int)) -> x | ((n : int), (x : int)) -> keys (n - 1, next x) end in
let rec filled (at : int * int * Table.t) : Table.t =
  match at with
    (0, _, (t : Table.t)) -> t
  | ((n : int), (x : int), (t : Table.t)) -> filled (n - 1, next x, Table.put (Str.of_int x, "") t)
  end in
let rec made (at : int * int * Table.t) : Table.t =
  match at with
    (0, _, (t : Table.t)) -> t
  | ((n : int), (x : int), (t : Table.t)) -> made (n - 1, next x, Table.PUSH (Str.of_int x, "") t)
  end in
let rec found (at : int * int * int * Table.t) : int =
  match at with
    (0, _, (k : int), _) -> k
  | ((n : int), (x : int), (k : int), (t : Table.t)) ->
      found (n - 1, next x, (match Table.get (Str.of_int x) t with None -> k | Some _ -> k + 1 end), t)
  end in
"""
# Keys that are put into what has others, and keys that are asked for; and what both begin with.
PUTS = "let t : Table.t = filled (COUNT, keys (FROM, 1), made (FROM, 1, Table.empty)) in IO.print_int COUNT"
GETS = "IO.print_int (found (COUNT, keys (FROM, 1), 0, made (ALL, 1, Table.empty)))"
BEGUN = "let t : Table.t = made (FROM, keys (0, 1), Table.empty) in IO.print_int COUNT"


def least_budget(run, high):
    """Returns the least budget, up to this one, with which a run finishes."""
    low = 0
    while low < high:
        middle = (low + high) // 2
        low, high = (low, middle) if run(middle).status == 0 else (middle + 1, high)
    return low


def main():
    words = calls.words_of(__doc__, [("keys", 10000), ("gigabytes", 6)])
    count, limit = words.keys, calls.limits(3600, words.gigabytes)

    def ended(text, push, end, start, size, steps=MOST):
        """Runs a program on so many keys from one on within a budget."""
        content = text + WALKS.replace("PUSH", push) + end
        for word, number in (("COUNT", size), ("FROM", start), ("ALL", count)):
            content = content.replace(word, str(number))
        with tempfile.TemporaryDirectory() as folder:
            calls.save(folder, "walks.ac", content)
            return calls.call([words.program, "run", f"{folder}/walks.ac", "--shelf", SHELF, "--steps", str(steps)], calls.TOP, limit)

    print(calls.head(["what", "applications of a put, of a get", "all puts, all gets", "memory"]))
    for name, text, push, size in ("a table", TABLE, "put", count), ("a list", LIST, "push", count // 10):
        seconds, memory = [0, 0], 0
        for start in range(0, count, size):
            for number, end, begun in (0, PUTS, start), (1, GETS, count):
                run, less = ended(text, push, end, start, size), ended(text, push, BEGUN, begun, size)
                if run.status or run.output != less.output:
                    raise SystemExit(f"{name}: {calls.told(run)}")
                seconds[number] += run.seconds - less.seconds
                memory = max(memory, run.megabytes)
        each = f"{count / 2:.0f}, {count / 2:.0f}"
        if text == TABLE:
            least = [least_budget(lambda steps: ended(text, push, end, 0, size, steps), 1000 * count) for end in (PUTS, GETS)]
            each = f"{least[0] / count - 2:.0f}, {(least[1] - least[0]) / count - 2:.0f}"
        print(calls.row([name, each, f"{seconds[0]:.2f} s, {seconds[1]:.2f} s", f"{memory:.0f} MB"]))


main()
