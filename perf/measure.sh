#!/usr/bin/env bash
# Runs loops by `acute` and by OCaml's bytecode, and prints seconds of the processor, MB and how many times longer `acute` takes.
# Each loop is run five times by both in turn and the mean is taken, since others may be at work beside it.
# It wants ocamlc, ocamlrun and /usr/bin/time. The program that runs may be given: perf/measure.sh PROGRAM.
set -euo pipefail
top=$(cd "$(dirname "${BASH_SOURCE[0]}")/.." && pwd)
program=${1:-$top/acute}
room=$(mktemp -d)
trap 'rm -rf "$room"' EXIT
export OCAMLRUNPARAM=l=256M

# Runs a command, and prints its user seconds and the KB that it held.
taken() {
    /usr/bin/time -f '%U %M' -o "$room/once" "$@" >"$room/printed"
    cat "$room/once"
}

# Measures a loop: its name, its text, and the same in OCaml. Both have to print the same.
measure() {
    printf '%s\n' "$2" >"$room/loop.ac"
    printf '%s\n' "$3" >"$room/loop.ml"
    ocamlc -w -a -o "$room/loop.byte" "$room/loop.ml"
    for _ in 1 2 3 4 5; do
        taken "$program" run "$room/loop.ac" --steps 1000000000
        mv "$room/printed" "$room/ours"
        taken ocamlrun "$room/loop.byte"
        cmp -s "$room/ours" "$room/printed" || { echo "$1: they print different things" >&2; exit 1; }
    done >"$room/all"
    awk -v name="$1" \
        'NR % 2 { ours += $1; held = $2; next } { theirs += $1; kept = $2 }
        END { printf "%-32s %7.2f s %7.1f MB %9.2f s %7.1f MB %8.1f\n", name, ours / 5, held / 1024, theirs / 5, kept / 1024, ours / (theirs > 0 ? theirs : 0.05) }' \
        "$room/all"
}

# The arms of a match, which give 0 to 1022.
arms() {
    seq 0 1022 | sed 's/.*/| & -> &/' | tr '\n' ' '
}

# A program makes itself ready once, before it is timed.
"$program" run "$top/crates/acute/data/seven.ac" >"$room/ready"

printf '%-32s %9s %10s %11s %10s %8s\n' loop acute "" ocamlrun "" times
measure '8 times 1,000,000 calls, nested' \
    'let rec f (n : int) : int = if n = 0 then 0 else 1 + f (n - 1) in
     let rec g (k : int) : int = if k = 0 then 0 else f 1000000 + g (k - 1) in IO.print_int (g 8)' \
    'let rec f n = if n = 0 then 0 else 1 + f (n - 1)
     let rec g k = if k = 0 then 0 else f 1000000 + g (k - 1) let () = print_int (g 8)'
measure '10,000,000 calls in tail' \
    'let rec f (n : int) : int = if n = 0 then 0 else f (n - 1) in IO.print_int (f 10000000)' \
    'let rec f n = if n = 0 then 0 else f (n - 1) let () = print_int (f 10000000)'
measure 'fib 33' \
    'let rec fib (n : int) : int = if n < 2 then n else fib (n - 1) + fib (n - 2) in IO.print_int (fib 33)' \
    'let rec fib n = if n < 2 then n else fib (n - 1) + fib (n - 2) let () = print_int (fib 33)'
measure 'a list of 2,000,000, mapped' \
    'let rec build (n : int) : int list = if n = 0 then ([] : int list) else n :: build (n - 1) in
     let rec doubled (l : int list) : int list = match l with [] -> ([] : int list) | (x : int) :: (r : int list) -> 2 * x :: doubled r end in
     let rec sum (l : int list) : int = match l with [] -> 0 | (x : int) :: (r : int list) -> x + sum r end in
     IO.print_int (sum (doubled (build 2000000)))' \
    'let rec build n = if n = 0 then [] else n :: build (n - 1)
     let rec doubled l = match l with [] -> [] | x :: r -> 2 * x :: doubled r
     let rec sum l = match l with [] -> 0 | x :: r -> x + sum r
     let () = print_int (sum (doubled (build 2000000)))'
measure '2,000,000 strings' \
    'let rec size (n : int) : int = if n = 0 then 0 else Str.length (Str.of_int n ^ ";") + size (n - 1) in IO.print_int (size 2000000)' \
    'let rec size n = if n = 0 then 0 else String.length (string_of_int n ^ ";") + size (n - 1) let () = print_int (size 2000000)'
measure '100,000 matches, 1,023 arms' \
    "let pick : int -> int = fun (n : int) -> match n with $(arms) | _ -> 0 end in
     let rec f (n : int) : int = if n = 0 then 0 else pick 1022 + f (n - 1) in IO.print_int (f 100000)" \
    "let pick n = match n with $(arms) | _ -> 0
     let rec f n = if n = 0 then 0 else pick 1022 + f (n - 1) let () = print_int (f 100000)"
measure '4,000,000 exceptions' \
    'let rec f (n : int) : int = if n = 0 then 0 else (try raise Not_found : int with Not_found -> 1 end) + f (n - 1) in IO.print_int (f 4000000)' \
    'let rec f n = if n = 0 then 0 else (try raise Not_found with Not_found -> 1) + f (n - 1) let () = print_int (f 4000000)'
measure '4 times 500,000 calls, 3 lets' \
    'let rec f (n : int) : int = if n = 0 then 0 else let x : int = n * 2 in let y : int = x + 1 in let z : int = y - x in z + f (n - z) in
     let rec g (k : int) : int = if k = 0 then 0 else f 500000 + g (k - 1) in IO.print_int (g 4)' \
    'let rec f n = if n = 0 then 0 else let x = n * 2 in let y = x + 1 in let z = y - x in z + f (n - z)
     let rec g k = if k = 0 then 0 else f 500000 + g (k - 1) let () = print_int (g 4)'
measure 'a curried fold of 1,000,000' \
    'let rec fold (g : int -> int -> int) : int -> int -> int = fun (n : int) -> fun (a : int) -> if n = 0 then a else fold g (n - 1) (g a n) in
     IO.print_int (fold (fun (x : int) -> fun (y : int) -> x + y) 1000000 0)' \
    'let rec fold (g : int -> int -> int) : int -> int -> int = fun (n : int) -> fun (a : int) -> if n = 0 then a else fold g (n - 1) (g a n)
     let () = print_int (fold (fun (x : int) -> fun (y : int) -> x + y) 1000000 0)'
