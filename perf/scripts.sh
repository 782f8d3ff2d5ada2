#!/usr/bin/env bash
# Tries ./acute, ./lens, ./explain and ./try on a table of command lines. usage: perf/scripts.sh [ACUTE LENS]
# ACUTE and LENS are the two programs, built. Without them a stand-in takes their place, which ends as a row says, and
# the rows `real` are left out. Nothing is proved or compiled: the programs lie in a cache of the table's own, and in place
# of `rt try` a stand-in runs them as the kit does, in an empty folder and without an environment.
[ $# = 0 ] || [ $# = 2 ] || { echo "usage: perf/scripts.sh [ACUTE LENS]" >&2; exit 1; }
top=$(cd "$(dirname "${BASH_SOURCE[0]}")/.." && pwd)
programs=()
[ $# = 0 ] || programs=("$(realpath "$1")" "$(realpath "$2")")
room=$(mktemp -d)
trap 'rm -rf "$room"' EXIT
export LC_ALL=C XDG_CACHE_HOME=$room/cache PATH=$room/bin:$PATH
mkdir "$room/bin" "$room/programs" "$room/row" "$room/empty"
held=0 failed=0 left=0

# In place of a program: notes its words, prints what the row says, and ends as that says.
cat >"$room/stand-in" <<END
#!/bin/sh
printf '%s|' "\$@" >$room/row/words
cat $room/row/output
cat $room/row/errors >&2
exit \$(cat $room/row/status)
END

# In place of the kit's command, which is called as \`rt try -- WORD..\` in the folder of a crate.
cat >"$room/bin/rt" <<END
#!/usr/bin/env bash
touch $room/called
program=$room/programs/\${PWD##*/}
cd $room/empty
env -i "\$program" "\${@:3}"
status=\$?
printf '%s\n' "checked: ended status=\$status" "races: none looked for" "run=ended status=\$status proved=no" >&2
exit \$status
END
chmod +x "$room/stand-in" "$room/bin/rt"

# Lays the two programs where ./acute looks for them, newer than all sources.
lay_programs() {
    local build name
    build=$room/cache/acute/$(sha256sum <<<"$top" | cut -c1-16)
    ln -sf "$1" "$room/programs/acute"
    ln -sf "$2" "$room/programs/lens"
    for name in acute lens; do
        mkdir -p "$build/crates/$name/out"
        ln -sf "$room/programs/$name" "$build/crates/$name/out/$name"
    done
    touch "$build/built"
}

# Runs a command, with what it says on errors in the file `errors`.
plainly() {
    bash -c "$1" </dev/null >"$room/output" 2>"$room/errors"
}

# The same, where errors are a terminal.
at_terminal() {
    python3 - "$1" "$room" <<'END'
import os, pty, subprocess, sys
command, room = sys.argv[1:]
ours, theirs = pty.openpty()
with open(f"{room}/output", "wb") as output:
    ran = subprocess.Popen(["bash", "-c", command], stdin=subprocess.DEVNULL, stdout=output, stderr=theirs)
os.close(theirs)
said = b""
try:
    while more := os.read(ours, 4096):
        said += more
except OSError:
    pass  # the last one that had the terminal has ended
with open(f"{room}/errors", "wb") as errors:
    errors.write(said.replace(b"\r\n", b"\n"))
sys.exit(ran.wait())
END
}

# Compares how a command ended, in which way it was run, with the status, output and errors that are wanted.
compare() {
    local command=$1 way=$2 status=$3
    if [ "$status" = "$4" ] && cmp -s "$room/output" <(printf %s "$5") && cmp -s "$room/errors" <(printf %s "$6"); then
        held=$((held + 1))
        return
    fi
    failed=$((failed + 1))
    echo "$command, $way: status $status, and $4 is wanted"
    diff <(printf %s "$5") "$room/output" | sed 's/^/  output /'
    diff <(printf %s "$6") "$room/errors" | sed 's/^/  errors /'
}

# A row: a command, its status, the lines of output, the program's lines on errors, and what a terminal gets behind them.
row() {
    local output=${3:+$3$'\n'} errors=${4:+$4$'\n'} told=${5:+$5$'\n'}
    printf %s "$2" >"$room/row/status"
    printf %s "$output" >"$room/row/output"
    printf %s "$errors" >"$room/row/errors"
    [[ $1 != *./try* ]] || errors=$note$'\n'$errors
    plainly "$1"
    compare "$1" "no terminal" $? "$2" "$output" "$errors"
    at_terminal "$1"
    compare "$1" "at a terminal" $? "$2" "$output" "$errors$told"
}

# A row that needs the built programs.
real() {
    if [ "$room/programs/acute" -ef "$room/stand-in" ]; then
        left=$((left + 1))
    else
        row "$@"
    fi
}

# A row of the words that the stand-in of a program gets. HERE is the name of the folder that the script is called in.
passes() {
    echo 0 >"$room/row/status"
    : >"$room/row/output" >"$room/row/errors"
    plainly "$1"
    local status=$?
    : >"$room/errors"
    sed 's|/proc/[0-9]*/cwd/|HERE/|g' "$room/row/words" >"$room/output"
    compare "$1" "what is passed" $status 0 "$2|" ""
}

# A row of a command that prints the version and the forms of the commands, and no more than these is looked at.
tells_forms() {
    plainly "$1"
    local status=$?
    head -n 10 "$room/output" >"$room/head"
    mv "$room/head" "$room/output"
    compare "$1" "forms" $status 0 "acute $(cat "$top/VERSION")"$'\n'"$forms"$'\n' ""
}

note="try: nothing is proved of this run, which compiles for a minute or two first; ./acute runs the program that is proved"
forms="usage: acute run FILE [--shelf LIST] [--in CH] [--out CH] [--steps N]
       acute names FILE [--shelf LIST]
       acute code FILE [--shelf LIST]
       acute check FILE.. [--shelf LIST]
       acute make SEED MODULES [--run]
       acute chain FILE.. [--shelf LIST] [--steps N]
       acute audit PROGRAM CHANNEL --as TYPE [--shelf LIST]
       acute pipe TOOL A B [--shelf LIST] [--steps N]
       acute explain FILE.. [--shelf LIST]"
explained="bad.ac:1:1: refused: \`totl\` isn't in scope
totl
^
  acute: refused: unbound at 0"
unread="No such file or directory"
disk="standard output can't be written: is the disk full, or was a pipe closed?"

# The scripts are called from another folder, by links.
mkdir -p "$room/files/sub"
cd "$room/files" || exit 1
ln -s "$top/acute" "$top/lens" "$top/explain" "$top/try" .
ln -s "$top/acute" sub/ac
echo 'IO.print_string "7\n"' | tee 7 run help 'a b.ac' >seven.ac
echo 'totl' >bad.ac
echo 'raise Not_found : unit' >raise.ac
echo 'let rec f (n : int) : int = f n in f 0' >loop.ac
echo 'IO.send "hi"' >send.ac
echo 'IO.print_string (IO.receive ()); IO.print_string "\n"' >receive.ac
printf '\0\0\0\2hi' >frames
cp "$top"/examples/greet.ac "$top"/examples/greet_1_0.mod .
cp greet_1_0.mod sub
echo "lib:greet greet_1_0.mod" >whole.list
printf '\nlib:greet greet_1_0.mod' >open.list
printf 'lib:greet sub/../sub/greet_1_0.mod' >deep.list
printf 'lib:greet %s' "$PWD/greet_1_0.mod" >full.list
printf 'lib:greet greet_1_0.mod\nlib:lost lost.mod' >lost.list
printf 'lib:greet greet_1_0.mod\r\n' >cr.list
printf 'lib:greet  greet_1_0.mod\n' >bad.list

for script in ./acute ./lens ./explain ./try "./acute lens" "./acute explain" "./try explain"; do
    for word in "" --help -h help --version; do
        tells_forms "$script $word"
    done
done
for made in "$room/called" "$room/cache"; do
    if [ -e "$made" ]; then
        echo "the forms called the kit or began to build: $made"
        failed=$((failed + 1))
    fi
done

lay_programs "$room/stand-in" "$room/stand-in"
passes "./acute run run --steps 7 --in=7" "run|run|--steps|7|--in=7"
passes "./acute check 'a b.ac' '' -x --help" "check|a b.ac||-x|--help"
passes "./acute run --help" "run|--help"
passes "./acute explain explain -x --in=7" "explain|explain|-x|--in=7"
passes "./explain 'a b.ac' run" "explain|a b.ac|run"
passes "./lens explain 7 --shelf=whole.list" "explain|7|--shelf=whole.list"
passes "./acute lens --help" "--help"
passes "./try run run --steps 7 --in=7" "run|HERE/run|--steps|7|--in=HERE/7"
passes "./try make 7 20 --run" "make|7|20|--run"
passes "./try chain 7 run --steps=7 no.ac" "chain|HERE/7|HERE/run|--steps=7|HERE/no.ac"
passes "./try audit 7 frames --as=int --shelf no.list" "audit|HERE/7|HERE/frames|--as=int|--shelf|HERE/no.list"
passes "./try audit --as 'int list' 7 frames" "audit|--as|int list|HERE/7|HERE/frames"
passes "./try pipe tool --shelf=no.list 7 run --steps 5" "pipe|tool|--shelf=HERE/no.list|HERE/7|HERE/run|--steps|5"
passes "./try run --out x --in - 'a b.ac' --shelf=" "run|--out|HERE/x|--in|-|HERE/a b.ac|--shelf="
passes "./try run /a/run --out=- --in /b --in=-x" "run|/a/run|--out=-|--in|/b|--in=HERE/-x"
passes "./try run -x --in --out=../x -- ''" "run|-x|--in|--out=HERE/../x|--|"
passes "./try check a:- - --shelf=- =" "check|HERE/a:-|-|--shelf=-|HERE/="
passes "./try names ../run --shelf no.list" "names|HERE/../run|--shelf|HERE/no.list"
passes "./try rnu" "rnu"
passes "./try explain -x --in=7 run" "explain|-x|--in=HERE/7|HERE/run"
passes "./try lens explain 7" "explain|HERE/7"

[ $# = 0 ] || lay_programs "${programs[@]}"
row "./acute run seven.ac" 0 7
row "./acute run 'a b.ac' --in no --steps 5" 0 7
row "./acute explain seven.ac" 0 "seven.ac: accepted, of type unit"
row "./explain seven.ac sub/../7" 0 "seven.ac: accepted, of type unit"$'\n'"sub/../7: accepted, of type unit"
row "./acute run raise.ac" 2 "" "uncaught: Not_found"
row "./acute run loop.ac --steps 5" 3 "" "acute: spent 5"
row "./acute run greet.ac --shelf bad.list" 10 "" "acute: shelf: line 1"

row "./acute run bad.ac" 1 "" "acute: refused: unbound at 0" "./explain bad.ac shows the place"
row "./acute names --shelf=whole.list bad.ac" 1 "" "acute: refused: unbound at 0" \
    "./explain bad.ac --shelf whole.list shows the place"
row "./acute check bad.ac" 1 "bad.ac: refused: unbound at 0" "" "./explain bad.ac shows the place"
row "./acute check run bad.ac" 1 "run: accepted"$'\n'"bad.ac: refused: unbound at 0" "" "./explain FILE shows the place"
row "cd sub; ../acute run ../bad.ac" 1 "" "acute: refused: unbound at 0" "../explain ../bad.ac shows the place"
row "sub/ac run bad.ac" 1 "" "acute: refused: unbound at 0" "sub/ac explain bad.ac shows the place"
row "./acute chain 7 bad.ac 7" 1 "" "acute: refused: program 2: unbound at 0" "./explain FILE shows the place"
row "./acute audit seven.ac frames --as int" 1 "frame 1: format" "" "./explain seven.ac shows the place, where the program is refused"
row "./acute audit --as int bad.ac frames" 1 "" "acute: refused: unbound at 0" "./explain bad.ac shows the place, where the program is refused"
row "./acute pipe no --shelf whole.list seven.ac bad.ac" 1 "" "acute: refused: unbound at 0" \
    "./explain bad.ac --shelf whole.list shows the place"
row "./acute pipe no seven.ac lost.ac" 5 "" "acute: read fault" "lost.ac can't be read: $unread"
row "./acute audit seven.ac no --as int" 5 "" "acute: read fault" "no can't be read: No such file or directory"
row "./explain bad.ac" 1 "$explained"

row "./acute run no.ac" 5 "" "acute: read fault" "no.ac can't be read: $unread"
row "./acute code 'n o.ac'" 5 "" "acute: read fault" "n\\ o.ac can't be read: $unread"
row "./acute run sub" 5 "" "acute: read fault" "sub can't be read: it is a folder"
row "./acute check run no.ac /no/x" 5 "" "acute: read fault" "no.ac can't be read: $unread"$'\n'"/no/x can't be read: $unread"
real "./acute run <(cat seven.ac)" 0 7
row "./acute run receive.ac --in no" 5 "" "acute: read fault" "no can't be read: $unread"
row "./acute run receive.ac --in=no --out x" 5 "" "acute: read fault" "no can't be read: $unread"
row "./acute run greet.ac --shelf no.list" 5 "" "acute: read fault" "no.list can't be read: $unread"
row "./acute run greet.ac --shelf=lost.list" 5 "" "acute: read fault" "lost.mod can't be read: $unread"
row "./acute run greet.ac --shelf cr.list" 5 "" "acute: read fault" "\$'greet_1_0.mod\\r' can't be read: $unread"
row "./explain no.ac" 5 "no.ac: can't be read" "" "no.ac can't be read: $unread"

row "./acute run send.ac --out no/x" 6 "" "acute: write fault" "no/x can't be written: its folder isn't there"
row "./acute run send.ac --out=sub" 6 "" "acute: write fault" "sub can't be written: it is a folder"
row "./acute run send.ac --out /dev/full" 6 "" "acute: write fault" "/dev/full or $disk"
real "./acute run seven.ac >/dev/full" 6 "" "acute: write fault" "$disk"
real "./explain seven.ac >/dev/full" 6 "" "" "$disk"

row "./acute rnu seven.ac" 7 "" "acute: words refused" "$forms"
row "./acute run seven.ac --help" 7 "" "acute: words refused" "$forms"
row "./acute ''" 7 "" "acute: words refused" "$forms"
row "./acute run send.ac --in frames --out frames" 7 "" "acute: words refused" "$forms"

row "./try run run" 0 7
row "./try run 7 --steps 7" 0 7
row "./try check run 7 sub/../bad.ac $PWD/run" 1 "run: accepted
7: accepted
sub/../bad.ac: refused: unbound at 0
$PWD/run: accepted" "" "./try explain FILE shows the place"
row "./try explain run ./help" 0 "run: accepted, of type unit"$'\n'"./help: accepted, of type unit"
row "./try explain bad.ac" 1 "$explained"
row "./try run bad.ac" 1 "" "acute: refused: unbound at 0" "./try explain bad.ac shows the place"
row "./try run no.ac" 5 "" "acute: read fault" "no.ac can't be read: $unread"
row "./try run greet.ac --shelf=lost.list" 5 "" "acute: read fault" "lost.mod can't be read: $unread"
row "./try run send.ac --out=no/x" 6 "" "acute: write fault" "no/x can't be written: its folder isn't there"
row "./try run send.ac --in frames --out frames" 7 "" "acute: words refused" "$forms"
row "./try run send.ac --in frames --out ./sent" 0
real "rm -f x; ./try run send.ac --out=x && cmp x frames" 0
real "rm -f x; ./try run send.ac --out x && cmp x frames" 0
row "./try run receive.ac --in=frames" 0 hi
row "./try run receive.ac --in frames" 0 hi
real "./try run receive.ac --in - <frames" 0 hi
for list in whole open deep full; do
    row "./acute run greet.ac --shelf $list.list" 0 "Hello, world!"
    row "./try run greet.ac --shelf=$list.list" 0 "Hello, world!"
done
row "./try names bad.ac --shelf bad.list" 10 "" "acute: shelf: line 1"

echo "$held hold, $failed don't, $left left out for want of the built programs"
[ "$failed" = 0 ]
