# What ./acute, ./lens, ./explain and ./try share: the forms of the commands, the files that words name, and what is said at a
# terminal behind the program's own line. The script that reads this file sets `top`, the repository's folder, and
# `explain`, the words that explain files.

print_forms() {
    cat <<'END'
usage: acute run FILE [--shelf LIST] [--in CH] [--out CH] [--steps N]
       acute names FILE [--shelf LIST]
       acute code FILE [--shelf LIST]
       acute check FILE.. [--shelf LIST]
       acute make SEED MODULES [--run]
       acute chain FILE.. [--shelf LIST] [--steps N]
       acute audit PROGRAM CHANNEL --as TYPE [--shelf LIST]
       acute pipe TOOL A B [--shelf LIST] [--steps N]
       acute explain FILE.. [--shelf LIST]
END
}

print_help() {
    echo "acute $(cat "$top/VERSION")"
    print_forms
    cat <<'END'

run      runs a program
names    prints the name of each definition of a program
code     prints the code of a program
check    says of each program whether it is accepted
make     prints a generated program, or runs it
chain    runs programs, each of which receives what the one before it sent
audit    says of each frame of a file whether a program would take it at a type
pipe     starts TOOL as the sender of program A, and runs program B on what it sends
explain  says of each program whether it is accepted, and where and why it isn't

LIST     a file that names the modules of a shelf, as lines URI FILE
TYPE     a type, as it would stand behind the program's last definition
CH       a file, or - for standard input or output
N        how many applications a program may make, 1000000 without the option

./acute proves and builds the program first, where that isn't done yet.
./try takes the same words, and runs without proof. ./explain is ./acute explain, and ./lens explain too.
./lens --help tells of the program that helps, which is built beside the first.
docs/LANGUAGE.md has the rules, docs/FAULTS.md what each answer means.
END
}

# Whether some words ask for the forms.
asks_forms() {
    case ${1---help} in
        --help | -h | help | --version) true ;;
        *) false ;;
    esac
}

# Sets `name` to the program that the words call, and `words` to those that it gets. Where they ask for the forms of
# `acute`, or of `explain`, prints them and ends.
take_words() {
    name=acute words=("$@")
    case ${1-} in
        lens) name=lens words=("${@:2}"); return ;;
        explain) name=lens; shift ;;
    esac
    if asks_forms "$@"; then
        print_help
        exit
    fi
}

# Sets files[i] to the file that words[i] names, or to nothing, and kinds[i] to the option that it belongs to, or to FILE.
find_files() {
    local word kind file before=
    files=() kinds=()
    for word in "${words[@]}"; do
        kind=FILE file=$word
        case $before in --shelf | --in | --out | --steps | --as) kind=$before ;; esac
        case $word in --*=*) kind=${word%%=*} file=${word#*=} ;; -*) file= ;; esac
        case $kind in FILE | --shelf | --in | --out) ;; *) file= ;; esac
        [ "$file" != - ] || file=
        files+=("$file") kinds+=("$kind") before=$word
    done
    # The first word is the command, those of `make` are numbers, and the first file of a pipe is a tool.
    files[0]=
    case ${words[0]-} in
        make) files=() ;;
        pipe) leave_tool ;;
    esac
}

# Leaves out the first of the files.
leave_tool() {
    local i
    for i in "${!files[@]}"; do
        if [ "${kinds[i]}" = FILE ] && [ -n "${files[i]}" ]; then
            files[i]=
            return
        fi
    done
}

# Says that a file can't be read or written, and why, where there is a reason.
tell_file() {
    [ -z "$3" ] || printf "%q can't be %s: %s\n" "$1" "$2" "$3"
}

# Prints what a file is that is neither read nor written.
what_it_is() {
    if [ -d "$1" ]; then
        echo "it is a folder"
    elif [ -S "$1" ]; then
        echo "it is a socket"
    fi
}

# Prints why a file can't be read, if it can't. A pipe isn't opened for that, since this might wait.
why_unread() {
    local why
    why=$(what_it_is "$1")
    [ -n "$why" ] || [ -p "$1" ] || why=$({ : <"$1"; } 2>&1)
    echo "${why##*: }"
}

# Prints why a file can't be written, if that is known. No file is made.
why_unwritten() {
    local why folder
    folder=$(dirname -- "$1")
    why=$(what_it_is "$1")
    if [ -n "$why" ] || [ -p "$1" ]; then
        :
    elif [ -e "$1" ]; then
        why=$({ : >>"$1"; } 2>&1)
    elif [ ! -d "$folder" ]; then
        why="its folder isn't there"
    elif [ ! -w "$folder" ]; then
        why="its folder can't be written"
    fi
    echo "${why##*: }"
}

# Says which of the files that are read can't be, also of those that the list of a shelf names.
tell_unread() {
    local i file line
    for i in "${!files[@]}"; do
        file=${files[i]}
        [ -n "$file" ] && [ "${kinds[i]}" != --out ] || continue
        tell_file "$file" read "$(why_unread "$file")"
        [ "${kinds[i]}" = --shelf ] && [ -f "$file" ] && [ -r "$file" ] || continue
        while IFS= read -r line || [ -n "$line" ]; do
            [ -z "$line" ] || tell_file "${line#* }" read "$(why_unread "${line#* }")"
        done <"$file"
    done
}

# Says why the file that is written can't be, or, where no reason is known, what may be.
tell_unwritten() {
    local i why written=
    for i in "${!files[@]}"; do
        [ -n "${files[i]}" ] && [ "${kinds[i]}" = --out ] || continue
        why=$(why_unwritten "${files[i]}")
        tell_file "${files[i]}" written "$why"
        [ -z "$why" ] || return
        written="$(printf %q "${files[i]}") or "
    done
    echo "${written}standard output can't be written: is the disk full, or was a pipe closed?"
}

# Says how to see the place of what is refused.
tell_place() {
    local i file= shelf= where=
    for i in "${!files[@]}"; do
        case ${kinds[i]}:${files[i]} in
            --shelf:?*) shelf=" --shelf $(printf %q "${files[i]}")" ;;
            FILE:?*)
                # Of an audit, whose status may speak of frames, the first one is the program; of a pipe the last one.
                case ${words[0]} in
                    audit) file=${file:-$(printf %q "${files[i]}")} where=", where the program is refused" ;;
                    pipe) file=$(printf %q "${files[i]}") ;;
                    *) file=${file:+FILE} file=${file:-$(printf %q "${files[i]}")} ;;
                esac ;;
        esac
    done
    [ -z "$file" ] || echo "$explain $file$shelf shows the place$where"
}

# Says at a terminal what there is to say of a status.
tell_more() {
    [ -t 2 ] || return
    find_files
    case $name:$1 in
        acute:1) tell_place ;;
        *:5) tell_unread ;;
        *:6) tell_unwritten ;;
        acute:7) print_forms ;;
    esac >&2
}
