# For the scripts that run a program of this repository, which source it. A program is proved and built once, and again when its sources have
# changed; what is told of that goes to standard error. Needs the kit: rt on the path, or RATTLE_HOME.
set -eu

script=$(basename "$0")
root=$(dirname "$(dirname "$(readlink -f "$0")")")

die() { printf '%s: %s\n' "$script" "$*" >&2; exit 1; }

# Sets `kit`, and says so where it is not the one that the project is proved with.
find_kit() {
    if [ -n "${RATTLE_HOME:-}" ]; then
        kit=$RATTLE_HOME
    else
        rt=$(command -v rt) || die "the kit is not there: put its rt on the path, or set RATTLE_HOME"
        kit=$(dirname "$(dirname "$(readlink -f "$rt")")")
    fi
    proved_with=$(cat "$root/KIT")
    found=$("$kit/bin/rt" version </dev/null) || die "the kit at $kit does not say which it is"
    [ "$found" = "$proved_with" ] || printf '%s: the kit is %s; the project is proved with %s\n' "$script" "$found" "$proved_with" >&2
}

# The program is as new as the last of the sources that crates.txt and crates/ have: the marker is made after it. `rt run` proves and builds it, and
# then runs it, here on no input.
build() { # NAME
    built=$root/target/built/$1
    [ -x "$root/crates/$1/out/$1" ] && [ -f "$built" ] \
        && [ -z "$(find "$root/crates.txt" "$root"/crates/*/src "$root"/crates/*/specs "$root"/crates/*/proofs -newer "$built" 2>/dev/null | head -n 1)" ] \
        && return
    printf '%s: proving and building the program; this takes minutes, once\n' "$script" >&2
    mkdir -p "$root/target/log" "$root/target/built"
    log=$root/target/log/$1.build
    (cd "$root/crates/$1" && "$kit/bin/rt" run) >"$log" 2>&1 </dev/null || { tail -n 20 "$log" >&2; die "the program could not be proved and built; $log has it all"; }
    : >"$built"
}

# Makes the book standard input: the one that is named, or what stands there already. A closed stream is told here: what is opened later could take
# its place.
take_book() { # [BOOK]
    if [ $# -eq 1 ]; then
        [ -r "$1" ] || die "cannot read $1"
        exec <"$1"
    fi
    (: 3<&0) 2>/dev/null || die "standard input cannot be read"
    (: 3>&1) 2>/dev/null || die "the output cannot be written"
}

# Makes standard input a copy, `book`, that can be read again. It has more bytes than any book, so that what is said of them is said of all; an input
# that goes on without an end is answered too. Status 1: no place for a copy.
limit=4096
copy_book() {
    book=$(mktemp 2>/dev/null) || return 1
    trap 'rm -f "$book"' EXIT
    trap 'exit 1' HUP INT PIPE TERM
    head -c "$limit" >"$book" 2>/dev/null || die "standard input cannot be read"
    exec <"$book"
}

# Runs the program on standard input, with the arguments if there are any. Status 1 if it complains or does not end by itself: a program has no status
# of its own, and what it complains of goes to standard error, where it says nothing else. It is a program for x86-64 and runs under the kit's loader
# and C library.
run() { # NAME ARGUMENT..
    program=$root/crates/$1/out/$1
    shift
    libraries=$kit/toolchain/lib
    status=0
    { complaint=$("$libraries/ld-linux-x86-64.so.2" --library-path "$libraries" "$program" "$@" 2>&1 >&3 3>&-) || status=1; } 3>&1
    [ -z "$complaint" ] || { status=1; printf '%s\n' "$complaint" >&2 || :; }
    return "$status"
}

# Prints TEXT, if there is any, with a newline.
hand_out() { # TEXT
    [ -z "$1" ] || printf '%s\n' "$1" 2>/dev/null || die "the output cannot be written"
}

# The book in words: all its fields, or with WORDS 1 what is wrong with it. SHEET is what the proved program printed of it.
in_words() { # SHEET WORDS
    verdict=$(printf '%s\n' "$1" | sed -n 1p)
    od -An -v -tu1 "$book" | LC_ALL=C awk -v verdict="$verdict" -v words="$2" -v limit="$limit" -f "$root/bin/fields.awk"
}

# The words beside a `bad` line. They are unproved and no part of any promise.
explain() { # LINE [BOOK]
    printf '%s: %s\n%s: to see it among the fields: bin/book fields %s\n' "$script" "$(in_words "$1" 1)" "$script" "${2:-<BOOK}" >&2
}
