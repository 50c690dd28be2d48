# shellcheck shell=sh
# What tests/archive/run and tests/transfer/run share, each of which names its command of heron-bench: files of messages are moved, and what
# comes out is compared with the files that a generator has made.

# Builds heron-bench over the library in a folder of its own, and sets library, seed and work. Called from the project's root.
begin() { # COMMAND FOLDER-OF-THE-CALL [LIBRARY [SEED]]
    command=$1
    library=${3-$(tools/static-library)}
    case $library in /*) ;; *) library=$2/$library ;; esac
    [ -f "$library" ] || { echo "$command: no library $library" >&2; exit 2; }
    seed=${4-1}
    command -v python3 >/dev/null || { apt-get -qq update && apt-get -qq install -y python3; } >/dev/null
    work=$(mktemp -d)
    trap 'rm -rf "$work"' EXIT
    bad=0
    x86=$PWD/tools/x86-64
    "$x86" cc -std=c99 -O2 -Wall -Wextra -Iinclude -o "$work/heron-bench" tools/heron-bench/*.c "$library"
}

fail() {
    echo "$command: $*"
    bad=$((bad + 1))
}

bench() { timeout 300 "$x86" run "$work/heron-bench" "$@"; }
same() { cmp "$1" "$2" || fail "$1 is not $2"; }

# Runs the command: its output goes to a file; the exit status and the last line on standard error are compared.
moves() { # STATUS MESSAGES REFUSED TO WORD...
    right=$1 awaited="messages: $2, refused: $3" to=$4 status=0
    shift 4
    bench "$command" "$@" >"$to" 2>told || status=$?
    [ "$status" -eq "$right" ] || fail "$*: exit status $status, not $right"
    [ "$(tail -n 1 told)" = "$awaited" ] || fail "$*: said '$(tail -n 1 told)', not '$awaited'"
}

# A file with damaged messages: the others are moved, each damaged one is told with its place, number and value as FILE.told has them.
# LENGTH is that of a message in RIGHT, and BARE the refusal that has no value. Sets refused.
moves_damaged() { # FILE RIGHT LENGTH BARE WORD...
    file=$1 text=$2 length=$3 bare=$4
    shift 4
    refused=$(wc -l <"$file.told")
    moves 1 $(($(wc -c <"$text") / length + refused)) "$refused" damaged.out "$@" "$file"
    same damaged.out "$text"
    sed -n "s/^heron-bench $command: $file: byte \\([0-9]*\\): refused $bare$/\\1 ${bare%%,*} 0/p
        s/^heron-bench $command: $file: byte \\([0-9]*\\): refused \\([0-9]*\\), [^:]*: \\(field \\)*\\([0-9]*\\)[ ,].*/\\1 \\2 \\4/p" told >places
    same places "$file.told"
    [ "$(wc -l <told)" -eq $((refused + 1)) ] || fail "$file: other lines are told"
}

# The first message of FILE goes out, as the first of RIGHT, while more may come.
goes_out() { # FILE LENGTH RIGHT LENGTH WORD...
    file=$1 taken=$2 text=$3 made=$4
    shift 4
    mkfifo line
    bench "$command" "$@" <line >got 2>told &
    exec 3>line
    head -c "$taken" "$file" >&3
    tries=100
    until [ -s got ] || [ "$tries" -eq 0 ]; do
        tries=$((tries - 1))
        sleep 0.1
    done
    head -c "$made" "$text" | cmp -s - got || fail "a message is kept back"
    exec 3>&-
    wait $! || fail "it fails on a pipe"
}

# Output that cannot be written ends it with status 2, though the input never ends.
cannot_write() { # FILE WORD...
    file=$1 status=0
    shift
    endless | bench "$command" "$@" >/dev/full 2>told || status=$?
    [ "$status" -eq 2 ] || fail "a full disk: exit status $status, not 2"
    grep -qx 'heron-bench: standard output cannot be written: No space left on device' told || fail "a full disk is not told"
    endless | { bench "$command" "$@" 2>told || echo $? >status; } | head -n 1 >one
    [ "$(cat status)" = 2 ] || fail "a broken pipe: exit status $(cat status), not 2"
    grep -qx 'heron-bench: standard output cannot be written: Broken pipe' told || fail "a broken pipe is not told"
}
endless() { while cat "$file" 2>/dev/null; do :; done; }

end() { # WORDS
    [ "$bad" -eq 0 ] || { echo "$command: $bad wrong"; exit 1; }
    echo "$command: $1; seed $seed"
}
