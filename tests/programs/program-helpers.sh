# Read first by tests/programs/program, tests/programs/threads, tests/programs/read-journals and tests/programs/told-files: looks for the program, makes a folder and goes there, and makes files
# with which cases begin. Here are the functions by which they try cases.
program=$(readlink -f -- "${1:?usage: $0 PROGRAM}") || exit 2
tests=$(readlink -f -- "$(dirname -- "$0")/..") || exit 2
examples=$tests/../examples
data=$tests/../crates/lockreplay
if [ ! -x "$program" ]; then
    echo "$0: there is no program $1"
    echo "0 passed, 1 failed"
    exit 1
fi
room=$(mktemp -d) || exit 2
trap 'rm -rf "$room"' EXIT
cd "$room" || exit 2
passed=0
failed=0

: >none
cp "$data/data/first.lock" first.lock
cp "$data/stdout" first.listing
printf 'refused\nreplies\ntokens\nlocks\nhistory\n' >empty.listing
printf 'cluster nodes 1 files 1 policy wide\n' >empty.lock
echo 'cannot write standard output' >no-output
echo 'no memory' >no-memory
mkdir folder
echo 'cannot read missing.lock' >no-file
echo 'cannot write folder' >no-folder-journal
printf 'cluster nodes 1 files 1 policy wide\nsettle\n\nsettled\nsettles\n' >bad.lock
echo 'bad line 4' >bad-line
echo 'bad line 1' >first-bad
echo 'journal full' >no-room
cp "$tests/scripts/first-run.journal" first.journal
sed -n '/^history$/,$p' first.listing >first.history
echo 'audit yes' >yes
echo 'the only copy' >kept.journal
cp kept.journal kept
# The first line of a script, with escapes, as `try_bad_line` takes it.
shape='cluster nodes 1 files 1 policy wide\n'

# Counts a case: its name, the status that is wanted, the one that came, and two files each for standard output and
# standard error, what is wanted and what came.
judge() {
    local wrong=
    [ "$3" = "$2" ] || wrong="status $3, and not $2"
    cmp -s "$4" "$5" || wrong="$wrong; another standard output: $(head -c 200 "$5" | head -n 2)"
    cmp -s "$6" "$7" || wrong="$wrong; another standard error: $(head -c 200 "$7" | head -n 2)"
    if [ -z "$wrong" ]; then
        passed=$((passed + 1))
    else
        echo "FAILED $1: ${wrong#; }"
        failed=$((failed + 1))
    fi
}

# Runs the program on the words after the name of the case, the status, and the files that hold what it is to write.
try() {
    local name=$1 status=$2 out=$3 err=$4
    shift 4
    timeout 120 "$program" "$@" >came.out 2>came.err </dev/null
    judge "$name" "$status" $? "$out" came.out "$err" came.err
}

# Runs the program on words that get help, or are told what is wrong: the named stream has the text (or a line that
# begins with it), and the other nothing.
try_text() {
    local name=$1 status=$2 stream=$3 text=$4
    shift 4
    timeout 120 "$program" "$@" >came.out 2>came.err </dev/null
    local came=$?
    if grep -q -F -- "$text" "came.$stream"; then cp "came.$stream" wanted; else echo "a line with: $text" >wanted; fi
    if [ "$stream" = out ]; then
        judge "$name" "$status" "$came" wanted came.out none came.err
    else
        judge "$name" "$status" "$came" none came.out wanted came.err
    fi
}

# Runs the program on words to which it writes what other cases are compared with: the name of the case, and the file for standard
# output, which gets something.
try_any() {
    local name=$1 out=$2 came
    shift 2
    timeout 120 "$program" "$@" >"$out" 2>came.err </dev/null
    came=$?
    [ -s "$out" ] || came="$came, with nothing on standard output"
    judge "$name" 0 "$came" none none none came.err
}

# Runs the program on words to which it writes something: the name of the case, the status, a word that it has to write and one that it must
# not, and the file that holds what it tells beside it.
try_part() {
    local name=$1 status=$2 word=$3 other=$4 told=$5 came
    shift 5
    timeout 120 "$program" "$@" >came.out 2>came.err </dev/null
    came=$?
    grep -q -F -- "$word" came.out || came="$came, without $word"
    if grep -q -F -- "$other" came.out; then came="$came, with $other"; fi
    judge "$name" "$status" "$came" none none "$told" came.err
}

# Runs the program on a script whose first bad line it tells: the command, the number of that line, and the text. In the text are escapes, as of a
# blank at the end of a line.
try_bad_line() {
    printf '%b' "$3" >wrong.lock
    echo "bad line $2" >wrong
    try "$1 with a bad line: $3" 3 none wrong "$1" wrong.lock
}
