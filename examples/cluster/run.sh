#!/usr/bin/env bash
# Has two sqlite3 processes on two nodes of a cluster write to one database, each 20 rows, and kills a node and the token server meanwhile. Then the logs of
# all seats are merged into one journal, which is audited and drawn. The status is 0 where each node had calls, no row is lost and `audit` says yes.
# usage: examples/cluster/run.sh [PROGRAM [FOLDER]]      FOLDER must be new
fail() {
    echo "run.sh: $1" >&2
    exit "${2:-1}"
}
here=$(cd "$(dirname -- "$0")" && pwd) || exit 2
program=$(readlink -f -- "${1:-$here/../../lockreplay}") || exit 2
room=$(readlink -f -- "${2:-$(mktemp -d)/cluster}") || exit 2
rows=20
for tool in cc python3; do
    command -v "$tool" >/dev/null || fail "there is no $tool here" 2
done
# Without sqlite3 Python's SQLite does the same, which is a library of another process.
client=(sqlite3 -cmd '.timeout 60000')
if ! command -v sqlite3 >/dev/null; then
    python3 -c 'import sqlite3' || fail 'there is no sqlite3 here' 2
    client=(python3 "$here/statements.py")
fi
mkdir "$room" "$room/data" && cc -shared -fPIC -O2 -o "$room/lockshim.so" "$here/lockshim.c" || exit 2
# The loader parts LD_PRELOAD at blanks and colons, which the folder's name may have: so it gets a link.
link=$(mktemp -d /tmp/lockshim.XXXXXX) && ln -s "$room/lockshim.so" "$link/lockshim.so" || exit 2
trap 'rm -rf "$link"' EXIT

python3 "$here/driver.py" "$program" "$room/run" --nodes 3 >"$room/driver" 2>"$room/driver.said" &
driver=$!
trap 'kill $driver $first $second 2>/dev/null; rm -rf "$link"' EXIT

# Fails where the driver has ended.
is_driven() {
    kill -0 $driver 2>/dev/null || fail "the driver has ended: $(tail -n 1 "$room/driver.said")"
}

# Waits until the command succeeds, at most two minutes, while the driver runs.
await() {
    for _ in $(seq 6000); do
        "$@" && return
        is_driven
        sleep 0.02
    done
    fail "in vain: $*"
}
await [ -S "$room/run/socket" ]

# Runs sqlite3 on a node, whose locks of files in the folder of the database are the cluster's.
on_node() {
    env LD_PRELOAD="$link/lockshim.so" LOCKSHIM_SOCKET="$room/run/socket" LOCKSHIM_FOLDER="$room/data" LOCKSHIM_NODE="$1" \
        "${client[@]}" "$room/data/rows.db"
}

# Inserts rows on a node, and tells each that is there for good. Where the node fails, sqlite3 is killed with it; once it is back, the rows not told come.
insert() {
    local told=0
    for _ in 1 2 3 4; do
        for row in $(seq $((told + 1)) $rows); do
            echo "BEGIN IMMEDIATE; INSERT OR IGNORE INTO rows VALUES($1, $row); COMMIT; SELECT $row;"
        done | on_node "$1" >>"$room/told.$1" 2>>"$room/said.$1"
        told=$(tail -n 1 "$room/told.$1")
        [ "${told:-0}" -eq $rows ] && return
    done
}

# Fails where no call of the node is in its logs, as where the shim was not loaded.
has_called() {
    grep -qs "^entry [0-9]* call $1\." "$room/run/node-$1".*.log || fail "no call of node $1 went through the cluster"
}

echo 'CREATE TABLE rows(node, row, PRIMARY KEY(node, row));' | on_node 3
has_called 3
: >"$room/told.1" >"$room/told.2"
insert 1 &
first=$!
insert 2 &
second=$!

# Kills the process of a seat, once so many rows were told.
are_told() {
    [ "$(cat "$room/told.1" "$room/told.2" | wc -l)" -ge "$1" ]
}
await are_told 10
kill -9 "$(cat "$room/run/node-2.pid")"
await are_told 20
kill -9 "$(cat "$room/run/server-1.pid")"
wait $first $second
is_driven
has_called 1
has_called 2

count=$(echo 'SELECT count(*) FROM rows;' | on_node 3)
echo "rows: $count of $((2 * rows))"
echo "integrity: $(echo 'PRAGMA integrity_check;' | on_node 3)"
kill $driver && wait $driver
cat "$room/driver.said" >&2
echo "declared failed: nodes $(grep -c ': declare ' "$room/driver"), servers $(grep -c ': fail-server ' "$room/driver")"
"$program" merge "$room"/run/*.log --members "$room/run/members" --journal "$room/journal" &&
    "$program" audit "$room/journal" &&
    "$program" picture "$room/journal" --to 400 >"$room/picture.svg" || exit
echo "calls: of node 1 $(grep -c '^entry [0-9]* call 1\.' "$room/journal"), of node 2 $(grep -c '^entry [0-9]* call 2\.' "$room/journal")"
echo "$room has the journal, and picture.svg of its first 400 entries"
[ "$count" = $((2 * rows)) ]
