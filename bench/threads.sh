#!/bin/sh
# Times `threads`: a client on each of 1, 2, 4 and 8 nodes locks and unlocks ten bytes of a file of its own, which its node's
# token covers from the first lock on; alone, and where 100 other processes of its node have 100 regions each in that file.
# Prints, each of the fastest of three runs, how many calls a second are answered while clients make calls (`bench/pace`), without
# the time of a run that sets the regions alone; beside those of fcntl(F_SETLK) on a file of this machine by one process, and
# beside what calls through mailboxes come to at most (bench/limit.c: a mailbox, a thread for each node, one mutex, an answer, and
# no locks), both in the same minute; how many times longer than in that form a call takes; and the calls a second of the whole
# command, which also reads the script, looks at what came of it, and prints the listing.
# usage: bench/threads.sh [CALLS]   (of all clients together; some 960,000)
here=$(dirname -- "$(readlink -f -- "$0")") || exit 1
calls=${1:-960000}
folder=$(mktemp -d) || exit 1
trap 'rm -rf "$folder"' EXIT
program=$("$here/../lockreplay" --program) || exit 1
cc -O2 -o "$folder/fcntl" "$here/fcntl.c" || exit 1
cc -O2 -pthread -o "$folder/limit" "$here/limit.c" || exit 1

# A script in which a client on each of so many nodes makes so many calls, by turns a lock and an unlock, beside so many
# other owners of its node.
script() {
    awk -v nodes="$1" -v calls="$2" -v owners="$3" 'BEGIN {
        print "cluster nodes " nodes " files " nodes " policy wide"
        for (node = 1; node <= nodes; node++)
            print "call " node " 1 spawn\ncall " node " 1 open " node " rw\ncall " node " 1 set 0 proc write 0 1"
        for (node = 1; node <= nodes; node++)
            for (pid = 2; pid < owners + 2; pid++) {
                print "call " node " " pid " spawn\ncall " node " " pid " open " node " rw"
                for (region = 0; region < 100; region++)
                    print "call " node " " pid " set 0 proc write " 1000000 + pid * 10000 + region * 20 " 10"
            }
        print "settle"
        for (call = 0; call < calls; call++)
            for (node = 1; node <= nodes; node++)
                print "call " node " 1 " (call % 2 == 0 ? "set 0 proc write " : "unlock 0 proc ") int(call / 2) % 1000 * 10 + 10 " 10"
    }'
}

# The greater of two numbers.
greater() {
    if [ "$1" -gt "$2" ]; then echo "$1"; else echo "$2"; fi
}

# So many in so many seconds, but for those of the beginning: how many a second.
each_second() {
    echo "$1 $2 $3" | awk '{ printf "%.0f", $1 / ($2 - $3) }'
}

echo "nodes  owners  calls/s  fcntl calls/s  limit calls/s  times the limit  calls/s of the command"
for owners in 0 100; do
    for nodes in 1 2 4 8; do
        each=$((calls / nodes))
        idle=$((2 * nodes + 2))
        script "$nodes" "$each" "$owners" >"$folder/run.lock"
        script "$nodes" 0 "$owners" >"$folder/begun.lock"
        all=$(grep -c '^call' "$folder/run.lock")
        best=0
        whole=0
        limit=0
        machine=0
        for _ in 1 2 3; do
            paced=$("$here/pace" "$folder/listing" "$idle" "$program" threads "$folder/run.lock") || exit 1
            tail -n 1 "$folder/listing" | grep -q '^audit yes$' || exit 1
            begun=$("$here/pace" "$folder/listing" "$idle" "$program" threads "$folder/begun.lock") || exit 1
            best=$(greater "$best" "$(each_second $((nodes * each)) "${paced% *}" "${begun% *}")")
            whole=$(greater "$whole" "$(each_second "$all" "${paced#* }" 0)")
            form=$("$folder/limit" "$nodes" 100000) || exit 1
            limit=$(greater "$limit" "$form")
            kernel=$("$folder/fcntl" "$folder/file" 2000000) || exit 1
            machine=$(greater "$machine" "${kernel%.*}")
        done
        echo "$nodes $owners $best $machine $limit $whole" | awk '{
            printf "%-6d %-7d %-8d %-14d %-14d %-16.2f %d\n", $1, $2, $3, $4, $5, $5 / $3, $6
        }'
    done
done
