#!/bin/sh
# Times lockreplay on scripts of each kind that make some 10,000, 100,000 and 1,000,000 entries of the journal (it holds
# 1,048,576). Prints for each the processor seconds of its fastest run (of nine times ten that are counted together, five and
# five), entries per second and peak memory, and beside the last size the ratio of the time an entry takes there to what it
# takes in the first. Of queue and rivals, which are about many calls at a server, of regions, opens, wide and revokes, which are about a node that
# holds much, the sizes are 100,000 and 1,000,000 entries with little of it, and 1,000,000 with much: so their ratios tell what more
# entries cost, and what more entries and more of it do.
# usage: bench/run.sh [DIR [KIND]..]   (the scripts and listings stay in DIR; without one they go)
here=$(dirname -- "$(readlink -f -- "$0")") || exit 1
folder=$1
[ $# -gt 0 ] && shift
if [ -z "$folder" ]; then
    folder=$(mktemp -d) || exit 1
    trap 'rm -rf "$folder"' EXIT
fi
[ $# -gt 0 ] || set -- covered readers lossy fight storm crowd walk scattered regions churn failures turns queue rivals opens wide rebuilt revokes
mkdir -p "$folder" || exit 1
program=$("$here/../lockreplay" --program) || exit 1

# The position of the last reply of a listing.
entries_of() {
    awk '/^replies$/ { inside = 1; next } /^tokens$/ { exit } inside { last = $1 } END { print last + 0 }' "$1"
}

echo "kind        lines    entries  cpu s    entries/s  peak MB  ratio"
for kind in "$@"; do
    # How many lines make a hundred entries, and how many come before those; of each size the entries, the runs, and for some
    # kinds the calls at the server.
    start=0
    share=100
    sizes="10000:9x10 100000:5 1000000:5"
    case $kind in
        lossy) share=116 ;;
        fight) share=38 ;;
        storm) share=75 ;;
        walk) share=25 ;;
        scattered) share=60 ;;
        failures) share=88 ;;
        turns) share=3 start=190 ;;
        queue) sizes="100000:5:512 1000000:5:512 1000000:5:16384" ;;
        rivals) sizes="100000:5:16 1000000:5:16 1000000:5:1008" ;;
        regions) sizes="100000:5:64 1000000:5:64 1000000:5:16000" ;;
        opens) sizes="100000:5:2 1000000:5:2 1000000:5:255" ;;
        wide) sizes="100000:5:2 1000000:5:2 1000000:5:250" ;;
        rebuilt) sizes="10000:5:10 100000:5:300 1000000:5:3900" ;;
        revokes) sizes="100000:5:100 1000000:5:100 1000000:5:10000" ;;
    esac
    first=
    for size in $sizes; do
        entries=${size%%:*}
        runs=$(echo "$size" | cut -d : -f 2)
        calls=$(echo "$size" | cut -d : -f 3)
        lines=$((start + entries / 100 * share))
        if [ "$kind" = queue ]; then
            # For each process of a node 192 lines make 381 entries before the first turn, and one line 130 in each turn.
            each=$((calls / 64))
            turns=$(((entries - 381 * each) / (130 * each + 4)))
            lines=$((192 * each + 3 + turns * (each + 3)))
        elif [ "$kind" = rebuilt ]; then
            # A run of each node makes 256 entries of 128 lines, a rebuild 130 of three.
            lines=$((129 + 128 * calls + (entries - 256 * calls) / 130 * 3))
        elif [ "$kind" = revokes ]; then
            # A run of the token makes five entries of three lines, a turn 14 of six.
            lines=$((5 + 3 * calls + (entries - 5 * calls - 4) / 14 * 6))
        fi
        name=$kind${calls:+-$calls}
        script=$folder/$name-$lines.lock
        listing=$folder/$name-$lines.listing
        sh "$here/script.sh" "$kind" "$lines" "$calls" >"$script" || exit 1
        measured=$("$here/measure" "$runs" "$listing" "$program" run "$script") || exit 1
        row="$name $lines $(entries_of "$listing") $measured"
        [ -n "$first" ] || first=$row
        echo "$first $row" | awk '{
            ratio = $9 / $8 / ($4 / $3)
            printf "%-11s %-8d %-8d %-8.2f %-10.0f %-8d", $6, $7, $8, $9, $8 / $9, $10 / 1024
            print ($8 > 500000 ? sprintf(" %.2f", ratio) : "")
        }'
    done
done
