#!/bin/sh
# Times journals: scripts of each kind that make some 10,000, 100,000 and 1,000,000 entries are run, run with their journal
# written, and that journal is audited. Prints for each the processor seconds and the peak memory of its fastest run (of five
# times ten that are counted together, three and three), and the size of the journal. `with` and `audit` are also given as
# multiples of the run alone.
# usage: bench/journals.sh [DIR [KIND]..]   (scripts and journals stay in DIR; without one they go)
here=$(dirname -- "$(readlink -f -- "$0")") || exit 1
folder=$1
[ $# -gt 0 ] && shift
if [ -z "$folder" ]; then
    folder=$(mktemp -d) || exit 1
    trap 'rm -rf "$folder"' EXIT
fi
[ $# -gt 0 ] || set -- covered lossy fight storm walk
mkdir -p "$folder" || exit 1
program=$("$here/../lockreplay" --program) || exit 1

echo "kind     entries  journal MB  run s   MB     with s  MB     times  audit s  MB     times"
for kind in "$@"; do
    # How many lines make a hundred entries.
    case $kind in
        lossy) share=116 ;;
        fight) share=38 ;;
        storm) share=75 ;;
        walk) share=25 ;;
        *) share=100 ;;
    esac
    for size in 10000:5x10 100000:3 1000000:3; do
        runs=${size#*:}
        lines=$((${size%:*} / 100 * share))
        script=$folder/$kind-$lines.lock
        journal=$folder/$kind-$lines.journal
        sh "$here/script.sh" "$kind" "$lines" >"$script" || exit 1
        alone=$("$here/measure" "$runs" /dev/null "$program" run "$script") || exit 1
        with=$("$here/measure" "$runs" /dev/null "$program" run "$script" --journal "$journal") || exit 1
        audit=$("$here/measure" "$runs" "$folder/audit" "$program" audit "$journal") || exit 1
        [ "$(cat "$folder/audit")" = "audit yes" ] || exit 1
        entries=$(tail -n 1 "$journal")
        echo "$kind ${entries#end } $(wc -c <"$journal") $alone $with $audit" | awk '{
            printf "%-8s %-8d %-11.1f %-7.2f %-6d %-7.2f %-6d %-6.1f %-8.2f %-6d %.1f\n", $1, $2, $3 / 1048576,
                $4, $5 / 1024, $6, $7 / 1024, $6 / $4, $8, $9 / 1024, $8 / $4
        }'
    done
done
