#!/usr/bin/env bash
# Instructions per call (callgrind), for each kind and entry, each card and each engine that is linked: a table for each card,
# with the ratio of the proved engine to the byte engine, and one of what the large card costs over the small one.
# Needs valgrind and a release build. A call is the difference of two runs that differ in calls.
set -euo pipefail
cd "$(dirname "$0")"
bench=../target/cargo/release/bench

# collected CARD ENTRY ENGINE CALLS: the instructions of a whole run
collected() {
    valgrind --tool=callgrind --callgrind-out-file=/dev/null \
        "$bench" --on "$1" --count "$2" --of "$3" --calls "$4" 2>&1 >/dev/null | sed -n 's/.*Collected : //p'
}

# ratio OF TO: two digits behind the point
ratio() {
    printf '%d.%02d' $(($1 / $2)) $(($1 * 100 / $2 % 100))
}

engines=(bytes)
if "$bench" --count 1 --of engine --calls 1 >/dev/null 2>&1; then
    engines+=(engine)
fi
kinds=(1 2 3 4 5 6 7 8 11 check read_out)
declare -A call
for card in small large; do
    entries=("${kinds[@]}")
    if [ "$card" = small ]; then
        entries+=(convert enlarge)
    fi
    printf '%-16s' "$card card"
    printf '%10s' "${engines[@]}"
    if [ ${#engines[@]} -gt 1 ]; then
        printf '%10s' ratio
    fi
    echo
    for entry in "${entries[@]}"; do
        printf '%-16s' "$entry"
        for engine in "${engines[@]}"; do
            few=$(collected "$card" "$entry" "$engine" 100)
            many=$(collected "$card" "$entry" "$engine" 1100)
            call[$card,$entry,$engine]=$(((many - few) / 1000))
            printf '%10d' "${call[$card,$entry,$engine]}"
        done
        if [ ${#engines[@]} -gt 1 ]; then
            printf '%10s' "$(ratio "${call[$card,$entry,engine]}" "${call[$card,$entry,bytes]}")"
        fi
        echo
    done
done
printf '%-16s' 'large over small'
printf '%10s' "${engines[@]}"
echo
for entry in "${kinds[@]}"; do
    printf '%-16s' "$entry"
    for engine in "${engines[@]}"; do
        printf '%10s' "$(ratio "${call[large,$entry,$engine]}" "${call[small,$entry,$engine]}")"
    done
    echo
done
