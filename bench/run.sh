#!/usr/bin/env bash
# Runs a proved function and its plain twin in turn on the same inputs, and prints the best time of each for
# one item and the ratio of the proved time to the plain one. `records` runs texts of three forms, each fed byte by
# byte and by slices. `table` reads and writes readings files of two and of eight columns, and prints for a row; after the
# ratio stands that to a second twin, which does the same in the layout that is fastest. It is only told: no limit is set
# on it. `bounds` makes the bounds of a speed rule and of a swing rule, and tests the readings by them, and prints for a
# bound. For the blocked chain it also prints the ratio of its proved time to that of the chain that settles. `cert` reads,
# writes and checks a certificate, and prints for a line.
#
# `solve` and `global` run on files of seven kinds, of 20,000 and of 200,000 readings. `solve` prints what solving takes, how
# often flow was pushed, and the nodes that the plain searches settled and the arcs that they looked at; then the memory of
# each side, which also holds the files, and how much longer the greater file takes. `global` runs the built program, and
# prints its best time and the greatest memory that it took, beside the least sum of the times of its parts, which are of one
# round, and that of the twin's parts. The ratio of the whole to the twin's parts is the median of the rounds. What is written
# goes to no disk.
#
# `online` sends 1,000,000 rows of one sensor, one a second, from a pipe through the built program and through its twin, by a
# rule with a window of 10, of 60, of 600 and of 4,000 seconds, with up to 4,096 rows held, and compares the bytes that they
# write. It prints the best time of each, the ratio, the rows a second of the built program, and the greatest memory that
# this one took for 100,000 and for 1,000,000 rows. Without a rule each row is written as the next one comes: that is what
# reading and writing take alone.
#
# usage: bench/run.sh units|text_of|ticks|records|table|bounds|settle|blocked|cert|solve|global|online [ROUNDS]
set -euo pipefail
cd "$(dirname "$0")/.."
what=${1:?usage: bench/run.sh units|text_of|ticks|records|table|bounds|settle|blocked|cert|solve|global|online [ROUNDS]}
rounds=${2:-5}

# through READINGS PROGRAM...: how many microseconds the readings take from a pipe through a program.
through() {
    local readings=$1 began=${EPOCHREALTIME/./}
    shift
    cat "$readings" | "$@" > /dev/null || return
    echo $((${EPOCHREALTIME/./} - began))
}

# stream SECONDS: both sides in turn on a stream by a rule with that window, or without a rule where it is 0.
stream() {
    local seconds=$1 folder=bench/out/stream-$1 rows took best_plain= best_proved= memory=()
    local readings=$folder/readings.csv twin_call=(bench/out/online 0 4096)
    local program_call=(build/screen online "$folder/rules.toml")
    [ "$seconds" = 0 ] || twin_call+=(level -2 2 1 "$seconds")
    mkdir -p "$folder"
    for rows in 100000 1000000; do
        bench/out/files "stream-$seconds" "$rows" "$folder"
        cat "$readings" | /usr/bin/time -f %M -o "$folder/memory" "${program_call[@]}" > "$folder/proved"
        memory+=("$(tail -n 1 "$folder/memory")")
    done
    cat "$readings" | "${twin_call[@]}" > "$folder/plain"
    cmp "$folder/plain" "$folder/proved"
    for _ in $(seq "$rounds"); do
        took=$(through "$readings" "${twin_call[@]}")
        [ -n "$best_plain" ] && [ "$best_plain" -le "$took" ] || best_plain=$took
        took=$(through "$readings" "${program_call[@]}")
        [ -n "$best_proved" ] && [ "$best_proved" -le "$took" ] || best_proved=$took
    done
    awk -v seconds="$seconds" -v plain="$best_plain" -v proved="$best_proved" -v rows="$rows" -v memory="${memory[*]}" \
        'BEGIN {
            printf "%s: ", seconds == 0 ? "reading and writing alone" : "window of " seconds " seconds"
            printf "plain %d ms, proved %d ms, ratio %.2f, ", plain / 1000, proved / 1000, proved / plain
            split(memory, kilobytes)
            printf "%d rows a second, %d kB at 100,000 rows, %d kB at 1,000,000\n", rows * 1000000 / proved, \
                kilobytes[1], kilobytes[2]
        }'
}

mkdir -p bench/out
case $what in
solve | global | online)
    rustc -O -o bench/out/files bench/files.rs ;;
esac
case $what in
global | online)
    make all > bench/out/build.log 2>&1 || { tail -n 20 bench/out/build.log; exit 1; } ;;
esac

if [ "$what" = online ]; then
    rustc -O -o bench/out/online bench/twins/online.rs
    for seconds in 0 10 60 600 4000; do
        stream "$seconds"
    done
    exit
fi

# The blocked chain is settled by the same twin as the other one, and the twin that solves has the other parts, too.
twin=$what
[ "$what" != blocked ] || twin=settle
[ "$what" != global ] || twin=solve

rustc -O -o "bench/out/$twin" "bench/twins/$twin.rs"
# A table has a second twin, in the layout that is fastest.
[ "$what" != table ] || rustc -O -o bench/out/free bench/twins/free.rs
proved=crates/measure/out/measure
rm -f "$proved"
(cd crates/measure && rt run) > bench/out/build.log 2>&1 || true
test -x "$proved" || { tail -n 20 bench/out/build.log; exit 1; }

# compare NAME: both sides in turn, and the best time of each.
compare() {
    local name=$1 plain_time plain_sum proved_time proved_sum free_time free_sum bytes size best_plain= best_proved= best_free=
    for _ in $(seq "$rounds"); do
        read -r plain_time plain_sum bytes < <("bench/out/$twin" "$name")
        read -r proved_time proved_sum size < <("$proved" "$name")
        [ "$plain_sum" = "$proved_sum" ] || { echo "the answers differ: $plain_sum and $proved_sum"; exit 1; }
        [ -n "$best_plain" ] && [ "$best_plain" -le "$plain_time" ] || best_plain=$plain_time
        [ -n "$best_proved" ] && [ "$best_proved" -le "$proved_time" ] || best_proved=$proved_time
        [ "$what" = table ] || continue
        read -r free_time free_sum _ < <(bench/out/free "$name")
        [ "$free_sum" = "$proved_sum" ] || { echo "the answers differ: $free_sum and $proved_sum"; exit 1; }
        [ -n "$best_free" ] && [ "$best_free" -le "$free_time" ] || best_free=$free_time
    done
    awk -v name="$name" -v plain="$best_plain" -v proved="$best_proved" -v free="$best_free" \
        'BEGIN {
            printf "%s: plain %.1f ns, proved %.1f ns, ratio %.2f", name, plain / 1000, proved / 1000, proved / plain
            if (free != "") printf ", to the best free layout: %.1f", proved / free
            print ""
        }'
    # The bytes of a file are told where the items are its rows, of which there are 200,000.
    [ -z "$bytes" ] || awk -v bytes="$bytes" -v proved="$best_proved" \
        'BEGIN { printf "%.1f bytes a row, proved %.0f MB/s\n", bytes / 200000, bytes / 200000 * 1000000 / proved }'
    # The proved side of `bounds` tells the bytes of a bound.
    [ "$what" != bounds ] || echo "$size bytes a bound"
    last=$best_proved
}

# least FILE: the least number of each column.
least() {
    awk '{ for (i = 1; i <= NF; i++) if (NR == 1 || $i < least[i]) least[i] = $i }
        END { for (i = 1; i <= NF; i++) printf "%s ", least[i]; print "" }' "$1"
}

# make_files KIND READINGS: makes the files, and forgets what was measured on others.
make_files() {
    local folder=bench/out/$1
    mkdir -p "$folder"
    bench/out/files "$1" "$2" "$folder"
    rm -f "$folder"/{plain,proved}{,-texts} "$folder/whole"
}

# parts KIND: both sides in turn, a line for each of them, and its memory.
parts() {
    local folder=bench/out/$1
    /usr/bin/time -f %M -o "$folder/plain-memory" "bench/out/$twin" "$folder" >> "$folder/plain"
    /usr/bin/time -f %M -o "$folder/proved-memory" "$proved" repair "$folder" >> "$folder/proved"
}

# same_answers KIND: compares what the repairs cost.
same_answers() {
    local folder=bench/out/$1
    [ "$(cut -d' ' -f6 "$folder/plain" | sort -u)" = "$(cut -d' ' -f6 "$folder/proved" | sort -u)" ] \
        || { echo "the answers differ"; tail -n 1 "$folder/plain" "$folder/proved"; exit 1; }
}

# solve KIND READINGS: what solving takes on both sides.
solve() {
    local folder=bench/out/$1 plain_time proved_time pushes settled looks
    make_files "$1" "$2"
    for _ in $(seq "$rounds"); do
        parts "$1"
    done
    same_answers "$1"
    read -r _ _ _ plain_time _ < <(least "$folder/plain")
    read -r _ _ _ proved_time _ _ pushes < <(least "$folder/proved")
    read -r settled looks < <("bench/out/$twin" "$folder" counts)
    awk -v name="$1" -v readings="$2" -v plain="$plain_time" -v proved="$proved_time" \
        -v plain_memory="$(tail -n 1 "$folder/plain-memory")" -v proved_memory="$(tail -n 1 "$folder/proved-memory")" \
        -v counts="$pushes pushes, $settled nodes settled, $looks arcs looked at" \
        'BEGIN {
            printf "%s: %d readings, plain %.1f ms, proved %.1f ms, ratio %.2f; %s", name, readings, plain / 1000000, \
                proved / 1000000, proved / plain, counts
            printf "; plain %d, proved %d bytes a reading\n", plain_memory * 1024 / readings, proved_memory * 1024 / readings
        }'
    last=$proved_time
}

# repair KIND READINGS: the whole program on files of that kind, and the parts on both sides.
repair() {
    local kind=$1 readings=$2 folder=bench/out/$1 status=0 again began memory plain_parts proved_parts ratio
    local program_call=(build/screen global "$folder/rules.toml" "$folder/readings.csv")
    make_files "$kind" "$readings"
    /usr/bin/time -f %M -o "$folder/memory" "${program_call[@]}" "$folder/cert" > "$folder/out" 2> "$folder/err" || status=$?
    # Where no series obeys, the status is 1.
    [ "$status" = 0 ] || [ "$kind $status" = "blocked 1" ] || { cat "$folder/err"; exit 1; }
    for _ in $(seq "$rounds"); do
        parts "$kind"
        # No disk is timed, nor `time` itself, which takes a few milliseconds.
        began=${EPOCHREALTIME/./}
        again=0
        "${program_call[@]}" /dev/null > /dev/null 2> "$folder/err" || again=$?
        echo $((${EPOCHREALTIME/./} - began)) >> "$folder/whole"
        [ "$again" = "$status" ] || { cat "$folder/err"; exit 1; }
        "bench/out/$twin" "$folder" texts >> "$folder/plain-texts"
        "$proved" texts "$folder" >> "$folder/proved-texts"
    done
    same_answers "$kind"
    memory=$(tail -n 1 "$folder/memory")
    plain_parts=$(best_parts "$folder/plain" "$folder/plain-texts")
    proved_parts=$(best_parts "$folder/proved" "$folder/proved-texts")
    # The machine is now faster, now slower: so each round is compared with itself.
    ratio=$(paste -d ' ' "$folder/whole" <(cut -d' ' -f1-5 "$folder/plain") <(cut -d' ' -f1 "$folder/plain-texts") \
        | awk '{ sum = 0; for (i = 2; i <= NF; i++) sum += $i; print $1 * 1000 / sum }' | sort -g \
        | awk '{ at[NR] = $1 } END { print at[int((NR + 1) / 2)] }')
    awk -v name="$kind" -v readings="$readings" -v took="$(sort -n "$folder/whole" | head -n 1)" -v memory="$memory" \
        -v plain="${plain_parts##* }" -v proved="${proved_parts##* }" -v ratio="$ratio" \
        'BEGIN {
            printf "%s: %d readings, %.0f ms, %d bytes a reading; ", name, readings, took / 1000, memory * 1024 / readings
            printf "parts: proved %.0f ms, plain %.0f ms, ratio of the whole to the plain parts %.2f\n", proved, plain, ratio
        }'
    echo "    read, bounds, network, solve, greatest, texts, sum in ms: proved ${proved_parts}; plain ${plain_parts}"
}

# best_parts PARTS TEXTS: the milliseconds of the parts of the round whose sum is least, and their sum.
best_parts() {
    paste -d ' ' <(cut -d' ' -f1-5 "$1") <(cut -d' ' -f1 "$2") \
        | awk '{
            sum = 0; line = ""
            for (i = 1; i <= NF; i++) { sum += $i / 1000000; line = line sprintf("%.1f ", $i / 1000000) }
            if (NR == 1 || sum < least) { least = sum; best = line }
        } END { printf "%s%.1f", best, least }'
}

case $what in
records)
    for name in records slices records-quoted slices-quoted records-crlf slices-crlf; do
        compare "$name"
    done ;;
table)
    for name in table-read-2 table-read-8 table-text-2 table-text-8; do
        compare "$name"
    done ;;
bounds)
    for name in bounds-speed bounds-swing broken-speed broken-swing; do
        compare "$name"
    done ;;
cert)
    for name in cert-read cert-write cert-check; do
        compare "$name"
    done ;;
solve)
    for kind in spikes noise5 noise20 two blocked step below; do
        solve "$kind" 20000
        short=$last
        solve "$kind" 200000
        awk -v name="$kind" -v short="$short" -v long="$last" \
            'BEGIN { printf "%s: from 20,000 to 200,000 readings: %.1f times as long\n", name, long / short }'
    done ;;
global)
    for kind in spikes noise5 noise20 two blocked step below; do
        repair "$kind" 20000
        repair "$kind" 200000
    done ;;
blocked)
    compare blocked
    best_open=
    for _ in $(seq "$rounds"); do
        read -r open_time _ < <("$proved" settle)
        [ -n "$best_open" ] && [ "$best_open" -le "$open_time" ] || best_open=$open_time
    done
    awk -v blocked="$last" -v settled="$best_open" \
        'BEGIN { printf "blocked to settle: ratio %.2f\n", blocked / settled }' ;;
*)
    compare "$what" ;;
esac
