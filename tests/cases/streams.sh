# Cases of tests/program: samples, and repair as the readings come.
# shellcheck shell=sh

# ---- Samples: nothing is read, and their summary is written.

# Each line has a number of rows, a number that a sample is made from, how many readings are changed, and the total. Another
# program found these, which keeps the cost of a front of the readings as a convex function of its last value.
while read -r rows seed changed total; do
    begin "a sample: $rows $seed"
    lines "rows $rows" "changed $changed" "total $total" > ../given/summary
    run_on closed file file sample "$rows" "$seed"
    ends 0 '' summary nothing
done <<'END'
1 0 0 0
2 0 1 494
3 0 2 494
50 1 0 0
51 1 0 0
2000 4 62 17948
2000 7 91 24916
20000 7 700 199256
END

begin 'a sample twice: the same bytes'
run_on closed file file sample 20000 7
cp ../out ../given/again
run_on closed file file sample 20000 7
ends 0 '' again nothing

for words in '00003 0' '000000003 000000000'; do
    begin "a sample: zeros before its numbers: $words"
    lines 'rows 3' 'changed 2' 'total 494' > ../given/summary
    # shellcheck disable=SC2086
    run sample $words
    ends 0 '' summary nothing
done

begin 'a sample: standard output that is full'
run_on file full file sample 3 0
ends 6 "$not_written" nothing nothing

# ---- Repair as the readings come.

# Writes what follows the rules of the format (- for a speed rule with a window of 2 seconds), and the readings.
take_stream() {
    rules=$1
    [ "$rules" != - ] || rules='[[speed]]\nsensor = "x"\nmin = -1\nmax = 1\nwindow = 2'
    # shellcheck disable=SC2059
    printf "[format]\ndecimals = 0\n$rules\n" > rules.toml
    # shellcheck disable=SC2059
    printf "$2" > ../stream
    rm readings.csv
}

# Runs `online` on these readings, as a file and through a pipe.
run_stream() {
    keep
    "$screen" online rules.toml < ../stream > ../out 2> ../err
    status=$?
    first=$status
    cp ../out ../first
    cp ../err ../said
    cat ../stream | "$screen" online rules.toml > ../out 2> ../err
    status=$?
    same 'what comes through a pipe' ../first ../out
    same 'what is said of a pipe' ../said ../err
    [ "$status" = "$first" ] || fault "exit status through a pipe: wanted $first, came $status"
}

# Each line has the name of a case, what follows the rules of the format (- as above), readings, and what is written.
while IFS='|' read -r title rules readings written; do
    begin "online: $title"
    take_stream "$rules" "$readings"
    # shellcheck disable=SC2059
    printf "$written" > ../given/written
    run_stream
    ends 0 '' written nothing
done <<'END'
a wrong reading|-|time,x\n0,10\n1,11\n2,20\n3,13\n|time,x\n0,12\n1,13\n2,14\n3,13\n
no last line break|-|time,x\n0,10\n1,11\n2,20\n3,13|time,x\n0,12\n1,13\n2,14\n3,13\n
CR LF and empty lines|-|time,x\r\n\r\n0,10\r\n1,11\r\n\n2,20\r\n3,13\r\n|time,x\n0,12\n1,13\n2,14\n3,13\n
a price|[[speed]]\nsensor = "x"\nmin = -1\nmax = 1\nwindow = 2\nprice = 1|time,x\n0,10\n1,11\n2,20\n3,13\n|time,x\n0,12\n1,13\n2,14\n3,13\n
values that were read, and not those that were repaired|[[speed]]\nsensor = "x"\nmin = -1\nmax = 1\nwindow = 1|time,x\n0,10\n1,20\n2,13\n|time,x\n0,19\n1,18\n2,17\n
a header alone|-|time,x\n|time,x\n
a header without a line break|-|time,x|time,x\n
one row|-|time,x\n0,7\n|time,x\n0,7\n
no rules|separator = ";"|time;x\n0;7\n1;100\n|time;x\n0;7\n1;100\n
a gap longer than the window|-|time,x\n0,0\n3,100\n|time,x\n0,0\n3,100\n
missing cells, other columns and quotes|-|time,note,x\n0,"a,b",10\n1,,NaN\n2,"c""d",20\n3,,13\n|time,note,x\n0,"a,b",18\n1,,NaN\n2,"c""d",16\n3,,15\n
two sensors|[[speed]]\nsensor = "x"\nmin = -1\nmax = 1\nwindow = 2\n[[speed]]\nsensor = "y"\nmin = 0\nmax = 0\nwindow = 1|time,y,x\n0,5,10\n1,5,11\n2,9,20\n3,9,13\n|time,y,x\n0,5,12\n1,5,13\n2,5,14\n3,5,13\n
END

# Each line has the name of a case, what the note says of readings, rules and readings as above, and what is written.
while IFS='|' read -r title refused rules readings written; do
    begin "online refused: $title"
    take_stream "$rules" "$readings"
    # shellcheck disable=SC2059
    printf "$written" > ../given/written
    run_stream
    readings_refused "$refused"
    ends 4 "$note" written nothing
done <<'END'
nothing|NoHeader, row 0, column 0|-||
another sensor|NoSuchSensor, row 0, column 0|-|time,y\n0,1\n|
an end within quotes|OpenQuote, row 2, column 0|-|time,x\n0,10\n1,"11|time,x\n
an end within a row|Width, row 2, column 0|-|time,x\n0,10\n1|time,x\n
a time that does not rise, after what was ready|TimeNotRising, row 5, column 1|-|time,x\n0,10\n1,11\n2,20\n3,13\n3,14\n|time,x\n0,12\n
no number|NotNumber, row 1, column 2|-|time,x\n0,ten\n|time,x\n
more rows than may be held|WindowFull, row 3, column 0|hold = 2\n[[speed]]\nsensor = "x"\nmin = -1\nmax = 1\nwindow = 10|time,x\n0,1\n1,1\n2,1\n|time,x\n
no whole step|NoWholeStep, row 2, column 2|[[speed]]\nsensor = "x"\nmin = 1\nmax = 1\nper = 3\nwindow = 10|time,x\n0,0\n1,0\n|time,x\n
a value that is too great|LeavesRange, row 3, column 2|[[speed]]\nsensor = "x"\nmin = 1\nmax = 2\nwindow = 1|time,x\n0,1000000000000000\n1,1000000000000000\n2,1000000000000000\n|time,x\n0,999999999999999\n1,1000000000000000\n
END

begin 'online refused: a rule of another kind'
take_stream '[[speed]]\nsensor = "x"\nmin = -1\nmax = 1\nwindow = 2\n[[swing]]\nsensor = "x"\nmost = 1\nwindow = 2' 'time,x\n0,10\n'
run_stream
rules_refused 'NotOnline, rule 2'
ends 3 "$note" nothing nothing

begin 'online refused: two rules of a sensor'
take_stream '[[speed]]\nsensor = "x"\nmin = -1\nmax = 1\nwindow = 2\n[[speed]]\nsensor = "x"\nmin = -1\nmax = 1\nwindow = 9' 'time,x\n0,10\n'
run_stream
rules_refused 'NotOnline, rule 2'
ends 3 "$note" nothing nothing

begin 'online refused: no rule file'
take_stream - 'time,x\n0,10\n'
run online ../stream
rules_refused 'Syntax, rule 0'
ends 3 "$note" nothing nothing

begin 'online refused: 70,000 rows within one window'
take_stream '[[speed]]\nsensor = "x"\nmin = -1\nmax = 1\nwindow = 100000' ''
awk 'BEGIN { print "time,x"; for (k = 0; k < 70000; k++) print k ",0" }' > ../stream
lines time,x > ../given/written
run_stream
readings_refused 'WindowFull, row 4097, column 0'
ends 4 "$note" written nothing

begin 'online refused: a device that never ends'
keep
"$screen" online rules.toml < /dev/zero > ../out 2> ../err
status=$?
readings_refused 'RecordTooLong, row 0, column 0'
ends 4 "$note" nothing nothing

# More rows than a table may have.
begin 'online: 300,000 rows'
take_stream - ''
awk 'BEGIN { print "time,x"; for (k = 0; k < 300000; k++) print k "," (k % 1000 == 500 ? 20 : 0) }' > ../stream
awk 'BEGIN { print "time,x"; for (k = 0; k < 300000; k++) { d = k % 1000 - 500; print k "," (d == -2 || d == 0 ? 1 : (d == -1 ? 2 : 0)) } }' > ../given/written
run_stream
ends 0 '' written nothing

# Prints readings of so many sensors, as they are read or repaired. Each sensor has a rate, a window and a level of its own: every
# fourth moves as fast as it may, and the others have a spike each. Half of them go up, half of them down.
many_sensors() {
    awk -v sensors="$1" -v repaired="$2" '
        # How far, in steps of its rate, a sensor lies from its level so many rows before its spike.
        function rise(sensor, to_spike) {
            if (sensor % 4 == 0) return 40 - to_spike
            if (!repaired) return to_spike == 0 ? 20 : 0
            if (to_spike < 0 || to_spike > 2 + sensor % 3) return 0
            return to_spike == 1 ? 2 : 1
        }
        BEGIN {
            printf "time"
            for (k = 1; k <= sensors; k++) printf ",s%d", k
            for (row = 0; row < 50; row++) {
                printf "\n%d", row
                for (k = 1; k <= sensors; k++) printf ",%d", 1000 * k + (k % 8 < 4 ? k : -k) * rise(k, 20 + k % 17 - row)
            }
            print ""
        }'
}

# The rules stand in another order than the columns.
for sensors in 254 255; do
    begin "online: $sensors sensors"
    take_stream '' ''
    awk -v sensors="$sensors" 'BEGIN {
        print "[format]\ndecimals = 0"
        for (k = sensors; k >= 1; k--)
            print "[[speed]]\nsensor = \"s" k "\"\nmin = -" k "\nmax = " k "\nwindow = " 2 + k % 3
    }' > rules.toml
    many_sensors "$sensors" 0 > ../stream
    many_sensors "$sensors" 1 > ../given/written
    run_stream
    ends 0 '' written nothing
done

# Prints a row of so many bytes without its line break, most of them in a quoted field of a column that no rule names.
long_row() {
    awk -v bytes="$1" -v reading="$2" 'BEGIN {
        first = "3,\"a,\"\"\n"
        last = "\"," reading
        printf "%s", first
        for (k = length(first last); k < bytes; k++) printf "x"
        printf "%s", last
    }'
}

# Readings whose last row is so long, with what follows it.
take_long_row() {
    take_stream - 'time,note,x\n-5,,7\n0,,13\n1,,13\n2,,13\n'
    # shellcheck disable=SC2059
    { long_row "$1" 5; printf "$2"; } >> ../stream
}

# Each line has the bytes of a row, and its line break, if there is one. What is written may be longer.
while read -r bytes ending; do
    begin "online: a row of $bytes bytes before its line break $ending"
    take_long_row "$bytes" "$ending"
    { lines time,note,x -5,,7 0,,13 1,,12 2,,11; long_row $((bytes + 1)) 10; echo; } > ../given/written
    run_stream
    ends 0 '' written nothing
done <<'END'
65534 \n
65535 \n
65535
65536
END

while read -r bytes ending; do
    begin "online refused: a row of $bytes bytes before its line break $ending"
    take_long_row "$bytes" "$ending"
    lines time,note,x -5,,7 > ../given/written
    run_stream
    readings_refused 'RecordTooLong, row 5, column 0'
    ends 4 "$note" written nothing
done <<'END'
65536 \n
65537
200000 \n
END

# The rows come out while the input stays open: the first two are read before the next are sent.
begin 'online: what is ready comes at once'
take_stream - ''
rm -f ../to ../from
mkfifo ../to ../from
keep
{ "$screen" online rules.toml < ../to > ../from 2> ../err; echo $? > ../status; } &
timeout 60 sh -c '
    exec 7> ../to 8< ../from
    printf "time,x\n0,10\n1,11\n2,20\n3,13\n" >&7
    read -r header <&8 && read -r row <&8 && printf "%s\n" "$header" "$row" > ../out
    printf "4,14\n" >&7
    read -r row <&8 && printf "%s\n" "$row" >> ../out
    exec 7>&-
    cat <&8 >> ../out' || fault 'what is ready: it did not come'
wait
status=$(cat ../status)
lines time,x 0,12 1,13 2,14 3,13 4,14 > ../given/written
ends 0 '' written nothing

begin 'online: a read failed: a folder as standard input'
run_on folder file file online rules.toml
ends 5 "$not_read" nothing nothing

begin 'online: a read failed: no rules'
run online absent
ends 5 "$not_read" nothing nothing

begin 'online: a write failed: standard output that is full'
cp readings.csv ../in
run_on file full file online rules.toml
ends 6 "$not_written" nothing nothing

begin 'online: a write failed: a pipe that nobody reads'
rm -f ../pipe
mkfifo ../pipe
exec 5<> ../pipe 6> ../pipe 5<&-
keep
"$screen" online rules.toml < ../in >&6 6>&- 2> ../err
status=$?
exec 6>&-
ends 6 "$not_written" nothing nothing
lines 'not read' 'not read either' > ../in

# The reader takes the first two lines and goes. Then come more rows, or the end of the readings, which makes the held ones ready.
for more in '4,14\n' ''; do
    begin "online: a write failed: a reader that goes before '$more' comes"
    take_stream - ''
    rm -f ../to ../from
    mkfifo ../to ../from
    keep
    { "$screen" online rules.toml < ../to > ../from 2> ../err; echo $? > ../status; } &
    timeout 60 sh -c '
        exec 7> ../to 8< ../from
        printf "time,x\n0,10\n1,11\n2,20\n3,13\n" >&7
        read -r header <&8 && read -r row <&8 && printf "%s\n" "$header" "$row" > ../out
        exec 8<&-
        printf "$1" >&7' sh "$more" || fault 'the first rows: they did not come'
    wait
    status=$(cat ../status)
    lines time,x 0,12 > ../given/written
    ends 6 "$not_written" written nothing
done
