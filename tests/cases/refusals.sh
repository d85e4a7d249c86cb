# Cases of tests/program: other words, refused rules and readings, files that cannot be read or written, and want of memory.
# shellcheck shell=sh

# ---- Status 2: other words.

# Wants the usage text on these words.
wants_usage() {
    begin "usage: $1"
    shift
    cp ../given/old cert
    run "$@"
    ends 2 "$usage" nothing old
}

wants_usage 'no word'
wants_usage 'an empty word' ''
wants_usage 'the command alone' global
wants_usage 'a word too few' global rules.toml readings.csv
wants_usage 'a word too many' global rules.toml readings.csv cert cert
wants_usage 'another command' globe rules.toml readings.csv cert
wants_usage 'a capital letter' Global rules.toml readings.csv cert
wants_usage 'a longer command' global2 rules.toml readings.csv cert
wants_usage 'a blank before the command' ' global' rules.toml readings.csv cert
wants_usage 'words in another order' rules.toml readings.csv cert global
wants_usage 'a check with a word too few' check rules.toml readings.csv
wants_usage 'a check with a word too many' check rules.toml readings.csv cert cert
wants_usage 'a report with a word too few' report rules.toml readings.csv
wants_usage 'a stream without rules' online
wants_usage 'a stream with a word too many' online rules.toml readings.csv
wants_usage 'a stream of another name' Online rules.toml
wants_usage 'a sample with a word too few' sample 3
wants_usage 'a sample with a word too many' sample 3 0 0
for rows in 0 20001 -1 +3 3.0 '' x 0000000003 99999999999999999999; do
    wants_usage "a sample of rows: $rows" sample "$rows" 0
done
for seed in -1 1000000000 0000000000 '' x '1 '; do
    wants_usage "a sample from: $seed" sample 3 "$seed"
done
wants_usage 'help' --help
wants_usage 'version' --version
wants_usage 'a word that is not UTF-8' global rules.toml readings.csv "$(printf '\377')"
wants_usage 'a command that is not UTF-8' "$(printf 'global\377')" rules.toml readings.csv cert

# ---- Status 3: rules that are refused.

# Each line has what the note says of rules, and the edit of the good rules that makes them so.
while IFS='|' read -r refused edit; do
    begin "rules refused: $refused: $edit"
    sed "$edit" ../given/rules.toml > rules.toml
    cp ../given/old cert
    run global rules.toml readings.csv cert
    rules_refused "$refused"
    ends 3 "$note" nothing old
done <<'END'
Syntax, rule 0|s/]]/]/
Syntax, rule 0|s/max = 1/max = one/
UnknownKey, rule 0|s/speed/haste/
UnknownKey, rule 0|s/decimals = 0/decimals = 0\nunit = 1/
MissingKey, rule 0|d
MissingKey, rule 0|/decimals/d
WrongKind, rule 0|s/\[\[speed]]/[speed]/
WrongKind, rule 0|s/decimals = 0/decimals = "0"/
OutOfLimit, rule 0|s/decimals = 0/decimals = 7/
UnknownKey, rule 1|$s/$/\ncolour = 1/
MissingKey, rule 1|/window/d
WrongKind, rule 1|s/max = 1/max = 0.5/
BadNumber, rule 1|s/max = 1/max = "one"/
OutOfLimit, rule 1|s/per = 1/per = 0/
OutOfLimit, rule 1|s/window = 10/window = 0/
Order, rule 1|s/min = -1/min = 2/
ReachTooLarge, rule 1|s/decimals = 0/decimals = 6/;s/max = 1/max = 1000000000/;s/window = 10/window = 100000000/
SameSensor, rule 2|$s/$/\n[[between]]\nfirst = "x"\nsecond = "x"\nmin = 0\nmax = 1/
OutOfLimit, rule 1|$s/$/\nprice = 0/
OutOfLimit, rule 1|$s/$/\nprice = 1001/
WrongKind, rule 1|$s/$/\nprice = "2"/
UnknownKey, rule 2|$s/$/\n[[trust]]\nsensor = "x"\nprice = 2/
OutOfLimit, rule 2|$s/$/\n[[weight]]\nsensor = "x"\nweight = 1001/
Order, rule 2|$s/$/\n[[range]]\nsensor = "x"\nmin = 1\nmax = 0/
BadNumber, rule 2|$s/$/\n[[range]]\nsensor = "x"\nmin = "0.5"/
END

begin 'rules refused: more than 1,000'
awk 'BEGIN { print "[format]\ndecimals = 0"; for (k = 0; k <= 1000; k++) print "[[trust]]\nsensor = \"x\"" }' > rules.toml
run global rules.toml readings.csv cert
rules_refused 'TooMany, rule 0'
ends 3 "$note" nothing nothing

begin 'rules refused: a device that never ends'
run global /dev/zero readings.csv cert
rules_refused 'FileTooLong, rule 0'
ends 3 "$note" nothing nothing

begin 'rules refused: the two files swapped'
cp ../given/old cert
run global readings.csv rules.toml cert
rules_refused 'Syntax, rule 0'
ends 3 "$note" nothing old

begin 'rules refused: the readings are not asked for'
run global readings.csv absent cert
rules_refused 'Syntax, rule 0'
ends 3 "$note" nothing nothing

# ---- Status 4: readings that are refused.

# Each line has what the note says of readings, and the edit of the good readings that makes them so.
while IFS='|' read -r refused edit; do
    begin "readings refused: $refused: $edit"
    sed "$edit" ../given/readings.csv > readings.csv
    cp ../given/old cert
    run global rules.toml readings.csv cert
    readings_refused "$refused"
    ends 4 "$note" nothing old
done <<'END'
NoHeader, row 0, column 0|d
NoHeader, row 0, column 0|s/.*//
NoSuchSensor, row 0, column 0|1d
NoSuchSensor, row 0, column 0|s/x/y/
NoSuchSensor, row 0, column 0|s/x/X/
NoSuchSensor, row 0, column 0|s/time,x/x,time/
NameTwice, row 0, column 3|1s/$/, x /
Width, row 1, column 0|s/time,x/time,x,y/
Width, row 2, column 0|3s/1,11/1,11,12/
Width, row 2, column 0|3s/1,11/1;11/
NotTime, row 2, column 1|3s/1,11/noon,11/
NotTime, row 2, column 1|3s/1,11/,11/
TimeTooFine, row 2, column 1|3s/1,11/1.0000000001,11/
TimeOutOfRange, row 2, column 1|3s/1,11/9000000001,11/
TimeNotRising, row 2, column 1|3s/1,11/0,11/
TimeNotRising, row 3, column 1|4s/2,12/0.5,12/
NotNumber, row 2, column 2|3s/1,11/1,eleven/
NotNumber, row 2, column 2|3s/1,11/1,"1,1"/
TooFine, row 2, column 2|3s/1,11/1,11.5/
OutOfRange, row 2, column 2|3s/1,11/1,1000000000000001/
BadQuote, row 0, column 0|1s/x/"x"x/
BadQuote, row 2, column 0|3s/1,11/1,1"1/
BadQuote, row 3, column 0|4s/2,12/"2" ,12/
OpenQuote, row 3, column 0|4s/2,12/2,"12/
END

begin 'readings refused: no column has the name of the time column'
sed 's/decimals = 0/decimals = 0\ntime = "when"/' ../given/rules.toml > rules.toml
run global rules.toml readings.csv cert
readings_refused 'NoSuchSensor, row 0, column 0'
ends 4 "$note" nothing nothing

# Each line has what the note says of readings, and the awk program that prints them.
while IFS='|' read -r refused program; do
    begin "readings refused: $refused: $program"
    awk "BEGIN { $program }" > readings.csv
    cp ../given/old cert
    run global rules.toml readings.csv cert
    readings_refused "$refused"
    ends 4 "$note" nothing old
done <<'END'
TooManyColumns, row 0, column 0|printf "time,x"; for (k = 2; k < 257; k++) printf ","; print ""
RecordTooLong, row 0, column 0|printf "time,x"; for (k = 0; k < 70000; k++) printf "x"; print ""
RecordTooLong, row 1, column 0|print "time,x"; printf "0,1"; for (k = 3; k <= 65535; k++) printf "0"; print ""
TooManyRows, row 200001, column 0|print "time,x"; for (k = 0; k <= 200000; k++) print k ",0"
END

begin 'readings refused: more than 400,000'
for sensor in y z; do sed "1,2d; s/\"x\"/\"$sensor\"/" ../given/rules.toml; done >> rules.toml
awk 'BEGIN { print "time,x,y,z"; for (k = 0; k < 133334; k++) print k ",0,0,0" }' > readings.csv
run global rules.toml readings.csv cert
readings_refused 'TooManyReadings, row 133334, column 0'
ends 4 "$note" nothing nothing

# Each two of these readings stand within the window.
for rows in 2001 200000; do
    begin "readings refused: too many bounds over $rows rows"
    lines '[format]' 'decimals = 0' '[[swing]]' 'sensor = "x"' 'most = 0' 'window = 1000000' > rules.toml
    awk "BEGIN { print \"time,x\"; for (k = 0; k < $rows; k++) print k \",0\" }" > readings.csv
    cp ../given/old cert
    run global rules.toml readings.csv cert
    readings_refused 'TooManyBounds, row 0, column 0'
    ends 4 "$note" nothing old
done

begin 'readings refused: the rules again'
run global rules.toml rules.toml cert
readings_refused 'NoSuchSensor, row 0, column 0'
ends 4 "$note" nothing nothing

begin 'readings refused: a device that never ends'
cp ../given/old cert
run global rules.toml /dev/zero cert
readings_refused 'FileTooLong, row 0, column 0'
ends 4 "$note" nothing old

# ---- Status 5: files that cannot be read.

# Wants a failed read with these as the rules and the readings.
wants_read_fault() {
    begin "a read failed: $1"
    mkdir folder
    cp ../given/old cert
    run global "$2" "$3" cert
    ends 5 "$not_read" nothing old
}

wants_read_fault 'no rules' absent readings.csv
wants_read_fault 'no readings' rules.toml absent
wants_read_fault 'no rules and no readings' absent absent
wants_read_fault 'a folder as the rules' folder readings.csv
wants_read_fault 'a folder as the readings' rules.toml folder
wants_read_fault 'an empty name for the rules' '' readings.csv
wants_read_fault 'an empty name for the readings' rules.toml ''
wants_read_fault 'a hyphen as the rules' - readings.csv
wants_read_fault 'a hyphen as the readings' rules.toml -
wants_read_fault 'a file as a folder' rules.toml/rules.toml readings.csv

begin 'a read failed: standard input that is closed'
cp ../given/old cert
run_on closed file file global /dev/stdin readings.csv cert
ends 5 "$not_read" nothing old

# ---- Status 6: files and streams that cannot be written.

# Wants a failed write with this as the certificate.
wants_write_fault() {
    begin "a write failed: $1"
    mkdir folder
    run global rules.toml readings.csv "$2"
    ends 6 "$not_written" nothing nothing
}

wants_write_fault 'a full device as the certificate' /dev/full
wants_write_fault 'a folder as the certificate' folder
wants_write_fault 'an empty name for the certificate' ''
wants_write_fault 'no such folder' absent/cert

begin 'a write failed: standard output that is full, and an older certificate'
cp ../given/old cert
run_on file full file global rules.toml readings.csv cert
ends 6 "$not_written" nothing cert

# A pipe that nobody reads: its reader is gone before the program starts.
begin 'a write failed: a pipe that nobody reads'
rm -f ../pipe
mkfifo ../pipe
exec 5<> ../pipe 6> ../pipe 5<&-
keep
"$screen" global rules.toml readings.csv cert < ../in >&6 6>&- 2> ../err
status=$?
exec 6>&-
ends 6 "$not_written" nothing cert

# ---- Status 7: memory that runs out.

# With this much room for all, the readings below do not fit.
begin 'memory runs out'
cp ../given/old cert
keep
(
    ulimit -v 131072
    exec "$screen" global rules.toml /dev/zero cert < ../in > ../out 2> ../err
)
status=$?
ends 7 "$out_of_memory" nothing old
