# Cases of tests/program: readings that obey, readings that are repaired, and rules that no series obeys.
# shellcheck shell=sh

# ---- Status 0: readings that obey.

begin 'readings that obey'
run global rules.toml readings.csv cert
ends 0 '' readings.csv cert

begin 'a certificate file that stood there'
cp ../given/old cert
run global rules.toml readings.csv cert
ends 0 '' readings.csv cert

# Each line has readings that keep the given rules.
while read -r title rows; do
    begin "readings that obey: $title"
    # shellcheck disable=SC2086
    lines time,x $rows > readings.csv
    cp readings.csv ../given/obeying.csv
    run global rules.toml readings.csv cert
    ends 0 '' obeying.csv cert
done <<'END'
none
one 0,5
below_zero 0,1 1,0 2,-1 3,-2
as_great_as_they_come 0,1000000000000000 9000000000,-1000000000000000
early_times -9000000000,0 -8999999999,1
a_gap_longer_than_the_window 0,0 11,100
a_gap_of_the_window 0,0 10,10
missing_cells 0,0 1, 2,NaN 3,nan 4,NA 5,null 6,6
times_in_other_spellings 00.5,0 +1.50,1 25e-1,2
END

# Each line has the edit of the good readings that writes them otherwise; in the end the same is written.
while read -r edit; do
    begin "readings in another spelling: $edit"
    sed "$edit" ../given/readings.csv > readings.csv
    run global rules.toml readings.csv cert
    ends 0 '' same.csv cert
done <<'END'
s/$/\r/
s/$/\n/
1s/^/\xef\xbb\xbf/
2s/10/+10.0/
2s/10/1e1/
2s/10/ 10 /
2s/10/"10"/
2s/0,10/"0",10/
END

# Each line has the name of a case, what follows the rules of the format, and readings that keep these rules.
while IFS='|' read -r title rules readings; do
    begin "rules of each kind: $title"
    # shellcheck disable=SC2059
    printf "[format]\ndecimals = 0\n$rules\n" > rules.toml
    # shellcheck disable=SC2059
    printf "$readings\n" > readings.csv
    cp readings.csv ../given/obeying.csv
    run global rules.toml readings.csv cert
    ends 0 '' obeying.csv cert
done <<'END'
no rules||time,x\n0,5
swing|[[swing]]\nsensor = "x"\nmost = 5\nwindow = 10|time,x\n0,0\n5,5\n11,10
drift|[[drift]]\nsensor = "x"\nmin = -1\nmax = 1\nper = 10\nover = 10\nwindow = 20|time,x\n0,0\n5,5\n10,1
range|[[range]]\nsensor = "x"\nmax = 50\nfrom = "1"|time,x\n0,51\n1,50
trust|[[trust]]\nsensor = "x"|time,x\n0,7
weight|[[weight]]\nsensor = "x"\nweight = 1000|time,x\n0,7
between|[[between]]\nfirst = "x"\nsecond = "y"\nmin = 0\nmax = 5|time,y,x\n0,15,10\n1,,3
other columns|[[range]]\nsensor = "x"|time,note,x,\n0,"a, ""b""",1,\n1,,2,
separator|separator = ";"\n[[range]]\nsensor = "x"|time;x;note\n0;1;a,b
milliseconds|form = "ms"\n[[speed]]\nsensor = "x"\nmin = -1\nmax = 1\nwindow = 10|time,x\n0,0\n1000,1
time column|time = "when"\n[[range]]\nsensor = "x"|x,when\n1,0\n2,1
dates|form = "civil"\n[[speed]]\nsensor = "x"\nmin = -1\nmax = 1\nwindow = 10|time,x\n2026-02-28 23:59:59,0\n2026-03-01 00:00:00,1
END

begin 'more decimals than are kept are rounded off'
sed 's/decimals = 0/decimals = 1\nextra = "round"/' ../given/rules.toml > rules.toml
lines time,x 0,0.25 1,-0.349 > readings.csv
lines time,x 0,0.3 1,-0.3 > ../given/rounded.csv
run global rules.toml readings.csv cert
ends 0 '' rounded.csv cert

begin 'a rule with a price, which is not paid'
sed '$s/$/\nprice = 1/' ../given/rules.toml > rules.toml
run global rules.toml readings.csv cert
ends 0 '' readings.csv priced_cert

begin '5,000 rows within one window'
sed 's/window = 10/window = 100000/' ../given/rules.toml > rules.toml
awk 'BEGIN { print "time,x"; for (k = 0; k < 5000; k++) print k ",0" }' > readings.csv
cp readings.csv ../given/many.csv
run global rules.toml readings.csv cert
ends 0 '' many.csv cert

begin 'as many rows and readings as there may be'
{ cat ../given/rules.toml && sed '1,2d; s/"x"/"y"/' ../given/rules.toml; } > rules.toml
awk 'BEGIN { print "time,x,y"; for (k = 0; k < 200000; k++) print k "," (k % 2) ",-" (k % 2 + 1) }' > readings.csv
cp readings.csv ../given/many.csv
run global rules.toml readings.csv cert
ends 0 '' many.csv cert

begin 'as many readings as there may be, with no bounds but those of all values'
for sensor in x y; do printf '[[weight]]\nsensor = "%s"\nweight = 1000\n' "$sensor"; done > rules.toml
awk 'BEGIN { print "time,x,y"; for (k = 0; k < 200000; k++) print k "," k % 1000 "." k % 10 "00000,-" 1 + k % 7 ".000000" }' > readings.csv
sed -i '1i [format]\ndecimals = 6' rules.toml
cp readings.csv ../given/many.csv
run global rules.toml readings.csv cert
ends 0 '' many.csv cert

# Takes rules by which each two of 1,999 readings have two bounds, and each reading two; and the first readings, so many of
# them, two more. The readings stand still, or the outermost two lie as far apart as they may.
take_bounds() {
    lines '[format]' 'decimals = 0' '[[swing]]' 'sensor = "x"' "most = $(($2 * 1998))" 'window = 1000000' > rules.toml
    lines '[[range]]' 'sensor = "x"' 'max = 2000' "to = $(($1 - 1))" >> rules.toml
    awk -v rise="$2" 'BEGIN { print "time,x"; for (k = 0; k < 1999; k++) print k "," k * rise }' > readings.csv
}

for rise in 0 1; do
    begin "as many bounds as there may be: $rise"
    take_bounds 1000 "$rise"
    cp readings.csv ../given/many.csv
    run global rules.toml readings.csv cert
    ends 0 '' many.csv cert
done

begin 'readings refused: one bound too many on each side'
take_bounds 1001 0
run global rules.toml readings.csv cert
readings_refused 'TooManyBounds, row 0, column 0'
ends 4 "$note" nothing nothing

begin 'names with blanks, a hyphen, and letters beyond ASCII'
mv rules.toml ' rules of mine'
mv readings.csv -
cert=./$(printf '\303\266l')
run global ' rules of mine' - "${cert#./}"
ends 0 '' readings.csv cert

begin 'a hyphen as the certificate'
cert=./-
run global rules.toml readings.csv -
ends 0 '' readings.csv cert

begin 'a certificate that a device drops'
run global rules.toml readings.csv /dev/null
ends 0 '' readings.csv nothing

begin 'rules from a device'
keep
cat rules.toml | "$screen" global /dev/stdin readings.csv cert > ../out 2> ../err
status=$?
ends 0 '' readings.csv cert

begin 'readings from a device'
keep
cat readings.csv | "$screen" global rules.toml /dev/stdin cert > ../out 2> ../err
status=$?
ends 0 '' readings.csv cert

begin 'the certificate comes before the text'
run_on file pipe file global rules.toml readings.csv /dev/stdout
ends 0 '' cert_and_readings nothing

begin 'standard output goes on where it stands'
keep
{ cat ../given/cert; "$screen" global rules.toml readings.csv cert < ../in; } > ../out 2> ../err
status=$?
ends 0 '' cert_and_readings cert

for kind in file pipe; do
    begin "standard input is not read: $kind"
    keep
    rm -f ../rest
    "in_$kind" sh -c '"$1" global rules.toml readings.csv cert > ../out 2> ../err; echo $? > ../status; cat > ../rest' sh "$screen"
    status=$(cat ../status)
    same 'the rest of standard input' ../in ../rest
    ends 0 '' readings.csv cert
done

# ---- Status 0: readings that are repaired.

# Writes the rules, or lets the given ones stand, and the readings.
take() {
    # shellcheck disable=SC2059
    [ "$1" = - ] || printf "[format]\ndecimals = 0\n$1\n" > rules.toml
    # shellcheck disable=SC2059
    printf "$2\n" > readings.csv
}

# Each line has the name of a case, what follows the rules of the format (- for the given rules), readings that break
# these rules, the repaired ones, and the certificate: its version and its lines after the claim.
while IFS='|' read -r title rules readings repaired version rest; do
    begin "repaired: $title"
    take "$rules" "$readings"
    # shellcheck disable=SC2059
    printf "$repaired\n" > ../given/repaired.csv
    # shellcheck disable=SC2059
    printf "screen-cert $version\nclaim repair\n$rest\nend\n" > ../given/repaired_cert
    cp ../given/old cert
    run global rules.toml readings.csv cert
    ends 0 '' repaired.csv repaired_cert
    begin "accepted: $title"
    take "$rules" "$readings"
    cp ../given/repaired_cert it
    accept it
done <<'END'
a spike|-|time,x\n0,10\n1,11\n2,20\n3,13|time,x\n0,10\n1,11\n2,12\n3,13|1|total 8\nset 3 2 12\nflow 1 2 3 2 up 1
the greater of two that change as little|-|time,x\n0,0\n1,3|time,x\n0,2\n1,3|1|total 2\nset 1 2 2\nflow 1 1 2 2 up 1
a step down|-|time,x\n0,3\n1,0|time,x\n0,3\n1,2|1|total 2\nset 2 2 2\nflow 1 1 2 2 down 1
just within the window|-|time,x\n0,0\n10,11|time,x\n0,1\n10,11|1|total 1\nset 1 2 1\nflow 1 1 2 2 up 1
no neighbours|-|time,x\n0,0\n1,1\n2,2\n10,11|time,x\n0,0\n1,1\n2,2\n10,10|1|total 1\nset 4 2 10\nflow 1 3 4 2 up 1
a step that is rounded down|[[speed]]\nsensor = "x"\nmin = -1\nmax = 1\nper = 3\nwindow = 10|time,x\n0,0\n2,1|time,x\n0,1\n2,1|1|total 1\nset 1 2 1\nflow 1 1 2 2 up 1
a reading between missing ones|-|time,note,x\n0,"a,b",0\n1,, \n2,c,3|time,note,x\n0,"a,b",1\n1,, \n2,c,3|1|total 1\nset 1 3 1\nflow 1 1 3 3 up 1
swing|[[swing]]\nsensor = "x"\nmost = 5\nwindow = 10|time,x\n0,0\n5,4\n10,8|time,x\n0,3\n5,4\n10,8|1|total 3\nset 1 2 3\nflow 1 1 3 2 up 1
drift|[[drift]]\nsensor = "x"\nmin = -1\nmax = 1\nper = 10\nover = 10\nwindow = 20|time,x\n0,0\n5,5\n10,9|time,x\n0,8\n5,5\n10,9|1|total 8\nset 1 2 8\nflow 1 1 3 2 up 1
range|[[range]]\nsensor = "x"\nmax = 50|time,x\n0,70|time,x\n0,50|1|total 20\nset 1 2 50\nflow 1 1 1 2 up 1
between|[[between]]\nfirst = "in"\nsecond = "out"\nmin = 0\nmax = 5|time,in,out\n0,10,20|time,in,out\n0,15,20|1|total 5\nset 1 2 15\nflow 1 1 1 2 up 1
weight|[[speed]]\nsensor = "x"\nmin = -1\nmax = 1\nwindow = 10\n[[weight]]\nsensor = "x"\nweight = 5\nfrom = "0"\nto = "0"|time,x\n0,0\n1,3|time,x\n0,0\n1,1|1|total 2\nset 2 2 1\nflow 1 1 2 2 up 1
trust|[[speed]]\nsensor = "x"\nmin = -1\nmax = 1\nwindow = 10\n[[trust]]\nsensor = "x"\nfrom = "0"\nto = "0"|time,x\n0,0\n1,3|time,x\n0,0\n1,1|1|total 2\nset 2 2 1\nflow 1 1 2 2 up 1\nflow 2 1 1 2 up 1
two sensors|[[range]]\nsensor = "x"\nmax = 5\n[[range]]\nsensor = "y"\nmin = 0|time,y,x\n0,-1,6\n1,-2,5|time,y,x\n0,0,5\n1,0,5|1|total 4\nset 1 2 0\nset 1 3 5\nset 2 2 0\nflow 1 1 1 3 up 1\nflow 2 1 1 2 down 1\nflow 2 2 2 2 down 1
a price that is paid|[[speed]]\nsensor = "x"\nmin = -1\nmax = 1\nwindow = 10\nprice = 1\n[[weight]]\nsensor = "x"\nweight = 5|time,x\n0,0\n1,100|time,x\n0,0\n1,100|2|total 99\npaid 99\nflow 1 1 2 2 up 1
a price that is not paid|[[speed]]\nsensor = "x"\nmin = -1\nmax = 1\nwindow = 10\nprice = 1|time,x\n0,0\n1,3|time,x\n0,2\n1,3|2|total 2\npaid 0\nset 1 2 2\nflow 1 1 2 2 up 1
a price beside readings that are right|[[speed]]\nsensor = "x"\nmin = -1\nmax = 1\nwindow = 10\nprice = 2\n[[trust]]\nsensor = "x"|time,x\n0,0\n1,100|time,x\n0,0\n1,100|2|total 198\npaid 198\nflow 1 1 2 2 up 2\nflow 2 1 1 2 up 2\nflow 2 2 2 2 down 2
a range with a price|[[range]]\nsensor = "x"\nmax = 50\nprice = 1\n[[trust]]\nsensor = "x"|time,x\n0,70|time,x\n0,70|2|total 20\npaid 20\nflow 1 1 1 2 up 1\nflow 2 1 1 2 down 1
as great as they come|[[range]]\nsensor = "x"\nmax = -1000000000000000|time,x\n0,1000000000000000|time,x\n0,-1000000000000000|1|total 2000000000000000\nset 1 2 -1000000000000000\nflow 1 1 1 2 up 1
END

begin 'repaired: the last of 200,000 rows'
awk 'BEGIN { print "time,x"; for (k = 0; k < 199999; k++) print k ",0"; print "199999,2" }' > readings.csv
sed 's/^199998,0$/199998,1/' readings.csv > ../given/repaired.csv
lines 'screen-cert 1' 'claim repair' 'total 1' 'set 199999 2 1' 'flow 1 199999 200000 2 up 1' 'end' > ../given/repaired_cert
run global rules.toml readings.csv cert
ends 0 '' repaired.csv repaired_cert

# An hour of readings, one a second, with a spike in every fifth minute.
begin 'repaired: spikes in an hour'
sed 's/decimals = 0/decimals = 2\nform = "instant"/; s/min = -1/min = "-0.05"/; s/max = 1/max = "0.05"/; s/window = 10/window = 60/' ../given/rules.toml > rules.toml
awk 'BEGIN {
    print "time,x"
    for (k = 0; k < 3600; k++)
        printf "2024-05-01T00:%02d:%02dZ,%s.00\n", k / 60, k % 60, k % 300 == 149 ? "35" : "20"
}' > readings.csv
sed 's/,35.00/,20.05/' readings.csv > ../given/repaired.csv
awk 'BEGIN {
    print "screen-cert 1\nclaim repair\ntotal 17940"
    for (k = 150; k < 3600; k += 300) print "set " k " 2 2005"
    for (k = 150; k < 3600; k += 300) print "flow 1 " k " " k + 1 " 2 down 1"
    print "end"
}' > ../given/repaired_cert
cp rules.toml readings.csv ../given/hour
run global rules.toml readings.csv cert
ends 0 '' repaired.csv repaired_cert

begin 'accepted: spikes in an hour'
cp ../given/hour/* .
cp ../given/repaired_cert it
accept it

# ---- Status 1: rules that no series obeys.

# Each line has the name of a case, what follows the rules of the format, readings, and the steps of the certificate.
while IFS='|' read -r title rules readings steps; do
    begin "no series obeys: $title"
    take "$rules" "$readings"
    # shellcheck disable=SC2059
    printf "screen-cert 1\nclaim none\n$steps\nend\n" > ../given/cycle_cert
    cp ../given/old cert
    run global rules.toml readings.csv cert
    ends 1 "$no_series" nothing cycle_cert
    begin "accepted: $title"
    take "$rules" "$readings"
    cp ../given/cycle_cert it
    accept it
done <<'END'
a speed that readings which are right break|[[speed]]\nsensor = "x"\nmin = -1\nmax = 1\nwindow = 10\n[[trust]]\nsensor = "x"|time,x\n0,0\n1,100|step 2 1 1 2 up\nstep 1 1 2 2 up\nstep 2 2 2 2 down
a speed that no whole number has|[[speed]]\nsensor = "x"\nmin = 1\nmax = 1\nper = 3\nwindow = 10|time,x\n0,0\n1,0|step 1 1 2 2 up\nstep 1 1 2 2 down
a reading that is right and out of range|[[range]]\nsensor = "x"\nmax = 50\n[[trust]]\nsensor = "x"|time,x\n0,70|step 1 1 1 2 up\nstep 2 1 1 2 down
two ranges with nothing in both|[[range]]\nsensor = "x"\nmax = 50\n[[range]]\nsensor = "x"\nmin = 51|time,x\n0,70|step 1 1 1 2 up\nstep 2 1 1 2 down
each of three sensors above the next|[[between]]\nfirst = "x"\nsecond = "y"\nmin = 1\nmax = 2\n[[between]]\nfirst = "y"\nsecond = "z"\nmin = 1\nmax = 2\n[[between]]\nfirst = "z"\nsecond = "x"\nmin = 1\nmax = 2|time,x,y,z\n0,1,2,3|step 3 1 1 4 down\nstep 2 1 1 3 down\nstep 1 1 1 2 down
END

# Rules that no series obeys, and the certificate of it.
take_blocked() {
    take '[[speed]]\nsensor = "x"\nmin = 1\nmax = 1\nper = 3\nwindow = 10' 'time,x\n0,0\n1,0'
    lines 'screen-cert 1' 'claim none' 'step 1 1 2 2 up' 'step 1 1 2 2 down' 'end' > ../given/cycle_cert
}

begin 'no series obeys: standard output is not written'
take_blocked
run_on file full file global rules.toml readings.csv cert
ends 1 "$no_series" nothing cycle_cert

begin 'no series obeys: a certificate that can not be written'
take_blocked
run global rules.toml readings.csv /dev/full
ends 6 "$not_written" nothing nothing
