# Cases of tests/program: certificates that are accepted or refused, and reports.
# shellcheck shell=sh

# ---- Status 8: certificates that are refused.

# What the note says of a certificate that is refused for this.
cert_refused() {
    note="screen: certificate refused: $1
"
}

# Readings of which one is wrong, and their certificate.
take_spike() {
    lines time,x 0,10 1,11 2,20 3,13 > readings.csv
    lines 'screen-cert 1' 'claim repair' 'total 8' 'set 3 2 12' 'flow 1 2 3 2 up 1' end > it
}

# Each line has what the note says of a certificate, and the edit of the right one that makes it so.
while IFS='|' read -r refused edit; do
    begin "certificate refused: $refused: $edit"
    take_spike
    sed "$edit" it > other
    run check rules.toml readings.csv other
    cert_refused "$refused"
    ends 8 "$note" nothing nothing
done <<'END'
Syntax 1|d
Syntax 1|1s/1/3/
Syntax 1|1s/$/\r/
Syntax 2|2s/ /  /
Syntax 3|3s/8/08/
Syntax 3|3s/8/-0/
Syntax 3|3s/8/1000000000000000000000000000000/
Syntax 4|4s/12/+12/
Syntax 4|4s/12/1000000000000000000/
Syntax 4|1s/1/2/
Syntax 4|1s/1/2/;3s/$/\npaid 1000000000000000000000000000000/
Syntax 5|4s/$/\nset 2 2 10/
Syntax 6|5s/$/\nflow 1 2 3 2 up 1/
Syntax 5|5s/ 1$/ 1000000000000001/
Syntax 6|6d
Syntax 7|6s/$/\nend/
SetOutside 4|4s/12/20/
SetOutside 4|4s/set 3/set 5/
SetOutside 4|4s/2 12/1 12/
UnknownBound 5|5s/flow 1/flow 2/
UnknownBound 5|5s/2 3 2/3 2 2/
UnknownBound 5|5s/2 up/3 up/
Broken 1 2 3 2 up|4d
Broken 1 2 3 2 up|4s/12/13/
Broken 1 2 3 2 down|4s/12/9/
TotalWrong 7 8|3s/8/7/
TotalWrong 12345678901234567890123456789 8|3s/8/12345678901234567890123456789/
TotalWrong 999999999999999999999999999999 8|3s/8/999999999999999999999999999999/
PaidWrong 1 0|1s/1/2/;3s/$/\npaid 1/
PaidWrong 12345678901234567890123456789 0|1s/1/2/;3s/$/\npaid 12345678901234567890123456789/
PaidWrong 999999999999999999999999999999 0|1s/1/2/;3s/$/\npaid 999999999999999999999999999999/
PullTooGreat 2 2|5s/ 1$/ 2/
ValueDiffers 0 8|5d
ValueDiffers -10 8|5s/up/down/
END

# Each line has what the note says of a certificate, and the steps that it claims.
while IFS='|' read -r refused steps; do
    begin "certificate refused: $refused: $steps"
    # shellcheck disable=SC2059
    printf "screen-cert 1\nclaim none\n${steps}end\n" > it
    run check rules.toml readings.csv it
    cert_refused "$refused"
    ends 8 "$note" nothing nothing
done <<'END'
Syntax 3|
UnknownBound 4|step 1 1 2 2 up\nstep 1 1 1 2 up\n
CycleOpen 3|step 1 1 2 2 up\n
CycleOpen 3|step 1 1 2 2 up\nstep 1 1 2 2 up\n
CycleOpen 5|step 1 1 2 2 up\nstep 1 1 2 2 down\nstep 1 1 2 2 up\nstep 1 1 2 2 down\n
CycleSum 2|step 1 1 2 2 up\nstep 1 1 2 2 down\n
CycleSum 2|step 1 1 2 2 down\nstep 1 1 2 2 up\n
END

begin 'certificate refused: a step that has a price'
sed '$s/$/\nprice = 1/' ../given/rules.toml > rules.toml
lines 'screen-cert 1' 'claim none' 'step 1 1 2 2 up' end > it
run check rules.toml readings.csv it
cert_refused 'PricedStep 3'
ends 8 "$note" nothing nothing

begin 'certificate refused: an amount above the price'
sed '$s/$/\nprice = 2/' ../given/rules.toml > rules.toml
take_spike
sed '1s/1/2/;3s/$/\npaid 0/;5s/ 1$/ 3/' it > other
run check rules.toml readings.csv other
cert_refused 'OverPrice 6'
ends 8 "$note" nothing nothing

# The cycle of a conflict may begin with any of its bounds.
for first in 1 2 3; do
    begin "accepted: a cycle from its step $first on"
    take '[[speed]]\nsensor = "x"\nmin = -1\nmax = 1\nwindow = 10\n[[trust]]\nsensor = "x"' 'time,x\n0,0\n1,100'
    {
        lines 'screen-cert 1' 'claim none'
        lines 'step 2 1 1 2 up' 'step 1 1 2 2 up' 'step 2 2 2 2 down' | awk -v first="$first" '
            { step[NR - 1] = $0 }
            END { for (k = 0; k < NR; k++) print step[(k + first - 1) % NR] }'
        lines end
    } > it
    accept it
done

# Certificates that were made to harm: each is answered in time.
while IFS='|' read -r refused program; do
    begin "certificate refused: $refused: $program"
    awk "BEGIN { $program }" > it
    run check rules.toml readings.csv it
    cert_refused "$refused"
    ends 8 "$note" nothing nothing
    rm -f it
done <<'END'
Syntax 5|print "screen-cert 1\nclaim repair\ntotal 0"; print "set 200000 2 5"; for (k = 1; k <= 1000000; k++) print "set 1 2 5"
Syntax 4|print "screen-cert 1\nclaim repair\ntotal 0"; for (k = 1; k <= 1000000; k++) print "set " k " 1000 5"
SetOutside 4|print "screen-cert 1\nclaim repair\ntotal 0"; for (k = 1; k <= 200000; k++) print "set " k " 1 5"; print "end"
UnknownBound 4|print "screen-cert 1\nclaim repair\ntotal 0"; for (k = 1; k <= 200000; k++) print "flow 7 " k " " k " 2 up 1000000000000000"; print "end"
CycleOpen 5|print "screen-cert 1\nclaim none"; for (k = 1; k <= 1000000; k++) print "step 1 1 2 2 " (k % 2 ? "up" : "down"); print "end"
END

# Of one reading as great as they come in size 1,000 rules make bounds, and the range of all values does: what the note says
# where as much as may be flows on the sides of these.
while IFS='|' read -r refused sides; do
    begin "certificate refused: amounts as great as they come at one reading: $sides"
    awk 'BEGIN { print "[format]\ndecimals = 0"; for (k = 0; k < 1000; k++) print "[[range]]\nsensor = \"x\"" }' > rules.toml
    lines time,x 0,-1000000000000000 > readings.csv
    awk -v sides="$sides" 'BEGIN {
        number = split(sides, side)
        print "screen-cert 1\nclaim repair\ntotal 0"
        for (k = 0; k <= 1000; k++)
            for (j = 1; j <= number; j++) print "flow " k " 1 1 2 " side[j] " 1000000000000000"
        print "end"
    }' > it
    run check rules.toml readings.csv it
    cert_refused "$refused"
    ends 8 "$note" nothing nothing
done <<'END'
PullTooGreat 1 2|up
PullTooGreat 1 2|down
ValueDiffers -2002000000000000000000000000000000 0|up down
END

# 200,000 readings, each above the ranges of two rules.
take_outside() {
    {
        lines '[format]' 'decimals = 0'
        for rule in 1 2; do lines '[[range]]' 'sensor = "x"' 'max = 0'; done
        lines '[[weight]]' 'sensor = "x"' 'weight = 2'
    } > rules.toml
    awk 'BEGIN { print "time,x"; for (k = 0; k < 200000; k++) print k ",1" }' > readings.csv
}

begin 'repaired: each of 200,000 readings'
take_outside
sed '2,$s/,1$/,0/' readings.csv > ../given/repaired.csv
run global rules.toml readings.csv cert
[ "$(grep -c '^set ' cert)" = 200000 ] || fault 'certificate: wanted 200,000 set lines'
cp cert ../given/large_cert
ends 0 '' repaired.csv large_cert

begin 'accepted: 200,000 set lines and 400,000 flow lines'
take_outside
awk 'BEGIN {
    print "screen-cert 1\nclaim repair\ntotal 400000"
    for (k = 1; k <= 200000; k++) print "set " k " 2 0"
    for (rule = 1; rule <= 2; rule++) for (k = 1; k <= 200000; k++) print "flow " rule " " k " " k " 2 up 1"
    print "end"
}' > it
accept it

begin 'certificate refused: a cycle over 200,000 rows whose sum is not below 0'
awk 'BEGIN { print "time,x"; for (k = 0; k < 200000; k++) print k ",0" }' > readings.csv
awk 'BEGIN {
    print "screen-cert 1\nclaim none\nstep 0 1 1 2 up"
    for (k = 1; k < 200000; k++) print "step 1 " k " " k + 1 " 2 up"
    print "step 0 200000 200000 2 down\nend"
}' > it
run check rules.toml readings.csv it
cert_refused 'CycleSum 2000000000199999'
ends 8 "$note" nothing nothing

begin 'certificate refused: one line as long as may be'
head -c 268435456 /dev/zero > it
run check rules.toml readings.csv it
cert_refused 'Syntax 1'
ends 8 "$note" nothing nothing
rm -f it

begin 'certificate refused: a device that never ends'
run check rules.toml readings.csv /dev/zero
cert_refused FileTooLong
ends 8 "$note" nothing nothing

# ---- The other statuses of a check. The certificate is read last, and nothing else is written.

begin 'a check: rules that are refused'
run check readings.csv absent absent
rules_refused 'Syntax, rule 0'
ends 3 "$note" nothing nothing

begin 'a check: readings that are refused'
run check rules.toml rules.toml absent
readings_refused 'NoSuchSensor, row 0, column 0'
ends 4 "$note" nothing nothing

begin 'a check: too many bounds'
lines '[format]' 'decimals = 0' '[[swing]]' 'sensor = "x"' 'most = 0' 'window = 1000000' > rules.toml
awk 'BEGIN { print "time,x"; for (k = 0; k < 2001; k++) print k ",0" }' > readings.csv
run check rules.toml readings.csv absent
readings_refused 'TooManyBounds, row 0, column 0'
ends 4 "$note" nothing nothing

for missing in rules.toml readings.csv it; do
    begin "a check: a read failed: $missing"
    take_spike
    mv "$missing" elsewhere
    run check rules.toml readings.csv it
    ends 5 "$not_read" nothing nothing
done

begin 'a check: standard output that is full'
take_spike
run_on file full file check rules.toml readings.csv it
ends 6 "$not_written" nothing nothing

begin 'a check: a refusal does not write to standard output'
run_on file full file check rules.toml readings.csv readings.csv
cert_refused 'Syntax 1'
ends 8 "$note" nothing nothing

begin 'a check: memory runs out'
keep
(
    ulimit -v 131072
    exec "$screen" check rules.toml readings.csv /dev/zero < ../in > ../out 2> ../err
)
status=$?
ends 7 "$out_of_memory" nothing nothing

# ---- Reports. They are refused as a check is.

heading='column  readings   changed                    change'

begin 'a report: a repair'
take_spike
lines 'claim repair' 'total 8' "$heading" '     2         4         1                         8' 'change 3 2 20 12' 'flow 1 2 3 2 up 1' > ../given/report
run report rules.toml readings.csv it
ends 0 '' report nothing

begin 'a report: hundredths, a column without readings and missing cells'
sed 's/decimals = 0/decimals = 2/; s/max = 1/max = "0.5"/' ../given/rules.toml > rules.toml
sed '1,2d; s/"x"/"y"/' ../given/rules.toml >> rules.toml
lines time,y,note,x 0,,a,1 1,NA,b, 2,,c,3.5 > readings.csv
run global rules.toml readings.csv cert
lines 'claim repair' 'total 1.50' "$heading" '     2         0         0                      0.00' '     4         2         1                      1.50' 'change 1 4 1.00 2.50' 'flow 1 1 3 4 up 1' > ../given/report
cp cert it
rm cert
run report rules.toml readings.csv it
ends 0 '' report nothing

begin 'a report: a price that is paid'
take '[[speed]]\nsensor = "x"\nmin = -1\nmax = 1\nwindow = 10\nprice = 1\n[[weight]]\nsensor = "x"\nweight = 5' 'time,x\n0,0\n1,100'
lines 'screen-cert 2' 'claim repair' 'total 99' 'paid 99' 'flow 1 1 2 2 up 1' end > it
lines 'claim repair' 'total 99' 'paid 99' "$heading" '     2         2         0                         0' 'rule 1 99' 'flow 1 1 2 2 up 1' > ../given/report
run report rules.toml readings.csv it
ends 0 '' report nothing

begin 'a report: no series obeys'
take '[[speed]]\nsensor = "x"\nmin = -1\nmax = 1\nwindow = 10\n[[trust]]\nsensor = "x"' 'time,x\n0,0\n1,100'
lines 'screen-cert 1' 'claim none' 'step 2 1 1 2 up' 'step 1 1 2 2 up' 'step 2 2 2 2 down' end > it
lines 'claim none' 'step 2 1 1 2 up 0' 'step 1 1 2 2 up 1' 'step 2 2 2 2 down -100' 'sum -99' > ../given/report
run report rules.toml readings.csv it
ends 0 '' report nothing

# Rules that no series obeys, a certificate of it, and its report. The steps lead from what the first reading may be at most
# over 5,000 readings to a hundredth less than what the last one must be: the last step alone makes the sum negative.
take_long_cycle() {
    awk -v rows=5000 'BEGIN {
        report = "../given/report"; readings = "readings.csv"; rules = "rules.toml"
        print "screen-cert 1\nclaim none\nstep 2 1 1 2 up"
        print "claim none\nstep 2 1 1 2 up -7.00" > report
        print "time,x\n0,0.00" > readings
        sum = -700
        for (row = 1; row < rows; row++) {
            gap = 1 + row % 7
            time += gap
            sum += 3 * gap
            print time ",0.00" > readings
            step = "step 1 " row " " row + 1 " 2 up"
            print step
            printf "%s %.2f\n", step, 3 * gap / 100 > report
        }
        step = "step 3 " rows " " rows " 2 down"
        least = sprintf("%.2f", (sum + 1) / 100)
        print step "\nend"
        print step " -" least "\nsum -0.01" > report
        print "[format]\ndecimals = 2\n[[speed]]\nsensor = \"x\"\nmin = -1\nmax = \"0.03\"\nwindow = 10" > rules
        print "[[range]]\nsensor = \"x\"\nmax = -7\nto = 0" > rules
        print "[[range]]\nsensor = \"x\"\nmin = \"" least "\"\nfrom = " time > rules
    }' > it
}

begin 'a report: a cycle of 5,001 steps'
take_long_cycle
run report rules.toml readings.csv it
ends 0 '' report nothing

begin 'accepted: a cycle of 5,001 steps'
take_long_cycle
accept it

begin 'a report: a certificate that is refused'
take_spike
run report rules.toml readings.csv readings.csv
cert_refused 'Syntax 1'
ends 8 "$note" nothing nothing

begin 'a report: no certificate'
take_spike
run report rules.toml readings.csv absent
ends 5 "$not_read" nothing nothing

begin 'a report: standard output that is full'
take_spike
run_on file full file report rules.toml readings.csv it
ends 6 "$not_written" nothing nothing
