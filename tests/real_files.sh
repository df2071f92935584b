#!/usr/bin/env bash
# Runs the built program on real files, pipes and devices, and compares its standard output, its standard error and its status
# with what docs/FORMATS.md says, byte for byte. It works in a temporary folder of its own.
#
# The program is crates/mov/out/mov, or the one that MOV names. One run may take 60 seconds, or as many as MOV_SECONDS says.
# It prints a line for each case that failed and for each that can't be had here, and ends with 0 exactly where none failed.
# It needs bash and the core tools, and awk for the larger files.
export LC_ALL=C
top="$(cd "$(dirname "${BASH_SOURCE[0]}")/.." && pwd)" || exit 1
mov="$(realpath -s -- "${MOV:-$top/crates/mov/out/mov}")"
if [ ! -x "$mov" ]; then
    echo "real_files: no program at $mov"
    exit 1
fi
room="$(mktemp -d)" || exit 1
trap 'rm -rf "$room"' EXIT
cp "$top"/examples/*.csv "$top"/examples/*.cert "$room" && cd "$room" || exit 1

passed=0
failed=0
skipped=0
limit=()
if [ -n "$(type -P timeout)" ]; then
    limit=(timeout -k 5 "${MOV_SECONDS:-60}")
fi

# --- how a case is run and judged

# The first bytes of a file, on one line.
head_of() {
    printf '%q' "$(head -c 160 "$1" | tr '\0' '?')"
}

# Whether two files have the same bytes.
same() {
    [ "$(sha256sum <"$1")" = "$(sha256sum <"$2")" ]
}

# expect NAME STATUS WORD..: runs the program on the words. The wanted texts stand in the files want.out and want.err.
# Where `by` is set, it names the function that redirects the run.
expect() {
    local name=$1 wanted=$2 status said=""
    shift 2
    "${by:-plainly}" "${limit[@]}" "$mov" "$@" >got.out 2>got.err </dev/null
    status=$?
    [ "$status" = "$wanted" ] || said="status $status, wanted $wanted"
    same got.out want.out || said="$said; standard output $(head_of got.out), wanted $(head_of want.out)"
    same got.err want.err || said="$said; standard error $(head_of got.err), wanted $(head_of want.err)"
    if [ -z "$said" ]; then
        passed=$((passed + 1))
    else
        failed=$((failed + 1))
        echo "FAILED: $name: ${said#; }"
    fi
}

# prints NAME WORD..: the program prints the text that stands in the input, and ends with 0.
prints() {
    local name=$1
    shift
    cat >want.out
    : >want.err
    expect "$name" 0 "$@"
}

# faults NAME STATUS LINE WORD..: the program says this line on standard error alone.
faults() {
    local name=$1 status=$2
    : >want.out
    printf '%s\n' "$3" >want.err
    shift 3
    expect "$name" "$status" "$@"
}

# refuses TEXT BALLOTS CERTIFICATE: `check` prints that it refuses the certificate: the number, the reason and the line.
refuses() {
    printf 'REFUSED %s\n' "$1" >want.out
    : >want.err
    expect "refused: $1" 2 check "$2" "$3"
}

# silent NAME STATUS WORD..: nothing is to be seen but the status.
silent() {
    local name=$1 status=$2
    : >want.out
    : >want.err
    shift 2
    expect "$name" "$status" "$@"
}

# skip NAME WHY: says that a case can't be had here.
skip() {
    skipped=$((skipped + 1))
    echo "skipped: $1: $2"
}

# Whether all of these tools are there.
has_tools() {
    local tool
    for tool in "$@"; do
        [ -n "$(type -P "$tool")" ] || return 1
    done
}

# with_line NUMBER TEXT FILE: prints the file with this line in place of the one with this number.
with_line() {
    local lines
    mapfile -t lines <"$3"
    lines[$1 - 1]=$2
    printf '%s\n' "${lines[@]}"
}

# repeat COUNT TEXT: prints the text so many times, each on a line of its own.
repeat() {
    local i
    for ((i = 0; i < $1; i++)); do
        printf '%s\n' "$2"
    done
}

# How a run is redirected.
plainly() { "$@"; }
to_full() { "$@" >/dev/full; }
to_closed() { "$@" >&-; }
to_gone() {
    "$@" | head -c 1 >/dev/null
    return "${PIPESTATUS[0]}"
}
errors_to_full() { "$@" 2>/dev/full; }
errors_to_closed() { "$@" 2>&-; }
from_five_two() { "$@" <five-two.csv; }

# --- files that are accepted

margins() {
    prints "five against two" margin plurality five-two.csv <five-two.cert
    printf 'ballots,A,B\n3,A\n3,B\n' >tie.csv
    prints "a tie already there" margin plurality tie.csv <<'END'
movcert 1
rule plurality
size 2 6
reported 0
margin 0
goal pair 1 0
cut
END
    printf 'ballots,A,B\n5,A\n4\n' >blank.csv
    prints "five against four blank" margin plurality blank.csv <<'END'
movcert 1
rule plurality
size 2 9
reported 0
margin 3
goal pair 1 0
put 1 1
put 2 1
put 3 1
split 1
cut 1
END
    printf 'ballots,A,B\n' >none.csv
    prints "no ballots" margin plurality none.csv <<'END'
movcert 1
rule plurality
size 2 0
reported 0
margin 0
goal pair 1 0
cut
END
    printf 'ballots,A\n7,A\n' >alone.csv
    prints "one candidate" margin plurality alone.csv <<'END'
movcert 1
rule plurality
size 1 7
reported 0
fixed
split 0
END
}

# valid NAME CERTIFICATE VERDICT BALLOTS RULE WORD..: `margin` prints the certificate, and `check` says these words of it.
valid() {
    local name=$1 cert=$2 verdict=$3 ballots=$4 rule=$5
    shift 5
    prints "$name" margin "$rule" "$ballots" "$@" <"$cert"
    printf 'VALID\n%b\n' "$verdict" >valid.text
    prints "$name, checked" check "$ballots" "$cert" <valid.text
}

# checked NAME BALLOTS RULE WORD..: `check` says that what `margin` printed is valid, with its claim.
checked() {
    local name=$1 ballots=$2
    shift 2
    "${limit[@]}" "$mov" margin "$1" "$ballots" "${@:2}" >made.cert 2>/dev/null
    { echo VALID; sed -n '2p;5p' made.cert; } >made.text
    prints "$name: what margin prints is valid" check "$ballots" made.cert <made.text
}

margins_of_pairs() {
    printf 'ballots,A,B,C\n3,A,B,C\n2,B,C,A\n' >borda.csv
    printf '%s\n' "movcert 1" "rule borda" "size 3 5" "reported 1" "margin 1" "goal pair 0 1" "put 4 0" "split 2" "cut 1" \
        "cut 1" >borda.cert
    valid "borda of five" borda.cert 'rule borda\nmargin 1' borda.csv borda
    printf 'ballots,A,B\n6,A\n3,B\n' >nine.csv
    printf '%s\n' "movcert 1" "rule dhondt 3" "size 2 9" "reported 2 1" "margin 1" "goal pair 0 1" "put 7 0" "split 2" "cut 1" \
        "cut 1" >nine.cert
    valid "seats of nine" nine.cert 'rule dhondt 3\nmargin 1' nine.csv dhondt --seats 3
    printf '%s\n' "movcert 1" "rule dhondt 3" "size 2 0" "reported 3 0" "margin 0" "goal pair 1 0" "cut" >none.cert
    valid "no ballots, seats" none.cert 'rule dhondt 3\nmargin 0' none.csv dhondt --seats 3
    printf 'ballots,North,South,East,West\n340000,North\n280000,South\n160000,East\n60000,West\n' >whole.csv
    {
        printf '%s\n' "movcert 1" "rule dhondt 7" "size 4 840000" "reported 3 3 1 0" "margin 14286" "goal pair 0 1"
        seq -f 'put %.0f 0' 340001 354286
        echo "split 9"
        repeat 9 "cut 1"
    } >whole.cert
    valid "seats of a whole election" whole.cert 'rule dhondt 7\nmargin 14286' whole.csv dhondt --seats 7
}

margins_by_search() {
    valid "a cycle of three" cycle.cert 'rule condorcet\nmargin 1' cycle.csv condorcet
    valid "instant runoff of twelve" runoff.cert 'rule irv\nmargin 1' runoff.csv irv
    valid "with just as many nodes" runoff.cert 'rule irv\nmargin 1' runoff.csv irv --budget 9
    printf '%s\n' "movcert 1" "rule irv" "size 3 12" "reported 0" "bounds 0 2 budget 1" "goal order 0 2 1" "put 1 1" "put 2 1" \
        "cut" >stopped.cert
    cp stopped.cert want.out
    : >want.err
    expect "a budget of one" 1 margin irv runoff.csv --budget 1
    printf 'VALID\nrule irv\nbounds 0 2 budget 1\n' >valid.text
    prints "a budget of one, checked" check runoff.csv stopped.cert <valid.text
    valid "options before the file" runoff.cert 'rule irv\nmargin 1' runoff.csv irv --budget=9
    printf 'ballots,A\n7,A\n' >alone.csv
    printf '%s\n' "movcert 1" "rule irv" "size 1 7" "reported 0" "fixed" "split 0" >alone.cert
    valid "one candidate alone" alone.cert 'rule irv\nfixed' alone.csv irv
}

drills() {
    prints "a drill" drill 7 <<'END'
drill 7
size 5 10000
plurality margin 347 nodes 5
borda margin 336 nodes 5
condorcet margin 578 nodes 5
dhondt 7 margin 88 nodes 17
irv margin 578 nodes 52
END
}

tallies_by_scores() {
    prints "tally plurality" tally plurality five-two.csv <<'END'
rule plurality
size 2 7
name 0 A
name 1 B
score 0 5
score 1 2
reported 0
END
    printf 'ballots,A,B,C\n3,A,B,C\n2,B,C,A\n' >borda.csv
    prints "tally borda" tally borda borda.csv <<'END'
rule borda
size 3 5
name 0 A
name 1 B
name 2 C
score 0 6
score 1 7
score 2 2
reported 1
END
}

other_tallies() {
    prints "tally condorcet" tally condorcet cycle.csv <<'END'
rule condorcet
size 3 3
name 0 A
name 1 B
name 2 C
pair 0 1 2 1
pair 0 2 1 2
pair 1 2 2 1
reported none
END
    printf 'ballots,A,B\n6,A\n3,B\n' >seats.csv
    prints "tally dhondt" tally dhondt seats.csv --seats 3 <<'END'
rule dhondt 3
size 2 9
name 0 A
name 1 B
votes 0 6 seats 2
votes 1 3 seats 1
reported 2 1
END
    cat >runoff.tally <<'END'
rule irv
size 3 12
name 0 A
name 1 B
name 2 C
round 1 out 2 held 5 4 3
round 2 out 1 held 8 4 -
reported 0
END
    prints "tally irv" tally irv runoff.csv <runoff.tally
}

forms_of_ballot_files() {
    prints "a plain file is shown as it stands" show district.csv <district.csv
    printf '\xef\xbb\xbfballots,A,B,C,\r\n5,A,,A\r\n4,B,C\r\n3,C,A\r\n,,,\r\n' >marks.csv
    prints "marks, carriage returns, empty cells" show marks.csv <runoff.csv
    prints "marks, carriage returns, empty cells: tally" tally irv marks.csv <runoff.tally
    printf 'ballots,A\r1,A\r\r2,A\n3' >returns.csv
    prints "lines ended by CR alone" show returns.csv <<'END'
ballots,A
3,A
3
END
    printf 'ballots,"A, B","C ""x""",D"y\n2,"A, B",D"y\n"1","C ""x"""\n0,D"y\n' >quotes.csv
    prints "quoted names" show quotes.csv <<'END'
ballots,"A, B","C ""x""","D""y"
2,"A, B","D""y"
1,"C ""x"""
END
    cp five-two.csv $'W\xc3\xa4hler 1.csv'
    prints "a file name with a space and a letter of two bytes" show $'W\xc3\xa4hler 1.csv' <five-two.csv
}

valid() {
    prints "a valid certificate" check five-two.csv five-two.cert <<'END'
VALID
rule plurality
margin 2
END
    for cert in cycle cycle-branch; do
        prints "a valid certificate of a cycle: $cert" check cycle.csv "$cert.cert" <<'END'
VALID
rule condorcet
margin 1
END
    done
    prints "a valid certificate of a runoff" check runoff.csv runoff.cert <<'END'
VALID
rule irv
margin 1
END
    with_line 5 "bounds 1 2 budget 1" five-two.cert >bounds.cert
    prints "valid bounds" check five-two.csv bounds.cert <<'END'
VALID
rule plurality
bounds 1 2 budget 1
END
}

# --- statuses 2 to 5

refusals() {
    with_line 3 "size 2 8" five-two.cert >refused.cert
    refuses "1 HeadDiffers line 3" five-two.csv refused.cert
    with_line 4 "reported 1" five-two.cert >refused.cert
    refuses "2 ReportedDiffers line 4" five-two.csv refused.cert
    with_line 8 "put 8 1" five-two.cert >refused.cert
    refuses "3 BadAlteration line 8" five-two.csv refused.cert
    with_line 7 "put 1 0" five-two.cert >refused.cert
    refuses "4 ClaimFails line 6" five-two.csv refused.cert
    with_line 6 "goal cover 1" five-two.cert >refused.cert
    refuses "4 ClaimFails line 6" five-two.csv refused.cert
    { with_line 9 "split 2" five-two.cert; echo "cut 1"; } >refused.cert
    refuses "5 ShapeDiffers line 9" five-two.csv refused.cert
    with_line 10 "cut 0" five-two.cert >refused.cert
    refuses "6 CutFails line 10" five-two.csv refused.cert
    with_line 5 "bounds 2 2 depth" five-two.cert >refused.cert
    refuses "7 NumbersDisagree line 5" five-two.csv refused.cert
    with_line 15 "cut 0 0 0" runoff.cert >refused.cert
    refuses "6 CutFails line 15" runoff.csv refused.cert
}

# word_fault TEXT WORD..: what is said of these words.
word_fault() {
    local text=$1
    shift
    faults "words: $*" 3 "mov: words: $text" "$@"
}

word_faults() {
    word_fault "no command"
    word_fault "unknown command" count five-two.csv
    word_fault "wrong arguments" margin irv
    word_fault "wrong arguments" show five-two.csv five-two.csv
    word_fault "wrong arguments" check five-two.csv
    word_fault "wrong arguments" tally dhondt five-two.csv --seats
    word_fault "wrong arguments" tally dhondt five-two.csv --seat 3
    word_fault "wrong arguments" margin dhondt five-two.csv --seats
    word_fault "wrong arguments" show $'\xff.csv'
    word_fault "unknown rule" margin stv five-two.csv
    word_fault "unknown rule" tally stv five-two.csv --seats 0
    word_fault "unknown rule" margin stv five-two.csv --seats x --budget 0
    word_fault "bad seats" tally dhondt five-two.csv --seats 0
    word_fault "bad seats" tally irv five-two.csv --seats 501
    word_fault "bad seats" tally dhondt five-two.csv --seats 03
    word_fault "bad seats" margin dhondt five-two.csv --seats 501
    word_fault "seats missing" tally dhondt five-two.csv
    word_fault "seats missing" margin dhondt five-two.csv
    word_fault "seats unwanted" tally irv five-two.csv --seats 3
    word_fault "seats unwanted" margin plurality five-two.csv --seats 3
    word_fault "seats unwanted" margin irv five-two.csv --seats 3 --budget 0
    word_fault "wrong arguments" margin irv five-two.csv --budget 2 --budget 3
    word_fault "wrong arguments" drill 7 7
    word_fault "bad seed" drill 18446744073709551616
    word_fault "bad budget" margin irv five-two.csv --budget 40001
    word_fault "bad budget" margin dhondt five-two.csv --seats 3 --budget 0
    word_fault "bad budget" margin plurality five-two.csv --budget 01
}

# ballot_fault RECORD TEXT FILE: what is said of a ballot file of these bytes, written as printf wants them.
ballot_fault() {
    printf "$3" >fault.csv
    faults "ballots: $3" 4 "mov: ballots: record $1: $2" show fault.csv
}

ballot_faults() {
    ballot_fault 1 "empty" ''
    ballot_fault 1 "empty" '\r\n\n\r'
    ballot_fault 1 "bad head" 'votes,A\n'
    ballot_fault 1 "bad head" ',,\nballots,A\n'
    ballot_fault 1 "no candidates" 'ballots\n'
    ballot_fault 1 "too many candidates" 'ballots,A,B,C,D,E,F,G,H,I,J,K,L,M\n'
    ballot_fault 1 "too many candidates" 'ballots,A,A,A,,E,F,G,H,I,J,K,L,M\n'
    ballot_fault 1 "bad name" 'ballots,A,,B\n'
    ballot_fault 1 "bad name" 'ballots,A,\xff\n'
    ballot_fault 1 "name twice" 'ballots,A,A\n'
    ballot_fault 2 "bad count" 'ballots,A\n007,A\n'
    ballot_fault 4 "bad count" 'ballots,A\n1,A\n\n,\r\n,A\n'
    ballot_fault 3 "unknown name" 'ballots,A\n1,A\n1,Z\n'
    ballot_fault 2 "unknown name" 'ballots,A\n2000000,Z\n'
    ballot_fault 2 "too many ballots" 'ballots,A\n1000001,A\n'
    ballot_fault 3 "too many ballots" 'ballots,A\n1000000,A\n1\n'
    faults "a faulty ballot file goes before an absent certificate" 4 "mov: ballots: record 3: too many ballots" \
        check fault.csv absent.cert
}

# cert_fault LINE TEXT: what is said of the certificate in the file fault.cert.
cert_fault() {
    faults "certificate: $2 in line $1" 5 "mov: certificate: line $1: $2" check five-two.csv fault.cert
}

cert_faults() {
    with_line 2 "rule  plurality" five-two.cert >fault.cert
    cert_fault 2 "bad line"
    with_line 5 "margin 02" five-two.cert >fault.cert
    cert_fault 5 "bad number"
    with_line 7 "put 01 x" five-two.cert >fault.cert
    cert_fault 7 "bad line"
    { cat five-two.cert; echo "cut 1"; } >fault.cert
    cert_fault 11 "tail"
    head -n 9 five-two.cert >fault.cert
    cert_fault 10 "tree ends"
    head -n 7 five-two.cert >fault.cert
    cert_fault 8 "bad line"
    printf 'movcert 1' >fault.cert
    cert_fault 1 "bad line"
    : >fault.cert
    cert_fault 1 "bad line"
    head -n 15 runoff.cert >fault.cert
    faults "the last line missing" 5 "mov: certificate: line 16: tree ends" check runoff.csv fault.cert
}

# --- reads and writes that fail

reads_that_fail() {
    faults "an absent file" 6 "mov: read failed: absent.csv" show absent.csv
    faults "an absent file with a space in its name" 6 $'mov: read failed: W\xc3\xa4hler 2.csv' show $'W\xc3\xa4hler 2.csv'
    faults "an absent certificate" 6 "mov: read failed: absent.cert" check five-two.csv absent.cert
    faults "of two absent files the ballots" 6 "mov: read failed: absent.csv" check absent.csv absent.cert
    mkdir folder
    faults "a folder" 6 "mov: read failed: folder" margin plurality folder
    faults "a folder as the certificate" 6 "mov: read failed: folder" check five-two.csv folder
    if [ -e /proc/self/mem ]; then
        faults "a file whose read fails" 6 "mov: read failed: /proc/self/mem" show /proc/self/mem
        faults "a certificate whose read fails" 6 "mov: read failed: /proc/self/mem" check five-two.csv /proc/self/mem
    else
        skip "a file whose read fails" "no /proc/self/mem"
    fi
}

writes_that_fail() {
    if [ -c /dev/full ]; then
        by=to_full faults "a full device" 7 "mov: write failed" margin plurality five-two.csv
        by=to_full faults "a full device under check" 7 "mov: write failed" check five-two.csv five-two.cert
        by=errors_to_full silent "a fault line to a full device" 6 show absent.csv
    else
        skip "a full device" "no /dev/full"
    fi
    by=to_closed faults "a closed standard output" 7 "mov: write failed" show five-two.csv
    by=errors_to_closed silent "a closed standard error" 6 show absent.csv
    printf 'votes\n' >fault.csv
    by=errors_to_closed silent "a closed standard error at a faulty file" 4 show fault.csv
    by=errors_to_closed prints "a closed standard error that isn't needed" show five-two.csv <five-two.csv
}

# --- pipes

pipes() {
    prints "a pipe" show <(cat five-two.csv) <five-two.csv
    prints "a pipe in pieces" show <(printf 'ballots,A,B\n5,'; sleep 0.2; printf 'A\n2,B\n') <five-two.csv
    printf 'VALID\nrule plurality\nmargin 2\n' >valid.text
    prints "two pipes" check <(cat five-two.csv) <(cat five-two.cert) <valid.text
    if [ -e /dev/stdin ]; then
        by=from_five_two prints "the standard input" show /dev/stdin <five-two.csv
    else
        skip "the standard input" "no /dev/stdin"
    fi
    if has_tools mkfifo && mkfifo pipe.csv; then
        cat five-two.csv >pipe.csv &
        local feeder=$!
        prints "a named pipe" show pipe.csv <five-two.csv
        kill "$feeder" 2>/dev/null
        wait "$feeder"
    else
        skip "a named pipe" "none can be made"
    fi
}

# --- limits

long_ballot_files() {
    { printf 'ballots,A\n1,A\n'; head -c $((67108864 - 14)) /dev/zero | tr '\0' '\n'; } >long.csv
    prints "a ballot file of 67108864 bytes" show long.csv <<'END'
ballots,A
1,A
END
    printf '\n' >>long.csv
    faults "one byte more" 4 "mov: ballots: longer than 67108864 bytes" show long.csv
    faults "a long ballot file in a pipe" 4 "mov: ballots: longer than 67108864 bytes" show <(cat long.csv 2>/dev/null)
    rm long.csv
    if has_tools truncate && truncate -s 67108865 long.csv; then
        faults "67108865 bytes of zero" 4 "mov: ballots: longer than 67108864 bytes" show long.csv
    else
        skip "67108865 bytes of zero" "no sparse file can be made"
    fi
    rm -f long.csv
}

# Prints how many kilobytes of memory are known to be free: those of the system, or the most of the control group where that is less.
free_memory() {
    local key value _ have=0 most=max
    if [ -r /proc/meminfo ]; then
        while read -r key value _; do
            [ "$key" != MemAvailable: ] || have=$value
        done </proc/meminfo
    fi
    if [ -r /sys/fs/cgroup/memory.max ]; then
        read -r most </sys/fs/cgroup/memory.max
    fi
    if [ "$most" != max ] && [ "$((most / 1024))" -lt "$have" ]; then
        have=$((most / 1024))
    fi
    echo "$have"
}

# A certificate of one byte more than the limit, where 4 GiB of memory are free.
long_certificate() {
    if [ "$(free_memory)" -lt 4194304 ]; then
        skip "a certificate of 1073741825 bytes" "not known to have 4 GiB of free memory"
    elif has_tools truncate && truncate -s 1073741825 long.cert; then
        faults "a certificate of 1073741825 bytes" 5 "mov: certificate: longer than 1073741824 bytes" \
            check five-two.csv long.cert
    else
        skip "a certificate of 1073741825 bytes" "no sparse file can be made"
    fi
    rm -f long.cert
}

# large_tree LAST: a certificate of 100,000 nodes where LAST is 93, and of one node more for each that LAST is greater: a split for the
# root, and below it one of 65, where none is allowed. Its first 64 trees have 1,561 nodes each, and the last has LAST and one more.
large_tree() {
    head -n 8 five-two.cert
    printf 'split 1\nsplit 65\n'
    { echo "split 1560"; repeat 1560 cut; } >kid.text
    local i
    for ((i = 0; i < 64; i++)); do
        cat kid.text
    done
    echo "split $1"
    repeat "$1" cut
}

trees_at_their_limits() {
    large_tree 93 >large.cert
    refuses "5 ShapeDiffers line 10" five-two.csv large.cert
    large_tree 94 >fault.cert
    cert_fault 100009 "too many nodes"
    { head -n 8 five-two.cert; repeat 255 "split 1"; echo cut; } >large.cert
    refuses "5 ShapeDiffers line 10" five-two.csv large.cert
    { head -n 8 five-two.cert; repeat 257 "split 1"; echo cut; } >fault.cert
    cert_fault 265 "too deep"
    { head -n 9 five-two.cert; printf 'cut'; printf ' %s' {1..1035}; echo; } >large.cert
    refuses "5 ShapeDiffers line 10" five-two.csv large.cert
    { head -n 9 five-two.cert; printf 'cut'; printf ' %s' {1..1036}; echo; } >fault.cert
    cert_fault 10 "bad line"
}

# A million ballots, all for A: half of them must go.
half_a_million() {
    printf 'ballots,A,B\n1000000,A\n' >million.csv
    printf 'movcert 1\nrule plurality\nsize 2 1000000\nreported 0\nmargin 500000\ngoal pair 1 0\n' >million.cert
    seq -f 'put %.0f 1' 1 500000 >>million.cert
    printf 'split 1\ncut 1\n' >>million.cert
    prints "a margin of half a million" margin plurality million.csv <million.cert
    prints "a margin of half a million, checked" check million.csv million.cert <<'END'
VALID
rule plurality
margin 500000
END
    by=to_gone faults "a pipe that nobody reads any more" 7 "mov: write failed" margin plurality million.csv
    prints "a million ballots, shown" show million.csv <million.csv
    printf 'movcert 1\nrule plurality\nsize 2 1000000\nreported 0\nmargin 1000000\ngoal pair 1 0\n' >million.cert
    seq -f 'put %.0f 1' 1 1000000 >>million.cert
    printf 'split 1\ncut 1\n' >>million.cert
    refuses "6 CutFails line 1000008" million.csv million.cert
    rm million.csv million.cert
}

# Two ballots that rank all of twelve candidates, and one that ranks them the other way round. One replacement brings any other
# candidate level with A, so B is the one that is named.
twelve_candidates() {
    printf 'ballots,A,B,C,D,E,F,G,H,I,J,K,L\n2,A,B,C,D,E,F,G,H,I,J,K,L\n1,L,K,J,I,H,G,F,E,D,C,B,A\n' >twelve.csv
    prints "twelve candidates, shown" show twelve.csv <twelve.csv
    {
        printf 'movcert 1\nrule plurality\nsize 12 3\nreported 0\nmargin 1\ngoal pair 1 0\nput 1 1\nsplit 11\n'
        repeat 11 "cut 1"
    } >twelve.cert
    prints "twelve candidates, margin" margin plurality twelve.csv <twelve.cert
    printf 'VALID\nrule plurality\nmargin 1\n' >twelve.text
    prints "twelve candidates, check" check twelve.csv twelve.cert <twelve.text
    local rule
    for rule in plurality borda condorcet irv; do
        twelve_tally "$rule" >twelve.text
        prints "twelve candidates, tally $rule" tally "$rule" twelve.csv <twelve.text
    done
    twelve_tally "dhondt 3" >twelve.text
    prints "twelve candidates, tally dhondt" tally dhondt twelve.csv --seats 3 <twelve.text
}

# The tally of these three ballots. A has 2 first preferences and L has 1. Each lower number is preferred by 2 to 1. Under Borda
# candidate X has 2 (11 - X) + X points. Of three seats A is served first, then A before L at equal quotients, then L. Who holds
# nothing goes out first, the higher numbers before the lower, and L last.
twelve_tally() {
    awk -v rule="$1" '
        function first(x) { return x == 0 ? 2 : x == 11 ? 1 : 0 }
        BEGIN {
            print "rule " rule; print "size 12 3"
            for (x = 0; x < 12; x++) print "name " x " " substr("ABCDEFGHIJKL", x + 1, 1)
            if (rule == "plurality") for (x = 0; x < 12; x++) print "score " x " " first(x)
            if (rule == "borda") for (x = 0; x < 12; x++) print "score " x " " 22 - x
            if (rule == "condorcet") for (x = 0; x < 12; x++) for (y = x + 1; y < 12; y++) print "pair " x " " y " 2 1"
            if (rule == "dhondt 3") for (x = 0; x < 12; x++) print "votes " x " " first(x) " seats " first(x)
            if (rule == "irv") for (r = 1; r < 12; r++) {
                line = "round " r " out " (r < 11 ? 11 - r : 11) " held"
                for (x = 0; x < 12; x++) line = line " " (x < 12 - r || x == 11 ? first(x) : "-")
                print line
            }
            line = "reported"
            if (rule == "dhondt 3") for (x = 0; x < 12; x++) line = line " " first(x); else line = line " 0"
            print line
        }'
}

# Five hundred seats, served one by one to the greatest of votes / (seats + 1), the lower number first.
five_hundred_seats() {
    printf 'ballots,A,B,C,D\n600000,A\n399998,B\n2,D\n' >hundreds.csv
    awk 'BEGIN {
        split("600000 399998 0 2", votes, " "); split("A B C D", names, " ")
        for (i = 0; i < 500; i++) {
            best = 1
            for (x = 2; x <= 4; x++) if (votes[x] * (seats[best] + 1) > votes[best] * (seats[x] + 1)) best = x
            seats[best]++
        }
        print "rule dhondt 500"; print "size 4 1000000"
        for (x = 1; x <= 4; x++) print "name " x - 1 " " names[x]
        for (x = 1; x <= 4; x++) print "votes " x - 1 " " votes[x] " seats " seats[x] + 0
        print "reported " seats[1] + 0 " " seats[2] + 0 " " seats[3] + 0 " " seats[4] + 0
    }' >hundreds.text
    prints "five hundred seats" tally dhondt hundreds.csv --seats 500 <hundreds.text
    checked "five hundred seats" hundreds.csv dhondt --seats 500
}

# Five thousand different ballots that rank all of twelve candidates; those with A first stand three times each.
make_many_kinds() {
    awk '
        function lacking(x) { return int((scores[0] - scores[x] + 1) / 2) }
        function permuted(code,   left, size, digit, text, i) {
            left = "ABCDEFGHIJKL"; size = 39916800; text = ""
            for (i = 11; i >= 0; i--) {
                digit = int(code / size); code -= digit * size
                text = text "," substr(left, digit + 1, 1)
                left = substr(left, 1, digit) substr(left, digit + 2)
                if (i > 0) size /= i
            }
            return text
        }
        BEGIN {
            print "ballots,A,B,C,D,E,F,G,H,I,J,K,L" >"kinds.csv"
            for (i = 0; i < 5000; i++) {
                row = permuted(i * 95800); x = index("ABCDEFGHIJKL", substr(row, 2, 1)) - 1; times = x == 0 ? 3 : 1
                print times row >"kinds.csv"
                for (t = 0; t < times; t++) { ballots++; scores[x]++; if (x == 0) led[++count] = ballots }
            }
            near = 1; margin = lacking(1)
            for (x = 2; x < 12; x++) if (lacking(x) < margin) { near = x; margin = lacking(x) }
            print "movcert 1\nrule plurality\nsize 12 " ballots "\nreported 0\nmargin " margin "\ngoal pair " near " 0"
            for (i = 1; i <= margin; i++) print "put " led[i] " " near
            print "split 11"
            for (x = 1; x < 12; x++) print "cut 1"
            print "VALID\nrule plurality\nmargin " margin >"kinds.text"
        }' >kinds.cert
}

many_kinds() {
    make_many_kinds
    prints "five thousand kinds of ballots, shown" show kinds.csv <kinds.csv
    prints "five thousand kinds of ballots, margin" margin plurality kinds.csv <kinds.cert
    prints "five thousand kinds of ballots, check" check kinds.csv kinds.cert <kinds.text
}

# --- all cases

margins
margins_of_pairs
margins_by_search
drills
tallies_by_scores
other_tallies
forms_of_ballot_files
valid
refusals
word_faults
ballot_faults
cert_faults
reads_that_fail
writes_that_fail
pipes
long_ballot_files
long_certificate
trees_at_their_limits
half_a_million
if has_tools awk; then
    twelve_candidates
    five_hundred_seats
    many_kinds
else
    skip "twelve candidates, five hundred seats, many kinds of ballots" "no awk"
fi
echo "real_files: $passed passed, $failed failed, $skipped skipped"
[ "$failed" = 0 ]
