#!/bin/sh
# Tries how the script `dice` reads words and tells of faults. It needs no rt and builds nothing; not a part of the gate.
#   tools/words.sh            stand-ins for the program and for rt show what the script hands on; there is no program at first, and rt
#                             builds none, so that words end with their own status only if nothing is built
#   tools/words.sh PROGRAM    also compares some 6,000 lists of words with the verdict of PROGRAM, a build of `dice`, and tries each fault
here=$(cd "$(dirname "$0")/.." && pwd) || exit 1
work=$(mktemp -d) || exit 1
trap 'rm -rf "$work"' EXIT
real=$1
program="$work/crates/dice_cli/out/dice_cli"
usage='usage: ./dice [--try] run [--workers W] [--trace] < SCRIPT'
tried=0
wrong=0

# A copy of the script, with a stand-in for rt.
mkdir -p "$work/bin" "$work/docs" "$work/crates/dice_cli/out" || exit 1
cp "$here/dice" "$work/dice" && cp "$here/docs/faults.tsv" "$work/docs" && cp "$here/crates.txt" "$work" || exit 1
cat >"$work/bin/rt" <<'TEXT'
#!/bin/sh
case $1 in
    version) echo "the kit" ;;
    try) echo "rt: $*"; echo "run=ended status=0 " >&2 ;;
    *) exit 1 ;;
esac
TEXT
chmod +x "$work/bin/rt"
PATH="$work/bin:$PATH"

fail() {
    wrong=$((wrong + 1))
    printf 'WRONG: %s\n' "$*"
}

# Runs the script on words, with the standard input of the caller.
run() {
    tried=$((tried + 1))
    "$work/dice" "$@" >"$work/output" 2>"$work/said"
    status=$?
}

# answers LINE WORDS..: status 0, and the first line of the output
answers() {
    line=$1
    shift
    run "$@" </dev/null
    first=$(head -n 1 "$work/output")
    if [ "$status" -ne 0 ] || [ "$first" != "$line" ]; then fail "status $status, \"$first\": $*"; fi
}

# refuses WORD EXPECTED WORDS..: status 2 with nothing on standard output, a line that names the word, and then the usage
refuses() {
    line="dice: \"$1\" is refused: expected $2"
    shift 2
    run "$@" </dev/null
    first=$(head -n 1 "$work/said")
    if [ "$status" -ne 2 ] || [ -s "$work/output" ] || [ "$first" != "$line" ] || [ "$(sed -n 2p "$work/said")" != "$usage" ]; then
        fail "status $status, \"$first\": $*"
    fi
}

answered() {
    answers "$usage"
    for word in help --help -h; do
        answers "$usage" "$word"
        answers "$usage" --try "$word"
    done
    answers "$usage" --try
    answers 'dice unknown' --version
    answers 'dice unknown' --try --version
    [ "$(sed -n 2p "$work/output")" = "the kit" ] || fail "no line of the kit"
}

# The stand-in for the program writes the words that it gets.
handed_on() {
    # shellcheck disable=SC2016
    printf '#!/bin/sh\necho "program: $*"\n' >"$program"
    chmod +x "$program"
    answers 'program: run' run
    answers 'program: run --' run --
    answers 'program: run --workers 0' run --workers 0
    answers 'program: run --workers 64 --trace' run --workers 64 --trace
    answers 'program: run --trace --workers=7' run --trace --workers=7
    answers 'program: run --workers +4' run --workers +4
    answers 'program: run --workers 007' run --workers 007
    answers 'program: run --workers=-0 --' run --workers=-0 --
    answers 'program: bulk 1' bulk 1
    answers 'program: bulk 10000 --workers 2' bulk 10000 --workers 2
    answers 'program: bulk --workers 0 -- +012' bulk --workers 0 -- +012
    answers 'rt: try --seconds 3600 -- run --workers 0 --trace' --try run --workers 0 --trace
    answers 'rt: try --seconds 3600 -- bulk 7' --try bulk 7
}

refused() {
    workers='a number of workers from 0 to 64'
    targets='a number of targets from 1 to 10000'
    refuses ran 'run or bulk' ran
    refuses '' 'run or bulk' ''
    refuses -- 'run or bulk' -- run
    refuses --workers 'run or bulk' --workers 4 run
    refuses --try 'run or bulk' --try --try run
    refuses ran 'run or bulk' --try ran
    refuses run 'no word after help' help run
    refuses run 'no word after --version' --version run
    refuses x '--workers W or --trace' run x
    refuses --worker '--workers W or --trace' run --worker 4
    refuses -w '--workers W or --trace' run -w 4
    refuses --help '--workers W or --trace' run --help
    refuses --try 'it before all other words' run --try
    refuses --workers 'a number from 0 to 64 as the next word' run --workers
    refuses --workers 'a number from 0 to 64 as the next word' run --workers -1
    refuses --workers 'a number from 0 to 64 as the next word' run --workers --trace
    refuses --workers= "$workers" run --workers=
    refuses 65 "$workers" run --workers 65
    refuses 4x "$workers" run --workers 4x
    refuses --workers=-1 "$workers" run --workers=-1
    refuses 99999999999999999999 "$workers" run --workers 99999999999999999999
    refuses 2 '--workers once' run --workers 1 --workers 2
    refuses --trace '--trace once' run --trace --trace
    refuses --trace=true '--workers W or --trace' run --trace=true
    refuses --trace '--workers W or --trace' run -- --trace
    refuses bulk "$targets after it" bulk
    refuses 0 "$targets" bulk 0
    refuses 10001 "$targets" bulk 10001
    refuses x "$targets" bulk x
    refuses 2 'one N alone, and --workers W' bulk 1 2
    refuses --trace '--workers W' bulk 1 --trace
    refuses 'a?b\n' 'run or bulk' 'a
b\n'
}

# Each word of a fault that the program has is in the table, and no other.
words_of_faults() {
    sed -n 's/^ *Word::[A-Z][a-z]* => "\(.*\)",$/\1/p; s/^ *ScriptRefusal::TooLong => .*"\(.*\)".*/\1/p' "$here/crates/script/src/fault.rt" | sort >"$work/faults"
    sed 1d "$here/docs/faults.tsv" | cut -f 1 | sort | cmp -s - "$work/faults" || fail "docs/faults.tsv has other faults than crates/script"
}

# same WORDS..: the script refuses these words exactly if the program does
same() {
    run "$@" </dev/null
    "$real" "$@" </dev/null >/dev/null 2>&1
    theirs=$?
    if [ "$((status == 2))" -ne "$((theirs == 2))" ]; then fail "status $status, the program's is $theirs: $*"; fi
}

compared() {
    for a in run bulk ran '' - -- --workers --trace -x 4; do same "$a" 7; done
    set -- '' - -- --workers --workers= --workers=4 --workers=-0 --workers=-1 --workers=65 --workers=4=4 --=4 --work --trace --trace= \
        --trace=true --version -h --help -w -0 -7 0 7 +7 ++7 +-7 007 64 65 10001 7x ' 7' '7 ' 0x7 7.0 1e1 '7
' '٧' run bulk x
    for command in run bulk; do
        same "$command"
        for a in "$@"; do
            same "$command" "$a"
            for b in "$@"; do same "$command" "$a" "$b"; done
        done
    done
    set -- -- --workers --workers=4 --trace 7 +07 65 -7 ''
    for command in run bulk; do
        for a in "$@"; do
            for b in "$@"; do
                for c in "$@"; do
                    same "$command" "$a" "$b" "$c"
                    same "$command" 7 "$a" "$b" "$c"
                done
            done
        done
    done
}

# faulty LINE SCRIPT [LAST]: status 5, LINE on standard output, an explanation of LINE and, if it is given, this last line of it
faulty() {
    printf "$2" >"$work/script"
    run run <"$work/script"
    [ "$status" -eq 5 ] && [ "$(cat "$work/output")" = "$1" ] || fail "status $status, $(cat "$work/output"): not $1"
    grep -q "^dice: $1: ." "$work/said" && grep -q "^dice: expected: ." "$work/said" || fail "no explanation of $1"
    [ -z "$3" ] || [ "$(tail -n 1 "$work/said")" = "dice: $3" ] || fail "the last line is not \"$3\""
}

faults() {
    cp "$real" "$program"
    cr='ends with CR; a line ends with LF alone, without a CR before it'
    asked='open t\nask t r //a\n'
    faulty 'line 1: word' 'comit\n' 'line 1 is "comit"'
    faulty 'line 2: word' 'open t\nask t  r //a\n'
    faulty 'line 1: word' 'commit\r\n' "line 1 $cr"
    faulty 'line 4: word' 'put a 2\nb\n\n\r\n' "line 4 $cr"
    faulty 'line 1: path' 'put a/../b 0\n'
    faulty 'line 3: twice' 'put a 0\n\ndrop a\n'
    faulty 'line 1: number' 'put a 01\n'
    faulty 'line 1: number' 'put a 1\r\nb' "line 1 $cr"
    faulty 'line 1: count' 'put a 5\nabc\n' 'the script ends before 5 bytes have come'
    faulty 'line 1: count' 'put a 3\nabcdef\n' 'after the 3 bytes stands "def"'
    faulty 'line 1: count' 'put a 5\nab\ncd\r\n' 'after the 5 bytes stands "\r", a CR before the LF'
    faulty 'line 1: name' 'open t.\n'
    faulty 'line 1: name' 'open t\r\n' "line 1 $cr"
    faulty 'line 2: taken' 'open t\nopen t\n'
    faulty 'line 1: open' 'ask t r //a\n'
    faulty 'line 2: label' 'open t\nask t r :a\n'
    faulty 'line 2: label' 'open t\nask t r //a\r' "line 2 $cr"
    faulty 'line 3: unknown' "${asked}wait s\n"
    faulty 'line 4: answered' "${asked}wait r\ncancel r\n"
    faulty 'line 4: cancelled' "${asked}close t\nwait r\n"
    faulty 'script too long' "%04194305d"
}

# Without a program other words want a build, and a usage that cannot be written does not.
unbuilt() {
    "$work/dice" --help >/dev/full 2>/dev/null
    if [ $? -ne 1 ]; then fail "a usage that cannot be written"; fi
    run bulk 7 </dev/null
    if [ "$status" -ne 70 ]; then fail "status $status without a program"; fi
}

answered
refused
unbuilt
handed_on
words_of_faults
if [ -n "$real" ]; then
    compared
    faults
fi
echo "$tried tried, $wrong wrong"
[ "$wrong" -eq 0 ]
