#!/usr/bin/env bash
# Runs the built program as a user meets it: command lines with files, pipes and faults, each with its status and its
# texts; then each read and each write of a page failing in turn. Standard output must be empty wherever a page was
# refused before it was laid out, and else the page's text or a beginning of it.
#
#     tools/command_lines.sh [PROGRAM]
set -u
top=$(cd "$(dirname "$0")/.." && pwd)
program=${1:-$top/crates/html2text_program/out/html2text_program}
room=$(mktemp -d)
trap 'rm -rf "$room"' EXIT
cd "$room"
printf '<h1>T</h1><p>a &notin; <b>b</b> <a href="x">c</a>' >page
printf '<p>a' >./-page
printf '<p><a href=x>a</a> <a href=y>b</a> <a href=x>c</a>' >links
printf '[]' >bad.json
printf '\377' >bytes.json
cp "$top/share/html-references.json" references.json
: >empty
runs=0 wrong=0

# Compares a run with its status, its standard output and its standard error; `*` is any text but none.
is_text() { if [ "$2" = '*' ]; then [ -s "$1" ]; else printf "$2" | cmp -s - "$1"; fi; }
judge() { # name, status seen, status wanted, output wanted, errors wanted
    runs=$((runs + 1))
    if [ "$2" != "$3" ] || ! is_text out "$4" || ! is_text err "$5"; then
        wrong=$((wrong + 1))
        echo "$1: status $2, wanted $3; output $(head -c 200 out | od -c | head -3); errors $(head -c 200 err)"
    fi
}
run() { # status, output, errors, words of the command line; standard input is the page
    local wanted=$1 output=$2 errors=$3 status=0
    shift 3
    "$program" "$@" <page >out 2>err || status=$?
    judge "html2text $*" "$status" "$wanted" "$output" "$errors"
}

plain='# T\n\na &notin; **b** [c][1]\n\n[1]: x\n'
run 0 "$plain" ''
run 0 "$plain" '' page
run 0 "$plain" '' -- page
run 0 'a\n' '' -- -page
run 0 '' '' empty
run 0 '# T\n\na\n&notin;\n**b**\n[c][1]\n\n[1]: x\n' '' --width=8 page
run 0 '# T\n\na &notin; b c\n' '' --rich page
run 0 '# T\n\na &notin; b [c]\n' '' page --no-decorate
run 0 '# T\n\na &notin; b c[1]\n\n[1]: x\n' '' --footnotes --rich page
run 0 '[a][1] [b][2] [c][1]\n\n[1]: x\n[2]: y\n' '' --shared-footnotes links
run 0 '# T\n\na \342\210\211 **b** [c][1]\n\n[1]: x\n' '' --references references.json page
run 0 '*' '' --help
run 1 '' 'html2text: read or write failed\n' nowhere
run 1 '' 'html2text: read or write failed\n' .
run 1 '' 'html2text: page too long\n' --max-bytes 4 page
run 1 '' 'html2text: output width not wide enough\n' --width 0
run 2 '' '*' --width x
run 2 '' '*' --widt 8
run 2 '' '*' page page
run 2 '' 'html2text: a word of the command line is not UTF-8\n' $'\377'
run 3 '' 'html2text: bad reference table\n' --references bad.json page
run 3 '' 'html2text: bad reference table\n' --references bytes.json nowhere
run 3 '' 'html2text: bad reference table\n' --references nowhere page
run 3 '' 'html2text: bad reference table\n' --references . page

status=0; printf '<p>\346\274\242</p>' | "$program" --width 1 >out 2>err || status=$?
judge 'no column is wide enough' "$status" 1 '' 'html2text: output width not wide enough\n'
status=0; "$program" <page >/dev/full 2>err || status=$?; : >out
judge 'a full disk' "$status" 1 '' 'html2text: read or write failed\n'
status=0; "$program" <page >&- 2>err || status=$?; : >out
judge 'no standard output' "$status" 1 '' 'html2text: read or write failed\n'
status=0; "$program" <&- >out 2>err || status=$?
judge 'no standard input' "$status" 1 '' 'html2text: read or write failed\n'
status=0; "$program" <. >out 2>err || status=$?
judge 'a directory on standard input' "$status" 1 '' 'html2text: read or write failed\n'
status=0; { printf '<p>caf\303'; sleep 0.2; printf '\251</p>'; } | "$program" >out 2>err || status=$?
judge 'a character cut in a pipe' "$status" 0 'caf\303\251\n' ''
mkfifo pipe
: <pipe & reader=$!
{ sleep 0.3; status=0; (trap '' PIPE; exec "$program" <page 2>err) || status=$?; echo "$status" >status; } >pipe
wait "$reader"; : >out
judge 'a closed pipe' "$(cat status)" 1 '' 'html2text: read or write failed\n'

cc -shared -fPIC -o fail_io.so "$top/tools/fail_io.c" -ldl
"$program" <page >whole 2>err
for number in $(seq 1 12); do
    for fault in READ WRITE; do
        status=0
        env "FAIL_$fault=$number" LD_PRELOAD="$room/fail_io.so" "$program" <page >out 2>err || status=$?
        runs=$((runs + 1))
        length=$(stat -c %s out)
        is_fine=no
        if [ "$status" = 0 ] && cmp -s out whole && [ ! -s err ]; then
            is_fine=yes
        elif [ "$status" = 1 ] && cmp -s -n "$length" out whole && grep -qx 'html2text: read or write failed' err; then
            [ "$fault" = READ ] && [ "$length" != 0 ] || is_fine=yes
        fi
        if [ "$is_fine" != yes ]; then
            wrong=$((wrong + 1))
            echo "$fault $number: status $status, $length bytes, $(cat err)"
        fi
    done
done
echo "$runs runs, $wrong of them wrong"
[ "$wrong" = 0 ]
