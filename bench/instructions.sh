#!/bin/sh
# Counts the instructions of the built program for each request, user code alone, by callgrind.
#
#   bench/instructions.sh [PROGRAM]
#
# One connection over standard input and output: 1,000 requests with a browser's head for a small file. The count of the
# same run with one request is taken off, so that what is done once doesn't count. The list by function comes last.
# PROGRAM is the built program, crates/warp_serve/out/warp_serve where none is named: `rt run` in its folder builds it.
set -eu
here=$(cd "$(dirname "$0")" && pwd)
program=${1:-"$here/../crates/warp_serve/out/warp_serve"}
work=$(mktemp -d)
trap 'rm -rf "$work"' EXIT
mkdir "$work/site"
printf 'hi\n' > "$work/site/a.txt"
request() {
    printf 'GET /a.txt HTTP/1.1\r\n'
    printf 'Host: 127.0.0.1:8080\r\n'
    printf 'Connection: keep-alive\r\n'
    printf 'Cache-Control: max-age=0\r\n'
    printf 'sec-ch-ua: "Chromium";v="124", "Not-A.Brand";v="99"\r\n'
    printf 'sec-ch-ua-mobile: ?0\r\n'
    printf 'sec-ch-ua-platform: "Linux"\r\n'
    printf 'Upgrade-Insecure-Requests: 1\r\n'
    printf 'User-Agent: Mozilla/5.0 (X11; Linux x86_64) AppleWebKit/537.36 (KHTML, like Gecko) Chrome/124.0.0.0 Safari/537.36\r\n'
    printf 'Accept: text/html,application/xhtml+xml,application/xml;q=0.9,image/avif,image/webp,*/*;q=0.8\r\n'
    printf 'Sec-Fetch-Site: none\r\n'
    printf 'Sec-Fetch-Mode: navigate\r\n'
    printf 'Sec-Fetch-Dest: document\r\n'
    printf 'Accept-Encoding: gzip, deflate, br\r\n'
    printf 'Accept-Language: en-US,en;q=0.9\r\n\r\n'
}
request > "$work/one"
for _ in $(seq 1000); do cat "$work/one"; done > "$work/many"
count() {
    valgrind --tool=callgrind --callgrind-out-file="$work/$1.out" "$program" connection "$work/site" < "$work/$1" 2>"$work/$1.log" > "$work/$1.answers"
    sed -n 's/^summary: //p;s/^totals: //p' "$work/$1.out" | head -1
}
one=$(count one)
many=$(count many)
answered=$(grep -c '^HTTP/1.1 200' "$work/many.answers" || true)
if [ "$answered" != 1000 ]; then
    echo "answered: $answered of 1000, so nothing is counted" >&2
    exit 1
fi
echo "instructions of a request: $(( (many - one) / 999 ))"
callgrind_annotate "$work/many.out" 2>/dev/null | sed -n '/Ir/,$p' | head -60
