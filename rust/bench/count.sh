#!/usr/bin/env bash
# Counts x86-64 instructions a message of the library, the plain twin and the tuned one, under qemu-x86_64:
#   bash rust/bench/count.sh [SLOTS..]     128, 512 and 4096 slots, and strip messages ('strips') where none is named; about ten minutes
# The difference of a run of 1,500 messages and one of 300 leaves out all that is no arrival; it repeats to the digit.
# 'bash rust/build.sh count [SLOTS..]' builds the benchmark for x86-64 and runs this.
set -u
cd "$(dirname "$0")/../.." || exit 1
bench=target/rust/x86_64-unknown-linux-gnu/release/bench
if [ ! -x "$bench" ]; then
    echo "count: no $bench; run bash rust/build.sh count" >&2
    exit 1
fi
if ! command -v qemu-x86_64 >/dev/null 2>&1; then
    echo "count: qemu-x86_64 is not on this machine (Debian: qemu-user)" >&2
    exit 1
fi
single=-singlestep
if qemu-x86_64 -help 2>/dev/null | grep -q one-insn-per-tb; then single=-one-insn-per-tb; fi

instructions() {
    qemu-x86_64 "$single" -d nochain,exec -D /dev/stdout "$bench" --count "$1" "$2" "$3" | grep -c '^Trace'
}

# Both runs of one walker, side by side.
a_message() {
    local long short_file
    short_file=$(mktemp)
    instructions "$1" "$2" 300 >"$short_file" &
    long=$(instructions "$1" "$2" 1500)
    wait
    echo $(((long - $(cat "$short_file")) / 1200))
    rm -f "$short_file"
}

[ $# -gt 0 ] || set -- 128 512 4096 strips
echo "x86-64 instructions a message"
echo " slots  library    plain    tuned  library/plain  library/tuned"
for slots in "$@"; do
    library=$(a_message library "$slots")
    plain=$(a_message plain "$slots")
    tuned=$(a_message tuned "$slots")
    if [ "$library" -le 0 ] || [ "$plain" -le 0 ] || [ "$tuned" -le 0 ]; then
        echo "count: nothing was counted of $slots" >&2
        exit 1
    fi
    awk -v s="$slots" -v l="$library" -v p="$plain" -v t="$tuned" \
        'BEGIN { printf "%6s %8d %8d %8d %14.2f %14.2f\n", s, l, p, t, l / p, l / t }'
done
