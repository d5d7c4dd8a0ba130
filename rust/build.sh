#!/usr/bin/env bash
# Builds the Rust side into target/rust with cargo, over target/staticlib/libscreen.a, and runs a part of it.
# The archive is x86-64, and so is the kit that makes it. On an Arm machine, with an archive from elsewhere, all of it is built for x86-64
# and run under an emulator, but for bench, which is not to be had there: times under an emulator mean nothing.
set -u
cd "$(dirname "$0")/.." || exit 1
root=$PWD
out=$root/target/rust
target=x86_64-unknown-linux-gnu
bin=$out/$target/release
archive=target/staticlib/libscreen.a
packages="cargo rustc rustfmt rust-clippy libstd-rust-dev:amd64 gcc-x86-64-linux-gnu libc6-dev-amd64-cross qemu-user"
settings=()

usage() {
    cat <<'END'
usage: bash rust/build.sh PART

  archive           proves the library and writes target/staticlib/libscreen.a (minutes if it is not proved yet)
  paint [..]        panels from a capture (--help)
  timeline [..]     every change of the badge in a capture with times (--help)
  script FILE       runs a script of calls (docs/SCRIPTS.md)
  capture [FILE]    writes captures/morning.bin and its times anew
  bench [--short]   nanoseconds a message of the library, the plain twin and the tuned one, taking turns: book messages at
                    128, 512 and 4,096 slots, strip messages at 128, book messages in frames of 32 against single calls; of
                    the library in scraps, whole messages and torn ones, against single calls; and a repaint by sides
                    against single reads. --short only looks whether all three end with the same tables and as many rows
                    dropped, by single calls and by frames, the library in scraps too, and both repaints show the same. Not
                    on Arm
  count [SLOTS..]   x86-64 instructions a message of the same three, under an emulator; about ten minutes. 'strips' for
                    strip messages alone
  env               the settings with which cargo builds for the archive, as lines for a shell

What the gate runs, each with 'N passed, M failed' as its last line:

  test [..]         the library against the twin, call by call
  cover [NAME]      the cover's own tests and the examples in its documentation, those that have NAME in theirs
  scripts           vectors/scripts, and scripts that must be refused
  timelines         what the timeline prints of tests/timeline and of the morning
  panels            the painter as it is run: options, files, terminals, docs/panels.svg
  user              a package as a user would write one, over rust/mmdh
  lint              rustfmt --check and clippy, warnings denied
  header            include/mmdh.h from a C program

All but archive, capture and env need target/staticlib/libscreen.a: run 'bash rust/build.sh archive' first.
END
}

fail() {
    echo "build.sh: $*" >&2
    exit 1
}

# x86-64: the machine's own tools.
native() {
    command -v cargo >/dev/null 2>&1 || fail "no cargo on this machine"
    cargo=cargo
    cc=(cc)
    run=()
}

# Arm: Debian's tools for x86-64, static programs, an emulator.
emulated() {
    if ! [ -x /usr/bin/cargo ] || ! [ -x /usr/bin/rustc ] || ! [ -x /usr/bin/rustfmt ] || ! [ -x /usr/bin/cargo-clippy ] ||
        ! [ -d "/usr/lib/rustlib/$target" ] || ! command -v x86_64-linux-gnu-gcc >/dev/null 2>&1 ||
        ! command -v qemu-x86_64 >/dev/null 2>&1; then
        echo "installing $packages" >&2
        # shellcheck disable=SC2086
        { dpkg --add-architecture amd64 && apt-get update && apt-get install -y $packages; } >"$out/apt.log" 2>&1 ||
            fail "could not install $packages (see target/rust/apt.log)"
    fi
    cargo=/usr/bin/cargo
    cc=(x86_64-linux-gnu-gcc -static)
    run=(qemu-x86_64)
    # the cross package's libm.a is a script with paths of another machine
    mkdir -p "$out/x86"
    for libm in /usr/x86_64-linux-gnu/lib/libm-[0-9]*.a; do
        [ -e "$libm" ] && ln -sf "$libm" "$out/x86/libm.a"
    done
    # a copy by 'rep movsb' goes byte by byte under an emulator: the C library's loops instead
    export GLIBC_TUNABLES=glibc.cpu.x86_rep_movsb_threshold=1073741824:glibc.cpu.x86_rep_stosb_threshold=1073741824
    # Debian's tools before others of the same names
    settings=("PATH=/usr/bin:/bin:$PATH" CARGO=/usr/bin/cargo RUSTC=/usr/bin/rustc RUSTDOC=/usr/bin/rustdoc
        CARGO_TARGET_X86_64_UNKNOWN_LINUX_GNU_LINKER=x86_64-linux-gnu-gcc
        CARGO_TARGET_X86_64_UNKNOWN_LINUX_GNU_RUNNER=qemu-x86_64
        "CARGO_TARGET_X86_64_UNKNOWN_LINUX_GNU_RUSTFLAGS=-C target-feature=+crt-static -C relocation-model=static -L native=$out/x86")
}

# cargo with its settings, for the archive's target and into our folder.
with_cargo() {
    env ${settings[@]+"${settings[@]}"} CARGO_BUILD_TARGET="$target" CARGO_TARGET_DIR="$out" "$cargo" "$@"
}

# Builds some programs of the Rust side.
programs() {
    local name words=()
    for name in "$@"; do words+=(-p "$name"); done
    (cd rust && with_cargo build --offline --quiet --release "${words[@]}") || fail "cargo could not build $*"
}

# Proves the library and puts its archive where all parts look for it. It has the C calls of the header, and nothing else that others can call.
build_archive() {
    local log=$root/target/staticlib.log outside
    command -v rt >/dev/null 2>&1 || fail "the Rattle kit's command rt is not on this machine"
    mkdir -p target/staticlib || fail "cannot make target/staticlib"
    (cd crates/screen_c && rt lib) >"$log" 2>&1 </dev/null || { cat "$log"; fail "the library is not proved, so there is no archive"; }
    cp crates/screen_c/out/libscreen_c.a "$archive.new" && mv "$archive.new" "$archive" || fail "cannot write $archive"
    diff <(sed -n 's/^[A-Za-z].*\b\(mmdh_[a-z_]*\)(.*/\1/p' include/mmdh.h | sort) <(nm -g --defined-only "$archive" | awk 'NF == 3 { print $3 }' | sort) ||
        fail "the archive has other calls than include/mmdh.h (behind > the archive's)"
    # the compiler makes calls of memset; whoever links the archive is to bring nothing more
    outside=$(nm -u "$archive" | awk '$1 == "U" && $2 != "memset" { print $2 }' | sort -u | paste -s -d ' ')
    [ -z "$outside" ] || fail "the archive needs more from outside than memset: $outside"
    echo "1 passed, 0 failed"
}

has_archive() {
    [ -f "$archive" ] || fail "no $archive; run bash rust/build.sh archive first"
}

# How many tests the logs of cargo and rustdoc say passed.
count() { # passed|failed LOG..
    local word=$1
    shift
    cat "$@" | sed -n "s/^test result: .* \([0-9]*\) $word;.*/\1/p" | awk '{ n += $1 } END { print n + 0 }'
}

# The cover's tests, and the examples in its documentation: to run those under an emulator is an option that rustdoc calls unstable.
cover() {
    local doc=(rustdoc) bad=0
    [ ${#run[@]} -eq 0 ] || doc=(env RUSTC_BOOTSTRAP=1 "${settings[@]}" /usr/bin/rustdoc -Z unstable-options --runtool "${run[@]}"
        -C linker=x86_64-linux-gnu-gcc -C target-feature=+crt-static -C relocation-model=static -L "native=$out/x86")
    (cd rust && with_cargo test --offline --quiet --release --no-fail-fast -p mmdh -p timeline -p paint -- "$@") >"$out/cover.log" 2>&1 || bad=1
    "${doc[@]}" --test --edition 2021 --crate-name mmdh --target "$target" -L "dependency=$bin/deps" \
        --extern "mmdh=$bin/libmmdh.rlib" ${1+--test-args "$1"} rust/mmdh/lib.rs >"$out/rustdoc.log" 2>&1 || bad=1
    [ $bad -eq 0 ] || cat "$out/cover.log" "$out/rustdoc.log"
    echo "$(count passed "$out/cover.log" "$out/rustdoc.log") passed, $(count failed "$out/cover.log" "$out/rustdoc.log") failed"
    return $bad
}

# The capture and its times are what their program writes.
recorded() {
    local ending
    "${run[@]}" "$bin/capture" "$out/morning.bin" >/dev/null || fail "the capture could not be written"
    for ending in bin times; do
        cmp -s "$out/morning.$ending" "captures/morning.$ending" || fail "captures/morning.$ending is not what rust/capture writes"
    done
    echo "captures/morning.bin and morning.times are what rust/capture writes"
}

# Every timeline, in words and for a spreadsheet, is what stands beside its times.
timelines() {
    local times name passed=0 failed=0
    for times in captures/morning.times tests/timeline/*.times; do
        name=tests/timeline/$(basename "$times" .times)
        checks same "$name.out" "${run[@]}" "$bin/timeline" "$times"
        checks same "$name.csv" "${run[@]}" "$bin/timeline" "$times" --csv
    done
    # the README shows the morning's
    checks same tests/timeline/morning.out sed -n 's/^    \(06:00:.*\)/\1/p' README.md
    echo "$passed passed, $failed failed"
    [ "$failed" -eq 0 ]
}

# What a command prints is what a file has.
same() { # FILE COMMAND..
    "${@:2}" | diff - "$1" && return
    echo "differs from $1"
    return 1
}

# One check of the sources.
checks() { # COMMAND..
    if "$@"; then passed=$((passed + 1)); else failed=$((failed + 1)); fi
}

lint() {
    local fmt=rustfmt manifest passed=0 failed=0
    [ ${#run[@]} -eq 0 ] || fmt=/usr/bin/rustfmt
    command -v "$fmt" >/dev/null 2>&1 || fail "no rustfmt on this machine"
    # shellcheck disable=SC2046
    checks "$fmt" --check --edition 2021 --config-path rust/rustfmt.toml $(find rust tests -name '*.rs')
    for manifest in rust/Cargo.toml tests/user/Cargo.toml; do
        if env ${settings[@]+"${settings[@]}"} cargo-clippy --version >/dev/null 2>&1; then
            checks env ${settings[@]+"${settings[@]}"} CARGO_TARGET_DIR="$out/lint" cargo-clippy clippy --offline --quiet --all-targets \
                --target "$target" --manifest-path "$manifest" -- -D warnings
        else
            echo "no clippy on this machine: $manifest by the compiler's warnings only"
            checks env ${settings[@]+"${settings[@]}"} CARGO_TARGET_DIR="$out/lint" RUSTFLAGS="-D warnings" "$cargo" check --offline --quiet \
                --target "$target" --manifest-path "$manifest"
        fi
    done
    # the documentation has no warnings either
    checks env ${settings[@]+"${settings[@]}"} CARGO_TARGET_DIR="$out/lint" RUSTDOCFLAGS="-D warnings" "$cargo" doc --offline --quiet --no-deps \
        --target "$target" --manifest-path rust/mmdh/Cargo.toml
    echo "$passed passed, $failed failed"
    [ "$failed" -eq 0 ]
}

part=${1:-}
[ $# -gt 0 ] && shift
case $part in
    archive | test | cover | scripts | timelines | panels | user | lint | header | bench | count | paint | timeline | script | capture | env) ;;
    -h | --help | help) usage && exit ;;
    *) usage >&2 && exit 1 ;;
esac
mkdir -p "$out" || fail "cannot make $out"
case $(uname -m)-$part in
    *-archive) ;;
    x86_64-*) native ;;
    aarch64-bench) fail "no benchmark on Arm: this kit compiles for x86-64 alone, and leaves nothing that could be compiled once more" ;;
    aarch64-*) emulated ;;
    *) fail "neither x86-64 nor Arm: $(uname -m)" ;;
esac

case $part in
    archive) build_archive ;;
    test)
        has_archive
        programs tests bench capture
        recorded
        "${run[@]}" "$bin/bench" --short || fail "the benchmark failed"
        "${run[@]}" "$bin/tests" "$@"
        ;;
    cover)
        has_archive
        programs mmdh
        cover "$@"
        ;;
    scripts)
        has_archive
        programs script
        "${run[@]}" "$bin/script" --check vectors/scripts tests/scripts
        ;;
    timelines)
        has_archive
        programs timeline
        timelines
        ;;
    panels)
        has_archive
        programs paint
        bash tests/panels "${run[@]}" "$bin/paint"
        ;;
    user)
        has_archive
        env ${settings[@]+"${settings[@]}"} bash tests/user/check "$cargo" "$out/user" ${run[@]+"${run[@]}"}
        ;;
    lint)
        has_archive
        lint
        ;;
    bench)
        has_archive
        programs bench
        "$bin/bench" "$@"
        ;;
    count)
        has_archive
        programs bench
        "${run[@]}" "$bin/bench" --short && bash rust/bench/count.sh "$@"
        ;;
    paint | timeline | script)
        has_archive
        programs "$part"
        "${run[@]}" "$bin/$part" "$@"
        ;;
    capture)
        programs capture
        "${run[@]}" "$bin/capture" "$@"
        ;;
    header)
        has_archive
        "${cc[@]}" -std=c11 -Wall -Wextra -pedantic -Werror -Iinclude -o "$out/header" tests/header/main.c "$archive" ||
            fail "the C compiler failed on tests/header/main.c"
        "${run[@]}" "$out/header" vectors/example10.in
        ;;
    env)
        [ ${#run[@]} -eq 0 ] || settings+=("CARGO_BUILD_TARGET=$target")
        for setting in ${settings[@]+"${settings[@]}"}; do printf "export %s='%s'\n" "${setting%%=*}" "${setting#*=}"; done
        ;;
esac
