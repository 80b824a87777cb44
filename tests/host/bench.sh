#!/usr/bin/env bash
# The host examples/bench.c with its certificates.c and store.c, over the library of this machine (tools/library), built
# plainly and with sanitizers. The store by itself; then bench end to end: on good, damaged and half-written files, killed
# and failing at every write, and read while it writes.
set -euo pipefail
cd "$(dirname "$0")/../.."
out=target/native
include="-Iinclude -Iexamples"
sanitizers="-O1 -g -fsanitize=address,undefined -fno-sanitize-recover=all"
export ASAN_OPTIONS=detect_leaks=0 # store_failures counts what the store allocates; looking for leaks takes seconds a run

build() { gcc -std=c11 -Wall -Wextra -Werror $include "$@"; }

# Every call of the system that the store makes comes to store_wrapped.h first.
wraps=$(sed -n 's/^\(WRAPPED([^,]*, \|.*__wrap_\)\([a-z]*\).*/\2/p' tests/host/store_wrapped.h | sort -u)
wrap=$(printf -- '-Wl,--wrap=%s ' $wraps)

# The host and the tests of its store, with a suffix to their names, from the flags.
build_all() {
    local suffix=$1 flags=$2
    build $flags -c examples/store.c -o $out/store$suffix.o
    build $flags examples/bench.c examples/certificates.c $out/store$suffix.o $out/libslc1.a -o $out/bench$suffix
    for test in store_test store_slots store_copies; do
        build $flags tests/host/$test.c $out/store$suffix.o $out/libslc1.a -o $out/$test$suffix
    done
    build $flags $wrap tests/host/store_failures.c $out/store$suffix.o $out/libslc1.a -o $out/store_failures$suffix
}

build_all "" -O2
build_all _sanitized "$sanitizers"
build -O2 -fPIC -shared tests/host/kill_at.c -o $out/kill_at.so
g++ -std=c++11 -Wall -Wextra -Werror $include tests/host/store_cxx.cpp $out/store.o $out/libslc1.a -o $out/store_cxx

# In memory where there is a folder for that: what is tested is the order of writes and syncs, and not the disk.
work=$(mktemp -d -p /dev/shm 2>/dev/null || mktemp -d)
trap 'rm -rf "$work"' EXIT
mkdir "$work"/{plain,sanitized}

# Names that the store gives to a host, and calls that it makes beside those that fail on purpose.
names=$(nm -g --defined-only $out/store.o | awk '$3 !~ /^store_/ { print $3 }')
[ -z "$names" ] || { echo "store.o has global names of another kind: $names"; exit 1; }
harmless='_GLOBAL_OFFSET_TABLE_ __errno_location __stack_chk_fail close mem.* pthread_sigmask sig.* slc1_.* snprintf str.*'
known=$(printf '%s|' $harmless $wraps)none
calls=$(nm -u $out/store.o | awk '{ print $2 }' | grep -vxE "$known" || true)
[ -z "$calls" ] || { echo "store_wrapped.h does not wrap: $calls"; exit 1; }

for suffix in "" _sanitized; do
    for test in store_test store_slots store_copies store_failures; do
        mkdir "$work/$test$suffix"
        $out/$test$suffix "$work/$test$suffix"
    done
done
$out/store_cxx "$work/cxx"

python3 tests/host/bench_test.py $out "$work/sanitized" bench_sanitized 4 >$out/bench_sanitized.log 2>&1 &
sanitized=$!
trap 'kill $sanitized 2>/dev/null || true; rm -rf "$work"' EXIT
python3 tests/host/bench_test.py $out "$work/plain" bench 1
wait $sanitized || { cat $out/bench_sanitized.log; exit 1; }
cat $out/bench_sanitized.log
