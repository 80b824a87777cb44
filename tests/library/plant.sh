#!/usr/bin/env bash
# The library of this machine (tools/library) at full size: 1,048,576 slots, batches of 1,024 records.
# usage: plant.sh [unordered | ordered]
# With a word, a whole cache is filled by 1,024 commits and read, which takes minutes, and says how long it took.
set -euo pipefail
cd "$(dirname "$0")/../.."
gcc -std=c11 -Wall -Wextra -Werror -O2 -Iinclude tests/library/plant.c target/native/libslc1.a -o target/native/plant
target/native/plant "$@"
