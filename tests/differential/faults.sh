#!/bin/sh
# Tries the harness itself: a stand-in for the proved library is built from a copy of the model, without a fault and then with
# each fault of stand-in/faults.sed. The harness must find nothing in the first and something in each of the others.
# It takes minutes. With numbers, only those faults are tried (0: none).
set -eu
cd "$(dirname "$0")"
work=$(mktemp -d)
trap 'rm -rf "$work"' EXIT

cp -r src stand-in "$work"
find "$work/src" -name '*.rs' -exec sed -i -f stand-in/faults.sed {} +
last=$(grep -o 'fault([0-9]*)' stand-in/faults.sed | tr -dc '0-9\n' | sort -n | tail -1)
missing=$(for fault in $(seq 1 "$last"); do grep -rq "fault($fault)" "$work/src" || echo "$fault"; done)
[ -z "$missing" ] || { echo "faults that did not go in: $missing"; exit 1; }

rustc --edition 2021 --crate-type staticlib --crate-name stand_in -C opt-level=2 -A warnings \
    -o "$work/libstand_in.a" "$work/stand-in/lib.rs"
# Only the header's names stay visible, so that the stand-in's own runtime does not meet the harness's. The sections taken out
# hold what only the compiler reads, and other versions of ar cannot read it.
names=$(grep -o 'fn burnishpeg_[a-z]*' stand-in/lib.rs | sed 's/fn //')
ld -r --force-group-allocation -o "$work/stand_in.o" $(printf -- '-u %s ' $names) "$work/libstand_in.a"
objcopy --wildcard --keep-global-symbol='burnishpeg_*' -R .llvmbc -R .llvmcmd "$work/stand_in.o"
ar rcs "$work/libburnishpeg.a" "$work/stand_in.o"
BURNISHPEG_LIB=$work cargo build --release --offline -j1 --quiet --target-dir target/faults

missed=0
tried=${*:-$(seq 0 "$last")}
for fault in $tried; do
    status=0
    FAULT=$fault target/faults/release/differential short >"$work/out" || status=$?
    family=$(grep ' comparisons; accepted' "$work/out" | tail -2 | head -1 | cut -d: -f1 | tr -s ' ')
    case "$fault $status" in
        "0 0") echo "no fault: no difference" ;;
        0*) echo "no fault: status $status"; missed=$((missed + 1)) ;;
        *" 1") echo "fault $fault: found in$family" ;;
        *) echo "fault $fault: status $status, MISSED"; missed=$((missed + 1)) ;;
    esac
done
echo "tried: $(echo $tried | wc -w), missed: $missed"
[ "$missed" -eq 0 ]
