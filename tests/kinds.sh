#!/usr/bin/env bash
# A log position and a place in a queue are different kinds of number: programs that pass one for the other are refused by their types, before
# anything is proved. They cannot stand in must-fail/, whose programs have to reach the prover. Run after `make`, so that the crates below are built;
# prints what does not hold, exit 1 if anything does not.
set -u
cd "$(dirname "$0")/.." || exit 1
tried=$(mktemp -d)
trap 'rm -rf "$tried"' EXIT
# A copy, over the crates as they are built here: `rt` makes such files anew and never writes into them, so links serve.
cp crates.txt "$tried"
for crate in crates/*; do
    mkdir -p "$tried/$crate/out"
    for part in src specs proofs; do
        [ ! -d "$crate/$part" ] || cp -r "$crate/$part" "$tried/$crate"
    done
    [ ! -d "$crate/out/rlib" ] || cp -rl "$crate/out/rlib" "$tried/$crate/out" 2> /dev/null || cp -r "$crate/out/rlib" "$tried/$crate/out"
done
faults=0

# refused CRATE EXPECTED FOUND OLD NEW: the crate, with NEW where OLD stands, once, is refused for FOUND where EXPECTED is asked for
refused() {
    local source="crates/$1/src/lib.rt" said
    if [ "$(grep -cF -- "$4" "$source")" != 1 ]; then
        echo "$source: '$4' does not stand there once"
        faults=$((faults + 1))
        return
    fi
    OLD=$4 NEW=$5 python3 -c 'import os, sys; print(open(sys.argv[1]).read().replace(os.environ["OLD"], os.environ["NEW"]), end="")' "$source" > "$tried/$source"
    # No function is to be proved: only what is found before any proof is asked for.
    said=$(cd "$tried/crates/$1" && rt check --only "" 2>&1)
    cp "$source" "$tried/$source"
    if ! grep -qF "error[mismatched-types]: expected \`$2\`, found \`$3\`" <<< "$said"; then
        echo "$1: '$5' for '$4' is not refused by its type: $(tail -n 1 <<< "$said" | cut -c 1-200)"
        faults=$((faults + 1))
    fi
}

refused dispatch_step QueueOffset LogPosition 'row, queue_offset, entries' 'row, position, entries'
refused dispatch_request QueueOffset LogPosition 'queue_offset: QueueOffset(codec::get_u64(own, Record::QUEUE_OFFSET)),' 'queue_offset: p,'
refused swistopal QueueOffset LogPosition 'QueueOffset(start)' 'LogPosition(start)'
refused interface LogPosition QueueOffset 'first_position: LogPosition(sizes[1]),' 'first_position: units::QueueOffset(sizes[1]),'
[ "$faults" = 0 ] || exit 1
echo "a log position is taken for a place in a queue nowhere"
