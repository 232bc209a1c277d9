#!/usr/bin/env bash
# Checks that the compiler turns down the misuse of tables, pools and fleets by types and borrows.
#
# Usage: tests/build_refusals.sh
#
# A type or borrow error does not reach the prover, so none of these can be a must-fail edit.
# The program below is accepted; each case changes one line of it, and must be refused there
# with the compiler's named error, and with no other.
set -euo pipefail
cd "$(dirname "$0")/.."

work=$(mktemp -d)
trap 'rm -rf "$work"' EXIT
checks=0
faults=0

# Checks a table, uses it, and only then writes to its bytes.
program=$(cat <<'PROGRAM'
use readings::number::Number;
use table::fault::Fault;
use table::table::Checked;
use table::table::Draft;
use table::table::check;

fn switches(table: &Checked) -> usize {
    table.switches()
}

fn clear(bytes: &mut [u8]) {
    for byte in bytes {
        *byte = 0;
    }
}

fn check_and_clear(bytes: &mut [u8]) -> Result<usize, Fault> {
    let mut place = Checked::worked();
    let draft = Draft::new(bytes);
    check::<Number>(draft, &mut place)?;
    let count = switches(&place);
    clear(bytes);
    Ok(count)
}

fn main() {
    let mut bytes = [0u8; 172];
    let _ = check_and_clear(&mut bytes);
}
PROGRAM
)

# A repository with the crates as they stand and one program, `holder`, that is no part of this one.
libraries='readings table step carriers history fleet'
mkdir -p "$work/crates/holder/src"
for library in $libraries; do
    mkdir "$work/crates/$library"
    cp -r "crates/$library/src" "crates/$library/specs" "$work/crates/$library/"
    grep "^$library:" crates.txt >>"$work/crates.txt"
done
echo "holder: $libraries" >>"$work/crates.txt"

# The compiler on the program, which is then run: it proves nothing.
front_end() {
    (cd "$work/crates/holder" && rt try) >"$work/messages" 2>&1
}

# report OUTCOME LABEL : OUTCOME is accepted, refused or wrong.
report() {
    checks=$((checks + 1))
    if [ "$1" != wrong ]; then
        echo "$1: $2"
        return
    fi
    faults=$((faults + 1))
    echo "WRONG: $2" >&2
    head -c 2000 "$work/messages" >&2
}

accepted() { # LABEL
    printf '%s\n' "$program" >"$work/crates/holder/src/main.rt"
    : >"$work/messages"
    if front_end && grep -q '^run=ended status=0' "$work/messages"; then
        report accepted "$1"
    else
        report wrong "$1 is not accepted"
    fi
}

# refused LABEL ERROR OLD NEW : OLD stands once in the program and is replaced by NEW.
refused() {
    local label=$1 error=$2 old=$3 new=$4 rest line
    : >"$work/messages"
    rest=${program#*"$old"}
    if [ "$rest" = "$program" ] || [ "$rest" != "${rest#*"$old"}" ]; then
        report wrong "$label: the text to replace does not stand once in the program"
        return
    fi
    printf '%s\n' "${program/"$old"/"$new"}" >"$work/crates/holder/src/main.rt"
    line=$(grep -nF -- "$new" "$work/crates/holder/src/main.rt" | cut -d: -f1)
    if front_end; then
        report wrong "$label is accepted"
    elif [ "$(grep -c 'error\[' "$work/messages")" = 1 ] &&
        grep -q "main\.rt:$line:[0-9]*: error\[$error\]" "$work/messages"; then
        report refused "$label ($error)"
    else
        report wrong "$label is not refused with $error alone, in line $line:"
    fi
}

accepted "a program that uses a checked table and then writes to the bytes"
refused "a draft where a checked table is wanted" mismatched-types \
    'switches(&place)' 'switches(&Draft::new(bytes))'
refused "a write to the bytes of a checked table that is still to be used" borrow-e0506 \
    'let count = switches(&place);' 'bytes[7] = 17; let count = switches(&place);'
refused "a call that writes to the bytes of a checked table that is still to be used" borrow-e0502 \
    'let count = switches(&place);' 'clear(bytes); let count = switches(&place);'
refused "a write to the bytes of a draft that is still to be checked" borrow-e0506 \
    'check::<Number>(draft, &mut place)?;' 'bytes[7] = 17; check::<Number>(draft, &mut place)?;'
refused "a draft that check has taken, used again" borrow-e0382 \
    'let count = switches(&place);' 'check::<Number>(draft, &mut place)?; let count = switches(&place);'
refused "a write to a checked table itself" private-field \
    'let count = switches(&place);' 'place.switches = 17; let count = switches(&place);'

# Fetches a copy from a pool that it may only look at.
program=$(cat <<'PROGRAM'
use carriers::carrier::Carrier;
use carriers::frame_pool::FramePool;
use table::fault::Fault;

fn copy(pool: &FramePool, hand: &mut [u32]) -> Result<(), Fault> {
    pool.fetch(0, hand)
}

fn main() {
    let mut memory = [0u8; 176];
    let mut hand = [0u32; 16];
    let pool = FramePool::open(1, 3, 4, &mut memory);
    let _ = copy(&pool, &mut hand);
}
PROGRAM
)

accepted "a program that fetches from a pool that it may only look at"
refused "a fetch that alters the pool" write-to-immutable \
    'pool.fetch(0, hand)' 'pool.retire(0)'

# Opens a fleet on a checked table, and writes to the table's bytes only once the fleet is closed.
program=$(cat <<'PROGRAM'
use carriers::frame_pool::FramePool;
use fleet::fleet::Fleet;
use readings::number::Number;
use table::fault::Fault;
use table::table::Checked;
use table::table::Draft;
use table::table::check;

fn rehearse(bytes: &mut [u8], memory: &mut [u32], hand: &mut [u32], pool: FramePool) -> Result<(), Fault> {
    let mut place = Checked::worked();
    check::<Number>(Draft::new(bytes), &mut place)?;
    let mut ring = Fleet::<Number, FramePool>::open(&place, memory, hand, pool);
    let _ = ring.send(&place, memory, hand, 0);
    let pool = ring.close();
    bytes[7] = 17;
    drop(pool);
    Ok(())
}

fn main() {
    let mut bytes = [0u8; 172];
    let mut memory = [0u32; 69];
    let mut hand = [0u32; 16];
    let mut space = [0u8; 176];
    let _ = rehearse(&mut bytes, &mut memory, &mut hand, FramePool::open(1, 3, 4, &mut space));
}
PROGRAM
)

accepted "a program that closes its fleet and then writes to the table's bytes"
refused "a fleet opened on a draft" mismatched-types \
    'open(&place, memory' 'open(&Draft::new(bytes), memory'
refused "a write to the table's bytes before the fleet is closed" borrow-e0506 \
    'let pool = ring.close();' 'bytes[7] = 17; let pool = ring.close();'
refused "a fleet that is let go without being closed" linear-value-let-go \
    'let mut ring =' 'let lost = Fleet::<Number, FramePool>::open(&place, memory, hand, FramePool::open(1, 3, 4, &mut [])); let mut ring ='
refused "a call of a fleet that is closed" borrow-e0382 \
    'bytes[7] = 17;' 'let _ = ring.retire(0); bytes[7] = 17;'

echo "build refusals: $checks checks, $faults faults"
[ "$faults" = 0 ]
