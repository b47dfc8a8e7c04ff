#!/usr/bin/env bash
# Runs the listing program, of which no contract speaks, and ./list around it. Needs what tests/run has built by then:
# the listing program, and target-tests/second, which gives the listings that are not stored.
set -eu
cd "$(dirname "$0")/.."
program=crates/list/out/list
room=$(mktemp -d)
trap 'rm -rf "$room"' EXIT

fail() { echo "tests/list.sh: $*"; exit 1; }

# -- The program.

# A plate file on standard input, called $1, is listed as the file $2 has it, on standard output and nowhere else.
lists() {
  $program > "$room/out" 2> "$room/err" || fail "the listing program ended with status $? on $1"
  [ ! -s "$room/err" ] || fail "the listing program wrote to standard error, on $1"
  cmp -s "$room/out" "$2" || fail "the listing program lists $1 otherwise: $(diff "$room/out" "$2" | head -n 4)"
}

# The file $1, $2 bytes at a time: each piece is another process's, so that the reader has to wait in between.
drip() {
  local size k
  size=$(wc -c < "$1")
  for ((k = 0; k * $2 < size; k++)); do dd if="$1" bs="$2" skip=$k count=1 status=none; done
}

for plate in examples/*.fpl; do
  lists "$plate" "${plate%.fpl}.txt" < "$plate"
  drip "$plate" 7 | lists "$plate, 7 bytes at a time" "${plate%.fpl}.txt"
done

# An empty file; the longest plate file, of 600 channels; it and three examples with rubbish behind, up to and past what is read.
mkdir "$room/plates"
python3 - "$room/plates" << 'END'
import pathlib
import random
import sys

to = pathlib.Path(sys.argv[1])
pairs = [(p, (p + step) % 200) for step in (1, 2, 3) for p in range(200)]
longest = b"FPL" + bytes([1, 0, 200, 600 % 256, 600 // 256]) + bytes(sum(pairs, ()))
(to / "empty").write_bytes(b"")
(to / "longest").write_bytes(longest)
plates = {name: pathlib.Path(f"examples/{name}.fpl").read_bytes() for name in ("four", "five", "refused-9-repeated")}
for name, plate in [("longest", longest), *plates.items()]:
    for size in 1209, 1210, 5000, 100000:
        (to / f"{name}-{size}").write_bytes(plate + random.Random(size).randbytes(size - len(plate)))
END
for plate in "$room"/plates/*; do
  target-tests/second < "$plate" > "$room/listing"
  lists "${plate##*/}" "$room/listing" < "$plate"
  drip "$plate" 997 2> /dev/null | lists "${plate##*/}, 997 bytes at a time" "$room/listing"
done

# -- The command around it.

# ./list with the words from $4 on ends with status $1, says $2 on standard error, and prints the listings $3.
list_says() {
  local status=0
  ./list "${@:4}" > "$room/out" 2> "$room/err" || status=$?
  [ "$(cat "$room/err")" = "$2" ] || fail "./list ${*:4} said: $(cat "$room/err")"
  [ "$status" = "$1" ] || fail "./list ${*:4} ended with status $status, not $1"
  cat /dev/null $3 | cmp -s - "$room/out" || fail "./list ${*:4} printed something else than $3"
}

# What the refusal $1 with the place $2 is in words.
words() { sed -n "s/^$1 | .* | //p" include/refusals.txt | sed "s/%/$2/"; }

for plate in examples/*.fpl; do
  listing=${plate%.fpl}.txt
  read -r answer number place < <(grep -E '^(FLAT|STUCK|REFUSED) ' "$listing")
  case $answer in
    FLAT) list_says 0 '' "$listing" "$plate" ;;
    STUCK) list_says 1 "$(words 16 "$place")" "$listing" "$plate" ;;
    REFUSED) list_says 1 "refused: $(words "$number" "$place")" "$listing" "$plate" ;;
  esac
done

four=examples/four.fpl five=examples/five.fpl stuck="$(words 16 7)"
list_says 2 "no-such-file can't be read: there is no such file" '' no-such-file
list_says 2 "examples can't be read: it is a folder" '' examples
cp $four "$room/closed" && chmod 0 "$room/closed"
[ -r "$room/closed" ] || list_says 2 "$room/closed can't be read: it may not be read" '' "$room/closed"
list_says 0 '' 'examples/four.txt examples/wheel.txt' $four examples/wheel.fpl
list_says 1 "$five: $stuck" 'examples/five.txt examples/four.txt' $five $four
list_says 2 "no-such-file can't be read: there is no such file"$'\n'"$five: $stuck" 'examples/four.txt examples/five.txt' $four no-such-file $five
list_says 0 '' examples/four.txt < $four
list_says 1 "$stuck" examples/five.txt < <(drip $five 7)
list_says 2 "standard input can't be read" '' < examples
(cd examples && ../list four.fpl) | cmp - examples/four.txt

# It builds anew where a source is newer: once proved, nothing has to be proved, and the program is no older than its sources afterwards.
touch -d 2000-01-01 $program
./list $four > "$room/out" 2> "$room/err" && cmp -s "$room/out" examples/four.txt || fail "./list built anew otherwise: $(tail -n 3 "$room/err")"
touch -d 2000-01-01 $program
list_says 0 '' examples/four.txt $four
[ $program -nt crates/list/src/main.rt ] || fail "./list did not build anew"
