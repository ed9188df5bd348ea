#!/bin/sh
# Runs the built program from outside, once for each status and for each way in which the host can fail it, and compares
# what it prints, what it complains, and what files hold.
#
#     examples/check.sh
#
# The built program is the one that `rt run` in crates/squeeze leaves there, or SQUEEZE where that is set. It needs a
# shell, python3 and diff.
set -u

SQUEEZE=$(realpath "${SQUEEZE:-$(dirname "$0")/../crates/squeeze/out/squeeze}")
top=$(realpath "$(dirname "$0")/..")
folder=$(mktemp -d)
trap 'chmod -R u+w "$folder"; rm -rf "$folder"' EXIT
cd "$folder"
failed=0
passed=0

# Small files whose words stand among the cases of the commands.
python3 - "$top/crates/test_commands/data/files.txt" <<'PYTHON'
import sys
for line in open(sys.argv[1]):
    name, _, form = line.strip().partition(" | ")
    if form.startswith("words ") and name in ("shared-upper-half", "usual-link"):
        words = []
        for word in form.split()[1:]:
            number, _, times = word.partition("*")
            words += [int(number, 16)] * (int(times, 16) if times else 1)
        open(name, "wb").write(b"".join(w.to_bytes(4, "little") for w in words))
PYTHON
cp "$top/examples/meter/meter.elf" meter
cp "$top/crates/squeeze/data/a" smallest
: > empty
machine="1000 1048576 65536"

# check STATUS PRINTED COMPLAINED WORD..
check() {
    status=$1 printed=$2 complained=$3
    shift 3
    "$SQUEEZE" "$@" > printed 2> complained
    found=$?
    if [ "$found" = "$status" ] && [ "$(tail -n 1 printed)" = "$printed" ] && [ "$(cat complained)" = "$complained" ]; then
        passed=$((passed + 1))
    else
        failed=$((failed + 1))
        echo "squeeze $(echo "$*" | cut -c 1-80): wanted $status '$printed' '$complained', found $found '$(tail -n 1 printed)' '$(cat complained)'"
    fi
}

# holds FILE OTHER: the two files are the same
holds() {
    if cmp -s "$1" "$2"; then passed=$((passed + 1)); else failed=$((failed + 1)); echo "$1 is not $2"; fi
}

many=$(seq 1 3000 | tr '\n' ' ')

# 0
check 0 "text 820 -> 668, loaded 1044 -> 892" "" pack meter out
check 0 "text 668 -> 668, loaded 892 -> 892" "" pack out again
holds again out
check 0 "text 16 -> 16, loaded 16 -> 16" "" pack smallest out
holds out smallest
check 0 "hex 60" "" hex again text.hex
check 0 "same" "" hexcheck again text.hex
check 0 '{"loaded_after":16,"loaded_before":16,"moved":0,"procedures":0,"rows":{"C":0,"J1":0,"J2":0,"J3":0,"O1":0,"O2":0,"O3":0,"O4":0,"T":0,"U":0},"text_after":16,"text_before":16,"unreached":0}' "" size smallest
check 0 "trial 0 8: text 244 -> 232, again 232" "" trial 0 8
printf 'squeeze certificate 1\nend\n' > cert
check 0 "proved 0" "" check smallest smallest cert
check 0 "text 820 -> 668, loaded 1044 -> 892" "" prove meter proved proof
check 0 "proved 14" "" check meter proved proof
check 0 "text 820 -> 668, loaded 1044 -> 892" "" fold meter folded
check 0 "text 668 -> 668, loaded 892 -> 892" "" pack folded again
holds again folded
check 8 "" "no 0" check meter meter proof
check 0 "" "" names smallest cert
check 8 "" "no 1" names smallest empty
check 0 "exit 7" "" run smallest empty $machine
check 0 "exit 7" "" watch smallest empty $machine
check 0 "exit 0" "" run usual-link empty $machine
# shellcheck disable=SC2086
check 0 "exit 7" "" run smallest empty $machine $many

# 1: words without a form, many of them, and one that is no text
check 1 "" "words"
check 1 "" "words" pack smallest
check 1 "" "words" names smallest
check 1 "" "words" pack smallest out more
check 1 "" "words" prove smallest out out
check 1 "" "words" fold smallest
check 1 "" "words" size smallest out
check 1 "" "words" trial 0 4001
check 1 "" "words" check smallest smallest
# shellcheck disable=SC2086
check 1 "" "words" pack $many
check 1 "" "words" run smallest empty 010 1048576 65536
check 1 "" "words" pack "$(printf 'a\377')" out

# 2: a file that isn't there, a folder, a name that is too long, and an OUT that can't be written
check 2 "" "desk load" pack missing out
check 2 "" "desk load" pack . out
check 2 "" "desk load" size missing
check 2 "" "desk load" check smallest smallest missing
check 2 "" "desk load" pack "$(printf 'n%.0s' $(seq 1 5000))" out
check 2 "" "desk store" pack smallest missing/out
check 2 "" "desk store" fold smallest missing/out
check 2 "" "desk store" pack smallest .
check 2 "" "desk load" run smallest missing $machine

# 3
check 3 "" "refused 2 0x00000000" pack empty out
check 3 "" "refused 2 0x00000000" size empty
check 3 "" "refused 2 0x00000000" check smallest empty missing
check 3 "" "refused 2 0x00000000" run empty missing $machine
holds out smallest

# 4: more than there is memory for
head -c 134217728 /dev/zero > big
(
    ulimit -v 100000
    check 4 "" "memory" pack big out
    [ "$failed" = 0 ]
) && passed=$((passed + 1)) || failed=$((failed + 1))
rm big
holds out smallest

# 5, 6, 7
check 5 "break half at 0x00010008" "" watch shared-upper-half empty $machine
check 6 "limit" "" run smallest empty 2 1048576 65536
check 6 "limit" "" watch smallest empty 2 1048576 65536
check 7 "" "bad start" run smallest empty 10 65536 16

# 8: a text of another file, and one without its last record
check 8 "" "no 0" hexcheck smallest text.hex
sed '$d' text.hex > cut.hex
check 8 "" "no 60" hexcheck meter cut.hex

# and a certificate that leads to another file, and an empty one
check 8 "" "no 0" check meter again cert
check 8 "" "no 1" check meter again empty

# Printing to a full device
if [ -e /dev/full ]; then
    "$SQUEEZE" pack smallest out > /dev/full 2> complained
    if [ $? = 2 ] && [ "$(cat complained)" = "desk print" ]; then
        passed=$((passed + 1))
    else
        failed=$((failed + 1))
        echo "a full device: $(cat complained)"
    fi
    holds out smallest
fi

# What is no plain file, and names that are too long
mkdir folder
check 2 "" "desk load" pack folder out
mkfifo pipe
cat meter > pipe &
check 0 "text 820 -> 668, loaded 1044 -> 892" "" pack pipe out
wait
check 3 "" "refused 1" pack /dev/zero out
long=$(printf 'a%.0s' $(seq 1 4096))
check 2 "" "desk load" pack "$long" out
check 2 "" "desk store" pack meter "$long"

# Printing into a pipe that nobody reads, and onto nothing; what was stored before that is whole
(sleep 1; "$SQUEEZE" pack meter again 2> complained; echo $? > status) | true
if [ "$(cat status)" = 2 ] && [ "$(cat complained)" = "desk print" ]; then passed=$((passed + 1)); else failed=$((failed + 1)); echo "a closed pipe: $(cat complained)"; fi
holds again out
"$SQUEEZE" pack meter again 2> complained >&-
if [ $? = 2 ] && [ "$(cat complained)" = "desk print" ]; then passed=$((passed + 1)); else failed=$((failed + 1)); echo "no output: $(cat complained)"; fi

# A file that grows while it is read: what was read of it is packed
cp meter grown
(for _ in $(seq 1 300); do printf 'x' >> grown; done) &
check 0 "text 820 -> 668, loaded 1044 -> 892" "" pack grown again
wait
holds again out

# Storing to a full disk, where one can be made: IN stays
mkdir full
if mount -t tmpfs -o size=4k tmpfs full 2> complained; then
    cp meter kept
    head -c 4096 /dev/zero > full/all
    check 2 "" "desk store" pack meter full/out
    holds meter kept
    umount full
fi

echo "$passed passed, $failed failed"
[ "$failed" = 0 ]
