#!/bin/sh
# Counts the runs of a script under 200,000 seeds by jobs of GNU parallel on this machine, as docs/MANY.md describes. The jobs are
# killed while they run, with GNU parallel itself, and resumed. The sum of what they have written has to be the tally that one call
# makes.
#
#     bench/many.sh [PROGRAM]
#
# PROGRAM is the built program, crates/pct_inspect/out/pct_inspect where none is named (./pct build makes it). GNU parallel has to be
# installed: the package `parallel` of Debian. The last line is `N passed, M failed`, and the status is 1 if M is not 0.

here=$(CDPATH='' cd -- "$(dirname -- "$0")/.." && pwd -P) || exit 1
program=$(realpath -- "${1:-$here/crates/pct_inspect/out/pct_inspect}") || exit 1
script=$here/examples/two_locks.pct
seeds=5000 last=200000
count=$((last / seeds))
passed=0 failed=0

for command in parallel setsid pkill; do
    command -v "$command" >/dev/null || { echo "many.sh: $command is not installed" >&2; exit 1; }
done
[ -x "$program" ] || { echo "many.sh: $program is no program: ./pct build makes it" >&2; exit 1; }
folder=$(mktemp -d) || exit 1
trap 'rm -rf "$folder"' EXIT
cd "$folder" || exit 1

check() {
    if [ "$2" = "$3" ]; then
        passed=$((passed + 1))
    else
        failed=$((failed + 1))
        printf 'FAILED %s: %s in the place of %s\n' "$1" "$2" "$3"
    fi
}

tallies() {
    find . -name '*.tally' | wc -l
}

# The jobs that the log does not have, each with a range of seeds. A file has its name once its tally is whole; before that its name has
# the number of the process, so that a job that is made again does not write to the file of one that still runs.
cat >jobs.sh <<END
seq 1 $seeds $last | parallel --jobs 2 --joblog log --resume-failed \
    '"$program" tally {} \$(({} + $seeds - 1)) <"$script" >{}.part.\$\$ && mv {}.part.\$\$ {}.tally'
END

# A session of its own, all of which is killed.
setsid sh jobs.sh 2>messages &
session=$!
while [ "$(tallies)" -lt 5 ] && kill -0 "$session" 2>/dev/null; do sleep 0.1; done
pkill -KILL -s "$session" && wait "$session" 2>/dev/null
killed=$(tallies)
check 'tallies before the jobs are killed' "$([ "$killed" -ge 5 ] && [ "$killed" -lt "$count" ] && echo some)" some

# What is there is not the whole: the last seeds are missing, or some in the middle.
cat -- *.tally | "$program" sum >half
check 'a sum of all seeds before the jobs are resumed' "$(grep -c "^tally 1 $last\$" half)" 0

sh jobs.sh 2>>messages
check 'status of the jobs that are resumed' $? 0
check 'tallies of all jobs' "$(tallies)" "$count"
check 'jobs in the log' "$(tail -n +2 log | cut -f 1 | sort -u | wc -l)" "$count"
check 'jobs that are made again' "$([ "$(tail -n +2 log | wc -l)" -le $((count + 2)) ] && echo few)" few
cat -- *.tally | "$program" sum >sum
check 'status of the sum' $? 0
"$program" tally 1 "$last" <"$script" >whole
check 'status of one tally' $? 0
check 'the sum' "$(cat sum)" "$(cat whole)"

[ "$failed" -eq 0 ] || cat messages
echo "$passed passed, $failed failed"
[ "$failed" -eq 0 ]
