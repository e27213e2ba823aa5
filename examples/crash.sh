#!/usr/bin/env bash
# Kills quizd a hundred times (kill -9) while it answers a script over a folder, and counts the acknowledged lines that are there afterwards: each is
# asked again, with its key, and has to be told what it was told before. The first argument is how often it is killed.
#
# A line is acknowledged once its reply, with its line feed, was written. What was in flight when the program was killed may be there or not.
here=$(cd "$(dirname "$0")" && pwd)
quizd=$here/../quizd
kills=${1:-100}
room=$(mktemp -d)
trap 'rm -rf "$room"' EXIT
school=$room/school
cd "$room" || exit 1

"$quizd" found "$school" 2 root >/dev/null || exit 1
{
    echo '100 root a1 import Question\sone\s{T}'
    echo '100 root a2 quiz Quiz deferredfeedback'
    echo '100 root a3 slot 1 1 1'
    echo '100 root a4 ready 1'
    for n in $(seq 1 20); do echo "100 root u$n user s$n student s$n"; done
    for n in $(seq 1 20); do echo "200 s$n k start 1"; done
} >setting_up
"$quizd" script "$school" <setting_up >first || exit 1

# what is asked: saves with a key each, by the students in turn
saves() {
    local round=$1 line
    for line in $(seq 1 2000); do
        local student=$((1 + line % 20))
        echo "300 s$student r$round-$line save $((student + 1)).1 1 0 pick:$((1 + line % 2))"
    done
}

: >asked
: >told
for round in $(seq 1 "$kills"); do
    saves "$round" >round
    "$quizd" script "$school" <round >out &
    program=$!
    sleep "0.$(printf '%03d' $((RANDOM % 200 + 20)))"
    kill -9 "$program" 2>/dev/null
    wait "$program" 2>/dev/null
    # only whole lines are acknowledged
    whole=$(tr -cd '\n' <out | wc -c)
    head -n "$whole" out >>told
    head -n "$whole" round >>asked
done

"$quizd" script "$school" <asked >again || {
    echo "the folder isn't loaded: status $?"
    cat again
    exit 1
}
acknowledged=$(wc -l <told)
lost=$(diff told again | grep -c '^[<>]')
refused=$(grep -cv '^ok' told)
echo "killed $kills times: $acknowledged acknowledged lines, $refused of them refusals, $lost told otherwise afterwards"
[ "$acknowledged" -gt 0 ] && [ "$lost" = 0 ]
