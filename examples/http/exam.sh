#!/usr/bin/env bash
# Sets up a school over HTTP, takes its quiz, and compares each answer with exam.out. Then a slow client, one that goes away in the
# middle, and requests that are sent before their answers are read. All of it by each command that serves links. Wants curl and python3.
# The port may be given as a word.
set -u
here=$(cd "$(dirname "$0")" && pwd)
port=${1:-8089}
work=$(mktemp -d)
failed=0
server=
trap 'kill "$server" 2>/dev/null; rm -rf "$work"' EXIT
# One link for each request, and four for the clients behind them.
links=$(($(grep -c . "$here/exam.txt") + 4))
quizd=("$here/../../quizd" ${UNPROVED:+--unproved})

# says NAME: tells how a comparison ended, by the status of the command before
says() {
    if [ $? = 0 ]; then echo "ok $1"; else echo "not ok $1"; failed=1; fi
}

# asked: what is answered to each request of the exam, by curl
asked() {
    while read -r token method path body; do
        words=(-s -X "$method" -w '\n%{http_code} %{content_type}' -o "$work/body")
        [ "$token" = - ] || words+=(-H "Authorization: Bearer $token")
        [ -z "$body" ] || words+=(--data-binary "$body")
        told=$(curl "${words[@]}" "http://127.0.0.1:$port$path")
        printf '%s ' "$(tail -n 1 <<<"$told")"
        cat "$work/body" 2>/dev/null
        printf '\n'
        rm -f "$work/body"
    done <"$here/exam.txt"
}

# others: clients of other sorts. The link that only looked whether the server listens was the first of the four.
others() {
    python3 - "$port" <<'END'
import socket, sys, time
port = int(sys.argv[1])
body = b'{"do":"grade","quiz":1,"user":2}'
request = b"POST /api/ask HTTP/1.1\r\nHost: localhost\r\nAuthorization: Bearer ann\r\nContent-Length: %d\r\n\r\n%s" % (len(body), body)
said = b'{"ok":true,"place":3,"words":["grade","10.00000"]}'

def answers(link, count):
    """So many responses, by the lengths that their heads tell."""
    held, bodies = b"", []
    while len(bodies) < count:
        end = held.find(b"\r\n\r\n")
        if end >= 0:
            length = int(held[:end].split(b"Content-Length: ")[1].split(b"\r\n")[0])
            if len(held) >= end + 4 + length:
                bodies.append(held[end + 4:end + 4 + length])
                held = held[end + 4 + length:]
                continue
        piece = link.recv(65536)
        if not piece:
            break
        held += piece
    return bodies

def tells(name, holds):
    print(("ok " if holds else "not ok ") + name)
    return holds

good = True
with socket.create_connection(("127.0.0.1", port)) as gone:
    gone.sendall(request[:70])
with socket.create_connection(("127.0.0.1", port)) as slow:
    for byte in request:
        slow.sendall(bytes([byte]))
        time.sleep(0.01)
    good &= tells("a slow client, behind one that went away", answers(slow, 1) == [said])
with socket.create_connection(("127.0.0.1", port)) as many:
    many.sendall(request * 100)
    good &= tells("a hundred requests at once", answers(many, 100) == [said] * 100)
sys.exit(0 if good else 1)
END
}

# exam SAID COMMAND WORD..: the exam over a school that a command serves at the port, with these words behind it, and what it says at the end
exam() {
    said=$1
    command=$2
    shift 2
    rm -rf "$work/school"
    "${quizd[@]}" found "$work/school" 1 root >/dev/null || exit 1
    "${quizd[@]}" "$command" "$work/school" "$port" "$@" >"$work/served" 2>"$work/errors" &
    server=$!
    for _ in $(seq 1200); do
        (exec 3<>"/dev/tcp/127.0.0.1/$port") 2>/dev/null && break
        sleep 0.1
    done
    asked >"$work/out"
    cmp -s "$work/out" "$here/exam.out"
    says "$command: an exam by curl"
    [ -s "$work/errors" ] && cat "$work/errors"
    others
    says "$command: clients of other sorts"
    wait "$server"
    [ $? = 0 ] && printf "$said" | cmp -s - "$work/served"
    says "$command: each link was served, and the program ended"
}

exam "served $links\n" serve 1 0 "$links"
exam "served $links\ngathered 10\n" audit 1 0 "$links"
exam "served $links\n" poll "$links" 4
exit $failed
