"""The clients of `serve` and `report`: processes that save and view over kept links, and compare each reply with the
one that it has to be.

Each client has a link that it keeps for a thousand requests, and students of its own, whom it takes in a new order each
time around. It sends a few requests before it reads the replies of those before (`ahead`), so that a worker doesn't
wait for a client that was just answered."""
import contextlib
import json
import multiprocessing
import random
import socket
import time

import lib
from lib import Otherwise

SLOTS, REQUESTS_A_LINK, STEPS_A_SLOT = 10, 1_000, 10_000
PAUSE = 0.3  # so that every client waits at the line when a measuring begins


def asking(token, members):
    body = json.dumps(members, separators=(",", ":")).encode()
    fields = ["Host: localhost", f"Authorization: Bearer {token}", f"Content-Length: {len(body)}"]
    return "\r\n".join(["POST /api/ask HTTP/1.1", *fields, "", ""]).encode() + body


def telling(place, *words):
    return json.dumps({"ok": True, "place": place, "words": list(words)}, separators=(",", ":")).encode()


class Student:
    """What a student has asked, whose attempt was started alone, so that the reply to the next request is known."""

    def __init__(self, user):
        self.token, self.attempt = f"s{user}", f"{user}.1"
        self.records = 1
        self.steps = [0] * SLOTS

    def save(self):
        """A save in the next slot, with a key and a response that aren't those before."""
        slot = (self.records - 1) % SLOTS
        pick = 1 + self.steps[slot] % 2
        self.records += 1
        self.steps[slot] += 1
        if self.steps[slot] > STEPS_A_SLOT:
            raise Otherwise("a slot takes no more steps: measure for fewer seconds, or with more clients")
        named = {"do": "save", "key": f"k{self.records}", "attempt": self.attempt, "slot": slot + 1}
        asked = {**named, "certainty": 0, "response": f"pick:{pick}"}
        return asking(self.token, asked), telling(self.records, "step", "complete", "-")

    def view(self):
        slot = random.randrange(SLOTS)
        state = "complete" if self.steps[slot] else "todo"
        asked = {"do": "view", "attempt": self.attempt, "slot": slot + 1}
        return asking(self.token, asked), telling(self.records, "slot", state, "-", "1", str(self.steps[slot]))


class Link:
    """A link that is kept for a thousand requests, and then opened anew."""

    def __init__(self, port, ahead):
        self.port, self.ahead = port, ahead
        self.socket, self.left, self.held = None, 0, b""

    def batch(self):
        """How many requests may be sent next."""
        return min(self.ahead, self.left or REQUESTS_A_LINK)

    def ask(self, requests):
        """Sends the requests and gives the heads and bodies of their responses."""
        if self.socket is None:
            self.socket = socket.create_connection(("127.0.0.1", self.port), timeout=60)
            self.socket.setsockopt(socket.IPPROTO_TCP, socket.TCP_NODELAY, 1)
            self.left = REQUESTS_A_LINK
        self.socket.sendall(b"".join(requests))
        responses = [self.response() for _ in requests]
        self.left -= len(requests)
        if self.left == 0:
            self.close()
        return responses

    def response(self):
        while True:
            end = self.held.find(b"\r\n\r\n")
            if end >= 0:
                head = self.held[:end]
                begin, length = end + 4, int(head.split(b"Content-Length: ", 1)[1].split(b"\r\n", 1)[0])
                if len(self.held) >= begin + length:
                    body, self.held = self.held[begin:begin + length], self.held[begin + length:]
                    return head, body
            piece = self.socket.recv(1 << 16)
            if not piece:
                raise Otherwise("the program closed a link in the middle")
            self.held += piece

    def close(self):
        if self.socket is not None:
            self.socket.close()
        self.socket, self.held = None, b""


def answered(link, pairs):
    """Asks, and compares each response with the reply that it has to be."""
    for (asked, reply), (head, body) in zip(pairs, link.ask([asked for asked, _ in pairs])):
        if not head.startswith(b"HTTP/1.1 200 ") or body != reply:
            told = f"{head.splitlines()[0].decode()}: {body.decode(errors='replace')}"
            raise Otherwise(f"asked {asked.decode()}\n  wanted 200: {reply.decode()}\n  told {told}")


def measured(link, students, what, begin, end):
    """How many requests were answered from the one moment to the other, and the seconds of a processor that asking
    took. What was sent by then is still waited for, so that nothing is in flight behind."""
    order, count = [], 0
    while time.monotonic() < begin:
        time.sleep(0.001)
    cost = time.process_time()
    while time.monotonic() < end:
        pairs = []
        for _ in range(link.batch()):
            if not order:
                order = random.sample(students, len(students))
            pairs.append(what(order.pop()))
        answered(link, pairs)
        if time.monotonic() <= end:
            count += len(pairs)
    link.close()
    return count, time.process_time() - cost


def client(port, ahead, users, pipe, reply):
    """A process: again and again it is told what to ask, from when and until when, and tells how many requests were
    answered, and what they cost it. Where a reply is given, a peer answers it to every request."""
    students = [Student(user) for user in users]
    link = Link(port, ahead)
    random.seed(users[0])
    try:
        while True:
            what, begin, end = pipe.recv()
            pipe.send(measured(link, students, lambda student: replied(getattr(student, what)(), reply), begin, end))
    except EOFError:
        return
    except Otherwise as fault:
        pipe.send(str(fault))
    except (OSError, LookupError, ValueError) as fault:
        pipe.send(f"{type(fault).__name__}: {fault}")


def replied(pair, reply):
    return pair if reply is None else (pair[0], reply)


@contextlib.contextmanager
def clients(port, ahead, users, reply=None):
    """The pipes of a client for each of the lists of users."""
    begun = []
    try:
        for mine in users:
            here, there = multiprocessing.Pipe()
            process = lib.process(client, port, ahead, mine, there, reply)
            there.close()
            begun.append((process, here))
        yield [here for _, here in begun]
    finally:
        for process, _ in begun:
            process.terminate()
            process.join()


def span(pipes, what, seconds):
    """All clients ask for so long. Gives the requests a second that were answered, and the processors that the clients
    took."""
    begin = time.monotonic() + PAUSE
    for pipe in pipes:
        pipe.send((what, begin, begin + seconds))
    told = [pipe.recv() for pipe in pipes]
    for each in told:
        if isinstance(each, str):
            raise Otherwise(each)
    return sum(count for count, _ in told) / seconds, sum(cost for _, cost in told) / seconds
