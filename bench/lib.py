"""What the benchmarks share: the program, schools, servers that are stopped whatever happens, rounds, and rows of the
table of `bench/all`.

The program is that of the environment variable QUIZD, or crates/quizd/out/quizd, which is built first. A file that
BENCH_ROWS names gets the rows."""
import contextlib
import ctypes
import multiprocessing
import os
import signal
import socket
import statistics
import subprocess
import sys
import tempfile
import threading
import time
from pathlib import Path

TOP = Path(__file__).resolve().parent.parent
MEMORY = "/dev/shm"  # a file system in memory, where a sync costs nothing
ROUNDS = 5
LIBC = ctypes.CDLL(None)
median = statistics.median


class Otherwise(Exception):
    """A reply, or a program, isn't as it has to be."""


def program(hours=1):
    """The program, built. From then on a benchmark has so many hours at most, so that it ends by itself."""
    path = built()
    signal.alarm(hours * 3600)
    return path


def built():
    if "QUIZD" in os.environ:
        return os.environ["QUIZD"]
    subprocess.run([TOP / "quizd", "replay"], stdin=subprocess.DEVNULL, stdout=subprocess.DEVNULL)
    return str(TOP / "crates/quizd/out/quizd")


def main(body):
    """Runs a benchmark. Where it is stopped, or something is otherwise, the servers that it began are stopped first."""
    signal.signal(signal.SIGTERM, lambda *_: sys.exit(143))
    signal.signal(signal.SIGALRM, lambda *_: sys.exit("it took too long"))
    try:
        body()
    except Otherwise as fault:
        sys.exit(f"{fault}")


def numbers(text):
    """The value of an option as 1,4,64."""
    return [int(word) for word in text.split(",")]


def room(where):
    """A folder of its own, which is taken away at the end: in a folder, or in memory."""
    return tempfile.TemporaryDirectory(dir=where)


def rounds(ways, count):
    """Runs each way once a round, in another order from round to round. Gives what each gave, round by round."""
    found = {name: [] for name in ways}
    for nth in range(count):
        first = nth % len(ways)
        for name in [*ways][first:] + [*ways][:first]:
            found[name].append(ways[name]())
    return found


def told(rates):
    return f"{median(rates):,.0f} ({min(rates):,.0f} to {max(rates):,.0f})"


def row(work, figure, peer="", ratio=None, least=None, most=None, of=None):
    """Prints a line, and puts it as a row into the table of `bench/all`: what was done, the figure, the peer with its
    figure, and the ratio. The aim is the least or most that the ratio may be, or else what is given as `of`."""
    judged = ratio if of is None else of
    aim, met = "none", ""
    if least is not None:
        aim, met = f"at least {least:.3g}", "met" if judged >= least else "missed"
    if most is not None:
        aim, met = f"at most {most:.3g}", "met" if judged <= most else "missed"
    words = [work, figure, peer, "" if ratio is None else f"{ratio:.2f}", aim, met]
    print("; ".join(word for word in words if word and word != "none"), flush=True)
    if "BENCH_ROWS" in os.environ:
        with open(os.environ["BENCH_ROWS"], "a") as table:
            table.write("| " + " | ".join(words) + " |\n")


def spent(command, given=os.devnull, told=os.devnull):
    """The seconds of a run of a command, and its greatest memory in bytes as GNU time tells it: a process that Python
    begins is told to have held what Python held then."""
    with open(given, "rb") as source, open(told, "wb") as sink, tempfile.NamedTemporaryFile("r") as peak:
        begun = time.perf_counter()
        timed = ["/usr/bin/time", "-q", "-f", "%M", "-o", peak.name, *command]
        process = subprocess.Popen(timed, stdin=source, stdout=sink, start_new_session=True)
        try:
            status = process.wait()
        except BaseException:  # this script is stopped
            end_all(process)
            raise
        seconds = time.perf_counter() - begun
        if status:
            raise Otherwise(f"{command} ended with status {status}")
        return seconds, int(peak.read()) * 1024


# Schools. The students are the users from 2 on, and `s7` is the token of user 7.


def setting_up(slots, users, text="Question"):
    """The lines that make a quiz of so many true-false questions, of which true is right, and its students."""
    questions = r"\n\n".join(rf"::Question\s{n}::{text}\s{n}\s{{T}}" for n in range(1, slots + 1))
    yield f"100 root a1 import {questions}"
    yield "100 root a2 quiz Quiz deferredfeedback"
    for n in range(1, slots + 1):
        yield f"100 root s{n} slot 1 {n} 1"
    yield "100 root a3 ready 1"
    for user in users:
        yield f"100 root u{user} user s{user} student s{user}"


def found(quizd, folder, shards, lines):
    """Founds a school in a folder, and asks the lines of it, each of which has to be accepted."""
    subprocess.run([quizd, "found", folder, str(shards), "root"], check=True, stdout=subprocess.DEVNULL)
    told_all([quizd, "script", folder], lines)


def told_all(command, lines):
    """Asks lines of a program that answers each with a line, each of which has to be accepted."""
    text = "".join(line + "\n" for line in lines)
    said = subprocess.run(command, input=text, capture_output=True, text=True, check=True).stdout
    accepted(text.splitlines(), said.splitlines())


def accepted(lines, replies):
    bad = [f"{line[:100]}: {reply[:100]}" for line, reply in zip(lines, replies) if not reply.startswith("ok ")]
    if bad or len(lines) != len(replies):
        raise Otherwise(f"{len(lines)} lines, {len(replies)} replies, {len(bad)} of them refused: {bad[:1]}")


class Script:
    """A program that answers each line with a line: `quizd script`, or its peer."""

    def __init__(self, command):
        self.process = subprocess.Popen(command, stdin=subprocess.PIPE, stdout=subprocess.PIPE, preexec_fn=ends_with_me)
        self.memory_at_first = memory(self.process.pid)

    def ask(self, lines):
        """Gives the lines to the program, and returns the seconds until it answered them all, and the replies."""
        data = "".join(line + "\n" for line in lines).encode()
        giver = threading.Thread(target=self.give, args=(data,))
        replies, count = [], 0
        begun = time.perf_counter()
        giver.start()
        while count < len(lines):
            piece = self.process.stdout.read1(1 << 20)
            if not piece:
                raise Otherwise("a program ended early")
            replies.append(piece)
            count += piece.count(b"\n")
        seconds = time.perf_counter() - begun
        giver.join()
        return seconds, b"".join(replies).decode().splitlines()

    def give(self, data):
        with contextlib.suppress(BrokenPipeError):
            self.process.stdin.write(data)
            self.process.stdin.flush()

    def held(self):
        """The bytes that it holds now, without what it held when it began."""
        return memory(self.process.pid) - self.memory_at_first

    def __enter__(self):
        return self

    def __exit__(self, kind, *_):
        if kind:
            self.process.kill()
        self.process.stdin.close()
        if self.process.wait() and not kind:
            raise Otherwise("a program failed")


# Servers.


def memory(pid, what="VmRSS"):
    """The bytes that a process holds, or with VmHWM the most that it held."""
    status = Path(f"/proc/{pid}/status").read_text()
    return next(int(line.split()[1]) * 1024 for line in status.splitlines() if line.startswith(what))


def processors(pid):
    """The seconds of processors that a process took so far."""
    words = Path(f"/proc/{pid}/stat").read_text().rpartition(")")[2].split()
    return (int(words[11]) + int(words[12])) / os.sysconf("SC_CLK_TCK")


def ends_with_me():
    """For a process that begins: it is told to end as soon as the one that began it ends, however that comes."""
    LIBC.prctl(1, signal.SIGTERM)


def process(body, *words):
    """A process that does a function with these words, and ends when this one ends."""

    def within():
        signal.signal(signal.SIGTERM, signal.SIG_DFL)
        ends_with_me()
        body(*words)

    begun = multiprocessing.get_context("fork").Process(target=within, daemon=True)
    begun.start()
    return begun


def free_port():
    with socket.socket() as it:
        it.bind(("127.0.0.1", 0))
        return it.getsockname()[1]


@contextlib.contextmanager
def running(command, port, **more):
    """A server, from when it listens at its port."""
    silent = {"stdin": subprocess.DEVNULL, "stdout": subprocess.DEVNULL, "start_new_session": True}
    server = subprocess.Popen(command, preexec_fn=ends_with_me, **silent, **more)
    try:
        until_it_listens(server, port)
        yield server
    finally:
        server.terminate()
        try:
            server.wait(5)
        except subprocess.TimeoutExpired:
            end_all(server)


def end_all(begun):
    """Ends a process that leads a session and wasn't waited for, and those that it began."""
    os.killpg(begun.pid, signal.SIGKILL)
    begun.wait()


def until_it_listens(server, port):
    while server.poll() is None:
        try:
            socket.create_connection(("127.0.0.1", port)).close()
            return
        except ConnectionRefusedError:
            time.sleep(0.01)
    raise Otherwise(f"{server.args[0]} ended with status {server.returncode} instead of serving")


def serving(quizd, folder, port, workers, regraders=0, command="serve"):
    """A command that serves links: by so many workers, or where it polls by so many visits."""
    words = ["1000000000", workers] if command == "poll" else [workers, regraders, "1000000000"]
    return running([quizd, command, folder, str(port), *map(str, words)], port)


@contextlib.contextmanager
def nginx(folder, port):
    """nginx with a worker for each processor, over the files of a folder. Its other settings are its own."""
    own = Path(folder) / "nginx"
    own.mkdir()
    kinds = ("client_body", "proxy", "fastcgi", "uwsgi", "scgi")
    places = " ".join(f"{kind}_temp_path {own}/{kind};" for kind in kinds)
    config = own / "nginx.conf"
    config.write_text(f"""daemon off; worker_processes auto; pid {own}/pid; error_log {own}/errors; events {{}}
{"user root;" if os.getuid() == 0 else ""}
http {{ access_log off; default_type application/json; {places} server {{ listen 127.0.0.1:{port}; root {folder}; }} }}
""")
    search = os.environ["PATH"] + ":/usr/sbin"
    command = ["nginx", "-c", str(config), "-e", f"{own}/errors"]
    with running(command, port, env={**os.environ, "PATH": search}) as server:
        yield server
