"""What the trials of this folder share: exams of examples/scripts, taken line by line by the program over a folder, and told
apart from an undisturbed run by their replies and by the bytes of the files; and strace, which harms the program's calls.

The program is that of the environment variable QUIZD, or the one that ./quizd has built."""
import multiprocessing
import os
import re
import select
import shutil
import subprocess
import sys
import tempfile
import time
from concurrent.futures import ProcessPoolExecutor
from contextlib import contextmanager
from pathlib import Path

TOP = Path(__file__).resolve().parents[2]
SHARDS = 2
FILES = ["catalog.jnl", *(f"part-{shard:02}.jnl" for shard in range(SHARDS))]
EXAMS = ["whole_exam", "regrade_beside_a_live_attempt"]
BEGUN = b"QZJ1\x01\x00\x00\x00\x00"  # a header, and a gate that is shut
OPEN, SHUT = b"\x01", b"\x00"
PATIENCE = 60  # seconds for a reply
TRIES = 9  # of a line that is refused for a fault
SHOWN = 40  # differences
MEMORY = "/dev/shm"  # files that live in memory: what is tried is the program, and no medium

# The calls of the system that the program makes on the files of a folder.
CALLS = ["mkdir", "openat", "flock", "fsync", "fdatasync", "statx", "pread64", "pwrite64", "ftruncate"]


def program():
    if "QUIZD" in os.environ:
        return os.environ["QUIZD"]
    subprocess.run([TOP / "quizd", "replay"], stdin=subprocess.DEVNULL, stdout=subprocess.DEVNULL)
    return str(TOP / "crates/quizd/out/quizd")


@contextmanager
def room():
    """A folder for files of this trial."""
    with tempfile.TemporaryDirectory(dir=MEMORY if os.path.isdir(MEMORY) else None) as folder:
        yield Path(folder)


class Tally:
    """What a part of a trial did: its runs, the replies that were compared, and what differed."""

    def __init__(self, name):
        self.name, self.runs, self.lines, self.refused, self.differences = name, 0, 0, 0, []

    def expect(self, what, told, wanted):
        """Compares what was told with what is wanted."""
        if told != wanted:
            self.differences.append(f"{what}: told {told!r}, wanted {wanted!r}")
        return told == wanted

    def compare(self, what, told, wanted):
        """Compares replies, line by line."""
        self.lines += len(wanted)
        if not self.expect(f"{what}, number of replies", len(told), len(wanted)):
            return
        for place, (one, other) in enumerate(zip(told, wanted)):
            self.expect(f"{what}, line {place + 1}", one, other)

    def add(self, part):
        self.runs += part.runs
        self.lines += part.lines
        self.refused += part.refused
        self.differences += part.differences

    def tell(self):
        """Tells what it did on a line, and whether nothing differed."""
        for difference in self.differences[:SHOWN]:
            print(f"differs: {difference}")
        count = f"{self.runs} runs, {self.lines} lines, {self.refused} refused for a fault, {len(self.differences)} differ"
        print(f"{self.name}: {count}", flush=True)
        return not self.differences


def spread(name, work, tasks):
    """Does each task of a part of a trial, by several processes: `work` is told the task, and gives a tally. Whether nothing
    differed."""
    whole = Tally(name)
    with ProcessPoolExecutor(mp_context=multiprocessing.get_context("fork")) as beside:
        for part in beside.map(work, tasks):
            whole.add(part)
    return whole.tell()


def images(folder):
    """The files of a folder, by their names."""
    return {file.name: file.read_bytes() for file in folder.iterdir()}


def lists(folder, held=False):
    """The files of a folder, where nothing stands behind the last gate, or zeros where a program holds them. That gate is shut
    by any byte but 1; and a file that isn't longer than a header and a gate stands for no record, whatever it holds."""
    return {name: normal(without_zeros(image) if held else image) for name, image in images(folder).items()}


def without_zeros(image):
    """A file, cut behind the first gate that isn't open where nothing but zeros stands there."""
    gate = len(BEGUN) - 1
    while image[gate:gate + 1] == OPEN:
        gate += 5 + int.from_bytes(image[gate + 1:gate + 5], "little")
    return image if any(image[gate + 1:]) else image[:gate + 1]


def normal(image):
    if len(image) <= len(BEGUN):
        return BEGUN
    return image if image.endswith(OPEN) else image[:-1] + SHUT


def put(folder, files):
    """Makes a folder of these files, in the place of what stood there."""
    shutil.rmtree(folder, ignore_errors=True)
    folder.mkdir()
    for name, image in files.items():
        (folder / name).write_bytes(image)


def said_by_it(said):
    """What was written to standard error, without what strace says there."""
    return "".join(line for line in said.decode().splitlines(True) if not line.startswith("strace: "))


def replies_at_once(folder, lines):
    """The status of an undisturbed run, and the replies to lines that are given all at once."""
    given = "".join(line + "\n" for line in lines).encode()
    ended = subprocess.run([program(), "script", folder], input=given, stdout=subprocess.PIPE, timeout=PATIENCE)
    return ended.returncode, ended.stdout.decode().splitlines()


class Script:
    """The program answering a script over a folder, which is asked one line after the other."""

    def __init__(self, folder, before=(), **more):
        self.held = b""
        self.said = tempfile.TemporaryFile()
        words = [*before, program(), "script", folder]
        self.process = subprocess.Popen(
            words, stdin=subprocess.PIPE, stdout=subprocess.PIPE, stderr=self.said, bufsize=0, **more
        )

    def ask(self, line):
        """The reply to a line, or none where the program has ended."""
        try:
            self.process.stdin.write(line.encode() + b"\n")
        except BrokenPipeError:
            return None
        while b"\n" not in self.held:
            if not select.select([self.process.stdout], [], [], PATIENCE)[0]:
                self.process.kill()
                sys.exit(f"no reply to: {line}")
            piece = os.read(self.process.stdout.fileno(), 65536)
            if not piece:
                return None
            self.held += piece
        reply, _, self.held = self.held.partition(b"\n")
        return reply.decode()

    def end(self):
        """Ends the lines. The status, and what was written to standard output since, and to standard error."""
        self.process.stdin.close()
        written = self.held + self.process.stdout.read()
        status = self.process.wait(PATIENCE)
        self.process.stdout.close()
        self.said.seek(0)
        with self.said:
            return status, written, said_by_it(self.said.read())


class Exam:
    """The lines of an exam, with what an undisturbed run over a folder tells and leaves."""

    def __init__(self, name, near):
        self.name = name
        self.lines = (TOP / f"examples/scripts/{name}.txt").read_text().splitlines()
        folder = near / f"{name}.undisturbed"
        subprocess.run([program(), "found", folder, str(SHARDS), "root"], check=True, stdout=subprocess.DEVNULL)
        self.founded = images(folder)
        self.loads(folder)
        self.images, self.replies = [lists(folder)], []  # the files after so many lines, and the replies
        script = Script(folder)
        for line in self.lines:
            self.replies.append(script.ask(line))
            self.images.append(lists(folder, True))
        ended = script.end()
        self.again = self.loads(folder, self.lines)
        self.left = lists(folder)
        if ended != (0, b"", ""):
            sys.exit(f"an undisturbed run of {name} went wrong: {ended}")

    def loads(self, folder, lines=()):
        status, told = replies_at_once(folder, lines)
        if status or len(told) != len(lines):
            sys.exit(f"an undisturbed run of {self.name} ended with status {status}")
        return told

    def changes(self, place):
        """Whether a line puts a record."""
        return self.images[place] != self.images[place + 1]

    def asked(self, script, place, refusals, causes):
        """The reply to a line, which is asked again after a refusal for one of these causes, which are counted. `work` has no
        key: whether it stands is told by a look at the place that its reply would have told, or by a job that is done already.
        """
        before = len(refusals)
        for _ in range(TRIES):
            reply = script.ask(self.lines[place])
            if reply not in causes:
                done = len(refusals) > before and reply == self.replies[place].replace("jobdone", "alreadydone")
                return self.replies[place] if done else reply
            refusals.append(reply)
            if " - work " in self.lines[place] and self.stands(script, place, refusals, causes):
                return self.replies[place]
        return reply

    def stands(self, script, place, refusals, causes):
        look = self.lines[place].replace(" - work 1 0", " - grade 1 2")
        for _ in range(TRIES):
            reply = script.ask(look)
            if reply is None or reply not in causes:
                break
            refusals.append(reply)
        return reply is not None and int(reply.split()[1]) >= int(self.replies[place].split()[1])

    def taken(self, tally, what, script, causes, begin=0):
        """Asks the lines from a place on. How many were told until the program ended, and how many refusals there were."""
        refusals = []
        for place in range(begin, len(self.lines)):
            reply = self.asked(script, place, refusals, causes)
            if reply is None:
                return place, len(refusals)
            tally.lines += 1
            tally.expect(f"{what}, line {place + 1}", reply, self.replies[place])
        return len(self.lines), len(refusals)

    def same_afterwards(self, tally, what, folder, place=None):
        """Asks the lines from a place on, if any, and then all of them once more, and compares the replies and the files with
        those that follow an undisturbed run."""
        rest = [] if place is None else list(range(place, len(self.lines)))
        status, told = replies_at_once(folder, [self.lines[at] for at in rest] + self.lines)
        tally.expect(f"{what}, status afterwards", status, 0)
        tally.compare(f"{what}, afterwards", told, [self.replies[at] for at in rest] + self.again)
        tally.expect(f"{what}, the files", lists(folder) == self.left, True)

    def goes_on(self, tally, what, folder, told):
        """The school of a folder is the one after so many lines, or after one more, and goes on from there."""
        tally.expect(f"{what}, loading", replies_at_once(folder, []), (0, []))
        now = lists(folder)
        one_more = now != self.images[told]
        if one_more and not tally.expect(f"{what}, lists", now, self.images[min(told + 1, len(self.lines))]):
            return
        # Without a key the line would act twice.
        keyless = told < len(self.lines) and " - " in self.lines[told]
        self.same_afterwards(tally, what, folder, told + (one_more and keyless))


def listens(port, server):
    """Waits until a port is open, which is told by the system: a connection would be one of those that are served. Whether it
    was, before the program ended."""
    wanted = f":{port:04X} "
    for _ in range(50 * PATIENCE):
        with open("/proc/net/tcp") as ports:
            if any(" 0A " in line and wanted in line.split(" 0A ")[0] for line in ports):
                return True
        if server.poll() is not None:
            return False
        time.sleep(0.02)
    sys.exit("nothing listens")


# ---- strace


class Call:
    """A call of the system: its name, which call of that name it is, and what of it is told."""

    def __init__(self, name, nth, text):
        self.name, self.nth, self.text = name, nth, text
        self.failed = " = -1 " in text
        self.is_open = " = ?" in text or "<unfinished" in text
        texts = [bytes.fromhex(it.replace("\\x", "")) for it in re.findall(r"[\"<]((?:\\x[0-9a-f]{2})*)[\">]", text)]
        self.file = Path(texts[0].decode()).name if texts and name not in ("mkdir", "openat", "flock") else None
        self.piece = texts[1] if name == "pwrite64" else b""
        numbers = re.search(r"(\d+)\) +=|(\d+) <unfinished", text)
        self.at = int(numbers[1] or numbers[2]) if numbers else 0  # of a write its place, of a cut the size


def harmed(folder, log, faults=(), paths=()):
    """The words that run a program under strace, which logs the calls on the files of a folder, or on these paths alone, and
    does harm to some."""
    paths = paths or [folder, folder.parent, f"{folder}/..", *(folder / name for name in FILES)]
    words = ["strace", "-f", "-qqq", "-y", "-xx", "-s", "100000", "-o", str(log), "-e", f"trace={','.join(CALLS)}"]
    words += [it for path in paths for it in ("-P", str(path))]
    return words + [it for fault in faults for it in ("-e", f"inject={fault}")]


def calls_of(log):
    """The calls that were logged, in order."""
    counts, calls = dict.fromkeys(CALLS, 0), []
    for line in log.read_text().splitlines():
        if found := re.match(r"(?:\d+ +)?(\w+)\(", line):
            counts[found[1]] += 1
            calls.append(Call(found[1], counts[found[1]], line))
    return calls


def wants_strace():
    if not shutil.which("strace"):
        sys.exit("this trial wants strace, which fails and stops calls of the system, and isn't there")
