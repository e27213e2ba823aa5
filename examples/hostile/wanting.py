"""Want of memory: the C library is told to ask the system anew for each piece of memory, by a call that strace lets fail."""
import os

OWN = 3  # requests by which the system loads the program and the C library begins, after those that map its files
ALONE = {
    "glibc.malloc.mmap_threshold": 1,
    "glibc.malloc.mmap_max": 60000,
    "glibc.malloc.tcache_count": 0,
    "glibc.malloc.arena_max": 1,
}
ENVIRONMENT = {**os.environ, "GLIBC_TUNABLES": ":".join(f"{name}={value}" for name, value in ALONE.items())}


def refusing(log, number, asked=2):
    """The words that run a program under strace, of whose requests for memory one is refused. The C library asks by `mmap`, and
    then by one more, for a thread beside others by four in all, which all fail; by `brk` and `mremap` it gets nothing at all."""
    words = ["strace", "-f", "-qqq", "-o", str(log), "-e", "trace=mmap,mremap,brk"]
    faults = ["brk:retval=0", "mremap:error=ENOMEM"]
    if number:
        faults.append(f"mmap:error=ENOMEM:when={number}..{number + asked - 1}")
    return words + [it for fault in faults for it in ("-e", f"inject={fault}")]


def requests(log):
    """The numbers of the requests for memory that were logged. The first are the system's, to load the program."""
    asked = [line for line in log.read_text().splitlines() if " mmap(" in line]
    return range(2 + OWN + max(place for place, line in enumerate(asked) if "MAP_ANONYMOUS" not in line), len(asked) + 1)
