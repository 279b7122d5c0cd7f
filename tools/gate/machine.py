"""What the machine and its kit are: processors, memory, logic, and whether the kit keeps proofs."""
import os
import subprocess
import sys

sys.dont_write_bytecode = True
ROOT = os.path.dirname(os.path.dirname(os.path.dirname(os.path.realpath(__file__))))
sys.path.append(f"{ROOT}/tests/edits")

# What a crate takes of memory while it is proved with one job: no crate was seen to take more.
NEEDED = 3_000_000_000
LIMIT = "/sys/fs/cgroup/memory.max"


def processors():
    return len(os.sched_getaffinity(0))


def memory():
    """Returns the bytes of memory that are free, within the limit of the process."""
    with open("/proc/meminfo", encoding="utf-8") as file:
        lines = dict(line.split(":") for line in file)
    free = 1024 * int(lines["MemAvailable"].split()[0])
    if os.path.isfile(LIMIT):
        with open(LIMIT, encoding="utf-8") as file:
            limit = file.read().strip()
        free = min(free, int(limit)) if limit.isdigit() else free
    return free


def jobs():
    """Returns how many crates are proved at once: one a processor, as far as memory reaches. The
    kit itself reckons with up to three times the memory that a crate was seen to take."""
    return int(os.environ.get("RT_JOBS") or max(1, min(processors(), memory() // NEEDED)))


def said(*words):
    ran = subprocess.run(words, capture_output=True, text=True)
    return ran.stdout.strip()


def kit():
    """Returns the name of the kit and its logic, as `rt version` prints them."""
    name, _, logic = said("rt", "version").partition(" logic ")
    return name, logic


def keeps_proofs():
    """Returns whether the kit keeps what `rt ci` proved for a later run."""
    from kit import rt

    return hasattr(rt, "Kept")
