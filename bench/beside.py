"""Sets the built program beside another one that takes the same words, for the scripts of this folder.

Each row is a name, the program's words and perhaps an input; without one the input is 4 MiB of all values. Both
programs read it N times (5 if `--rounds N` is left out), in turn, and the medians of the wall times and of the
processor times are set beside one another. The own program runs with the environment that ./vchan gives it, and with
`--small-pages` without it. With `--busy` two busy loops for each processor run beside both, from the first row to
the last. Both must print the same, and both must end with status 0. Nothing is built: run ./vchan once before.
"""

import contextlib
import os
import resource
import statistics
import subprocess
import sys
import tempfile
import time

ROOT = os.path.dirname(os.path.dirname(os.path.abspath(__file__)))
OWN = os.path.join(ROOT, "crates/vchan/out/vchan")
INPUT = bytes(k * k % 251 for k in range(1 << 16)) * 64
# What ./vchan sets where a run may be long.
LONG_RUN = {"GLIBC_TUNABLES": "glibc.malloc.hugetlb=1:glibc.malloc.top_pad=67108864"
            ":glibc.malloc.mmap_threshold=33554432:glibc.malloc.trim_threshold=1073741824"
            ":glibc.malloc.tcache_count=1000"
            f":glibc.malloc.arena_max={len(os.sched_getaffinity(0))}"}
ALWAYS_LONG = "load", "persist"
LONG_WORDS = "run", "pipe"
SHORT_FILE = 15 * 1024


def as_launched(what, size):
    """The environment that ./vchan gives a run of these words on a file of this size."""
    is_long = what[0] in ALWAYS_LONG or what[0] in LONG_WORDS and size > SHORT_FILE
    return LONG_RUN if is_long else {}


@contextlib.contextmanager
def loops(busy):
    """Where busy, two busy loops a processor, which end with the block."""
    began = [subprocess.Popen(["sh", "-c", "while :; do :; done"]) for _ in range(2 * os.cpu_count() if busy else 0)]
    try:
        yield
    finally:
        for loop in began:
            loop.kill()
            loop.wait()


def run(program, words, path, out, environment=None):
    with open(path, "rb") as source:
        ran = subprocess.run([program, *words], stdin=source, stdout=out, env={**os.environ, **(environment or {})})
    if ran.returncode != 0:
        sys.exit(f"{program} {' '.join(words)} ended with status {ran.returncode}")
    return ran.stdout


def measured(program, words, path, environment=None):
    """Wall and processor seconds of a run."""
    before, begun = resource.getrusage(resource.RUSAGE_CHILDREN), time.perf_counter()
    run(program, words, path, subprocess.DEVNULL, environment)
    wall, after = time.perf_counter() - begun, resource.getrusage(resource.RUSAGE_CHILDREN)
    return wall, after.ru_utime + after.ru_stime - before.ru_utime - before.ru_stime


def compare(usage, rows):
    words, rounds = sys.argv[1:], 5
    busy, small_pages = ("--busy" in words, "--small-pages" in words)
    words = [it for it in words if it not in ("--busy", "--small-pages")]
    if "--rounds" in words[:-1]:
        at = words.index("--rounds")
        rounds = int(words[at + 1])
        del words[at:at + 2]
    if len(words) != 2 or words[0] != "--beside":
        sys.exit(usage)
    with loops(busy):
        for row in rows:
            compare_row(words[1], rounds, small_pages, *row)


def compare_row(other, rounds, small_pages, name, what, own_input=INPUT):
    with tempfile.NamedTemporaryFile() as source:
        source.write(own_input)
        source.flush()
        both = OWN, other
        if len({run(program, what, source.name, subprocess.PIPE) for program in both}) != 1:
            sys.exit(f"{name}: the two programs print different texts")
        own = {} if small_pages else as_launched(what, len(own_input))
        pairs = [[measured(OWN, what, source.name, own), measured(other, what, source.name)] for _ in range(rounds)]
        wall, processor = ([statistics.median(pair[side][kind] for pair in pairs) for side in (0, 1)] for kind in (0, 1))
        print(f"{name:24} wall {wall[0] * 1e3:7.0f} ms, {wall[1] * 1e3:.0f} ms: {wall[0] / wall[1]:.2f}; "
              f"processors {processor[0] * 1e3:.0f} ms, {processor[1] * 1e3:.0f} ms: {processor[0] / processor[1]:.2f}", flush=True)
