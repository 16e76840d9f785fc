"""What the scripts here share: the image that is measured, and what a run costs."""
import os
import random
import re
import subprocess
import sys
import time

sys.path.insert(0, os.path.join(os.path.dirname(os.path.abspath(__file__)), "..", "interop"))

from tools import built_for, has_v3

SALT = "e48da609055204e89ae53b655ca2216dd983cf3cb829f34f63a297d106d53e2d"


def image(path, mebibytes):
    part = random.Random(1).randbytes(1 << 20)
    with open(path, "wb") as file:
        for number in range(mebibytes):
            file.write(number.to_bytes(8, "big") + part[8:])


def high_water(process):
    """The most memory that a running process has had, in KiB. What wait4 says counts the memory of its parent too."""
    with open(f"/proc/{process}/status", encoding="ascii") as file:
        found = re.search(r"VmHWM:\s+(\d+)", file.read())
    return int(found.group(1)) if found else 0


def timed(words):
    """Processor seconds and peak memory in KiB of a run."""
    child = os.posix_spawn(words[0], words, os.environ, file_actions=[
        (os.POSIX_SPAWN_OPEN, 1, os.devnull, os.O_WRONLY, 0)])
    peak, ended = 0, 0
    while not ended:
        peak = max(peak, high_water(child))
        time.sleep(0.005)
        ended, status, used = os.wait4(child, os.WNOHANG)
    if status != 0:
        sys.exit(f"{words[0]}: status {status}")
    return used.ru_utime + used.ru_stime, peak


def bare_loop(loop, data, block_size, algorithm, *mode):
    """Seconds of a bare loop of digests over the same blocks in memory: one by one, or by the mode `lanes` as many side by side as
    the algorithm has lanes."""
    out = subprocess.run([loop, data, block_size, SALT, algorithm, *mode], capture_output=True, text=True, check=True).stdout
    return int(re.search(r"us=(\d+)", out).group(1)) / 1e6


def builds(folder):
    """This program and the bare loops, by the processor that they are built for. What the gate builds is built last, and stays."""
    processors = [*(["x86-64-v3"] if has_v3() else []), None]
    made = {processor or "default": tuple(built_for(folder, name, processor) for name in ("dalgovuun", "bench_digest"))
            for processor in processors}
    return dict(reversed(made.items()))


def compared(name, made, ours, theirs, data, block_size, mebibytes, algorithm="sha256"):
    """Runs each in turn, five times, and prints the best of each: the throughput, and that over the scalar loop and over the
    lanes of the same build. `ours` gives the words for a program, `theirs` are those of veritysetup, or None."""
    seconds = {}

    def note(label, took):
        seconds[label] = min(took, seconds.get(label, took))

    peaks = {}
    for _ in range(5):
        for processor, (program, loop) in made.items():
            took, peaks[processor] = timed(ours(program))
            note((name, processor), took)
            note(("scalar loop", processor), bare_loop(loop, data, block_size, algorithm))
            note(("lanes", processor), bare_loop(loop, data, block_size, algorithm, "lanes"))
        if theirs:
            note(("veritysetup", ""), timed(theirs)[0])
    print(f"{name}, {algorithm}, blocks of {block_size} bytes, {mebibytes} MiB{'MB/s':>21}{'of scalar':>11}{'of lanes':>10}")
    for (label, processor), took in seconds.items():
        ratios = "".join(f"{seconds[other, processor] / took:{width}.2f}" for other, width in (("scalar loop", 11), ("lanes", 10))
                         if processor)
        print(f"  {label:12} {processor:42}{mebibytes * 1.048576 / took:8.1f}{ratios}")
    for processor, peak in peaks.items():
        print(f"  peak memory  {processor:42}{peak:8} KiB")
