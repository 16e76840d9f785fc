"""What the scripts of interop/ and bench/ share: the programs that are built here, and tools of Debian's packages."""
import os
import shutil
import subprocess
import sys
import time

TOP = os.path.dirname(os.path.dirname(os.path.abspath(__file__)))
UUID = "01234567-89ab-cdef-0123-456789abcdef"
QUIET = {"stdout": subprocess.DEVNULL, "stderr": subprocess.DEVNULL}

os.environ["PATH"] += ":/usr/sbin:/sbin"


def built(name="dalgovuun"):
    """The path of a program of this repository, proved and built where it isn't yet."""
    folder = os.path.join(TOP, "crates", name)
    subprocess.run(["rt", "run"], cwd=folder, stdin=subprocess.DEVNULL, **QUIET)
    path = os.path.join(folder, "out", name)
    if not os.path.exists(path):
        sys.exit(f"{name} was not built: run rt run in crates/{name}")
    return path


def has_v3():
    """Whether this machine has what programs for x86-64-v3 need."""
    with open("/proc/cpuinfo", encoding="ascii") as file:
        flags = {word for line in file if line.startswith("flags") for word in line.split()}
    return {"avx2", "bmi1", "bmi2", "f16c", "fma", "movbe", "abm"} <= flags


def built_for(folder, name, processor=None):
    """A copy in a folder of a program that is built for a processor, by default the one that the gate builds for."""
    crate = os.path.join(TOP, "crates", name)
    words = ["rt", "run", *(["--cpu", processor] if processor else [])]
    if subprocess.run(words, cwd=crate, stdin=subprocess.DEVNULL, **QUIET).returncode != 0:
        sys.exit(f"{name} was not built: run {' '.join(words)} in crates/{name}")
    path = os.path.join(folder, f"{name}-{processor or 'default'}")
    shutil.copy(os.path.join(crate, "out", name), path)
    return path


def program():
    """The program under test: the one that the first word names, or the one that is built here."""
    return os.path.abspath(sys.argv[1]) if len(sys.argv) > 1 else built()


def install(packages):
    """Installs from Debian's packages, by tool, what is missing. A registry that does not answer is asked again."""
    missing = sorted({package for tool, package in packages.items() if not shutil.which(tool)})
    env = {**os.environ, "DEBIAN_FRONTEND": "noninteractive"}
    for attempt in range(3):
        if not missing or all(subprocess.run(words, env=env, **QUIET).returncode == 0 for words in (
                ["apt-get", "update"], ["apt-get", "install", "-y", *missing])):
            return
        time.sleep(10 * attempt)
    sys.exit(f"not installed: {' '.join(missing)}")
