"""How the scripts call the checker by itself, over the libraries of the crates that `rt ci` left in `out/rlib`."""
import os
import subprocess

TOP = os.path.dirname(os.path.dirname(os.path.abspath(__file__)))


def kit():
    """The folder of the toolchain."""
    return os.path.dirname(subprocess.run(["rt", "doc"], capture_output=True, text=True, check=True).stdout.strip())


def crates():
    """Each crate of the repository and the libraries that it names."""
    with open(os.path.join(TOP, "crates.txt"), encoding="utf-8") as file:
        lines = [line.partition("#")[0].strip() for line in file]
    pairs = [line.partition(":")[::2] for line in lines if line]
    return {name.strip(): libraries.split() for name, libraries in pairs}


def below(known, name):
    """The crates of the repository that this one stands on, at any depth."""
    found = []
    for library in known[name]:
        if library in known:
            found += [it for it in [*below(known, library), library] if it not in found]
    return found


def built(name):
    """The folder of the crate's library."""
    return os.path.join(TOP, "crates", name, "out", "rlib")


def words(known, kit_folder, name):
    """The checker's words for a check of the crate, over the libraries that are built."""
    made = {it: built(it) for it in below(known, name)}
    libraries = {it: os.path.join(made[it], f"{it}.rlib") if it in made else f"{kit_folder}/rlibs/{it}.rlib" for it in ["std", *known[name]]}
    found = ["--crate-name", name, "src/lib.rt"]
    for library, folder in libraries.items():
        found += ["--extern", f"{library}={folder}"]
    for folder in [f"{kit_folder}/rlibs", *made.values()]:
        found += ["-L", f"dependency={folder}"]
    logic = ["--antt-project", f"{kit_folder}/rattle/logic/antt-project.json", "--logic-built", f"{kit_folder}/logic_built"]
    return [*found, *logic, "--jobs", "1"]
