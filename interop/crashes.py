"""What interop/stops and interop/lines share: what a run does to the files of a folder, by strace, and what a crash may leave of that."""
import os
import re
import subprocess
import tempfile

CALLS = "open,openat,pwrite64,ftruncate,fsync,fdatasync,unlink,unlinkat"
# how strace writes a call that ended well, and a text in it
CALL = re.compile(r"^\d+ +(\w+)\((.*)\) += (-?\d+)")
QUOTED = re.compile(r'"([^"]*)"')
JOURNAL = "hash.journal"
# what a journal begins with: a magic and the version; the gate stands behind it
HEAD = b"dalgjrnl" + (1).to_bytes(4, "little")
GATE = len(HEAD)


def unquoted(text):
    return bytes.fromhex(text.replace("\\x", ""))


class Call:
    """A system call that changes or syncs a file, its entry or the folder, or prints."""

    def __init__(self, kind, name, at=0, bytes_=b""):
        self.kind, self.name, self.at, self.bytes = kind, name, at, bytes_


def calls_of(folder, words, traced=CALLS):
    """What a run does to the files of a folder, in order, and what it prints."""
    there = set(os.listdir(folder))
    with tempfile.NamedTemporaryFile("r") as told:
        run = subprocess.run(["strace", "-f", "-qq", "-xx", "-y", "-s", "16777216", "-e", f"trace={traced}", "-o", told.name, *words],
                             cwd=folder, capture_output=True, text=True)
        text = told.read()
    calls, written = [], {}
    for line in text.splitlines():
        match = CALL.match(line)
        if not match or int(match.group(3)) < 0:
            continue
        kind, rest = match.group(1), match.group(2)
        file = re.match(r"\d+<([^>]*)>", rest)
        path = unquoted(file.group(1)).decode() if file and "\\x" in file.group(1) else file.group(1) if file else ""
        at, name = os.path.split(path)
        quoted = [unquoted(part) for part in QUOTED.findall(rest)]
        if kind in ("fsync", "fdatasync") and path == folder:
            calls.append(Call("sync folder", ""))
        elif kind == "write" and rest.startswith("1<"):
            calls.append(Call("print", "", 0, quoted[0]))
        elif file and at != folder:
            continue
        elif kind in ("fsync", "fdatasync"):
            calls.append(Call("sync", name))
        elif kind == "ftruncate":
            calls.append(Call("length", name, int(rest.rsplit(",", 1)[1])))
        elif kind == "pwrite64":
            calls.append(Call("write", name, int(rest.rsplit(",", 1)[1]), quoted[0]))
        elif kind == "write":
            calls.append(Call("write", name, written.get(name, 0), quoted[0]))
            written[name] = written.get(name, 0) + len(quoted[0])
        else:
            names = [os.path.basename(part.decode()) for part in quoted if os.path.dirname(part.decode()) in ("", folder)]
            if names:
                calls += entries_of(kind, rest, names, there, written)
    return calls, run


def entries_of(kind, rest, names, there, written):
    """What a call on these names does to the entries of their folder, of which it is known what is there."""
    if kind in ("open", "openat"):
        if "O_CREAT" not in rest or names[0] in there:
            return []
        there.add(names[0])
        written[names[0]] = 0
        return [Call("make", names[0])]
    there.discard(names[0])
    if kind in ("unlink", "unlinkat"):
        return [Call("remove", names[0])]
    there.add(names[1])
    return [Call("rename", names[0], 0, names[1])]


def is_head(call):
    """Whether a call writes the head of a journal."""
    return call.kind == "write" and call.name == JOURNAL and call.at < GATE


def is_gate(call):
    """Whether a call writes the gate of a journal."""
    return call.kind == "write" and call.name == JOURNAL and call.at == GATE and len(call.bytes) == 1


def has_open_gate(files):
    journal = files.get(JOURNAL, b"")
    return journal[:GATE] == HEAD and journal[GATE:GATE + 1] not in (b"", b"\0")


def may_be(calls):
    """For each count of calls that were done, which commits' volumes a stop may leave: after how many commits."""
    done, opening, allowed = 0, False, [{0}]
    for place, call in enumerate(calls):
        if is_gate(call) and call.bytes != b"\0":
            done, opening = done + 1, True
        elif opening and call.kind == "sync" and call.name == JOURNAL:
            opening = False
        allowed.append({done - 1, done} if opening else {done})
    return allowed


def changed(bytes_, call, rng, how):
    """The bytes of a file after a call that is done, left out or torn."""
    if how == "drop":
        return bytes_
    if call.kind == "length":
        length = call.at
        if how == "tear":
            length = rng.randint(min(len(bytes_), call.at), max(len(bytes_), call.at))
            grown = rng.choice([bytes(length), rng.randbytes(length)])
            return bytes_[:length] + grown[:max(0, length - len(bytes_))]
        return bytes_[:length].ljust(length, b"\0")
    new = call.bytes
    end = call.at + len(new)
    if how == "tear" and (is_head(call) or is_first_part(call, rng)):
        new = new[:rng.randrange(len(new) + 1)]
        end = call.at + len(new)
    elif how == "tear":
        old = bytes_[call.at:end].ljust(len(new), b"\0")
        part = rng.randrange(len(new) + 1)
        any_ = rng.randbytes(len(new))
        new = rng.choice([new[:part] + old[part:], old[:part] + new[part:], any_,
                          bytes(one if sign & 1 else other for one, other, sign in zip(new, old, any_))])
    return bytes_[:call.at].ljust(call.at, b"\0") + new + bytes_[end:]


def is_first_part(call, rng):
    """Whether a torn write leaves the first bytes alone, and no more of the file: of what is to be FILE.next half the time."""
    return call.name.endswith(".next.new") and rng.randrange(2) == 0


def group_of(name):
    """The entries that are moved to one another: those of FILE, FILE.next and FILE.next.new, else one alone."""
    return name.removesuffix(".new").removesuffix(".next")


class Disk:
    """What is on the disk for certain, and what was done since its last sync. A file goes by a number, and the folder has its name."""

    def __init__(self, files):
        self.durable, self.since = {}, {}
        self.entries, self.now, self.moves = {}, {}, {}
        for name, bytes_ in files.items():
            self.entries[name] = self.now[name] = self.file(bytes_)

    def file(self, bytes_):
        number = len(self.durable)
        self.durable[number], self.since[number] = bytes_, []
        return number

    def take(self, call):
        if call.kind == "sync":
            number = self.now[call.name]
            for done in self.since[number]:
                self.durable[number] = changed(self.durable[number], done, None, "do")
            self.since[number] = []
        elif call.kind == "sync folder":
            self.entries, self.moves = dict(self.now), {}
        elif call.kind in ("make", "remove", "rename"):
            number = self.file(b"") if call.kind == "make" else self.now[call.name]
            self.moves.setdefault(group_of(call.name), []).append((call, number))
            move(self.now, call, number)
        elif call.kind != "print":
            self.since[self.now[call.name]].append(call)

    def left(self, rng, way):
        """The files that a crash leaves: all that was done, none of it that wasn't synced, or of each call anything."""
        def how():
            return {"all": "do", "none": "drop"}.get(way) or rng.choice(["do", "drop", "tear"])

        files = {}
        for number, bytes_ in self.durable.items():
            for call in self.since[number]:
                bytes_ = changed(bytes_, call, rng, how())
            files[number] = bytes_
        entries = dict(self.entries)
        for moves in self.moves.values():
            count = {"all": len(moves), "none": 0}.get(way)
            if count is None:
                count = rng.choice(range(len(moves) + 1))
            for call, number in moves[:count]:
                move(entries, call, number)
            if way == "any" and count < len(moves) and moves[count][0].kind == "rename" and rng.randrange(2) == 0:
                # it stands at both places
                entries[moves[count][0].bytes] = moves[count][1]
        return {name: files[number] for name, number in entries.items()}


def move(entries, call, number):
    """An entry is made, removed or moved to another, which it replaces."""
    if call.kind == "make":
        entries[call.name] = number
    else:
        entries.pop(call.name, None)
        if call.kind == "rename":
            entries[call.bytes] = number


def put(folder, files, names):
    """Lays these files, and removes all others of these names."""
    for name in names:
        path = os.path.join(folder, name)
        if name in files:
            with open(path, "wb") as file:
                file.write(files[name])
        elif os.path.exists(path):
            os.remove(path)


def seen(folder, names):
    """The files of these names that are there."""
    files = {}
    for name in names:
        path = os.path.join(folder, name)
        if os.path.exists(path):
            with open(path, "rb") as file:
                files[name] = file.read()
    return files
