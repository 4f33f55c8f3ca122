#!/usr/bin/env python3
"""Gives rcv odd things in the place of its files and of standard output, and says whether it ends as docs/OUTSIDE.md says.

Each case has a folder of its own. Looked at are the status, what is printed, that nothing stands on standard error, and what the folder
holds afterwards: every name, its kind and its bytes; a proof that was stored has to pass a check. What needs rights that the caller has
not is named and not tried. The status is 1 where some case ends in another way.
"""

import argparse
import dataclasses
import fcntl
import os
import pathlib
import resource
import shutil
import signal
import socket
import stat
import subprocess
import sys
import tempfile
import threading
import time

TOP = pathlib.Path(__file__).resolve().parent.parent.parent
STATIONS = TOP / "stations"

NOBODY = 65534
OLDER = b"rcvlog 1\nan older file\n"
HALT = (STATIONS / "halt.toml").read_bytes()
PLAN = (STATIONS / "halt.plan.json").read_bytes()
WITHIN = (STATIONS / "halt_within.toml").read_bytes()
PROOF = (STATIONS / "halt_within.proof").read_bytes()

ROUTES = (
    b"route 1 boundary:b1 signal:s1 length 10000 sections z1=10000\n"
    b"route 2 signal:s1 boundary:b2 length 6000 sections z2=6000\n"
    b"route 3 boundary:b2 boundary:b1 length 16000 sections z2=6000 z1=16000\n"
)
MET = (
    b"met tick 10\ntrain A\ngrant 1 route 1 tick 1\ngrant 2 route 2 tick 2\npass b1 tick 1\npass n1 tick 7\npass b2 tick 10\n"
    b"visit 1 b1 tick 1 ms 1000\nvisit 2 b2 tick 10 ms 10000\n"
)
YES = b"yes steps 2\n"
INFEASIBLE = b"infeasible steps 2\n"
USAGE = (
    b"usage: rcv simulate DESIGN PLAN; rcv routes DESIGN; rcv verify [--normal] --steps N --conflicts C --ticks T "
    b"DESIGN PROOF; rcv tightest --steps N --conflicts C --ticks T --within W DESIGN PROOF; "
    b"rcv check [--within W --max-ms X] --steps N DESIGN PROOF; rcv trial SEED SIZE\n"
)

SIMULATE = ["simulate", "halt.toml", "plan.json"]
VERIFY = ["verify", "--steps", "2", "--conflicts", "1000", "--ticks", "1000", "within.toml"]


class NotTried(Exception):
    """The caller has no right to set the case up."""


@dataclasses.dataclass
class Case:
    """A case: what is made, what is run, and how it has to end."""

    name: str
    words: list
    status: int
    text: bytes = b""
    # The name under which a proof stands afterwards, where one is stored.
    stored: str = None
    # Makes the case in its folder; a function that it gives is called at the end.
    make: object = None
    # Gives for the folder what is done beside the run, which tells whether that went well.
    meanwhile: object = None
    # Runs in the new process before the program.
    before: object = None
    # Opens standard output, or is "file" for a file that is read afterwards.
    out: object = None
    # Whether a part of the proof is left, since the run was killed.
    part_left: bool = False
    # The call of the system that is hurt, the file that it is about, and how.
    hurt: tuple = None


# What stands in the place of a file that is read.


def link_to(target):
    """A link to a name."""
    return lambda path, held: os.symlink(target, path)


def link_to_file(path, held):
    """A link to the file."""
    pathlib.Path(f"{path}.real").write_bytes(held)
    os.symlink(f"{os.path.basename(path)}.real", path)


def unreadable(path, held):
    """The file, which nobody may read."""
    pathlib.Path(path).write_bytes(held)
    os.chmod(path, 0)


def in_closed_folder(path, held):
    """The file in a folder that may not be entered."""
    folder = os.path.dirname(path)
    os.mkdir(folder)
    pathlib.Path(path).write_bytes(held)
    os.chmod(folder, 0)


def become_nobody():
    """Gives up the rights of root."""
    if os.geteuid() == 0:
        os.setgroups([])
        os.setgid(NOBODY)
        os.setuid(NOBODY)


def feed(path, held):
    """Waits a little, and writes the bytes to a pipe with a name."""

    def run(child):
        time.sleep(0.5)
        waits = child.poll() is None
        if waits:
            pathlib.Path(path).write_bytes(held)
        return waits

    return run


# A role is read by a command: how it ends over the good file, the empty file and an endless one.
ROLES = (
    ("DESIGN", ["routes"], HALT, (0, ROUTES), (3, b"design refused D02 version\n"), (11, b"too long design 8388608\n")),
    ("PLAN", ["simulate", "halt.toml"], PLAN, (0, MET), (4, b"plan refused P1 file\n"), (11, b"too long plan 8388608\n")),
    ("PROOF", ["check", "--steps", "2", "within.toml"], PROOF, (0, YES), (1, b"no line 1 no final line\n"), (11, b"too long proof 268435456\n")),
)


def read_cases():
    """The cases in which a file is read."""
    for role, words, held, good, empty, endless in ROLES:
        fault = (7, b"")
        for name, file, end, make, before in (
            ("is not there", "it", fault, None, None),
            ("is a folder", "it", fault, lambda path, _: os.mkdir(path), None),
            ("may not be read", "it", fault, unreadable, become_nobody),
            ("stands in a folder that may not be entered", "closed/it", fault, in_closed_folder, become_nobody),
            ("is a link to a file", "it", good, link_to_file, None),
            ("is a link to nothing", "it", fault, link_to("nothing"), None),
            ("is a link to a folder", "it", fault, link_to("."), None),
            ("is a link to itself", "it", fault, link_to("it"), None),
            ("is /dev/null", "/dev/null", empty, None, None),
            ("is a device that never ends", "/dev/zero", endless, None, None),
            ("has a name of 10,000 characters", "n" * 10_000, fault, None, None),
            ("has the empty name", "", fault, None, None),
            ("has a name that is no UTF-8", b"it\xff", (2, USAGE), None, None),
            ("has a name that ends with /", "it/", fault, lambda path, held: pathlib.Path(path[:-1]).write_bytes(held), None),
        ):
            yield Case(f"{role} {name}", [*words, file], *end, make=made(make, file, held), before=before)
        yield Case(
            f"{role} is a pipe with a name", [*words, "it"], *good, make=made(lambda path, _: os.mkfifo(path), "it", held), meanwhile=fed("it", held)
        )


    yield Case("PLAN is DESIGN", ["simulate", "halt.toml", "halt.toml"], 4, b"plan refused P1 file\n")
    yield Case("PROOF is DESIGN", ["check", "--steps", "2", "within.toml", "within.toml"], 1, b"no line 1 text\n")
    yield Case("DESIGN is a byte too long", ["routes", "it"], 11, b"too long design 8388608\n", make=sized("it", 8_388_609))


def sized(file, most):
    """A file of so many bytes, each of them 0."""

    def make(folder):
        with open(os.path.join(folder, file), "wb") as held:
            held.truncate(most)

    return make


def made(make, file, held):
    """Makes a file in a folder by its path."""
    if make is None:
        return None
    return lambda folder: make(os.path.join(folder, file), held)


def fed(file, held):
    """Feeds a pipe in the folder while the program runs."""
    return lambda folder: feed(os.path.join(folder, file), held)


def limited(what, most):
    """Sets a limit of the system's."""
    return lambda: resource.setrlimit(what, (most, most))


# What stands in the place of a proof that is stored.


def older(name="new"):
    """An older file."""
    return lambda folder: pathlib.Path(folder, name).write_bytes(OLDER)


def older_unwritable(folder):
    """An older file that may not be written, in a folder that may."""
    older()(folder)
    os.chmod(os.path.join(folder, "new"), 0o400)


def older_with_two_names(folder):
    """An older file that has another name too."""
    older()(folder)
    os.link(os.path.join(folder, "new"), os.path.join(folder, "other"))


def older_of_root(folder):
    """An older file of root's in a folder in which each may replace their own files alone."""
    if os.geteuid() != 0:
        raise NotTried
    older()(folder)
    os.chmod(folder, 0o1777)


def unwritable_folder(folder):
    """A folder in which no file may be made, with an older file."""
    os.mkdir(os.path.join(folder, "kept"))
    older("kept/new")(folder)
    os.chmod(os.path.join(folder, "kept"), 0o555)


def linked(target, name="new"):
    """A link in the place of the proof, beside an older file."""

    def make(folder):
        older("older")(folder)
        os.symlink(target, os.path.join(folder, name))

    return make


def bound_socket(folder):
    """A socket in the place of the proof."""
    here = os.getcwd()
    os.chdir(folder)
    with socket.socket(socket.AF_UNIX) as end:
        end.bind("new")
    os.chdir(here)


def parts_taken(many):
    """As many files that are named like parts of the proof."""

    def make(folder):
        for number in range(1, many + 1):
            older(f"new.rcv-part{number if number > 1 else ''}")(folder)

    return make


def design_as_part(folder):
    """A design that is named like a part of the proof."""
    pathlib.Path(folder, "new.rcv-part").write_bytes(WITHIN)


def beside(many):
    """As many runs at the same time that store the same proof; whether all of them did."""

    def meanwhile(folder):
        program = os.path.join(os.path.dirname(folder), "rcv")
        return lambda _: all(
            child.wait() == 1
            for child in [subprocess.Popen([program, *VERIFY, "new"], cwd=folder, stdout=subprocess.DEVNULL) for _ in range(many)]
        )

    return meanwhile


def mounted(options, fill):
    """A small disk in the folder `disk`, in which `fill` leaves no room; gives how it is taken away."""

    def make(folder):
        disk = os.path.join(folder, "disk")
        os.mkdir(disk)
        if os.geteuid() != 0 or subprocess.run(["mount", "-t", "tmpfs", "-o", options, "none", disk], capture_output=True).returncode != 0:
            raise NotTried
        os.chmod(disk, 0o777)
        pathlib.Path(disk, "new").write_bytes(OLDER)
        fill(disk)
        return lambda: subprocess.run(["umount", disk], check=True)

    return make


def fill_bytes(disk):
    """Takes all bytes of a disk."""
    with open(os.path.join(disk, "filler"), "wb", buffering=0) as file:
        while True:
            try:
                file.write(bytes(4096))
            except OSError:
                return


def fill_names(disk):
    """Takes all names of a disk."""
    number = 0
    while True:
        try:
            pathlib.Path(disk, f"filler{number}").touch()
        except OSError:
            return
        number += 1


def only_read(disk):
    """Lets the disk be read alone."""
    subprocess.run(["mount", "-o", "remount,ro", disk], check=True)


def mounted_over(folder):
    """A file that another one is mounted over."""
    older()(folder)
    older("other")(folder)
    path = os.path.join(folder, "new")
    if os.geteuid() != 0 or subprocess.run(["mount", "--bind", os.path.join(folder, "other"), path], capture_output=True).returncode != 0:
        raise NotTried
    return lambda: subprocess.run(["umount", path], check=True)


def short_files(most):
    """No file may be longer than so many bytes, and a write past that fails."""

    def before():
        signal.signal(signal.SIGXFSZ, signal.SIG_IGN)
        resource.setrlimit(resource.RLIMIT_FSIZE, (most, most))

    return before


def store(name, file, status, **more):
    """A case of a search that comes to a proof; where the status is 1 it is stored."""
    stored = file if status == 1 else None
    return Case(f"PROOF to be stored {name}", [*VERIFY, file], status, INFEASIBLE if status == 1 else b"", stored=stored, **more)


def store_cases():
    """The cases in which a proof is stored, or is not."""
    yield store("is not there", "new", 1)
    yield store("is an older file", "new", 1, make=older())
    yield store("is an older file that may not be written", "new", 1, make=older_unwritable, before=become_nobody)
    yield store("is an older file of two names", "new", 1, make=older_with_two_names)
    yield store("is an older file that the caller may not replace", "new", 7, make=older_of_root, before=become_nobody)
    yield store("is a file that another one is mounted over", "new", 7, make=mounted_over)
    yield store("is a folder", "new", 7, make=lambda folder: os.mkdir(os.path.join(folder, "new")))
    yield store("is this folder", ".", 7)
    yield store("stands in a folder that is not there", "none/new", 7)
    yield store("stands in a file as if it were a folder", "halt.toml/new", 7)
    yield store("stands in a folder that may not be written", "kept/new", 7, make=unwritable_folder, before=become_nobody)
    yield store("is a link to a file", "new", 7, make=linked("older"))
    yield store("is a link to nothing", "new", 7, make=linked("nothing"))
    yield store("is a link to a folder", "new", 7, make=linked("."))
    yield store("is a link to itself", "new", 7, make=linked("new"))
    yield store("stands in a folder that is reached by a link", "here/new", 1, make=linked(".", "here"))
    yield store("is /dev/null", "/dev/null", 7)
    yield store("is /dev/zero", "/dev/zero", 7)
    yield store("is /dev/full", "/dev/full", 7)
    yield store("is a pipe with a name", "new", 7, make=lambda folder: os.mkfifo(os.path.join(folder, "new")))
    yield store("is a socket", "new", 7, make=bound_socket)
    yield store("has a name of 10,000 characters", "n" * 10_000, 7)
    yield store("has a name as long as may be, without room for a part's", "n" * 247, 7)
    yield store("has a name with just enough room for a part's", "n" * 246, 1)
    yield store("has a name that ends with /", "new/", 7)
    yield store("has a name that ends with / and is an older file", "new/", 7, make=older())
    yield store("has the empty name", "", 7)
    yield Case("PROOF to be stored has a name that is no UTF-8", [*VERIFY, b"new\xff"], 2, USAGE)
    yield store("is DESIGN, which it replaces", "within.toml", 1)
    yield store("is named like the part of another, which is there", "new.rcv-part", 1, make=older())
    yield store("has a part's name taken by another file", "new", 1, make=parts_taken(1))
    yield Case("PROOF to be stored has a part's name that is DESIGN's", [*VERIFY[:-1], "new.rcv-part", "new"], 1, INFEASIBLE, stored="new", make=design_as_part)
    yield store("is stored by eight runs at once", "new", 1, meanwhile=beside(7))
    yield store("has all names of parts but the last taken", "new", 1, make=parts_taken(99))
    yield store("has all names of parts taken", "new", 7, make=parts_taken(100))
    yield store("is on a full disk", "disk/new", 7, make=mounted("size=16k", fill_bytes))
    yield store("is on a disk without a name left", "disk/new", 7, make=mounted("nr_inodes=5", fill_names))
    yield store("is on a disk that may only be read", "disk/new", 7, make=mounted("size=16k", only_read))
    yield store("is longer than a file may be", "new", 7, make=older(), before=short_files(10))
    yield store("may have no byte", "new", 7, before=short_files(0))
    yield Case(
        "PROOF to be stored is longer than a file may be, and the system kills", [*VERIFY, "new"], -signal.SIGXFSZ,
        make=older(), before=limited(resource.RLIMIT_FSIZE, 10), part_left=True,
    )  # fmt: skip


# Each call of the system that stores a proof, with the file that it is about, in their order.
CALLS = (
    ("openat", "within.toml"),
    ("read", "within.toml"),
    ("statx", "new"),
    ("openat", "new.rcv-part"),
    ("write", "new.rcv-part"),
    ("fsync", "new.rcv-part"),
    ("rename", "new.rcv-part"),
)


def hurt_cases():
    """The cases in which a call of the system fails, or the run is killed at it."""
    for number, (call, file) in enumerate(CALLS):
        name = f"{call} of {file}"
        yield Case(f"PROOF to be stored, {name} fails", [*VERIFY, "new"], 7, make=older(), hurt=(call, file, "error=EIO"))
        yield Case(
            f"PROOF to be stored, the run is killed at {name}", [*VERIFY, "new"], -signal.SIGKILL, make=older(),
            hurt=(call, file, "signal=KILL"), part_left=number > 3,
        )  # fmt: skip


# What stands in the place of standard output.


def gone():
    """A pipe whose reader went away."""
    reader, writer = os.pipe()
    os.close(reader)
    return writer


def full_pipe():
    """A pipe that is full, and fails rather than to wait."""
    reader, writer = os.pipe()
    os.set_blocking(writer, False)
    fcntl.fcntl(writer, fcntl.F_SETPIPE_SZ, 4096)
    os.write(writer, bytes(4096))
    KEPT.append(reader)
    return writer


KEPT = []


def device_full():
    """A device on which nothing has room."""
    return os.open("/dev/full", os.O_WRONLY)


def read_only():
    """A file that is open for reading alone."""
    return os.open("/dev/null", os.O_RDONLY)


def closing(*files):
    """Closes files before the program."""

    def before():
        for file in files:
            os.close(file)

    return before


def put_cases():
    """The cases of standard output, each for a simulation and for a search that stores."""
    for name, out, before in (
        ("is closed", None, closing(1)),
        ("is closed with standard input", None, closing(0, 1)),
        ("has no room, as /dev/full", device_full, None),
        ("is a pipe whose reader went away", gone, None),
        ("is a full pipe that does not wait", full_pipe, None),
        ("is open for reading alone", read_only, None),
    ):
        yield Case(f"standard output {name}: simulate", SIMULATE, 8, out=out or read_only, before=before)
        yield Case(f"standard output {name}: usage", [], 8, out=out or read_only, before=before)
        yield Case(f"standard output {name}: verify", [*VERIFY, "new"], 8, stored="new", out=out or read_only, before=before)
    yield Case("standard error is closed: simulate", SIMULATE, 0, MET, before=closing(2))
    yield Case("standard input is closed: simulate", SIMULATE, 0, MET, before=closing(0))
    yield Case("standard output is a file that may have 20 bytes: simulate", SIMULATE, 8, MET[:20], before=short_files(20), out="file")


# Running a case.


def described(path):
    """The kind of what has a name, with its bytes or where it leads."""
    found = os.lstat(path)
    if stat.S_ISLNK(found.st_mode):
        return "link", os.readlink(path)
    if stat.S_ISREG(found.st_mode):
        return "file", pathlib.Path(path).read_bytes()
    return stat.S_IFMT(found.st_mode), None


def standing(folder):
    """What a folder and those in it hold."""
    found = {}
    for place, folders, files in os.walk(folder):
        for name in folders + files:
            path = os.path.join(place, name)
            found[os.path.relpath(path, folder)] = described(path)
    return found


def command(case, program, folder):
    """The words of the run; where a call of the system is hurt, it is `strace` that does so, and the files have their whole names."""
    if case.hurt is None:
        return [program, *case.words]
    folder = os.path.realpath(folder)
    strace = shutil.which("strace")
    if strace is None:
        raise NotTried
    call, file, how = case.hurt
    *options, design, proof = case.words
    hurting = ["-qqq", "-o", "/dev/null", "-P", os.path.join(folder, file), "-e", f"trace={call}", "-e", f"inject={call}:{how}"]
    return [strace, *hurting, program, *options, os.path.join(folder, design), os.path.join(folder, proof)]


def began(case, program, folder, out):
    """The run of a case."""
    return subprocess.Popen(
        command(case, program, folder), cwd=folder, env={}, stdin=subprocess.DEVNULL, stdout=out, stderr=subprocess.PIPE, preexec_fn=case.before
    )


def text_of(child, file):
    """What a run printed on standard output and on standard error, when it has ended."""
    text, error = child.communicate(timeout=120)
    return (pathlib.Path(file).read_bytes() if file else text or b""), error


def ended(case, program, folder):
    """The status, the text and what stands on standard error; and whether what was done beside the run went well."""
    file = os.path.join(os.path.dirname(folder), "printed") if case.out == "file" else None
    out = os.open(file, os.O_CREAT | os.O_WRONLY) if file else case.out() if case.out else subprocess.PIPE
    child = began(case, program, folder, out)
    if out != subprocess.PIPE:
        os.close(out)
    went_well = [True]
    if case.meanwhile:
        beside = threading.Thread(target=lambda: went_well.__setitem__(0, case.meanwhile(folder)(child)))
        beside.start()
    text, error = text_of(child, file)
    if case.meanwhile:
        beside.join()
    for end in KEPT:
        os.close(end)
    KEPT.clear()
    return child.returncode, text, error, went_well[0]


def stored_faults(case, program, folder, before, after):
    """What is wrong with what stands after a run."""
    name = case.stored and os.path.normpath(os.path.relpath(os.path.realpath(os.path.join(folder, case.stored)), folder))
    part = "new.rcv-part" if case.part_left else None
    for other in sorted(before.keys() | after.keys()):
        if other not in (name, part) and before.get(other) != after.get(other):
            yield f"{other[:40]} is not as before"
    if part and part not in after:
        yield "no part is left"
    if name:
        pathlib.Path(folder, "checked.toml").write_bytes(WITHIN)
        told = subprocess.run([program, "check", "--steps", "2", "checked.toml", case.stored], cwd=folder, capture_output=True)
        if (told.returncode, told.stdout) != (0, YES):
            yield f"a check of the proof ends with status {told.returncode} and {told.stdout!r}"


def faults(case, program, folder):
    """What is wrong with a case."""
    for name, held in (("halt.toml", HALT), ("within.toml", WITHIN), ("plan.json", PLAN)):
        pathlib.Path(folder, name).write_bytes(held)
    os.chmod(folder, 0o777)
    undo = case.make(folder) if case.make else None
    try:
        before = standing(folder)
        status, text, error, went_well = ended(case, program, folder)
        after = standing(folder)
        if status != case.status:
            yield f"status {status}, not {case.status}"
        if text != case.text:
            yield f"prints {text[:200]!r}"
        if error:
            yield f"on standard error: {error[:200]!r}"
        if not went_well:
            yield "what was done beside it did not go well"
        yield from stored_faults(case, program, folder, before, after)
    finally:
        if callable(undo):
            undo()


def opened_up(folder):
    """Lets a folder be taken away."""
    for place, folders, _ in os.walk(folder):
        for name in folders:
            os.chmod(os.path.join(place, name), 0o755)


def tried(case, program):
    """Tries a case, and prints a line; gives what is wrong with it."""
    with tempfile.TemporaryDirectory() as outer:
        os.chmod(outer, 0o755)
        shutil.copy(program, os.path.join(outer, "rcv"))
        folder = os.path.join(outer, "files")
        os.mkdir(folder)
        try:
            found = list(faults(case, os.path.join(outer, "rcv"), folder))
            print(f"{'fault' if found else 'ok':9} {case.name}: status {case.status}", flush=True)
        except NotTried:
            found = []
            print(f"not tried {case.name}", flush=True)
        finally:
            opened_up(folder)
    for fault in found:
        print(f"          {fault}", flush=True)
    return found


def main():
    words = argparse.ArgumentParser(description=__doc__)
    words.add_argument("--program", default=str(TOP / "crates" / "rcv" / "out" / "rcv"), help="the program to run, as it is built")
    words.add_argument("--only", default="", help="cases whose names have these words")
    given = words.parse_args()
    if not os.access(given.program, os.X_OK):
        words.error(f"{given.program} is not built yet; ./rcv builds it")
    cases = [case for case in (*read_cases(), *store_cases(), *hurt_cases(), *put_cases()) if given.only in case.name]
    wrong = sum(bool(tried(case, os.path.abspath(given.program))) for case in cases)
    print(f"{len(cases)} cases, {wrong} with faults")
    return wrong > 0


if __name__ == "__main__":
    sys.exit(main())
