"""A program of this repository, proved and built from the sources as they are: on first use and after a change, by one
run at a time.

`rt run` in the crate's folder proves, links and runs a program, which stays in the crate's out/. It is run on the crate's
own example, the files stdin, args and data/, and has to print what the file stdout has. Only then it is copied to
target/bin, where no later rt changes it. A stamp, written after that, holds the sums of the sources and of the program that
came of them; a program is taken only where both are as then."""
import contextlib
import fcntl
import functools
import hashlib
import os
import re
import select
import shutil
import signal
import subprocess
import tempfile
import time

from . import streams
from .ends import Failure, why
from .progress import Progress

ROOT = os.path.dirname(os.path.dirname(os.path.dirname(os.path.realpath(__file__))))
TARGET = os.path.join(ROOT, "target")
STAMPS = os.path.join(TARGET, "stamps")


def crate_path(name, *inside):
    return os.path.join(ROOT, "crates", name, *inside)


def linked_path(name):
    """Where rt leaves a program."""
    return crate_path(name, "out", name)


def program_path(name):
    return os.path.join(TARGET, "bin", name)


def stamp_path(name):
    return os.path.join(STAMPS, name)


def floors(name):
    """The crates that a program is made of, by crates.txt."""
    stands_on = {}
    with open(os.path.join(ROOT, "crates.txt"), encoding="utf-8") as file:
        for line in file:
            crate, listed, below = line.partition("#")[0].partition(":")
            if listed:
                # a word behind the name says what is built of it
                stands_on[crate.split()[0]] = below.split()
    if name not in stands_on:
        raise Failure(f"crates.txt has no line for {name}")
    found, wanted = [], [name]
    while wanted:
        crate = wanted.pop()
        if crate in stands_on and crate not in found:
            found.append(crate)
            wanted += stands_on[crate]
    return sorted(found)


def digest(paths):
    """A sum over files: their names and what they hold."""
    total = hashlib.sha256()
    for path in paths:
        with open(path, "rb") as file:
            held = file.read()
        total.update(f"{os.path.relpath(path, ROOT)}\0{len(held)}\0".encode("utf-8", "surrogateescape") + held)
    return total.hexdigest()


def sources(name):
    """The files that a program is made from."""
    def unreadable(error):
        raise error

    found = [os.path.join(ROOT, "crates.txt")]
    for crate in floors(name):
        for folder, folders, files in os.walk(crate_path(crate), onerror=unreadable):
            # what begins with a dot is an editor's own, and out/ of the crate is rt's
            made = {"out"} if folder == crate_path(crate) else set()
            folders[:] = sorted(inner for inner in folders if not inner.startswith(".") and inner not in made)
            found += [os.path.join(folder, file) for file in sorted(files) if not file.startswith(".")]
    return found


def stamp(name, made_from):
    """What the stamp of the program that is there now would hold."""
    return f"{made_from} {digest([program_path(name)])}\n"


def is_built(name, made_from):
    try:
        with open(stamp_path(name), encoding="ascii") as file:
            return file.read() == stamp(name, made_from)
    except (OSError, UnicodeDecodeError):
        return False


@functools.lru_cache(maxsize=None)
def program(name):
    """The path of a program, built first where it is not there or not from these sources."""
    try:
        made_from = digest(sources(name))
        if is_built(name, made_from):
            return program_path(name)
    except (OSError, UnicodeDecodeError) as error:
        raise Failure(f"the program's sources cannot be read: {problem(error)}") from error
    try:
        with alone(name) as lock:
            # another run may have built it while this one waited
            if not is_built(name, made_from):
                build(name, lock)
                with open(stamp_path(name), "w", encoding="ascii") as file:
                    file.write(stamp(name, made_from))
    except OSError as error:
        raise Failure(f"the program has to be built, and that cannot be done here: {problem(error)}") from error
    return program_path(name)


def problem(error):
    path = getattr(error, "filename", None)
    words = why(error) if isinstance(error, OSError) else str(error)
    return f"{os.path.relpath(path, ROOT)}: {words}" if path else words


@contextlib.contextmanager
def alone(name):
    """Holds the lock of the builds, and gives its number."""
    os.makedirs(STAMPS, exist_ok=True)
    lock = os.open(os.path.join(STAMPS, "lock"), os.O_RDWR | os.O_CREAT | os.O_CLOEXEC, 0o666)
    try:
        with Progress() as progress:
            waited = False
            while not taken(lock):
                if not waited:
                    streams.say(f"another run is building {name}; waiting for it")
                waited = True
                progress.show("waiting")
                time.sleep(0.2)
        yield lock
    finally:
        os.close(lock)


def taken(lock):
    try:
        fcntl.flock(lock, fcntl.LOCK_EX | fcntl.LOCK_NB)
        return True
    except BlockingIOError:
        return False


def build(name, lock):
    """Proves, builds and tries a program, and puts it where it is taken from."""
    log = os.path.join(STAMPS, f"{name}.log")
    with open(log, "wb") as file, tempfile.TemporaryFile() as printed:
        status, last = followed(name, lock, file, printed)
        printed.seek(0)
        is_wanted = printed.read() == held(crate_path(name, "stdout"))
    kept = f"({os.path.relpath(log, ROOT)} has them all)"
    if status != 0:
        how = f"ended with status {status}" if status > 0 else f"was ended by signal {-status}"
        raise Failure(f"the program could not be built: rt {how}{f', its last words are: {last}' if last else ''} {kept}")
    if not os.path.exists(linked_path(name)):
        raise Failure(f"the program could not be built: rt ended well and left no {os.path.relpath(linked_path(name), ROOT)}")
    if not is_wanted:
        raise Failure(f"the program could not be built: what it wrote is not what {os.path.relpath(crate_path(name, 'stdout'), ROOT)} has")
    take(name)


def take(name):
    """Copies what rt linked, so that nobody finds half a program."""
    os.makedirs(os.path.dirname(program_path(name)), exist_ok=True)
    part = f"{program_path(name)}.part"
    shutil.copy(linked_path(name), part)
    os.replace(part, program_path(name))


def held(path):
    """What a file holds; nothing where there is none."""
    try:
        with open(path, "rb") as file:
            return file.read()
    except FileNotFoundError:
        return b""


def example(name):
    """The words that rt gives to a program after its own, by the crate's files args and data/."""
    words = held(crate_path(name, "args")).decode("utf-8", "surrogateescape").splitlines()
    words = [os.path.join("data", word) if word and os.path.exists(crate_path(name, "data", word)) else word for word in words]
    return ["--", *words] if words else []


def followed(name, lock, log, printed):
    """Runs rt, keeps what it says and what the program prints, and shows on a terminal how far it is. Its status and its last line."""
    said, crates = b"", floors(name)
    given = crate_path(name, "stdin")
    with open(given if os.path.exists(given) else os.devnull, "rb") as file:
        running = started(["rt", "run", *example(name)], crate_path(name), lock, stdin=file, stdout=printed, stderr=subprocess.PIPE)
        with running as rt, Progress() as progress:
            streams.say(f"proving and building the program (`rt run` in crates/{name}); this is done once and can take some minutes")
            while True:
                # a line for the crate that has been checked, and one for each library below it
                proved = list(dict.fromkeys(re.findall(r"^(?:crate|library) (\S+): modules ", said.decode(errors="replace"), re.MULTILINE)))
                proved = [crate for crate in proved if crate in crates]
                progress.show(f"{len(proved)} of {len(crates)} crates proved" + (f", {proved[-1]} last" if proved else ""))
                if select.select([rt.stderr], [], [], 0.5)[0]:
                    more = os.read(rt.stderr.fileno(), 1 << 16)
                    if not more:
                        break
                    log.write(more)
                    said += more
            status = rt.wait()
    lines = [line for line in said.decode(errors="replace").splitlines() if line.strip()]
    return status, streams.shown(lines[-1].strip()) if lines else ""


@contextlib.contextmanager
def started(words, folder, lock, **streams_of):
    """A process with a group of its own, which ends with this run however that ends: rt's provers do not heed Control-C.
    Were this run killed outright, the process would still hold the lock."""
    def ended(number, _):
        raise SystemExit(128 + number)

    try:
        process = subprocess.Popen(words, cwd=folder, start_new_session=True, pass_fds=[lock], **streams_of)
    except OSError as error:
        raise Failure(f"the Rattle kit's command {words[0]} cannot be run: {why(error)}") from error
    heeded = [number for number in (signal.SIGTERM, signal.SIGHUP) if signal.getsignal(number) != signal.SIG_IGN]
    before = {number: signal.signal(number, ended) for number in heeded}
    try:
        yield process
    finally:
        for number, handler in before.items():
            signal.signal(number, handler)
        for number in (signal.SIGTERM, signal.SIGKILL):
            if process.poll() is None:
                os.killpg(process.pid, number)
                with contextlib.suppress(subprocess.TimeoutExpired):
                    process.wait(5)
        process.stderr.close()
