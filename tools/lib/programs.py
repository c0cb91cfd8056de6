"""The proved programs: Windows (the program of crate listing) and Sweep (the C archive of crate sweep_c).

Each is built when it is missing, or not built from the crates as they are now. `rt` leaves what it builds in the crate's
out/; from there it is copied to target/. LISTING names another listing program and SWEEP another shared library with
sweep_sheet; they are for tests, and the command says that it uses them.
"""

import ctypes
import fcntl
import hashlib
import os
import selectors
import shlex
import shutil
import subprocess
from pathlib import Path

from faults import FAILED, Fault, failed, plain
from outputs import print_error
from progress import Progress

ROOT = Path(__file__).resolve().parents[2]
CRATES = ROOT / "crates"
TARGET = ROOT / "target"
WORK = TARGET / "moyanthu"
LISTING = TARGET / "bin" / "listing"
LIBRARY = WORK / "libsweep.so"


# Running them


def windows_command():
    """The command that reads a sheet and prints what Windows finds."""
    if os.environ.get("LISTING"):
        print_error(f"moyanthu: Windows is {plain(os.environ['LISTING'])} (from LISTING), not the proved program\n")
        return shlex.split(os.environ["LISTING"])
    proved("run", "listing")
    return [str(LISTING)]


def windows_output(command, file):
    """What the program prints of a sheet file."""
    try:
        done = subprocess.run(command, input=file, capture_output=True, check=False)
    except OSError as why:
        raise failed(command[0], why) from why
    if done.returncode or not done.stdout:
        said = plain(done.stderr.decode("utf-8", "replace").strip())
        raise Fault(f"{plain(command[0])}: status {done.returncode}; {said or 'it printed nothing'}", FAILED)
    return done.stdout.decode("utf-8", "replace")


def sweep_function():
    """Sweep as a function of a sheet file and a setting: 0 a run, 1 void, else the refusal."""
    path = os.environ.get("SWEEP")
    if path:
        print_error(f"moyanthu: Sweep is {plain(path)} (from SWEEP), not the proved library\n")
    else:
        ensure("sweep_c", LIBRARY, build_library)
        path = LIBRARY
    return loaded_sweep(path)


def loaded_sweep(path):
    """The function of a shared library."""
    try:
        function = ctypes.CDLL(str(path)).sweep_sheet
    except (OSError, AttributeError) as why:
        raise Fault(f"{plain(path)}: {plain(why)}", FAILED) from why
    function.restype = ctypes.c_int64
    function.argtypes = [ctypes.c_char_p, ctypes.c_size_t, *[ctypes.c_int64] * 4]
    return lambda file, setting: function(file, len(file), *(tuple(setting) + (0, 0, 0, 0))[:4])


# Building them


def product(how, crate):
    """Where rt leaves what `rt run` or `rt lib` builds of a crate, and where it is copied to."""
    name, folder = (crate, "bin") if how == "run" else (f"lib{crate}.a", "staticlib")
    return CRATES / crate / "out" / name, TARGET / folder / name


def proved(how, crate):
    """The program (run) or the archive (lib) of a crate, proved and built from the crates as they are now."""
    made = product(how, crate)[1]
    ensure(crate, made, lambda: prove(how, crate))
    return made


def ensure(crate, made, build):
    """Builds a product unless it is the one that was built from the crates as they are now. One command builds it at a
    time; the others wait for it."""
    note = WORK / f"{made.name}.sum"
    if built(note, crate, made):
        return
    try:
        WORK.mkdir(parents=True, exist_ok=True)
        with open(WORK / f"{made.name}.lock", "wb") as lock:
            fcntl.flock(lock, fcntl.LOCK_EX)
            if not built(note, crate, made):
                build()
                note.write_text(checksum(crate, made), encoding="ascii")
    except OSError as why:
        raise failed(why.filename or WORK, why) from why


def built(note, crate, made):
    try:
        return note.read_text(encoding="ascii") == checksum(crate, made)
    except (OSError, ValueError):
        return False


def checksum(crate, made):
    """Of a product and of all files of the crates that it is built from."""
    total = hashlib.sha256(made.read_bytes())
    for name in sorted(needed(crate)):
        folder = CRATES / name
        for path in sorted(path for path in folder.rglob("*") if path.is_file()):
            if path.relative_to(folder).parts[0] != "out":
                total.update(f"\n{path.relative_to(CRATES)}\n".encode("utf-8", "surrogateescape") + path.read_bytes())
    return total.hexdigest()


def imports_of():
    """What each crate of crates.txt imports from. `staticlib` may stand behind a crate's name there."""
    lines = (line.partition("#")[0].split(":") for line in (ROOT / "crates.txt").read_text(encoding="utf-8").split("\n"))
    return {line[0].split()[0]: line[1].split() for line in lines if len(line) == 2}


def needed(crate):
    """A crate and all crates of this repository that it imports from."""
    imports = imports_of()
    found, open_names = set(), [crate]
    while open_names:
        name = open_names.pop()
        if name in imports and name not in found:
            found.add(name)
            open_names += imports[name]
    return found


def build_library():
    """The archive as a shared library."""
    command = ["cc", "-shared", "-o", LIBRARY, "-Wl,--whole-archive", proved("lib", "sweep_c"), "-Wl,--no-whole-archive"]
    try:
        done = subprocess.run(command, capture_output=True, check=False)
    except OSError as why:
        raise Fault(f"cc: {why.strerror}; a C compiler is needed to load Sweep", FAILED) from why
    if done.returncode:
        raise Fault(f"cc: {plain(done.stderr.decode('utf-8', 'replace').strip())}", FAILED)


def prove(how, crate):
    """Runs `rt run` or `rt lib` in a crate's folder, and says on standard error how far it is."""
    rt = kit_command()
    WORK.mkdir(parents=True, exist_ok=True)
    log = WORK / f"{crate}.log"
    total = len(needed(crate))
    print_error(f"rt {how} {crate}: proves {total} crates, some minutes the first time; each that has not changed since is "
                "passed over\n")
    with open(log, "wb") as out, subprocess.Popen([rt, how], cwd=CRATES / crate, stdin=subprocess.DEVNULL,
                                                  stdout=subprocess.PIPE, stderr=subprocess.STDOUT) as process:
        try:
            follow(process.stdout, out, Progress(f"rt {how} {crate}", total, each=True))
        except BaseException:
            process.terminate()
            raise
    if process.returncode:
        last = log.read_text(encoding="utf-8", errors="replace").splitlines()[-20:]
        lines = "".join(f"\n    {plain(line[:200])}" for line in last)
        raise Fault(f"rt {how} {crate}: status {process.returncode} (all it printed is in {log}){lines}", FAILED)
    take(*product(how, crate))


def kit_command():
    rt = shutil.which("rt")
    if not rt:
        raise Fault("rt is not on the path: it is the command of the Rattle kit, which proves and builds the programs",
                    FAILED)
    return rt


def take(left, made):
    """Copies what was built to its place in target/."""
    try:
        made.parent.mkdir(parents=True, exist_ok=True)
        shutil.copy(left, f"{made}.new")
        os.replace(f"{made}.new", made)
    except OSError as why:
        raise failed(why.filename or made, why) from why


def from_ci(how, crate):
    """Takes a program that `rt ci` has just built here, or compiles an archive over the libraries that it has just built
    here, whose proofs `rt lib` would do again. Where that fails, it is built by `rt run` or `rt lib`."""
    left, made = product(how, crate)

    def build():
        if how == "lib" and not compiled(crate, left) or not left.is_file():
            prove(how, crate)
        else:
            take(left, made)

    ensure(crate, made, build)


def compiled(crate, archive):
    """Whether rattle, the compiler below rt, has proved a crate and written its archive over the libraries that lie in out/."""
    done = subprocess.run([kit_command(), "doc"], capture_output=True, check=False, text=True)
    kit, imports = Path(done.stdout.strip()).parent, imports_of()
    words = ["build", "--crate-name", crate, "src/lib.rt", "--crate-type", "staticlib", "--links", f"{crate}=", "--jobs", "2"]
    for name in ("core", "std", *(name for name in imports[crate] if name not in imports)):
        words += ["--extern", f"{name}={kit}/rlibs/{name}.rlib"]
    words += ["-L", f"dependency={kit}/rlibs"]
    for name in sorted(needed(crate) - {crate}):
        rlib = CRATES / name / "out" / "rlib"
        words += ["--extern", f"{name}={rlib}/{name}.rlib"] if name in imports[crate] else []
        words += ["-L", f"dependency={rlib}"]
    words += ["--antt-project", f"{kit}/rattle/logic/antt-project.json", "--logic-built", f"{kit}/logic_built"]
    words += ["--toolchain", f"{kit}/toolchain", "--backend", "llvm", "-o", f"out/{archive.name}"]
    WORK.mkdir(parents=True, exist_ok=True)
    with open(WORK / f"{crate}.log", "wb") as log:
        command = [f"{kit}/bin/rattle", *words]
        return not subprocess.run(command, cwd=CRATES / crate, stdin=subprocess.DEVNULL, stdout=log, stderr=log, check=False).returncode


def follow(pipe, out, progress):
    """Copies what comes through a pipe and counts the crates that are proved."""
    done, line, crate = 0, b"", ""
    with selectors.DefaultSelector() as selector:
        selector.register(pipe, selectors.EVENT_READ)
        while True:
            if selector.select(1):
                data = os.read(pipe.fileno(), 1 << 16)
                if not data:
                    break
                out.write(data)
                *lines, line = (line + data).split(b"\n")
                for text in lines:
                    words = text.split()
                    if words[:1] == [b"crate"] and len(words) > 2:
                        crate = words[1].rstrip(b":").decode("utf-8", "replace")
                    elif words[:1] == [b"logic=proved"]:
                        done += 1
                        progress.step(done, f" ({crate})")
            elif progress.terminal:
                progress.step(done, f" ({crate})" if crate else "")
    progress.close()
