"""A run that is stopped and carried on in another process, from Python: makes the first calls of a list on a memory with bad words, saves the machine to a
file, and has a second process load it, make the other calls and save it again. Compares with the unbroken run and the plain machine. Then tries texts and
files that are refused, and saves that fail, which leave all as it was. It ends with status 0 if all agree. examples/stop.c stops the run of a recorded
program in C."""

import os
import resource
import subprocess
import sys
import tempfile
import zipfile

sys.path.insert(0, os.path.join(os.path.dirname(os.path.abspath(__file__)), "..", "bindings", "python"))
import sa110
from sa110 import A, C, CACHE, CONTROL, LOAD, M, STORE, SWAP, W, WRITE

MEMORY = 0x40000
STOP = 900  # calls of the first process


def board():
    """A machine at the start; from 10010 on one word in 256 is bad."""
    m = sa110.Machine(MEMORY)
    for address in range(0x10010, MEMORY, 0x400):
        m.bad[address // 4] = 1
    return m


def calls():
    """Page tables, by flat stores; then MMU, Dcache and write buffer on, and loads, stores and swaps of 32 KB that are cached and 16 KB that are not."""
    tables = [(STORE, 1, 4, 0x4008, 0x00000C0E), (STORE, 1, 4, 0x4010, 0x00000C06)]  # sections 002xxxxx, cacheable and bufferable, and 004xxxxx, bufferable
    ready = [(WRITE, 1, CACHE, sa110.CACHE_CLEAN_LINE, 0x4000), (WRITE, 1, CACHE, sa110.BUFFER_DRAIN, 0), (WRITE, 1, sa110.BASE, 0, 0x4000)]
    ready += [(WRITE, 1, sa110.DOMAINS, 0, 1), (WRITE, 1, sa110.TLB, sa110.TLB_FLUSH, 0), (WRITE, 1, CONTROL, 0, M | A | C | W)]
    accesses, n = [], 1
    while len(accesses) < 2000:
        n = (n * 1103515245 + 12345) % 2**31
        address = 0x430000 + n // 64 % 0x4000 // 4 * 4 if n // 2**20 % 4 == 0 else 0x210000 + n // 64 % 0x8000 // 4 * 4
        accesses.append(((LOAD, STORE, LOAD, SWAP)[n // 2**24 % 4], 0, 4, address, n))
    return tables + ready + accesses


def then(file):
    """The second process: loads the machine, makes the other calls, and saves it."""
    try:
        machine = sa110.load(file)
        machine.run(calls()[len(machine.calls) :])
        sa110.save(machine, file)
    except (OSError, sa110.StateError) as error:
        print(error, file=sys.stderr)
        return 1
    return 0


def print_machine(what, m):
    faults, dirty = sum(a.kind == "fault" for a in m.answers), sum((w >> 1 & 1) + (w >> 2 & 1) for w in m.state.lines)
    print(f"{what}: {len(m.calls)} calls made, {m.counts}")
    print(f"  faults {faults}, write buffer entries {m.state.used}, dirty halves {dirty}, text {len(m.store_text())} bytes")


def stopped(file, library):
    """The run that is stopped, carried on by another process."""
    m = board()
    m.run(calls()[:STOP])
    sa110.save(m, file)
    print_machine("Stopped", m)
    subprocess.run([sys.executable, "-B", os.path.abspath(__file__), library, file], check=True)
    m = sa110.load(file)
    print_machine("Carried on", m)
    return m


def compare(m, whole):
    same = m.same(whole) and m.calls == whole.calls and m.answers == whole.answers
    plain = m.plain()[0] == m.answers
    print(f"State, record, memory, map, cache store, calls and answers are the unbroken run's: {same}; the answers are the plain machine's: {plain}")
    return same and plain


def raised(what, error, attempt):
    """Whether an attempt raises this error; prints its message."""
    try:
        attempt()
    except error as problem:
        print(f"  {what}: {problem.strerror if isinstance(problem, OSError) else problem}")
        return True
    print(f"  {what}: NOTHING WAS RAISED")
    return False


def refused_texts(m, whole):
    text = m.store_text()
    line = text.index(b"\n") + 1
    texts = {
        "a text without its last line feed": text[:-1],
        "a TLB entry's valid bit of 2": text[:line] + b"2" + text[line + 1 :],
        "the text of another memory": sa110.Machine(MEMORY - 32).store_text(),
    }
    all_raised = all([raised(what, sa110.StateError, lambda t=t: m.read_text(t)) for what, t in texts.items()])
    return all_raised and m.same(whole) and m.calls == whole.calls


def save_without_room(m, file):
    """A save where no file may have more than 1,000 bytes."""
    limits = resource.getrlimit(resource.RLIMIT_FSIZE)
    resource.setrlimit(resource.RLIMIT_FSIZE, (1000, limits[1]))
    try:
        sa110.save(m, file)
    finally:
        resource.setrlimit(resource.RLIMIT_FSIZE, limits)


def refused_files(file, good):
    """Loads of damaged files."""
    at = good.index(b"PK\1\2") + 16  # in the zip file's directory the checksum of the first member
    with open("damaged", "wb") as f:
        f.write(good[:at] + bytes([good[at] ^ 1]) + good[at + 1 :])
    tried = [raised("a file with a bit changed", sa110.StateError, lambda: sa110.load("damaged"))]
    with zipfile.ZipFile(file) as old, zipfile.ZipFile("damaged", "w") as new:
        for name in old.namelist():
            new.writestr(name, b"\2" + old.read(name)[1:] if name == "bad.bin" else old.read(name))
    tried.append(raised("a file whose map has a byte of 2", sa110.StateError, lambda: sa110.load("damaged")))
    os.remove("damaged")
    return all(tried)


def refused_saves(m, file):
    """Saves that fail, and a call that is refused."""
    tried = [raised("a save without room for the file", OSError, lambda: save_without_room(m, file))]
    m.bad = m.bad[:-1]
    tried.append(raised("a save with a map that is too short", sa110.StateError, lambda: sa110.save(m, file)))
    print(f"  a load with it: {m.load(4, 0)}")
    m.state.used = 9
    tried.append(raised("a save of an unsound state", sa110.StateError, lambda: sa110.save(m, file)))
    return all(tried)


def refused(m, whole, file):
    """Texts and files that are refused, behind which the good file is as it was, with no other beside it."""
    print("Refused:")
    with open(file, "rb") as f:
        good = f.read()
    tried = [refused_texts(m, whole), refused_files(file, good), refused_saves(m, file)]
    with open(file, "rb") as f:
        return all(tried) and f.read() == good and os.listdir() == [file]


def main():
    if len(sys.argv) > 3 or sys.argv[1:2] in (["-h"], ["--help"]):
        print(
            f"usage: {sys.argv[0]} [LIBRARY [FILE]]\nStops a run and carries on in another process, and compares. LIBRARY is the shared object that "
            f"tools/hosts makes; without it,\n{sa110.default_path()}. With FILE it is the second process, which carries on with the machine in FILE.",
            file=sys.stderr,
        )
        return 2
    library = os.path.abspath(sys.argv[1] if len(sys.argv) > 1 else sa110.default_path())
    try:
        sa110.load_library(library)
    except OSError as error:
        print(error, file=sys.stderr)
        return 2
    if len(sys.argv) == 3:
        return then(sys.argv[2])
    whole = board()
    whole.run(calls())
    print_machine("The unbroken run", whole)
    with tempfile.TemporaryDirectory() as folder:
        os.chdir(folder)
        m = stopped("stopped.zip", library)
        agree = compare(m, whole)
        agree = refused(m, whole, "stopped.zip") and agree
        os.chdir(os.path.dirname(folder))
    print("all agree" if agree else "NOT ALL AGREE")
    return 0 if agree else 1


if __name__ == "__main__":
    sys.exit(main())
