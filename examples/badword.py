"""A board on which one word of memory aborts on the bus, from Python: makes the list of calls of examples/badword.c, which tells what they show, on the
SA-110 and on the plain machine, and prints what that prints. It ends with status 0 if the two machines agree."""

import os
import sys

sys.path.insert(0, os.path.join(os.path.dirname(os.path.abspath(__file__)), "..", "bindings", "python"))
import sa110
from sa110 import A, C, CACHE, LOAD, M, READ, STORE, SWAP, W, WRITE

MEMORY = 0x40000
BAD = 0x20010  # the bad word's physical address: the fifth word of its line
NAMES = ("load", "signed", "store", "read", "write", "swap")


def board():
    """Memory at the start: words that tell their address, and page tables."""
    memory = bytearray(MEMORY)
    for at in range(0x20000, 0x20400, 4):
        memory[at : at + 4] = (0x5A000000 + at).to_bytes(4, "little")
    tables = {
        0x4008: 0x00000C0E,  # 002xxxxx: section at 0, cacheable, bufferable
        0x400C: 0x00008021,  # 003xxxxx: second-level table at 8000, domain 1
        0x4010: 0x00000C02,  # 004xxxxx: section at 0, neither cacheable nor bufferable
        0x4014: 0x00020021,  # 005xxxxx: second-level table at 20000, domain 1, in which the word of 00504xxx is the bad one
        0x8000: 0x00020FFE,  # 00300xxx: small page at 20000, cacheable, bufferable
        0x8004: 0x00020FF2,  # 00301xxx: small page at 20000, neither
        0x8008: 0x00020FF6,  # 00302xxx: small page at 20000, bufferable
    }
    for at, word in tables.items():
        memory[at : at + 4] = word.to_bytes(4, "little")
    return memory


class Session(sa110.Machine):
    """A machine that keeps of each call the counts and buffer entries that it leaves, a title and words; a call without words is not printed."""

    def __init__(self):
        super().__init__(board())
        self.bad[BAD // 4] = 1
        self.rows, self.title = [], None

    def make(self, kind, n, a, v=0, words=""):
        self.call(kind, 1, n, a, v)
        self.rows.append((self.counts, self.state.used, self.title, words))
        self.title = None

    def loads(self, *calls):
        for address, words in calls:
            self.make(LOAD, 4, address, 0, words)

    def flush(self, *stored):
        """Cleans the lines stored to, and flushes the Dcache, so that the line may be reached through another address."""
        for address in stored:
            self.make(WRITE, CACHE, sa110.CACHE_CLEAN_LINE, address, None)
        self.make(WRITE, CACHE, sa110.CACHE_FLUSH, 0, None)


def cacheable(m):
    m.title = "A cacheable section: a load that misses reads its line from the first word upward, here as far as the fifth"
    m.loads((0x220000, "served, as the bad word lies behind; but the line's place stays empty"), (0x220004, "a miss again, and no fill is counted"))
    m.loads((0x220008, ""), (0x22000C, ""), (0x220010, "the bad word"), (0x220014, "the bad word lies before"), (0x220018, ""), (0x22001C, ""))
    m.make(LOAD, 1, 0x22000F, 0, "a byte is as its word")
    m.make(LOAD, 1, 0x220013)
    m.loads((0x220020, "the next line has no bad word"), (0x22003C, ""))
    m.title = "Each such load takes the place at the set's pointer, and the line that is there gives way"
    m.loads((0x220200, "another line of the set"))
    m.make(STORE, 4, 0x220200, 0x1234)
    m.loads(*[(0x220000, None)] * 30, (0x220000, "31 times: the pointer comes round"))
    m.loads((0x220000, "the other line gives way, and its dirty half is sent out"), (0x220200, "it is read again, behind a drain"))
    m.title = "A buffered store to the bad word is served, and dropped when it leaves the buffer; a swap that misses is not buffered"
    m.make(STORE, 4, 0x220010, 0x11111111)
    m.make(STORE, 4, 0x220014, 0x22222222, "joins the entry")
    m.loads((0x220000, "drains before it reads"))
    m.make(SWAP, 4, 0x220010, 0x33333333)
    m.make(SWAP, 4, 0x220014, 0x33333333, "reads its own word alone")
    m.flush(0x220000, 0x220200)
    m.title = "A cacheable page"
    m.loads((0x30000C, ""), (0x300010, ""))
    m.flush()


def uncached(m):
    m.title = "A section that is neither cacheable nor bufferable: the word itself alone matters"
    m.loads((0x42000C, ""), (0x420010, ""), (0x420014, ""))
    m.make(STORE, 4, 0x420010, 0x44444444, "no buffer takes it")
    m.make(STORE, 4, 0x420014, 0x44444444)
    m.make(SWAP, 4, 0x420010, 0x44444444)
    m.flush(0x420000)
    m.title = "Such a page"
    m.loads((0x301010, ""), (0x301014, ""))
    m.make(STORE, 4, 0x301010, 0x55555555)
    m.flush()
    m.title = "A bufferable page"
    m.make(STORE, 4, 0x302010, 0x66666666)
    m.make(STORE, 4, 0x302014, 0x66666666, "joins the entry")
    m.loads((0x302010, "drains nothing"), (0x302014, "drains before it reads"))
    m.make(WRITE, CACHE, sa110.CACHE_CLEAN_LINE, 0x302000, None)
    m.make(WRITE, CACHE, sa110.BUFFER_DRAIN, 0, None)
    m.title = "A walk that reads the bad word as a level 2 word"
    m.loads((0x504000, ""))
    m.make(READ, sa110.FSR, 0, 0, "domain 1, status 14")
    m.make(READ, sa110.FAR, 0)


def text(kind, privileged, n, a, v):
    """A call in words."""
    words = f"{NAMES[kind]:<6}" + (f"register {n:02}" if kind in (READ, WRITE) else f"{n:02} at {a:08x}")
    return words + (f" = {v:08x}" if kind in (STORE, WRITE, SWAP) else "")


def short(kind, answer):
    """An answer in short."""
    if answer.kind == "fault":
        return f"fault {answer.status:02}"
    if answer.kind == "refused":
        return f"refused {answer.value:02}"
    return "served" if kind in (STORE, WRITE) else f"{answer.value:08x}"


def print_rows(m, plain):
    print(f"{'':<32}  {'SA-110':<10}  {'plain':<10}  Dcache  fills  halves  buffer")
    before = m.rows[0][0]
    for call, answer, other, (counts, used, title, words) in zip(m.calls, m.answers, plain, m.rows):
        kind = call[0]
        did = "hit" if counts.hits != before.hits else "fill" if counts.fills != before.fills else "miss"
        if kind in (READ, WRITE) or (answer.kind == "fault" and answer.status == sa110.WALK_SECOND):
            did = "-"
        before = counts
        if title:
            print(f"\n{title}")
        if words is not None:
            row = f"{text(*call):<32}  {short(kind, answer):<10}  {short(kind, other):<10}  {did:<6}  {counts.fills:5}  {counts.halves:6}  {used:6}"
            print(f"{row}  {words}".rstrip())


def plain(m):
    """Makes the calls on the plain machine, prints both machines' answers, and compares."""
    answers, ran, memory = m.plain()
    print_rows(m, answers)
    calls, misses, hits, fills, halves = m.counts
    same = sum(p == l for p, l in zip(answers, m.answers))
    differ = sum(p != l for p, l in zip(memory, m.memory))
    print(f"\nCounts: calls {calls}, TLB misses {misses}, Dcache hits {hits}, line fills {fills}, halves sent out {halves}")
    print(f"The plain machine: {ran.made} calls made, {ran.calls} counted, {same} answers the same; bytes of memory that differ: {differ}")
    made = len(m.answers)
    return ran.refusal == 0 and ran.made == made and same == made and differ == 0


def in_one_run(m):
    """Makes the list once more, in one run from a start, and compares everything."""
    other = sa110.Machine(board(), bad=bytes(m.bad))
    answers = other.run(m.calls)
    same = other.refusal == 0 and answers == m.answers and other.same(m)
    word = "the same" if same else "differ"
    print(f"The list in one run: {len(answers)} calls made; answers, state, record, memory and cache store {word}")
    return same


def elsewhere(m):
    """A look, walks, maps that do not fit, and a replay of three flat accesses."""
    place, offset, line = m.look(0x220010)
    print(f"\nA look at the bad word: {place} {offset:05x}, word {int.from_bytes(line[0x10:0x14], 'little'):08x}")
    walks = [sa110.walk(m.memory, 0x4000, 0x504000, bad) // 2 % 16 for bad in (m.bad, b"")]
    print(f"A walk for 00504000: fault {walks[0]:02}; with an empty map: fault {walks[1]:02}")
    maps = bytes(m.bad[:-1]), b"\2" + m.bad[1:]
    one, two = (sa110.Machine(bytes(m.memory), bad=bad).read(sa110.ID).value for bad in maps)
    print(f"A map that is a byte short: refused by {one:02}; with a byte of 2: refused by {two:02}")
    print("A replay of flat accesses to 0002000c and, twice, the bad word:")
    trace = sa110.Replay(m.memory, bad=m.bad)
    print((trace.feed(b"0,1,4,131084,0\n0,1,4,131088,0\n2,1,4,131088,1\n") + trace.finish()).decode(), end="")


def main():
    if len(sys.argv) > 2 or sys.argv[1:2] in (["-h"], ["--help"]):
        print(
            f"usage: {sys.argv[0]} [LIBRARY]\nReaches a word that aborts on the bus, on the SA-110 data side and on the plain machine, and compares. "
            f"LIBRARY is the shared object that tools/hosts makes; without it,\n{sa110.default_path()}.",
            file=sys.stderr,
        )
        return 2
    try:
        sa110.load_library(*sys.argv[1:])
    except OSError as error:
        print(error, file=sys.stderr)
        return 2
    m = Session()
    print(f"Start: refusal {m.refusal}, memory {m.state.size} bytes, map {len(m.bad)} bytes; one bad word, at {BAD:08x}, the fifth of its line\n")
    m.title = "Table base and domains; then MMU, Dcache and write buffer on, with alignment checked"
    m.make(WRITE, sa110.BASE, 0, 0x4000)
    m.make(WRITE, sa110.DOMAINS, 0, 0x5)
    m.make(WRITE, sa110.TLB, sa110.TLB_FLUSH)
    m.make(WRITE, sa110.CONTROL, 0, M | A | C | W)
    cacheable(m)
    uncached(m)
    agree = plain(m)
    same = in_one_run(m)
    elsewhere(m)
    print("all agree" if agree and same else "NOT ALL AGREE")
    return 0 if agree and same else 1


if __name__ == "__main__":
    sys.exit(main())
