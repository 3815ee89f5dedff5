"""A whole run of the library from Python: start, page tables, MMU, Dcache and write buffer on, accesses, clean and drain, and the same list of
calls on the plain machine. It prints each call with its answer, and ends with status 0 if the two machines agree. examples/run.c and
examples/run.rs do the same."""

import os
import sys

sys.path.insert(0, os.path.join(os.path.dirname(os.path.abspath(__file__)), "..", "bindings", "python"))
import sa110
from sa110 import A, C, M, W

MEMORY = 0x40000
NAMES = ("load", "signed", "store", "read", "write", "swap")


def text(kind, privileged, n, a, v):
    """A call in words."""
    mode = "privileged" if privileged else "user"
    words = f"{mode:<10} {NAMES[kind]:<6} "
    words += f"register {n:02}" if kind in (sa110.READ, sa110.WRITE) else f"{n:02} at {a:08x}"
    if kind in (sa110.STORE, sa110.WRITE, sa110.SWAP):
        words += f" = {v:08x}"
    if kind == sa110.WRITE and n >= sa110.CACHE:
        words += f" ({a // 16},{a % 16})"
    return words


class Session(sa110.Machine):
    """A machine that prints each call with its answer."""

    def call(self, kind, privileged, n, a, v):
        answer = super().call(kind, privileged, n, a, v)
        if answer.kind == "value":
            words = f"value {answer.value:08x}"
        elif answer.kind == "fault":
            words = f"fault, status {answer.status:02} domain {answer.domain:02} address {a:08x}"
        elif answer.kind == "refused":
            words = f"refused by {answer.value:02}"
        else:
            words = "no call"
        print(f"{text(kind, privileged, n, a, v):<48} {words}")
        return answer

    def cache(self, operation, address=0):
        return self.write(sa110.CACHE, address, operation)

    def print_look(self, address):
        """Looks at an address, and prints where its line lies and the word there."""
        place, offset, line = self.look(address)
        words = place if line is None else f"{place} {offset:05x}, word {int.from_bytes(line[address % 32 :][:4], 'little'):08x}"
        print(f"{f'look at {address:08x}':<48} {words}")


def set_up(m):
    print("\nThe page tables, by flat stores: level 1 at 4000, level 2 at 8000")
    m.read(sa110.ID)
    m.put(4, 0x4004, 0x00008021)  # 001xxxxx: second-level table at 8000, domain 1
    m.put(4, 0x8114, 0x0001004E)  # 00145xxx: small page at 10000, AP1 privileged only, cacheable, bufferable
    m.put(4, 0x4008, 0x00000C0E)  # 002xxxxx: section at 0, domain 0, all may use it, cacheable, bufferable
    m.put(4, 0x400C, 0x00000C02)  # 003xxxxx: section at 0, neither cacheable nor bufferable
    m.put(4, 0x4010, 0x00000C06)  # 004xxxxx: section at 0, bufferable
    m.put(4, 0x4018, 0x00F00C0E)  # 006xxxxx: section at F00000, which lies outside memory
    m.cache(sa110.CACHE_CLEAN_LINE, 0x4000)
    m.cache(sa110.CACHE_CLEAN_LINE, 0x8100)
    m.cache(sa110.BUFFER_DRAIN)
    print("\nTable base and domains; then M, C and W, with alignment checked")
    m.write(sa110.BASE, 0x4000)
    m.write(sa110.DOMAINS, 0x5)
    m.write(sa110.TLB, 0, sa110.TLB_FLUSH)
    m.write(sa110.CONTROL, M | A | C | W)
    m.read(sa110.CONTROL)


def accesses(m):
    print("\nA buffered store, a miss that fills the line, hits")
    m.put(4, 0x210010, 0xCAFE1234)
    m.load(4, 0x210010)
    m.load(4, 0x210014)
    m.put(1, 0x210013, 0x80)
    m.signed_load(1, 0x210013)
    m.load(4, 0x145678)
    m.put(2, 0x145678, 0xBEEF)
    print("\nUncached loads, the second after a buffered store")
    m.load(4, 0x330000)
    m.put(4, 0x420000, 0x00C0FFEE)
    m.load(4, 0x420000)
    print("\nSwaps of a word and a byte that the cache holds, and of an uncached word after a buffered store")
    m.swap(4, 0x210014, 0x1)
    m.swap(1, 0x210013, 0x7F)
    m.put(4, 0x420004, 0x2)
    m.swap(4, 0x420004, 0x3)
    print("\nFaults; outside memory a load and a swap fault, and a store is dropped")
    m.load(4, 0x145678, user=True)
    m.read(sa110.FSR)
    m.read(sa110.FAR)
    m.load(4, 0x500000)
    m.load(4, 0x600000)
    m.put(4, 0x600000, 0x1)
    m.swap(4, 0x600000, 0x1)
    m.load(4, 0x330002)
    print("\nRefused calls")
    m.load(3, 0x210010)
    m.put(1, 0x210010, 0x100)
    m.swap(2, 0x210010, 0x1)
    m.read(sa110.CONTROL, user=True)
    m.write(sa110.CONTROL, M | C)


def looks(m):
    print("\nLooks, which are no calls: two lines in the cache, one in memory, no mapping, outside memory")
    for address in (0x210010, 0x145678, 0x420000, 0x500000, 0x600000):
        m.print_look(address)


def clean_and_drain(m):
    print("\nA clean of each line stored to, and a drain")
    m.cache(sa110.CACHE_CLEAN_LINE, 0x210000)
    m.cache(sa110.CACHE_CLEAN_LINE, 0x145660)
    m.cache(sa110.CACHE_CLEAN_LINE, 0x420000)
    m.cache(sa110.BUFFER_DRAIN)


def print_counts(m):
    calls, misses, hits, fills, halves = m.counts
    print(f"\nCounts: calls {calls}, TLB misses {misses}, Dcache hits {hits}, line fills {fills}, halves sent out {halves}")


def plain(m):
    """Makes the calls so far on the plain machine and compares."""
    answers, ran, memory = m.plain()
    same = sum(p == l for p, l in zip(answers, m.answers))
    differ = sum(p != l for p, l in zip(memory, m.memory))
    print(f"\nThe plain machine: {ran.made} calls made, {ran.calls} counted, {same} answers the same; bytes of memory that differ: {differ}")
    made = len(m.answers)
    return ran.refusal == 0 and ran.made == made and same == made and differ == 0


def in_one_run(m):
    """Makes the list once more, in one run from a start, and compares everything."""
    other = sa110.Machine(MEMORY)
    answers = other.run(m.calls)
    same = other.refusal == 0 and answers == m.answers and other.same(m)
    word = "the same" if same else "differ"
    print(f"The list in one run: {len(answers)} calls made; answers, state, record, memory and cache store {word}")
    return same


def main():
    if len(sys.argv) > 2 or sys.argv[1:2] in (["-h"], ["--help"]):
        print(
            f"usage: {sys.argv[0]} [LIBRARY]\nMakes a list of calls on the SA-110 data side and on the plain machine, and compares. LIBRARY is the "
            f"shared object that tools/hosts makes; without it, {sa110.default_path()}.",
            file=sys.stderr,
        )
        return 2
    try:
        sa110.load_library(*sys.argv[1:])
    except OSError as error:
        print(error, file=sys.stderr)
        return 2
    m = Session(MEMORY)
    print(f"Start: refusal {m.refusal}, memory {m.state.size} bytes, cache store {len(m.cache_store)} bytes")
    set_up(m)
    accesses(m)
    looks(m)
    print_counts(m)
    plain(m)
    clean_and_drain(m)
    print_counts(m)
    agree = plain(m)
    same = in_one_run(m)
    print("all agree" if agree and same else "NOT ALL AGREE")
    return 0 if agree and same else 1


if __name__ == "__main__":
    sys.exit(main())
