"""The rights table as the library works it out from the domain values and document 001's table 2-3, from Python: what examples/rights.c prints. It ends with
status 0 if each entry is the one by which accesses are checked."""

import os
import sys

sys.path.insert(0, os.path.join(os.path.dirname(os.path.abspath(__file__)), "..", "bindings", "python"))
import sa110


def main(arguments):
    if len(arguments) > 1:
        print("usage: rights.py [LIBSA110.SO]\nPrints the 256 entries of the rights table, worked out, one a line: index,entry.", file=sys.stderr)
        return 2
    sa110.load_library(*arguments)
    for i, entry in enumerate(sa110.rights_table()):
        if entry != sa110.right(i):
            print(f"rights: the entry at {i} is {sa110.right(i)}, and not {entry}", file=sys.stderr)
            return 1
        print(f"{i},{entry}")
    return 0


if __name__ == "__main__":
    sys.exit(main(sys.argv[1:]))
