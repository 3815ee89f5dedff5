"""Replays a trace kept as text from Python: reads calls from standard input, a line each, in parts that end anywhere, and prints a line for each to
standard output, as examples/replay.c does."""

import os
import random
import sys

sys.path.insert(0, os.path.join(os.path.dirname(os.path.abspath(__file__)), "..", "bindings", "python"))
import sa110

LONGEST = 200  # bytes of a part, and of the slice lent for the lines printed


def main():
    if len(sys.argv) > 2 or sys.argv[1:2] in (["-h"], ["--help"]):
        print(
            f"usage: {sys.argv[0]} [LIBRARY]\nReplays a trace from standard input, a call a line, and prints a line for each. LIBRARY is the shared "
            f"object that tools/hosts makes; without it, {sa110.default_path()}.",
            file=sys.stderr,
        )
        return 2
    try:
        sa110.load_library(*sys.argv[1:])
    except OSError as error:
        print(error, file=sys.stderr)
        return 2
    lengths = random.Random(110)
    trace = sa110.Replay(room=lengths.randint(1, LONGEST))
    try:
        for part in iter(lambda: sys.stdin.buffer.read(lengths.randint(1, LONGEST)), b""):
            sys.stdout.buffer.write(trace.feed(part))
        sys.stdout.buffer.write(trace.finish())
        sys.stdout.buffer.flush()
    except OSError as error:
        print(f"replay: {error}", file=sys.stderr)
        return 1
    return 0


if __name__ == "__main__":
    sys.exit(main())
