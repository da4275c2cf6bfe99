#!/usr/bin/env python3
"""A debugger for programs in B, forwards and backwards: a server of the Debug Adapter Protocol over standard input and
output, or with --console the words of gdb.

  b_dap.py                                                      for an editor
  b_dap.py --console [--edition N] [--with LIB]... FILE         for a person

It needs Python 3.8 or later, and the library libb.so, at the path in B_LIBRARY or where an install puts it."""
import argparse
import pathlib
import sys

sys.dont_write_bytecode = True
sys.path.insert(0, str(pathlib.Path(__file__).resolve().parent))


def words():
    parser = argparse.ArgumentParser(prog="b_dap.py", description="A debugger for programs in B")
    parser.add_argument("--console", metavar="FILE", help="debug this source here, by typed commands")
    parser.add_argument("--edition", type=int, choices=[1, 2], help="with --console: where the source doesn't tell it")
    parser.add_argument("--with", dest="libs", action="append", metavar="LIB",
                        help="with --console: a file that follows")
    parser.add_argument("--by-steps", action="store_true", help="make one step after another in Python, for trials")
    return parser.parse_args()


def main():
    given = words()
    try:
        from bdebug.words import library
        library()
    except OSError as error:
        print(f"b_dap.py: the library libb.so can't be loaded: {error}", file=sys.stderr)
        return 3
    if given.console is not None:
        from bdebug.console import talk
        return talk(given)
    from bdebug.protocol import Inbox, Outbox
    from bdebug.server import Server
    # The thread that reads may wait to the last, so it has a stream that nothing closes.
    Server(Inbox(open(0, "rb", closefd=False)), Outbox(sys.stdout.buffer), given.by_steps).serve()
    return 0


if __name__ == "__main__":
    sys.exit(main())
