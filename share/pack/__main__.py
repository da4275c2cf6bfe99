"""The command b: `b go x.b`, or `python -m b go x.b`."""
import os
import sys


def main():
    program = os.path.join(os.path.dirname(os.path.abspath(__file__)), "program", "bin", "b")
    os.execv(program, [program, *sys.argv[1:]])


if __name__ == "__main__":
    main()
