"""A program in B reads a table of sqlite: an example of calls of the host.

  PYTHONPATH=FOLDER python3 goods.py LIB     where FOLDER has b.py, and LIB is the folder lib of B"""
import pathlib
import sqlite3
import sys

import b

SOURCE = r"""
main() {
    auto name 20, price;

    host("ask", "select name, price from goods where price > ? order by price", 3);
    while((price = host("next", name, 20)) >= 0)
        printf("%-8s %4d*n", name, price);
}
"""


def main():
    folder = pathlib.Path(sys.argv[1])
    table = sqlite3.connect(":memory:")
    table.execute("create table goods (name text, price integer)")
    table.executemany("insert into goods values (?, ?)", [("tea", 7), ("salt", 2), ("coffee", 12), ("sugar", 4)])
    rows = iter(())
    libs = {name: (folder / name).read_bytes() for name in ("host.b", "print.b")}
    with b.Session(SOURCE, libs=libs) as program:

        def ask(text, above):
            nonlocal rows
            rows = iter(table.execute(program.text(text).decode(), (above,)).fetchall())

        def put_next(to, words):
            name, price = next(rows, ("", -1))
            program.set_text(to, name.encode()[: 2 * words])
            return price

        program.serve({"ask": ask, "next": put_next}, write=lambda part: print(part.decode(), end=""))


if __name__ == "__main__":
    main()
