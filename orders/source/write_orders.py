"""Writes every order file of orders/, and the printed tables of docs/CATALOGUE.md, from arrays.txt.

    python3 write_orders.py

In the document a table stands between a line `<!-- catalogue.py OPTION -->`, which names the
command that prints it, and a line `<!-- end -->`.
"""

import re
from pathlib import Path

from catalogue import PRINTED, catalogue, text_of

ORDERS = Path(__file__).resolve().parent.parent
DOCUMENT = ORDERS.parent / "docs" / "CATALOGUE.md"


def write_orders():
    for array in catalogue():
        (ORDERS / array.file).write_text(text_of(array.order))


def with_tables(text):
    """The document with each table printed anew."""
    place = re.compile(r"(<!-- catalogue\.py (--\w+) -->\n).*?(<!-- end -->\n)", re.DOTALL)
    return place.sub(lambda found: found[1] + "\n".join(["", *PRINTED[found[2]](), "", found[3]]), text)


if __name__ == "__main__":
    write_orders()
    DOCUMENT.write_text(with_tables(DOCUMENT.read_text()))
