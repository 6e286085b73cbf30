# Tables of Q-8 of document 02 read back by Python's csv, and the texts held against expat: tables.py FOLDER, where `vectors tables FOLDER`
# has written documents and their tables of all elements. Expat's names have no characters past U+FFFF, so a letter stands for these.
import csv
import io
import pathlib
import re
import sys
from xml.parsers import expat


def small(text):
    return re.sub("[\U00010000-\U0010ffff]", "\u00e8", text)


def by_expat(document):
    """The rows: of each element the names from the root, and the text directly in it."""
    rows, open_ = [["path", "text"]], []

    def start(name, _):
        open_.append([open_[-1][0] + "/" + name if open_ else name, ""])
        rows.append(open_[-1])

    def text(data):
        open_[-1][1] += data

    parser = expat.ParserCreate("utf-8")
    parser.buffer_text = True
    parser.StartElementHandler = start
    parser.EndElementHandler = lambda _: open_.pop()
    parser.CharacterDataHandler = text
    parser.Parse(small(document.decode()).encode(), True)
    return [[small(path), small(text)] for path, text in rows]


def main():
    csv.field_size_limit(1 << 30)
    documents = sorted(pathlib.Path(sys.argv[1]).glob("*.xml"))
    wrong = records = 0
    for document in documents:
        table = small(document.with_suffix(".csv").read_bytes().decode())
        found = list(csv.reader(io.StringIO(table, newline=""), strict=True))
        records += len(found)
        if found != by_expat(document.read_bytes()):
            wrong += 1
            print(document, found, by_expat(document.read_bytes()), sep="\n")
    print(f"{len(documents)} tables, {records} records, {wrong} read otherwise")
    sys.exit(wrong > 0 or not documents)


main()
