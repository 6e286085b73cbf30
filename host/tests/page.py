"""page.py PAGE DOCUMENT: reads a page of `show` by Python's own reader of HTML. It has no script, no style but its own and no address; its
elements are closed in order; the text that it shows, without numbers and captions, is the document, of which CR LF counts as LF. Prints
what is shown as kept, chain by chain, and what is marked as a fault, one to a line: the letter and the text."""
import sys
from html.parser import HTMLParser

VOID = {"meta"}
KNOWN = set("html head meta title style body h1 h2 div table tr td th code b u i s mark kbd sup a details summary pre strong footer".split())
LETTERS = {"b": "W", "u": "T", "i": "C", "mark": "!"}


class Page(HTMLParser):
    def __init__(self):
        super().__init__(convert_charrefs=True)
        self.open, self.text, self.parts, self.within = [], "", [], None

    def handle_starttag(self, tag, attributes):
        assert tag in KNOWN, tag
        for name, value in attributes:
            assert name in ("class", "id", "lang", "charset", "http-equiv", "content", "name"), name
        if tag in VOID:
            return
        self.open.append(tag)
        if tag == "div" and dict(attributes).get("class") == "text":
            self.within = len(self.open)
        if self.within and tag in LETTERS:
            self.parts.append([LETTERS[tag], ""])

    def handle_endtag(self, tag):
        assert self.open.pop() == tag, tag
        if self.within and len(self.open) < self.within:
            self.within = None

    def handle_data(self, data):
        if not self.within:
            return
        if any(tag in ("a", "sup", "summary") for tag in self.open):
            return
        # Between blocks stands a line feed of the page's own.
        if self.open[-1] == "details" or len(self.open) == self.within:
            assert not data.strip(), data
            return
        self.text += data
        if any(tag in LETTERS for tag in self.open):
            self.parts[-1][1] += data


page = Page()
page.feed(open(sys.argv[1], encoding="utf-8", newline="").read())
page.close()
assert page.open == [], page.open
document = open(sys.argv[2], encoding="utf-8", newline="").read().replace("\r\n", "\n").removeprefix("\ufeff")
assert page.text == document, (page.text, document)
for letter, text in page.parts:
    print(letter, text)
