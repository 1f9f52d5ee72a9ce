#!/usr/bin/env python3
"""Tells each link of a folder of pages that leads to no file, or to no place of its page. The status is 1 where there is one."""
import os
import sys
from html.parser import HTMLParser
from urllib.parse import unquote, urldefrag


class Page(HTMLParser):
    def __init__(self, path):
        super().__init__()
        self.places, self.links = set(), []
        with open(path, encoding="utf-8") as file:
            self.feed(file.read())

    def handle_starttag(self, tag, attributes):
        for name, value in attributes:
            if name == "id":
                self.places.add(value)
            elif name in ("href", "src"):
                self.links.append(value)


def main(folder):
    paths = [os.path.join(at, name) for at, _, names in os.walk(folder) for name in names if name.endswith(".html")]
    pages = {os.path.realpath(path): Page(path) for path in paths}
    count, faults = 0, 0
    for path, page in pages.items():
        for link in page.links:
            if ":" in link.split("/")[0]:
                continue
            count += 1
            file, place = urldefrag(unquote(link))
            target = os.path.realpath(os.path.join(os.path.dirname(path), file)) if file else path
            if not os.path.isfile(target) or place and place not in pages[target].places:
                print(f"{os.path.relpath(path, folder)}: {link}", file=sys.stderr)
                faults += 1
    print(f"{len(pages)} pages, {count} links")
    return 1 if faults or not count else 0


if __name__ == "__main__":
    sys.exit(main(sys.argv[1]))
