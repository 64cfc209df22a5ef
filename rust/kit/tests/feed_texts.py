"""Reads an RSS 2.0 feed from standard input with Python's own XML parser, and prints what its titles, descriptions and chapters say, a line
for each, in the order of the feed.

Ends with a traceback, and so with status 1, if the text is not well-formed, a part of the feed is missing, or an item's line of chapters
isn't that of its marks.
"""

import sys
from xml.etree import ElementTree

CHAPTER = "{http://podlove.org/simple-chapters}chapter"
SUMMARY = "{http://www.itunes.com/dtds/podcast-1.0.dtd}summary"


def texts(part):
    yield part.findtext("title")
    yield part.findtext("description")
    yield from (chapter.get("title") for chapter in part.iter(CHAPTER))


def main():
    root = ElementTree.fromstring(sys.stdin.buffer.read())
    assert (root.tag, root.get("version")) == ("rss", "2.0")
    channel = root.find("channel")
    assert channel.findtext("link")
    items = channel.findall("item")
    found = [channel.findtext("title"), channel.findtext("description")]
    for item in items:
        assert item.findtext("guid") and item.find("enclosure").get("url")
        marks = [f"{mark.get('start')} {mark.get('title')}" for mark in item.iter(CHAPTER)]
        assert (item.findtext(SUMMARY) or "") == ", ".join(marks)
        found.extend(texts(item))
    sys.stdout.buffer.writelines(f"{text}\n".encode() for text in found)


main()
