"""tutorial_feed.py FEED DATA: reads an RSS 2.0 feed with Python's own XML parser and its data with Python's own JSON parser, and prints the
titles of the feed, a line for each.

Ends with a traceback, and so with status 1, if the feed is not well-formed, or a text of it isn't exactly what the data has.
"""

import json
import sys
from xml.etree import ElementTree

ITUNES = "{http://www.itunes.com/dtds/podcast-1.0.dtd}"


def compare_sound(item, episode):
    sound = item.find("enclosure")
    assert sound.get("url") == episode["sound"]["address"]
    assert sound.get("length") == episode["sound"]["length"]
    assert sound.get("type") == "audio/mpeg"


def compare_topics(item, episode):
    assert [category.text for category in item.findall("category")] == episode["topics"]
    assert item.findtext(ITUNES + "keywords") == ", ".join(episode["topics"])


def compare_episode(item, episode):
    """What an episode of the starter has not, the tutorial adds."""
    assert item.findtext("title") == episode["title"]
    assert item.findtext("guid") == episode["page"]
    assert item.findtext("pubDate") == episode.get("date")
    assert item.findtext("description") == episode.get("note")
    assert item.findtext(ITUNES + "explicit") == ("true" if episode.get("explicit") else None)
    if "sound" in episode:
        compare_sound(item, episode)
    if "topics" in episode:
        compare_topics(item, episode)


def main(feed, data):
    root = ElementTree.parse(feed).getroot()
    with open(data, encoding="utf-8") as file:
        typed = json.load(file)
    assert (root.tag, root.get("version")) == ("rss", "2.0")
    channel = root.find("channel")
    assert channel.findtext("title") == typed["title"]
    assert channel.findtext("link") == typed["page"]
    assert channel.findtext("description") == typed["about"]
    for item, episode in zip(channel.findall("item"), typed["episodes"], strict=True):
        compare_episode(item, episode)
    titles = [title.text for title in channel.iter("title")]
    sys.stdout.buffer.writelines(f"{title}\n".encode() for title in titles)


main(*sys.argv[1:])
