"""Cuts what `itipdesk compact` wrote into parts by UID, and merges what was made of such parts.

A compaction has one to-do in each message, so a message goes to a part as a whole. A message of another hand may have to-dos of
several UIDs, and is refused for the first bad one of them: who cuts it up changes what is refused, so it is compacted first.

Why it is right: the laws `lists_of_parts` of itip_view and `outputs_of_parts` of itip_inbox, of rows and of items. That texts are
cut here as these say is compared by tools/cluster/test.
"""
import heapq
import itertools
import re
import zlib

END = b"\r\nEND:VCALENDAR\r\n"
UID = re.compile(rb"\r\nUID:([^\r\n]*(?:\r\n [^\r\n]*)*)\r\n")
ROW_LIMIT = 100_000
TOO_MANY = b"refused 31\n"
ROW = b"TODO "


def messages_of(text):
    """The messages of a compaction, in their order."""
    *found, rest = text.split(END)
    if rest:
        raise ValueError("a compaction ends with END:VCALENDAR")
    return [it + END for it in found]


def uid_of(message):
    """The UID of a message of a compaction, unfolded."""
    found = UID.findall(message)
    if len(found) != 1:
        raise ValueError(f"a message of a compaction has one UID, not {len(found)}")
    return found[0].replace(b"\r\n ", b"")


def part_of(uid, parts):
    """The number of a UID's part: the same on each host and in each run, which Python's own hash is not."""
    return zlib.crc32(uid) % parts


def cut(text, parts):
    """The parts of a compaction, each a compaction too: all messages of a UID stand in one part, in their order."""
    found = [[] for _ in range(parts)]
    for it in messages_of(text):
        found[part_of(uid_of(it), parts)].append(it)
    return [b"".join(it) for it in found]


def merged(texts):
    """The compaction of all parts: their messages, sorted by bytes as each part's are."""
    return b"".join(heapq.merge(*(messages_of(it) for it in texts)))


def blocks_of(text):
    """The UIDs of a list as text, in their order, each with its rows."""
    rows = [ROW + it + b"\n" for it in (b"\n" + text[:-1]).split(b"\n" + ROW)[1:]]
    return [(uid, list(some)) for uid, some in itertools.groupby(rows, lambda it: it[len(ROW) : it.index(b"\n")])]


def merged_rows(texts):
    """The list of the whole of the lists of its parts, as text: by UID, and `refused 31` where it has too many rows."""
    if TOO_MANY in texts:
        return TOO_MANY
    blocks = list(heapq.merge(*(blocks_of(it) for it in texts), key=lambda it: it[0]))
    if sum(len(rows) for _, rows in blocks) > ROW_LIMIT:
        return TOO_MANY
    return b"".join(row for _, rows in blocks for row in rows)
