#!/usr/bin/python3
"""A consumer of a stream of messages, which keeps what counts of them in a file, and tells another site what is new.

    consumer.py SETTINGS

SETTINGS is an object as JSON: see DEFAULTS. The consumer's files lie where it is started:

- desk.ics, what counts of all that it took; theirs.ics, what counts of all that the other site is known to have.
- journal, a line for each step.

With `parts` above 0 it keeps nothing: it cuts what counts of its entries by UID, and adds each piece to the stream of its part.
Whoever takes that stream keeps the part, as any consumer does.

Each step may be its last: it is killed at any time, started again in the same folder, and goes on. What it was given and hasn't
acknowledged it is given again. Entries are acknowledged when the file with them is on disk.
"""
import glob
import json
import os
import shutil
import subprocess
import sys

import messages
import redis
import uid_parts

DESK, THEIRS, BATCH, THEIR_BATCH, NEWS = "desk.ics", "theirs.ics", "batch", "their-batch", "news.ics"
STREAM, GROUP = "inbox", "desks"
# The stream that is taken; of the broker of the site and that of the other, which may be absent; how many entries are taken at
# once; after how many batches the other site is told the news; after how many seconds others' entries are taken over; into how
# many parts entries are cut. With acknowledges_first entries are acknowledged before they are written, which loses some of them.
DEFAULTS = {"name": "", "site": "", "program": "", "stream": STREAM, "broker": "", "other": "", "batch": 100, "telling": 10}
DEFAULTS |= {"patience": 2.0, "parts": 0, "acknowledges_first": False}
WAIT_MS = 100
ENTRIES_AT_ONCE = 1_000


class Consumer:
    def __init__(self, settings):
        self.settings = settings
        self.broker = redis.Redis(settings["broker"])
        self.other = redis.Redis(settings["other"]) if settings["other"] else None
        self.journal = os.open("journal", os.O_WRONLY | os.O_CREAT | os.O_APPEND, 0o644)
        # What a kill left beside the files.
        for name in glob.glob(".*.part"):
            os.remove(name)
        for name in DESK, THEIRS:
            open(name, "ab").close()
        self.untold = 1

    def note(self, step, number=0):
        os.write(self.journal, f"{step} {number}\n".encode())

    def acknowledges_first(self):
        return self.settings["acknowledges_first"]

    def onto(self, desk, source):
        """Compacts a source onto a file, which is then the old one or the new one on disk, whenever this is killed."""
        words = [self.settings["program"], "compact", "--threads", "1", "--output", desk, desk, source]
        ran = subprocess.run(words, stdout=subprocess.DEVNULL, stderr=subprocess.PIPE)
        # 1 says that a message was refused: it isn't heard, wherever and however often it comes.
        if ran.returncode not in (0, 1):
            sys.exit(f"status {ran.returncode}: {ran.stderr[-300:]}")
        # The file was synced before it got its name. After a crash of the machine it has that name where the folder was synced too.
        sync_folder()

    def given(self, since):
        """Entries of the stream: those that this consumer was given before, or since `>` new ones."""
        found = self.broker.xreadgroup(GROUP, self.settings["name"], {self.settings["stream"]: since}, self.settings["batch"], WAIT_MS)
        return found[0][1] if found else []

    def left_behind(self):
        """Entries that another consumer was given and hasn't acknowledged for long."""
        least = int(self.settings["patience"] * 1000)
        return self.broker.xautoclaim(self.settings["stream"], GROUP, self.settings["name"], least, count=self.settings["batch"])[1]

    def take(self, entries):
        """Takes what entries tell, and acknowledges them."""
        self.note("read", len(entries))
        if self.acknowledges_first():
            self.acknowledge(entries)
        self.keep(entries)
        self.note("written", len(entries))
        if not self.acknowledges_first():
            self.acknowledge(entries)
        self.untold += 1

    def keep(self, entries):
        """Writes what entries tell into the files."""
        self.write(DESK, BATCH, [fields[b"text"] for _, fields in entries])
        theirs = [fields[b"text"] for _, fields in entries if b"site" in fields]
        if theirs:
            self.write(THEIRS, THEIR_BATCH, theirs)

    def write(self, desk, folder, texts):
        shutil.rmtree(folder, ignore_errors=True)
        messages.write_texts(folder, texts)
        self.onto(desk, folder)

    def acknowledge(self, entries):
        self.broker.xack(self.settings["stream"], GROUP, *[number for number, _ in entries])
        self.note("acknowledged", len(entries))

    def tell(self):
        """Gives the other site what it lacks of this desk. Told twice is told once."""
        words = [self.settings["program"], "news", "--threads", "1", "--than", THEIRS, DESK]
        news = subprocess.run(words, stdout=subprocess.PIPE, check=True).stdout
        texts = uid_parts.messages_of(news)
        if texts:
            self.note("telling", len(texts))
            publish(self.other, [(it, self.settings["site"]) for it in texts])
            with open(NEWS, "wb") as file:
                file.write(news)
            self.onto(THEIRS, NEWS)
            self.note("told", len(texts))
        self.untold = 0

    def step(self, is_idle):
        """Takes what there is to take, or tells the news. Whether there was neither."""
        entries = self.given(">") or self.left_behind()
        if entries:
            self.take(entries)
        if self.other and self.untold and (not entries or self.untold > self.settings["telling"]):
            self.tell()
        elif not entries:
            if not is_idle:
                self.note("idle")
            return True
        return False

    def run(self):
        self.note("start")
        while entries := self.given("0"):
            self.take(entries)
        is_idle = False
        while True:
            is_idle = self.step(is_idle)


class Sorter(Consumer):
    """A consumer that keeps nothing, and sorts what counts of its entries by UID."""

    def keep(self, entries):
        """Adds what counts of entries to the streams of its parts. Added twice is added once."""
        shutil.rmtree(BATCH, ignore_errors=True)
        messages.write_texts(BATCH, [fields[b"text"] for _, fields in entries])
        ran = subprocess.run([self.settings["program"], "compact", "--threads", "1", BATCH], stdout=subprocess.PIPE, stderr=subprocess.PIPE)
        if ran.returncode not in (0, 1):
            sys.exit(f"status {ran.returncode}: {ran.stderr[-300:]}")
        for number, piece in enumerate(uid_parts.cut(ran.stdout, self.settings["parts"])):
            if piece:
                publish(self.broker, [(piece, None)], stream_of_part(number))


def stream_of_part(number):
    """The stream of a part. Redis Cluster keeps it on the node of the hash slot of what stands in braces."""
    return f"{STREAM}:{{{number}}}"


def sync_folder():
    folder = os.open(".", os.O_RDONLY)
    os.fsync(folder)
    os.close(folder)


def publish(broker, texts, stream=STREAM):
    """Adds texts to a stream of a broker, each with the site that it comes from, or with none."""
    for at in range(0, len(texts), ENTRIES_AT_ONCE):
        with broker.pipeline(transaction=False) as pipe:
            for text, site in texts[at : at + ENTRIES_AT_ONCE]:
                pipe.xadd(stream, {"text": text, **({"site": site} if site else {})})
            pipe.execute()


if __name__ == "__main__":
    asked = {**DEFAULTS, **json.loads(sys.argv[1])}
    (Sorter if asked["parts"] else Consumer)(asked).run()
