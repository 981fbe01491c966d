#!/usr/bin/env python3
"""A program that has its desks in a child: itipdesk run --stream, asked over its standard input and output.

    examples/clients/child.py PROGRAM FILE

Needs Python's standard library alone. What it shows: a desk that begins with FILE where that is there, takes a message, is
asked for its list, goes on after a refusal, sends what changed to another desk, and is saved to FILE.
"""
import os
import subprocess
import sys


class Refused(Exception):
    """A command was refused; the number says why. Nothing has changed, and the child goes on."""

    def __init__(self, number):
        super().__init__(f"refused {number}")
        self.number = number


class Ended(Exception):
    """The child has ended. What was saved is in its files."""


class Desks:
    """Desks in a child process. Each call waits for the answer to its command, and none is kept."""

    def __init__(self, program, desks=1, load=None, window=("20260101", "20270101")):
        words = [program, "run", "--stream", "--desks", str(desks), "--from", window[0], "--to", window[1]]
        for desk, name in (load or {}).items():
            words += ["--load", f"{desk}={name}"]
        self.child = subprocess.Popen(words, stdin=subprocess.PIPE, stdout=subprocess.PIPE)

    def ask(self, line, octets=b""):
        """The first line of the answer to a command, as its words. Octets follow the line at once."""
        try:
            self.child.stdin.write(line.encode() + b"\n" + octets)
            self.child.stdin.flush()
        except BrokenPipeError:
            raise Ended from None
        answer = self.child.stdout.readline()
        if not answer.endswith(b"\n"):
            raise Ended
        words = answer.decode().split()
        if words[0] == "refused":
            raise Refused(int(words[1]))
        return words

    def octets(self, count):
        """So many octets of an answer."""
        octets = self.child.stdout.read(count)
        if len(octets) < count:
            raise Ended
        return octets

    def take(self, desk, message):
        """A desk takes a message, of at most 1,048,576 octets. Gives its tick then, and how many to-dos changed."""
        words = self.ask(f"!take {desk} {len(message)}", message)
        return int(words[3]), int(words[5])

    def list(self, desk):
        """The task list of a desk, a list of lines for each row."""
        return self.rows(self.ask(f"!list {desk}"))

    def mine(self, desk, address):
        """The rows that show an attendee."""
        return self.rows(self.ask(f"!mine {desk} {address}"))

    def rows(self, head):
        # A row ends with its PROGRESS, and no other line of it begins so: those of a message are indented behind a name.
        rows = []
        for _ in range(int(head[3])):
            row = [self.line()]
            while not row[-1].startswith("  PROGRESS "):
                row.append(self.line())
            rows.append(row)
        return rows

    def line(self):
        line = self.child.stdout.readline()
        if not line.endswith(b"\n"):
            raise Ended
        return line[:-1].decode()

    def report(self, desk, name):
        """The lines of a report: load, progress, cancelled, orphans or refresh."""
        words = self.ask(f"!report {desk} {name}")
        return [self.line() for _ in range(int(words[3]))]

    def entries(self, desk):
        """How many items a desk keeps."""
        return int(self.ask(f"!entries {desk}")[2])

    def post(self, desk, since):
        """The tick of a desk, and as octets what changed there after another tick: who had all up to that has all with them."""
        words = self.ask(f"!post {desk} {since}")
        return int(words[3]), self.octets(int(words[7]))

    def arrive(self, desk, delta):
        """What a desk posted reaches this one. Gives its tick then, and how many to-dos changed."""
        words = self.ask(f"!arrive {desk} {len(delta)}", delta)
        return int(words[3]), int(words[5])

    def resend(self, desk, uid):
        """The messages of a to-do to send again, or None."""
        words = self.ask(f"!resend {desk} {uid}")
        return None if words[2] == "none" else self.octets(int(words[3]))

    def next(self, desk, uid):
        """The next SEQUENCE to use for a to-do, or None."""
        words = self.ask(f"!next {desk} {uid}")
        return None if words[2] == "none" else int(words[2])

    def save(self, desk, name):
        """Replaces a file by the desk. When this returns the desk is in it, and stays there if the machine fails. Gives its tick."""
        return int(self.ask(f"!save {desk} {name}")[3])

    def end(self):
        """Ends the child, and gives its status: 1 where something was refused."""
        self.child.stdin.close()
        self.child.stdout.close()
        return self.child.wait()


MESSAGE = b"""BEGIN:VCALENDAR
VERSION:2.0
METHOD:REQUEST
BEGIN:VTODO
UID:paint
DTSTAMP:20260302T090000Z
DTSTART;VALUE=DATE:20260309
SUMMARY:Paint the hall
END:VTODO
END:VCALENDAR
"""


def main():
    if len(sys.argv) != 3:
        print("child.py PROGRAM FILE", file=sys.stderr)
        return 2
    program, name = sys.argv[1:]
    desks = Desks(program, desks=2, load={0: name} if os.path.exists(name) else None)
    print("take", *desks.take(0, MESSAGE))
    try:
        desks.take(0, b"no message")
    except Refused as refused:
        print(refused)
    tick, delta = desks.post(0, 0)
    print("post", tick, len(delta))
    print("arrive", *desks.arrive(1, delta))
    for row in desks.list(1):
        print("\n".join(row))
    print("save", desks.save(0, name))
    return 0 if desks.end() == 1 else 3


if __name__ == "__main__":
    sys.exit(main())
