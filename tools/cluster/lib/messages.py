"""Messages to try a cluster with, and how they are laid out as files."""
import os
import random
import runpy

TOP = os.path.dirname(os.path.dirname(os.path.dirname(os.path.dirname(os.path.realpath(__file__)))))
MANY_MESSAGES = runpy.run_path(os.path.join(TOP, "bench", "many-messages"), run_name="many-messages")
MESSAGE = MANY_MESSAGES["message"]
# About so many to-dos they are, chosen at random.
TODOS = MANY_MESSAGES["TODOS"]
BEGIN, END = b"BEGIN:VCALENDAR\r\n", b"\r\nEND:VCALENDAR\r\n"
# Three days, so that the list of a million messages has fewer than 100,000 rows.
DAYS = ["--from", "20260105", "--to", "20260108"]
# One message of so many is cut off on its way.
CUT_OFF = 1_000


def made(count, seed):
    """Messages of the kinds that bench/many-messages writes; the same count and seed give the same bytes."""
    rng = random.Random(seed)
    for number in range(count):
        yield MESSAGE(rng, number).encode()


def damaged(texts, seed):
    """The same messages, a few of which are cut off."""
    rng = random.Random(seed)
    for text in texts:
        yield text[: rng.randrange(1, len(text))] if rng.randrange(CUT_OFF) == 0 else text


def write_texts(folder, texts):
    """Writes texts so that each is read by itself: whole messages to one file, and each other text to one of its own.

    A source is cut after each line END:VCALENDAR, so a message that was cut off would take the next one with it.
    """
    os.makedirs(folder)
    with open(os.path.join(folder, "whole.ics"), "wb") as whole:
        for at, text in enumerate(texts):
            if text.startswith(BEGIN) and text.endswith(END):
                whole.write(text)
            else:
                with open(os.path.join(folder, f"odd-{at:08}.ics"), "wb") as file:
                    file.write(text)
