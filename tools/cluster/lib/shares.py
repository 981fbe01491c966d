"""What a worker does with shares of messages. Each call takes and gives bytes, and leaves nothing behind on its host.

So an engine may make a call again, elsewhere or twice at once: it gives the same bytes.
"""
import os
import subprocess
import tempfile
import urllib.request

import uid_parts

PROGRAM = "ITIPDESK_CLUSTER_PROGRAM"


def run(words, texts):
    """What the program writes of these texts, each as a file of a folder."""
    with tempfile.TemporaryDirectory(dir=".") as folder:
        for at, text in enumerate(texts):
            with open(os.path.join(folder, f"{at:04}.ics"), "wb") as file:
                file.write(text)
        ran = subprocess.run([os.environ[PROGRAM], *words, "--threads", "1", folder], stdout=subprocess.PIPE, stderr=subprocess.PIPE)
    # 1 says that a message was refused: it isn't heard, and the others are.
    if ran.returncode not in (0, 1):
        raise RuntimeError(f"status {ran.returncode}: {ran.stderr[-200:]}")
    return ran.stdout


def compacted(urls):
    """The compaction of a share that lies in a store."""
    texts = []
    for url in urls:
        with urllib.request.urlopen(url, timeout=300) as answer:
            texts.append(answer.read())
    return run(["compact"], texts)


def joined(texts):
    """The compaction of compactions."""
    return run(["compact"], texts)


def cut(urls, parts):
    """The parts by UID of the compaction of a share."""
    return uid_parts.cut(compacted(urls), parts)


def part(cuts, number):
    """One of the parts."""
    return cuts[number]


def listed(text, words):
    """The list of a compaction."""
    return run(["list", *words], [text])
