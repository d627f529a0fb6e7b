"""Stands in the place of a proved program, as `recorded-replay` does: answers an input as that program answered it when its
answer was recorded.

RECORDED_ANSWERS is the folder of the answers. Its name, as `recorded-host`, says which program it stands for: where the variable
RECORD_WITH_FELIX_HOST names that program it is asked, and its answer is kept."""
import gzip
import hashlib
import io
import os
import subprocess
import sys

LONG = 40000


def main(words):
    node, text = words[1], sys.stdin.buffer.read()
    path = os.path.join(os.environ["RECORDED_ANSWERS"], "%s-%s.txt" % (node, hashlib.sha256(text).hexdigest()[:12]))
    recorder = os.environ.get("RECORD_WITH_FELIX_" + sys.argv[0].rpartition("recorded-")[2].upper())
    if recorder:
        record(recorder, path, words, text)
    answer = kept(path)
    if answer is None:
        sys.stderr.write("no answer to this input is recorded; tools/test --record PROGRAM records it\n")
        return 70
    sys.stdout.buffer.write(answer)
    return 1 if any(line.startswith(b"refused ") for line in answer.split(b"\n")) else 0


def record(recorder, path, words, text):
    done = subprocess.run([recorder] + words, input=text, stdout=subprocess.PIPE)
    if done.returncode not in (0, 1):
        sys.exit(done.returncode)
    os.makedirs(os.path.dirname(path), exist_ok=True)
    is_long = len(done.stdout) > LONG
    with open(path + ".gz" if is_long else path, "wb") as file:
        file.write(compressed(done.stdout) if is_long else done.stdout)


def compressed(answer):
    """The same bytes for the same answer: no time of day in them."""
    buffer = io.BytesIO()
    with gzip.GzipFile(filename="", mode="wb", fileobj=buffer, mtime=0) as file:
        file.write(answer)
    return buffer.getvalue()


def kept(path):
    if os.path.exists(path):
        with open(path, "rb") as file:
            return file.read()
    if os.path.exists(path + ".gz"):
        with gzip.open(path + ".gz", "rb") as file:
            return file.read()
    return None
