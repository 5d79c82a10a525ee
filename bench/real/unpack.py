#!/usr/bin/env python3
"""Unpacks the real models and streams beside this file.

    unpack.py FOLDER

writes FOLDER/NAME.fzn, FOLDER/NAME.out and FOLDER/NAME-first.out, the first block of the stream."""
import glob
import lzma
import os
import shutil
import sys

HERE = os.path.dirname(os.path.abspath(__file__))
MARKER = b"----------\n"


def unpack(packed, path):
    with lzma.open(packed) as source, open(path, "wb") as out:
        shutil.copyfileobj(source, out)


def cut(stream, path):
    """Writes a stream's first block, its last line of ten dashes included."""
    with open(stream, "rb") as source, open(path, "wb") as out:
        for line in source:
            out.write(line)
            if line == MARKER:
                break


def main():
    folder = sys.argv[1]
    os.makedirs(folder, exist_ok=True)
    for packed in glob.glob(os.path.join(HERE, "*.xz")):
        path = os.path.join(folder, os.path.basename(packed).removesuffix(".xz"))
        unpack(packed, path)
        if path.endswith(".out"):
            cut(path, path.removesuffix(".out") + "-first.out")


main()
