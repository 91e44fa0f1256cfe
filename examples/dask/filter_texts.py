"""Replaces the symbols in texts by their declarations, on all workers of a Dask cluster.

    DASK_SCHEDULER_ADDRESS=tcp://HOST:8786 python3 filter_texts.py [--block SIZE] OUTPUT TEXT..

Each TEXT is a file, a glob or another address that fsspec knows, as s3://.., and is read in blocks of about SIZE, cut
after line feeds. OUTPUT is a new folder that all workers reach by this path. It gets a part for each block, which is
renamed once it is whole; `cat OUTPUT/part-*` prints the parts in order. docs/scale.md describes workers and failures.
"""
import argparse
import os
import uuid

import dask
import msvc_demangler
from dask.bytes import read_bytes
from distributed import Client, as_completed


@dask.delayed
def write_part(block, folder, number):
    """Writes a part: a block with its symbols replaced."""
    unfinished = f"{folder}/.{uuid.uuid4()}"
    with open(unfinished, "wb") as part:
        part.write(msvc_demangler.filter(block))
    os.replace(unfinished, f"{folder}/part-{number:09}")


if __name__ == "__main__":
    parser = argparse.ArgumentParser(description=__doc__, formatter_class=argparse.RawDescriptionHelpFormatter)
    parser.add_argument("--block", default="16MiB")
    parser.add_argument("output", type=os.path.abspath)
    parser.add_argument("texts", nargs="+")
    given = parser.parse_args()
    _, files = read_bytes(given.texts, delimiter=b"\n", blocksize=given.block, sample=False)
    os.makedirs(given.output)
    parts = [write_part(block, given.output, number) for number, block in enumerate(sum(files, []))]
    with Client() as client:
        for count, part in enumerate(as_completed(client.compute(parts, retries=3)), 1):
            part.result()
            part.release()  # so that it is not made again if its worker is lost
            print(f"\r{count} of {len(parts)} parts", end="" if count < len(parts) else "\n", flush=True)
