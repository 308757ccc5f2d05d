#!/usr/bin/python3
"""Brings a large file into a form on many processes, or many machines, by Dask.

    dask_nfstream.py [--workers N | --scheduler ADDRESS] [--part MIB] [--program NFSTREAM] IN OUT [-- CONVERT'S FLAGS]

The file is cut after line feeds, each part goes through `nfstream convert` on a worker, and the parts are joined in their
order: the bytes are those that one process writes. No part is held in memory. Workers are processes of this machine, or
those of the scheduler that is named; these read IN, and write beside OUT, in folders that all of them share. A part is
written beside and renamed when it is whole, so a worker that is killed changes nothing: Dask runs its part again. OUT is
renamed last. At a fault OUT stays as it was, and the fault is told at its place in the whole file.
"""
import argparse, collections, contextlib, logging, os, re, shutil, subprocess, sys, tempfile, uuid
from distributed import Client, LocalCluster


def pass_on(source, at, end, sink):
    """Copies the bytes of a file from `at` to `end` to another file, or into a pipe."""
    while at < end:
        sent = os.sendfile(sink, source, at, end - at)
        if sent == 0:
            raise OSError("the file became shorter")
        at += sent


def parts(path, size):
    """Where each part begins and ends: `size` bytes, and on to the end of the line."""
    with open(path, "rb") as file:
        at, end = 0, os.fstat(file.fileno()).st_size
        while at < end:
            file.seek(at + size - 1)
            while (block := file.readline(1 << 16)) and not block.endswith(b"\n"):
                pass
            after = min(file.tell(), end) if block else end
            yield at, after
            at = after


def convert(words, path, at, end, whole):
    """Runs the program over a part, on a worker, and leaves its output as the file `whole`. Answers the status and the line."""
    beside = f"{whole}.{uuid.uuid4().hex}"
    with open(path, "rb") as file, open(beside, "wb") as out:
        program = subprocess.Popen(words, stdin=subprocess.PIPE, stdout=out, stderr=subprocess.PIPE)
        try:
            pass_on(file.fileno(), at, end, program.stdin.fileno())
        except BrokenPipeError:
            pass  # the program ended at a fault, which its status tells
        line = program.communicate()[1].decode()
    os.replace(beside, whole)
    return program.returncode, line


def take(part, out):
    """Puts a part that was converted after those before it; ends the run at a fault."""
    at, whole, future = part
    status, line = future.result()
    if status != 0:
        sys.stderr.write(re.sub(r"\bat (\d+)", lambda place: f"at {int(place[1]) + at}", line))
        sys.exit(status if status > 0 else 4)
    with open(whole, "rb") as file:
        pass_on(file.fileno(), 0, os.fstat(file.fileno()).st_size, out.fileno())
    os.remove(whole)


def run(client, words, path, out_path, size):
    """Few parts are under way at once, so that little is written before the fault of an early part is seen."""
    most = 4 * max(1, sum(client.nthreads().values()))
    folder = tempfile.mkdtemp(prefix=os.path.basename(out_path) + ".", dir=os.path.dirname(out_path))
    try:
        under_way = collections.deque()
        with open(os.path.join(folder, "out"), "wb") as out:
            for number, (at, end) in enumerate(parts(path, size)):
                whole = os.path.join(folder, str(number))
                future = client.submit(convert, words, path, at, end, whole, pure=False)
                under_way.append((at, whole, future))
                if len(under_way) == most:
                    take(under_way.popleft(), out)
            while under_way:
                take(under_way.popleft(), out)
        os.replace(os.path.join(folder, "out"), out_path)
    finally:
        # After a fault workers may still begin a part: under its old name they no longer find the folder.
        gone = folder + ".gone"
        os.rename(folder, gone)
        shutil.rmtree(gone, ignore_errors=True)


def main():
    words = argparse.ArgumentParser(usage=__doc__)
    words.add_argument("--workers", type=int, default=os.cpu_count())
    words.add_argument("--scheduler")
    words.add_argument("--part", type=int, default=64, help="MiB")
    words.add_argument("--program", default="nfstream")
    words.add_argument("input")
    words.add_argument("output")
    words.add_argument("flags", nargs="*", default=["--form", "nfc"])
    asked = words.parse_args()
    logging.getLogger("asyncio").setLevel(logging.CRITICAL)  # else it may tell of parts that were given up at a fault
    program = [shutil.which(asked.program) or asked.program, "convert", *asked.flags]
    if asked.scheduler:
        cluster = contextlib.nullcontext(asked.scheduler)
    else:
        cluster = LocalCluster(n_workers=asked.workers, threads_per_worker=1, processes=True, dashboard_address=":0")
    with cluster as where, Client(where) as client:
        run(client, program, os.path.abspath(asked.input), os.path.abspath(asked.output), asked.part << 20)


if __name__ == "__main__":
    main()
