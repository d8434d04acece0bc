#!/usr/bin/python3
"""The film return of many films, made on the machines of a Dask cluster (Debian: apt install python3-distributed):

    film_return.py SCHEDULER FILE.. [--files-from LIST] [--films N] [--program CHALDOREF] [--json]

    dask-scheduler &                                    on one machine
    dask-worker tcp://that-machine:8786 --nthreads 1    on each; a worker for each core
    film_return.py tcp://that-machine:8786 /films/2026 --json > 2026.json

The films are cut into parts of N (200). Each part is one task: `chaldoref film-return --json` of its films on whichever worker is free. The
partial returns are joined in the order of the films by `chaldoref film-return --join`, so what is printed, and the exit status, are those of
`chaldoref film-return` of all films on one machine. Where a worker is lost, Dask gives its parts to another.

Every machine has the program `chaldoref` and sees the films under the same names. A folder stands for the films in it, as for the program.
"""
import argparse
import json
import os
import pathlib
import subprocess
import sys
import tempfile

ENDINGS = (b".mov", b".mp4", b".m4v", b".qt")


def walk(folder):
    """The films in a folder and in the folders in it, by their names, as the program takes them."""
    for entry in sorted(os.scandir(folder), key=lambda entry: entry.name):
        if entry.is_dir(follow_symlinks=False):
            yield from walk(entry.path)
        elif os.path.splitext(entry.name)[1].lower() in ENDINGS and not entry.is_dir():
            yield entry.path


def films(names):
    """The films of these names, in their order."""
    for name in names:
        if os.path.isdir(name):
            yield from walk(name)
        else:
            yield name


def part(program, names):
    """The return of some films, as the program writes it. It runs on a worker."""
    command = [program, "film-return", "--json", "--jobs", "1", "--files-from", "-", "-0"]
    ran = subprocess.run(command, input=b"".join(name + b"\0" for name in names), capture_output=True, check=False)
    try:
        json.loads(ran.stdout)
    except ValueError:
        raise RuntimeError(f"{program} wrote no return (exit status {ran.returncode}): {ran.stderr.decode(errors='replace')}") from None
    return ran.stdout


def tell(document):
    """Names on standard error the films that are not accepted, and why."""
    for film in json.loads(document)["not_accepted"]:
        why = film.get("error") or f"refused {film['refused']}: {film['reason']}"
        print(f"film_return: {film['file']}: {why}", file=sys.stderr)


def join(program, parts, as_json):
    """Prints the return of all parts; its exit status is the program's."""
    with tempfile.TemporaryDirectory() as folder:
        files = []
        for number, document in enumerate(parts):
            files.append(pathlib.Path(folder) / f"{number}.json")
            files[-1].write_bytes(document)
        return subprocess.run([program, "film-return", "--join", *["--json"] * as_json, "--", *files], check=False).returncode


def main():
    options = argparse.ArgumentParser(description="The film return of many films, made by a Dask cluster.")
    options.add_argument("scheduler", metavar="SCHEDULER", help="as tcp://machine:8786")
    options.add_argument("files", metavar="FILE", nargs="*", help="a film, or a folder of films")
    options.add_argument("--files-from", metavar="LIST", help="a file with names of films too, a line each")
    options.add_argument("--films", metavar="N", type=int, default=200, help="films in a part (200)")
    options.add_argument("--program", metavar="CHALDOREF", default="chaldoref", help="the program's name on every machine")
    options.add_argument("--json", action="store_true", help="print one JSON document")
    given = options.parse_args()
    if given.films < 1:
        options.error("--films takes a number of 1 or more")
    names = [os.fsencode(name) for name in given.files]
    if given.files_from:
        names += [name for name in pathlib.Path(given.files_from).read_bytes().split(b"\n") if name]
    all_films = list(films(names))
    if not all_films:
        options.error("no film is named")
    try:
        from distributed import Client
    except ImportError:
        sys.exit("film_return: Dask is not installed; Debian: apt install python3-distributed, and run /usr/bin/python3")
    cut = [all_films[at:at + given.films] for at in range(0, len(all_films), given.films)]
    with Client(given.scheduler) as client:
        # Each part counts, also one whose films have the names of another's: none is taken from what was computed before.
        parts = client.gather(client.map(part, [given.program] * len(cut), cut, pure=False, retries=3))
    for document in parts:
        tell(document)
    return join(given.program, parts, given.json)


if __name__ == "__main__":
    sys.exit(main())
