#!/usr/bin/env python3
"""Formats all pages of a folder on workers of Dask, by libnulbiko.

  cluster.py SCHEDULER FOLDER

SCHEDULER is the address of a `dask scheduler`, as tcp://one:8786; any number of `dask worker`s may come and go, each with
the package nulbiko for Python. Pages go there and come back beside their sources, PAGE.txt each. What was under way on a
worker that ended is done by another. FOLDER.failed lists the pages that failed, each with what stopped it and where; the
status is 1 where there is one. It needs Debian's python3-distributed.
"""
import os
import sys

from distributed import Client, as_completed


def formatted(text):
    """A page and, where it was stopped, why: on a worker."""
    import nulbiko
    try:
        return nulbiko.page(text), None
    except nulbiko.Stopped as stopped:
        return stopped.made, str(stopped)


def read(path):
    with open(path, 'rb') as file:
        return file.read()


def main():
    if len(sys.argv) != 3 or sys.argv[1].startswith('-'):
        sys.exit(__doc__)
    folder = sys.argv[2].rstrip('/')
    pages = sorted(name for name in os.listdir(folder) if not name.endswith('.txt'))
    failed = []
    with Client(sys.argv[1]) as client:
        futures = client.map(formatted, [read(os.path.join(folder, name)) for name in pages], pure=False)
        names = dict(zip(futures, pages))
        for future in as_completed(futures):
            # Workers that ended one after another while they had a page are held against the page.
            page, why = future.result() if future.status == 'finished' else ('', repr(future.exception()))
            with open(os.path.join(folder, names[future] + '.txt'), 'w', encoding='utf-8') as file:
                file.write(page)
            if why:
                failed.append(f'{names[future]}: {why}\n')
    with open(folder + '.failed', 'w', encoding='utf-8') as file:
        file.writelines(sorted(failed))
    return 1 if failed else 0


if __name__ == '__main__':
    sys.exit(main())
