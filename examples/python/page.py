#!/usr/bin/env python3
"""Formats strangers' manual pages by libnulbiko, under limits.

  page.py PAGE ..

It needs the wheel that tools/package makes.
"""
import sys

import nulbiko

STATUS = 0
with nulbiko.Handle(nulbiko.MAN, width=78, limits=nulbiko.LIMITS_OF_STRANGERS) as handle:
    for name in sys.argv[1:]:
        with open(name, 'rb') as file:
            text = file.read()
        try:
            sys.stdout.buffer.write(handle.run(text))
        except nulbiko.Stopped as stopped:
            sys.stdout.buffer.write(stopped.made)
            print(f'{name}: {stopped}', file=sys.stderr)
            STATUS = 1
sys.exit(STATUS)
