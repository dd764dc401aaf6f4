"""Manual pages, papers and tables as text for a terminal, under limits.

    import nulbiko
    print(nulbiko.page(open('ls.1', 'rb').read(), width=78))

Where a limit would be passed `page` raises `Stopped`, which has the limit, its place and line, and what was formatted before.
`page` is `document` after the macros of manual pages; what that does in one call stands here by itself too, and `Handle` is for
many pages that are set alike. The calls are those of libnulbiko, by ctypes: any number may run at once, and Python's other
threads run meanwhile.
"""
import ctypes
import os
import threading
from ctypes import byref, c_bool, c_char_p, c_int64, c_size_t, c_uint32, c_uint64, c_void_p, sizeof

__all__ = ['FORMS', 'LIMITS', 'LIMITS_OF_STRANGERS', 'MAN', 'TABLES', 'Handle', 'Stopped', 'choose', 'choose_own', 'document',
           'format', 'mdoc', 'page', 'preconv', 'tbl', 'utf8', 'version']

# The limits of `document` and `format`: nroff's own, and those for a stranger's page, which ends after seconds.
LIMITS = {'stored': 262144, 'depth': 256, 'cells': 65536, 'expansions': 1000000, 'moves': 2**64 - 1}
LIMITS_OF_STRANGERS = {'stored': 262144, 'depth': 64, 'cells': 65536, 'expansions': 10000, 'moves': 10**8}
# The tables of characters. Without one, all is spelled in ASCII.
TABLES = {None: 0, 'english': 1, 'latin': 2, 'cyrillic': 3, 'greek': 4, 'latin1': 5}
# How `document` gives its pages: as bytes of the table, in UTF-8, or in UTF-8 between escape sequences.
FORMS = {'bytes': 0, 'utf8': 1, 'escapes': 2}
# The number of the table that `choose` gives, what the library answers where there is no memory to choose one, and what where the
# page takes one of its own.
CHOSEN, UNCHOSEN, OWN = 6, 7, 8
# What is held of a table, of a line of a row, and what goes out of a table at once, in bytes.
HELD = 1 << 18, 1 << 14, 1 << 24
# The most bytes that a call makes.
MOST = 1 << 26
WIDTHS = range(10, 1001)
DONE, LIMIT, FULL, OUT_OF_MEMORY = 0, 1, 4, 5
HERE = os.path.dirname(os.path.abspath(__file__))


class _Limits(ctypes.Structure):
    _fields_ = [('size', c_size_t), *((name, c_uint64) for name in LIMITS)]


class _Options(ctypes.Structure):
    _fields_ = [('size', c_size_t), ('first', c_int64), ('bold', c_bool)]


class _DocumentOptions(ctypes.Structure):
    _fields_ = [('size', c_size_t), ('macros', c_char_p), ('macros_length', c_size_t), ('first', c_int64),
                *((name, c_uint32) for name in ('width', 'table', 'form')),
                *((name, c_bool) for name in ('bold', 'long_page', 'mdoc', 'tables')),
                *((name, c_size_t) for name in ('formats', 'row', 'set_page'))]


class _Report(ctypes.Structure):
    _fields_ = [('size', c_size_t), ('written', c_size_t), ('at', c_uint64), ('moves', c_uint64), ('limit', c_uint32),
                ('dropped', c_uint64), ('line', c_uint64)]


class Stopped(Exception):
    """A call did not do all.

    `call` is its name, `outcome` the outcome's, `limit` the name of the limit that would be passed or None, `at` how many
    bytes of the call's text had been taken, and `made` what was whole before: of `page` a str, else bytes. Of `document`, `run` and
    `page` the place is counted in what the formatter reads after the macros, and 0 in these, and `line` is the line of the
    page that was read last. Of other calls it is 0.
    """

    def __init__(self, call, outcome, limit, at, made, line=0):
        self.call, self.outcome, self.limit, self.at, self.made, self.line = call, outcome, limit, at, made, line
        place = f' at byte {at}, line {line}' if line else f' at byte {at}'
        super().__init__(f'{call}: {limit} limit passed{place}' if limit else f'{call}: {outcome}')

    def __reduce__(self):
        return Stopped, (self.call, self.outcome, self.limit, self.at, self.made, self.line)


def _library():
    """The library of this folder, or the system's."""
    path = os.path.join(HERE, 'libnulbiko.so')
    library = ctypes.CDLL(path if os.path.exists(path) else 'libnulbiko.so.0')
    places = [c_char_p, c_size_t, c_void_p, c_size_t, c_void_p]
    firsts = {'document': [c_void_p, c_void_p], 'run': [c_void_p], 'format': [c_void_p, c_void_p], 'mdoc': [], 'preconv': [c_uint32],
              'tbl': [c_uint32, c_size_t], 'utf8': [c_uint32, c_bool]}
    firsts |= {f'{name}_own': [c_char_p, c_size_t, *firsts[name][1:]] for name in ('preconv', 'tbl', 'utf8')}
    for name, first in firsts.items():
        call = getattr(library, f'nulbiko_{name}')
        call.argtypes, call.restype = first + places, c_uint32
    library.nulbiko_open.argtypes, library.nulbiko_open.restype = [c_void_p] * 3, c_uint32
    library.nulbiko_close.argtypes, library.nulbiko_close.restype = [c_void_p], None
    for call in library.nulbiko_choose, library.nulbiko_choose_own:
        call.argtypes, call.restype = [c_char_p, c_size_t], c_uint32
    library.nulbiko_version.argtypes, library.nulbiko_version.restype = [], c_char_p
    for name in 'outcome', 'limit':
        call = getattr(library, f'nulbiko_{name}_name')
        call.argtypes, call.restype = [c_uint32], c_char_p
    return library


_LIBRARY = _library()


def _macros():
    prefixes = os.environ.get('NULBIKO', '/usr/local'), '/usr'
    for path in os.path.join(HERE, 'tmac.an'), *(os.path.join(prefix, 'share/nroff/tmac/tmac.an') for prefix in prefixes):
        if os.path.exists(path):
            with open(path, 'rb') as f:
                return f.read()
    raise ImportError('nulbiko: no tmac.an')


# The macros of manual pages: what stands before a page's text where it is formatted.
MAN = _macros()


def _made(name, first, text):
    """What a call makes of a text. An output that is too small is taken anew, twice as large."""
    text = bytes(memoryview(text))
    capacity = min(2 * len(text) + 8192, MOST)
    while True:
        output, report = ctypes.create_string_buffer(capacity), _Report(sizeof(_Report))
        outcome = getattr(_LIBRARY, f'nulbiko_{name}')(*first, text, len(text), output, capacity, byref(report))
        if outcome != FULL or capacity == MOST:
            break
        capacity = min(2 * capacity, MOST)
    made = ctypes.string_at(output, report.written)
    if outcome != DONE:
        limit = _LIBRARY.nulbiko_limit_name(report.limit).decode() if outcome == LIMIT else None
        raise Stopped(name, _LIBRARY.nulbiko_outcome_name(outcome).decode(), limit, report.at, made, report.line)
    return made


def _look(name, number, most):
    if not 0 <= number < most:
        raise ValueError(f'{name} {number} is out of range')


def _limits(limits):
    """The limits as the library has them, once they are looked at."""
    if limits.keys() != LIMITS.keys():
        raise TypeError(f'the limits are {", ".join(LIMITS)}, not {", ".join(limits)}')
    for name in LIMITS:
        _look(name, limits[name], 2**64)
    return _Limits(sizeof(_Limits), **limits)


def version():
    """The version of the library."""
    return _LIBRARY.nulbiko_version().decode()


def _asked(macros, width, limits, first, table, form, bold, long_page, mdoc, tables):
    """The limits and the options of a page as the library has them, once they are looked at."""
    for name, number, most in ('width', width, 2**32), ('first', abs(first), 2**31):
        _look(name, number, most)
    lent, macros = _limits(limits), bytes(memoryview(macros))
    number = CHOSEN if table == 'chosen' else TABLES[table]
    options = _DocumentOptions(sizeof(_DocumentOptions), macros, len(macros), first, width, number, FORMS[form], bold, long_page,
                               mdoc, tables, *HELD)
    return lent, options


def document(text, macros=b'', width=78, limits=LIMITS, first=1, table='chosen', form='utf8', bold=False, long_page=True,
             mdoc=True, tables=True):
    """Prints a whole page after its macros, as `MAN`: `mdoc`, `preconv`, `tbl`, `format` and `utf8` in one call, over the text of
    the page under its coding.

    The width is that of the macros and of tables: a text without macro files begins with `.ll`. The table is that which `choose`
    gives where it is nothing else, or in UTF-8 `choose_own`; without one (None) the form is 'bytes'. What `form` may be is in
    `FORMS`. `bold` is that of `format`. With `long_page` it is one page; with `mdoc` a page of mdoc(7) is turned; with `tables` tables are set.
    """
    lent, options = _asked(macros, width, limits, first, table, form, bold, long_page, mdoc, tables)
    return _made('document', [byref(lent), byref(options)], text)


class Handle:
    """Many pages that are set alike, after the same macros.

        with nulbiko.Handle(nulbiko.MAN, width=78) as handle:
            text = handle.run(page)

    What it is opened with is that of `document`, and `run` prints what `document` prints with that. After a page that stopped it
    serves for the next. Threads may share it, and wait for one another.
    """

    def __init__(self, macros=b'', width=78, limits=LIMITS, first=1, table='chosen', form='utf8', bold=False, long_page=True,
                 mdoc=True, tables=True):
        self._open, self._alone = c_void_p(), threading.Lock()
        lent, options = _asked(macros, width, limits, first, table, form, bold, long_page, mdoc, tables)
        outcome = _LIBRARY.nulbiko_open(byref(lent), byref(options), byref(self._open))
        if outcome != DONE:
            raise Stopped('open', _LIBRARY.nulbiko_outcome_name(outcome).decode(), None, 0, b'')

    def run(self, text):
        """Prints a page."""
        with self._alone:
            if not self._open:
                raise ValueError('the handle is closed')
            return _made('run', [self._open], text)

    def close(self):
        """Gives the memory back. It may be called again."""
        with self._alone:
            _LIBRARY.nulbiko_close(self._open)
            self._open = c_void_p()

    def __enter__(self):
        return self

    def __exit__(self, *why):
        self.close()

    def __del__(self):
        if hasattr(self, '_open'):
            self.close()


def _chosen(name, text):
    """The number of the table that a call gives for a page."""
    text = bytes(memoryview(text))
    number = getattr(_LIBRARY, f'nulbiko_{name}')(text, len(text))
    if number == UNCHOSEN:
        raise Stopped(name, _LIBRARY.nulbiko_outcome_name(OUT_OF_MEMORY).decode(), None, 0, b'')
    return number


def choose(text):
    """The name of the table that a page takes, by the first 65,536 bytes of its text, read under its coding."""
    number = _chosen('choose', text)
    return next(name for name in TABLES if TABLES[name] == number)


def choose_own(page):
    """The same, as `document` chooses for a page in UTF-8: 'own' where that table lacks a letter that the page prints."""
    number = _chosen('choose_own', page)
    return 'own' if number == OWN else next(name for name in TABLES if TABLES[name] == number)


def _by(name, table, page):
    """The call with a table and what it is given first: with 'own' the page whose table it is."""
    if table != 'own':
        return name, [TABLES[table]]
    page = bytes(memoryview(page))
    return f'{name}_own', [page, len(page)]


def mdoc(text):
    """Turns a page of mdoc(7) into one of man(7), and leaves any other text as it is."""
    return _made('mdoc', [], text)


def preconv(text, table=None, page=None):
    """Turns what manual pages use, read under its coding, into the language of `format`; characters of the table become its
    bytes. With the table 'own' they are those of the page's own, which is made of what the page prints, as it was before `mdoc`;
    so it is of `tbl` and `utf8`."""
    name, first = _by('preconv', table, page)
    return _made(name, first, text)


def tbl(text, width=78, table=None, page=None):
    """Turns tables into the language of `format`, for a line of so many cells, as well as it can."""
    if width < 0:
        raise ValueError(f'width {width} is below 0')
    name, first = _by('tbl', table, page)
    return _made(name, [*first, width], text)


def format(text, limits=LIMITS, first=1, bold=False):
    """Formats a text, as nroff does. Macro files stand at its beginning; the first page has this number.

    With `bold` each cell but a blank is shown as it looks, by backspaces; else letters and digits of ASCII are underlined.
    The limits are those of `LIMITS`, each with a number: {**nulbiko.LIMITS, 'moves': 10**8}.
    """
    _look('first', abs(first), 2**31)
    lent, options = _limits(limits), _Options(sizeof(_Options), first, bold)
    return _made('format', [byref(lent), byref(options)], text)


def utf8(text, table, escapes=False, page=None):
    """Turns bytes of a table into its characters, in UTF-8. With `escapes` underlined text stands between the terminal's
    escape sequences, and else after `_` and a backspace."""
    name, first = _by('utf8', table, page)
    return _made(name, [*first, escapes], text)


def page(text, width=78, limits=LIMITS_OF_STRANGERS, bold=False):
    """Formats a manual page, of man(7) or mdoc(7), as one long page of this width. The text is str, or bytes of UTF-8.

    Where a limit would be passed it raises `Stopped`, with the line of the page.
    """
    if width not in WIDTHS:
        raise ValueError(f'width {width} is outside {WIDTHS.start} to {WIDTHS[-1]}')
    text = text.encode('utf-8', 'surrogateescape') if isinstance(text, str) else bytes(memoryview(text))
    try:
        return document(text, MAN, width, limits, bold=bold).decode()
    except Stopped as stopped:
        stopped.made = stopped.made.decode()
        raise
