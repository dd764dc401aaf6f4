"""Tries the package nulbiko for Python: what it gives, and what it refuses. Prints what isn't as it must be."""
import pickle
import sys
import threading

import nulbiko

PAGE = '.TH A 1\n.SH NAME\na \\- ünï – codé\n.TS\nl l.\na\tb\n.TE\n'
CZECH = '.TH A 1\n.SH NÁZEV\na \\- překlad, \\fIřeč\\fP a “Ťuk”\n.TS\nbox;\nl l.\nž\tŇ\n.TE\n'
JAPANESE = '.Dd 2026\n.Dt A 1\n.Os\n.Sh 名前\n.Nm ls\n.Nd 一覧、Ř\n.TS\nbox;\nl.\n日本\n.TE\n'
ENDLESS = '.TH A 1\n.SH NAME\na \\- b\n.de XX\n.XX\n..\n.XX\n'
PASSED, FAILED = [], []


def judge(what, good):
    (PASSED if good else FAILED).append(what)


def refused(what, kind, function, *words, **named):
    try:
        function(*words, **named)
        judge(what, False)
    except kind as error:
        judge(what, bool(str(error)))


def stopped(function, *words, **named):
    try:
        function(*words, **named)
    except nulbiko.Stopped as error:
        return error
    return None


def pages():
    page = nulbiko.page(PAGE, width=60)
    judge('page: its words', 'a - ünï – codé' in page and 'a   b' in page)
    judge('page: its width', max(map(len, page.split('\n'))) == 60)
    judge('page: bytes', nulbiko.page(PAGE.encode(), width=60) == page)
    judge('page: a view', nulbiko.page(memoryview(PAGE.encode()), 60) == page)
    judge('page: a byte that is no UTF-8', nulbiko.page('a \udc80\n').strip() != '')
    made = []
    threads = [threading.Thread(target=lambda: made.append(nulbiko.page(PAGE, 60))) for _ in range(8)]
    for thread in threads:
        thread.start()
    for thread in threads:
        thread.join()
    judge('page: threads', made == [page] * 8)
    judge('utf8: escapes', nulbiko.utf8(b'_\ba', 'latin', True) == b'\033[4ma\033[24m')
    judge('format: a number', nulbiko.format(b'\\n%\n', first=5).startswith(b'5'))


def documents():
    """A document is its stages, one after the other."""
    text = PAGE.encode()
    table = nulbiko.choose(text)
    turned = nulbiko.tbl(nulbiko.preconv(nulbiko.mdoc(text), table), 60, table)
    for bold in False, True:
        made = nulbiko.format(b'.nr C 1\n.nr L 60\n' + nulbiko.MAN + turned, bold=bold)
        wanted = {'bytes': made, 'utf8': nulbiko.utf8(made, table), 'escapes': nulbiko.utf8(made, table, True)}
        for form, page in wanted.items():
            judge(f'document: {form}, bold {bold}', nulbiko.document(text, nulbiko.MAN, 60, form=form, bold=bold) == page)
    ascii_page = nulbiko.document(text, nulbiko.MAN, 60, table=None, form='bytes')
    judge('document: ASCII', ascii_page.isascii() and b'a - uni - code' in ascii_page.replace(b'_\b', b''))
    judge('document: pages', len(nulbiko.document(text, nulbiko.MAN, long_page=False).split(b'\n')) == 67)


def natives():
    """So is a page with a table of its own."""
    for text in CZECH, JAPANESE:
        page = text.encode()
        judge('choose_own: its own', nulbiko.choose_own(page) == 'own')
        turned = nulbiko.tbl(nulbiko.preconv(nulbiko.mdoc(page), 'own', page), 60, 'own', page)
        for bold in False, True:
            made = nulbiko.format(b'.nr C 1\n.nr L 60\n' + nulbiko.MAN + turned, bold=bold)
            for form in 'utf8', 'escapes':
                wanted = nulbiko.utf8(made, 'own', form == 'escapes', page)
                judge(f'own: {form}, bold {bold}', nulbiko.document(page, nulbiko.MAN, 60, form=form, bold=bold) == wanted)
    judge('choose_own: a fixed one', nulbiko.choose_own(PAGE.encode()) == nulbiko.choose(PAGE.encode()))
    refused('preconv: its own, of no page', TypeError, nulbiko.preconv, b'', 'own')


def handles():
    """A handle prints what `document` prints."""
    text, other = PAGE.encode(), '.TH B 1\n.SH NAME\nb \\- 日本\n'.encode()
    with nulbiko.Handle(nulbiko.MAN, width=60, limits=nulbiko.LIMITS_OF_STRANGERS) as handle:
        wanted = {page: nulbiko.document(page, nulbiko.MAN, 60, nulbiko.LIMITS_OF_STRANGERS) for page in (text, other, b'')}
        for page in [*wanted] * 2:
            judge('handle: a page', handle.run(page) == wanted[page])
            error = stopped(handle.run, ENDLESS.encode())
            judge('handle: an endless page', error and (error.call, error.limit, error.line) == ('run', 'input depth', 7))
        made = []
        threads = [threading.Thread(target=lambda: made.append(handle.run(text))) for _ in range(8)]
        for thread in threads:
            thread.start()
        for thread in threads:
            thread.join()
        judge('handle: threads', made == [wanted[text]] * 8)
    handle.close()
    refused('handle: closed', ValueError, handle.run, text)
    error = stopped(nulbiko.Handle, table=None)
    judge('handle: UTF-8 without a table', error and (error.call, error.outcome) == ('open', 'out of range'))
    for named in {'width': -1}, {'limits': {}}, {'nonesuch': 1}:
        refused(f'handle: {named}', (TypeError, ValueError), nulbiko.Handle, **named)


def codings():
    coded = '.\\" -*- coding: koi8-r -*-\nда\n'.encode('koi8-r')
    judge('choose: under its coding', nulbiko.choose(coded) == 'cyrillic')
    judge('document: under its coding', 'да'.encode() in nulbiko.document(coded, nulbiko.MAN))
    judge('document: UTF-16', 'да'.encode() in nulbiko.document('да\n'.encode('utf-16'), nulbiko.MAN))
    turned = nulbiko.utf8(nulbiko.preconv(coded, 'cyrillic'), 'cyrillic')
    judge('preconv: under its coding', turned.endswith('да\n'.encode()))


def limits():
    error = stopped(nulbiko.page, ENDLESS)
    judge('page: an endless one', error and (error.call, error.limit, error.line) == ('document', 'input depth', 7) and 0 < error.at <= len(ENDLESS))
    judge('page: what it made', error and isinstance(error.made, str))
    judge('page: what it tells', str(error) == f'document: input depth limit passed at byte {error.at}, line 7')
    judge('stopped: it can be sent', vars(pickle.loads(pickle.dumps(error))) == vars(error))
    error = stopped(nulbiko.document, b'a', table=None)
    judge('document: UTF-8 without a table', error and error.outcome == 'out of range')
    few = {**nulbiko.LIMITS, 'moves': 64}
    error = stopped(nulbiko.format, b'word\n' * 100, limits=few)
    judge('format: moves', error and error.limit == 'moves' and 0 < error.at < 64)
    error = stopped(nulbiko.format, b'a', limits={**nulbiko.LIMITS, 'moves': 1})
    judge('format: a limit below its range', error and error.outcome == 'out of range' and error.limit is None)
    error = stopped(nulbiko.utf8, b'a', None)
    judge('utf8: no table', error and error.outcome == 'out of range')


def refusals():
    for width in 0, 9, 1001, -1:
        refused(f'page: width {width}', ValueError, nulbiko.page, PAGE, width)
    for text in None, 5, [1, 2], object():
        refused(f'page: {text}', TypeError, nulbiko.page, text)
    for named in {'width': -1}, {'width': 2**32}, {'first': 2**40}, {'limits': {}}:
        refused(f'document: {named}', (TypeError, ValueError), nulbiko.document, b'', **named)
    for named in {'form': 'nonesuch'}, {'table': 'nonesuch'}:
        refused(f'document: {named}', KeyError, nulbiko.document, b'', **named)
    refused('tbl: width below 0', ValueError, nulbiko.tbl, b'', -1)
    refused('utf8: no such table', KeyError, nulbiko.utf8, b'', 'nonesuch')
    for name, number in ('moves', 2**64), ('depth', -1), ('cells', 2**70):
        refused(f'format: {name} {number}', ValueError, nulbiko.format, b'', {**nulbiko.LIMITS, name: number})
    refused('format: no such limit', TypeError, nulbiko.format, b'', {**nulbiko.LIMITS, 'mvs': 1})
    refused('format: a limit is missing', TypeError, nulbiko.format, b'', {'moves': 1000})
    refused('format: a number', ValueError, nulbiko.format, b'', first=2**40)


pages()
documents()
natives()
handles()
codings()
limits()
refusals()
print(*(f'not so: {what}' for what in FAILED), sep='\n', end='\n' if FAILED else '')
print(f'boundary of Python: {len(PASSED)} passed, {len(FAILED)} failed')
sys.exit(bool(FAILED))
