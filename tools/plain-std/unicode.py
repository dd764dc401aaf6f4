#!/usr/bin/env python3
"""Writes what the programs use of the crates of Unicode, over tables of ranges: unicode_width, unicode_normalization, ucd_breaks.

usage: unicode.py KIT
The widths and classes are those of the kit's own crates in KIT, the folder of their sources; pairs of letters and marks are Python's.
"""
import os
import re
import sys
import unicodedata

HERE = os.path.dirname(os.path.abspath(__file__))
LAST = 0x110000


def numbers(text, name):
    body = re.search(r'static %s: \[\w+; \d+\] = \[(.*?)\];' % name, text, re.DOTALL)[1]
    return [int(word, 0) for word in re.findall(r'0x[0-9A-Fa-f]+|\d+', body)]


def read(*parts):
    with open(os.path.join(*parts), encoding='utf-8') as file:
        return file.read()


def kinds(kit):
    """The kind of each character, which says how wide it is."""
    text = read(kit, 'unicode_width', 'src', 'tables', 'kind.rt')
    index, words, tail = (numbers(text, 'KIND_' + part) for part in ('INDEX', 'WORDS', 'TAIL'))
    found = []
    for code in range(len(index) * 64):
        place = code % 64
        found.append(words[index[code // 64] * 4 + place // 16] >> place % 16 * 4 & 15)
    for run in tail:
        end, value = run >> 11, run & 2047
        found += [value] * (min(end, LAST) - len(found))
    return found


def ranges(found, wanted):
    runs = []
    for code, value in enumerate(found):
        if value not in wanted or code < 0xA0:
            continue
        if runs and runs[-1][1] == code - 1:
            runs[-1][1] = code
        else:
            runs.append([code, code])
    return runs


def table(name, doc, rows):
    lines = ''.join('    (%s),\n' % ', '.join('0x%04X' % one for one in row) for row in rows)
    kind = ', '.join(['u32'] * len(rows[0]))
    return f'/// {doc}\nstatic {name}: [({kind}); {len(rows)}] = [\n{lines}];\n'


SEARCH = '''
fn has(runs: &[(u32, u32)], code: u32) -> bool {
    runs.binary_search_by(|run| {
        if run.1 < code {
            core::cmp::Ordering::Less
        } else if run.0 > code {
            core::cmp::Ordering::Greater
        } else {
            core::cmp::Ordering::Equal
        }
    }).is_ok()
}
'''


def widths(kit):
    found = kinds(kit)
    single = [code for code, kind in enumerate(found) if kind == 11]
    narrow = {0x05DC, 0xFB3C, 0x1A10, 0x10C03, 0x16D67, 0x16D68}
    for code in single:
        found[code] = 1 if code in narrow or code == 0x17D8 else 0
    return f'''//! What the programs use of the crate unicode_width: the columns of a character.

/// The columns of a character.
pub trait UnicodeWidthChar {{
    /// How many it takes, if it is no control character.
    fn width(self) -> Option<usize>;
}}

impl UnicodeWidthChar for char {{
    #[inline]
    fn width(self) -> Option<usize> {{
        let code = self as u32;
        if code < 0xA0 {{
            return if (0x20..0x7F).contains(&code) {{ Some(1) }} else {{ None }};
        }}
        match ALIKE[code as usize / 64] >> (code as usize / 16 % 4 * 2) & 3 {{
            0 => Some(sought(code)),
            columns => Some(columns as usize),
        }}
    }}
}}

fn sought(code: u32) -> usize {{
    if has(&WIDE, code) {{
        2
    }} else if has(&NONE, code) {{
        0
    }} else {{
        1
    }}
}}
{SEARCH}
/// Two bits for each sixteen characters: how many columns each of them takes, and 0 where they differ.
static ALIKE: [u8; 0x4400] = alike();

const fn alike() -> [u8; 0x4400] {{
    let mut columns = [1; 0x1_1000];
    let mut place = 0;
    while place < WIDE.len() {{
        let (first, last) = WIDE[place];
        let mut sixteen = first / 16;
        while sixteen <= last / 16 {{
            let whole = first <= sixteen * 16 && sixteen * 16 + 15 <= last;
            columns[sixteen as usize] = if whole {{ 2 }} else {{ 0 }};
            sixteen += 1;
        }}
        place += 1;
    }}
    place = 0;
    while place < NONE.len() {{
        let (first, last) = NONE[place];
        let mut sixteen = first / 16;
        while sixteen <= last / 16 {{
            columns[sixteen as usize] = 0;
            sixteen += 1;
        }}
        place += 1;
    }}
    let mut packed = [0; 0x4400];
    place = 0;
    while place < 0x4400 {{
        let four = place * 4;
        packed[place] = columns[four] | columns[four + 1] << 2 | columns[four + 2] << 4 | columns[four + 3] << 6;
        place += 1;
    }}
    packed
}}

{table('WIDE', 'Characters of two columns.', ranges(found, (2, 9, 10)))}
{table('NONE', 'Characters that take no column.', ranges(found, (0,)))}'''


def pairs():
    rows = []
    for code in range(0x80, LAST):
        if 0xD800 <= code < 0xE000 or 0xAC00 <= code <= 0xD7A3:
            continue
        parts = unicodedata.decomposition(chr(code)).split()
        if len(parts) == 2 and parts[0][0] != '<' and unicodedata.normalize('NFC', chr(code)) == chr(code):
            rows.append((int(parts[0], 16), int(parts[1], 16), code))
    return sorted(rows)


def normalization():
    return f'''//! What the programs use of the crate unicode_normalization: the character of a letter and a mark.

pub mod char {{
    use super::PAIRS;

    /// The character of two, if there is one.
    pub fn compose(first: char, second: char) -> Option<char> {{
        let (a, b) = (first as u32, second as u32);
        if (0x1100..0x1113).contains(&a) && (0x1161..0x1176).contains(&b) {{
            return char::from_u32(0xAC00 + ((a - 0x1100) * 21 + (b - 0x1161)) * 28);
        }}
        if (0xAC00..0xD7A4).contains(&a) && (a - 0xAC00) % 28 == 0 && (0x11A8..0x11C3).contains(&b) {{
            return char::from_u32(a + b - 0x11A7);
        }}
        match PAIRS.binary_search_by(|pair| (pair.0, pair.1).cmp(&(a, b))) {{
            Ok(place) => char::from_u32(PAIRS[place].2),
            Err(_) => None,
        }}
    }}
}}

{table('PAIRS', 'A letter, a mark, and the character of both.', pairs())}'''


def breaks(kit):
    source = read(kit, 'ucd_breaks', 'src', 'lib.rt')
    names = re.search(r'pub enum LineBreak \{(.*?)\}', source, re.DOTALL)[1].replace(' ', '').replace('\n', '').strip(',').split(',')
    rows = []
    for run in numbers(read(kit, 'ucd_breaks', 'src', 'tables', 'lb.rt'), 'LB_RUNS'):
        rows.append((run >> 11, run & 2047))
    variants = ''.join(f'    {name},\n' for name in names)
    all_names = ''.join(f'    LineBreak::{name},\n' for name in names)
    return f'''//! What the programs use of the crate ucd_breaks: where a line may be broken.

/// The values of the property `Line_Break`.
#[derive(Clone, Copy, Debug, PartialEq, Eq)]
pub enum LineBreak {{
{variants}}}

impl LineBreak {{
    /// That of a character.
    #[inline]
    pub fn for_char(character: char) -> LineBreak {{
        let code = character as usize;
        if code < CLASSES.len() {{
            return ALL[CLASSES[code] as usize];
        }}
        let place = RUNS.partition_point(|run| run.0 <= code as u32);
        ALL[RUNS[place].1 as usize]
    }}
}}

/// Those of the first 65,536 characters.
static CLASSES: [u8; 0x1_0000] = classes();

const fn classes() -> [u8; 0x1_0000] {{
    let mut values = [0; 0x1_0000];
    let mut place = 0;
    let mut code = 0;
    while code < values.len() {{
        if RUNS[place].0 as usize <= code {{
            place += 1;
        }}
        values[code] = RUNS[place].1 as u8;
        code += 1;
    }}
    values
}}

static ALL: [LineBreak; {len(names)}] = [
{all_names}];

{table('RUNS', 'Where a run of characters ends, and its value.', rows)}'''


def main():
    if len(sys.argv) != 2:
        sys.exit(__doc__)
    kit = sys.argv[1]
    for name, text in (('unicode_width', widths(kit)), ('unicode_normalization', normalization()), ('ucd_breaks', breaks(kit))):
        place = os.path.join(HERE, name, 'src')
        os.makedirs(place, exist_ok=True)
        with open(os.path.join(place, 'lib.rs'), 'w', encoding='utf-8') as file:
            file.write(text)


if __name__ == '__main__':
    main()
