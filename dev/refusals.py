#!/usr/bin/env python3
"""Whether `fbr explain` says of each number what docs/REFUSALS.md says: crates/fbr_diagnosis/src/meaning.rt is made of the tables there.

    dev/refusals.py            compares
    dev/refusals.py --write    writes it anew (`rt fmt` then lays it out)
"""
import re
import sys
from pathlib import Path

TOP = Path(__file__).resolve().parent.parent
PAGE = TOP / 'docs/REFUSALS.md'
CODE = TOP / 'crates/fbr_diagnosis/src/meaning.rt'

HEAD = '''//! What each number says, and what to do: made of the tables of `docs/REFUSALS.md` by `dev/refusals.py`.

/// What a number says, and what to do about it, which is empty where there is nothing.
#[derive(Clone, Copy)]
pub struct Meaning {
    pub says: &'static str,
    pub remedy: &'static str,
}

// That this is said, and this is to be done.
fn said(says: &'static str, remedy: &'static str) -> Option<Meaning> {
    Some(Meaning { says, remedy })
}
'''


def rows(page):
    for line in page.split('\n'):
        cells = [c.strip() for c in line.strip().strip('|').split('|')] if line.startswith('|') else []
        if cells and re.match(r'\d', cells[0]):
            number = int(cells[0].split()[0])
            yield number, cells[1], (cells[2], cells[4]) if len(cells) == 5 else (cells[1], '')


def quoted(text):
    return '"' + text.replace('\\', '\\\\').replace('"', '\\"') + '"'


def code(page):
    out = [HEAD]
    found = None
    arms = []
    for number, place, (says, remedy) in rows(page):
        if number == 19 and 'fbr bound' in place:
            found = (says, remedy)
        else:
            arms.append((number, says, remedy))
    out.append('/// What a refusal or denial of this number says. Nothing where no number of these is this one.')
    out.append('pub fn meaning_of(code: u8) -> Option<Meaning> {')
    out.append('    match code {')
    for number, says, remedy in sorted(arms):
        out.append(f'        {number} => said(')
        out.append(f'            {quoted(says)},')
        out.append(f'            {quoted(remedy)},')
        out.append('        ),')
    out.append('        _ => None,')
    out.append('    }')
    out.append('}')
    out.append('')
    out.append('/// What 19 says of a resource for which no certificate is found.')
    out.append('pub fn found_limit() -> Meaning {')
    out.append('    Meaning {')
    out.append(f'        says: {quoted(found[0])},')
    out.append(f'        remedy: {quoted(found[1])},')
    out.append('    }')
    out.append('}')
    return '\n'.join(out) + '\n'


# Code without what its layout adds.
def bare(text):
    return re.sub(r',(?=[)}])', '', re.sub(r'\s+', '', text))


def main():
    wanted = code(PAGE.read_text())
    if '--write' in sys.argv:
        CODE.write_text(wanted)
    elif bare(CODE.read_text()) != bare(wanted):
        print('crates/fbr_diagnosis/src/meaning.rt is not what docs/REFUSALS.md says: dev/refusals.py --write')
        return 1
    return 0


sys.exit(main())
