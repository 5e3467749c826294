#!/usr/bin/env python3
"""Holds docs/THEOREMS.md against the crates: each file that a row names is there, and each claim or function stands in it.

    theorems.py            the rows of docs/THEOREMS.md
    theorems.py --wrong    rows with another name must be refused, or this test shows nothing"""
import glob
import os
import re
import sys


def rows(text):
    """(claims, files) of each row of the tables."""
    for line in text.split('\n'):
        if line.startswith('| ') and not line.startswith('| Claim'):
            cells = [cell.strip() for cell in line.strip('| ').split(' | ')]
            yield cells[0], cells[1]


def paths(files):
    """A file without a folder stands in that of the one before it."""
    folder = None
    for name in re.split(r',\s*', files):
        folder = os.path.dirname(name) or folder
        yield os.path.join('crates', folder, os.path.basename(name)) if folder else name


def content(path):
    if os.path.isdir(path):
        return ''.join(open(f).read() for f in glob.glob(path + '/**', recursive=True) if os.path.isfile(f))
    return open(path).read()


def wrong(claims, files):
    """What a row names that is not there."""
    text = ''
    for path in paths(files):
        if os.path.exists(path):
            text += content(path)
        else:
            yield f'{path} is not there'
    head, _, rest = claims.partition(';')
    if head.startswith('contract'):
        for name in re.findall(r'`(\w+)`', head):
            if not re.search(rf'fn {name}\b', text):
                yield f'no function {name} in {files}'
        claims = rest
    for name in re.split(r'[,;]\s*', claims):
        name = name.strip(' …`')
        if name and ' ' not in name and not re.search(rf'(?<![\w-]){re.escape(name)}(?![\w-])', text):
            yield f'no claim {name} in {files}'


def main():
    text = open('docs/THEOREMS.md').read()
    if sys.argv[1:] == ['--wrong']:
        for was, made in (('never_stuck', 'never_stock'), ('NeverStuck.antt', 'NeverStock.antt'), ('`carried`', '`carred`')):
            if not any(list(wrong(*row)) for row in rows(text.replace(f'| {was}', f'| {made}').replace(f'/{was}', f'/{made}').replace(f' {was} ', f' {made} '))):
                sys.exit(f'{made} for {was} is not noticed')
        return
    found = [fault for row in rows(text) for fault in wrong(*row)]
    print('\n'.join(found + [f'theorems: {sum(1 for _ in rows(text))} rows, {len(found)} faults']))
    sys.exit(1 if found else 0)


main()
