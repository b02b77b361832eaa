#!/usr/bin/env python3
"""unused.py [-w] FILE..: the names that a `use` line of an antt or Rattle file brings and the file does not use; -w takes them out."""
import re
import sys

write = '-w' in sys.argv
for path in [a for a in sys.argv[1:] if a != '-w']:
    text = open(path, encoding='utf-8').read()
    uses = list(re.finditer(r'^(?:ghost )?use ([^\s{;]+)\.\{([^}]*)\};?\n', text, re.M))
    rest = text
    for m in uses:
        rest = rest.replace(m.group(0), '')
    words = set(re.split(r'[\s(){}.;,@"]+', rest))
    for m in uses:
        names = [n.strip() for n in m.group(2).split(',') if n.strip()]
        kept = []
        for n in names:
            own = n.split(' as ')[-1].strip()
            parts = [p for p in own.split('◌') if p]
            used = own in words or ('◌' in own and all(p in words for p in parts)) or own == '[]' and '[]' in rest
            if used:
                kept.append(n)
            else:
                print('%s: %s' % (path, n))
        if write and len(kept) < len(names):
            new = '' if not kept else m.group(0).replace('{' + m.group(2) + '}', '{' + ', '.join(kept) + '}')
            text = text.replace(m.group(0), new)
    if write:
        open(path, 'w', encoding='utf-8').write(text)
