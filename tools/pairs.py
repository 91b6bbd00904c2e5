#!/usr/bin/env python3
"""Parameters that travel together: pairs of parameter names that stand in five or more functions of src/."""
import collections
import glob
import re

functions = collections.defaultdict(list)
for path in sorted(glob.glob('crates/*/src/**/*.rt', recursive=True)):
    if path.endswith('tests.rt'):
        continue
    text = open(path, encoding='utf-8').read()
    for name, inside in re.findall(r'fn (\w+)(?:<[^({]*>)?\(([^)]*)\)', text):
        names = [part.split(':')[0].strip().removeprefix('mut ') for part in re.split(r',(?![^<\[]*[>\]])', inside)]
        names = sorted(n for n in names if n and 'self' not in n)
        for i, first in enumerate(names):
            for second in names[i + 1:]:
                functions[first, second].append(path.split('/')[1] + '::' + name)
for pair, where in sorted(functions.items(), key=lambda item: -len(item[1])):
    if len(where) >= 5:
        print(len(where), *pair, ':', *where)
