#!/usr/bin/env python3
"""Counts the definitions in which statements stand: those that a clause names, those that these name, and so on.

    checks/definitions.py FILE FUNCTION [CLAUSE]
    checks/definitions.py --document docs/proved.md

The first form takes a function of a file under crates/ and one of its clauses, or all of them. It prints the files in
which the definitions stand, in reading order (the lowest crate first), with the number of definitions in each and of
their lines without comments, and at the end the sums. What the standard library defines isn't counted. A type or a
constant that code declares counts as a definition of that file, and what its fields are made of only where it is named.

The second form reads two kinds of rows of a document: `| .. | FILE FUNCTION CLAUSE | DEFINITIONS | LINES | FILES |`,
the words in backticks, and `| FILE | DEFINITIONS | LINES |`, which are the files of the first of those, in their order.
It prints each that says something else than what is computed.
"""
import functools
import re
import sys
from pathlib import Path

CRATES = Path(__file__).resolve().parent.parent / 'crates'
HEADER = re.compile(r'(?:(?:abbrev|unfoldable|pub|record|data) )*([^\s:(){}]+)')
IMPORT = re.compile(r'(?:(?:unfoldable|pub) )*use ([^\s{;]+?)(?:\.\{(.*)\}| as (\S+))$')
TOKEN = re.compile(r"((?:[^\W\d][\w'-]*\.)*)([^\W\d][\w'-]*)(?![\w'-]| = )")
DECLARED = r'(?:pub(?:\(crate\))? )?(?:struct|enum|const) %s\b'


def without_comments(text, mark):
    kept = (line.split(mark)[0].rstrip() for line in text.split('\n'))
    return [line for line in kept if line]


def imports_of(lines):
    """The names that `use` lines bring in, each with its module, and the name that it has there where it is no module."""
    imports = {}
    for found in filter(None, map(IMPORT.match, lines)):
        module, names, alias = found.groups()
        for part in names.split(', ') if names else [f' as {alias}']:
            name, _, other = part.partition(' as ')
            imports[other or name] = (module, name or None)
    return imports


@functools.lru_cache(None)
def module_of(name):
    """The imports and the definitions of a module of .antt, each definition by its lines."""
    _, crate, *path = name.split('.')
    lines = without_comments((CRATES / crate / Path(*path)).with_suffix('.antt').read_text(), '--')
    definitions, current = {}, None
    for line in lines:
        if line[0] in ' }':
            current.append(line)
        elif not re.match(r'(?:(?:unfoldable|pub) )*(?:use|mod) |unfolding ', line):
            current = definitions.setdefault(HEADER.match(line)[1], [])
            current.append(line)
    return imports_of(lines), definitions


def resolved(module, name):
    """The definition that a name of a module is: itself, or the type of which it is a constructor."""
    if not module.startswith('Rattle.dtx_'):
        return None
    head, declared, path = module.partition('.specs.declared.')
    if declared:
        parts = [part for part in path.split('.') if part not in ('TheVariants', 'TheConstants')]
        kind = name if path.endswith('TheConstants') else parts.pop()
        return (head + '.src.' + '.'.join(parts), kind)
    imports, definitions = module_of(module)
    if name in definitions:
        return (module, name)
    if name in imports:
        return resolved(*imports[name])
    return next((module, owner) for owner, lines in definitions.items()
                if any(re.match(rf'\s+{re.escape(name)} :', line) for line in lines[1:]))


def names_in(text, imports, own):
    """The definitions that a text names, where these names are imported and these are of its own module."""
    operators = [name for name in imports if '◌' in name and name.strip('◌') in text]
    found = [imports[name] for name in operators]
    for dots, name in TOKEN.findall(text):
        first = dots.split('.')[0]
        if imports.get(first, ('', ''))[1] is None:
            found.append((imports[first][0], name))
        elif (first or name) in imports:
            found.append(imports[first or name])
        elif (first or name) in own:
            found.append((own[first or name], first or name))
    return [key for key in (resolved(*pair) for pair in found) if key]


def declared_lines(module, name):
    """The lines of a type or constant that code declares."""
    _, crate, *path = module.split('.')
    lines = without_comments((CRATES / crate / Path(*path)).with_suffix('.rt').read_text(), '//')
    start = next(n for n, line in enumerate(lines) if re.match(DECLARED % re.escape(name), line))
    if lines[start].endswith((';', '}')):
        return lines[start:start + 1]
    end = next(n for n, line in enumerate(lines) if n > start and line[0] in '}]')
    return lines[start:end + 1]


def definition(module, name):
    """The lines of a definition, and the definitions that they name."""
    if '.src.' in module:
        return declared_lines(module, name), []
    imports, definitions = module_of(module)
    own = {other: module for other in definitions if other != name}
    return definitions[name], names_in('\n'.join(definitions[name]), imports, own)


def closure(roots):
    """The lines of all definitions from some on, each behind those that it names."""
    met, found = set(), {}

    def visit(key):
        if key not in met:
            met.add(key)
            lines, below = definition(*key)
            for other in below:
                visit(other)
            found[key] = lines

    for root in roots:
        visit(root)
    return found


def in_braces(text, start):
    """The text between the braces of which the first stands there."""
    depth = 0
    for place in range(start, len(text)):
        depth += {'{': 1, '}': -1}.get(text[place], 0)
        if depth == 0:
            return text[start + 1:place]
    return text[start + 1:]


def roots_of(path, function, clause=None):
    """The definitions that the clauses of a function name, or that one clause."""
    lines = without_comments((CRATES.parent / path).read_text(), '//')
    text = '\n'.join(lines)
    start = re.search(rf'\bfn {function}\b', text).start()
    head = text[start:re.compile(r'^\{', re.M).search(text, start).start()]
    clauses = [(found[1], in_braces(head, found.end() - 1)) for found in re.finditer(r'ensures (?:(\w+) )?\{', head)]
    chosen = '\n'.join(body for label, body in clauses if clause in (None, label))
    if not chosen:
        sys.exit(f'{path}: {function} has no clause {clause}')
    imports = imports_of(line[len('ghost '):-1] for line in lines if line.startswith('ghost use '))
    return names_in(chosen, imports, {})


def heights():
    """The place of each crate in crates.txt, where a lower crate stands before those above it."""
    lines = (CRATES.parent / 'crates.txt').read_text().split('\n')
    return {line.split(':')[0].split()[0]: n for n, line in enumerate(lines) if re.match(r'[a-z]\w*[^#]*:', line)}


def computed(words):
    """The files of a statement in reading order, each with the number of its definitions and of their lines."""
    order, files = heights(), {}
    for (module, _), lines in closure(roots_of(*words)).items():
        _, crate, *path = module.split('.')
        name = f'crates/{crate}/{"/".join(path)}{".rt" if path[0] == "src" else ".antt"}'
        count, many = files.get(name, (0, 0))
        files[name] = (count + 1, many + len(lines))
    return dict(sorted(files.items(), key=lambda item: order[item[0].split('/')[1]]))


def sums(files):
    return sum(count for count, _ in files.values()), sum(many for _, many in files.values()), len(files)


def compare(document):
    """Prints what a document says of statements and of the files of the first one otherwise than it is computed."""
    text = Path(document).read_text()
    rows = re.findall(r'^\| [^|]* \| `(crates/[^`|]*)` \| (\d+) \| (\d+) \| (\d+) \|$', text, re.M)
    for words, *told in rows:
        found = sums(computed(words.split()))
        if [int(number) for number in told] != list(found):
            print('%s: %s: %d definitions, %d lines, %d files' % (document, words, *found))
    told = re.findall(r'^\| `(crates/[^`|]*)` \| (\d+) \| (\d+) \|$', text, re.M)
    files = [(name, str(count), str(many)) for name, (count, many) in computed(rows[0][0].split()).items()]
    for here, there in ((told, files), (files, told)):
        for row in here:
            if row not in there:
                print(f'{document}: {"has" if here is told else "misses"} the row of {" ".join(row)}')
    if sorted(told) == sorted(files) and told != files:
        print(f'{document}: the files stand in another order')


def main(words):
    if words[0] == '--document':
        compare(words[1])
        return
    files = computed(words)
    for name, (count, many) in files.items():
        print(f'{count:4d} {many:5d} {name}')
    print('%d definitions of %d lines in %d files' % sums(files))


if __name__ == '__main__':
    if len(sys.argv) < 3:
        sys.exit(__doc__)
    main(sys.argv[1:])
