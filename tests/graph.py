"""The functions and definitions of the crates, and what each of them names. For tests/edit-table, tests/reading and tests/proof-cost."""
import functools
import glob
import os
import re

ROOT = os.path.dirname(os.path.dirname(os.path.abspath(__file__)))
WORD = re.compile(r"[\w′'-]+")


def read(path):
    return open(os.path.join(ROOT, path), encoding='utf-8').read()


def lines(text):
    """The lines of a text that are neither empty, nor a comment, nor an import of specs or proofs."""
    return [line for line in text.split('\n') if line.strip() and not line.lstrip().startswith(('//', '--')) and not line.startswith(('use ', 'pub mod ', 'mod '))]


def files(pattern):
    return sorted(glob.glob(pattern, root_dir=ROOT, recursive=True))


def crate_of(path):
    return path.split('/')[1]


def imports(text):
    """What a file names of specifications: the name there, and crate, module and name of the definition."""
    for crate, module, names in re.findall(r'use Rattle\.(\w+)\.specs\.([\w.]+)\.\{([^}]*)\}', text):
        for item in names.split(','):
            name, _, other = item.strip().partition(' as ')
            yield other or name, (crate, module, name)


def definitions():
    """Every definition of specs/, by crate, module and name: its file, where it stands, and the definitions that it names."""
    found = {}
    for path in files('crates/*/specs/**/*.antt'):
        text = re.sub(r'--.*', lambda m: ' ' * len(m[0]), read(path))
        module = os.path.splitext(path.split('/specs/')[1])[0].replace('/', '.')
        starts = [(m.start(), m[1]) for m in re.finditer(r'^(?!use |mod )(?:\w+ )*?([^\s({]+)(?: [({][^=\n]*)? : ', text, re.M)]
        places = {name: (at, end) for (at, name), (end, _) in zip(starts, starts[1:] + [(len(text), '')])}
        # the constructors and fields of a type stand for the type
        known = dict(imports(text))
        known.update((name, (crate_of(path), module, name)) for name in places)
        for name, (at, end) in places.items():
            node = (crate_of(path), module, name)
            found[node] = (path, at, end, {known[w] for w in WORD.findall(text[at:end]) if w in known} - {node})
    return found


@functools.cache
def code(path):
    """A file of src/ with its comments blank."""
    return re.sub(r'//.*', lambda m: ' ' * len(m[0]), read(path))


@functools.cache
def blocks(path):
    """The impls and traits of a file: where each starts, what stands before its functions, the trait of an impl, and the type; of a trait, itself."""
    form = re.compile(r'^(?:impl(?:<.*?>)? (?:([\w:]+)(?:<.*>)? for )?|(?:pub )?trait )((?:\w+::)*\w+)', re.M)
    return [(m.start(), re.split(r'\n +(?:pub )?fn |\n\}', code(path)[m.start():])[0], m[1], m[2]) for m in form.finditer(code(path))]


def block_of(path, at):
    """The impl or trait of a function that stands there; none of a free function."""
    return [block for block in blocks(path) if block[0] < at][-1] if code(path)[at] == ' ' else None


def functions():
    """Every function, by file and name: where it stands. A method's name has its type's before it, as in `Tokens::at`."""
    found = {}
    for path in files('crates/*/src/**/*.rt'):
        text = code(path)
        for m in re.finditer(r'^( *)(?:pub )?(?:extern "C" )?fn (\w+)', text, re.M):
            block = block_of(path, m.start())
            name = f'{block[3]}::{m[2]}' if block else m[2]
            while (path, name) in found:
                name += '′'
            # a function of a trait may have no body
            begin = re.compile(r'(;|(^| )\{)$', re.M).search(text, m.end())
            found[path, name] = (m.start(), begin.end() if begin[0] == ';' else text.index('\n' + m[1] + '}', m.end()))
    return found


def parts(path, place):
    """The contract and the body of a function."""
    whole = code(path)[place[0]:place[1]]
    at = re.search(r'(^| )\{$|\Z', whole, re.M).start()
    return whole[:at], whole[at:]


def spoken(path, place):
    """The definitions that a function's contract names, or the impl that it stands in."""
    known, block = dict(imports(read(path))), block_of(path, place[0])
    return {known[w] for w in WORD.findall(parts(path, place)[0] + (block[1] if block else '')) if w in known}


def by_name(keys):
    found = {}
    for key in keys:
        found.setdefault(key[1], []).append(key)
    return found


@functools.cache
def used(path):
    """What a file of src/ names of others: the name, and the path before it."""
    found = {}
    for whole, group in re.findall(r'^(?:pub )?use ([\w:]+)(?:\{([^}]*)\})?;', code(path), re.M):
        for name in group.split(',') if group else ['']:
            *where, last = (whole + name.strip()).split('::')
            found[last] = where
    return found


def meant(word, path, names):
    """What a word in a file of src/ stands for, of what there is by name; what no crate declares has no file."""
    *where, last = word.split('::')
    where = used(path).get(where[0], []) + where if where else used(path).get(last, [])
    here = crate_of(path)
    for key in names.get(last, []):
        if not key[0] or not where and key[0] == path:
            yield key
        elif where and (crate_of(key[0]) == where[0] or crate_of(key[0]) == here and (where[0] == 'crate' or f'/{where[-1]}.rt' in key[0])):
            yield key


def named(text, path, kinds):
    """The types that a text names."""
    return {kind for word in re.findall(r'(?:[a-z]\w*::)*[A-Z]\w*|\b[a-z]\w*', text) for kind in meant(word, path, kinds)}


def types():
    """Every type and trait, by file and name: the types that it holds, or that its impls give a trait."""
    said = {}
    for path in files('crates/*/src/**/*.rt'):
        for m in re.finditer(r'^(?:pub )?(?:(trait)|struct|enum|type) (\w+).*(?:;$|\{\n(?s:.*?)^\})', code(path), re.M):
            said[path, m[2]] = [] if m[1] else [(path, m[0])]
    declared = by_name(said)
    for path in files('crates/*/src/**/*.rt'):
        for _, head, _, name in blocks(path):
            for kind in list(meant(name, path, declared)) or [('', name)]:
                said.setdefault(kind, []).append((path, ' '.join(re.findall(r' type .* = .*;', head))))
    kinds = by_name(said)
    return {kind: {held for path, text in texts for held in named(text, path, kinds)} for kind, texts in said.items()}


def methods(known, kinds):
    """The functions of each type's impls: with each its name and the trait's function that it is; None where there is no trait, True where it is none of ours."""
    found = {}
    for key, place in known.items():
        block, last = block_of(key[0], place[0]), key[1].split('::')[-1].rstrip('′')
        if block:
            ours = [(path, f'{name}::{last}') for path, name in meant(block[2] or '', key[0], kinds)]
            for kind in meant(block[3], key[0], kinds):
                found.setdefault(kind, []).append((key, last, ours[0] if ours else True if block[2] else None))
    return found


def called(path, place, free):
    """The functions that a function calls or hands on by their names, and the names of the methods that it calls."""
    contract, body = parts(path, place)
    words = re.findall(r'(?<![.\w:])((?:\w+::)*\w+)(?:::<[^()]*>)?\(', body)
    for word in re.findall(r'[(,=:]\s*((?:\w+::)*\w+)(?=\s*[,;)}])', body):
        if not re.search(rf'\b{word}: ', contract) and not re.search(rf'\blet (mut )?{word}\b', body):
            words.append(word)
    asked = re.findall(r'\.(\w+)(?:::<[^()]*>)?\(', body) + re.findall(r'\b[A-Z]\w*::(\w+)', body)
    return {key for word in words for key in meant(word, path, free)}, set(asked)


def edges(known, defined):
    """What each function and definition reaches at once.

    A function has the types that it names, those that these hold, and those that come out of what it calls. Of a type that it
    has it reaches the methods that it calls, those of a trait whose own it reaches, be it in generic code further down, and those
    that the library calls.
    """
    holds = types()
    kinds, free = by_name(holds), by_name(key for key in known if '::' not in key[1])
    of_kind = methods(known, kinds)
    traits = {kind for kind in holds if kind[0] and re.search(rf'\btrait {kind[1]}\b', code(kind[0]))}
    out, has, gives, asks = {key: value[3] for key, value in defined.items()}, {}, {}, {}
    for key, place in known.items():
        path, block = key[0], block_of(key[0], place[0])
        calls, asks[key] = called(path, place, free)
        out[key] = calls | spoken(path, place)
        has[key] = named(code(path)[place[0]:place[1]] + (f' {block[3]}' if block else ''), path, kinds)
        # a trait's functions can be called in a file that names the trait
        has[key] |= {trait for trait in traits if trait in meant(trait[1], path, kinds)}
        gives[key] = named(' '.join(re.findall('-> .*', parts(path, place)[0])), path, kinds)
    size = 0
    while size < sum(map(len, out.values())):
        size = sum(map(len, out.values()))
        for key in known:
            seen = reached({key}, out)
            for kind in reached(has[key].union(*(gives[other] for other in out[key] if other in gives)), holds):
                for method, last, trait in of_kind.get(kind, ()):
                    if trait is True or trait in seen or trait is None and last in asks[key]:
                        out[key].add(method)
    return out


def reached(start, out):
    seen, todo = set(start), list(start)
    while todo:
        for node in out.get(todo.pop(), ()):
            if node not in seen:
                seen.add(node)
                todo.append(node)
    return seen


def public(known):
    """The public calls: those of crate reconcile, and merge_files. Names that two modules share carry their module's."""
    calls = [key for key in known if crate_of(key[0]) == 'reconcile']
    names = [name for _, name in calls]
    for path, name in sorted(calls):
        yield (name if names.count(name) == 1 else f'{os.path.basename(path)[:-3]}::{name}'), (path, name)
    yield 'merge_files', ('crates/merge_files/src/lib.rt', 'merge_files')
