"""The public functions of a crate with their contracts, as its code has them: what tools/one and tools/trust read."""
import collections
import glob
import os
import re

ROOT = os.path.dirname(os.path.dirname(os.path.realpath(__file__)))
HEAD = re.compile(r'^pub (extern "C" )?fn (\w+)(<[^>\n]*>)?\(', re.M)

# parameters as pairs of a name and a type; a clause with its word (`ensures`, or `ensures ok`) and its text; the body's text
Function = collections.namedtuple('Function', 'crate file name exported generics parameters result clauses body')


def crates():
    """The crates of crates.txt, from the ground up."""
    return re.findall(r'^(\w+)(?: staticlib)?:', open(f'{ROOT}/crates.txt', encoding='utf-8').read(), re.M)


def closing(text, at):
    """The place behind the bracket that closes the one at `at`."""
    pairs, deep = {'(': ')', '{': '}'}, 0
    for k in range(at, len(text)):
        deep += (text[k] == text[at]) - (text[k] == pairs[text[at]])
        if not deep:
            return k + 1
    raise ValueError(f'a bracket is not closed: {text[at:at + 80]}')


def plain(text):
    """A text on one line, as it would be written there."""
    return re.sub(r'\s+', ' ', text).strip()


def functions(crate):
    """The public functions of a crate."""
    for file in sorted(glob.glob(f'{ROOT}/crates/{crate}/src/**/*.rt', recursive=True)):
        text = re.sub(r'^ *//[^\n]*', '', open(file, encoding='utf-8').read(), flags=re.M)
        for head in HEAD.finditer(text):
            end = closing(text, head.end() - 1)
            parameters = [one.partition(':') for one in plain(text[head.end():end - 1]).split(', ') if one]
            result = re.compile(r'\s*->\s*([^\n{]*)|').match(text, end)
            end, clauses = result.end(), []
            while found := re.compile(r'\s*((?:ensures|requires)\*?(?: \w+)?) (?=\{)').match(text, end):
                inside, end = found.end(), closing(text, found.end())
                clauses.append((found[1], plain(text[inside + 1:end - 1])))
            begin = text.index('{', end)
            yield Function(crate, file, head[2], bool(head[1]), head[3] or '', [(plain(a).rstrip(','), plain(b).rstrip(',')) for a, _, b in parameters],
                           plain(result[1] or ''), clauses, plain(text[begin + 1:closing(text, begin) - 1]))
