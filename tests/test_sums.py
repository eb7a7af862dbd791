"""Of the call that gives value and gradient together: one function takes each four-term sum and hands the number back one higher, and nothing else does. That
nobody else makes a number is a matter of its type, and what the number is at the end is proved; that nobody else takes a sum is read here, in the sources."""
import functools
import os
import re
import shutil
import unittest

from support import InFolder, TOP, text_of

WIDTHS = ('', '_f32')
# Crates that both widths call.
GENERIC = ('interp_math', 'reduction', 'counted_sums', 'shared_reduction')
KINDS = ('regular', 'rectilinear')
# On the way of the call, above counted_sums: each with the lines in which it may multiply. Without a product there is no such sum.
ABOVE = {'shared_reduction': [], 'with_grad': [], **{f'{kind}_with_grad': ['base += place.origin * strides[axis];'] for kind in KINDS}}
# The crates of the calls for C: as they are, and as a static library exports them.
FOR_C = ('capi', 'capi_c')
# The functions by which the other calls take their sums; of those of `reduction`, the one that takes them itself.
TAKING = ('dot4', 'reduce', 'reduce1', 'reduce2', 'reduce3', 'reduce4')
SUMMING = 'reduce'


def at(crate, width):
    """A crate's name at a width."""
    return crate if crate in GENERIC else crate + width


# Of most copies below only one source is another.
@functools.lru_cache(maxsize=None)
def code(text):
    """A source without its comments, its clauses, and what only they use."""
    text = re.sub(r'//[^\n]*', '', text)
    text = re.sub(r'^ghost use [^;]*;', '', text, flags=re.M)
    while found := re.search(r'\b(?:requires|ensures)\*?\s*(?:\w+\s*)?\{', text):
        text = text[:found.start()] + text[closed(text, found.end()):]
    return text


def closed(text, at):
    """Where that ends whose opening brace stands before this place."""
    depth = 1
    while depth:
        depth += {'{': 1, '}': -1}.get(text[at], 0)
        at += 1
    return at


@functools.lru_cache(maxsize=None)
def bodies(text):
    """The functions of a code, by name: of several with one name, as of a trait's impls, all of them. One without a body is none."""
    functions = {}
    for found in re.finditer(r'\bfn (\w+)\s*(?:<[^()]*>)?\s*\(', text):
        # The types of arguments and result have no brace, and a semicolon in brackets alone.
        begin = re.compile(r'[^][{;]*(?:(?:\[[^][]*\]|\[[^][]*(?:\[[^][]*\][^][]*)+\])[^][{;]*)*').match(text, found.end()).end()
        if text[begin] == '{':
            functions[found[1]] = functions.get(found[1], '') + text[begin:closed(text, begin + 1)]
    return functions


class Source:
    """The code of a crate, its functions, and the crate of each name that it uses."""

    def __init__(self, crate, folder):
        self.crate, self.code = crate, code('\n'.join(text_of(os.path.join(folder, name)) for name in sorted(os.listdir(folder))))
        self.uses = {name: of for of, names in re.findall(r'\buse (\w+)::(\w+|\{[\w\s,]*\});', self.code) for name in re.findall(r'\w+', names)}
        self.functions = bodies(self.code)

    def named(self, function):
        """The functions that one of this crate names, as pairs of crate and name: all that it calls, and maybe some whose name a local has."""
        words, paths = set(re.findall(r'\w+', self.functions[function])), re.findall(r'\b(\w+)::(\w+)', self.functions[function])
        return ({(self.crate, name) for name in words & self.functions.keys()} | {(self.uses[name], name) for name in words & self.uses.keys()}
                | {(self.uses.get(of, of), name) for of, name in paths})


def read(root):
    """The sources of a repository, by crate."""
    found = {}
    for crate in sorted(os.listdir(os.path.join(root, 'crates'))):
        folder = os.path.join(root, 'crates', crate, 'src')
        if os.path.isdir(folder):
            found[crate] = Source(crate, folder)
    return found


def reached(sources, crate, function):
    """The functions that a call of this one may come to."""
    found, left = set(), [(crate, function)]
    while left:
        crate, function = left.pop()
        if (crate, function) not in found and crate in sources and function in sources[crate].functions:
            found.add((crate, function))
            left += sources[crate].named(function)
    return found


def faults(root):
    """What is not as it has to be in the sources of a repository."""
    sources, found = read(root), []
    for width in WIDTHS:
        missing = [at(crate, width) for crate in ['counted_sums', *ABOVE, *FOR_C] if at(crate, width) not in sources]
        if missing:
            found += [told for crate in missing if (told := f'there is no crate {crate}') not in found]
            continue
        found += _above(sources, width) + _on_the_way(sources, width)
    if 'counted_sums' in sources:
        found = _of_the_counter(sources['counted_sums']) + found
    for crate, source in sources.items():
        if crate != 'counted_sums' and _opened(source.code):
            found.append(f'{crate}: it makes a Sums, or takes one apart')
    return found


def _opened(text):
    """What stands in braces behind the name of the type, where it is no declaration and no function's result."""
    return re.findall(r'(?<!struct )(?<!-> )\bSums\s*\{([^{}]*)\}', text)


def _of_the_counter(source):
    found, body = [], source.functions.get('sum4', '')
    if not re.search(r'\bpub struct Sums \{\s*taken: usize,\s*\}', source.code):
        found.append('Sums has not one field, which is private')
    if sorted(source.functions) != ['none', 'number', 'sum4']:
        found.append(f'its functions are {", ".join(source.functions)}')
    if [len(re.findall(r'\bdot4\s*\(', text)) for text in (source.code, body)] != [1, 1]:
        found.append('a sum is taken otherwise than at one place of sum4')
    if [re.findall(r'\+[^\n,]*', text) for text in (source.code, body)] != [['+ 1'], ['+ 1']]:
        found.append('it adds otherwise than 1 at one place of sum4')
    if sorted(''.join(fields.split()).rstrip(',') for fields in _opened(source.code)) != ['taken:0', 'taken:sums.taken+1']:
        found.append('it makes a Sums otherwise than with 0 and with one more')
    return [f'{source.crate}: {fault}' for fault in found]


def _above(sources, width):
    found = []
    for crate, products in ABOVE.items():
        if crate in GENERIC and width:
            continue
        crate = at(crate, width)
        text = sources[crate].code
        found += [f'{crate}: it names {name}' for name in TAKING if re.search(rf'\b{name}\b', text)]
        if [line.strip() for line in text.split('\n') if '*' in line or 'mul_add' in line] != products:
            found.append(f'{crate}: it multiplies')
    return found


def _calls(kind, width):
    return [(f'{kind}_with_grad{width}', 'interp_one_with_grad'), *((crate + width, f'veltzuma_{kind}_interp_one_with_grad{width}') for crate in FOR_C)]


def _on_the_way(sources, width):
    """In whatever crate: from the call, in Rattle and for C, no function is come to that takes a sum, but sum4."""
    found, sum4 = [], ('counted_sums', 'sum4')
    for kind in KINDS:
        for crate, call in _calls(kind, width):
            way = reached(sources, crate, call)
            if sum4 not in way:
                found.append(f'{call} of {crate} does not come to sum4')
            for other, name in sorted(way - {sum4}):
                if any(of == 'interp_math' and taking == 'dot4' for of, taking in sources[other].named(name)):
                    found.append(f'{call} of {crate} comes to {name} of {other}, which takes a sum')
    return found


class Text(InFolder):
    def setUp(self):
        super().setUp()
        for crate in os.listdir(os.path.join(TOP, 'crates')):
            source = os.path.join(TOP, 'crates', crate, 'src')
            if os.path.isdir(source):
                shutil.copytree(source, self.path(crate))

    def path(self, crate):
        return os.path.join(self.folder, 'crates', crate, 'src')

    def told(self, crate, *edits, more=''):
        """What is told of a copy in which texts of one crate, each of which it has once, are others, and which has more at its end."""
        path = os.path.join(self.path(crate), 'lib.rt')
        before = text = text_of(path)
        for old, new in edits:
            self.assertEqual(text.count(old), 1, old)
            text = text.replace(old, new)
        self.write(text + more, path)
        found = faults(self.folder)
        self.write(before, path)
        return found

    def test_sources(self):
        self.assertEqual(faults(TOP), [])
        self.assertEqual(faults(self.folder), [])
        # And it is these sources that were read.
        source = read(TOP)['counted_sums']
        self.assertIn('taken: sums.taken + 1', source.functions['sum4'])
        self.assertNotRegex(source.code, 'ensures|requires|≡')

    def test_the_counter(self):
        crate = 'counted_sums'
        made = '        sums: Sums {\n            taken: sums.taken + 1,\n        },\n'
        for edits, more, *told in (
                ([('value: dot4(weights, vals)', 'value: dot4(weights, vals) + dot4(weights, vals)')], '', 'a sum is taken otherwise', 'it adds otherwise'),
                ([('taken: sums.taken + 1,', 'taken: sums.taken + 1 + 1,')], '', 'it adds otherwise', 'it makes a Sums'),
                ([('taken: sums.taken + 1,', 'taken: sums.taken + 11,')], '', 'it adds otherwise', 'it makes a Sums'),
                ([('taken: sums.taken + 1,', 'taken: sums.taken,')], '', 'it adds otherwise', 'it makes a Sums'),
                ([('taken: 0 }', 'taken: 1 }')], '', 'it makes a Sums'),
                ([('    taken: usize,', '    pub taken: usize,')], '', 'Sums has not one field'),
                ([('    taken: usize,', '    taken: usize,\n    pub other: usize,')], '', 'Sums has not one field'),
                ([], '\npub fn more(n: usize) -> Sums {\n    Sums { taken: n }\n}\n', 'its functions are', 'it makes a Sums'),
                ([], '\npub fn twice(weights: [f64; 4], vals: [f64; 4]) -> f64 {\n    dot4 (weights, vals)\n}\n', 'its functions are', 'a sum is taken otherwise'),
                ([(made, '        sums,\n')], '', 'it adds otherwise', 'it makes a Sums')):
            found = self.told(crate, *edits, more=more)
            self.assertEqual([fault[:len(crate) + 2 + len(one)] for fault, one in zip(found, told)], [f'{crate}: {one}' for one in told], found)
            self.assertEqual(len(found), len(told), found)
        # Elsewhere than in the code it may be named.
        self.assertEqual(self.told(crate, more='// dot4(weights, vals) + 1; Sums { taken: 7 }\n'), [])
        self.assertEqual(self.told(crate, ('{ sums.taken + 1 < 2 ^ 64 }', '{\n        sums.taken + 1 + 1 < 2 ^ 64\n        × dot4( Sums { taken: 7 } ) }')), [])

    def test_above(self):
        for width, number in (('', 'f64'), ('_f32', 'f32')):
            for crate, name in (('shared_reduction', 'dot4'), ('with_grad', 'dot4'), ('regular_with_grad', 'reduce3'), ('rectilinear_with_grad', 'reduce1')):
                crate = at(crate, width)
                function = f'\nfn other(weights: [[{number}; 4]; 4], vals: [{number}; 4]) -> {number} {{\n    %s\n}}\n'
                self.assertEqual(self.told(crate, more=function % f'{name}(weights[0], vals)'), [f'{crate}: it names {name}'])
                self.assertEqual(self.told(crate, more=f'use interp_math::{name} as other;\n'), [f'{crate}: it names {name}'])
                self.assertEqual(self.told(crate, more=function % f'// {name}(weights[0], vals)\n    vals[0]'), [])
                for product in ('weights[0][0] * vals[0]', 'mul_add(weights[0][1], vals[1], vals[0])'):
                    self.assertEqual(self.told(crate, more=function % product), [f'{crate}: it multiplies'])
                for made in ('let other = Sums { taken: 0 };', 'let Sums { taken } = sums;', 'counted_sums::Sums {\n        taken: 7,\n    }'):
                    self.assertEqual(self.told(crate, more=function % made), [f'{crate}: it makes a Sums, or takes one apart'])
        # A sum that is not counted, in the place of one that is.
        self.assertEqual(self.told('shared_reduction', ('let own = sum4(derivatives, vals, sums);', 'let own = interp_math::dot4(derivatives, vals);'))[0],
                         'shared_reduction: it names dot4')

    def test_anywhere(self):
        """The other crates may take sums, but not on the way of this call; and none makes a number."""
        for width, kind in ((width, kind) for width in WIDTHS for kind in KINDS):
            calls = _calls(kind, width)
            self.assertEqual([crate for crate, _ in calls], [f'{kind}_with_grad{width}', f'capi{width}', f'capi_c{width}'])

            def takes(name, crate, calls=calls):
                return [f'{call} of {of} comes to {name} of {crate}, which takes a sum' for of, call in calls]

            own = f'{kind}_with_grad{width}'
            # By another crate's function, and by one below that.
            function = '\npub fn beside(x: usize) -> usize {\n    dot4(x)\n}\n'
            self.assertEqual(self.told('reduction', more=function), [])
            with open(os.path.join(self.path('reduction'), 'lib.rt'), 'a', encoding='utf-8') as out:
                out.write(function)
            for edit in ('reduction::beside(axis)', 'beside(axis)'):
                more = 'use reduction::beside;\n' if edit[0] == 'b' else ''
                found = self.told(own, ('let given = x[axis];', f'let given = x[axis];\n        {edit};'), more=more)
                self.assertEqual(found, takes('beside', 'reduction'))
            shutil.copytree(os.path.join(TOP, 'crates', 'reduction', 'src'), self.path('reduction'), dirs_exist_ok=True)
            # By the call that gives the value alone: first of all the function that takes its sums is told.
            found = self.told(own, ('match new(', f'let value = {kind}{width}::interp_one(axis_count);\n    match new('))
            self.assertEqual(found, [fault for call in calls for fault in takes(SUMMING, 'reduction', [call])])
            # For C, beside the call or in its place.
            found = self.told(f'{kind}_lent{width}', (f'{kind}_with_grad{width}::interp_one_with_grad(', f'{kind}{width}::interp_one('))
            self.assertEqual(found, [fault for crate, call in calls[1:] for fault in (f'{call} of {crate} does not come to sum4', *(
                takes(SUMMING, 'reduction', [(crate, call)])))])
        for crate in ('told', 'capi_f32', 'slices'):
            self.assertEqual(self.told(crate, more='\nfn made() -> Sums {\n    Sums { taken: 9 }\n}\n'), [f'{crate}: it makes a Sums, or takes one apart'])
            self.assertEqual(self.told(crate, more='\nfn handed_on(sums: Sums) -> Sums {\n    sums\n}\n'), [])

    def test_what_is_not_there(self):
        """A crate or a call by another name is told, and not passed over."""
        for crate in ('counted_sums', 'shared_reduction', 'with_grad', 'rectilinear_with_grad_f32'):
            kept = self.path(crate) + '_kept'
            os.rename(self.path(crate), kept)
            self.assertEqual(faults(self.folder), [f'there is no crate {crate}'])
            os.rename(kept, self.path(crate))
        found = self.told('regular_with_grad', ('pub fn interp_one_with_grad(', 'pub fn interp_one_with_slopes('))
        self.assertEqual(found, ['interp_one_with_grad of regular_with_grad does not come to sum4', 'veltzuma_regular_interp_one_with_grad of capi does not come to sum4',
                                 'veltzuma_regular_interp_one_with_grad of capi_c does not come to sum4'])
        self.assertEqual(faults(self.folder), [])


if __name__ == '__main__':
    unittest.main()
