"""README.md, docs/ARCHITECTURE.md and CHANGELOG.md: what they show runs as written, and what they name is there."""
import os
import re
import subprocess
import sys
import unittest

from support import InFolder, LARGEST, TOP, VERSION, run, text_of
import veltzuma

README, ARCHITECTURE, CHANGELOG = (text_of(os.path.join(TOP, *parts)) for parts in (['README.md'], ['docs', 'ARCHITECTURE.md'], ['CHANGELOG.md']))


def listed():
    """The crates of crates.txt, each with those that it names."""
    lines = (line.partition(':') for line in text_of(os.path.join(TOP, 'crates.txt')).split('\n') if line and not line.startswith('#'))
    return {name.split()[0]: names.split() for name, _, names in lines}


def source(crate):
    return text_of(os.path.join(TOP, 'crates', crate, 'src', 'lib.rt'))


class Samples(InFolder):
    def test_c_and_rust(self):
        """Each program is built by the command below it, and prints what is said there."""
        for name in ('include', 'veltzuma'):
            os.symlink(os.path.join(TOP, name), os.path.join(self.folder, name))
        found = re.findall(r'\n\n((?:(?:    [^\n]*)?\n)+)prints `([^`]*)`, built by `(\S+ [^`]*?(\S+\.(?:c|rs))\b[^`]*)`', README)
        self.assertEqual([source for _, _, _, source in found], ['call.c', 'call.rs'])
        for program, printed, command, path in found:
            self.write(program.replace('\n    ', '\n'), path)
            subprocess.run(['sh', '-c', command], cwd=self.folder, check=True)
            built = os.path.join(self.folder, 'a.out' if path == 'call.c' else 'call')
            self.assertEqual(subprocess.run([built], stdout=subprocess.PIPE, check=True).stdout.decode(), printed + '\n')

    def test_python(self):
        code, first, second = re.search(r'\n\n((?:    [^\n]*\n)+)\nprints `([^`]*)` and `([^`]*)`\.\n', README).groups()
        made = subprocess.run([sys.executable, '-B', '-c', code.replace('\n    ', '\n').strip()], cwd=TOP, stdout=subprocess.PIPE, check=True)
        self.assertEqual(made.stdout.decode(), f'{first}\n{second}\n')

    def test_value_from_the_tool(self):
        at = re.search(r'\./veltzuma eval \S+ --at (\S+)', README)[1]
        status, out, err = run('eval', LARGEST, '--at', at)
        self.assertEqual((status, err), (0, ''))
        head, row = (line.split(',') for line in out.splitlines())
        self.assertIn(f"is {row[head.index('delivery')]} mL/min.", README)

    def test_numbers(self):
        """The refusals and the version are the library's."""
        self.assertIn('one of ten numbers: ' + ', '.join(f'{number} {name}' for number, name in veltzuma.REFUSALS.items()) + ' |', README)
        self.assertEqual((len(veltzuma.REFUSALS), README.count('one of ten numbers')), (10, 2))
        self.assertIn(f'assert_eq!(unsafe {{ veltzuma_version() }}, {VERSION});', README)


class Names(unittest.TestCase):
    def test_paths(self):
        """Each file and folder that is named is there."""
        paths = set()
        for text in (README, ARCHITECTURE, CHANGELOG):
            paths.update(re.findall(r'\b(?:docs|tools|tests|include|examples|bindings|reference|tables|LICENSES)/[\w./-]*\w', text))
            paths.update(re.findall(r'\]\(([^)#:]+)\)', text))
        self.assertGreater(len(paths), 25)
        self.assertEqual([path for path in sorted(paths) if not os.path.exists(os.path.join(TOP, path))], [])

    def test_crates(self):
        """The table has each crate once, one of f32 as NAME_f32 where it has NAME."""
        rows = re.search(r'\| crate \| what \|\n\|---\|---\|\n(.*?)\n\n', ARCHITECTURE, re.S)[1].split('\n')
        named = [name for row in rows for name in re.findall(r'`(\w+)`', row.split('|')[1]) if name != '_f32']
        self.assertEqual(sorted(named), sorted({re.sub('_f32$', '', name) for name in listed()}))

    def test_functions_of_the_call(self):
        """Each function on the way of the call is in the crate that is named beside it, and is called."""
        way = re.search(r'\n\n(    capi +veltzuma_regular_interp_one .*?)\n\n', ARCHITECTURE, re.S)[1]
        found = []
        for line in way.split('\n'):
            crate, names, said = (re.split('  +', line.strip()) + [''])[:3]
            found += [(crate, name) for name in re.findall(r'\w+', names.replace(' to ', ' '))] + re.findall(r'(\w+)::(\w+)', said)
        self.assertGreater(len(found), 35)
        self.assertEqual([(crate, name) for crate, name in found if not re.search(rf'\bfn {name}[(<]', source(crate))], [])
        sources = ''.join(source(crate) for crate in {crate for crate, _ in found})
        self.assertEqual([name for _, name in found[1:] if len(re.findall(rf'\b{name}[(<]', sources)) < 2], [])
        self.assertEqual(len({crate for crate, _ in found}), 11)
        self.assertIn('eleven crates', ARCHITECTURE)


class Floors(unittest.TestCase):
    def test_drawing(self):
        """Each crate stands one floor above the highest of those that it names."""
        below, floors = listed(), {}
        for name in below:
            floors[name] = 1 + max((floors[other] for other in below[name] if other in below), default=-1)
        drawn, floor = {}, None
        text = ARCHITECTURE.split('<!-- floors -->\n\n')[1].split('\n\n')
        self.assertEqual(text[0], f"    {len(floors)} crates on {max(floors.values()) + 1} floors; NAME' is NAME_f32")
        for line in text[1].split('\n')[1:]:
            words = line.split()
            if words[0].isdigit():
                floor = int(words.pop(0))
            for word in words:
                self.assertNotIn(word, drawn)
                drawn[word.replace("'", '_f32')] = floor
        self.assertEqual(drawn, floors)


class Changes(unittest.TestCase):
    def test_versions(self):
        """The newest is that of the file VERSION, and its first number that of the calls; they fall by landings."""
        versions = [tuple(map(int, found)) for found in re.findall(r'^## (\d+)\.(\d+) ', CHANGELOG, re.M)]
        self.assertEqual('%d.%d' % versions[0], text_of(os.path.join(TOP, 'VERSION')).strip())
        self.assertEqual(versions[0][0], VERSION)
        self.assertEqual(versions, sorted(versions, reverse=True))
        self.assertEqual([version for version in versions if version[1] == 0], [(number, 0) for number in range(VERSION, 1, -1)])

    def test_landings(self):
        """Each note is linked once."""
        notes = sorted(f'docs/landings/{name}' for name in os.listdir(os.path.join(TOP, 'docs', 'landings')))
        self.assertEqual(sorted(re.findall(r'\]\((docs/landings/[^)]*)\)', CHANGELOG)), notes)


if __name__ == '__main__':
    unittest.main()
