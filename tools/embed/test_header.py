"""`include/rvvbox.h` says what the crate exports: the version, each function's types, each struct's fields, and each number of a status, a
rule and a kind. C99 and C++17 take it."""
import re
import subprocess
import tempfile
import unittest
from pathlib import Path

from library import FLAGS, HEADER, ROOT, c_name, sources

NUMBERS = {'u8': 'uint8_t', 'u32': 'uint32_t', 'u64': 'uint64_t', 'usize': 'size_t'}
SIZES = {'u32': 4, 'u64': 8, 'usize': 8}
# what a host has no more than a pointer to, and the place for such a pointer
OPAQUE = {
    'Kernel': 'struct rvvbox_kernel',
    'Slot': 'struct rvvbox_kernel *',
    'Run': 'struct rvvbox_session',
    'RunSlot': 'struct rvvbox_session *',
}
# the enum of each error's rules, and the rule that is want of memory
RULES = {'ElfError': 'image', 'CertError': 'certificate', 'CheckError': 'check'}
NO_RULE = 'NoMemory'
EXPORT = re.compile(r'#\[unsafe\(no_mangle\)\]\s*pub extern "C" fn (\w+)\((.*?)\)\s*(?:->\s*(\w+))?', re.S)
STRUCT = re.compile(r'#\[repr\(C\)\](?:\s*#\[[^\n]*\])*\s*pub struct (\w+) \{(.*?)\n\}', re.S)


def c_type(name):
    return NUMBERS.get(name) or OPAQUE.get(name) or 'struct rvvbox_' + name.lower()


def c_parameters(kind):
    """The C types of a parameter: none of an allocator, a pointer and a count of a slice, a pointer of a reference."""
    if kind == 'Global':
        return []
    found = re.fullmatch(r'&(mut )?(\[)?(\w+)\]?', kind)
    if not found:
        return [c_type(kind)]
    lent, listed, name = found.groups()
    pointer = ('' if lent else 'const ') + c_type(name) + ' *'
    return [pointer, 'size_t'] if listed else [pointer]


def prototypes(text):
    """Each export again, as C: a compiler refuses one that differs from the header's."""
    for name, parameters, result in EXPORT.findall(text):
        kinds = re.findall(r'\w+:\s*([^,]+?)\s*(?:,|$)', parameters.strip())
        words = [word for kind in kinds for word in c_parameters(kind)]
        yield name, '%s %s(%s);' % (c_type(result) if result else 'void', name, ', '.join(words) or 'void')


def fields(text):
    """The fields of each struct that crosses to C, with their types."""
    return {name: re.findall(r'^ +(?:pub )?(\w+): ([^\n]+),', body, re.M) for name, body in STRUCT.findall(text) if name not in OPAQUE}


def measured(kind, structs):
    """The size of a type in bytes, and what its place is a multiple of."""
    array = re.fullmatch(r'\[(\w+); (\d+)\]', kind)
    if array:
        size, step = measured(array.group(1), structs)
        return size * int(array.group(2)), step
    if kind in SIZES:
        return SIZES[kind], SIZES[kind]
    parts = [measured(of, structs) for _, of in structs[kind]]
    return sum(size for size, _ in parts), max(step for _, step in parts)


def layouts(text):
    """Each struct's size and where its fields lie, as `repr(C)` lays them out, with no gap before a field or at the end."""
    structs = fields(text)
    for name, parts in structs.items():
        at = 0
        for field, kind in parts:
            size, step = measured(kind, structs)
            assert at % step == 0, '%s: a gap before %s' % (name, field)
            yield '_Static_assert(offsetof(%s, %s) == %d && sizeof(((%s *)0)->%s) == %d, "%s");' % (
                c_type(name), field, at, c_type(name), field, size, field)
            at += size
        assert at % measured(name, structs)[1] == 0, '%s: a gap at the end' % name
        yield '_Static_assert(sizeof(%s) == %d, "%s");' % (c_type(name), at, name)


def numbers(text, enum):
    """The number of each variant of an enum, by the variant's name in C, as the crate's `match` tells it."""
    found = re.findall(r'\b%s::(\w+)(?:\(_\))? => (\d+),' % enum, text)
    return {c_name(name): int(number) for name, number in found}


def listed(enum):
    """The number of each name of one of the header's enums."""
    body = re.search(r'enum rvvbox_%s \{(.*?)\};' % enum, HEADER.read_text(), re.S).group(1)
    return {name: int(number) for name, number in re.findall(r'RVVBOX_(\w+) = (\d+)', body)}


def constant(text, name):
    """The number of a constant of the crate."""
    return int(re.search(r'pub const %s: u32 = (\d+);' % name, text).group(1))


RUST = ROOT / 'bindings' / 'rust' / 'src' / 'sys.rs'
RUST_TYPES = {**NUMBERS, 'c_void': 'void', 'c_char': 'char'}


def c_of_rust(kind):
    """A type of the Rust wrapper's declarations, as C."""
    pointer = re.fullmatch(r'\*(mut|const) (.+)', kind)
    if pointer:
        return ('const ' if pointer.group(1) == 'const' else '') + c_of_rust(pointer.group(2)) + ' *'
    return RUST_TYPES.get(kind) or 'struct rvvbox_' + kind.lower()


def c_field(kind, name):
    """A field of a struct of the Rust wrapper's declarations, as C."""
    array = re.fullmatch(r'\[(.+); (\d+)\]', kind)
    return '%s %s[%s];' % (c_of_rust(array.group(1)), name, array.group(2)) if array else '%s %s;' % (c_of_rust(kind), name)


def rust_prototypes(text):
    """Each function that the Rust wrapper declares, as C."""
    for name, parameters, result in re.findall(r'pub fn (\w+)\((.*?)\)(?: -> ([^;]+))?;', text, re.S):
        kinds = re.findall(r'\w+: ([^,]+)', parameters)
        yield '%s %s(%s);' % (c_of_rust(result) if result else 'void', name, ', '.join(map(c_of_rust, kinds)) or 'void')


def rust_layouts(text):
    """The fields of each struct of the Rust wrapper's declarations, in their order, as C."""
    for name, body in re.findall(r'pub struct (\w+) \{(.*?)\n\}', text, re.S):
        parts = re.findall(r'pub (\w+): ([^\n]+),', body)
        if parts:
            fields = ' '.join(c_field(kind, field) for field, kind in parts)
            yield 'struct rust_%s { %s };' % (name, fields)
            yield '_Static_assert(sizeof(struct rust_%s) == sizeof(%s), "%s");' % (name, c_of_rust(name), name)
            for field, kind in parts:
                yield '_Static_assert(offsetof(struct rust_%s, %s) == offsetof(%s, %s), "%s");' % (name, field, c_of_rust(name), field, field)


class Header(unittest.TestCase):
    def test_types(self):
        text = sources()
        declared = dict(prototypes(text))
        self.assertEqual(set(declared), set(re.findall(r'^(?:uint32_t|void) (rvvbox_\w+)\(', HEADER.read_text(), re.M)))
        self.compiles('#include "rvvbox.h"', *declared.values(), *layouts(text))

    def compiles(self, *lines):
        """These lines are C."""
        with tempfile.TemporaryDirectory() as folder:
            source = Path(folder) / 'compared.c'
            source.write_text('\n'.join(lines) + '\n')
            subprocess.run(['gcc', *FLAGS, '-fsyntax-only', source], check=True)

    def test_rust(self):
        text = RUST.read_text()
        self.compiles('#define RVVBOX_INLINE', '#include "rvvbox.h"', *rust_prototypes(text), *rust_layouts(text))

    def test_languages(self):
        for words in (['gcc', '-x', 'c', '-std=c99'], ['g++', '-x', 'c++', '-std=c++17']):
            subprocess.run([*words, '-Wall', '-Wextra', '-Wpadded', '-Wpedantic', '-Werror', '-fsyntax-only', HEADER], check=True)

    def test_statuses(self):
        self.assertEqual(numbers(sources(), 'Status'), listed('status'))

    def test_rules(self):
        for error, enum in RULES.items():
            wanted = numbers(sources(), error)
            self.assertEqual(wanted.pop(c_name(NO_RULE)), 0)
            prefix = c_name(enum.capitalize()) + '_'
            self.assertEqual({prefix + name: number for name, number in wanted.items()}, listed(enum + '_rule'))

    def test_names(self):
        header = HEADER.read_text()
        self.assertEqual(re.findall(r'RVVBOX_NAMED\((\w+)\)', header)[1:], list(listed('status')))
        for of in RULES.values():
            wanted = [of.upper() + '_' + name for name in re.findall(r'RVVBOX_RULE\(%s, (\w+)\)' % of.upper(), header)]
            self.assertEqual(wanted, list(listed(of + '_rule')))

    def test_kinds(self):
        self.assertEqual(listed('kind'), {'NONE': 0, 'SCALAR': 1, 'BUFFER': 2, 'READ': 3})

    def test_version(self):
        macros = dict(re.findall(r'#define RVVBOX_(VERSION_\w+) (\d+)u', HEADER.read_text()))
        self.assertEqual({name: constant(sources(), name) for name in macros}, {name: int(number) for name, number in macros.items()})
        self.assertEqual(set(macros), {'VERSION_MAJOR', 'VERSION_MINOR'})


if __name__ == '__main__':
    unittest.main()
