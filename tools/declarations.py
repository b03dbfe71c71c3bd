#!/usr/bin/env python3
# What Rust and C are told of libprelgammo.a, from the crates' sources: the `#[repr(C)]` record, and every function that is
# marked `#[unsafe(no_mangle)] pub extern "C"`.
#   tools/declarations.py             writes the files
#   tools/declarations.py --check     fails, and says why, if one of them is not as it would write it, if prelgammo.h does not
#                                     describe a function, or if a function does not promise the call of its name
#   tools/declarations.py --symbol    prints the name that the layout and the signatures give the archive
# That name has a hash of them. The archive defines it (bindings/library.sh) and the files refer to it, so an archive of another
# layout does not link.
import hashlib
import pathlib
import re
import sys
from dataclasses import dataclass, field

ROOT = pathlib.Path(__file__).resolve().parent.parent
RUST = ROOT / 'bindings/rust/src/declarations.rs'
C = ROOT / 'bindings/c/prelgammo_declarations.h'
DESCRIBED = ROOT / 'bindings/c/prelgammo.h'

RECORD = 'ListOrderedMultimap'
# The fields that Rust and C know by another name, or, of counts, by a name before each count's.
KNOWN_AS = {'lengths': 'length', 'members': 'keys', 'rounds': 'values'}
COUNTS = 'Counts'
# Of each type of number: its bytes, and its name in C.
NUMBERS = {
    'u8': (1, 'uint8_t'), 'u16': (2, 'uint16_t'), 'u32': (4, 'uint32_t'), 'u64': (8, 'uint64_t'), 'usize': (8, 'size_t'),
}
# What stands before a struct that C is told of, what before an exported function, and the further attributes of either.
OTHERS = r'\s*(?:#\[[^\]]*\]\s*)*'
FOR_C = r'#\[repr\(C\)\]' + OTHERS
EXPORTED = '#[unsafe(no_mangle)]'
WIDTH = 120


def main():
    library = Library.read()
    if sys.argv[1:] == ['--symbol']:
        print(library.symbol)
    elif sys.argv[1:] == ['--check']:
        sys.exit(check(library))
    elif not sys.argv[1:]:
        for path, text in files(library):
            path.write_text(text)
    else:
        sys.exit('usage: tools/declarations.py [--check | --symbol]')


def files(library):
    return [(RUST, rust_file(library)), (C, c_file(library))]


def check(library):
    status = 0
    for path, text in files(library):
        if not path.exists() or path.read_text() != text:
            print(f'{path.relative_to(ROOT)} is not what tools/declarations.py writes: run it', file=sys.stderr)
            status = 1
    described = DESCRIBED.read_text()
    for function in library.functions:
        if function.map and f' {of_map(function)}(' not in described:
            print(f'{DESCRIBED.relative_to(ROOT)} does not describe {of_map(function)}', file=sys.stderr)
            status = 1
        if function.name not in OF_NO_CALL and function.promised != short(function):
            print(f'{function.name} does not promise the call {short(function)}', file=sys.stderr)
            status = 1
    return status


# ---- what the sources say


# A number, or `length` numbers side by side.
@dataclass(frozen=True)
class Type:
    number: str
    length: int = 0

    def __str__(self):
        return f'[{self.number}; {self.length}]' if self.length else self.number

    @property
    def align(self):
        return NUMBERS[self.number][0]

    @property
    def bytes(self):
        return self.align * (self.length or 1)


# A field of the record; of counts, `parts` has the names of the numbers that lie side by side there.
@dataclass
class Field:
    name: str
    type: Type
    comments: list
    parts: list = field(default_factory=list)
    at: int = 0

    @property
    def known_as(self):
        return KNOWN_AS.get(self.name, self.name)

    # Rust knows each count by a name of its own, C all of them as an array of the field's name
    def in_rust(self):
        return [f'{self.known_as}_{part}: {self.type.number}' for part in self.parts] or [f'{self.known_as}: {self.type}']

    def in_c(self):
        return self.name if self.parts else self.known_as


# How a parameter passes: `number`, `record` (by value), `map` (a reference to the record), `lent` (one to an array) or `slice`.
@dataclass
class Parameter:
    name: str
    kind: str
    type: Type = None
    mutable: bool = False

    def __str__(self):
        if self.kind == 'record':
            return f'{self.name}: {RECORD}'
        passed = RECORD if self.kind == 'map' else f'[{self.type}]' if self.kind == 'slice' else str(self.type)
        access = '' if self.kind == 'number' else '&mut ' if self.mutable else '&'
        return f'{self.name}: {access}{passed}'


# `promised` is the call of the steps that its promise names, if it names one.
@dataclass
class Function:
    name: str
    parameters: list
    gives: str
    promised: str

    def __str__(self):
        return f'fn {self.name}({", ".join(map(str, self.parameters))})' + (f' -> {self.gives}' if self.gives else '')

    # The map that it is lent, if it is lent one, and its other parameters, which come after.
    @property
    def map(self):
        return self.parameters[0] if self.parameters and self.parameters[0].kind == 'map' else None

    @property
    def rest(self):
        return self.parameters[1:] if self.map else self.parameters

    # Every map was made or checked by a function that takes any record, so these refer to the symbol.
    @property
    def takes_any(self):
        return bool(self.map) and self.name in ANY_RECORD


# The functions that take whatever a record holds.
ANY_RECORD = ('om_new', 'om_read_image', 'om_well_linked')
# The functions that promise no one call: of the limits, of a call's number, of a list of calls, of bytes, of any record.
OF_NO_CALL = ('om_new', 'om_call', 'om_turn', 'replay', 'om_write_image', 'om_read_image', 'om_well_linked')


@dataclass
class Library:
    fields: list
    functions: list

    @staticmethod
    def read():
        sources = Sources.read()
        library = Library(sources.record(), sorted(sources.functions(), key=lambda function: function.name))
        lay_out(library.fields)
        return library

    @property
    def bytes(self):
        last = self.fields[-1]
        return aligned(last.at + last.type.bytes, max(f.type.align for f in self.fields))

    @property
    def symbol(self):
        text = [words for f in self.fields for words in f.in_rust()] + [str(f) for f in self.functions]
        return 'prelgammo_layout_' + hashlib.sha256('\n'.join(text).encode()).hexdigest()[:16]


class Sources:
    def __init__(self, text):
        self.text = text
        self.code = re.sub(r'//[^\n]*', '', text)
        # a struct of one number has the number's memory
        named = re.findall(FOR_C + r'pub struct (\w+)\((?:pub )?(\w+)\);', self.code)
        named += re.findall(r'pub type (\w+) = (\[\w+; \d+\]);', self.code)
        self.types = dict(named)
        if len(self.types) != len(set(named)):
            sys.exit('two crates have types of one name')

    @staticmethod
    def read():
        crates = re.findall(r'^(\w+)[^:\n]*:', (ROOT / 'crates.txt').read_text(), re.M)
        paths = [path for crate in crates for path in sorted((ROOT / 'crates' / crate / 'src').rglob('*.rt'))]
        return Sources('\n'.join(path.read_text() for path in paths))

    def type(self, words):
        array = re.fullmatch(r'\[(\w+); (\d+)\]', words)
        if array:
            return Type(self.type(array[1]).number, int(array[2]))
        if words in NUMBERS:
            return Type(words)
        if words in self.types:
            return self.type(self.types[words])
        sys.exit(f'{words}: no type that Rust and C are told of')

    def record(self):
        found = re.search(FOR_C + rf'pub struct {RECORD} \{{\n(.*?)\n\}}', self.text, re.S)
        if not found:
            sys.exit(f'there is no #[repr(C)] struct {RECORD}')
        fields, comments = [], []
        for line in map(str.strip, found[1].split('\n')):
            if line.startswith('// '):
                comments.append(line[3:])
            else:
                name, words = re.fullmatch(r'pub (\w+): (.*),', line).groups()
                fields.append(self.field(name, words, comments))
                comments = []
        return fields

    def field(self, name, words, comments):
        if words != COUNTS:
            return Field(name, self.type(words), comments)
        found = re.search(FOR_C + rf'pub struct {COUNTS} \{{\n(.*?)\n\}}', self.code, re.S)
        parts = re.findall(r'pub (\w+): (\w+),', found[1])
        numbers = {self.type(type) for _, type in parts}
        if len(numbers) != 1:
            sys.exit(f'{COUNTS} are not numbers of one type')
        return Field(name, Type(numbers.pop().number, len(parts)), comments, [part for part, _ in parts])

    def functions(self):
        form = r'pub extern "C" fn (\w+)\((.*?)\)(?: -> (\w+))?\s*\n(.*?)\n?\{\n'
        found = re.findall(re.escape(EXPORTED) + OTHERS + form, self.code, re.S)
        if len(found) != self.code.count(EXPORTED):
            sys.exit(f'a function marked {EXPORTED} has another form than those that are known')
        return [Function(name, self.parameters(words), self.given(gives), self.promised(clauses))
                for name, words, gives, clauses in found]

    # The call that a promise names, which is one of the map before and after, or of the map that it reads, with the answer's four numbers.
    def promised(self, clauses):
        calls = re.findall(r'ensures \{ (?:Calls|Reads)Told (?:\(C\.(\w+)[^)]*\)|C\.(\w+)) ', clauses)
        return ''.join(calls[0]) if len(calls) == 1 else ''

    def given(self, words):
        return words if words in ('', RECORD) else str(self.type(words))

    def parameters(self, words):
        split = re.findall(r"(\w+): ((?:&(?:'\w+ )?(?:mut )?)?)(\[\w+(?:; \d+)?\]|\w+)", words)
        if len(split) != words.count(':'):
            sys.exit(f'({words}): parameters of another form than those that are known')
        return [self.parameter(name, access, passed) for name, access, passed in split]

    def parameter(self, name, access, passed):
        if passed == RECORD:
            return Parameter(name, 'map' if access else 'record', None, 'mut' in access)
        element = re.fullmatch(r'\[(\w+)\]', passed)
        kind = 'slice' if element else 'lent' if access else 'number'
        return Parameter(name, kind, self.type(element[1] if element else passed), 'mut' in access)


# Gives each field its place, by the rules of C.
def lay_out(fields):
    at = 0
    for each in fields:
        each.at = aligned(at, each.type.align)
        at = each.at + each.type.bytes


def aligned(at, to):
    return (at + to - 1) // to * to


# ---- Rust


def rust_file(library):
    return '\n'.join([RUST_HEAD, rust_record(library), rust_functions(library)])


RUST_HEAD = '''\
// Made by tools/declarations.py from crates/*/src, and not to be edited: the record of libprelgammo.a and its functions. A
// slice is a pointer and a length.
#![allow(clippy::too_many_arguments, dead_code, unsafe_code)]

use core::ptr::addr_of;
'''


def rust_record(library):
    lines = []
    for each in library.fields:
        lines += [f'    // {comment}' for comment in each.comments] + [f'    pub {words},' for words in each.in_rust()]
    return '\n'.join([f'''\
/// The map as C sees it: one record of arrays, {library.bytes:,} bytes. The file `crates/multimap/src/lib.rt` says what each field
/// has.
#[allow(missing_docs)]
#[repr(C)]
#[derive(Clone, Copy, PartialEq)]
pub struct Record {{''', *lines, f'''\
}}

const _: () = assert!(core::mem::size_of::<Record>() == {library.bytes:_});

extern "C" {{
    // Defined by an archive of this layout and these signatures alone.
    static {library.symbol}: u8;
}}

// Has the program refer to the layout's symbol.
fn same_layout() {{
    unsafe {{ addr_of!({library.symbol}).read_volatile() }};
}}
'''])


def rust_type(parameter):
    if parameter.kind == 'record':
        return 'Record'
    if parameter.kind == 'map':
        return '*mut Record' if parameter.mutable else '*const Record'
    access = '' if parameter.kind == 'number' else '*mut ' if parameter.mutable else '*const '
    return f'{access}{parameter.type}'


# The parameters as Rust declares them: a slice is a pointer and a length.
def rust_parameters(parameters):
    for parameter in parameters:
        yield f'{parameter.name}: {rust_type(parameter)}'
        if parameter.kind == 'slice':
            yield f'{parameter.name}_len: usize'


def rust_arguments(parameters):
    return [words.split(':')[0] for words in rust_parameters(parameters)]


def short(function):
    return function.name.removeprefix('om_')


# The functions by their names without `om_`; those that take any record have the program refer to the symbol.
def rust_functions(library):
    declared = '\n'.join(rust_declaration(function) for function in library.functions)
    checked = '\n\n'.join(rust_checked(function) for function in library.functions if function.takes_any)
    return f'extern "C" {{\n{declared}\n}}\n\n{checked}\n'


def rust_declaration(function):
    parameters, gives, before = list(rust_parameters(function.parameters)), function.gives, ''
    if gives == RECORD:
        parameters, gives = ['given: *mut Record'] + parameters, ''
        before = '    // Gives a record back, for which the caller passes a pointer first (System V, amd64).\n'
    name = f'pub fn {short(function)}' if function.map else f'pub fn {function.name}'
    if function.takes_any:
        name = f'fn {function.name}'
    elif function.map:
        before += f'    #[link_name = "{function.name}"]\n'
    return before + rust_call(f'    {name}', parameters, f' -> {gives};' if gives else ';')


def rust_checked(function):
    head = rust_call(f'pub unsafe fn {short(function)}', list(rust_parameters(function.parameters)),
                     f' -> {function.gives} {{' if function.gives else ' {')
    return '\n'.join([head, '    same_layout();', rust_call(f'    {function.name}', rust_arguments(function.parameters), ''), '}'])


# A head with a list in parentheses as rustfmt lays it out: on one line, or each on its own.
def rust_call(head, items, tail):
    line = f'{head}({", ".join(items)}){tail}'
    if len(line) <= WIDTH:
        return line
    indent = re.match(' *', head)[0]
    return '\n'.join([f'{head}(', *(f'{indent}    {item},' for item in items), f'{indent}){tail}'])


# ---- C


def c_file(library):
    return '\n'.join([C_HEAD, c_record(library), c_declarations(library), c_of_map(library)])


C_HEAD = '''\
/* Made by tools/declarations.py from the crates' sources, and not to be edited. A part of prelgammo.h, which includes it:
 * the fields of a map, the functions of libprelgammo.a, and the bodies of those that prelgammo.h describes. */
#ifndef PRELGAMMO_H
#error "include prelgammo.h, of which this file is a part"
#endif
'''


def c_number(type):
    return NUMBERS[type.number][1]


def c_field(each):
    return f'{c_number(each.type)} {each.in_c()}' + (f'[{each.type.length}]' if each.type.length else '')


def c_record(library):
    lines = []
    for each in library.fields:
        comment = '\n     * '.join(each.comments)
        lines += [f'    /* {comment} */'] * bool(comment) + [f'    {c_field(each)};']
    places = [f'static_assert(offsetof(om_map, {f.in_c()}) == {f.at}, "{f.in_c()}");' for f in library.fields]
    return '\n'.join(['struct om_map {', *lines, f'''\
}};

static_assert(sizeof(om_map) == {library.bytes}, "size of the map");''', *places, f'''
/* Defined by an archive of this layout and these signatures alone: another one does not link. */
extern const unsigned char {library.symbol};

static inline void om_same_layout(void) {{
    (void)*(const volatile unsigned char *)&{library.symbol};
}}
'''])


# The parameters as C declares them: a slice is a pointer and a length.
def c_parameters(parameters):
    for p in parameters:
        const = '' if p.mutable or p.kind in ('number', 'record') else 'const '
        if p.kind == 'record':
            yield f'om_map {p.name}'
        elif p.kind == 'map':
            yield f'{const}om_map *{p.name}'
        elif p.kind == 'number':
            yield f'{c_number(p.type)} {p.name}'
        elif p.kind == 'lent' and p.type.length:
            yield f'{const}{c_number(p.type)} {p.name}[{p.type.length}]'
        else:
            yield f'{const}{c_number(p.type)} *{p.name}'
        if p.kind == 'slice':
            yield f'size_t {p.name}_len'


def c_arguments(parameters):
    return [re.search(r'(\w+)(?:\[\d+\])?$', words)[1] for words in c_parameters(parameters)]


def c_gives(function):
    return 'om_map' if function.gives == RECORD else c_number(Type(function.gives)) if function.gives else 'void'


def c_declarations(library):
    lines = [c_call(f'{c_gives(f)} {f.name}(', list(c_parameters(f.parameters)), ');') for f in library.functions]
    return '\n'.join(['/* The functions of the library. */', *lines, ''])


def c_of_map(library):
    return '\n\n'.join(c_body(function) for function in library.functions if function.map) + '\n'


def of_map(function):
    return f'om_map_{short(function)}'


# The function of a map: it gives back the answer where the library's function writes one.
def c_body(function):
    says = bool(function.rest) and function.rest[-1].name == 'answer'
    shown = function.rest[:-1] if says else function.rest
    arguments = ['m'] + c_arguments(shown) + (['said.answer'] if says else [])
    taken = 'om_map *m' if function.map.mutable else 'const om_map *m'
    gives = 'om_said' if says else c_gives(function)
    call = f'    return {function.name}(' if function.gives and not says else f'    {function.name}('
    lines = [c_call(f'static inline {gives} {of_map(function)}(', [taken] + list(c_parameters(shown)), ') {')]
    lines += ['    om_said said;'] if says else []
    lines += ['    om_same_layout();'] if function.takes_any else []
    lines += [c_call(call, arguments, ');')]
    lines += ['    return said;'] if says else []
    return '\n'.join(lines + ['}'])


# A head with a list, its further lines below the first item.
def c_call(head, items, tail):
    lines, line = [], head
    for at, item in enumerate(items):
        item += tail if at + 1 == len(items) else ','
        if len(line) + len(item) + 1 > WIDTH:
            lines, line = lines + [line], ' ' * len(head)
        line += item if line in (head, ' ' * len(head)) else f' {item}'
    return '\n'.join(lines + [line])


main()
