"""Compares what fsw.h declares with what the library exports: names, and order and types of parameters and of the fields of
structs.

    exports.py --rattle           prints what the header asks of the Rattle sources
    exports.py SOURCE ..          compares the header with `extern "C"` functions, structs and status numbers of Rattle sources
    exports.py --library FILE     compares the names with those that `nm` finds defined in a library or an object
    exports.py --texts FILE       asks a shared object with all exports for its version and for the text of each status
"""
import ctypes
import re
import subprocess
import sys
from pathlib import Path

HEADER = Path(__file__).resolve().parent.parent / 'include' / 'fsw.h'
NUMBERS = {'uint8_t': 'u8', 'uint16_t': 'u16', 'uint32_t': 'u32', 'uint64_t': 'u64', 'size_t': 'usize', 'bool': 'bool'}
# What a handle or a buffer points to stands in a struct of its own, which owns it.
OWNED = {'FswCore': ['held: HeldCore', 'is_open: u64'], 'FswBuffer': ['lent: LentBlock', 'number: u64', 'is_out: u64']}
# A struct of one number comes back as the number does, by the ABI of x86-64 and of AArch64.
RETURNED = {'FswOpened': 'u32'}

# What the header's inline functions alone answer: a null pointer for a call of the tables, another version.
INLINE = {'0xcc00002d', '0xc000000b'}
# What the library has in plain C.
PLAIN = {'fsw_library_version', 'fsw_status_text'}


def camel(name):
    return ''.join(word.capitalize() for word in name.split('_'))


def rattle_type(words):
    """The Rattle type of a C type, as in `const struct fsw_limits *`."""
    base = words.replace('const ', '').replace('struct ', '').replace('*', '').strip()
    base = NUMBERS.get(base) or camel(base)
    if '*' not in words:
        return base
    return ('&' if words.startswith('const ') else '&mut ') + base


def parameters(text):
    """The parameters of a declaration, each a name and a type: a pointer and its length are one slice."""
    found = []
    for each in (part.strip() for part in text.split(',')):
        words, name = re.fullmatch(r'(.*?)(\w+)', each).groups()
        if words.strip() == 'size_t' and found and name == found[-1][0] + '_len':
            reference, of = re.fullmatch(r'(&mut |&)(.*)', found[-1][1]).groups()
            found[-1] = (found[-1][0], f'{reference}[{of}]')
        else:
            found.append((name, rattle_type(words.strip())))
    return found


def declared():
    """The functions and structs of the header, as Rattle has them."""
    text = re.sub(r'/\*.*?\*/', '', HEADER.read_text(encoding='utf-8'), flags=re.S)
    functions = {}
    for kind, name, inside in re.findall(r'^(\w+) (fsw_raw_\w+)\(([^)]*)\);', text, re.M):
        told = ', '.join(f'{each}: {of}' for each, of in parameters(' '.join(inside.split())))
        functions[name] = f'({told}) -> {NUMBERS[kind]}'
    structs = {}
    for name, inside in re.findall(r'^struct (\w+) \{\n(.*?)^\};', text, re.M | re.S):
        fields = []
        for line in inside.split(';'):
            if not line.strip():
                continue
            words, names = re.fullmatch(r'((?:const )?(?:struct )?\w+\s+\*?)(.*)', line.strip(), re.S).groups()
            of = rattle_type(words.strip()).replace('&mut ', '*mut ').replace('&', '*const ')
            fields += [f'{each.strip()}: {of}' for each in names.split(',')]
        structs[camel(name)] = OWNED.get(camel(name), fields)
    return functions, structs


def print_rattle(functions, structs):
    for name, fields in structs.items():
        print(f'#[repr(C)]\npub struct {name} {{')
        print('\n'.join(f'    pub {field},' for field in fields) + '\n}\n')
    for name, rest in functions.items():
        print(f'#[unsafe(no_mangle)]\npub extern "C" fn {name}{rest}')


def exported(paths):
    """The functions and structs of Rattle sources; a `Global` is no parameter to C."""
    text = '\n'.join(Path(path).read_text(encoding='utf-8') for path in paths)
    text = re.sub(r'//.*', '', text)
    functions = {}
    for name, inside, kind in re.findall(r'pub extern "C" fn (\w+)\((.*?)\) -> (\w+)', text, re.S):
        each = [part.strip() for part in inside.split(',') if part.strip() and 'Global' not in part]
        functions[name] = f'({", ".join(each)}) -> {RETURNED.get(kind, kind)}'
    structs = {}
    for name, inside in re.findall(r'#\[repr\(C\)\][^{]*?pub struct (\w+) \{(.*?)\n\}', text, re.S):
        fields = re.findall(r'^\s*(?:pub(?:\(crate\))? )?(?!ghost)(\w+: [^,]+),', inside, re.M)
        structs[name] = [field for field in fields if 'Global' not in field and 'ghost' not in field]
    return functions, structs


def compare(wanted, given):
    """Prints what differs; answers whether nothing does."""
    differs = [f'missing: {name}{wanted[name]}' for name in wanted if name not in given]
    differs += [f'not in the header: {name}' for name in given if name not in wanted]
    differs += [f'{name}: the header has {wanted[name]}, the library {given[name]}'
                for name in wanted if name in given and wanted[name] != given[name]]
    print('\n'.join(differs), end='\n' if differs else '')
    return not differs


def numbers(text):
    """The statuses in a text: numbers of 32 bits in hexadecimal digits, which cFE's forms begin with 4 or c."""
    return {number.lower().replace('_', '') for number in re.findall(r'\b0x[4cC][0-9a-fA-F]{3}_?[0-9a-fA-F]{4}', text)}


def same_numbers(paths):
    wanted = numbers(HEADER.read_text(encoding='utf-8')) - INLINE
    given = set().union(*(numbers(re.sub(r'//.*', '', Path(path).read_text(encoding='utf-8'))) for path in paths))
    for number in sorted(wanted ^ given):
        print(f'status {number}: only in the {"header" if number in wanted else "library"}')
    return wanted == given


def statuses():
    """The name and the number of each status of the header."""
    text = HEADER.read_text(encoding='utf-8')
    found = [(name, int(number, 16)) for name, number in
             re.findall(r'^#define (FSW_\w+)\s+(?:\\\n\s*)?(0x[0-9a-f]{8}|0)u(?= |$)', text, re.M)]
    first = int(re.search(r'FSW_RULE_FAILED\(rule\) \\\n\s*\((0x[0-9a-f]+)u \+', text)[1], 16)
    return found + [(f'FSW_RULE_FAILED({rule})', first + rule) for rule in range(1, 9)]


def same_texts(path):
    """Whether each status has its name as its text, no other number has one, and the versions are the same."""
    library = ctypes.CDLL(path)
    library.fsw_status_text.restype = ctypes.c_char_p
    named = statuses()
    others = {number for _, each in named for number in (each ^ 0x20000000, each + 0x1000, each ^ 0x80000000)}
    others -= {number for _, number in named}
    wanted = named + [('no status of fsw.h', number & 0xffffffff) for number in others]
    wrong = [(name, number) for name, number in wanted if library.fsw_status_text(ctypes.c_uint32(number)) != name.encode()]
    for name, number in wrong:
        print(f'status 0x{number:08x}: its text is not {name}')
    version = int(re.search(r'^#define FSW_VERSION (\d+)u$', HEADER.read_text(encoding='utf-8'), re.M)[1])
    given = ctypes.c_uint32(library.fsw_library_version()).value
    if given != version:
        print(f'the header is of version {version}, the library of {given}')
    return len(named) > 60 and len({number for _, number in named}) == len(named) and not wrong and given == version


def main():
    functions, structs = declared()
    if sys.argv[1:2] == ['--texts']:
        return 0 if same_texts(sys.argv[2]) else 1
    if sys.argv[1:2] == ['--rattle']:
        print_rattle(functions, structs)
        return 0
    if sys.argv[1:2] == ['--library']:
        told = subprocess.run(['nm', '-g', '--defined-only', sys.argv[2]], capture_output=True, text=True, check=True)
        # Names that begin with two underscores are the tool chain's.
        names = {name: '' for name in re.findall(r' T (\w+)$', told.stdout, re.M) if not name.startswith('__')}
        return 0 if compare({name: '' for name in [*functions, *PLAIN]}, names) else 1
    given, its = exported(sys.argv[1:])
    good = compare(functions, given)
    good = same_numbers(sys.argv[1:]) and good
    return 0 if compare(structs, {name: its[name] for name in its if name in structs}) and good else 1


sys.exit(main())
