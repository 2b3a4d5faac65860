#!/usr/bin/env python3
"""Makes and reads table files in cFE's form, for CFE_TBL_Load and fsw_stage_table. Python alone is needed.

    table_file.py make FILE NAME FROM       a file for the table NAME, as APP.TABLE, with the bytes of FROM (-: standard input)
    table_file.py make FILE NAME --as FORMAT VALUE ..
                                            its bytes are these values by Python's struct: HHI is two uint16 and a uint32, placed
                                            as C on this machine places them (< or > before: without gaps, lowest or highest first);
                                            0I at the end fills up to a multiple of 4, as C fills a struct
    table_file.py object T.o [FILE]         a file of a table's source (CFE_TBL_FILEDEF), compiled by `gcc -c`
    table_file.py show FILE                 what the headers say
    table_file.py bytes FILE                the table's bytes, to the standard output

The status is 1 where a file is none, and one line on the standard error output says why.
"""
import argparse
import struct
import sys
from pathlib import Path

# cFE's file header, the table's header; all numbers have four bytes, the highest first.
HEADERS = struct.Struct('>4s7I32s3I40s')
CONTENT, SUBTYPE, HEADER_BYTES = b'cFE1', 8, 64
MOST_NAME, MOST_TEXT, MOST_TABLE = 39, 31, 65536
MOST_OBJECT = 16 * 1024 * 1024
# Of an object file: the kinds of sections that have its symbols, and zeros; a symbol; CFE_TBL_FileDef_t of cfe_tbl_filedef.h.
SYMBOLS, ZEROS = 2, 8
SYMBOL = struct.Struct('<IBBHQQ')
FILE_DEF = struct.Struct('<64s40s32s20sI')
NAMES = ('content', 'subtype', 'length', 'spacecraft', 'processor', 'application', 'seconds', 'subseconds', 'description',
         'reserved', 'offset', 'bytes', 'table')


def shown(text):
    """The text in one line."""
    return ''.join(letter if letter.isprintable() else '?' for letter in str(text))


def refuse(text):
    sys.exit(shown(f'table_file: {text}'))


def content_of(path, most):
    """The bytes of a regular file, if it has no more than this."""
    if not Path(path).is_file():
        refuse(f'{path}: no regular file')
    with open(path, 'rb') as file:
        data = file.read(most + 1)
    if len(data) > most:
        refuse(f'{path}: over {most} bytes')
    return data


def made(name, table, text='', offset=0, spacecraft=0, processor=0, seconds=0):
    """The file of a table, or a refusal."""
    name, text = name.encode('ascii'), text.encode()
    if not 1 <= len(name) <= MOST_NAME or not all(33 <= byte <= 126 for byte in name):
        refuse(f'a name has 1 to {MOST_NAME} visible characters')
    if len(text) > MOST_TEXT:
        refuse(f'a description has at most {MOST_TEXT} bytes')
    if not 1 <= len(table) <= MOST_TABLE:
        refuse(f'a table has 1 to {MOST_TABLE} bytes, not {len(table)}')
    return HEADERS.pack(CONTENT, SUBTYPE, HEADER_BYTES, spacecraft, processor, 0, seconds, 0, text, 0, offset, len(table),
                        name) + table


def packed(form, values):
    """The values, each a number or a text as its letter of the form asks; a byte string takes its text."""
    letters = struct.Struct(form).unpack(bytes(struct.calcsize(form)))
    if len(letters) != len(values):
        refuse(f'{form} asks for {len(letters)} values, not {len(values)}')
    kinds = {bytes: str.encode, float: float, bool: lambda text: text not in ('0', 'false')}
    return struct.pack(form, *(kinds.get(type(kind), lambda text: int(text, 0))(text)
                               for kind, text in zip(letters, values)))


def variable(data, name):
    """The bytes of a variable of an object file that isn't linked (ELF of 64 bits, the lowest byte first)."""
    if data[:6] != b'\x7fELF\x02\x01' or data[16:18] != b'\x01\0':
        refuse('no object file of 64 bits, as `gcc -c` makes it')
    first, = struct.unpack_from('<Q', data, 0x28)
    size, count = struct.unpack_from('<HH', data, 0x3A)
    # A section: its name, kind, flags, address, place in the file, bytes, and the section that it refers to.
    sections = [struct.unpack_from('<IIQQQQI', data, first + i * size) for i in range(count)]
    for _, _, _, _, at, length, names in (it for it in sections if it[1] == SYMBOLS):
        for symbol in range(at, at + length, SYMBOL.size):
            text, _, _, home, offset, length_of_it = SYMBOL.unpack_from(data, symbol)
            start = sections[names][4] + text
            if data[start:data.index(b'\0', start)] != name or not 0 < home < count:
                continue
            if length_of_it > MOST_TABLE:
                refuse(f'{name.decode()} has over {MOST_TABLE} bytes')
            if sections[home][1] == ZEROS:
                return bytes(length_of_it)
            return data[sections[home][4] + offset:][:length_of_it]
    refuse(f'the object has no {name.decode()}')


def of_object(path):
    """What a table's source says of it: its name, bytes, description, and the name of its file."""
    data = content_of(path, MOST_OBJECT)
    *texts, size = FILE_DEF.unpack(variable(data, b'CFE_TBL_FileDef'))
    variable_name, name, text, file = (it.split(b'\0')[0] for it in texts)
    table = variable(data, variable_name)
    if len(table) != size:
        refuse(f'{variable_name.decode()} has {len(table)} bytes, not {size}')
    return name.decode(), table, text.decode(), file.decode()


def parts_of(path):
    """The headers' fields by name, and the table's bytes; the refusals are fsw_read_image's, in its order."""
    data = content_of(path, HEADERS.size + MOST_TABLE)
    if len(data) < HEADERS.size:
        refuse(f'{path}: shorter than its headers')
    fields, table = dict(zip(NAMES, HEADERS.unpack_from(data))), data[HEADERS.size:]
    if fields['content'] != CONTENT:
        refuse(f'{path}: no file of cFE')
    name, _, rest = fields['table'].partition(b'\0')
    if not name or len(name) > MOST_NAME or not all(33 <= byte <= 126 for byte in name):
        refuse(f"{path}: no table's name")
    if fields['bytes'] != len(table) or not table:
        refuse(f"{path}: {len(table)} bytes, where the header says {fields['bytes']}")
    for key in ('content', 'table', 'description'):
        fields[key] = fields[key].split(b'\0')[0].decode('latin-1')
    return fields, table


def main():
    words = argparse.ArgumentParser(description=__doc__, formatter_class=argparse.RawDescriptionHelpFormatter)
    ways = words.add_subparsers(dest='way', required=True)
    make = ways.add_parser('make')
    make.add_argument('file')
    make.add_argument('name')
    make.add_argument('source', nargs='?', metavar='FROM')
    make.add_argument('--as', dest='values', nargs='+', metavar=('FORMAT', 'VALUE'))
    make.add_argument('--offset', type=int, default=0, help='where in the table the bytes go')
    make.add_argument('--description', default='')
    for name in ('spacecraft', 'processor', 'seconds'):
        make.add_argument('--' + name, type=int, default=0)
    for way in ('show', 'bytes'):
        ways.add_parser(way).add_argument('file')
    compiled = ways.add_parser('object')
    compiled.add_argument('object')
    compiled.add_argument('file', nargs='?')
    given = words.parse_args()
    if given.way == 'make':
        if (given.source is None) == (given.values is None):
            refuse('the bytes come from a file, or from --as')
        table = packed(given.values[0], given.values[1:]) if given.values else (
            sys.stdin.buffer.read(MOST_TABLE + 1) if given.source == '-' else content_of(given.source, MOST_TABLE))
        Path(given.file).write_bytes(made(given.name, table, given.description, given.offset, given.spacecraft, given.processor,
                                          given.seconds))
        return
    if given.way == 'object':
        name, table, text, file = of_object(given.object)
        Path(given.file or file).write_bytes(made(name, table, text))
        return
    fields, table = parts_of(given.file)
    if given.way == 'bytes':
        sys.stdout.buffer.write(table)
    else:
        for key, value in fields.items():
            print(f'{key:12} {shown(value)}')


try:
    main()
except (OSError, struct.error, ValueError, LookupError) as error:
    refuse(error)
