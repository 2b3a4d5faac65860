#!/usr/bin/env python3
"""Spoils table files and an object file, and has table_file.py read them: each bad file is answered with one line.

    table_file_test.py OBJECT [COUNT]      OBJECT is of a table's source; COUNT files of each kind are spoiled (300)
"""
import contextlib
import io
import os
import random
import sys
import tempfile
from pathlib import Path

SCRIPT = Path(__file__).resolve().parent.parent / 'table_file.py'
CODE = compile(SCRIPT.read_text(encoding='utf-8'), SCRIPT.name, 'exec')


def answer(*words):
    """What it exits with; None where it goes well."""
    sys.argv = [SCRIPT.name, *map(str, words)]
    out = io.TextIOWrapper(io.BytesIO(), encoding='utf-8')
    try:
        with contextlib.redirect_stdout(out):
            exec(CODE, {'__name__': '__main__', '__doc__': ''})
    except SystemExit as end:
        return end.code
    out.flush()
    for line in out.buffer.getvalue().decode().split('\n') if words[0] == 'show' else ():
        assert line.isprintable(), (words, line)
    return None


def is_one_line(said):
    return isinstance(said, str) and said.startswith('table_file: ') and said.isprintable()


def spoiled(draw, data):
    """The bytes with some overwritten, and cut or longer."""
    data = bytearray(data)
    for _ in range(draw.randrange(1, 6)):
        at = draw.randrange(len(data))
        data[at:at + draw.choice((1, 2, 4, 8))] = draw.choice((b'\0', b'\xff', b'\n', b'\x7f' * 8, b'\xff' * 8, draw.randbytes(4)))
    if draw.randrange(3) == 0:
        del data[draw.randrange(len(data)):]
    return bytes(data)


def main():
    count = int(sys.argv[2]) if len(sys.argv) > 2 else 300
    draw = random.Random(7)
    original = Path(sys.argv[1]).read_bytes()
    with tempfile.TemporaryDirectory() as folder:
        path, table = Path(folder) / 'spoiled', Path(folder) / 'good.tbl'
        assert answer('object', sys.argv[1], table) is None
        assert answer('show', table) is None and answer('bytes', table) is None
        refused = 0
        for way, good in (('show', table.read_bytes()), ('bytes', table.read_bytes()), ('object', original)):
            for _ in range(count):
                path.write_bytes(spoiled(draw, good))
                said = answer(way, path, *([Path(folder) / 'out'] if way == 'object' else []))
                assert said is None or is_one_line(said), (way, said)
                refused += said is not None
        os.mkfifo(Path(folder) / 'pipe')
        path.write_bytes(bytes(200000))
        for name in ('pipe', '.', 'none', 'new\nline', 'spoiled'):
            for way in ('show', 'bytes', 'object'):
                assert is_one_line(answer(way, Path(folder) / name)), (way, name)
            assert is_one_line(answer('make', Path(folder) / 'out', 'A.B', Path(folder) / name)), name
    print(f'table_file_test passed: {refused} files refused')


main()
