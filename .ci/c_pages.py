#!/usr/bin/env python3
"""Builds the programs of docs/C.md and docs/CFE.md as a user does, against what `make install` left in FOLDER, and runs them: by
pkg-config and, if it is installed, by CMake, as a project outside of the repository. So also the folder to copy, with its test.

    c_pages.py FOLDER [COMPILER RUN ..]

PKG_CONFIG_PATH leads to its pkg-config files. For another processor COMPILER compiles, and RUN .. runs what it made.
"""
import re
import shutil
import subprocess
import sys
from pathlib import Path

TOP = Path(__file__).resolve().parent.parent
COMPILER, RUN = (sys.argv[2:3] or ['gcc'])[0], sys.argv[3:]
# What CMake is told of another processor.
CROSS = [f'-DCMAKE_C_COMPILER={COMPILER}', '-DCMAKE_SYSTEM_NAME=Linux', f'-DCMAKE_CROSSCOMPILING_EMULATOR={";".join(RUN)}']
# A project outside of the repository; VERSION is filled in.
PROJECT = """cmake_minimum_required(VERSION 3.16)
project(outside C)
find_package(fsw VERSION REQUIRED)
add_compile_options(-Wall -Wextra -Werror)
add_executable(first first.c)
target_link_libraries(first fsw::fsw)
add_executable(over_arena first.c ${fsw_SHARE}/arena.c)
target_link_libraries(over_arena fsw::core)
add_executable(my_app my_app.c)
target_link_libraries(my_app fsw::osal)
"""
# Applications for the page's main: they end at once.
APPLICATIONS = '#include "cfe.h"\n' + ''.join(
    f'void {name}_Main(void);\nvoid {name}_Main(void)\n{{\n    CFE_ES_ExitApp(CFE_ES_RunStatus_APP_EXIT);\n}}\n'
    for name in ('SENSOR', 'DISPLAY'))


def programs(page):
    path = TOP / 'docs' / page
    return re.findall(r'^```c\n(.*?)^```', path.read_text(encoding='utf-8'), re.M | re.S) if path.exists() else []


def package(name):
    told = subprocess.run(['pkg-config', '--cflags', '--libs', '--static', name], capture_output=True, text=True, check=True)
    return told.stdout.split()


def run(*words, **more):
    """What a command prints; it ends with status 0."""
    return subprocess.run(words, capture_output=True, text=True, check=True, timeout=300, **more).stdout


def built(folder, name, sources, words):
    """Compiles the sources without a warning, and gives what the program prints."""
    names = []
    for number, text in enumerate(sources):
        names.append(folder / f'{name}{number}.c')
        names[-1].write_text(text, encoding='utf-8')
    subprocess.run([COMPILER, '-Wall', '-Wextra', '-Werror', *names, *words, '-o', folder / name], check=True)
    return subprocess.run([*RUN, folder / name], capture_output=True, text=True, check=True, timeout=60).stdout


def refuses_another_version(folder, first):
    """Whether a program says so that was compiled with the header of another version."""
    header = (folder / 'include' / 'fsw' / 'fsw.h').read_text(encoding='utf-8')
    (folder / 'other').mkdir()
    (folder / 'other' / 'fsw.h').write_text(header.replace('define FSW_VERSION ', 'define FSW_VERSION 9'), encoding='utf-8')
    (folder / 'other.c').write_text(first, encoding='utf-8')
    run(COMPILER, '-I', folder / 'other', folder / 'other.c', *package('fsw'), '-o', folder / 'other_version')
    told = subprocess.run([*RUN, folder / 'other_version'], capture_output=True, text=True, check=False)
    return (told.returncode, told.stdout) == (1, 'refused: FSW_OTHER_VERSION\n')


def copies_template(folder):
    """The folder to copy, by make."""
    shutil.copytree(folder / 'share' / 'fsw' / 'template', folder / 'copied')
    run('make', '-C', folder / 'copied', f'CC={COMPILER}', 'CFLAGS=-O2 -Wall -Wextra -Werror', 'all')
    if 'hello_test: passed\n' not in run(*RUN, './hello_test', cwd=folder / 'copied'):
        sys.exit("c_pages: the template's test fails")


def configured(source, build, folder):
    """Whether CMake finds the library for this project."""
    words = ['cmake', '-S', source, '-B', build, f'-DCMAKE_PREFIX_PATH={folder}', *(CROSS if RUN else [])]
    return subprocess.run(words, capture_output=True, check=False).returncode == 0


def builds_by_cmake(folder, programs_of_it):
    """A project of its own and the folder to copy, by CMake; another version of the library isn't found."""
    outside = folder / 'outside'
    outside.mkdir()
    for name, text, _ in programs_of_it:
        (outside / f'{name}.c').write_text(text, encoding='utf-8')
    version = run('pkg-config', '--modversion', 'fsw').strip()
    for asked, is_found in ((version + '9', False), ('', True), (version, True)):
        (outside / 'CMakeLists.txt').write_text(PROJECT.replace('fsw VERSION', f'fsw {asked}'), encoding='utf-8')
        if configured(outside, outside / f'build{asked}', folder) != is_found:
            sys.exit(f'c_pages: find_package(fsw {asked}) is {"refused" if is_found else "accepted"}')
    build = outside / f'build{version}'
    run('cmake', '--build', build)
    for name, _, wanted in [*programs_of_it, ('over_arena', '', programs_of_it[0][2])]:
        if run(*RUN, build / name) != wanted:
            sys.exit(f'c_pages: by CMake {name} prints something else')
    if not configured(folder / 'copied', folder / 'copied' / 'build', folder):
        sys.exit("c_pages: the template isn't configured by CMake")
    run('cmake', '--build', folder / 'copied' / 'build')
    run('ctest', cwd=folder / 'copied' / 'build')


def main():
    folder = Path(sys.argv[1]).resolve()
    first = programs('C.md')[0]
    example = (TOP / 'c' / 'examples' / 'first.c').read_text(encoding='utf-8')
    if not example.endswith(first):
        sys.exit("c_pages: docs/C.md hasn't the text of c/examples/first.c")
    want = 'message 1 of 8 bytes, the last is 42\n'
    if built(folder, 'first', [first], package('fsw')) != want:
        sys.exit('c_pages: the first program prints something else')
    arena = (folder / 'share' / 'fsw' / 'arena.c').read_text(encoding='utf-8')
    if built(folder, 'first_arena', [first, arena], package('fsw')) != want:
        sys.exit('c_pages: over the arena it prints something else')
    own = next(text for text in programs('C.md') if 'fsw_run(' in text)
    if not (TOP / 'c' / 'examples' / 'my_app.c').read_text(encoding='utf-8').endswith(own):
        sys.exit("c_pages: docs/C.md hasn't the text of c/examples/my_app.c")
    events = ''.join(f'EVS Port1 0/0/MY_APP 1: message {n}\n' for n in (1, 2, 3))
    if built(folder, 'my_app', [own], package('fsw_osal')) != events:
        sys.exit('c_pages: my_app prints something else')
    for start in programs('CFE.md'):
        built(folder, 'start', [start, APPLICATIONS], package('fsw_osal'))
    if not refuses_another_version(folder, first):
        sys.exit('c_pages: a library of another version is accepted')
    copies_template(folder)
    if shutil.which('cmake'):
        builds_by_cmake(folder, [('first', first, want), ('my_app', own, events)])
    else:
        print('c_pages: CMake: skipped, it is not installed')
    print('c_pages: the programs of the pages run')


main()
