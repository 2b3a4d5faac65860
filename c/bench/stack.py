"""The greatest stack of a program's functions, read off its code: of x86-64 or AArch64, as gcc and the kit compile it.

    stack.py PROGRAM PREFIX ..     of each function whose name begins so, with the calls that need it

A function's depth is followed along every path of its code. What it calls in shared libraries, and by an address, isn't known:
that is named, and counts as nothing. Recursion ends the run.
"""
import re
import subprocess
import sys

LINE = re.compile(r'^\s*([0-9a-f]+):\s+(?:(?:notrack|bnd|lock|rep|repz|repnz|data16|cs) )*([a-z][\w.]*)\s*(.*)$')
HEAD = re.compile(r'^([0-9a-f]+) <(.+)>:$')
TARGET = re.compile(r'^(?:\w+, )*(?:#\w+, )?([0-9a-f]+) <(.+?)>')
NEVER = {f'{name}@plt' for name in ('abort', 'exit', '_exit', 'pthread_exit', '__assert_fail', '__stack_chk_fail')}
ENDS = {'ret', 'hlt', 'ud2', 'udf', 'brk', 'jmp', 'b', 'br'}


def number(text):
    return int(text.strip().lstrip('#$'), 0)


class X86:
    """How deep an instruction of x86-64 leaves the stack, which was `depth` deep; `frame` is the depth at the frame pointer."""

    WORD = 8  # what a call itself takes

    @staticmethod
    def moved(name, words, depth, frame):
        if name.startswith('push'):
            return depth + 8, frame
        if name.startswith('pop'):
            return depth - 8, frame
        if name.startswith('leave'):
            return frame - 8, frame
        if (name, words) == ('mov', '%rsp,%rbp'):
            return depth, depth
        if (name, words) == ('mov', '%rbp,%rsp'):
            return frame, frame
        found = re.fullmatch(r'(-?0x[0-9a-f]+)\((%rsp|%rbp)\),%rsp', words)
        if name == 'lea' and found:
            return (depth if found[2] == '%rsp' else frame) - number(found[1]), frame
        if name in ('add', 'sub') and words.endswith(',%rsp'):
            by = number(words.split(',')[0])
            return (depth - by if name == 'add' else depth + by), frame
        found = re.fullmatch(r'\$0x[f]+([0-9a-f]{2}),%rsp', words)
        if name == 'and' and found:
            return depth + 0x100 - int(found[1], 16) - 8, frame
        if re.search(r',%rsp$', words) and name not in ('cmp', 'test'):
            raise ValueError(f'{name} {words}')
        return depth, frame

    @staticmethod
    def is_call(name):
        return name.startswith('call')

    @staticmethod
    def is_jump(name):
        return name.startswith('j')


class Arm:
    """The same of AArch64."""

    WORD = 0

    @staticmethod
    def moved(name, words, depth, frame):
        before, behind = re.search(r'\[sp, #(-?\d+)\]!$', words), re.search(r'\[sp\], #(-?\d+)$', words)
        if before or behind:
            return depth - int((before or behind)[1]), frame
        found = re.fullmatch(r'sp, sp, #(0x[0-9a-f]+|\d+)(?:, lsl #(\d+))?', words)
        if name in ('add', 'sub') and found:
            by = number(found[1]) << int(found[2] or 0)
            return (depth - by if name == 'add' else depth + by), frame
        found = re.fullmatch(r'x29, sp(?:, #(0x[0-9a-f]+|\d+))?', words)
        if name in ('add', 'mov') and found:
            return depth, depth - number(found[1] or '0')
        found = re.fullmatch(r'sp, x29(?:, #(0x[0-9a-f]+|\d+))?', words)
        if name in ('sub', 'mov') and found:
            return frame + number(found[1] or '0'), frame
        if words.startswith('sp, ') and name not in ('cmp', 'cmn'):
            raise ValueError(f'{name} {words}')
        return depth, frame

    @staticmethod
    def is_call(name):
        return name in ('bl', 'blr')

    @staticmethod
    def is_jump(name):
        return name in ('b', 'br', 'cbz', 'cbnz', 'tbz', 'tbnz') or name.startswith('b.')


class Function:
    """The calls that it makes, each with how deep the stack is there, and how deep it becomes by itself."""

    def __init__(self, name, code, kind):
        self.name, self.code, self.kind = name, [(*each, TARGET.search(each[2])) for each in code], kind
        self.places = {at: place for place, (at, _, _) in enumerate(code)}
        self.returns, self.calls, self.deepest = True, set(), 0

    def steps(self, never):
        """Each instruction that may be reached, once, with the depth before it. A call of what `never` returns ends a way."""
        seen, ways, switch = set(), [(0, self.kind.WORD, 0)], None
        # Behind all else what only a table of addresses leads to.
        for place in range(len(self.code)):
            while ways:
                at, depth, frame = ways.pop()
                while at < len(self.code) and at not in seen:
                    seen.add(at)
                    _, name, words, target = self.code[at]
                    yield name, target, depth
                    there = target and int(target[1], 16)
                    if there in self.places and self.kind.is_jump(name):
                        ways.append((self.places[there], depth, frame))
                    elif not target and self.kind.is_jump(name):
                        switch = depth, frame
                    if name in ENDS or self.kind.is_call(name) and (there in never or target and target[2] in NEVER):
                        break
                    depth, frame = self.kind.moved(name, words, depth, frame)
                    at += 1
            if not switch:
                break
            ways = [(place, *switch)]

    def is_other(self, name, target):
        """Whether another function goes on in its place."""
        return target and self.kind.is_jump(name) and int(target[1], 16) not in self.places

    def find_end(self, never):
        """Whether it may return."""
        self.returns = any(name == 'ret' or self.is_other(name, target) and not (int(target[1], 16) in never or target[2] in NEVER)
                           for name, target, _ in self.steps(never))

    def find_depth(self, never):
        for name, target, depth in self.steps(never):
            self.deepest = max(self.deepest, depth)
            if self.kind.is_call(name) or self.is_other(name, target):
                depth -= 0 if self.kind.is_call(name) else self.kind.WORD
                self.calls.add((int(target[1], 16), target[2], depth) if target else (0, '(an address)', depth))


def leads_to(code, places):
    return any(int(found[1], 16) in places for found in map(TARGET.search, (words for _, _, words in code)) if found)


def joined(parts):
    """The functions, by where they begin, each with the part of it that the compiler put apart."""
    whole = {code[0][0]: (name, code) for name, code in parts if not name.endswith('.cold')}
    for name, code in parts:
        if name.endswith('.cold'):
            places = {at for at, _, _ in code}
            same = [main for it, main in whole.values() if it == name[:-len('.cold')]]
            next(main for main in same if leads_to(main, places)).extend(code)
    return whole


def functions(program):
    """All functions of the program, by where they begin."""
    told = subprocess.run(['file', '-bL', program], capture_output=True, text=True, check=True).stdout
    tool, kind = ('aarch64-linux-gnu-objdump', Arm) if 'aarch64' in told else ('objdump', X86)
    text = subprocess.run([tool, '-d', '--no-show-raw-insn', program], capture_output=True, text=True, check=True).stdout
    parts = []
    for line in text.splitlines():
        head, each = HEAD.match(line), LINE.match(line)
        if head:
            parts.append((head[2], []))
        elif each:
            parts[-1][1].append((int(each[1], 16), each[2], re.split(r'\s+(?://|#)(?= )', each[3])[0].strip()))
    parts = [(name, code) for name, code in parts if code and '@plt' not in name]
    found = {at: Function(name, code, kind) for at, (name, code) in joined(parts).items()}
    never, count = set(), -1
    while count < len(never):
        count = len(never)
        for function in found.values():
            function.find_end(never)
        never = {at for at, function in found.items() if not function.returns}
    for function in found.values():
        function.find_depth(never)
    return found


class Stacks:
    """The greatest stack of each function and what it calls."""

    def __init__(self, program):
        self.functions, self.known, self.unknown = functions(program), {}, set()

    def of(self, at, above=()):
        """The bytes, and the names of the calls that need them."""
        function = self.functions[at]
        if at in above:
            sys.exit(f'stack: recursion: {" ".join(self.functions[it].name for it in [*above[above.index(at):], at])}')
        if at not in self.known:
            best, way = function.deepest, [function.name]
            for called, name, depth in sorted(function.calls):
                if called not in self.functions:
                    self.unknown.add(name.split('@')[0])
                    continue
                below, names = self.of(called, (*above, at))
                if depth + below > best:
                    best, way = depth + below, [function.name, *names]
            self.known[at] = best, way
        return self.known[at]

    def all_of(self, prefix):
        """Of each function whose name begins so."""
        return {function.name: self.of(at) for at, function in self.functions.items() if function.name.startswith(prefix)}


def main():
    stacks = Stacks(sys.argv[1])
    for prefix in sys.argv[2:]:
        for name, (depth, way) in sorted(stacks.all_of(prefix).items()):
            print(name, depth, ' '.join(way))
    print('not known:', *sorted(stacks.unknown))


if __name__ == '__main__':
    main()
