"""The MIR of a crate, as `rattle-print-mir` prints it: one term. Nothing is proved to have it."""
import os
import re
import subprocess
import tempfile

TOKEN = re.compile(r'"[^"]*"|\(|\)|[^\s()]+')


def parsed(text):
    """the term as nested lists of words"""
    stack = [[]]
    for token in TOKEN.findall(text):
        if token == '(':
            stack.append([])
        elif token == ')':
            done = stack.pop()
            stack[-1].append(done)
        else:
            stack[-1].append(token)
    return stack[0]


def listed(term):
    """the items of (lcons a (lcons b lnil))"""
    out = []
    while term != 'lnil':
        out.append(term[1])
        term = term[2]
    return out


def statements(term):
    """a sequence of statements as a list"""
    return statements(term[1]) + statements(term[2]) if isinstance(term, list) and term[0] == 'seq' else [term]


def place(term):
    """the local of a place, and the steps into it"""
    return int(term[1]), listed(term[2])


def returned(body):
    """the local that is handed back, where the last statements copy one"""
    for statement in body:
        if statement[0] == 'assign' and place(statement[1]) == (0, []) and statement[2][1][0] == 'copy':
            return place(statement[2][1][1])[0]
    return None


def calls(term):
    """how many calls a term has"""
    if not isinstance(term, list):
        return 0
    return (term[:1] == ['call']) + sum(calls(item) for item in term)


class Code:
    """one function: its locals, each with its type and where it lives, and its statements"""

    def __init__(self, term):
        self.locals = listed(term[4])
        self.count = len(self.locals)
        self.body = statements(term[5])

    def in_memory(self, local):
        return self.locals[local][2] == 'memorySlot'


def functions(text):
    """name -> Code, of all functions in the text"""
    term, out = parsed(text), {}
    for item in listed(term[1]):
        if item[0] == 'fn-def':
            out[item[1].strip('"')] = item[2]
    return {name: Code(term) for name, term in out.items()}


def toolchain():
    """the folder of the toolchain's programs and libraries for this machine: `rt doc` tells where the kit is"""
    guide = subprocess.run(['rt', 'doc'], capture_output=True, text=True, check=True).stdout.strip()
    return os.path.join(os.path.dirname(os.path.dirname(guide)), 'on', os.uname().machine)


def reached(crate, uses):
    """the crates and libraries that a crate stands on, each after those that it uses itself, and the crate last"""
    out = []
    for name in uses.get(crate, []):
        out += [n for n in reached(name, uses) if n not in out]
    return out + [crate]


def uses_of(root):
    """crates.txt: crate -> what it uses"""
    out = {}
    with open(os.path.join(root, 'crates.txt')) as lines:
        for line in lines:
            line = line.split('#')[0].strip()
            if line:
                name, _, rest = line.partition(':')
                out[name.strip()] = rest.split()
    return out


def printed(root, crate):
    """the MIR of a crate of the repository, from its sources and those of the crates below it"""
    tools, uses, words = toolchain(), uses_of(root), []
    for name in reached(crate, uses):
        source = os.path.join(root, 'crates', name, 'src', 'lib.rt')
        if name not in uses:
            words += ['--extern', '%s=%s/rlib/%s.rlib' % (name, tools, name)]
        elif os.path.exists(source):
            words += ['--lib', '%s=%s' % (name, source)]
    words += ['--extern', 'std=%s/rlib/std.rlib' % tools, '-L', 'dependency=%s/rlib' % tools]
    program = os.path.join(root, 'crates', crate, 'src', 'main.rt')
    with tempfile.TemporaryDirectory() as folder:
        if not os.path.exists(program):
            program = os.path.join(folder, 'main.rt')
            with open(program, 'w') as nothing:
                nothing.write('fn main() {}\n')
        name = crate if folder not in program else 'nothing'
        try:
            done = subprocess.run([tools + '/bin/rattle-print-mir', program, '--crate-name', name] + words,
                                  capture_output=True, text=True)
        except FileNotFoundError:
            raise SystemExit('regenerate: this kit has no rattle-print-mir, so nothing can be made') from None
    if done.returncode:
        raise SystemExit('regenerate: no MIR of %s:\n%s' % (crate, done.stderr))
    return done.stdout
