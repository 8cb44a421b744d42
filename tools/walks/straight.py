"""The walk of a function over lent slices, from its MIR.

The function is a straight line of assignments (a slice again or its length, a field, a cast to usize, a comparison, `|`
of two bools) and calls. A branch `if c { .. return ..; }` may stand in it, a local array `[x; n]`, written whole, may be
lent, and there may be one loop (walks/loops.py). Its contract is to be the composition of the callees' definitions:
what each fact comes to at the return is then `refl`, or a law that the description names.
"""
from . import mir
from .arrays import Arrays
from .calls import Call
from .callee import held, token
from .context import Context
from .locals import BOOLEAN, NUMBERS, Lent, Pointer, Slice, Value
from .terms import atom
from .values import Array

TESTS = ('lt', 'le', 'eq', 'ne')


def laid(steps):
    return ' $\n        '.join(steps).replace('.  $\n', '.\n').replace('( $\n', '(\n')


class Walk(Arrays):
    """where a walk stands: its context, the locals' values, the lent runs' lists, and the steps so far"""

    def __init__(self, function, code, names, loop):
        self.function, self.code, self.names = function, code, names
        self.context = Context([
            'L%d%s' % (k, d) for k in reversed(range(code.count)) for d in ('', 'd')] + ['tokens', 'owns'])
        self.open = self.calls = self.tests = self.returns = 0
        self.runs = {p.name: Lent(p.name, p.lent, p.type) for p in function.slices}
        self.now = {p.name: p.name for p in function.slices}
        self.length = {p.name: 'refl' for p in function.slices}
        self.values = {}
        for j, p in enumerate(function.params):
            self.values[j + 1] = Slice(p.name) if p.lent else Value(p.type, p.name, 'g-' + p.name)
        self.full = set(self.values)
        self.within = False
        self.arrays, self.whole = {}, {}
        self.loop, self.fits, self.index = loop, None, None

    def fork(self):
        """a walk that goes on from here by itself, with its steps still to come"""
        other = object.__new__(Walk)
        other.__dict__.update(self.__dict__)
        for name in ('runs', 'now', 'length', 'values', 'full', 'arrays', 'whole'):
            setattr(other, name, getattr(self, name).copy())
        other.context = Context(self.context.entries)
        other.open = 0
        return other

    def step(self, text):
        self.context.step(text)

    def steps_so_far(self):
        return laid(self.context.steps)

    def text(self):
        return self.steps_so_far() + ')' * self.open

    def named(self, alias, number, kind, term):
        """a name for what a call leaves"""
        return self.names.of(alias, number, kind, term, self.index)

    def heads(self):
        return [y for p in self.function.slices for y in ('S-' + p.name, 'T-' + p.name)]

    def order(self):
        """the entries as a loop's turn begins with them"""
        return self.heads() + ['L%d%s' % (k, d) for k in reversed(range(self.code.count)) for d in ('', 'd')]

    def position(self, local):
        return self.context.entries.index('L%d' % local)

    def forget(self, local):
        self.step('forget ! %d refl' % self.position(local))
        self.full.discard(local)

    def store(self, local, typed):
        text = '(from ! (stop !)) (%s ! %d refl %s)' % (
            'store' if local in self.full else 'init', self.position(local), typed)
        self.full.add(local)
        return text

    # ---- operands

    def operand(self, term):
        """the step that has an operand's value, and what it is"""
        if isinstance(term, str):
            return '(%s-lit !)' % term, None if term == 'unit' else Value(BOOLEAN, term, 'tt')
        if term[0] != 'copy':
            step = '(big-lit ! (lit< tt))' if 1024 < int(term[-1]) else '(lit ! tt)'
            return step, Value(NUMBERS[int(term[1])], str(term[-1]), 'lit< tt')
        local, steps = mir.place(term[1])
        if not steps:
            return '(load ! (from ! (stop !)) (look ! %d refl))' % self.position(local), self.values[local]
        if any(step[0] != 'field' for step in steps):
            self.unknown(term)
        return self.part(local, [int(step[1]) for step in steps])

    def part(self, local, fields):
        """a field of a local, or a slice's address or length"""
        value = self.values[local]
        if isinstance(value, Slice):
            step = '(load ! (from ! (fld ! refl (stop !))) (look-in ! %d (sub ! %d refl (whole !))))' % (
                self.position(local), fields[0])
            if fields == [0]:
                return step, Pointer(value.name)
            return step, Value(NUMBERS[64], 'm-' + value.name, self.runs[value.name].fits())
        places = ' '.join('l-%d' % k for k in range(self.code.count))
        law = self.names.read(local, fields, value.type, self.field(Value(value.type, 'y', 'g'), fields), places)
        step = '(%s %s %s ! %d refl)' % (law, atom(value.term), places, self.position(local))
        return step, self.field(value, fields)

    def field(self, value, fields):
        """the value of a field, or of a field's field"""
        for index in fields:
            name, kind = value.type.fields[index]
            kind, prefix = self.function.types[kind], value.type.prefix
            good = 'LL.owed %s.the-type %s′.the-laws %s _ %s%s .0' % (
                prefix, prefix, atom(value.term), atom(value.good), ' .1' * index)
            value = Value(kind, '%s .%s' % (atom(value.term), name), kind.owed(good))
        return value

    def operands(self, terms):
        if not terms:
            return '(no-more !)'
        return '(and-then ! %s %s)' % (self.operand(terms[0])[0], self.operands(terms[1:]))

    # ---- assignments

    def assign(self, statement, last=False):
        (local, _), right = mir.place(statement[1]), statement[2]
        known = getattr(self, 'assign_' + self.kind(right, last), None)
        if known is None:
            self.unknown(statement)
        known(local, right, 'assigns-last' if last else 'assigns')

    def kind(self, right, last):
        """which assignment it is; of the operators those that a walk has"""
        if right[0] not in ('op1', 'op2'):
            return right[0]
        name = right[1] if isinstance(right[1], str) else right[1][0]
        if right[0] == 'op1':
            return 'cast' if name == 'cast' and right[1][-1] == '64' else 'no-' + name
        if name == 'add':
            return 'add' if last and self.fits else 'no-add'
        return 'test' if name in TESTS else 'or' if name == 'or' else 'no-' + name

    def unknown(self, statement):
        raise SystemExit('regenerate: no walk of %s in %s' % (str(statement)[:80], self.function.mir))

    def assign_addrOf(self, local, right, put):
        target, steps = mir.place(right[1])
        inside = 'stop !' if not steps else 'fld ! refl (hop ! (look-in ! %d (sub ! 0 refl (whole !))) (stop !))' % (
            self.position(target))
        self.step('%s ! (addr ! (from ! (%s))) %s' % (put, inside, self.store(local, '(tt, tt)')))
        self.values[local] = Pointer(self.values[target].name)

    def assign_aggregate(self, local, right, put):
        operands = mir.listed(right[1])
        name = self.operand(operands[0])[1].name
        step = self.operands(operands)
        typed = '(tt, (tt, (record { fits = %s }, tt)))' % self.runs[name].fits()
        self.step('%s ! (agg ! %s) %s' % (put, step, self.store(local, typed)))
        self.values[local] = Slice(name)

    def assign_cast(self, local, right, put):
        """a cast to usize"""
        step, value = self.operand(right[2])
        width = value.type.width
        good = value.good if width == 'w64' else 'wider-%s (%s)' % (width, value.good)
        self.step('%s ! (un ! %s (record { fits = %s })) %s' % (
            put, step, good, self.store(local, '(tt, record { fits = %s })' % good)))
        self.values[local] = Value(NUMBERS[64], value.term, good)

    def assign_test(self, local, right, put):
        first, second = self.operand(right[2])[0], self.operand(right[3])[0]
        self.step('%s ! (bin ! %s %s tt) %s' % (put, first, second, self.store(local, '(tt, tt)')))
        self.values[local] = Value(BOOLEAN, None, 'tt')

    def assign_or(self, local, right, put):
        (first, one), (second, other) = self.operand(right[2]), self.operand(right[3])
        self.step('%s ! (bin ! %s %s tt) %s' % (put, first, second, self.store(local, '(tt, tt)')))
        self.values[local] = Value(BOOLEAN, '%s || %s' % (atom(one.term), atom(other.term)), 'tt')

    def assign_add(self, local, right, put):
        """one more than the number of turns"""
        self.step('%s ! (bin ! %s (lit ! tt) (record { fits = %s })) %s' % (
            put, self.operand(right[2])[0], self.fits, self.store(local, '(tt, record { fits = %s })' % self.fits)))

    def assign_rvOpd(self, local, right, put):
        source = right[1]
        if source[0] == 'copy' and not mir.place(source[1])[1] and mir.place(source[1])[0] in self.whole:
            self.together(mir.place(source[1])[0])
        step, value = self.operand(source)
        typed = '(tt, tt)' if value is None else value.type.typed(atom(value.term), value.good)
        self.step('%s ! (of-opd ! %s) %s' % (put, step, self.store(local, typed)))
        if value:
            self.values[local] = value
            if isinstance(value.type, Array) and self.code.in_memory(local):
                self.apart(local)

    # ---- the way

    def run(self, statements, past=0):
        for j, statement in enumerate(statements):
            head = statement if isinstance(statement, str) else statement[0]
            if head == 'assign':
                self.assign(statement)
            elif head == 'call':
                Call(self, statement).make()
            elif head == 'return':
                self.returns += 1
                self.leave(self.function.exits[self.returns - 1] if self.function.exits else self.function.exit)
            elif head == 'if':
                self.choose(statement, statements[j + 1:], past + j + 2)
                return
            elif head == 'block' and self.loop:
                self.loop.walk(self, mir.statements(statement[1][1]), statements[j + 1:], past + j + 2)
                return
            else:
                self.unknown(statement)

    def choose(self, statement, rest, number):
        """a branch whose one arm returns; what follows is walked in the other"""
        if mir.statements(statement[2])[-1] != 'return' or statement[3] != 'skip':
            self.unknown(statement)
        test = self.operand(statement[1])[0]
        arm, other = self.fork(), self.fork()
        arm.within = True
        arm.run(mir.statements(statement[2]))
        other.calls, other.returns = arm.calls, arm.returns
        other.tests = self.tests = self.tests + 1
        which = '' if self.tests == 1 else str(self.tests)
        env = '(envOf mir′.locals (%s ∷ []))' % ' ∷ '.join('l-%d' % k for k in range(self.code.count))
        other.step('skips ! $ exec ! C Λ %s mir′.t-%d (atRet %s Post)' % (env, number, env))
        other.run(rest, number - 1)
        self.step('first ! $ branches ! %s\n        (λ on%s.\n        %s)\n        (λ off%s.\n        %s)' % (
            test, which, arm.text(), which, other.text()))

    def leave(self, proofs):
        """a return: everything is given back, and the facts hold by these proofs"""
        x = self.context
        self.step('%s (look ! %d refl)' % (
            'returns-within ! Post refl' if self.within else 'returns !', self.position(0)))
        for local, name in self.arrays.items():
            run = self.runs[name]
            x.bring('S-' + name)
            self.step('use1 W (‵ (froom (τ %d) l-%d 0)) (array-out 𝓤 H A W %s %s l-%d 0 %s (%s))' % (
                local, local, run.type.row, run.size, local, atom(self.now[name]), self.length[name]))
            x.entries[0] = 'L%d' % local
        locals_ = range(self.code.count)
        x.bring(*['L%d%s' % (local, d) for local in locals_ for d in ('', 'd')] + self.heads())
        self.step('leaves ! (%s ∷ [])' % ' ∷ '.join(
            ('full (τ %d) l-%d _' if local in self.full else 'room (τ %d) l-%d') % (local, local) for local in locals_))
        x.entries = self.heads()
        changed = [p.name for p in self.function.slices if p.lent == 'mut']
        lists = [atom(self.now[name]) for name in changed]
        lengths = ['(%s)' % self.length[name] for name in changed]
        facts = [atom(proof) for proof in proofs]
        result = self.function.result
        if result is None:
            self.step('by ! (exits %s %s %s)' % (' '.join(lists), ' '.join(lengths), ' '.join(facts)))
        else:
            value = self.values[0]
            self.step('by ! (exits %s %s %s %s %s)' % (
                atom(value.term), ' '.join(lists), ' '.join(facts), ' '.join(lengths),
                '(%s)' % value.good if result.good('h') else ''))

    def cells(self, full):
        """what a walk has where a turn of a loop begins"""
        out = []
        for p in self.function.slices:
            out += [held(p, atom(self.now[p.name])), token(p)]
        for local in reversed(range(self.code.count)):
            if local in full:
                value = self.values[local]
                machine = 'sliceVal (b-%s, o-%s) m-%s' % ((value.name,) * 3) if isinstance(
                    value, Slice) else value.type.machine(atom(value.term))
                out.append('‵ (fat fullShare (τ %d) l-%d 0 (%s))' % (local, local, machine))
            else:
                out.append('‵ (froom (τ %d) l-%d 0)' % (local, local))
            out.append('‵ (fdies (τ %d) l-%d)' % (local, local))
        return out
