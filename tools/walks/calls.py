"""One call in a walk: what is lent goes over, what the callee tells is heard, what was lent comes back."""
from . import mir
from .locals import Value
from .terms import atom, filled, part, product

MEMORY, WALKED = '𝓤 H A mem run', '𝓤 H A W mem run'
# what the call of number n returns is named after n; u8, u16, u32 and u64 are types
TYPES = (8, 16, 32, 64)


class Loan:
    """a run that a call is lent: the callee's param, the run, and the lifetime, share and name that it has there"""

    def __init__(self, param, run):
        self.param, self.run = param, run
        self.name = param.name
        self.life = self.share = self.ghost = None

    def new(self, number):
        """a lifetime of its own"""
        self.life, self.share = '(ν-%s%d ∷ [])' % (self.name, number), 'fullShare'
        self.ghost = 'δ-%s%d' % (self.name, number)

    def handed_on(self):
        """the lifetime of the function's own slice"""
        self.life, self.share, self.ghost = (letter + self.run.name for letter in ('κ-', 'q-', 'δ-'))

    def words(self):
        return '%s %s %s' % (self.life, self.share, self.ghost)


class Call:
    def __init__(self, walk, statement):
        self.walk, self.callee = walk, walk.function.calls[walk.calls]
        walk.calls += 1
        self.count = walk.calls
        self.number = walk.calls + (100 if walk.calls in TYPES else 0)
        self.operands = mir.listed(statement[2])
        self.target = mir.place(statement[3])[0]
        self.arguments, self.goods, self.loans = {}, [], []
        for param, operand in zip(self.callee.params, self.operands):
            value = walk.operand(operand)[1]
            if param.lent:
                self.arguments[param.name] = atom(walk.now[value.name])
                self.loans.append(Loan(param, walk.runs[value.name]))
            elif value.term is None:
                walk.unknown(statement)
            else:
                self.arguments[param.name] = atom(value.term)
                if param.type.good(param.name):
                    self.goods.append(atom(value.good))
        self.changes = [loan for loan in self.loans if loan.param.lent == 'mut']
        self.left = self.callee.left()
        self.was, self.had = dict(walk.now), dict(walk.length)
        self.facts = {target: filled(term, self.arguments) for target, term in self.callee.facts.items()}

    def make(self):
        for loan in self.loans:
            self.lend(loan)
        self.cross()
        self.hear()
        for loan in self.loans:
            self.take_back(loan)
        for local in self.walk.function.forget.get(self.count, []):
            self.walk.forget(local)
        self.land()

    # ---- lending

    def lender(self, run):
        n = run.name
        return '𝓤 H A W %s b-%s o-%s m-%s %s (%s) room-%s ! tt κ-%s q-%s δ-%s' % (
            run.type.row, n, n, n, atom(self.was[n]), self.had[n], n, n, n, n)

    def owner(self, run):
        return '𝓤 H A W %s %s %s (%s) (lit< tt, lit< tt) ! tt' % (
            run.type.row, run.spot(), atom(self.was[run.name]), self.had[run.name])

    def lend(self, loan):
        walk, run, x = self.walk, loan.run, self.walk.context
        if run.kind == 'shr':
            self.copy(loan)
            return
        if run.kind == 'own':
            x.bring('S-' + run.name)
            how, first = 'lend-own ' + self.owner(run), 1
        else:
            x.bring('S-' + run.name, 'T-' + run.name)
            how, first = '%s %s' % ('lend-mut' if loan.param.lent == 'mut' else 'lend-shr', self.lender(run)), 2
        walk.step('%s (λ ν-%s%d δ-%s%d. ' % (how, loan.name, self.number, loan.name, self.number))
        walk.open += 1
        x.entries[:first] = ['tk-' + loan.name, 'hd-' + loan.name, 'kp-' + loan.name]
        loan.new(self.number)

    def copy(self, loan):
        """a slice that is only seen is lent as a copy"""
        walk, run, x = self.walk, loan.run, self.walk.context
        n, now = run.name, self.was[run.name]
        item = '‵ (sees %s b-%s o-%s m-%s κ-%s δ-%s %s)' % (run.type.row, n, n, n, n, n, atom(now))
        x.bring('S-' + n)
        walk.step('use1 W (%s ⊛ %s) (shr-slice-copy 𝓤 H A W (named 0) κ-%s %s .twice (record { ptr = (b-%s, o-%s); '
                  'name = δ-%s; now = %s }) (sliceVal (b-%s, o-%s) m-%s ∷ []))' % (
                      item, item, n, run.type.row, n, n, n, now, n, n, n))
        x.divide('split !', 'hd-' + loan.name, 'S-' + n)
        x.entries[x.entries.index('T-' + n)] = 'tk-' + loan.name
        loan.handed_on()

    # ---- the call itself

    def instance(self):
        """the arguments of the callee's laws"""
        return ' '.join([WALKED] + [self.arguments[p.name] for p in self.callee.params]
                        + [loan.run.spot() for loan in self.loans] + [loan.words() for loan in self.loans])

    def cross(self):
        walk, c, x, instance = self.walk, self.callee, self.walk.context, self.instance()
        x.bring(*[y for loan in self.loans for y in ('tk-' + loan.name, 'hd-' + loan.name)])
        entries = 2 * len(self.loans)
        goes = '(%s-goes %s)' % (c.alias, ' '.join([instance] + self.goods + ([c.needs] if c.requires else [])))
        walk.step('use%d W (raw (%s %s .pre (to-%s %s))) %s' % (entries, c.name, MEMORY, c.alias, instance, goes))
        x.entries[:entries] = ['pre']
        walk.step('calls-at ! fm (%s %s) k-%s (to-%s %s) %s (λ u%d. ' % (
            c.name, MEMORY, c.alias, c.alias, instance, walk.operands(self.operands), self.number))
        walk.open += 1

    def last(self, index, value='x'):
        return part(value, index, len(self.left))

    def hear(self):
        walk, c, x, n, instance = self.walk, self.callee, self.walk.context, self.number, self.instance()
        items = []
        for loan in self.loans:
            items.append(('tk-' + loan.name, '‵ (flft %s %s)' % (loan.life, loan.share)))
            if loan in self.changes:
                items.append(('fin-' + loan.name, '‵ (finally %s %s (%s))' % (
                    loan.run.type.row, loan.ghost, self.last(self.changes.index(loan)))))
        walk.step('use1 W (later (some (λ (x : %s). given (%s-said %s u%d x) (%s)))) (%s-gives %s u%d) $ await ! tt $ '
                  'pick ! (λ x%d. learn ! (λ s%d. ' % (
                      product(self.left) if self.left else 'Unit {0}', c.alias, instance, n,
                      ' ⊛ '.join(item for _, item in items) or 'raw (emp 𝓤)', c.alias, instance, n, n, n))
        walk.open += 2
        x.entries[0] = 'back'
        if not items:
            x.drop()
        for name, _ in items[:-1]:
            x.divide('split !', name, 'back')
            x.bring('back')
        if items:
            x.entries[x.entries.index('back')] = items[-1][0]

    def said(self, index):
        """of what the call told, the part at `index`: the result, then what each changed list is, then its length"""
        return part('s%d' % self.number, index, 1 + len(self.callee.known) + len(self.callee.changed))

    # ---- what comes back

    def take_back(self, loan):
        walk, x, run = self.walk, self.walk.context, loan.run
        if run.kind == 'shr':
            x.entries[x.entries.index('tk-' + loan.name)] = 'T-' + run.name
        elif loan in self.changes:
            self.take_changed(loan)
        else:
            x.bring('tk-' + loan.name, 'kp-' + loan.name)
            walk.step('back-shr %s ν-%s%d (' % (self.lender(run), loan.name, self.number))
            walk.open += 1
            x.entries[:2] = ['S-' + run.name, 'T-' + run.name]

    def take_changed(self, loan):
        walk, x, run, index = self.walk, self.walk.context, loan.run, self.changes.index(loan)
        x.bring('tk-' + loan.name, 'fin-' + loan.name, 'kp-' + loan.name)
        last = self.last(index, 'x%d' % self.number)
        length = self.said(1 + len(self.callee.known) + index)
        if run.kind == 'own':
            walk.step('back-own %s ν-%s%d %s (%s) (' % (self.owner(run), loan.name, self.number, loan.ghost, last))
            x.entries[:3] = ['S-' + run.name]
        else:
            walk.step('back-mut %s ν-%s%d %s (%s) (%s) (' % (
                self.lender(run), loan.name, self.number, loan.ghost, last, length))
            x.entries[:3] = ['S-' + run.name, 'T-' + run.name]
        walk.open += 1
        walk.length[run.name] = '%s ∙ %s' % (length, walk.length[run.name])
        walk.now[run.name] = last
        if loan.param in self.callee.known and (run.kind != 'own' or run.local in walk.whole):
            self.know(loan)

    def know(self, loan):
        """the list that came back, as the callee's definition has it"""
        walk, run = self.walk, loan.run
        equal = self.said(1 + self.callee.known.index(loan.param))
        n, row = run.name, run.type.row
        item = 'row %s fullShare l l-%d 0' % (row, run.local) if run.kind == 'own' else (
            'holds %s b-%s o-%s m-%s κ-%s δ-%s l' % (row, n, n, n, n, n))
        walk.step('rewrite ! 0 (λ (l : List %s). ‵ (%s)) (%s) refl' % (run.type.denot, item, equal))
        walk.length[n] = 'sym (ap (λ (l : List %s). length l) (%s)) ∙ %s' % (run.type.denot, equal, walk.length[n])
        walk.now[n] = walk.named(run.name, self.count, 'List ' + run.type.denot, self.facts[loan.name])

    def land(self):
        """the result goes to its local"""
        walk, c, n, kind = self.walk, self.callee, self.number, self.callee.result
        if kind is None:
            walk.step('land ! %s' % walk.store(self.target, '(unit-typed u%d (%s))' % (n, self.said(0))))
            walk.values[self.target] = None
            return
        term = self.last(len(c.changed), 'x%d' % n) if c.free else walk.named(
            c.alias, self.count, kind.denot, self.facts['r'])
        typed, good, equal = kind.landed(atom(term), 'u%d' % n, self.said(0))
        walk.step('land ! %s' % walk.store(self.target, '(%s)' % typed))
        walk.step('rewrite ! %d (λ (z : Val). ‵ (fat fullShare (τ %d) l-%d 0 z)) (%s) refl' % (
            walk.position(self.target), self.target, self.target, equal))
        walk.values[self.target] = Value(kind, term, good)
