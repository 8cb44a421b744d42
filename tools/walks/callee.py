"""What a walk needs of each callee: its contract, what it is handed, that its `pre` holds, and what its `post` says.

For a callee f with slices the laws take, after the params' values, a block b-p o-p and a count m-p for each slice p, and
then for each slice its lifetime κ-p, share q-p and name δ-p:
    to-f     what its triple binds outside        f-lent   the items that go over: for each slice its token, and it
    f-goes   they give the callee's `pre`         f-said   what is known after the call
    f-gives  its `post` gives last lists x with f-said, the tokens, and the slices' ends, in the same order
"""
from .context import Context
from .library import CALLS, REQUIRED
from .terms import nest, nest_types, pair, part, place, product

GIVEN = '{M : Type 1} (𝓤 : URA M) (H : Heap 𝓤) (A : Atoms 𝓤)'
PROGRAM = '(mem : Memory → SProp 𝓤) (run : Routine → Fun 𝓤)'
MEMORY = '𝓤 H A mem run'


def reference(p):
    """a lent slice, as a contract has it"""
    return 'record { ptr = (b-%s, o-%s); name = δ-%s; now = %s }' % (p.name, p.name, p.name, p.name)


def handed(p):
    """the machine's value of a param"""
    return 'sliceVal (b-%s, o-%s) m-%s' % (p.name, p.name, p.name) if p.lent else p.type.machine(p.name)


def denoted(p):
    return 'RefT (List %s)' % p.type.denot if p.lent else p.type.denot


def held(p, now=None):
    """the item that is a lent slice, as it is now"""
    return '‵ (%s %s b-%s o-%s m-%s κ-%s δ-%s %s)' % (
        'holds' if p.lent == 'mut' else 'sees', p.type.row, *[p.name] * 5, now or p.name)


def token(p):
    return '‵ (flft κ-%s q-%s)' % (p.name, p.name)


class Facts:
    """the facts about one callee, as text"""

    def __init__(self, callee):
        self.callee = callee
        self.alias, self.name = callee.alias, callee.name
        self.lifetimes = nest(['κ-' + p.name for p in callee.slices])
        self.left = callee.left()
        self.left_type = product(self.left) if self.left else 'Unit {0}'

    def text(self):
        return '\n'.join([self.contract(), self.lent(), self.goes(), self.said(), self.after(), self.gives(), ''])

    def last(self, index):
        """of what the call leaves, the one at `index`"""
        return part('x', index, len(self.left))

    def contract(self):
        return '\n'.join([
            '-- ---- `%s`' % self.alias, 'module _ %s %s where' % (GIVEN, PROGRAM),
            '  abbrev pub %s : Contract 𝓤' % self.name,
            '  %s = tripleOf 𝓤 H A %s.signature (%s.spec 𝓤 H A mem run)\n' % (self.name, self.alias, self.alias)])

    def lent(self):
        c, f = self.callee, self.alias
        values = ' '.join('(%s : %s)' % (p.name, 'List ' + p.type.denot if p.lent else p.type.denot) for p in c.params)
        blocks = ' '.join('(b-%s o-%s m-%s : ℕ)' % (p.name, p.name, p.name) for p in c.slices)
        loans = ' '.join('(κ-%s : Lft) (q-%s : Share) (δ-%s : GName)' % (p.name, p.name, p.name) for p in c.slices)
        shares = nest(['q-' + p.name for p in c.slices])
        values_handed = nest([handed(p) + ' ∷ []' for p in c.params])
        items = ''.join('%s ∷ %s ∷ ' % (token(p), held(p)) for p in c.slices) + '[]'
        return '\n'.join([
            'module _ %s (W : Given 𝓤 H A) %s %s %s %s where' % (GIVEN, PROGRAM, values, blocks, loans),
            '  abbrev args-%s : %s' % (f, nest_types([denoted(p) for p in c.params])),
            '  args-%s = %s\n' % (f, nest([reference(p) if p.lent else p.name for p in c.params])),
            '  abbrev pub to-%s : %s %s .Ghost' % (f, self.name, MEMORY),
            '  to-%s = ((%s, %s, tt, args-%s, %s), tt)\n' % (f, self.lifetimes, shares, f, values_handed),
            '  abbrev pub %s-lent : List (Item 𝓤)' % f, '  %s-lent = %s\n' % (f, items)])

    def goes(self):
        c, f = self.callee, self.alias
        goods = [p for p in c.params if not p.lent and p.type.good(p.name)]
        asked = [p.type.good(p.name) for p in goods] + ([c.requires] if c.requires else [])
        names = ['g-' + p.name for p in goods] + (['req'] if c.requires else [])
        return '\n'.join([
            '  pub %s-goes : %sent 𝓤 (⋆ 𝓤 H A %s-lent) (%s %s .pre to-%s)' % (
                f, ''.join('%s → ' % a for a in asked), f, self.name, MEMORY, f),
            '  %s-goes %s=\n      qed W %s-lent ∵ %s\n' % (
                f, ''.join(n + ' ' for n in names), f, self.handing().on_a_line())])

    def handing(self):
        """the steps from the items to the callee's `pre`: tokens together, then what it owns, from the last param on"""
        c = self.callee
        x = Context([y for p in c.slices for y in ('t-' + p.name, 'h-' + p.name)])
        if c.requires:
            x.step('says ! req')
        x.push('nothing !', 'tokens')
        for p in reversed(c.slices):
            x.bring('t-' + p.name, 'tokens')
            x.merge('join !', 'tokens')
        if c.requires:
            x.step('frame !')
            x.entries.remove('tokens')
        x.push('nothing !', 'owns')
        for p in reversed(c.params):
            if p.lent:
                x.bring('h-' + p.name, 'owns')
            else:
                x.push(p.type.own(p.name, 'g-' + p.name), 'v-' + p.name)
            x.merge('fjoin !', 'owns')
        if not c.requires:
            x.bring('tokens', 'owns')
            x.merge('join !', 'all')
            x.push('nothing !', 'e')
            x.bring('all', 'e')
        x.step('done !')
        return x

    def result(self):
        """the term that the result is"""
        return self.last(len(self.callee.changed)) if self.callee.free else self.callee.facts.get('r')

    def said(self):
        c, f = self.callee, self.alias
        said = [c.result.told(self.result(), 'u') if c.result else 'u ≡ vunit']
        for index, p in enumerate(c.changed):
            if p in c.known:
                said.append('%s ≡ %s' % (self.last(index), c.facts[p.name]))
        said += ['length (%s) ≡ length %s' % (self.last(index), p.name) for index, p in enumerate(c.changed)]
        return '  abbrev pub %s-said : Val → %s → Type 0\n  %s-said u x = %s\n' % (
            f, '(%s)' % self.left_type if '×' in self.left_type else self.left_type, f, product(said))

    def after(self):
        c, f = self.callee, self.alias
        back = []
        for p in c.slices:
            back.append('A .lft κ-%s q-%s' % (p.name, p.name))
            if p in c.changed:
                back.append('sem 𝓤 H A (finally %s δ-%s (%s))' % (p.type.row, p.name, self.last(c.changed.index(p))))
        all_back = back[-1] if back else 'emp 𝓤'
        for item in reversed(back[:-1]):
            all_back = 'sep 𝓤 (%s) (%s)' % (item, all_back)
        return '  abbrev pub %s-after : Val → %s → SProp 𝓤\n  %s-after u x = guard 𝓤 (%s-said u x) (%s)\n' % (
            f, '(%s)' % self.left_type if '×' in self.left_type else self.left_type, f, f, all_back)

    def gives(self):
        c, f = self.callee, self.alias
        tokens = ' ⊛ '.join([token(p) for p in c.slices] + ['‵ ftrue'])
        last_types = nest_types(['List ' + p.type.denot if p.lent == 'mut' else 'Unit {0}' for p in c.params])
        facts = (['r ≡ %s' % c.facts['r']] if c.result and not c.free else []) + [
            '%s ≡ %s' % (self.last_of(p), c.facts[p.name]) for p in c.known]
        told = product(facts) if facts else None
        steps, opened = self.taking(facts)
        row = c.result.row if c.result else 'Nothing'
        return '\n'.join([
            '  pub %s-gives : (u : Val) → ent 𝓤 (%s %s .post to-%s u) (H .⇛ (ex 𝓤 (%s-after u)))' % (
                f, self.name, MEMORY, f, f),
            '  %s-gives u =\n      qed W (raw (%s %s .post to-%s u) ∷ []) ∵ updating ! $' % (f, self.name, MEMORY, f),
            '      use1 W (later (some (λ (r : %s). ((%s) ⊛ ‵ (%s .own r (u ∷ []))) ⊛ raw (ensured 𝓤 H A %s.ended '
            '(%s.clauses %s) %s args-%s tt r)))) (id⊢ 𝓤 _) $ await ! tt $ pick ! (λ r.' % (
                c.result.denot if c.result else 'Unit {0}', tokens, row, f, f, MEMORY, self.lifetimes, f),
            '      split ! $ move ! (1 ∷ []) $ use1 W (some (λ (zs : %s). ‵ (lasts %s.ended %s args-%s zs) ⊛ '
            'raw (%s))) (id⊢ 𝓤 _) $ pick ! (λ zs.' % (
                last_types, f, self.lifetimes, f, 'fact 𝓤 (%s)' % told if told else 'emp 𝓤'),
            '      split ! $ move ! (1 ∷ []) $ %s %s%s' % (
                'heard ! (%s) (λ e.' % told if told else 'drop ! $', steps, ')' * (opened + (3 if told else 2))), ''])

    def last_of(self, p):
        return place('zs', self.callee.params.index(p))

    def taking(self, facts):
        """the steps from the callee's `post` to what comes back, and how many parentheses they open"""
        c = self.callee
        y, opened = Context(['lasts', 'rest']), 1
        for p in c.params:
            y.bring('lasts')
            y.divide('fsplit !', 'x-' + p.name, 'lasts')
            if p.lent == 'mut':
                y.divide('fsplit !', 'end-' + p.name, 'same')
                y.bring('same')
                y.step('feqL ! (λ n-%s. ' % p.name)
                y.entries.pop(0)
                opened += 1
            else:
                y.drop()
        y.bring('rest')
        y.divide('split !', 'tokens', 'result')
        y.bring('result')
        if c.result is None:
            y.step('feqL ! (λ w. ')
            y.entries.pop(0)
        else:
            y.step('peeks ! %s (Is %s) (shows 𝓤 H A %s) r (u ∷ []) (λ is. ' % (c.result.row, c.result.row, c.result.row))
            y.drop()
        y.bring('tokens')
        for p in c.slices:
            y.divide('split !', 't-' + p.name, 'tokens')
            y.bring('tokens')
        wanted = [s for p in c.slices for s in ['t-' + p.name] + (['end-' + p.name] if p in c.changed else [])]
        y.step('at-once ! $ show ! (%s-after u) (%s) $ check ! (%s) $ keep ! (%s) $ done !' % (
            self.alias, self.witness(), pair(self.proofs(len(facts))),
            ''.join('%d ∷ ' % y.entries.index(w) for w in wanted) + '[]'))
        return y.on_a_line(), opened

    def witness(self):
        """what the call leaves"""
        c = self.callee
        return pair([self.last_of(p) for p in c.changed] + (['r'] if c.free else [])) if self.left else 'tt'

    def proofs(self, count):
        """of what is said after the call, from e, which has so many facts"""
        c = self.callee
        own = 1 if c.result and not c.free else 0
        if c.result is None:
            first = 'ap only w'
        else:
            first = c.result.told_as(c.facts.get('r'), part('e', 0, count) if own else None)
        return [first] + [part('e', own + j, count) for j, _ in enumerate(c.known)] + ['n-' + p.name for p in c.changed]


def facts_text(description, callees):
    """the file of facts about these callees, without its first line"""
    lines = [CALLS, description.uses]
    if any(c.requires for c in callees):
        lines.append(REQUIRED)
    lines += ['use %s as %s' % (c.module, c.alias) for c in callees]
    return '\n'.join(lines) + '\n\n' + '\n'.join(Facts(c).text() for c in callees)
