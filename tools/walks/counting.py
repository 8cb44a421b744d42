"""while i < stop { .. i = i + 1; }: what a description says of it stands in loops.py."""
from . import mir
from .locals import NUMBERS, Value
from .terms import at_turn, atom, pair, product
from .turns import Turns


class Counting(Turns):
    """while i < stop { .. i = i + 1; }"""
    at = 'i .0'

    def __init__(self, function):
        super().__init__(function)
        given = function.loop
        self.index, self.count, self.fits = given['index'], given['count'], given['fits']
        self.locals, self.slices = given.get('locals', {}), given.get('slices', {})
        self.steps, self.free, self.open = given.get('steps', {}), given.get('free'), given.get('open', [])
        # what a turn hands on besides the number of turns: that a local's value is good, how long a slice's list is
        self.carried = [('local', k) for k in self.locals if k <= len(function.params)] + [
            ('slice', p) for p, (_, length, _) in self.slices.items() if length is None] + self.open
        self.next_fits = 'fits-next less' if self.carried else (
            'fits (next less %s refl)' % self.free if self.free else 'fits (next less)')

    def carried_at(self, index):
        return 'i .1 .1' + ' .1' * (len(self.open) + index) + (' .0' if index < len(self.carried) - 1 else '')

    def here(self, text):
        return at_turn(text, i='(%s)' % self.at)

    def walk(self, walk, turn, rest, number):
        for local in sorted(walk.full):
            if walk.values[local] is None:
                walk.forget(local)
        walk.context.bring(*walk.order())
        full, inner = set(walk.full), walk.fork()
        given, handed = self.begin(walk, inner)
        inner.fits, inner.index, cells = self.next_fits, 'Upto', inner.cells(full)
        goes, over = self.halves(inner, turn, number)
        self.settle(goes, full)
        self.lead_on(goes)
        self.turn_again(goes)
        over.run(rest[:-1])
        over.leave(self.ends(mir.returned(rest)))
        places = ' '.join('l-%d' % k for k in range(walk.code.count))
        self.text = self.before() + '{names}' + self.laid(
            walk, goes, over, given=' '.join(given), index='Upto', number=str(number), cells=' ∷ '.join(cells),
            what='what the walk has after i turns') + self.behind()
        walk.step('first ! $ blocks ! $ loops ! 𝓣 Nearer Nearer-wf (At %s %s) (turns %s %s) (0, %s)' % (
            ' '.join(handed), places, ' '.join(handed), places, self.first(walk)))

    def begin(self, walk, inner):
        """what the locals and slices hold where turn i begins; what is known of the others is handed in"""
        given, handed = [], []
        for local in sorted(walk.full):
            value, own = walk.values[local], local in self.locals
            if local == self.index or not isinstance(value, Value) or ('local', local) in self.open:
                continue
            if local <= len(self.function.params) and not own:
                continue
            if own:
                good = self.carried_at(self.carried.index(('local', local))) if ('local', local) in self.carried else 'tt'
                inner.values[local] = Value(value.type, self.here(self.locals[local]), good)
            elif value.type.good(value.term):
                given.append('(g-L%d : %s)' % (local, value.type.good(atom(value.term))))
                handed.append(atom(value.good))
                inner.values[local] = Value(value.type, value.term, 'g-L%d' % local)
        for j, (kind, which) in enumerate(self.open):
            holds = '(i .1 .1%s .0)' % (' .1' * j)
            if kind == 'local':
                inner.values[which] = Value(walk.values[which].type, holds, self.carried_at(j))
            else:
                inner.now[which], inner.length[which] = holds, self.carried_at(j)
        inner.values[self.index] = Value(NUMBERS[64], '(%s)' % self.at, 'fits i')
        for name, (term, length, _) in self.slices.items():
            inner.now[name] = self.here(term)
            inner.length[name] = self.carried_at(self.carried.index(('slice', name))) if length is None else self.here(
                length)
        if self.free:
            inner.now[self.free], inner.length[self.free] = 'i .1 .1 .0', 'i .1 .1 .1'
        return given, handed

    def lead_on(self, walk):
        """what the slices and locals hold is what the next turn begins with"""
        one_more = 'sym (add-one (%s))' % self.at
        for name, (term, _, step) in self.slices.items():
            run = walk.runs[name]
            walk.step('rewrite ! %d (λ (l : List %s). ‵ (holds %s b-%s o-%s m-%s κ-%s δ-%s l)) (%s ∙ ap (λ (k : ℕ). %s) '
                      '(%s)) refl' % (walk.context.entries.index('S-' + name), run.type.denot, run.type.row, name, name,
                                      name, name, name, self.here(step), at_turn(term, i='k'), one_more))
        for local, term in self.locals.items():
            kind = walk.values[local].type
            fat = '‵ (fat fullShare (τ %d) l-%d 0 (%%s))' % (local, local)
            if local in self.steps:
                walk.step('rewrite ! %d (λ (h : %s). %s) (%s) refl' % (
                    walk.position(local), kind.denot, fat % kind.machine('h'), self.here(self.steps[local])))
            walk.step('rewrite ! %d (λ (k : ℕ). %s) (%s) refl' % (
                walk.position(local), fat % kind.machine('(%s)' % at_turn(term, i='k')), one_more))

    def turn_again(self, walk):
        """to the next turn, with what it is handed"""
        there = 'next less %s (%s)' % (atom(walk.now[self.free]), walk.length[self.free]) if self.free else 'next less'
        self.types = []
        for kind, which in self.open:
            there += ' %s' % atom(walk.values[which].term if kind == 'local' else walk.now[which])
        for j, (kind, which) in enumerate(self.open):
            value = walk.values.get(which)
            has = value.type.good('v-%d' % j) or 'Unit {0}' if kind == 'local' else 'length v-%d ≡ m-%s' % (j, which)
            self.types.append(has)
            there += ' (%s)' % (value.good if kind == 'local' else walk.length[which])
        self.held = [walk.values[which].type.denot if kind == 'local' else 'List ' + walk.runs[which].type.denot
                     for kind, which in self.open]
        for kind, which in [] if self.open else self.carried:
            term = self.locals[which] if kind == 'local' else self.slices[which][0]
            has = walk.values[which].type.good('(%s)' % term) if kind == 'local' else 'length (%s) ≡ m-%s' % (term, which)
            self.types.append(has)
            there += ' (subst (λ (k : ℕ). %s) (sym (add-one (%s))) (%s))' % (
                at_turn(has, i='k'), self.at, walk.values[which].good if kind == 'local' else walk.length[which])
        if self.free:
            self.denot = walk.runs[self.free].type.denot
        walk.step('again ! Nearer At i (%s) (add-one-dec n (%s) (ltb→lt (%s) n less))' % (there, self.at, self.at))

    def ends(self, returned):
        """the facts where the loop is left, after n turns; a result is that local"""
        there = 'le-antisymm (i .1%s) (nltb→le (%s) n over)' % (' .0' if self.carried else '', self.at)
        terms = {name: term for name, (term, _, _) in self.slices.items()}
        terms['r'] = self.locals.get(returned)
        return ['ap (λ (k : ℕ). %s) (%s) ∙ %s' % (at_turn(terms[target], i='k'), there, atom(proof))
                for (target, _), proof in zip(self.function.facts, self.function.exit)]

    def first(self, walk):
        """where the loop begins"""
        if self.free:
            return '(zero-le, (%s, %s))' % (walk.now[self.free], walk.length[self.free])
        if not self.carried:
            return 'zero-le'
        value = lambda kind, which: walk.values[which].term if kind == 'local' else walk.now[which]
        good = lambda kind, which: walk.values[which].good if kind == 'local' else walk.length[which]
        return '(zero-le, %s)' % pair([value(*o) for o in self.open] + [good(*c) for c in self.carried])

    def before(self):
        """what the turns are counted by"""
        upto = '(i : ℕ) × (i ≤ n)'
        if self.free:
            upto = '(i : ℕ) × ((i ≤ n) × ((l : List %s) × (length l ≡ m-%s)))' % (self.denot, self.free)
        elif self.carried:
            upto = product([at_turn(has, i='i') for has in self.types])
            for j in reversed(range(len(self.open))):
                upto = '(v-%d : %s) × (%s)' % (j, self.held[j], upto)
            upto = '(i : ℕ) × ((i ≤ n) × (%s))' % upto
        return '''  abbrev n : ℕ
  n = %s

  -- the turns so far, at most n; a turn brings the walk nearer to n
  abbrev Upto : Type 0
  Upto = %s

  abbrev Nearer : Upto → Upto → Type 0
  Nearer j i = n - j .0 < n - i .0

  Nearer-wf : WellFounded Nearer
  Nearer-wf = InvImage·wf (λ (i : Upto). n - i .0) (Nat·lt-wfRel .wf)
''' % (self.count, upto)

    def behind(self):
        """that the number of turns fits, and where the next turn is"""
        up, fits, further = 'add-one-le (ltb→lt (i .0) n less)', atom(self.fits), self.free or self.carried
        if self.free:
            kept, names = '(l : List %s) → length l ≡ m-%s → ' % (self.denot, self.free), ['l', 'e']
        else:
            kept = ''.join('%s → ' % k for k in ['(v-%d : %s)' % (j, self.held[j]) for j in range(len(self.open))] + [
                at_turn(has, i='(i .0 + 1)') for has in self.types])
            names = ['v-%d' % j for j in range(len(self.open))] + ['c-%d' % j for j in range(len(self.carried))]
        text = '''        where
          fits : (j : Upto) → j .0 < 2 ^ 64
          fits j = lt-of-le-of-lt (%s) %s

          next : Holds (ltb (i .0) n) → %sUpto
          next less%s = (i .0 + 1, %s)
''' % ('j .1 .0' if further else 'j .1', fits, kept, ''.join(' ' + n for n in names) if further else '',
       '(%s, %s)' % (up, pair(names)) if further else up)
        if self.carried:
            text += '''
          fits-next : Holds (ltb (i .0) n) → i .0 + 1 < 2 ^ 64
          fits-next less = lt-of-le-of-lt (%s) %s
''' % (up, fits)
        return text
