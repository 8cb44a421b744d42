"""A loop in a walk: its turn is a walk of its own, and what follows the loop is walked where the turn leaves it.

`while i < stop { .. i = i + 1; }` is described by
    loop    dict(index=local, count=what the index stays below, fits=that this is below 2^64,
            slices={param: (its list at turn {i}, that it is as long as at first, that a turn leads to the next)},
            locals={local: what it holds at turn {i}}, steps={local: that a turn leads to the next}, where that is not
            `refl`); or free=param: the one slice that a turn changes, and that nothing is said of.
            With None for a slice's length, and a param among the locals, that the slice is as long and the value good
            is handed on from turn to turn. open=[('local', number) or ('slice', param)..]: nothing is said of these
            either, and a turn hands on what they hold.
`while test(..) { .. }`, whose turn ends with an assignment, by
    falls   dict(state={name: local of a number that a turn changes}, locals={local: what it holds, in {name}s},
            law=what holds at each turn, first=that it does at first, next=that a turn keeps it, measure=a number,
            less=that a turn makes it less, ends=[proof of each fact where the loop is left]). In these {law} is that the
            law holds, {on} that the test came out, {off} that it did not.
A function with no `ensures` has facts=[], and among its `uses` the step `silent` at its exit.
"""
from .counting import Counting
from .locals import Value
from .terms import at_turn, pair, product
from .turns import Turns


class Falling(Turns):
    """while test(..) { .. }: each turn makes a measure less"""

    def __init__(self, function):
        super().__init__(function)
        self.given = function.falls
        self.names, self.state = list(self.given['state']), list(self.given['state'].values())
        self.kept = self.state + list(self.given['locals'])

    def at(self, name, index='i'):
        return '(%s%s .0)' % (index, ' .1' * self.names.index(name))

    def has(self, index):
        """of what is known where the loop stands, the part at `index`: that each number is good, then the law"""
        return 'i' + ' .1' * (len(self.names) + index) + (' .0' if index < len(self.kept) else '')

    def here(self, text, **more):
        return at_turn(text, law='(%s)' % self.has(len(self.kept)), **{n: self.at(n) for n in self.names}, **more)

    def where(self, walk, law):
        """where the loop stands, from what the locals hold"""
        return pair([walk.values[k].term for k in self.state] + [walk.values[k].good for k in self.kept] + [law])

    def walk(self, walk, turn, rest, number):
        for local in sorted(walk.full):
            if local > len(self.function.params) and local not in self.kept:
                walk.forget(local)
        walk.context.bring(*walk.order())
        full, inner = set(walk.full), walk.fork()
        for j, local in enumerate(self.kept):
            term = self.at(self.names[j]) if j < len(self.names) else self.here(self.given['locals'][local])
            inner.values[local] = Value(walk.values[local].type, term, self.has(j))
        inner.index, cells = 'Stands', inner.cells(full)
        goes, over = self.halves(inner, turn, number)
        self.settle(goes, full)
        goes.step('again ! Nearer At i %s (%s)' % (
            self.where(goes, self.here(self.given['next'], on='less')), self.here(self.given['less'], on='less')))
        over.run(rest[:-1])
        over.leave([self.here(proof, off='over') for proof in self.given['ends']])
        places = ' '.join('l-%d' % k for k in range(walk.code.count))
        self.text = self.before(walk) + '{names}' + self.laid(
            walk, goes, over, given='', index='Stands', number=str(number), cells=' ∷ '.join(cells),
            what='what the walk has there')
        walk.step('first ! $ blocks ! $ loops ! 𝓣 Nearer Nearer-wf (At %s) (turns %s) %s' % (
            places, places, self.where(walk, self.given['first'])))

    def before(self, walk):
        """where the loop may stand"""
        bare = {name: name for name in self.names}
        known = []
        for j, local in enumerate(self.kept):
            term = self.names[j] if j < len(self.names) else '(%s)' % at_turn(self.given['locals'][local], **bare)
            known.append(walk.values[local].type.good(term) or 'Unit {0}')
        stands = product(known + [at_turn(self.given['law'], **bare)])
        for name in reversed(self.names):
            stands = '(%s : ℕ) × (%s)' % (name, stands)
        measure = lambda index: at_turn(self.given['measure'], **{n: self.at(n, index) for n in self.names})
        return '''  -- where the loop stands, and what holds there; a turn makes the measure less
  abbrev Stands : Type 0
  Stands = %s

  abbrev Nearer : Stands → Stands → Type 0
  Nearer j i = %s < %s

  Nearer-wf : WellFounded Nearer
  Nearer-wf = InvImage·wf (λ (i : Stands). %s) (Nat·lt-wfRel .wf)
''' % (stands, measure('j'), measure('i'), measure('i'))


def loop_of(function):
    """the loop that a function's description has, or none"""
    return Counting(function) if function.loop else Falling(function) if function.falls else None
