"""Arrays in a walk's locals: one that is written whole, or that a call returned, is taken apart into its elements, so that it
can be lent, and put together again to be passed by value."""
from . import mir
from .locals import Lent, Slice, Value
from .terms import atom


class Arrays:
    """what a walk does with them"""

    def assign_repeat(self, local, right, put):
        """an array written whole, and taken apart into its elements"""
        (source, _), size = mir.place(right[1][1]), right[2]
        value = self.values[source]
        kind, term = value.type, atom(value.term)
        row, prefix, name = kind.row, kind.prefix, 'own-%d' % local
        elements = 'replicate %s %s' % (size, term)
        machine = 'arrayVal (replicate %s (%s))' % (size, kind.machine(term))
        self.context.push(kind.own(term, atom(value.good)), 'all')
        self.step('use1 W (‵ (Array %s %s .own (%s) (%s ∷ []))) (array-repeat 𝓤 H A W %s (LL.copy %s.the-type %s′.the-copy '
                  '𝓤 H A W) %s %s (%s))' % (row, size, elements, machine, row, prefix, prefix, size, term,
                                            kind.machine(term)))
        self.step('peeks ! (Array %s %s) (Is (Array %s %s)) (shows 𝓤 H A (Array %s %s)) (%s) (%s ∷ []) (λ is. ' % (
            row, size, row, size, row, size, elements, machine))
        self.open += 1
        step = self.operand(right[1])[0]
        lawful = 'array-lawful 𝓤 H A W %s (LL.lawful %s.the-type %s′.the-laws 𝓤 H A W) %s .typed (%s) _ is .0' % (
            row, prefix, prefix, size, elements)
        self.step('assigns ! (rep ! %s %s) %s' % (size, step, self.store(local, '(%s)' % lawful)))
        self.into_elements(local, Lent(name, 'own', kind, local, size), elements, machine)
        self.length[name] = 'length-replicate %s %s' % (size, term)

    def into_elements(self, local, run, elements, machine):
        """the array in a local becomes a run of elements"""
        self.full.discard(local)
        self.context.bring('L%d' % local, 'all')
        self.step('use2 W (‵ (row %s fullShare (%s) l-%d 0)) (array-in 𝓤 H A W %s %s l-%d 0 tt (%s) (%s))' % (
            run.type.row, elements, local, run.type.row, run.size, local, elements, machine))
        self.context.entries[:2] = ['S-' + run.name]
        self.runs[run.name], self.now[run.name], self.arrays[local] = run, elements, run.name
        self.values[local] = Slice(run.name)

    def apart(self, local):
        """an array that a local in memory holds, taken apart into its elements so that it can be lent"""
        value = self.values[local]
        kind, term = value.type, atom(value.term)
        element = next(t for t in self.function.types.values() if t.denot == kind.element)
        run = Lent('own-%d' % local, 'own', element, local, kind.size)
        self.context.push(kind.own(term, atom(value.good)), 'all')
        self.into_elements(local, run, value.term, kind.machine(term))
        self.length[run.name] = '%s .1 .0 .1' % atom(value.good)
        self.whole[local] = kind

    def together(self, local):
        """such an array put together again, to be passed by value"""
        name, kind = self.arrays.pop(local), self.whole[local]
        now = atom(self.now[name])
        self.context.bring('S-' + name)
        self.step('use1 W (given (%s) (‵ (fat fullShare (τ %d) l-%d 0 (%s)))) (Listed.array-back %s.the-type '
                  '%s′.the-laws%s 𝓤 H A W l-%d 0 %s (%s)) $ learn ! (λ whole-%d. ' % (
                      kind.good(now), local, local, kind.machine(now), kind.prefix, kind.prefix, kind.count, local, now,
                      self.length[name], local))
        self.open += 1
        self.context.entries[0] = 'L%d' % local
        self.full.add(local)
        self.values[local] = Value(kind, self.now[name], 'whole-%d' % local)
