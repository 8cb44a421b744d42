"""What a local of the walked function holds."""
from .values import Boolean, Number

BOOLEAN = Boolean()
NUMBERS = {width: Number('usize' if width == 64 else 'u%d' % width, 'w%d' % width) for width in (8, 16, 32, 64)}


class Value:
    """a local's value: its type, its term, and that the term is good"""

    def __init__(self, kind, term, good):
        self.type, self.term, self.good = kind, term, good


class Slice:
    def __init__(self, name):
        self.name = name


class Pointer:
    def __init__(self, name):
        self.name = name


class Lent:
    """a run that can be lent on: a slice of the function's own, or (kind `own`) an array in one of its locals"""

    def __init__(self, name, kind, element, local=None, size=None):
        self.name, self.kind, self.type, self.local, self.size = name, kind, element, local, size

    def spot(self):
        if self.kind == 'own':
            return 'l-%d 0 %s' % (self.local, self.size)
        return 'b-%s o-%s m-%s' % (self.name, self.name, self.name)

    def fits(self):
        return 'lit< tt' if self.kind == 'own' else 'room-%s .0' % self.name
