"""How a value of each type stands in the text of a proof.

A description has a table of types, name -> one of the classes here. With the prefix T of a struct or an enum, the
proof's text has T.the-row, T.the-type, T′.the-laws, T′.the-plain and T′.the-copy in scope.

    row          the type, as the logic's library has it
    denot        what a value of it is in a contract
    machine(x)   the machine's value of x
    good(x)      that x is in the type's range; None where every x is
    own(x, g)    the step that makes an owned value of x, which is good by g
    typed(x, g)  that the machine's value of x may stand in a local
    told(x, u)   what a call tells: u is the machine's value of x, and x is good
"""


class Number:
    def __init__(self, row, width):
        self.row, self.width, self.denot = row, width, 'ℕ'

    def machine(self, x):
        return 'vint %s %s' % (self.width, x)

    def good(self, x):
        return '%s < 2 ^ %s' % (x, self.width[1:])

    def own(self, x, g):
        return 'owned ! %s (Is %s) (uint-makes 𝓤 H A W %s) %s _ (refl, %s)' % (self.row, self.row, self.width, x, g)

    def typed(self, x, g):
        return '(tt, record { fits = %s })' % g

    def told(self, x, u):
        return '(%s ≡ vint %s (%s)) × (%s < 2 ^ %s)' % (u, self.width, x, x, self.width[1:])

    def told_as(self, x, equal):
        """a proof of `told`, where `is` says what the result r is, and `equal` that r is x"""
        if equal is None:
            return '(ap only (is .0), is .1)'
        return '(ap only (is .0) ∙ ap (vint %s) (%s), subst (λ (z : ℕ). z < 2 ^ %s) (%s) (is .1))' % (
            self.width, equal, self.width[1:], equal)

    def landed(self, x, u, told):
        """that a result may stand in a local; that it is good; and that it is the machine's value of x"""
        return 'num-typed %s %s %s (%s)' % (self.width, u, x, told), '%s .1' % told, '%s .0' % told

    def law(self, name):
        return 'uint-%s %s' % (name, self.width)

    def owed(self, text):
        """that a field of this type is good, from what a struct owes of it"""
        return text + ' .1'

    def entered(self, text):
        """that a param of this type is good, from what the function is entered with"""
        return '(%s .1)' % text


class Boolean:
    row, denot = 'bool', 'Bool'

    def machine(self, x):
        return 'vbool %s' % x

    def good(self, x):
        return None

    def own(self, x, g):
        return 'owned ! bool (Is bool) (bool-makes 𝓤 H A W) %s _ refl' % x

    def typed(self, x, g):
        return '(tt, tt)'

    def told(self, x, u):
        return '%s ≡ vbool (%s)' % (u, x)

    def told_as(self, x, equal):
        return 'ap only is' if equal is None else 'ap only is ∙ ap vbool (%s)' % equal

    def landed(self, x, u, told):
        return 'bool-typed %s %s (%s)' % (u, x, told), 'tt', told

    def law(self, name):
        return 'bool-' + name

    def owed(self, text):
        return text

    def entered(self, text):
        return '(%s)' % text


class Made:
    """what structs, enums and arrays of structs have in common"""
    module = laws = count = witness = ''

    def machine(self, x):
        return '%s.mach %s.the-type %s′.the-laws%s %s' % (self.module, self.prefix, self.prefix, self.count, x)

    def good(self, x):
        return '%s.Good %s.the-type %s′.the-laws%s %s' % (self.module, self.prefix, self.prefix, self.count, x)

    def own(self, x, g):
        return 'owned ! %s (Is %s) (%s.makes %s.the-type %s′.the-plain 𝓤 H A) %s _ %s' % (
            self.row, self.row, self.laws, self.prefix, self.prefix, x, g)

    def typed(self, x, g):
        return '(%s.typed %s.the-type %s′.the-laws%s %s𝓤 H A W %s (%s) (refl, %s))' % (
            self.module, self.prefix, self.prefix, self.count, self.witness, x, self.machine(x), g)

    def told(self, x, u):
        return '%s.IsValue %s.the-type %s′.the-laws%s (%s) %s' % (
            self.module, self.prefix, self.prefix, self.count, x, u)

    def told_as(self, x, equal):
        same = ('r', 'refl') if equal is None else ('(%s)' % x, '(%s)' % equal)
        return '%s.is-value %s.the-type %s′.the-laws%s r %s u %s is' % (
            self.module, self.prefix, self.prefix, self.count, *same)

    def landed(self, x, u, told):
        typed = '%s.typed %s.the-type %s′.the-laws%s %s𝓤 H A W %s %s (%s)' % (
            self.module, self.prefix, self.prefix, self.count, self.witness, x, u, told)
        return typed, '%s .1' % told, '%s .0' % told

    def law(self, name):
        return '%s.%s %s.the-type %s′.the-laws' % (self.laws, name, self.prefix, self.prefix)

    def owed(self, text):
        return text

    def entered(self, text):
        return '(%s)' % text


class Struct(Made):
    """fields: (name, type's name) of each, in the code's order, where a walk reads one"""
    module, laws = 'Value', 'LL'

    def __init__(self, denot, prefix, fields=()):
        self.denot, self.prefix, self.fields, self.row = denot, prefix, list(fields), prefix + '.the-row'


class Enum(Made):
    module, laws, witness = 'Choice', 'EL', 'tt '

    def __init__(self, denot, prefix):
        self.denot, self.prefix, self.row = denot, prefix, prefix + '.the-row'


class Array(Made):
    """`size` elements of a struct"""
    module, laws = 'Listed', 'LL'

    def __init__(self, element, prefix, size):
        self.element, self.prefix, self.size = element, prefix, size
        self.count, self.denot = ' %d' % size, '(List %s)' % element
        self.row = '(Array %s.the-row %d)' % (prefix, size)

    def own(self, x, g):
        makes = 'array-makes 𝓤 H A W %s.the-row (LL.makes %s.the-type %s′.the-plain 𝓤 H A) %d' % (
            self.prefix, self.prefix, self.prefix, self.size)
        return 'owned ! %s (Is %s) (%s) %s _ %s' % (self.row, self.row, makes, x, g)
