"""Names for what the calls of a walk leave, so that the term of each stands once in the proof."""
import re

from .terms import atom

# what a call leaves that nothing is said of is bound where it is heard: it has no name outside
HEARD = re.compile(r'\bx\d+\b')


# that an operand which is a part of a local has this value, where the local lies in entry n of the context
READ = '''  {law} : {{Key : Type 0}} {{Γ : List (Item 𝓤)}} (y : {denot}) ({places} : ℕ) → Key → (n : ℕ)
      → nth 𝓤 H A n Γ ≡ ‵ (fat fullShare (τ {local}) l-{local} 0 ({whole}))
      → Opd Key W Γ (envOf mir′.locals ({listed} ∷ [])) (copy (place {local} ({fields} ∷ []))) ({value})
  {law} y {places} t n e = load t (from t {found}) (look-at t n e {part})
'''


class Names:
    def __init__(self):
        self.before, self.inside, self.reads = [], [], {}

    def read(self, local, fields, kind, value, places):
        """the name of the law that reads a part of a local. It stands by itself, so that what the part is of the whole is
        computed once and not at every later step"""
        law = '-'.join(['read'] + [str(k) for k in [local] + fields])
        found, part = '(stop t)', '(whole t)'
        for field in fields:
            found, part = '(fld t refl %s)' % found, '(sub t %d refl %s)' % (field, part)
        self.reads[law] = READ.format(
            law=law, denot=kind.denot, places=places, local=local, whole=kind.machine('y'), part=part, found=found,
            listed=' ∷ '.join(places.split()), fields=' ∷ '.join('field %d' % f for f in fields),
            value=value.type.machine(atom(value.term)))
        return law

    def of(self, alias, number, kind, term, index):
        """the name of a term; in a loop's turn it takes where the loop stands, of type `index`"""
        if atom(term) == term or HEARD.search(term):
            return term
        name = '%s-%d' % (alias, number)
        if index is None:
            self.before.append('  abbrev %s : %s\n  %s = %s\n' % (name, kind, name, term))
            return name
        self.inside.append('  abbrev %s : %s → %s\n  %s i = %s\n' % (name, index, kind, name, term))
        return name + ' i'
