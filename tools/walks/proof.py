"""The whole proof that a function meets its contract: its entry, its exits, the walk, and what is said of all programs."""
from . import mir
from .callee import GIVEN, MEMORY, PROGRAM, denoted, handed, held, reference, token
from .context import Context
from .library import BRANCH, LOOP, OWN, WALK
from .loops import loop_of
from .names import Names
from .straight import Walk
from .terms import nest, nest_types, pair, place

CALLED = '''use {module}.Symbol as {alias}-def
use {module}.Symbol.{{name as #{alias}}}
use {module}.Met as {alias}-thm
use {made}.{{{name}, to-{alias}, {alias}-said, {alias}-goes, {alias}-gives}}'''
OWNED = '''use {path}.Key.{{name as #own}}
use {path} as own
use {path}.Statement as stated
use {path}.Code as code
use {path}.Code.Mir as mir′
'''
TABLES = '''  module _ (𝓣 : Tables 𝓤 H) %s where
    abbrev C : Calls 𝓤 H
    C = 𝓣 .C

    abbrev Λ : Loops 𝓤 H
    Λ = 𝓣 .Λ

    fm : FmC 𝓤 H (W .laws) C
    fm = fmOf 𝓤 H (W .laws) 𝓣
'''
END = '''pub {name}-spec : {{M : Type 1}} → stated.statement M
unfolding code.routine tablesOf
{name}-spec 𝓤 H 𝓜 𝓖 𝓡 =
    entered 𝓤 H (tripleOf 𝓤 H (𝓖 .A) own.signature (own.spec {here}))
    (tables 𝓤 H 𝓜 𝓡 code.env .C) (tables 𝓤 H 𝓜 𝓡 code.env .Λ) #own code.function (code.unfolded 𝓤 H 𝓜 𝓡)
    (own-meets 𝓤 H (𝓖 .A) (givenOf 𝓤 H 𝓜 𝓖) (𝓜 .mem) (𝓡 .run) (tablesOf 𝓤 H 𝓜 (tables 𝓤 H 𝓜 𝓡 code.env))
{cited})'''
HERE = '𝓤 H (𝓖 .A) (𝓜 .mem) (𝓡 .run)'


class Proof:
    def __init__(self, description, function, code):
        self.description, self.function, self.code = description, function, code
        if mir.calls(code.body) != len(function.calls):
            raise SystemExit('regenerate: %s has %d calls, and its description %d' % (
                function.mir, mir.calls(code.body), len(function.calls)))
        self.slices = function.slices
        self.lifetimes = nest(['κ-' + p.name for p in self.slices])
        self.shares = nest(['q-' + p.name for p in self.slices])
        self.start = '((%s, %s, bounds, a, at), tt)' % (self.lifetimes, self.shares)
        self.handed = ' ∷ '.join(handed(p) for p in function.params) + ' ∷ []'
        self.fun = '(WpFn 𝓤 H (𝓣 .C) (𝓣 .Λ) code.function)'
        self.changed = [p for p in self.slices if p.lent == 'mut']

    def number(self, p):
        return self.slices.index(p)

    def text(self):
        """the proof, without its first line"""
        names = Names()
        loop = loop_of(self.function)
        walk = self.entered(names, loop)
        walk.run(self.code.body)
        return '\n'.join([
            '-- `%s` meets its contract: a walk of its code. Assumes nothing.' % self.function.mir, self.uses(),
            self.stayed(), self.given(), self.exits(), *names.reads.values(),
            *names.before, self.walked(walk, loop), self.walks(), self.meets(),
            self.end()]) + '\n'

    def uses(self):
        f, lines = self.function, [WALK, LOOP, BRANCH, OWN, self.description.uses] + self.function.uses
        for c in f.callees():
            lines.append(CALLED.format(module=c.module, alias=c.alias, made=c.made, name=c.name))
        return '\n'.join(lines + [OWNED.format(path='Rattle·%s·proofs.proofs.%s' % (f.crate, f.path))])

    # ---- where the function is entered

    def stayed(self):
        return ('abbrev stayed : Stays (own.ended .signature .params) (own.ended .kept)\nstayed = %s\n\n'
                'abbrev τ : ℕ → Ty\nτ = tyAt mir′.locals\n' % nest([self.stays(p) for p in self.function.params]))

    def stays(self, p):
        if not p.lent:
            return 'stay-none (λ _. %s) yes' % p.type.row
        if p.lent == 'mut':
            return 'stay-slice (%d ∷ []) tt (plain (λ _. %s))' % (self.number(p), p.type.row)
        return 'stay-none-slice (%d ∷ []) tt (plain (λ _. %s)) yes' % (self.number(p), p.type.row)

    def given(self):
        params = self.function.params
        values = ' '.join('(b-%s o-%s : ℕ) (δ-%s : GName) (%s : List %s)' % (*[p.name] * 4, p.type.denot) if p.lent else
                          '(%s : %s)' % (p.name, p.type.denot) for p in params)
        known = ' '.join('(room-%s : Room %s (length %s))' % (p.name, p.type.row, p.name) if p.lent else
                         '(g-%s : %s)' % (p.name, p.type.good(p.name)) for p in params if p.lent or p.type.good(p.name))
        lines = ['module _ %s (W : Given 𝓤 H A) %s (%s : Lft) (bounds : AllOutlive %d (own.signature .outlives) %s) '
                 '(%s : Share) %s %s where' % (
                     GIVEN, PROGRAM, ' '.join('κ-' + p.name for p in self.slices), len(self.slices), self.lifetimes,
                     ' '.join('q-' + p.name for p in self.slices), values, known)]
        lines += ['  abbrev m-%s : ℕ\n  m-%s = length %s\n' % (p.name, p.name, p.name) for p in self.slices]
        lines.append('  abbrev a : %s\n  a = %s\n' % (
            nest_types([denoted(p) for p in params]), nest([reference(p) if p.lent else p.name for p in params])))
        lines.append('  abbrev at : Vals own.signature %s\n  at = %s\n' % (
            self.lifetimes, nest([handed(p) + ' ∷ []' for p in params])))
        lines.append('  abbrev Post : Val → SProp 𝓤\n  Post = walkOf 𝓤 H A own.ended stayed (own.clauses %s) .post %s\n' % (
            MEMORY, self.start))
        return '\n'.join(lines)

    # ---- where it is left

    def exits(self):
        f, result = self.function, self.function.result
        facts = [('h' if target == 'r' else 'z-' + target) + ' ≡ ' + term for target, term in f.facts]
        lengths = ['length z-%s ≡ m-%s' % (p.name, p.name) for p in self.changed]
        by, long = ['e-%d' % j for j in range(len(facts))], ['n-' + p.name for p in self.changed]
        asked, names = (facts + lengths, by + long) if result else (lengths + facts, long + by)
        if result and result.good('h'):
            asked.append(result.good('h'))
            names.append('g-h')
        had = ''.join('%s ∷ %s ∷ ' % (held(p, 'z-' + p.name if p.lent == 'mut' else p.name), token(p))
                      for p in self.slices) + '[]'
        value = result.machine('h') if result else 'vunit'
        values = ('(h : %s) ' % result.denot if result else '') + ' '.join(
            '(z-%s : List %s)' % (p.name, p.type.denot) for p in self.changed)
        return '  exits : %sent 𝓤 (⋆ 𝓤 H A (%s)) (Post (%s))\n  exits %s =\n      qed W (%s) ∵ %s\n' % (
            values + ''.join(' → %s' % a for a in asked) + ' → ' if values else '', had, value,
            ' '.join((['h'] if result else []) + ['z-' + p.name for p in self.changed] + names), had,
            self.giving_back(value, by))

    def giving_back(self, value, by):
        """the steps from what the walk has at a return to what the contract asks for"""
        params, result = self.function.params, self.function.result
        x = Context([y for p in self.slices for y in ('S-' + p.name, 'T-' + p.name)])
        x.step('suffices ! _ (ends-at 𝓤 H A own.ended stayed (own.clauses %s) W %s (%s) %s %s %s)' % (
            MEMORY, self.start, value, 'h' if result else 'tt',
            nest(['z-' + p.name if p.lent == 'mut' else 'tt' for p in params]),
            nest(['n-' + p.name if p.lent == 'mut' else 'tt' for p in params])))
        x.step('says ! %s' % pair(by) if by else 'silent !')
        x.push('nothing !', 'tokens')
        for p in reversed(self.slices):
            x.bring('T-' + p.name, 'tokens')
            x.merge('join !', 'tokens')
        x.step('frame !')
        x.entries.remove('tokens')
        x.push('nothing !', 'owns')
        for p in reversed(params):
            if p.lent:
                x.bring('S-' + p.name, 'owns')
            else:
                x.push(p.type.own(p.name, 'g-' + p.name), 'v')
            x.merge('fjoin !', 'owns')
        x.step('frame !')
        x.step(result.own('h', 'g-h') if result else 'feqI ! (List Val) (vunit ∷ []) (vunit ∷ []) refl')
        x.step('done !')
        return x.on_a_line()

    # ---- the walk

    def entered(self, names, loop):
        """a walk that has taken its params and taken apart what it is handed"""
        walk = Walk(self.function, self.code, names, loop)
        x = walk.context
        for local in range(self.code.count):
            walk.step('alloc1 ! (λ l-%d. ' % local)
            walk.open += 1
        walk.step('alloc0 !')
        walk.step('params1 !')
        for j, p in enumerate(self.function.params):
            typed = '(tt, (tt, (record { fits = room-%s .0 }, tt)))' % p.name if p.lent else p.type.typed(
                p.name, 'g-' + p.name)
            walk.step('pass1 ! (init ! %d refl %s)' % (walk.position(j + 1), typed))
        walk.step('pass0 !')
        for p in self.function.params:
            x.bring('owns')
            x.divide('fsplit !', 'S-' + p.name if p.lent else 'v', 'owns')
            if not p.lent:
                x.drop()
        x.bring('owns')
        x.drop()
        for p in self.slices:
            x.bring('tokens')
            x.divide('split !', 'T-' + p.name, 'tokens')
        x.bring('tokens')
        x.drop()
        return walk

    def walked(self, walk, loop):
        callees = ' '.join('(k-%s : Triple 𝓤 (𝓣 .C #%s) (%s %s))' % (c.alias, c.alias, c.name, MEMORY)
                           for c in self.function.callees())
        rows = ' ∷ '.join('%s (named %d) κ-%s %s' % (
            'MutSlice' if p.lent == 'mut' else 'ShrSlice', self.number(p), p.name, p.type.row) if p.lent else p.type.row
            for p in self.function.params) + ' ∷ []'
        tokens = ' ⊛ '.join([token(p) for p in self.slices] + ['‵ ftrue'])
        return '\n'.join([
            loop.text.replace('{callees}', callees).replace('{names}', '\n' + '\n'.join(walk.names.inside))
            if loop else TABLES % callees,
            '    walk : ent 𝓤 (onEntry 𝓤 H A own.signature %s %s a at) (WpFn 𝓤 H C Λ code.function (%s) Post)' % (
                self.lifetimes, self.shares, self.handed),
            '    walk =\n        qed W ((%s) ∷ ‵ (owns (%s) a at) ∷ []) ∵ enter ! C Λ code.function (%s) _ $\n'
            '        %s\n' % (tokens, rows, self.handed, walk.text())])

    # ---- from the walk to the statement

    def triples(self):
        return ''.join('Triple 𝓤 (𝓣 .C #%s) (%s %s) → ' % (c.alias, c.name, MEMORY) for c in self.function.callees())

    def known(self):
        return ' '.join('k-' + c.alias for c in self.function.callees())

    def tells(self, p):
        if not p.lent:
            return p.type.law('tells')
        return '%s-slice-tells (named %d) (%s) %s' % (p.lent, self.number(p), place('κs', self.number(p)), p.type.row)

    def arguments(self):
        """of the walk, from what the function is entered with"""
        params, count = self.function.params, len(self.slices)
        values, known = [], []
        for j, p in enumerate(params):
            at, are = place('a', j), place('are', j)
            values.append('(%s .ptr .0) (%s .ptr .1) (%s .name) (%s .now)' % (at, at, at, at) if p.lent else '(%s)' % at)
            if p.lent:
                known.append('(%s .0 .1)' % are)
            elif p.type.good(p.name):
                known.append(p.type.entered(are))
        return ' '.join(['(%s)' % place('κs', j) for j in range(count)] + ['bounds'] + [
            '(%s)' % place('qs', j) for j in range(count)] + values + known)

    def walks(self):
        values = nest(['slice-vals' if p.lent else p.type.law('vals') for p in self.function.params])
        tells = nest([self.tells(p) for p in self.function.params])
        return '\n'.join([
            'module _ %s (W : Given 𝓤 H A) %s where' % (GIVEN, PROGRAM),
            '  own-walks : (𝓣 : Tables 𝓤 H) → %sWalks 𝓤 H A own.ended stayed %s (own.clauses %s)' % (
                self.triples(), self.fun, MEMORY),
            '  own-walks 𝓣 %s =\n      walked 𝓤 H A own.ended stayed (own.clauses %s) %s (λ κs. %s) (λ κs. %s) '
            '(λ κs qs bounds a g are. via 𝓤 _ (fst∗ 𝓤 _ (emp 𝓤)) (walk 𝓤 H A W mem run %s 𝓣 %s))\n' % (
                self.known(), MEMORY, self.fun, values, tells, self.arguments(), self.known())])

    def goes(self, p):
        count = len(self.slices)
        if not p.lent:
            return 'goes-none 𝓤 H A W %d (λ _. %s) yes (λ κs x f. refl)' % (count, p.type.row)
        if p.lent == 'mut':
            return 'goes-slice 𝓤 H A W %d %d tt (plain (λ _. %s))' % (count, self.number(p), p.type.row)
        return 'goes-none-slice 𝓤 H A W %d (%d ∷ []) tt (plain (λ _. %s)) yes' % (count, self.number(p), p.type.row)

    def meets(self):
        return '\n'.join([
            'own-meets : %s → Given 𝓤 H A → %s (𝓣 : Tables 𝓤 H) → %sMeets 𝓤 H A own.signature %s (own.spec %s)' % (
                GIVEN, PROGRAM, self.triples(), self.fun, MEMORY),
            'own-meets 𝓤 H A W mem run 𝓣 %s =\n    walk-meets 𝓤 H A own.ended stayed W %s (own.clauses %s) %s '
            '(WpFn-mono 𝓤 H (W .laws) 𝓣 code.function) (own-walks 𝓤 H A W mem run 𝓣 %s)\n' % (
                self.known(), nest([self.goes(p) for p in self.function.params]), MEMORY, self.fun, self.known())])

    def end(self):
        cited = '\n'.join('    (cited 𝓤 H (%s %s) 𝓜 𝓡 code.env #%s %s-def.routine code.%s (%s-thm.met 𝓤 H 𝓜 𝓖 𝓡))' % (
            c.name, HERE, c.alias, c.alias, c.law, c.alias) for c in self.function.callees())
        name = self.function.path.split('.')[-1].replace('_', '-')
        return END.format(name=name, here=HERE, cited=cited)
