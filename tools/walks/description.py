"""What a walk is written from: the types, callees and functions of a crate, as tools/walks/descriptions has them.

A description is a module with
    CRATE    the crate whose proofs are written
    HERE     the module of the facts about callees
    USES     lines `use ..`: what the terms below name (what a file does not use is left out of it)
    TYPES    name -> Number, Boolean, Struct, Enum or Array (walks/values.py)
    CALLEES  dict(fn=alias of the callee, name=name for its contract, params=[(name, type)], ret=type or None,
             facts=[(target, term)], path=(module of the function, name of `code.calls-..`), made=module of the facts)
             A param's type is a name, 'mut ELEMENT' or 'shr ELEMENT' for a lent slice. A target is 'r', the result, or a
             `mut` param. requires=fact, where it has one, with needs=its proof. Either every target has its fact,
             or there is no `ensures` and no fact: the walk then goes on with whatever result and lists come back.
    FUNCS    name -> dict(path='step.fill', params, ret, facts, calls=[alias of each call, in the code's order],
             exit=[proof of each fact] where it is not `refl`, uses=[modules that only this proof names])
             exits=[such a list for each return], where branches return: what the tests told is `on` or `off`, at
             the second test `on2` or `off2`, and so on
             forget={number of a call: [locals not used after it]}: a large value that is kept costs at every step
             loop=dict(..) or falls=dict(..): see walks/loops.py
Names of a callee's params: none of e, r, u, x, w, is, zs, and none of a field. Of a function's: none of a, at, i, n, C,
from, and none of the kit's.
"""


class Param:
    def __init__(self, name, kind, types):
        words = kind.split()
        self.name, self.type = name, types[words[-1]]
        self.lent = words[0] if len(words) == 2 else None


class Callee:
    def __init__(self, given, types):
        self.alias, self.name = given['fn'], given['name']
        self.params = [Param(p, kind, types) for p, kind in given['params']]
        self.result = types[given['ret']] if given.get('ret') else None
        self.facts = dict(given['facts'])
        self.requires, self.needs = given.get('requires'), given.get('needs')
        self.module, self.law = given['path']
        self.made = given['made']
        self.slices = [p for p in self.params if p.lent]
        self.changed = [p for p in self.slices if p.lent == 'mut']
        self.known = [p for p in self.changed if p.name in self.facts]
        self.free = self.result is not None and 'r' not in self.facts

    def left(self):
        """the types of what a call leaves that the walk has to name: the last list of each slice that it changes, and a
        result without a fact"""
        return ['List ' + p.type.denot for p in self.changed] + ([self.result.denot] if self.free else [])


class Function:
    def __init__(self, name, given, description):
        self.name, self.crate, self.path = name, description.crate, given['path']
        self.mir = self.crate + '::' + self.path.replace('.', '::')
        self.types = description.types
        self.params = [Param(p, kind, self.types) for p, kind in given['params']]
        self.slices = [p for p in self.params if p.lent]
        self.result = self.types[given['ret']] if given.get('ret') else None
        self.facts = given['facts']
        self.calls = [description.callees[alias] for alias in given['calls']]
        self.exit = given.get('exit') or ['refl'] * len(self.facts)
        self.exits = given.get('exits')
        self.forget = given.get('forget', {})
        self.loop, self.falls = given.get('loop'), given.get('falls')
        self.uses = ['use ' + u for u in given.get('uses', [])]

    def callees(self):
        """each callee once, in the order of their first calls"""
        return list(dict.fromkeys(self.calls))

    def file(self):
        return 'crates/%s/proofs/%s/Proof.antt' % (self.crate, self.path.replace('.', '/'))


class Description:
    def __init__(self, module, file):
        self.crate, self.file, self.uses, self.types = module.CRATE, file, module.USES, module.TYPES
        self.callees = {c['fn']: Callee(c, self.types) for c in module.CALLEES}
        self.functions = [Function(name, given, self) for name, given in module.FUNCS.items()]

    def facts(self):
        """the modules of facts about callees that stand in this crate: module -> its callees"""
        out = {}
        for callee in self.callees.values():
            if callee.made.startswith('Rattle·%s·proofs.' % self.crate):
                out.setdefault(callee.made, []).append(callee)
        return out

    def facts_file(self, module):
        return 'crates/%s/proofs/%s.antt' % (self.crate, module.split('proofs.proofs.')[1].replace('.', '/'))


def offered(callees, aliases, made):
    """of what another crate offers to walks, those of these names, with their facts in the module `made`"""
    return [dict(c, made=made) for c in callees if c['fn'] in aliases]


def of_crate(crate, here, callees):
    """callees of the crate itself, each with its module and with the module of its facts: `made`, or after its file"""
    out = []
    for c in callees:
        made = c.get('made') or c['at'].split('.')[0].capitalize()
        law = 'calls-%s·%s' % (crate.replace('_', '-'), c['at'].replace('.', '·').replace('_', '-'))
        path = c.get('path') or ('Rattle·%s·proofs.proofs.%s' % (crate, c['at']), law)
        out.append(dict(c, path=path, made=here + '.' + made))
    return out
