"""What is walked in the program `engine_cases`."""
from ..description import of_crate, offered
from ..values import Struct
from . import engine, versions

CRATE = 'engine_cases'
HERE = 'Rattle·engine_cases·proofs.proofs.Laws.Calls'
TYPES = {k: engine.TYPES[k] for k in ('u8', 'u16', 'u64', 'usize', 'bool', 'Version', 'State', 'Stepped')}
TYPES['Asked'] = Struct('Asked', 'Q', [('call', 'u64'), ('first', 'usize'), ('second', 'usize'), ('third', 'usize'),
                                          ('fourth', 'u64'), ('length', 'usize'), ('count', 'usize')])
USES = '''use Rattle·versions.specs.declared.Version.{Version}
use Rattle·versions.specs.Entry.{emptyEntry}
use Rattle·versions.specs.Table.{entryOf, putOf}
use Rattle·versions.proofs.Version as T
use Rattle·versions.proofs.Version.Laws as T′
use Rattle·engine.specs.declared.State.{State}
use Rattle·engine.specs.declared.Stepped.{Stepped}
use Rattle·engine.specs.Open.{openOf}
use Rattle·engine.specs.Place.{placeOf}
use Rattle·engine.specs.Advance.{advanceOf}
use Rattle·engine.specs.Seal.{sealOf}
use Rattle·engine.proofs.State as S
use Rattle·engine.proofs.State.Laws as S′
use Rattle·engine.proofs.Stepped as Z
use Rattle·engine.proofs.Stepped.Laws as Z′
use Rattle·engine_cases·specs.specs.declared.calls.Asked.{Asked}
use Rattle·engine_cases·proofs.proofs.calls.Asked as Q
use Rattle·engine_cases·proofs.proofs.calls.Asked.Laws as Q′'''
LENT = [('state', 'State'), ('asked', 'Asked'), ('log', 'shr u8'), ('newest', 'mut u16'), ('entries', 'shr u64')]
KEPT = [('records', 'mut u64'), ('results', 'mut u64')]
BOTH = [('state', 'State'), ('asked', 'Asked'), ('log', 'shr u8'), ('newest', 'mut u16'), ('versions', 'mut Version')]
PLAN = BOTH + [('results', 'mut u64')]
WORK = BOTH + KEPT
AFTER = [('stepped', 'Stepped'), ('newest', 'shr u16'), ('versions', 'shr Version'), ('records', 'shr u64'),
         ('results', 'shr u64')]
CALLEES = [
    dict(fn='slot-in', name='SlotIn', at='tables.slot_in', ret='usize', facts=[],
         params=[('entries', 'shr u64'), ('number', 'usize')]),
    dict(fn='version-in', name='VersionIn', at='tables.version_in', ret='Version', facts=[],
         params=[('entries', 'shr u64'), ('number', 'usize')]),
    dict(fn='load-table', name='LoadTable', at='tables.load', ret=None, facts=[],
         params=[('versions', 'mut Version'), ('entries', 'shr u64'), ('count', 'usize')]),
    dict(fn='show-table', name='ShowTable', at='tables.show', ret=None, facts=[], params=[('versions', 'shr Version')]),
    dict(fn='plan-by', name='PlanBy', at='tables.plan', ret='Stepped', facts=[], params=PLAN),
    dict(fn='work-by', name='WorkBy', at='tables.work', ret='Stepped', facts=[], params=WORK),
    dict(fn='step-by', name='StepBy', at='tables.step', ret='Stepped', facts=[], params=WORK),
    dict(fn='act-by', name='ActBy', at='tables.act', ret=None, facts=[], params=WORK),
    dict(fn='finish-by', name='FinishBy', at='tables.finish', ret=None, facts=[], params=AFTER),
    dict(fn='run-case', name='RunCase', at='tables.run', ret=None, facts=[],
         params=LENT + [('versions', 'mut Version')] + KEPT),
    dict(fn='print-before', name='PrintBefore', at='print.before', ret=None, facts=[],
         params=[('stepped', 'Stepped'), ('newest', 'shr u16')]),
    dict(fn='begin-versions', name='BeginVersions', at='print.begin_versions', ret=None, facts=[],
         params=[('size', 'usize')]),
    dict(fn='print-version', name='PrintVersion', at='print.version', ret=None, facts=[],
         params=[('slot', 'usize'), ('version', 'Version')]),
    dict(fn='print-behind', name='PrintBehind', at='print.behind', ret=None, facts=[],
         params=[('records', 'shr u64'), ('results', 'shr u64')]),
]
CALLEES = of_crate(CRATE, HERE, CALLEES)
CALLEES += offered(versions.OFFERED, ['empty', 'entry-at', 'put-at'], HERE + '.Versions')
CALLEES += offered(engine.OFFERED, ['open-by', 'place-by', 'advance-by', 'seal-by'], HERE + '.Engine')

FUNCS = {
    'load': dict(path='tables.load', facts=[], calls=['slot-in', 'version-in', 'put-at'],
                 params=[('versions', 'mut Version'), ('entries', 'shr u64'), ('count', 'usize')],
                 loop=dict(index=4, count='count', fits='g-count', free='versions')),
    'show': dict(path='tables.show', facts=[], params=[('versions', 'shr Version')],
                 calls=['begin-versions', 'entry-at', 'print-version'],
                 loop=dict(index=2, count='m-versions', fits='room-versions .0')),
    'plan': dict(path='tables.plan', facts=[], ret='Stepped', calls=['open-by', 'place-by'], params=PLAN),
    'work': dict(path='tables.work', facts=[], ret='Stepped', calls=['advance-by', 'seal-by'], params=WORK),
    'step': dict(path='tables.step', facts=[], ret='Stepped', calls=['plan-by', 'work-by'], params=WORK),
    'act': dict(path='tables.act', facts=[], calls=['step-by', 'finish-by'], params=WORK, forget={1: [1, 2]}),
    'run': dict(path='tables.run', facts=[], params=LENT + [('versions', 'mut Version')] + KEPT,
                calls=['load-table', 'act-by']),
    'finish': dict(path='tables.finish', facts=[], params=AFTER, forget={1: [1]},
                   calls=['print-before', 'show-table', 'print-behind']),
}
for name in ('exact', 'long'):
    FUNCS[name] = dict(path='tables.' + name, facts=[], params=LENT + KEPT, calls=['empty', 'run-case'])
