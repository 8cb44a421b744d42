"""What is walked in the crate `program`."""
from ..description import of_crate, offered
from . import desk, engine, versions

CRATE = 'program'
HERE = 'Rattle·program·proofs.proofs.Laws.Calls'
TYPES = {k: desk.TYPES[k] for k in ('u8', 'u16', 'u64', 'usize', 'bool', 'Version', 'State', 'Stepped', 'Tally')}
USES = '''use Rattle·versions.specs.declared.Version.{Version}
use Rattle·versions.specs.Entry.{emptyEntry}
use Rattle·versions.proofs.Version as T
use Rattle·versions.proofs.Version.Laws as T′
use Rattle·engine.specs.declared.State.{State}
use Rattle·engine.specs.declared.Stepped.{Stepped}
use Rattle·engine.specs.Open.{openOf}
use Rattle·engine.proofs.State as S
use Rattle·engine.proofs.State.Laws as S′
use Rattle·engine.proofs.Stepped as Z
use Rattle·engine.proofs.Stepped.Laws as Z′
use Rattle·desk.specs.Offer.{sessionOf, runOf}
use Rattle·desk.specs.declared.Tally.{Tally}
use Rattle·desk.proofs.Tally as C′
use Rattle·desk.proofs.Tally.Laws as C′′'''
LENT = [('log', 'shr u8'), ('records', 'mut u64'), ('newest', 'mut u16')]
TABLES = LENT + [('versions', 'mut Version'), ('results', 'mut u64')]
ON = [('quiet', 'bool'), ('file', 'usize'), ('bytes', 'usize'), ('piece', 'mut u8')]
WORK = [('tally', 'Tally'), ('file', 'usize'), ('bytes', 'usize'), ('pieces', 'usize'), ('piece', 'mut u8')] + TABLES
CALLEES = [
    dict(fn='pieces-of', name='PiecesOf', at='files.pieces_of', ret='usize', facts=[], params=[('bytes', 'usize')]),
    dict(fn='read-piece', name='ReadPiece', at='files.read_piece', ret='usize', facts=[],
         params=[('file', 'usize'), ('bytes', 'usize'), ('number', 'usize'), ('piece', 'mut u8')]),
    dict(fn='is-refused', name='IsRefused', at='print.is_refused', ret='bool', facts=[],
         params=[('stepped', 'Stepped')]),
    dict(fn='refusal', name='RefusalPrint', at='print.refusal', ret=None, facts=[], params=[('stepped', 'Stepped')]),
    dict(fn='print-all', name='PrintAll', at='print.all', ret=None, facts=[],
         params=[('tally', 'Tally'), ('quiet', 'bool'), ('log', 'shr u8'), ('stored', 'shr u64'),
                 ('results', 'shr u64')]),
    dict(fn='begin-after', name='BeginAfter', at='tables.begin_after', ret='Tally', facts=[],
         params=[('stepped', 'Stepped')]),
    dict(fn='work-off', name='WorkOff', at='tables.work', ret='Tally', facts=[], params=WORK),
    dict(fn='offer-file', name='OfferFile', at='tables.offer_file', ret=None, facts=[],
         params=[('tally', 'Tally')] + ON + TABLES),
    dict(fn='go-on', name='GoOn', at='tables.go_on', ret=None, facts=[], params=[('stepped', 'Stepped')] + ON + TABLES),
    dict(fn='open-table', name='OpenTable', at='tables.open', ret=None, facts=[],
         params=[('state', 'State')] + ON + TABLES),
]
CALLEES = of_crate(CRATE, HERE, CALLEES)
CALLEES += offered(versions.OFFERED, ['empty'], HERE + '.Versions')
CALLEES += offered(engine.OFFERED, ['open-by'], HERE + '.Engine')
CALLEES += offered(desk.OFFERED, ['offer-all'], HERE + '.Desk')

FUNCS = {
    'work': dict(path='tables.work', ret='Tally', params=WORK,
                 calls=['read-piece', 'offer-all', 'read-piece', 'offer-all'],
                 loop=dict(index=11, count='pieces', fits='g-pieces',
                           open=[('local', 1)] + [('slice', p) for p in ('piece', 'records', 'newest', 'versions',
                                                                        'results')])),
    'offer_file': dict(path='tables.offer_file', params=[('tally', 'Tally')] + ON + TABLES,
                       calls=['pieces-of', 'work-off', 'print-all'], forget={2: [1]}),
    'go_on': dict(path='tables.go_on', params=[('stepped', 'Stepped')] + ON + TABLES,
                  calls=['is-refused', 'refusal', 'begin-after', 'offer-file'], forget={3: [1]}),
    'open': dict(path='tables.open', params=[('state', 'State')] + ON + TABLES, calls=['open-by', 'go-on'],
                 forget={1: [1]}),
    'run': dict(path='tables.run', params=[('state', 'State')] + ON + LENT + [('results', 'mut u64')],
                calls=['empty', 'open-table']),
}
for f in FUNCS.values():
    f['facts'] = []
