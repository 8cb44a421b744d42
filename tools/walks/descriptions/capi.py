"""What is walked in the crate `capi`."""
from ..description import of_crate, offered
from ..values import Struct
from . import desk, engine, versions

CRATE = 'capi'
HERE = 'Rattle·capi·proofs.proofs.Laws.Calls'
TYPES = {k: desk.TYPES[k] for k in ('u8', 'u16', 'u64', 'usize', 'bool', 'Version', 'State', 'Stepped', 'Tally')}
TYPES['Ran'] = Struct('Ran', 'N')
USES = '''use Rattle·versions.specs.declared.Version.{Version}
use Rattle·versions.specs.Entry.{emptyEntry}
use Rattle·versions.proofs.Version as T
use Rattle·versions.proofs.Version.Laws as T′
use Rattle·engine.specs.declared.State.{State}
use Rattle·engine.specs.declared.Stepped.{Stepped}
use Rattle·engine.specs.Answers.{answerNumber}
use Rattle·engine.specs.Open.{openOf}
use Rattle·engine.proofs.State as S
use Rattle·engine.proofs.State.Laws as S′
use Rattle·engine.proofs.Stepped as Z
use Rattle·engine.proofs.Stepped.Laws as Z′
use Rattle·desk.specs.Counts.{begun}
use Rattle·desk.specs.Offer.{sessionOf, runOf}
use Rattle·desk.specs.declared.Tally.{Tally}
use Rattle·desk.proofs.Tally as C′
use Rattle·desk.proofs.Tally.Laws as C′′
use Rattle·capi·specs.specs.Running.{ranBy, offeredBytes, afterOpening, batchOf}
use Rattle·capi·specs.specs.declared.Ran.{Ran}
use Rattle·capi·proofs.proofs.Ran as N
use Rattle·capi·proofs.proofs.Ran.Laws as N′'''
# no param of a callee has the name of a field of what the definitions answer
TABLES = [('log', 'shr u8'), ('piece', 'shr u8'), ('stored', 'mut u64'), ('latest', 'mut u16'),
          ('table', 'mut Version'), ('four', 'mut u64')]
KEPT = [('stored', 'records'), ('latest', 'newest'), ('table', 'versions'), ('four', 'results')]
RUN = 'runOf piece bytes log (sessionOf before stored latest table four)'
GONE = 'afterOpening after log piece stored latest table four'
BATCH = 'batchOf fresh log piece stored latest table four'


def kept(term):
    return [(p, '%s .%s' % (term, field)) for p, field in KEPT]


CALLEES = [
    dict(fn='number-of', name='NumberOf', at='opened.number_of', ret='u8', params=[('after', 'Stepped')],
         facts=[('r', 'answerNumber (after .answer)')]),
    dict(fn='bytes-after', name='BytesAfter', at='opened.bytes_after', ret='usize',
         params=[('after', 'Stepped'), ('bytes', 'usize')], facts=[('r', 'offeredBytes (after .answer) bytes')]),
    dict(fn='begin-after', name='BeginAfter', at='opened.begin_after', ret='Tally', params=[('after', 'Stepped')],
         facts=[('r', 'begun (after .state)')]),
    dict(fn='ran-by', name='RanBy', at='opened.ran_by', ret='Ran', params=[('count', 'u8'), ('before', 'Tally')],
         facts=[('r', 'ranBy count before')]),
    dict(fn='work-off', name='WorkOff', at='tables.work', ret='Ran',
         params=[('before', 'Tally'), ('count', 'u8'), ('bytes', 'usize')] + TABLES,
         facts=[('r', 'ranBy count (%s .tally)' % RUN)] + kept(RUN)),
    dict(fn='go-on', name='GoOn', at='tables.go_on', ret='Ran', params=[('after', 'Stepped')] + TABLES,
         facts=[('r', 'ranBy (answerNumber (after .answer)) (%s .tally)' % GONE)] + kept(GONE)),
    dict(fn='open-batch', name='OpenBatch', at='tables.open', ret='Ran', params=[('fresh', 'State')] + TABLES,
         facts=[('r', 'ranBy (answerNumber (openOf fresh log latest table four .stepped .answer)) (%s .tally)' % BATCH)]
         + kept(BATCH)),
]
CALLEES = of_crate(CRATE, HERE, CALLEES)
CALLEES += offered(versions.OFFERED, ['empty'], HERE + '.Versions')
CALLEES += offered(engine.OFFERED, ['open-by'], HERE + '.Engine')
CALLEES += offered(desk.OFFERED, ['offer-all'], HERE + '.Desk')

LENT = [('log', 'shr u8'), ('steps', 'shr u8'), ('records', 'mut u64'), ('newest', 'mut u16'),
        ('versions', 'mut Version'), ('results', 'mut u64')]
OWN = '(replicate 256 emptyEntry)'


def told(number, term, tables=('records', 'newest', 'versions', 'results')):
    """the result and the tables, by a session"""
    return [('r', 'ranBy %s (%s .tally)' % (number, term))] + [(p, '%s .%s' % (term, p)) for p in tables]


FUNCS = {
    'work': dict(path='tables.work', params=[('tally', 'Tally'), ('number', 'u8'), ('bytes', 'usize')] + LENT,
                 calls=['offer-all', 'ran-by'], forget={1: [1]},
                 facts=told('number', 'runOf steps bytes log (sessionOf tally records newest versions results)')),
    'go_on': dict(path='tables.go_on', params=[('stepped', 'Stepped')] + LENT, forget={3: [1]},
                  calls=['number-of', 'bytes-after', 'begin-after', 'work-off'],
                  facts=told('(answerNumber (stepped .answer))',
                             'afterOpening stepped log steps records newest versions results')),
    'open': dict(path='tables.open', params=[('state', 'State')] + LENT, forget={1: [1]}, calls=['open-by', 'go-on'],
                 facts=told('(answerNumber (openOf state log newest versions results .stepped .answer))',
                            'batchOf state log steps records newest versions results')),
    'run': dict(path='tables.run', params=[('state', 'State')] + [p for p in LENT if p[0] != 'versions'],
                calls=['empty', 'open-batch'],
                facts=told('(answerNumber (openOf state log newest %s results .stepped .answer))' % OWN,
                           'batchOf state log steps records newest %s results' % OWN,
                           ('records', 'newest', 'results'))),
}
for f in FUNCS.values():
    f['ret'] = 'Ran'
