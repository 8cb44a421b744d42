"""What is walked in the crate `engine` on lent transactions and workers."""
from ..description import of_crate
from ..values import Enum, Struct
from . import engine

CRATE = 'engine'
HERE = 'Rattle·engine·proofs.proofs.Laws.Calls'
TYPES = dict(engine.TYPES)
TYPES.update({
    'Numbers': Struct('Numbers', 'B'),
    'Worker': Struct('Worker', 'W′'),
    'Row': Struct('Row', 'R′'),
    'Claiming': Struct('Claiming', 'D', [('answer', 'Answer'), ('transaction', 'usize'), ('executing', 'Row'),
                                        ('worker', 'usize'), ('starting', 'Worker')]),
    'Answer': Enum('Answer', 'X'),
    'Counted': Struct('Counted', 'G'),
})
USES = engine.USES + '''
use mathlib.Core.Bool.{_&&_, _||_, not}
use lib.Dec.{ltb, leb, eqb}
use lib.ListN.{set}
use Rattle·versions.specs.Table.{lesserOf}
use Rattle·engine·specs.specs.declared.Answer.{Answer}
use Rattle·engine·specs.specs.declared.Row.{Row}
use Rattle·engine·specs.specs.declared.Worker.{Worker}
use Rattle·engine·specs.specs.declared.lent.Numbers.{Numbers}
use Rattle·engine·specs.specs.declared.lent.claiming.Claiming.{Claiming}
use Rattle·engine·specs.specs.Claim.{claimOf}
use Rattle·engine·specs.specs.Counting.{someBelow}
use Rattle·engine·specs.specs.Lent.{rowOf, workerOf, joined}
use Rattle·engine·specs.specs.LawsHeld.{wrongAmong, fewOf}
use Rattle·engine·specs.specs.LawsLent.{wrongBelow, unheldBelow, settled, executorOf, notHeldBy}
use Rattle·engine·specs.specs.LawsLentClaim.{claimingOf}
use Rattle·engine·specs.specs.Range.{numbersWrong, placedWrong, workerWrong, rowWrong}
use Rattle·engine·specs.specs.Rows.{executingBy}
use Rattle·engine·specs.specs.Workers.{isIdle, countAbove}
use Rattle·engine·proofs.proofs.Answer as X
use Rattle·engine·proofs.proofs.Answer.Laws as X′
use Rattle·engine·proofs.proofs.Row as R′
use Rattle·engine·proofs.proofs.Row.Laws as R′′
use Rattle·engine·proofs.proofs.Worker as W′
use Rattle·engine·proofs.proofs.Worker.Laws as W′′
use Rattle·engine·proofs.proofs.lent.Numbers as B
use Rattle·engine·proofs.proofs.lent.Numbers.Laws as B′
use Rattle·engine·specs.specs.declared.lent.Counted.{Counted}
use Rattle·engine·specs.specs.Lent.{countedOf}
use Rattle·engine·specs.specs.LawsLentPlace.{placingBy, countedAs}
use Rattle·engine·specs.specs.LawsLentSeal.{unfinishedBelow, sealingWith, closedNumbers}
use Rattle·engine·specs.specs.LawsLentAdvance.{aimBy, turnWith, leftBy, movedBy}
use Rattle·engine·specs.specs.Moment.{rowUnfinished}
use Rattle·engine·specs.specs.Rows.{isComplete}
use Rattle·engine·proofs.proofs.lent.Counted as G
use Rattle·engine·proofs.proofs.lent.Counted.Laws as G′
use Rattle·engine·proofs.proofs.lent.claiming.Claiming as D
use Rattle·engine·proofs.proofs.lent.claiming.Claiming.Laws as D′'''
ROWS, CREW, NUMBERS = ('rows', 'shr Row'), ('crew', 'shr Worker'), ('numbers', 'Numbers')
JOINED = '(joined numbers rows crew)'
WRONG = '(someBelow 8 (workerWrong %s) || someBelow 64 (rowWrong %s))' % (JOINED, JOINED)
CALLEES = [
    dict(fn='worker-at', name='WorkerAt', at='lent.crew.worker_at', made='Lists', ret='Worker',
         params=[CREW, ('number', 'usize')], facts=[('r', 'workerOf crew number')]),
    dict(fn='put-worker', name='PutWorker', at='lent.crew.put_worker', made='Lists', ret=None,
         params=[('crew', 'mut Worker'), ('number', 'usize'), ('worker', 'Worker')],
         facts=[('crew', 'set crew number worker')]),
    dict(fn='row-at', name='RowAt', at='lent.transactions.row_at', made='Lists', ret='Row',
         params=[ROWS, ('number', 'usize')], facts=[('r', 'rowOf rows number')]),
    dict(fn='put-row', name='PutRow', at='lent.transactions.put_row', made='Lists', ret=None,
         params=[('rows', 'mut Row'), ('number', 'usize'), ('row', 'Row')], facts=[('rows', 'set rows number row')]),
    dict(fn='is-idle', name='IsIdle', at='workers.is_idle', made='Range', ret='bool', params=[('worker', 'Worker')],
         facts=[('r', 'isIdle worker')]),
    dict(fn='held-index', name='HeldIndex', at='lent.range.held_index', made='Range', ret='usize',
         params=[('worker', 'Worker')], facts=[('r', 'worker .transaction')]),
    dict(fn='busy-wrong', name='BusyWrong', at='lent.range.busy_wrong', made='Range', ret='bool',
         params=[('wrong', 'bool'), NUMBERS, ('party', 'usize'), ('worker', 'Worker'), ('row', 'Row')],
         facts=[('r', '(wrong || (leb (numbers .workers) party || leb (numbers .size) (worker .transaction) || '
                 'countAbove worker || not (executingBy row party)))')]),
    dict(fn='worker-wrong', name='WorkerWrong', at='lent.range.worker_wrong', made='Range', ret='bool',
         params=[ROWS, ('wrong', 'bool'), NUMBERS, ('party', 'usize'), ('worker', 'Worker')],
         facts=[('r', '(wrong || wrongAmong (numbers .workers) (numbers .size) rows party worker)')]),
    dict(fn='is-settled', name='IsSettled', at='lent.range.is_settled', made='Range', ret='bool',
         params=[('row', 'Row')], facts=[('r', 'settled (row .progress)')]),
    dict(fn='executor', name='Executor', at='lent.range.executor', made='Range', ret='usize', params=[('row', 'Row')],
         facts=[('r', 'executorOf (row .progress)')]),
    dict(fn='unheld', name='Unheld', at='lent.range.unheld', made='Range', ret='bool',
         params=[('wrong', 'bool'), ('number', 'usize'), ('party', 'usize'), ('worker', 'Worker')],
         facts=[('r', '(wrong || not (ltb party 8 && not (isIdle worker) && eqb (worker .transaction) number))')]),
    dict(fn='row-wrong', name='RowWrong', at='lent.range.row_wrong', made='Range', ret='bool',
         params=[CREW, ('wrong', 'bool'), ('number', 'usize'), ('row', 'Row')],
         facts=[('r', '(wrong || notHeldBy crew number (row .progress))')]),
    dict(fn='all-transactions', name='AllTransactions', at='lent.range.all_transactions', made='Range', ret='usize',
         params=[NUMBERS], facts=[('r', 'fewOf (numbers .size)')]),
    dict(fn='lent-transactions', name='LentTransactions', at='lent.range.lent_transactions', made='Range', ret='usize',
         params=[NUMBERS, ('lent', 'usize')], facts=[('r', 'lesserOf (fewOf (numbers .size)) lent')]),
    dict(fn='has-wrong-worker', name='HasWrongWorker', at='lent.range.has_wrong_worker', made='Range', ret='bool',
         params=[ROWS, CREW, NUMBERS], facts=[('r', 'someBelow 8 (workerWrong %s)' % JOINED)]),
    dict(fn='has-wrong-row', name='HasWrongRow', at='lent.range.has_wrong_row', made='Range', ret='bool',
         params=[ROWS, CREW, NUMBERS], facts=[('r', 'someBelow 64 (rowWrong %s)' % JOINED)]),
    dict(fn='are-wrong', name='AreWrong', at='lent.range.are_wrong', made='Range', ret='bool',
         params=[ROWS, CREW, NUMBERS], facts=[('r', WRONG)]),
    dict(fn='consider-claim', name='ConsiderClaim', at='lent.claiming.consider_claim', made='Claiming', ret='Claiming',
         params=[NUMBERS, ('wrong', 'bool'), ('party', 'usize'), ('number', 'usize'), ('worker', 'Worker'),
                 ('row', 'Row'), ('rows', 'usize'), ('crew', 'usize')],
         facts=[('r', 'claimingOf numbers wrong party number worker row rows crew')]),
    dict(fn='consider-place', name='ConsiderPlace', at='lent.placing.consider_place', made='Placing', ret='Placing',
         params=[NUMBERS, ('wrong', 'bool'), ('party', 'usize'), ('log', 'shr u8'), ('newest', 'shr u16'),
                 ('entries', 'usize')],
         facts=[('r', 'placingBy wrong numbers party log newest entries')]),
    dict(fn='counted-as', name='CountedAs', at='lent.placing.placed', made='Placing', ret='Counted',
         params=[NUMBERS, ('party', 'usize'), ('plan', 'Placing')], facts=[('r', 'countedAs numbers party plan')]),
    dict(fn='still-unfinished', name='StillUnfinished', at='lent.sealing.still_unfinished', made='Sealing', ret='bool',
         params=[('unfinished', 'bool'), ('row', 'Row')], facts=[('r', '(unfinished || not (isComplete row))')]),
    dict(fn='has-unfinished', name='HasUnfinished', at='lent.sealing.has_unfinished', made='Sealing', ret='bool',
         params=[ROWS, NUMBERS], facts=[('r', 'someBelow 64 (rowUnfinished (joined numbers rows []))')]),
    dict(fn='slots-of', name='SlotsOf', at='lent.moment.slots', made='Sealing', ret='usize', params=[NUMBERS],
         facts=[('r', '4 * numbers .size')]),
    dict(fn='consider-seal', name='ConsiderSeal', at='lent.sealing.consider_seal', made='Sealing', ret='Sealing',
         params=[NUMBERS, ('wrong', 'bool'), ('unfinished', 'bool'), ('sound', 'bool'), ('stored', 'usize'),
                 ('slots', 'usize'), ('entries', 'usize')],
         facts=[('r', 'sealingWith numbers wrong unfinished sound stored slots entries')]),
    dict(fn='closed-numbers', name='ClosedNumbers', at='lent.sealing.closed', made='Sealing', ret='Counted',
         params=[NUMBERS, ('sealing', 'Sealing')], facts=[('r', 'closedNumbers numbers sealing')]),
    dict(fn='consider-advance', name='ConsiderAdvance', at='lent.advancing.consider_advance', made='Advancing', ret='Aim',
         params=[NUMBERS, ('wrong', 'bool'), ('party', 'usize'), ('worker', 'Worker'), ('log', 'shr u8'),
                 ('newest', 'shr u16'), ('stored', 'usize'), ('entries', 'usize'), ('four', 'usize')],
         facts=[('r', 'aimBy wrong numbers party worker log newest stored entries four')]),
    dict(fn='turn-of', name='TurnOf', at='lent.advancing.turn', made='Advancing', ret='Turn',
         params=[NUMBERS, ('wrong', 'bool'), ('party', 'usize'), ('worker', 'Worker'), ('log', 'shr u8'),
                 ('records', 'shr u64'), ('newest', 'shr u16'), ('versions', 'shr Version'), ('four', 'usize')],
         facts=[('r', 'turnWith wrong numbers party worker log records newest versions four')]),
    dict(fn='answer-of', name='AnswerOf', at='lent.advancing.answer_of', made='Advancing', ret='Answer',
         params=[('turn', 'Turn')], facts=[('r', 'turn .step .answer')]),
    dict(fn='row-of', name='RowOf', at='lent.advancing.row_of', made='Advancing', ret='Row', params=[('turn', 'Turn')],
         facts=[('r', 'turn .step .row')]),
    dict(fn='worker-of', name='WorkerOf', at='lent.advancing.worker_of', made='Advancing', ret='Worker',
         params=[('turn', 'Turn')], facts=[('r', 'turn .step .worker')]),
    dict(fn='left', name='Left', at='lent.advancing.left', made='Advancing', ret='usize',
         params=[('turn', 'Turn'), ('past', 'usize')],
         facts=[('r', 'leftBy (turn .step .answer) (turn .step .leaves) (turn .transaction) past')]),
    dict(fn='moved', name='Moved', at='lent.advancing.moved', made='Advancing', ret='usize',
         params=[('turn', 'Turn'), ('party', 'usize'), ('past', 'usize')],
         facts=[('r', 'movedBy (turn .step .answer) party past')]),
    dict(fn='move-on', name='MoveOn', at='lent.advancing.move_on', made='Advancing', ret=None,
         params=[('rows', 'mut Row'), ('crew', 'mut Worker'), ('party', 'usize'), ('turn', 'Turn')],
         facts=[('rows', 'set rows (leftBy (turn .step .answer) (turn .step .leaves) (turn .transaction) '
                 '(length rows)) (turn .step .row)'),
                ('crew', 'set crew (movedBy (turn .step .answer) party (length crew)) (turn .step .worker)')]),
]
CALLEES = of_crate(CRATE, HERE, CALLEES)
CALLEES += engine.CALLEES

laws = lambda file, names: ['Rattle·engine·specs.specs.%s.{%s}' % (file, ', '.join(names))]
PLACED = 'placeOf (joined numbers rows crew) party log newest versions'
SEALED = 'sealOf (joined numbers rows crew) records newest versions'
ADVANCED = 'advanceOf (joined numbers rows crew) party log records newest versions results'
CLAIMED = 'claimOf (joined numbers rows crew) party number'
FUNCS = {
    'worker_wrong': dict(path='lent.range.worker_wrong', ret='bool',
                         params=[ROWS, ('wrong', 'bool'), NUMBERS, ('party', 'usize'), ('worker', 'Worker')],
                         facts=[('r', '(wrong || wrongAmong (numbers .workers) (numbers .size) rows party worker)')],
                         calls=['is-idle', 'held-index', 'row-at', 'busy-wrong'],
                         exits=[['idle-right wrong (numbers .workers) (numbers .size) rows party worker on'],
                                ['busy-wrong wrong (numbers .workers) (numbers .size) rows party worker off']],
                         uses=laws('LawsLent', ['idle-right', 'busy-wrong'])),
    'has_wrong_worker': dict(path='lent.range.has_wrong_worker', ret='bool', params=[ROWS, CREW, NUMBERS],
                             facts=[('r', 'someBelow 8 (workerWrong %s)' % JOINED)],
                             calls=['worker-at', 'worker-wrong'],
                             exit=['workers-told numbers rows crew'], uses=laws('LawsLent', ['workers-told']),
                             loop=dict(index=5, count='8', fits='lit< tt',
                                       locals={4: 'wrongBelow (numbers .workers) (numbers .size) rows crew {i}'})),
    'row_wrong': dict(path='lent.range.row_wrong', ret='bool',
                      params=[CREW, ('wrong', 'bool'), ('number', 'usize'), ('row', 'Row')],
                      facts=[('r', '(wrong || notHeldBy crew number (row .progress))')],
                      calls=['is-settled', 'executor', 'worker-at', 'unheld'],
                      exits=[['settled-right wrong crew number (row .progress) on'],
                             ['unheld-wrong wrong crew number (row .progress) off']],
                      uses=laws('LawsLent', ['settled-right', 'unheld-wrong'])),
    'has_wrong_row': dict(path='lent.range.has_wrong_row', ret='bool', params=[ROWS, CREW, NUMBERS],
                          facts=[('r', 'someBelow 64 (rowWrong %s)' % JOINED)],
                          calls=['lent-transactions', 'row-at', 'row-wrong'],
                          exit=['rows-told numbers rows crew'], uses=laws('LawsLent', ['rows-told']),
                          loop=dict(index=6, count='lesserOf (fewOf (numbers .size)) m-rows', fits='g-L4',
                                    locals={5: 'unheldBelow rows crew {i}'})),
    'are_wrong': dict(path='lent.range.are_wrong', ret='bool', params=[ROWS, CREW, NUMBERS], facts=[('r', WRONG)],
                      calls=['has-wrong-worker', 'has-wrong-row']),
    'claim': dict(path='lent.claiming.claim', ret='Answer',
                  params=[('rows', 'mut Row'), ('crew', 'mut Worker'), NUMBERS, ('party', 'usize'), ('number', 'usize')],
                  facts=[('r', CLAIMED + ' .answer'), ('rows', CLAIMED + ' .state .rows'),
                         ('crew', CLAIMED + ' .state .crew')],
                  calls=['are-wrong', 'worker-at', 'row-at', 'consider-claim', 'put-row', 'put-worker'],
                  exit=['claim-same numbers rows crew party number .0', 'claim-same numbers rows crew party number .1 .0',
                        'claim-same numbers rows crew party number .1 .1'],
                  uses=laws('LawsLentClaim', ['claim-same'])),
    'place': dict(path='lent.placing.place', ret='Counted',
                  params=[ROWS, CREW, NUMBERS, ('party', 'usize'), ('log', 'shr u8'), ('newest', 'mut u16'),
                          ('versions', 'mut Version')],
                  facts=[('r', 'countedOf (%s .stepped)' % PLACED), ('newest', PLACED + ' .plans .newest'),
                         ('versions', PLACED + ' .plans .versions')],
                  calls=['are-wrong', 'consider-place', 'write-at', 'place-write', 'write-at', 'place-write', 'write-at',
                         'place-write', 'write-at', 'place-write', 'counted-as'],
                  exit=['lent-counted numbers rows crew party log newest versions',
                        'lent-newest numbers rows crew party log newest versions',
                        'lent-versions numbers rows crew party log newest versions'],
                  uses=laws('LawsLentPlace', ['lent-counted', 'lent-newest', 'lent-versions'])),
    'has_unfinished': dict(path='lent.sealing.has_unfinished', ret='bool', params=[ROWS, NUMBERS],
                           facts=[('r', 'someBelow 64 (rowUnfinished (joined numbers rows []))')],
                           calls=['all-transactions', 'row-at', 'still-unfinished'],
                           exit=['unfinished-told numbers rows []'], uses=laws('LawsLentSeal', ['unfinished-told']),
                           loop=dict(index=5, count='fewOf (numbers .size)', fits='g-L3',
                                     locals={4: 'unfinishedBelow rows {i}'})),
    'seal': dict(path='lent.sealing.seal', ret='Counted',
                 params=[ROWS, CREW, NUMBERS, ('records', 'mut u64'), ('newest', 'mut u16'), ('versions', 'mut Version')],
                 facts=[('r', 'countedOf (%s .stepped)' % SEALED), ('records', SEALED + ' .records'),
                        ('newest', SEALED + ' .newest'), ('versions', SEALED + ' .versions')],
                 calls=['are-wrong', 'has-unfinished', 'slots-of', 'newest-sound', 'consider-seal', 'closes', 'collect',
                        'empty-newest', 'count-if', 'clear', 'closed-numbers'],
                 exit=['lent-counted numbers rows crew records newest versions',
                       'lent-records numbers rows crew records newest versions',
                       'lent-newest numbers rows crew records newest versions',
                       'lent-versions numbers rows crew records newest versions'],
                 uses=laws('LawsLentSeal', ['lent-counted', 'lent-records', 'lent-newest', 'lent-versions'])),
    'turn': dict(path='lent.advancing.turn', ret='Turn',
                 params=[NUMBERS, ('wrong', 'bool'), ('party', 'usize'), ('worker', 'Worker'), ('log', 'shr u8'),
                 ('records', 'shr u64'), ('newest', 'shr u16'), ('versions', 'shr Version'), ('four', 'usize')],
                 facts=[('r', 'turnWith wrong numbers party worker log records newest versions four')],
                 calls=['consider-advance', 'turn-after-look'],
                 exit=['turn-with wrong numbers party worker log records newest versions four'],
                 uses=laws('LawsLentAdvance', ['turn-with'])),
    'move_on': dict(path='lent.advancing.move_on',
                    params=[('rows', 'mut Row'), ('crew', 'mut Worker'), ('party', 'usize'), ('turn', 'Turn')],
                    facts=[('rows', 'set rows (leftBy (turn .step .answer) (turn .step .leaves) (turn .transaction) '
                            '(length rows)) (turn .step .row)'),
                           ('crew', 'set crew (movedBy (turn .step .answer) party (length crew)) (turn .step .worker)')],
                    calls=['left', 'row-of', 'put-row', 'moved', 'worker-of', 'put-worker']),
    'advance': dict(path='lent.advancing.advance', ret='Answer',
                    params=[('rows', 'mut Row'), ('crew', 'mut Worker'), NUMBERS, ('party', 'usize'), ('log', 'shr u8'),
                            ('records', 'shr u64'), ('newest', 'shr u16'), ('versions', 'mut Version'),
                            ('results', 'mut u64')],
                    facts=[('r', ADVANCED + ' .stepped .answer'), ('rows', ADVANCED + ' .stepped .state .rows'),
                           ('crew', ADVANCED + ' .stepped .state .crew'), ('versions', ADVANCED + ' .versions'),
                           ('results', ADVANCED + ' .results')],
                    calls=['are-wrong', 'worker-at', 'turn-of', 'carry-out', 'move-on', 'answer-of'],
                    exit=['advanced-%s numbers rows crew party log records newest versions results' % part
                          for part in ('answer', 'rows', 'crew', 'versions', 'results')],
                    uses=laws('LawsLentAdvance', ['advanced-' + part
                                                  for part in ('answer', 'rows', 'crew', 'versions', 'results')])),
}
