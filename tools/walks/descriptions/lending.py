"""What is walked in the crate `desk`: offers on lent transactions and workers."""
from ..description import of_crate
from ..values import Array, Enum, Struct
from . import desk

CRATE = 'desk'
HERE = 'Rattle·desk·proofs.proofs.Laws.Calls'
TYPES = dict(desk.TYPES)
TYPES.update({
    'Numbers': Struct('Numbers', 'B'),
    'Counted': Struct('Counted', 'G'),
    'Worker': Struct('Worker', 'W′'),
    'Row': Struct('Row', 'R′'),
    'Sheet': Struct('Sheet', 'D', [('numbers', 'Numbers'), ('offered', 'u64'), ('refused', 'u64'), ('waits', 'u64'),
                                  ('sealed', 'bool')]),
    'Answer': Enum('Answer', 'X'),
    'Rows': Array('Row', 'R′', 64),
    'Crew': Array('Worker', 'W′', 8),
})
USES = desk.USES + '''
use Rattle·engine.specs.Claim.{claimOf}
use Rattle·engine.specs.Lent.{joined, countedOf}
use Rattle·engine.specs.declared.Answer.{Answer}
use Rattle·engine.specs.declared.Row.{Row}
use Rattle·engine.specs.declared.Worker.{Worker}
use Rattle·engine.specs.declared.lent.Counted.{Counted}
use Rattle·engine.specs.declared.lent.Numbers.{Numbers}
use Rattle·engine.proofs.Answer as X
use Rattle·engine.proofs.Answer.Laws as X′
use Rattle·engine.proofs.Row as R′
use Rattle·engine.proofs.Row.Laws as R′′
use Rattle·engine.proofs.Worker as W′
use Rattle·engine.proofs.Worker.Laws as W′′
use Rattle·engine.proofs.lent.Counted as G
use Rattle·engine.proofs.lent.Counted.Laws as G′
use Rattle·engine.proofs.lent.Numbers as B
use Rattle·engine.proofs.lent.Numbers.Laws as B′
use Rattle·desk·specs.specs.declared.lending.Sheet.{Sheet}
use Rattle·desk·specs.specs.LawsLending.{sheetOf, tallyOf, sheetCounted, sheetSealed, sheetRefused, sheetBy}
use Rattle·desk·specs.specs.LawsLending.{sheetSealedBy}
use Rattle·desk·specs.specs.LawsOffer.{laterOf}
use denote.Array.{Array, array-makes}
use Rattle·desk·proofs.proofs.Laws.Listed as Listed
use Rattle·desk·proofs.proofs.lending.Sheet as D
use Rattle·desk·proofs.proofs.lending.Sheet.Laws as D′'''
# no param of a callee has the name of a field of what the definitions answer
SEEN = [('queue', 'shr Row'), ('gang', 'shr Worker')]
OWN = [('queue', 'mut Row'), ('gang', 'mut Worker')]
FIGURES = ('figures', 'Numbers')
PLACE = 'placeOf (joined figures queue gang) party log latest table'
CLAIM = 'claimOf (joined figures queue gang) party number'
ADVANCE = 'advanceOf (joined figures queue gang) party log stored latest table four'
SEAL = 'sealOf (joined figures queue gang) stored latest table'
inside = lambda term: term.replace('figures', '(page .numbers)')
PLACING = SEEN + [('log', 'shr u8'), ('latest', 'mut u16'), ('table', 'mut Version')]
SEALING = SEEN + [('stored', 'mut u64'), ('latest', 'mut u16'), ('table', 'mut Version')]
ADVANCING = [('log', 'shr u8'), ('stored', 'shr u64'), ('latest', 'shr u16'), ('table', 'mut Version'), ('four', 'mut u64')]
OFFERED = 'offerOf one log (sessionOf (tallyOf page queue gang) stored latest table four)'
RUN = 'runOf piece bytes log (sessionOf (tallyOf page queue gang) stored latest table four)'
parts = lambda term, names: [('r', 'sheetOf (%s .tally)' % term)] + [
    (names[0], term + ' .tally .state .rows'), (names[1], term + ' .tally .state .crew')] + [
    (p, '%s .%s' % (term, q)) for p, q in zip(names[2:], ('records', 'newest', 'versions', 'results'))]
CALLEES = [
    dict(fn='lent-place', name='LentPlace', at='lent.place', made='Lent', ret='Counted',
         params=SEEN + [FIGURES, ('party', 'usize')] + PLACING[2:],
         facts=[('r', 'countedOf (%s .stepped)' % PLACE), ('latest', PLACE + ' .plans .newest'),
                ('table', PLACE + ' .plans .versions')]),
    dict(fn='lent-claim', name='LentClaim', at='lent.claim', made='Lent', ret='Answer',
         params=OWN + [FIGURES, ('party', 'usize'), ('number', 'usize')],
         facts=[('r', CLAIM + ' .answer'), ('queue', CLAIM + ' .state .rows'), ('gang', CLAIM + ' .state .crew')]),
    dict(fn='lent-advance', name='LentAdvance', at='lent.advance', made='Lent', ret='Answer',
         params=OWN + [FIGURES, ('party', 'usize')] + ADVANCING,
         facts=[('r', ADVANCE + ' .stepped .answer'), ('queue', ADVANCE + ' .stepped .state .rows'),
                ('gang', ADVANCE + ' .stepped .state .crew'), ('table', ADVANCE + ' .versions'),
                ('four', ADVANCE + ' .results')]),
    dict(fn='lent-seal', name='LentSeal', at='lent.seal', made='Lent', ret='Counted',
         params=SEEN + [FIGURES] + SEALING[2:],
         facts=[('r', 'countedOf (%s .stepped)' % SEAL), ('stored', SEAL + ' .records'), ('latest', SEAL + ' .newest'),
                ('table', SEAL + ' .versions')]),
]
for c in CALLEES:
    c['path'] = ('Rattle·engine.proofs.' + c['at'], 'calls-engine·' + c['at'].replace('.', '·'))
    c['made'] = HERE + '.Lent'
MORE = [
    dict(fn='answered', name='Answered', at='lending.answered', ret='Sheet', params=[('page', 'Sheet'), ('said', 'Answer')],
         facts=[('r', 'sheetCounted page said (page .numbers)')]),
    dict(fn='counted-in', name='CountedIn', at='lending.counted', ret='Sheet', params=[('page', 'Sheet'), ('one', 'Counted')],
         facts=[('r', 'sheetCounted page (one .answer) (one .numbers)')]),
    dict(fn='counted-seal-in', name='CountedSealIn', at='lending.counted_seal', ret='Sheet',
         params=[('page', 'Sheet'), ('one', 'Counted')], facts=[('r', 'sheetSealed page (one .answer) (one .numbers)')]),
    dict(fn='refused-in', name='RefusedIn', at='lending.refused_at_once', ret='Sheet', params=[('page', 'Sheet')],
         facts=[('r', 'sheetRefused page')]),
    dict(fn='transaction-of', name='TransactionOf', at='lending.transaction_of', ret='usize', params=[('one', 'Step')],
         facts=[('r', 'one .transaction')]),
    dict(fn='offer-place-in', name='OfferPlaceIn', at='lending.offer_place', ret='Sheet',
         params=[('page', 'Sheet'), ('party', 'usize')] + PLACING,
         facts=[('r', inside('sheetBy page (%s .stepped)' % PLACE)), ('latest', inside(PLACE) + ' .plans .newest'),
                ('table', inside(PLACE) + ' .plans .versions')]),
    dict(fn='offer-claim-in', name='OfferClaimIn', at='lending.offer_claim', ret='Sheet',
         params=[('page', 'Sheet'), ('party', 'usize'), ('number', 'usize')] + OWN,
         facts=[('r', inside('sheetCounted page (%s .answer) figures' % CLAIM)), ('queue', inside(CLAIM) + ' .state .rows'),
                ('gang', inside(CLAIM) + ' .state .crew')]),
    dict(fn='offer-advance-in', name='OfferAdvanceIn', at='lending.offer_advance', ret='Sheet',
         params=[('page', 'Sheet'), ('party', 'usize')] + OWN + ADVANCING,
         facts=[('r', inside('sheetCounted page (%s .stepped .answer) figures' % ADVANCE)),
                ('queue', inside(ADVANCE) + ' .stepped .state .rows'), ('gang', inside(ADVANCE) + ' .stepped .state .crew'),
                ('table', inside(ADVANCE) + ' .versions'), ('four', inside(ADVANCE) + ' .results')]),
    dict(fn='offer-seal-in', name='OfferSealIn', at='lending.offer_seal', ret='Sheet', params=[('page', 'Sheet')] + SEALING,
         facts=[('r', inside('sheetSealedBy page (%s .stepped)' % SEAL)), ('stored', inside(SEAL) + ' .records'),
                ('latest', inside(SEAL) + ' .newest'), ('table', inside(SEAL) + ' .versions')]),
    dict(fn='sheet-of', name='SheetOf', at='lending.sheet_of', ret='Sheet', params=[('before', 'Tally')],
         facts=[('r', 'sheetOf before')]),
    dict(fn='rows-of', name='RowsOf', at='lending.rows_of', ret='Rows', params=[('before', 'Tally')],
         facts=[('r', 'before .state .rows')]),
    dict(fn='crew-of', name='CrewOf', at='lending.crew_of', ret='Crew', params=[('before', 'Tally')],
         facts=[('r', 'before .state .crew')]),
    dict(fn='tally-of', name='TallyOf', at='lending.tally_of', ret='Tally',
         params=[('page', 'Sheet'), ('queue', 'Rows'), ('gang', 'Crew')], facts=[('r', 'tallyOf page queue gang')]),
    dict(fn='offer-each', name='OfferEach', at='lending.offer_each', ret='Sheet',
         params=[('page', 'Sheet'), ('piece', 'shr u8'), ('bytes', 'usize')] + OWN + desk.TABLES,
         facts=parts(RUN, ('queue', 'gang', 'stored', 'latest', 'table', 'four'))),
    dict(fn='offer-later', name='OfferLater', at='lending.offer_later', ret='Sheet',
         params=[('page', 'Sheet'), ('one', 'Step')] + OWN + desk.TABLES,
         facts=parts(OFFERED.replace('offerOf', 'laterOf'), ('queue', 'gang', 'stored', 'latest', 'table', 'four'))),
    dict(fn='offer-in', name='OfferIn', at='lending.offer', ret='Sheet',
         params=[('page', 'Sheet'), ('one', 'Step')] + OWN + desk.TABLES,
         facts=parts(OFFERED, ('queue', 'gang', 'stored', 'latest', 'table', 'four'))),
]
CALLEES += of_crate(CRATE, HERE, MORE) + desk.CALLEES

LENT = [('rows', 'mut Row'), ('crew', 'mut Worker')] + desk.LENT
SESSION = '(sessionOf (tallyOf sheet rows crew) records newest versions results)'
NAMES = ('rows', 'crew', 'records', 'newest', 'versions', 'results')
WIDE = ['Rattle·desk·proofs.proofs.Laws.Wide.{use14}']
own = lambda term: inside(term).replace('page', 'sheet').replace('queue', 'rows').replace('gang', 'crew').replace(
    'stored', 'records').replace('latest', 'newest').replace('table', 'versions').replace('four', 'results')
named = lambda ps: [(own(p), t) for p, t in ps]
met = lambda law: [law + ' .1' * k + (' .0' if k < 6 else '') for k in range(7)]
ALL = 'step log sheet rows crew records newest versions results'
FUNCS = {
    'offer_place': dict(path='lending.offer_place', calls=['lent-place', 'counted-in'],
                        params=[('sheet', 'Sheet'), ('party', 'usize')] + named(PLACING),
                        facts=[('r', own('sheetBy page (%s .stepped)' % PLACE)), ('newest', own(PLACE) + ' .plans .newest'),
                               ('versions', own(PLACE) + ' .plans .versions')]),
    'offer_claim': dict(path='lending.offer_claim', calls=['lent-claim', 'answered'],
                        params=[('sheet', 'Sheet'), ('party', 'usize'), ('number', 'usize')] + named(OWN),
                        facts=[('r', own('sheetCounted page (%s .answer) figures' % CLAIM)),
                               ('rows', own(CLAIM) + ' .state .rows'), ('crew', own(CLAIM) + ' .state .crew')]),
    'offer_advance': dict(path='lending.offer_advance', calls=['lent-advance', 'answered'],
                          params=[('sheet', 'Sheet'), ('party', 'usize')] + named(OWN + ADVANCING),
                          facts=[('r', own('sheetCounted page (%s .stepped .answer) figures' % ADVANCE)),
                                 ('rows', own(ADVANCE) + ' .stepped .state .rows'),
                                 ('crew', own(ADVANCE) + ' .stepped .state .crew'), ('versions', own(ADVANCE) + ' .versions'),
                                 ('results', own(ADVANCE) + ' .results')], uses=WIDE),
    'offer_seal': dict(path='lending.offer_seal', calls=['lent-seal', 'counted-seal-in'],
                       params=[('sheet', 'Sheet')] + named(SEALING),
                       facts=[('r', own('sheetSealedBy page (%s .stepped)' % SEAL)), ('records', own(SEAL) + ' .records'),
                              ('newest', own(SEAL) + ' .newest'), ('versions', own(SEAL) + ' .versions')]),
    'offer_later': dict(path='lending.offer_later', params=[('sheet', 'Sheet'), ('step', 'Step')] + LENT,
                        facts=parts('laterOf step log ' + SESSION, NAMES),
                        calls=['advance-test', 'party-of', 'offer-advance-in', 'seal-test', 'offer-seal-in', 'refused-in'],
                        exits=[met('%s-met %s %s' % (kind, ALL, known)) for kind, known in (
                            ('advance', 'on'), ('seal', 'off on2'), ('none', 'off off2'))],
                        uses=['Rattle·desk·specs.specs.LawsLending.{advance-met, seal-met, none-met}'] + WIDE),
    'offer': dict(path='lending.offer', params=[('sheet', 'Sheet'), ('step', 'Step')] + LENT,
                  facts=parts('offerOf step log ' + SESSION, NAMES),
                  calls=['place-test', 'party-of', 'offer-place-in', 'claim-test', 'party-of', 'transaction-of',
                         'offer-claim-in', 'offer-later'],
                  exits=[met('%s-met %s %s' % (kind, ALL, known)) for kind, known in (
                      ('place', 'on'), ('claim', 'off on2'), ('later', 'off off2'))],
                  uses=['Rattle·desk·specs.specs.LawsLending.{place-met, claim-met, later-met}'] + WIDE),
    'offer_each': dict(path='lending.offer_each', calls=['whole-steps', 'step-at', 'offer-in'],
                       params=[('sheet', 'Sheet'), ('piece', 'shr u8'), ('bytes', 'usize')] + LENT,
                       facts=parts('runOf piece bytes log ' + SESSION, NAMES),
                       uses=['Rattle·desk·specs.specs.LawsSteps.{within}'] + WIDE,
                       loop=dict(index=12, count='wholeSteps m-piece bytes', fits='g-L11',
                                 locals={1: 'sheetOf (offersOf piece log %s {i} .tally)' % SESSION},
                                 slices={p: ('offersOf piece log %s {i} .%s' % (SESSION, q), None, 'refl')
                                         for p, q in zip(NAMES, ('tally .state .rows', 'tally .state .crew', 'records',
                                                                 'newest', 'versions', 'results'))})),
    'offer_all': dict(path='offering.offer_all', calls=['sheet-of', 'rows-of', 'crew-of', 'offer-each', 'tally-of'],
                      params=[('tally', 'Tally'), ('piece', 'shr u8'), ('bytes', 'usize')] + desk.LENT,
                      ret='Tally', facts=desk.parts('runOf piece bytes log ' + desk.SESSION),
                      uses=['Rattle·desk·proofs.proofs.Laws.Wide.{use14, use16}']),
}
for f in FUNCS.values():
    f.setdefault('ret', 'Sheet')
