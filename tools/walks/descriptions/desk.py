"""What the walks of the crate `desk` call, and what it offers to the crates above."""
from ..description import of_crate
from ..values import Struct
from . import engine

CRATE = 'desk'
HERE = 'Rattle·desk·proofs.proofs.Laws.Calls'
TYPES = {k: engine.TYPES[k] for k in ('u8', 'u16', 'u64', 'usize', 'bool', 'Version', 'State', 'Stepped')}
TYPES['Step'] = Struct('Step', 'P', [('kind', 'u8'), ('party', 'u8'), ('transaction', 'u16')])
TYPES['Tally'] = Struct('Tally', 'C′')
USES = '''use Prim.Native.Nat.{_/_}
use Rattle·versions.specs.declared.Version.{Version}
use Rattle·versions.proofs.Version as T
use Rattle·versions.proofs.Version.Laws as T′
use Rattle·engine.specs.declared.State.{State}
use Rattle·engine.specs.declared.Stepped.{Stepped}
use Rattle·engine.specs.Place.{placeOf}
use Rattle·engine.specs.Advance.{advanceOf}
use Rattle·engine.specs.Seal.{sealOf}
use Rattle·engine.proofs.State as S
use Rattle·engine.proofs.State.Laws as S′
use Rattle·engine.proofs.Stepped as Z
use Rattle·engine.proofs.Stepped.Laws as Z′
use Rattle·desk·specs.specs.Counts.{counted, countedSeal, refusedAtOnce}
use Rattle·desk·specs.specs.Offer.{sessionOf, countedBy, countedSealBy, placeFor, claimFor, advanceFor, sealFor}
use Rattle·desk·specs.specs.Offer.{Session, offerOf, offersOf, runOf}
use Rattle·desk·specs.specs.Steps.{stepAt, wholeSteps, isPlace, isClaim, isAdvance, isSeal}
use Rattle·desk·specs.specs.declared.Step.{Step}
use Rattle·desk·specs.specs.declared.Tally.{Tally}
use Rattle·desk·proofs.proofs.Step as P
use Rattle·desk·proofs.proofs.Step.Laws as P′
use Rattle·desk·proofs.proofs.Tally as C′
use Rattle·desk·proofs.proofs.Tally.Laws as C′′'''
TABLES = [('log', 'shr u8'), ('stored', 'mut u64'), ('latest', 'mut u16'), ('table', 'mut Version'), ('four', 'mut u64')]
# no param of a callee has the name of a field of what the definitions answer
CALLEES = [
    dict(fn='%s-test' % kind, name='%sTest' % kind.capitalize(), at='steps.is_' + kind, ret='bool',
         params=[('one', 'Step')], facts=[('r', 'is%s one' % kind.capitalize())])
    for kind in ('place', 'claim', 'advance', 'seal')
] + [
    dict(fn='step-at', name='StepAt', at='steps.step_at', ret='Step', params=[('piece', 'shr u8'), ('number', 'usize')],
         facts=[('r', 'stepAt piece number')], requires='number < length piece / 4',
         needs='(within m-piece bytes (i .0) (ltb→lt (i .0) n less))'),
    dict(fn='party-of', name='PartyOf', at='steps.party_of', ret='usize', params=[('one', 'Step')],
         facts=[('r', 'one .party')]),
    dict(fn='whole-steps', name='WholeSteps', at='steps.whole_steps', ret='usize',
         params=[('size', 'usize'), ('bytes', 'usize')], facts=[('r', 'wholeSteps size bytes')]),
]
CALLEES = of_crate(CRATE, HERE, CALLEES)

# What the crate offers to walks of other crates.
OFFERED = [
    dict(fn='offer-all', name='OfferAll', ret='Tally',
         params=[('before', 'Tally'), ('piece', 'shr u8'), ('bytes', 'usize')] + TABLES,
         facts=[('r', 'runOf piece bytes log (sessionOf before stored latest table four) .tally'),
                ('stored', 'runOf piece bytes log (sessionOf before stored latest table four) .records'),
                ('latest', 'runOf piece bytes log (sessionOf before stored latest table four) .newest'),
                ('table', 'runOf piece bytes log (sessionOf before stored latest table four) .versions'),
                ('four', 'runOf piece bytes log (sessionOf before stored latest table four) .results')],
         path=('Rattle·desk.proofs.offer_all', 'calls-desk·offer-all')),
]

LENT = [('log', 'shr u8'), ('records', 'mut u64'), ('newest', 'mut u16'), ('versions', 'mut Version'),
        ('results', 'mut u64')]
SESSION = '(sessionOf tally records newest versions results)'
PARTS = ['records', 'newest', 'versions', 'results']


def parts(term):
    """what is known of a function whose result and tables are the parts of a session"""
    return [('r', term + ' .tally')] + [(p, '%s .%s' % (term, p)) for p in PARTS]


# the walks stand in descriptions/lending.py
FUNCS = {}
