"""What is walked in the crate `engine`: the calls on the state by value, and what they offer to the crates above."""
from ..description import of_crate, offered
from ..values import Enum, Number, Struct
from . import versions

CRATE = 'engine'
HERE = 'Rattle·engine·proofs.proofs.Laws.Calls'
TYPES = dict(versions.TYPES)
TYPES.update({
    'u8': Number('u8', 'w8'),
    'State': Struct('State', 'S'),
    'Stepped': Struct('Stepped', 'Z'),
    'Opening': Struct('Opening', 'O'),
    'Sealing': Struct('Sealing', 'Q'),
    'Placing': Struct('Placing', 'P'),
    'Write': Struct('Write', 'Y'),
    'Seen': Enum('Seen', 'N'),
    'Look': Struct('Look', 'K', [('number', 'usize'), ('slot', 'u16'), ('bound', 'usize'), ('position', 'u64')]),
    'Aim': Struct('Aim', 'J'),
    'Turn': Struct('Turn', 'M′'),
})
USES = '''use Prim.Native.Nat.{_*_}
use mathlib.Core.Bool.{cond}
use lib.ListN.{getD}
use Rattle·versions.specs.declared.Version.{Version}
use Rattle·versions.specs.declared.plan.Fill.{Fill}
use Rattle·versions.specs.declared.plan.Link.{Link}
use Rattle·versions.specs.declared.chain.Walked.{Walked}
use Rattle·versions.specs.Table.{clearOf}
use Rattle·versions.specs.Step.{linkOf, fillOf}
use Rattle·versions.specs.Chain.{walkOf as walkedOf}
use Rattle·versions.specs.Seal.{newestSoundOf, collectOf}
use Rattle·versions.proofs.Version as T
use Rattle·versions.proofs.Version.Laws as T′
use Rattle·versions.proofs.plan.Link as L
use Rattle·versions.proofs.plan.Link.Laws as L′
use Rattle·versions.proofs.plan.Fill as F
use Rattle·versions.proofs.plan.Fill.Laws as F′
use Rattle·versions.proofs.chain.Walked as E
use Rattle·versions.proofs.chain.Walked.Laws as E′
use Rattle·engine·specs.specs.declared.State.{State}
use Rattle·engine·specs.specs.declared.Stepped.{Stepped}
use Rattle·engine·specs.specs.declared.open.Opening.{Opening}
use Rattle·engine·specs.specs.declared.seal.Sealing.{Sealing}
use Rattle·engine·specs.specs.declared.place.Placing.{Placing}
use Rattle·engine·specs.specs.declared.place.Write.{Write}
use Rattle·engine·specs.specs.declared.advance.Aim.{Aim}
use Rattle·engine·specs.specs.Answers.{isAccepted}
use Rattle·engine·specs.specs.Tables.{noneNewest, allZero}
use Rattle·engine·specs.specs.Open.{openOf}
use Rattle·engine·specs.specs.Place.{placeOf}
use Rattle·engine·specs.specs.Advance.{advanceOf}
use Rattle·engine·specs.specs.Seal.{sealOf}
use Rattle·engine·specs.specs.LawsOpen.{openingOf, openedAs}
use Rattle·engine·specs.specs.LawsPlace.{placingOf, writeAt, linkBehind, makeNewest, placedAs}
use Rattle·engine·specs.specs.LawsAdvance.{aimOf, lookedBy, turnBy, turnAfter, turnOf, fillBy, resultsBy, steppedBy}
use Rattle·engine·specs.specs.Advance.{seenOf}
use Rattle·engine·specs.specs.LawsSeal.{sealingOf, closedAs}
use Rattle·engine·proofs.proofs.State as S
use Rattle·engine·proofs.proofs.State.Laws as S′
use Rattle·engine·proofs.proofs.Stepped as Z
use Rattle·engine·proofs.proofs.Stepped.Laws as Z′
use Rattle·engine·proofs.proofs.open.Opening as O
use Rattle·engine·proofs.proofs.open.Opening.Laws as O′
use Rattle·engine·proofs.proofs.seal.Sealing as Q
use Rattle·engine·proofs.proofs.seal.Sealing.Laws as Q′
use Rattle·engine·proofs.proofs.place.Placing as P
use Rattle·engine·proofs.proofs.place.Placing.Laws as P′
use Rattle·engine·proofs.proofs.place.Write as Y
use Rattle·engine·proofs.proofs.place.Write.Laws as Y′
use Rattle·engine·specs.specs.declared.advance.Turn.{Turn}
use Rattle·engine·proofs.proofs.advance.Turn as M′
use Rattle·engine·proofs.proofs.advance.Turn.Laws as M′′
use Rattle·engine·specs.specs.declared.moves.Seen.{Seen}
use Rattle·engine·proofs.proofs.moves.Seen as N
use Rattle·engine·proofs.proofs.moves.Seen.Laws as N′
use Rattle·engine·specs.specs.declared.advance.Look.{Look}
use Rattle·engine·proofs.proofs.advance.Look as K
use Rattle·engine·proofs.proofs.advance.Look.Laws as K′
use Rattle·engine·proofs.proofs.advance.Aim as J
use Rattle·engine·proofs.proofs.advance.Aim.Laws as J′'''
CALLEES = [
    dict(fn='empty-newest', name='EmptyNewest', at='tables.empty_newest', made='Tables', ret=None,
         params=[('newest', 'mut u16'), ('on', 'bool')], facts=[('newest', 'cond on (noneNewest newest) newest')]),
    dict(fn='empty-results', name='EmptyResults', at='tables.empty_results', made='Tables', ret=None,
         params=[('results', 'mut u64'), ('on', 'bool')], facts=[('results', 'cond on (allZero results) results')]),
    dict(fn='count-if', name='CountIf', at='tables.count_if', made='Tables', ret='usize',
         params=[('on', 'bool'), ('all', 'usize')], facts=[('r', 'cond on all 0')]),
    dict(fn='number-at', name='NumberAt', at='tables.number_at', made='Tables', ret='u64',
         params=[('table', 'shr u64'), ('number', 'usize')], facts=[('r', 'getD table number 0')]),
    dict(fn='opening', name='OpeningCall', at='State.opening', made='Open', ret='Opening',
         params=[('state', 'State'), ('log', 'shr u8'), ('slots', 'usize'), ('entries', 'usize'), ('four', 'usize')],
         facts=[('r', 'openingOf state log slots entries four')]),
    dict(fn='opens', name='Opens', at='open.opens', made='Open', ret='bool', params=[('opening', 'Opening')],
         facts=[('r', 'isAccepted (opening .verdict)')]),
    dict(fn='opened', name='OpenedCall', at='State.opened', made='Open', ret='Stepped',
         params=[('state', 'State'), ('opening', 'Opening')], facts=[('r', 'openedAs state opening')]),
    dict(fn='slots', name='Slots', at='State.slots', made='Seal', ret='usize', params=[('state', 'State')],
         facts=[('r', '4 * (state .size)')]),
    dict(fn='sealing', name='SealingCall', at='State.sealing', made='Seal', ret='Sealing',
         params=[('state', 'State'), ('stored', 'usize'), ('slots', 'usize'), ('entries', 'usize'), ('sound', 'bool')],
         facts=[('r', 'sealingOf state stored slots entries sound')]),
    dict(fn='closes', name='Closes', at='seal.closes', made='Seal', ret='bool', params=[('sealing', 'Sealing')],
         facts=[('r', 'isAccepted (sealing .verdict)')]),
    dict(fn='closed', name='ClosedCall', at='State.closed', made='Seal', ret='Stepped',
         params=[('state', 'State'), ('sealing', 'Sealing')], facts=[('r', 'closedAs state sealing')]),
    dict(fn='placing', name='PlacingCall', at='State.placing', made='Place', ret='Placing',
         params=[('state', 'State'), ('p', 'usize'), ('log', 'shr u8'), ('newest', 'shr u16'), ('entries', 'usize')],
         facts=[('r', 'placingOf state p log newest entries')]),
    dict(fn='write-at', name='WriteAt', at='place.write_at', made='Place', ret='Write',
         params=[('plan', 'Placing'), ('j', 'usize')], facts=[('r', 'writeAt plan j')]),
    dict(fn='link-behind', name='LinkBehind', at='place.link_behind', made='Place', ret='Link',
         params=[('newest', 'shr u16'), ('entries', 'usize'), ('write', 'Write')],
         facts=[('r', 'linkBehind newest entries write')]),
    dict(fn='make-newest', name='MakeNewest', at='place.make_newest', made='Place', ret=None,
         params=[('newest', 'mut u16'), ('write', 'Write')], facts=[('newest', 'makeNewest newest write')]),
    dict(fn='place-write', name='PlaceWrite', at='place.place_write', made='Place', ret=None,
         params=[('newest', 'mut u16'), ('versions', 'mut Version'), ('write', 'Write')],
         facts=[('newest', 'makeNewest newest write'),
                ('versions', 'linkOf versions (linkBehind newest (length versions) write)')]),
    dict(fn='placed', name='PlacedCall', at='State.placed', made='Place', ret='Stepped',
         params=[('state', 'State'), ('p', 'usize'), ('plan', 'Placing')], facts=[('r', 'placedAs state p plan')]),
    dict(fn='aim', name='AimCall', at='State.aim', made='Advance', ret='Aim',
         params=[('state', 'State'), ('party', 'usize'), ('log', 'shr u8'), ('newest', 'shr u16'), ('stored', 'usize'),
                 ('entries', 'usize'), ('four', 'usize')],
         facts=[('r', 'aimOf state party log newest stored entries four')]),
    dict(fn='seen-by', name='SeenBy', at='moves.seen_by', made='Advance', ret='Seen',
         params=[('walked', 'Walked'), ('stored', 'u64')], facts=[('r', 'seenOf walked stored')]),
    dict(fn='look-of', name='LookOf', at='advance.look_of', made='Advance', ret='Look', params=[('aim', 'Aim')],
         facts=[('r', 'aim .look')]),
    dict(fn='looked', name='Looked', at='advance.looked', made='Advance', ret='Seen',
         params=[('versions', 'shr Version'), ('records', 'shr u64'), ('sight', 'Look')],
         facts=[('r', 'lookedBy versions records sight')]),
    dict(fn='turn-after-look', name='TurnAfterLook', at='advance.turn_after_look', made='Advance', ret='Turn',
         params=[('versions', 'shr Version'), ('records', 'shr u64'), ('aim', 'Aim')],
         facts=[('r', 'turnAfter versions records aim')]),
    dict(fn='turn-by', name='TurnBy', at='advance.turn_by', made='Advance', ret='Turn',
         params=[('aim', 'Aim'), ('seen', 'Seen')], facts=[('r', 'turnBy aim seen')]),
    dict(fn='turn', name='TurnCall', at='State.turn', made='Advance', ret='Turn',
         params=[('state', 'State'), ('party', 'usize'), ('log', 'shr u8'), ('records', 'shr u64'),
                 ('newest', 'shr u16'), ('versions', 'shr Version'), ('four', 'usize')],
         facts=[('r', 'turnOf state party log records newest versions four')]),
    dict(fn='fill-by', name='FillBy', at='advance.fill_by', made='Advance', ret='Fill',
         params=[('turn', 'Turn'), ('entries', 'usize')], facts=[('r', 'fillBy (turn .step) entries')]),
    dict(fn='give-results', name='GiveResults', at='advance.give_results', made='Advance', ret=None,
         params=[('results', 'mut u64'), ('turn', 'Turn')], facts=[('results', 'resultsBy results turn')]),
    dict(fn='carry-out', name='CarryOut', at='advance.carry_out', made='Advance', ret=None,
         params=[('versions', 'mut Version'), ('results', 'mut u64'), ('turn', 'Turn')],
         facts=[('versions', 'fillOf versions (fillBy (turn .step) (length versions))'),
                ('results', 'resultsBy results turn')]),
    dict(fn='stepped-by', name='SteppedBy', at='State.stepped_by', made='Advance', ret='Stepped',
         params=[('state', 'State'), ('party', 'usize'), ('turn', 'Turn')],
         facts=[('r', 'steppedBy state party turn')]),
]
CALLEES = of_crate(CRATE, HERE, CALLEES)
CALLEES += offered(
    versions.OFFERED, ['link', 'fill', 'clear', 'walk', 'newest-sound', 'collect'], HERE + '.Versions')

# What the crate offers to walks of other crates. No param has the name of a field of what the definitions answer.
OFFERED = [
    dict(fn='open-by', at='open', name='OpenCall',
         params=[('state', 'State'), ('log', 'shr u8'), ('latest', 'mut u16'), ('table', 'mut Version'),
                 ('four', 'mut u64')],
         facts=[('r', 'openOf state log latest table four .stepped'),
                ('latest', 'openOf state log latest table four .newest'),
                ('table', 'openOf state log latest table four .versions'),
                ('four', 'openOf state log latest table four .results')]),
    dict(fn='place-by', at='place', name='PlaceCall',
         params=[('state', 'State'), ('party', 'usize'), ('log', 'shr u8'), ('latest', 'mut u16'),
                 ('table', 'mut Version')],
         facts=[('r', 'placeOf state party log latest table .stepped'),
                ('latest', 'placeOf state party log latest table .plans .newest'),
                ('table', 'placeOf state party log latest table .plans .versions')]),
    dict(fn='advance-by', at='advance', name='AdvanceCall',
         params=[('state', 'State'), ('party', 'usize'), ('log', 'shr u8'), ('stored', 'shr u64'),
                 ('latest', 'shr u16'), ('table', 'mut Version'), ('four', 'mut u64')],
         facts=[('r', 'advanceOf state party log stored latest table four .stepped'),
                ('table', 'advanceOf state party log stored latest table four .versions'),
                ('four', 'advanceOf state party log stored latest table four .results')]),
    dict(fn='seal-by', at='seal', name='SealCall',
         params=[('state', 'State'), ('stored', 'mut u64'), ('latest', 'mut u16'), ('table', 'mut Version')],
         facts=[('r', 'sealOf state stored latest table .stepped'),
                ('stored', 'sealOf state stored latest table .records'),
                ('latest', 'sealOf state stored latest table .newest'),
                ('table', 'sealOf state stored latest table .versions')]),
]
for c in OFFERED:
    c.update(ret='Stepped', path=('Rattle·engine.proofs.State.' + c['at'], 'calls-engine·State·' + c['at']))

laws = lambda name, facts: ['Rattle·engine·specs.specs.Laws%s.{%s}' % (name, ', '.join(facts))]
FUNCS = {
    'open': dict(path='State.open', ret='Stepped',
                 params=[('state', 'State'), ('log', 'shr u8'), ('newest', 'mut u16'), ('versions', 'mut Version'),
                         ('results', 'mut u64')],
                 facts=[('r', 'openOf state log newest versions results .stepped'),
                        ('newest', 'openOf state log newest versions results .newest'),
                        ('versions', 'openOf state log newest versions results .versions'),
                        ('results', 'openOf state log newest versions results .results')],
                 exit=['open-stepped state log newest versions results',
                       'open-newest state log newest versions results',
                       'open-versions state log newest versions results',
                       'open-results state log newest versions results'],
                 uses=laws('Open', ['open-stepped', 'open-newest', 'open-versions', 'open-results']),
                 calls=['opening', 'opens', 'empty-newest', 'count-if', 'clear', 'empty-results', 'opened']),
    'place_write': dict(path='place.place_write',
                        params=[('newest', 'mut u16'), ('versions', 'mut Version'), ('write', 'Write')],
                        facts=[('newest', 'makeNewest newest write'),
                               ('versions', 'linkOf versions (linkBehind newest (length versions) write)')],
                        calls=['link-behind', 'link', 'make-newest']),
    'place': dict(path='State.place', ret='Stepped',
                  params=[('state', 'State'), ('p', 'usize'), ('log', 'shr u8'), ('newest', 'mut u16'),
                          ('versions', 'mut Version')],
                  facts=[('r', 'placeOf state p log newest versions .stepped'),
                         ('newest', 'placeOf state p log newest versions .plans .newest'),
                         ('versions', 'placeOf state p log newest versions .plans .versions')],
                  exit=['place-stepped state p log newest versions', 'place-newest state p log newest versions',
                        'place-versions state p log newest versions'],
                  uses=laws('Place', ['place-stepped', 'place-newest', 'place-versions']),
                  calls=['placing', 'write-at', 'place-write', 'write-at', 'place-write', 'write-at', 'place-write',
                         'write-at', 'place-write', 'placed']),
    'looked': dict(path='advance.looked', ret='Seen',
                   params=[('versions', 'shr Version'), ('records', 'shr u64'), ('sight', 'Look')],
                   facts=[('r', 'lookedBy versions records sight')], exit=['looked-is versions records sight'],
                   uses=laws('Advance', ['looked-is']), calls=['walk', 'number-at', 'seen-by']),
    'turn_after_look': dict(path='advance.turn_after_look', ret='Turn',
                            params=[('versions', 'shr Version'), ('records', 'shr u64'), ('aim', 'Aim')],
                            facts=[('r', 'turnAfter versions records aim')],
                            exit=['turn-after versions records aim'], uses=laws('Advance', ['turn-after']),
                            calls=['look-of', 'looked', 'turn-by']),
    'turn': dict(path='State.turn', ret='Turn',
                 params=[('state', 'State'), ('party', 'usize'), ('log', 'shr u8'), ('records', 'shr u64'),
                         ('newest', 'shr u16'), ('versions', 'shr Version'), ('four', 'usize')],
                 facts=[('r', 'turnOf state party log records newest versions four')],
                 exit=['turn-is state party log records newest versions four'], uses=laws('Advance', ['turn-is']),
                 calls=['aim', 'turn-after-look']),
    'carry_out': dict(path='advance.carry_out',
                      params=[('versions', 'mut Version'), ('results', 'mut u64'), ('turn', 'Turn')],
                      facts=[('versions', 'fillOf versions (fillBy (turn .step) (length versions))'),
                             ('results', 'resultsBy results turn')],
                      calls=['fill-by', 'fill', 'give-results']),
    'advance': dict(path='State.advance', ret='Stepped',
                    params=[('state', 'State'), ('party', 'usize'), ('log', 'shr u8'), ('records', 'shr u64'),
                            ('newest', 'shr u16'), ('versions', 'mut Version'), ('results', 'mut u64')],
                    facts=[('r', 'advanceOf state party log records newest versions results .stepped'),
                           ('versions', 'advanceOf state party log records newest versions results .versions'),
                           ('results', 'advanceOf state party log records newest versions results .results')],
                    exit=['advance-stepped state party log records newest versions results',
                          'advance-versions state party log records newest versions results',
                          'advance-results state party log records newest versions results'],
                    uses=laws('Advance', ['advance-stepped', 'advance-versions', 'advance-results']),
                    calls=['turn', 'carry-out', 'stepped-by']),
    'seal': dict(path='State.seal', ret='Stepped',
                 params=[('state', 'State'), ('records', 'mut u64'), ('newest', 'mut u16'),
                         ('versions', 'mut Version')],
                 facts=[('r', 'sealOf state records newest versions .stepped'),
                        ('records', 'sealOf state records newest versions .records'),
                        ('newest', 'sealOf state records newest versions .newest'),
                        ('versions', 'sealOf state records newest versions .versions')],
                 exit=['seal-stepped state records newest versions', 'seal-records state records newest versions',
                       'seal-newest state records newest versions', 'seal-versions state records newest versions'],
                 uses=laws('Seal', ['seal-stepped', 'seal-records', 'seal-newest', 'seal-versions']),
                 calls=['slots', 'newest-sound', 'sealing', 'closes', 'collect', 'empty-newest', 'count-if', 'clear',
                        'closed']),
}
