"""What is walked in the crate `versions`: the version table, and what it offers to the crates above."""
from ..description import of_crate
from ..values import Boolean, Enum, Number, Struct

CRATE = 'versions'
HERE = 'Rattle·versions·proofs.proofs.Laws.Calls'
TYPES = {
    'u64': Number('u64', 'w64'), 'usize': Number('usize', 'w64'), 'u16': Number('u16', 'w16'), 'bool': Boolean(),
    'Version': Struct('Version', 'T', [('begin', 'u64'), ('end', 'u64'), ('previous', 'u16'), ('contents', 'u64'),
                                           ('produced', 'bool')]),
    'Link': Struct('Link', 'L', [('slot', 'usize'), ('position', 'u64'), ('previous', 'u16')]),
    'Fill': Struct('Fill', 'F', [('slot', 'usize'), ('contents', 'u64')]),
    'Walked': Enum('Walked', 'E'),
}
USES = '''use Rattle·versions·specs.specs.declared.Version.{Version}
use Rattle·versions·specs.specs.declared.plan.Fill.{Fill}
use Rattle·versions·specs.specs.declared.plan.Link.{Link}
use Rattle·versions·specs.specs.declared.chain.Walked.{Walked}
use Rattle·versions·specs.specs.Entry.{emptyEntry, linkedOf, endedOf, filledOf}
use Rattle·versions·specs.specs.Table.{entryOf, putOf, clearOf, lesserOf}
use Rattle·versions·specs.specs.Step.{precedingOf, linkOf, fillOf}
use Rattle·versions·specs.specs.Chain.{walkFrom, walkOf as walkedOf}
use Rattle·versions·specs.specs.LawsFollow.{passesOf, answerOf}
use Rattle·versions·specs.specs.Seal.{slotOf, soundOn, soundBelow, newestSoundOf, takeOf, collectBelow}
use Rattle·versions·specs.specs.Seal.{collectOf}
use Rattle·versions·specs.specs.LawsSeal.{namedOf}
use Rattle·terms.specs.Reserved.{noSlot}
use lib.Dec.{eqb}
use Rattle·versions·proofs.proofs.Version as T
use Rattle·versions·proofs.proofs.Version.Laws as T′
use Rattle·versions·proofs.proofs.plan.Link as L
use Rattle·versions·proofs.proofs.plan.Link.Laws as L′
use Rattle·versions·proofs.proofs.plan.Fill as F
use Rattle·versions·proofs.proofs.plan.Fill.Laws as F′
use Rattle·versions·proofs.proofs.chain.Walked as E
use Rattle·versions·proofs.proofs.chain.Walked.Laws as E′'''
CALLEES = [
    dict(fn='empty', name='Empty', at='entry.empty', params=[], ret='Version', facts=[('r', 'emptyEntry')]),
    dict(fn='ended', name='Ended', at='entry.ended', params=[('old', 'Version'), ('position', 'u64')], ret='Version',
         facts=[('r', 'endedOf old position')]),
    dict(fn='linked', name='Linked', at='entry.linked',
         params=[('old', 'Version'), ('position', 'u64'), ('newest', 'u16')], ret='Version',
         facts=[('r', 'linkedOf old position newest')]),
    dict(fn='filled', name='Filled', at='entry.filled', params=[('old', 'Version'), ('new', 'u64')], ret='Version',
         facts=[('r', 'filledOf old new')]),
    dict(fn='lesser', name='Lesser', at='table.lesser', params=[('this', 'usize'), ('that', 'usize')], ret='usize',
         facts=[('r', 'lesserOf this that')]),
    dict(fn='entry-at', name='EntryAt', at='table.entry_at', params=[('versions', 'shr Version'), ('slot', 'usize')],
         ret='Version', facts=[('r', 'entryOf versions slot')]),
    dict(fn='put-at', name='PutAt', at='table.put_at',
         params=[('versions', 'mut Version'), ('slot', 'usize'), ('version', 'Version')], ret=None,
         facts=[('versions', 'putOf versions slot version')]),
    dict(fn='preceding', name='Preceding', at='step.preceding', ret='usize',
         params=[('plan', 'Link'), ('size', 'usize')], facts=[('r', 'precedingOf plan size')]),
    dict(fn='passes', name='Passes', at='chain.passes', ret='bool',
         params=[('slot', 'u16'), ('limit', 'usize'), ('version', 'Version'), ('position', 'u64')],
         facts=[('r', 'passesOf slot limit version position')]),
    dict(fn='answer', name='Answer', at='chain.answer', ret='Walked',
         params=[('slot', 'u16'), ('limit', 'usize'), ('version', 'Version')],
         facts=[('r', 'answerOf slot limit version')]),
    dict(fn='is-no-slot', name='IsNoSlot', at='seal.is_no_slot',
         path=('Rattle·terms.proofs.is_no_slot', 'calls-terms·is-no-slot'), params=[('slot', 'u16')], ret='bool',
         facts=[('r', 'eqb slot noSlot')]),
    dict(fn='entry-named', name='EntryNamed', at='seal.entry_named', ret='Version',
         params=[('versions', 'shr Version'), ('slot', 'u16')], facts=[('r', 'namedOf versions slot')]),
    dict(fn='slot-at', name='SlotAt', at='seal.slot_at', params=[('newest', 'shr u16'), ('number', 'usize')], ret='u16',
         facts=[('r', 'slotOf newest number')]),
    dict(fn='sound-on', name='SoundOn', at='seal.sound_on',
         params=[('sound', 'bool'), ('slot', 'u16'), ('version', 'Version'), ('limit', 'usize')], ret='bool',
         facts=[('r', 'soundOn sound slot version limit')]),
    dict(fn='take', name='Take', at='seal.take',
         params=[('records', 'mut u64'), ('number', 'usize'), ('slot', 'u16'), ('version', 'Version'), ('on', 'bool')],
         ret=None, facts=[('records', 'takeOf records number slot version on')]),
]
CALLEES = of_crate(CRATE, HERE, CALLEES)

# What the crate offers to walks of other crates: a description there adds these to its CALLEES, with `made` the module of
# its own facts, and has in its USES the definitions and types that they name, from Rattle·versions.
OFFERED = [
    dict(fn='empty', name='EmptyCall', params=[], ret='Version', facts=[('r', 'emptyEntry')]),
    dict(fn='link', name='LinkCall', params=[('versions', 'mut Version'), ('plan', 'Link')], ret=None,
         facts=[('versions', 'linkOf versions plan')]),
    dict(fn='fill', name='FillCall', params=[('versions', 'mut Version'), ('plan', 'Fill')], ret=None,
         facts=[('versions', 'fillOf versions plan')]),
    dict(fn='clear', name='ClearCall', params=[('versions', 'mut Version'), ('count', 'usize')], ret=None,
         facts=[('versions', 'clearOf versions count')]),
    dict(fn='walk', name='WalkCall', ret='Walked',
         params=[('versions', 'shr Version'), ('newest', 'u16'), ('bound', 'usize'), ('position', 'u64')],
         facts=[('r', 'walkedOf versions newest bound position')]),
    dict(fn='newest-sound', name='NewestSoundCall', ret='bool',
         params=[('versions', 'shr Version'), ('newest', 'shr u16'), ('bound', 'usize')],
         facts=[('r', 'newestSoundOf versions newest bound')]),
    dict(fn='collect', name='CollectCall', ret=None,
         params=[('versions', 'shr Version'), ('newest', 'shr u16'), ('records', 'mut u64'), ('on', 'bool')],
         facts=[('records', 'collectOf versions newest records on')]),
    dict(fn='entry-at', name='EntryAtCall', params=[('versions', 'shr Version'), ('slot', 'usize')], ret='Version',
         facts=[('r', 'entryOf versions slot')]),
    dict(fn='put-at', name='PutAtCall', ret=None,
         params=[('versions', 'mut Version'), ('slot', 'usize'), ('version', 'Version')],
         facts=[('versions', 'putOf versions slot version')]),
]
for c in OFFERED:
    c['path'] = ('Rattle·versions.proofs.' + c['fn'].replace('-', '_'), 'calls-versions·' + c['fn'])

FUNCS = {
    'fill': dict(path='step.fill', params=[('versions', 'mut Version'), ('plan', 'Fill')],
                 facts=[('versions', 'fillOf versions plan')], calls=['entry-at', 'filled', 'put-at']),
    'link': dict(path='step.link', params=[('versions', 'mut Version'), ('plan', 'Link')],
                 facts=[('versions', 'linkOf versions plan')],
                 calls=['preceding', 'entry-at', 'ended', 'put-at', 'entry-at', 'linked', 'put-at']),
    'walk': dict(path='chain.walk', ret='Walked',
                 params=[('versions', 'shr Version'), ('newest', 'u16'), ('bound', 'usize'), ('position', 'u64')],
                 facts=[('r', 'walkedOf versions newest bound position')],
                 uses=['Rattle·versions·proofs.proofs.Laws.Chain.{pass-less, pass-on, pass-end}'],
                 calls=['lesser', 'entry-at', 'passes', 'entry-at', 'answer'],
                 falls=dict(state={'slot': 5, 'limit': 6}, locals={7: 'entryOf versions {slot}'},
                            law='walkFrom versions position (suc {limit}) {limit} {slot}'
                            ' ≡ walkedOf versions newest bound position',
                            first='refl', next='pass-on versions position {limit} {slot} {on} ∙ {law}',
                            measure='{limit}',
                            less='pass-less {slot} {limit} position (entryOf versions {slot}) {on}',
                            ends=['pass-end versions position {limit} {slot} {off} ∙ {law}'])),
    'entry_named': dict(path='seal.entry_named', ret='Version',
                        params=[('versions', 'shr Version'), ('slot', 'u16')], facts=[('r', 'namedOf versions slot')],
                        calls=['is-no-slot', 'empty', 'entry-at'],
                        uses=['Rattle·versions·proofs.proofs.Laws.Seal.{named-none, named-some}'],
                        exits=[['named-none versions slot on'], ['named-some versions slot off']]),
    'clear': dict(path='table.clear',
                  params=[('versions', 'mut Version'), ('count', 'usize')],
                  facts=[('versions', 'clearOf versions count')],
                  exit=['clear-lesser versions count'], calls=['empty', 'lesser', 'put-at'],
                  uses=['Rattle·versions·specs.specs.LawsTable.{clear-length}',
                        'Rattle·versions·proofs.proofs.Laws.Clear.{clear-step, clear-lesser}'],
                  loop=dict(index=5, count='lesserOf count m-versions', fits='g-L4',
                            slices={'versions': ('clearOf versions {i}', 'clear-length versions {i}',
                                                 'clear-step versions {i}')})),
    'newest_sound': dict(path='seal.newest_sound', ret='bool',
                         params=[('versions', 'shr Version'), ('newest', 'shr u16'), ('bound', 'usize')],
                         facts=[('r', 'newestSoundOf versions newest bound')],
                         calls=['lesser', 'slot-at', 'entry-named', 'sound-on'],
                         uses=['Rattle·versions·proofs.proofs.Laws.Seal.{sound-named}'],
                         loop=dict(index=6, count='m-newest', fits='room-newest .0',
                                   locals={5: 'soundBelow versions newest (lesserOf bound m-versions) {i}'},
                                   steps={5: 'sound-named versions (soundBelow versions newest'
                                          ' (lesserOf bound m-versions) {i}) (slotOf newest {i})'
                                          ' (lesserOf bound m-versions)'})),
    'collect': dict(path='seal.collect',
                    params=[('versions', 'shr Version'), ('newest', 'shr u16'), ('records', 'mut u64'), ('on', 'bool')],
                    facts=[('records', 'collectOf versions newest records on')],
                    exit=['collect-lesser versions newest records on'],
                    calls=['lesser', 'slot-at', 'entry-named', 'take'],
                    uses=['Rattle·versions·specs.specs.LawsSeal.{collect-below-length}',
                          'Rattle·versions·proofs.proofs.Laws.Seal.{take-named, collect-lesser}'],
                    loop=dict(index=6, count='lesserOf m-records m-newest', fits='g-L5',
                              slices={'records': ('collectBelow versions newest records on {i}',
                                                  'collect-below-length versions newest records on {i}',
                                                  'take-named versions (collectBelow versions newest records on {i})'
                                                  ' {i} (slotOf newest {i}) on')})),
}
