"""The proofs of "one entry out, one in" for lent runs of another struct, from those of the version table, which are walks
by hand: crates/versions/proofs/table/{entry,put,entry_at,put_at} and the facts of Laws/Callee.antt.

Each line of RUNS is a run: its module in the crate engine, the struct, the size of one in bytes, the entry past the end
with its definition, the function that makes that one, and the names of the two total functions.
"""
import os
import re

HERE = 'Rattle·engine·proofs.proofs'
RUNS = [
    ('crew', 'Worker', 80, ('idleWorker', 'Workers', 'idleWorker'), 'workers.idle', 'worker_at', 'put_worker'),
    ('transactions', 'Row', 2, ('unprocessed', 'Lent', 'unprocessed'), 'rows.unprocessed', 'row_at', 'put_row'),
]
TABLE = 'crates/versions/proofs/'


def written(text, run):
    module, struct, size, (past, file, name), maker, read, store = run
    at = HERE + '.lent.' + module
    dashed = lambda s: s.replace('_', '-')
    for a, b in [
        ('Rattle·versions·proofs.proofs.table.entry_at', at + '.' + read),
        ('Rattle·versions·proofs.proofs.table.put_at', at + '.' + store),
        ('Rattle·versions·proofs.proofs.table.', at + '.'),
        ('Rattle·versions·proofs.proofs.entry.empty', HERE + '.' + maker),
        ('Rattle·versions·proofs.proofs.Laws.Callee', HERE + '.Laws.Lent.' + module.capitalize()),
        ('Rattle·versions·proofs.proofs.Laws.Lists', HERE + '.Laws.Lent.Lists'),
        ('Rattle·versions·specs.specs.LawsTable', 'Rattle·versions.specs.LawsTable'),
        ('Rattle·versions·specs.specs.declared.Version.{Version}',
         'Rattle·engine·specs.specs.declared.%s.{%s}' % (struct, struct)),
        ('Rattle·versions·specs.specs.Entry.{emptyEntry}', 'Rattle·engine·specs.specs.%s.{%s}' % (file, name)),
        ('Rattle·versions·proofs.proofs.Version', HERE + '.' + struct),
        ('emptyEntry', past),
        ('entry-at-spec', dashed(read) + '-spec'), ('put-at-spec', dashed(store) + '-spec'),
        ('calls-versions·table·', 'calls-engine·lent·%s·' % module),
        ('calls-versions·entry·empty', 'calls-engine·' + maker.replace('.', '·')),
        ('#versions·entry-at', '#engine·' + dashed(read)), ('#versions·put-at', '#engine·' + dashed(store)),
        ('#versions·', '#engine·'),
        ('versions::table::entry_at', 'engine::lent::%s::%s' % (module, read)),
        ('versions::table::put_at', 'engine::lent::%s::%s' % (module, store)),
        ('versions::table::', 'engine::lent::%s::' % module),
        ('the walks written by hand (`entry_at`, `put_at`) show', 'the walks of `%s` and `%s` show' % (read, store)),
        ('`versions[slot]`', 'an element'), ('* 40', '* %d' % size), ('place-is 40', 'place-is %d' % size),
    ]:
        text = text.replace(a, b)
    text = re.sub(r'(slot times\s+(?:-- )?)40 ', r'\g<1>%d ' % size, text)
    return re.sub(r'\bVersion\b', struct, text).replace('its code, by hand', "its code, as the version table's")


def files(root):
    """file -> its text, without its first line"""
    out = {}
    proofs = 'crates/engine/proofs/'
    for run in RUNS:
        module, read, store = run[0], run[5], run[6]
        table = [('table/%s/Proof.antt' % old, 'lent/%s/%s/Proof.antt' % (module, new))
                 for old, new in [('entry', 'entry'), ('put', 'put'), ('entry_at', read), ('put_at', store)]]
        for old, new in table + [('Laws/Callee.antt', 'Laws/Lent/%s.antt' % module.capitalize())]:
            with open(os.path.join(root, TABLE, old)) as source:
                out[proofs + new] = written(source.read(), run)
    return out
