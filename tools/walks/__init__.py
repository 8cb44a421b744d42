"""Writes the proofs of functions over lent slices of structs, for the walks of an older toolchain.

Today's checker takes such functions through by itself, so there is nothing to make now. The older one walked most code
by itself and left facts about numbers and lists. A function that had a reference to a struct or a slice of structs in a
parameter or a local it left to the author: a walk of its code, statement by statement. Such walks are all alike, so
they are written from the code and a description of what is called. `tools/regenerate` wrote them all; nobody edited
them. In the order in which one would read:

    description.py       what a description has: types, callees, functions; descriptions/ has one for each part of a crate
    values.py, terms.py  a type's values and terms, as text
    mir.py               the code: what `rattle-print-mir` prints of a crate
    callee.py            for each callee: what it is handed, and what it gives back; one file for each file of the code
    straight.py          the walk: a context of what is at hand (context.py), what the locals hold (locals.py), and a
                         step for each assignment
    calls.py             in it a call: lend, cross, hear, take back, land
    arrays.py            in it an array in a local: taken apart to be lent, put together again
    loops.py             in it a loop (turns.py, counting.py)
    names.py             what a call leaves has a name, so that its term stands once; reading a field is a law by itself
    proof.py             around the walk: how the function is entered and left, and its statement
    library.py, imports.py, layout.py   the `use` lines, of which a file keeps what it names; lines within 120 columns
    entries.py           the proofs of "one entry out, one in" of other tables, from those of the version table

A walk by example. Of `let plan = consider(numbers, wrong); put_row(rows, plan.transaction, plan.row);` the proof has

    abbrev consider-1 : Plan                    what the first call leaves, named
    consider-1 = considered numbers wrong
    abbrev rows-2 : List Row                    what the second makes of the slice
    rows-2 = set rows (consider-1 .transaction) (consider-1 .row)
    walk = ..                                   lend nothing, call `consider`, hear that the result is consider-1,
                                                store it; lend `rows`, load two fields, call `put_row`, hear, take
                                                `rows` back; return

and at the return the facts of the contract hold by `refl` or by the law that the description names, about these names'
terms. What the code may have is said in straight.py and loops.py; what it has beyond is to be taught there, and the
code is not to be bent for it.
"""
