"""Steps for a whole case: random schedules that end in an accepted seal, and senseless steps."""

from engine import Unprocessed, is_done, is_idle, is_planned
from program import ADVANCE, CLAIM, PLACE, SEAL, offered, step_bytes

MOST_STEPS = 20_000      # more than any schedule needs; a run that never seals ends here


# Orders: which of the Unprocessed transactions is claimed next --------------

def forwards(chance, free):
    return free[0]


def backwards(chance, free):
    """Mostly the last, which waits for all before it; sometimes the first, so that there is an end."""
    return free[-1] if chance.random() < 0.7 else free[0]


def nearby(chance, free):
    return chance.choice(free[:4])


def in_any_order(chance, free):
    return chance.choice(free)


# Schedules ------------------------------------------------------------------

def sensible_step(chance, state, order):
    """A step that checks 9 to 13 let pass."""
    if not is_planned(state):
        return step_bytes(PLACE, chance.choice([p for p in range(state.P) if state.placed[p] < state.size]))
    if is_done(state):
        return step_bytes(SEAL, chance.choice((0, 0, 1, 255)))
    idle = [w for w in range(state.W) if is_idle(state.crew[w])]
    busy = [w for w in range(state.W) if w not in idle]
    free = [i for i in range(state.size) if isinstance(state.rows[i], Unprocessed)]
    if idle and free and (not busy or chance.random() < 0.4):
        return step_bytes(CLAIM, chance.choice(idle), order(chance, free))
    return step_bytes(ADVANCE, chance.choice(busy))


def any_bytes(chance, length):
    return bytes(chance.randrange(256) for _ in range(length))


SMALL_PARTIES = (0, 0, 1, 1, 2)


def any_step(chance, parties=SMALL_PARTIES):
    """A step of any bytes, mostly small ones."""
    if chance.random() < 0.2:
        return any_bytes(chance, 4)
    return step_bytes(chance.choice((0, PLACE, CLAIM, CLAIM, ADVANCE, ADVANCE, ADVANCE, SEAL, 5)),
                      chance.choice(parties), chance.choice((0, 0, 0, 1, 2, 3, 256)))


def schedule(chance, run, order, senseless=0.0, parties=SMALL_PARTIES):
    """Steps that bring an opened batch to an accepted seal; this part of them is any steps."""
    steps = []
    while not run.sealed:
        step = (any_step(chance, parties) if chance.random() < senseless
                else sensible_step(chance, run.state, order))
        run = offered(run, step)
        steps.append(step)
        assert len(steps) < MOST_STEPS, "no seal in sight"
    return b"".join(steps)
