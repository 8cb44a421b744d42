"""The bytes of records.bin, log.bin and steps.bin as text. The usage of batch_text.py says the form.

Any bytes can be shown: what no line of the form can tell is a line of bytes,
with a remark on what is wrong and at which byte. So the text always packs to
the same bytes again.
"""

from batch_faults import ANY_RECORD, Fault, fault_4, opening_fault, record_count, transaction_fault
from batch_lines import ACTION_FORMS
from packed import ENTRY_LENGTH, decode, kind_bytes, number, part
from program import ADVANCE, CLAIM, FILES, PLACE, SEAL, STEP_LENGTH, belongs

NUMBERS_IN_A_LINE = 8
BYTES_IN_A_LINE = 44         # half an entry
STEP_NAMES = {PLACE: "place", CLAIM: "claim", ADVANCE: "advance", SEAL: "seal"}


def count_of(count, name):
    return f"{count} {name}" + ("" if count == 1 else "s")


def bytes_lines(name, data):
    """Lines of bytes, which pack as they stand."""
    return [f"bytes of {name} {data[at : at + BYTES_IN_A_LINE].hex()}" for at in range(0, len(data), BYTES_IN_A_LINE)]


# Records --------------------------------------------------------------------

def records_lines(records_file):
    whole = len(records_file) // 8
    numbers = [str(number(part(records_file, 0, 8, r))) for r in range(whole)]
    lines = [f"# records.bin: {count_of(whole, 'record')}"]
    lines += ["records " + " ".join(numbers[at : at + NUMBERS_IN_A_LINE])
              for at in range(0, whole, NUMBERS_IN_A_LINE)]
    rest = records_file[8 * whole :]
    if rest:
        lines.append(f"# records.bin byte {8 * whole}: {count_of(len(rest), 'byte')} left over, no whole record")
    return lines + bytes_lines("records", rest)


# Transactions ---------------------------------------------------------------

def action_text(action):
    first, between, second = ACTION_FORMS[action.kind]
    return f"{action.kind} {getattr(action, first)} {between} {getattr(action, second)}"


def set_text(name, records):
    return [f"{name} " + " and ".join(map(str, records))] if records else []


def transaction_text(entry):
    """The line of an entry; of one that check 4 refuses, as much as can be told."""
    meaning = decode(entry)
    sets = set_text("reads", meaning.reads[: entry[0]]) + set_text("writes", meaning.writes[: entry[1]])
    kinds = kind_bytes(entry[:2] + bytes([min(entry[2], 4)]) + entry[3:])
    actions = [f"kind {kind}" if action.kind == "nothing" else action_text(action)
               for kind, action in zip(kinds, meaning.actions)]
    return ", ".join([" ".join(sets)] * bool(sets) + actions) or "nothing"


def entry_lines(N, log_file, i):
    entry = part(log_file, 0, ENTRY_LENGTH, i)
    fault = transaction_fault(N, log_file, i)
    lines = [f"# log.bin byte {fault.at}: {fault.told()}"] if fault else []
    if fault_4(entry):
        return lines + ["# as far as it can be told: " + transaction_text(entry)] + bytes_lines("log", entry)
    return lines + [transaction_text(entry)]


def log_lines(records_file, log_file):
    N = record_count(records_file) or ANY_RECORD     # without a proper N no record number is judged
    whole = len(log_file) // ENTRY_LENGTH
    lines = [f"# log.bin: {count_of(whole, 'transaction')}"]
    for i in range(whole):
        lines += entry_lines(N, log_file, i)
    rest = log_file[ENTRY_LENGTH * whole :]
    if rest:
        words = f"{count_of(len(rest), 'byte')} left over, no whole transaction"
        lines.append(f"# log.bin byte {ENTRY_LENGTH * whole}: {words}")
    return lines + bytes_lines("log", rest)


# Steps ----------------------------------------------------------------------

def step_text(kind, party, transaction):
    if kind == CLAIM:
        return f"claim {party} of {transaction}"
    if kind == SEAL:
        return "seal" + (f" {party}" if party else "")
    return f"{STEP_NAMES[kind]} {party}"


def step_lines(step, at):
    kind, party, transaction = step[0], step[1], number(step[2:4])
    if belongs(kind, transaction):
        return [step_text(kind, party, transaction)]
    if kind in STEP_NAMES:
        words = f"{step_text(kind, party, 0)} with transaction {transaction}, where none belongs"
        at += 2
    else:
        words = f"kind {kind}, and the kinds are 1 to 4"
    return [f"# steps.bin byte {at}: counted as refused: {words}"] + bytes_lines("steps", step)


def steps_lines(steps_file):
    whole = len(steps_file) // STEP_LENGTH
    lines = [f"# steps.bin: {count_of(whole, 'step')}"]
    for k in range(whole):
        lines += step_lines(part(steps_file, 0, STEP_LENGTH, k), STEP_LENGTH * k)
    rest = steps_file[STEP_LENGTH * whole :]
    if rest:
        lines.append(f"# steps.bin byte {STEP_LENGTH * whole}: a short last step is dropped")
    return lines + bytes_lines("steps", rest)


# All three ------------------------------------------------------------------

def opening_lines(fault: Fault | None):
    return [f"# The engine's opening is {fault.told()} ({fault.file} byte {fault.at})", ""] if fault else []


def missing_lines(missing):
    return [f"# {name} is missing and counts as empty" for name in FILES if name in missing]


def shown(records_file, log_file, steps_file, missing=()):
    """The whole text."""
    lines = missing_lines(missing) + opening_lines(opening_fault(records_file, log_file))
    lines += [*records_lines(records_file), "", *log_lines(records_file, log_file), "", *steps_lines(steps_file)]
    return "".join(line + "\n" for line in lines)
