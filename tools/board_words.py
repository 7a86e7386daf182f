"""The board in words: what the words of its two chips say after a field, and where each line's interrupt stands.

The words are those that the proved program `states` prints; their layouts are include/sillwander.h's. Nothing here says what a call does: a
sentence reads registers, and what waits for what is read off the requests, the vectors in service, PPR and TPR (SDM volume 3, the APIC
chapter: task and processor priority).
"""
from collections import namedtuple

from script_words import GSIS, LEGAL, MODES, bits, byte, listed

# How many words each of the program's lines has, and which two of the lines are the board's.
CHIPS = (32, 4, 48, 32, 48)
BOARD = slice(3, 5)

# What its words say. Lines and entries are GSIs, all else vectors; each a rising list.
Board = namedtuple("Board", "entries up in_flight deferred tpr ppr requested in_service level errors")

ERRORS = {6: "receive illegal vector"}  # SDM: error handling, ESR


def board_of(io, local):
    """The I/O APIC's words and the local APIC's."""
    up, in_flight, deferred = (bits(io[at] % 2**GSIS) for at in (25, 30, 24))
    in_service, level, requested = (vectors_of(local[at : at + 8]) for at in (18, 26, 34))
    tpr, ppr, errors = (local[at] % 2**32 for at in (2, 3, 8))
    return Board(io[:GSIS], up, in_flight, deferred, tpr, ppr, requested, in_service, level, errors)


def vectors_of(words):
    """Eight words of 32 vectors each."""
    return [32 * n + bit for n, word in enumerate(words) for bit in bits(word % 2**32)]


# An entry's register (82093AA, IOREDTBL).


def vector_of(entry):
    return entry % 256


def is_level(entry):
    return bool(entry >> 15 & 1)


def is_masked(entry):
    return bool(entry >> 16 & 1)


def is_lost(board, gsi):
    """A level entry in flight whose vector has no trace in the local APIC: neither requested nor in service with its trigger bit."""
    vector = vector_of(board.entries[gsi])
    return gsi in board.in_flight and not (vector in board.level and (vector in board.requested or vector in board.in_service))


# Sentences.


def told(board):
    """The board as lines: its registers, then where each interrupt stands."""
    lines = [(f"GSI {gsi}", entry_words(board, gsi)) for gsi in concerned(board)]
    named = {vector_of(board.entries[gsi]) for gsi in concerned(board)}
    alone = sorted({*board.requested, *board.in_service} - named, reverse=True)
    lines += [(f"vector {byte(vector)}", f"{trigger(board, vector)}, {vector_words(board, vector)}") for vector in alone]
    if board.errors:
        names = ", ".join(ERRORS.get(bit, f"bit {bit}") for bit in bits(board.errors))
        lines.append(("error pending", names))
    return [registers(board)] + [f"{name}: {words}" for name, words in lines]


def registers(board):
    flight = f"GSI {listed(board.in_flight)}" if board.in_flight else "none"
    requested, in_service = (listed(vectors, byte) or "none" for vectors in (board.requested, board.in_service))
    return f"TPR {byte(board.tpr)}, PPR {byte(board.ppr)}; in flight: {flight}; requested: {requested}; in service: {in_service}"


def concerned(board):
    """The GSIs that want something: their line is up, or their entry in flight or deferred."""
    return sorted({*board.up, *board.in_flight, *board.deferred})


def entry_words(board, gsi):
    entry = board.entries[gsi]
    words = ["line up" if gsi in board.up else "line down"]
    if is_masked(entry):
        words.append("masked")
    if gsi in board.in_flight:
        words.append("in flight")
    if gsi in board.deferred:
        words.append("asked once more")
    return f"{', '.join(words)}{where(board, gsi)}"


def where(board, gsi):
    """What follows on the line and its entry: the vector's way, or why there is none."""
    entry = board.entries[gsi]
    vector, mode = vector_of(entry), entry >> 8 & 7
    if gsi in board.in_flight:
        return f", but lost: {trace_words(board, vector)}" if is_lost(board, gsi) else f"; vector {byte(vector)} {vector_words(board, vector)}"
    if is_masked(entry):
        return ""
    if mode:
        return f", not sent: its delivery mode is {MODES[mode]}"
    if vector < LEGAL:
        return f", not sent: its vector, {byte(vector)}, is below {byte(LEGAL)}"
    if is_level(entry):
        return ", not in flight"
    way = f"; vector {byte(vector)} {vector_words(board, vector)}" if vector in {*board.requested, *board.in_service} else ""
    return f", edge-triggered{way}"


def trace_words(board, vector):
    """What there is of a lost line's vector."""
    if vector in board.requested or vector in board.in_service:
        here = "in service" if vector in board.in_service else "requested"
        return f"vector {byte(vector)} is {here} as edge-triggered, so that its EOI isn't broadcast"
    return f"vector {byte(vector)} is neither requested nor in service"


def trigger(board, vector):
    return "level-triggered" if vector in board.level else "edge-triggered"


def vector_words(board, vector):
    """A vector that is requested, in service, or both."""
    if vector not in board.in_service:
        return f"requested, {waits(board, vector)}"
    above = [other for other in board.in_service if other > vector]
    again = ", and requested once more" if vector in board.requested else ""
    return "in service" + (f", interrupted by {listed(above, byte)}" if above else "") + again


def waits(board, vector):
    """What a request waits for."""
    if priority(vector) > priority(board.ppr):
        above = [other for other in board.requested if other > vector]
        return f"waits behind {byte(above[-1])} requested" if above else "the next to be accepted"
    reasons = [f"behind {byte(other)} in service" for other in board.in_service[-1:] if priority(other) >= priority(vector)]
    reasons += [f"while TPR is {byte(board.tpr)}"] * (priority(board.tpr) >= priority(vector))
    return f"waits {' and '.join(reasons) or f'while PPR is {byte(board.ppr)}'}"


def priority(number):
    """The class of a vector, of TPR or of PPR."""
    return number >> 4
