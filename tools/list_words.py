"""The waiting lists in words: what waits for each vCPU after a field.

The vectors are those that the proved program `lists` prints, a line a vCPU, the oldest first; nothing here says what a call does.
"""
import itertools
import textwrap

from script_words import byte

VCPUS, PLACES = 4, 64
WIDTH = 100


def told(lists):
    """A line, or some, for each vCPU that something waits for."""
    lines = [line for vcpu, vectors in enumerate(lists) if vectors for line in list_lines(vcpu, vectors)]
    return lines or ["nothing waits"]


def list_lines(vcpu, vectors):
    full = ", full" if len(vectors) == PLACES else ""
    runs = [(vector, len(list(same))) for vector, same in itertools.groupby(vectors)]
    shown = ", ".join(byte(vector) + (f" ({count} times)" if count > 1 else "") for vector, count in runs)
    return textwrap.wrap(f"vCPU {vcpu}, {len(vectors)} waiting{full}, the oldest first: {shown}", WIDTH, subsequent_indent="    ")
