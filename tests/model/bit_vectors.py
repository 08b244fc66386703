"""The cases of the bad bit as the program `crates/bit_vectors` reads and answers them.

Cases and answers have the form of `vectors.py`. `RUN` is the one list of what
this program runs. README.md has the layouts.
"""

import cases_bad_bit
import vectors as form
from table_vectors import NO_WRITER
from vectors import Layout, as_it_is, text_alone

BIT_RUN = {
    'bad_bit': [Layout(1, text_alone, as_it_is)],
    'bad_bits_heard': [Layout(2, text_alone, as_it_is)],
}

RUN = ((cases_bad_bit.cases, BIT_RUN),)


def vectors():
    """Every case that is run, with what the program reads and its line."""
    return form.vectors(RUN, NO_WRITER)
