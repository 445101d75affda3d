"""What a probe must show of a record, by the reference decoder: a table in each describe_*.py, by the word that begins a request."""
import describe  # noqa: F401  (it finds the reference decoder)

from reference_decoder.buf import Buf, Eof, Invalid  # noqa: F401

import describe_commands
import describe_connections
import describe_forms
import describe_replies
import describe_statements
import describe_values

# the words of each probe that read bytes
READS = {"replies": [*describe_replies.DESCRIBERS], "statements": [*describe_statements.DESCRIBERS, *describe_values.DESCRIBERS, *describe_commands.DESCRIBERS],
         "connections": [*describe_connections.DESCRIBERS, *describe_forms.DESCRIBERS]}
DESCRIBERS = {**describe_replies.DESCRIBERS, **describe_statements.DESCRIBERS, **describe_values.DESCRIBERS, **describe_commands.DESCRIBERS,
              **describe_connections.DESCRIBERS, **describe_forms.DESCRIBERS}


def describer(request):
    """The reading of a request's bytes that gives what is shown of the record, a function of a Buf; None for other requests.

    The words between the first and the bytes are the context."""
    name, *words = request.split(" ")
    return DESCRIBERS[name](*words[:-1]) if name in DESCRIBERS else None
