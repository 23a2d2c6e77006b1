"""Commands of the protocol executed by calls of the library, as examples/calls.py does, and their replies."""
import os
import sys

import harness

os.environ["ROPE_SEARCH_LIBRARY"] = harness.LIBRARY
sys.path.insert(0, os.path.join(harness.TOP, "examples"))
import calls
from calls import rope_search


def reply(session, command):
    """The reply to a command, which the session executes."""
    return calls.reply(session, *command)


def replies(commands, limit=1 << 30):
    """The replies to commands, executed in order in a session of their own."""
    with rope_search.Session(limit) as session:
        return [reply(session, command) for command in commands]
