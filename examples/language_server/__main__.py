"""A language server that keeps a regular expression live over the documents that an editor has open.

    python3 examples/language_server

It reads messages of the Language Server Protocol from standard input, and writes its own to standard output. It ends on
`exit` or at the end of the input, with status 0 after `shutdown`, else 1. README.md says how an editor starts it.
"""
import os
import sys

sys.dont_write_bytecode = True
from documents import rope_search
from features import Service
from messages import Connection

client = Connection(sys.stdin.buffer, sys.stdout.buffer)
try:
    rope_search.library()
    sys.exit(client.serve(Service(client)))
except BrokenPipeError:
    os._exit(1)  # The editor has gone.
except OSError as error:
    sys.exit(f"language_server: {error}")
