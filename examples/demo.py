#!/usr/bin/env python3
"""Sends the commands of a session to the program, and shows each with its reply.

    examples/demo.py [SESSION [PROGRAM]]     SESSION is examples/first.session by default

The program is PROGRAM, or bin/rope-search if it is built: it is proved, and gets one command after the
other. Otherwise rt runs the program over the whole session, compiled with checks and not proved, which
takes one or two minutes; RT names another command than rt. Lines that are sent begin with '>'. A payload
has its own lines, the last of which is empty if the payload ends with LF.
"""
import io
import os
import subprocess
import sys

sys.dont_write_bytecode = True
from client import PAYLOADS, PROGRAM, Client, Ended, read_reply

TOP = os.path.dirname(os.path.dirname(os.path.abspath(__file__)))
FIRST = os.path.join(TOP, "examples", "first.session")
RT = os.environ.get("RT") or "rt"


def commands(file):
    """The commands of a session, each with its payload."""
    for line in file:
        word, *numbers = line.split()
        yield line + (file.read(int(numbers[-1])) if word in PAYLOADS else b"")


def lines_sent(command):
    """A command's line, and the lines of its payload, if it has one."""
    line, _, payload = command.decode().partition("\n")
    return [line, *payload.split("\n")] if payload else [line]


def show(session, ask):
    """Shows each command with what `ask` answers to it."""
    with open(session, "rb") as file:
        for command in commands(file):
            for line in lines_sent(command):
                print(">", line)
            print(ask(command).decode(), end="", flush=True)


def show_proved(session, program):
    """Shows what the proved program answers, command by command; returns its status."""
    with Client(program) as search:
        try:
            show(session, search.ask)
        except (Ended, ValueError) as error:
            print(error, file=sys.stderr)
    return search.close()


def show_tried(session):
    """Shows what the program answered in a run by rt, once that has ended; returns its status."""
    print("bin/rope-search isn't built yet: rt compiles the program, with checks in place of proofs ..", flush=True)
    with open(session, "rb") as file:
        crate = os.path.join(TOP, "crates", "rope_search_cli")
        ran = subprocess.run([RT, "try"], cwd=crate, stdin=file, stdout=subprocess.PIPE, stderr=subprocess.PIPE)
    if ran.stdout:
        replies = io.BytesIO(ran.stdout)
        try:
            show(session, lambda command: read_reply(replies))
        except EOFError as error:
            print(error.args[0].decode(errors="replace"), end="")
    if ran.returncode != 0:
        print(ran.stderr.decode(errors="replace"), end="", file=sys.stderr)
    return ran.returncode


def main(session=FIRST, program=None):
    if program is None and not os.path.exists(PROGRAM):
        return show_tried(session)
    return show_proved(session, program or PROGRAM)


if __name__ == "__main__":
    sys.exit(main(*sys.argv[1:]))
