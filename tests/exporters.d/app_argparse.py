# SPDX-License-Identifier: MIT OR Apache-2.0
"""Keeps notes. It has each thing that argparse can tell its exporter, and names that no tree file can contain."""

import argparse
import io
import os
import pathlib
import sys

import lagvtsune.argparse


def notes(prefix, **_):
    return {name: about for name, about in (("n1", "Buy milk"), ("c2", "Call Ann")) if name.startswith(prefix)}


def parser():
    made = argparse.ArgumentParser(prog="app", description="Keeps notes.\nAnd more.", epilog="The end of %(prog)s.",
                                   prefix_chars="-+")
    lagvtsune.argparse.add(made)
    made.add_argument("--version", action="version", version="1.0")
    made.add_argument("-v", "--verbose", "--loud", action="count", help="print more")
    made.add_argument("--color", choices=["auto", "always", "never", "$(x)"], default="auto",
                      help="when to use colours (%(default)s)")
    made.add_argument("+x", action="store_true")
    commands = made.add_subparsers(title="commands", required=True, dest="command")
    add = commands.add_parser("add", help="adds notes")
    add.add_argument("-t", "-T", "--topic", help="the topic of the note").completer = notes
    add.add_argument("--pin", action=argparse.BooleanOptionalAction, help="keep the note on top")
    add.add_argument("--old", help=argparse.SUPPRESS)
    add.add_argument("--store", type=pathlib.Path, metavar="PLACE")
    add.add_argument("--from", type=argparse.FileType(), metavar="NOTES")
    add.add_argument("--out-dir")
    add.add_argument("--label", action="append", metavar="a:b'c")
    add.add_argument("--point", nargs=2, type=int, metavar=("X", "Y"))
    add.add_argument("--port", type=int, choices=range(1, 65536))
    add.add_argument("--sort", nargs="?", const="name")
    group = add.add_argument_group("speed")
    either = group.add_mutually_exclusive_group(required=True)
    either.add_argument("--fast", action="store_true")
    either.add_argument("--slow", action="store_const", const=1)
    add.add_argument("file", nargs="+", metavar="FILE")
    add.add_argument("it's:last").completer = notes
    remove = commands.add_parser("remove", aliases=["rm", "r.m"], help="removes a note")
    remove.add_argument("id", help="a note with a \\ in its text").completer = notes
    listing = commands.add_parser("list", help="lists notes")
    listing.add_argument("what", nargs="?", choices=["all", "new"])
    listing.add_argument("rest", nargs=argparse.REMAINDER).tree_keys = {"value_hint": "CommandWithArguments"}
    commands.add_parser("secret", help=argparse.SUPPRESS)
    remote = commands.add_parser("remote", help="other places").add_subparsers()
    remote.add_parser("add", help="adds a place")
    commands.add_parser("remote-add", help="has the label of remote add")
    commands.add_parser("odd.name", help="has a name that is not plain")
    return made


app = parser()
# Some programs make a stream of their own, as borg does.
sys.stdout = io.TextIOWrapper(sys.stdout.buffer, sys.stdout.encoding, "replace", line_buffering=True)
print("this is no part of a tree", flush=True)
os.system("echo nor is this")
print(app.parse_args())
