# SPDX-License-Identifier: MIT OR Apache-2.0
"""Keeps notes. It has each thing that click can tell its exporter, and names that no tree file can contain."""

import os

import click
from click.shell_completion import CompletionItem

import lagvtsune.click


def notes(context, param, incomplete):
    pairs = (("n1", "Buy milk"), ("c2", "Call Ann"))
    return [CompletionItem(name, help=about) for name, about in pairs if name.startswith(incomplete)]


class Notes(click.Group):
    """A group that lists two commands which it does not give."""

    def list_commands(self, context):
        return [*super().list_commands(context), "gone", "broken"]

    def get_command(self, context, name):
        if name == "broken":
            raise ImportError("no module\nfor it")
        return super().get_command(context, name)


@click.group(cls=Notes, epilog="The end.", context_settings={"help_option_names": ["-h", "--help"]})
@click.option("--color", type=click.Choice(["auto", "always", "never", "$(x)"]), default="auto", help="When to use colours.")
@click.option("-v", "--verbose", "--loud", count=True, help="Print more.")
@click.option("+x", is_flag=True)
@click.version_option("1.0")
def app(color, verbose, x):
    """Keeps notes.

    And more.\fThis is not shown.
    """


@app.command()
@click.option("-t", "-T", "--topic", shell_complete=notes, help="The topic of the note.")
@click.option("--pin/--no-pin", help="Keep the note on top.")
@click.option("--old", hidden=True)
@click.option("--store", type=click.Path(file_okay=False))
@click.option("--from", "source", type=click.File())
@click.option("--label", multiple=True, metavar="a:b'c", required=True)
@click.option("--point", nargs=2, type=int)
@click.option("--pair", type=(click.Path(), str))
@click.option("--sort", is_flag=False, flag_value="name")
@click.argument("file", nargs=-1, required=True, type=click.Path())
def add(**given):
    """Adds notes."""


@app.command()
@click.argument("id", shell_complete=notes)
@click.argument("to", shell_complete=lambda *_: ["here", "there"])
def remove(**given):
    """Removes a note."""


@app.command("list")
@click.argument("what", required=False, type=click.Choice(["all", "new"]))
def listing(what):
    """Lists notes."""


@app.command(hidden=True)
def secret():
    pass


@app.group(invoke_without_command=True)
def remote():
    """Other places."""


@remote.command("add")
def add_place():
    """Adds a place."""


@app.command("remote-add")
def remote_add():
    """Has the label of remote add."""


@app.command("odd.name")
def odd():
    """Has a name that is not plain."""


lagvtsune.click.add(app)
print("this is no part of a tree", flush=True)
os.system("echo nor is this")
app(prog_name="app")
