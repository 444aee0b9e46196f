# SPDX-License-Identifier: MIT OR Apache-2.0
"""Keeps notes, by Typer."""

import enum
import pathlib
from typing import List

import typer

import lagvtsune.click


class When(str, enum.Enum):
    """When to use colours."""

    AUTO = "auto"
    NEVER = "never"


def notes():
    return [("n1", "Buy milk"), ("c2", "Call Ann")]


app = typer.Typer(help="Keeps notes.", add_completion=False)


@app.command()
def add(
    file: List[pathlib.Path] = typer.Argument(..., help="The files."), color: When = When.AUTO,
    topic: str = typer.Option("", "-t", "--topic", autocompletion=notes, help="The topic."), pin: bool = True,
):
    """Adds notes."""


@app.command()
def remove(id: str = typer.Argument(..., autocompletion=notes)):
    """Removes a note."""


cli = typer.main.get_command(app)
lagvtsune.click.add(cli)
cli(prog_name="app")
