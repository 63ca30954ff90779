"""Lines and tables as the terminal says: in colours and to its width, by `rich`, where the output is one; plain text elsewhere.

A part of a line is a text, or a pair of a text and a style. Where `rich` is missing the text is plain too.
"""
import sys

STYLES = {
    "added": "green",
    "modified": "yellow",
    "removed": "red",
    "conflict": "bold red",
    "taken": "bold red",
    "owner": "cyan",
    "nobody": "dim",
    "head": "bold",
}


def _console():
    """The terminal; None where the output is none."""
    if not sys.stdout.isatty():
        return None
    try:
        from rich.console import Console
    except ImportError:
        return None
    return Console(highlight=False)


def plain(part):
    return part if isinstance(part, str) else part[0]


def _text(part):
    from rich.text import Text

    return Text(part) if isinstance(part, str) else Text(part[0], STYLES.get(part[1], ""))


def say(*parts):
    """Prints a line."""
    console = _console()
    if console is None:
        print("".join(plain(part) for part in parts))
        return
    from rich.text import Text

    console.print(Text().join([_text(part) for part in parts]), soft_wrap=True)


def table(rows):
    """Prints rows of cells, each cell a part, under each other."""
    console = _console()
    if console is None:
        widths = [max(len(plain(part)) for part in column) for column in zip(*rows)]
        for row in rows:
            print("  ".join(f"{plain(part):<{width}}" for part, width in zip(row, widths)).rstrip())
        return
    from rich.table import Table

    grid = Table.grid(padding=(0, 2, 0, 0))
    for _ in rows[0] if rows else ():
        grid.add_column(overflow="fold")
    for row in rows:
        grid.add_row(*(_text(part) for part in row))
    console.print(grid)
