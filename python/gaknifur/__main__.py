"""The command line of `./lab`: parses the arguments, runs the command, and reports each failure in one line."""
import os
import sys
from collections.abc import Sequence

import click

from .cli.commands import COMPLETE, lab
from .cli.progress import Terminal
from .errors import caught, say
from .escaping import shown
from .program import WRONG_WORDS, Failed


def run(words: Sequence[str], progress: Terminal) -> int:
    """Does what the arguments ask for; returns the exit status."""
    if COMPLETE in os.environ:
        from click.shell_completion import shell_complete
        return shell_complete(lab, {}, "lab", COMPLETE, os.environ[COMPLETE])
    try:
        with lab.make_context("lab", list(words), obj=progress) as context:
            return int(lab.invoke(context))
    except click.exceptions.Exit as end:
        return end.exit_code
    except click.UsageError as error:
        explain(error)
        return WRONG_WORDS


def explain(error: click.UsageError) -> None:
    """Says on standard error what is wrong with the arguments, with the nearest option."""
    message = error.format_message().rstrip(".")
    if isinstance(error, click.NoSuchOption):
        message = f"unknown option {error.option_name}{f'; did you mean {error.possibilities[0]}?' if error.possibilities else ''}"
    name = error.ctx.command_path if error.ctx else "lab"
    print(f"{error.ctx.get_usage() if error.ctx else ''}\n{shown(f'{name}: error: {message[0].lower()}{message[1:]}')}", file=sys.stderr)


def main(given: Sequence[str] | None = None) -> int:
    """Runs a command; returns the exit status."""
    progress = Terminal()

    def do() -> int:
        try:
            return run(sys.argv[1:] if given is None else given, progress)
        except Failed as failed:
            progress.end()
            sys.stdout.flush()
            for message in failed.messages():
                say(message)
            return failed.status
        finally:
            progress.end()

    return caught(do)


if __name__ == "__main__":
    sys.exit(main())
