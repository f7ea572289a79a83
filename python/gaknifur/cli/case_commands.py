"""The commands about test cases and what they consist of: `build`, `telegram`, `case`, `test` and `coverage`."""
import difflib
import hashlib
import os
import sys
from pathlib import Path
from types import SimpleNamespace

from .. import files, program
from ..errors import say
from ..journal.reading import Progress, read
from ..program import DEVICE, FOUND, REFUSED, WRONG_WORDS, Failed
from .commands import lab
from .journal_commands import note, out_of, write


def write_scenario(given: SimpleNamespace, progress: Progress) -> None:
    """Runs `lab build`."""
    from ..simulation import scenarios
    out = out_of(given, given.yaml)
    write(out, scenarios.read(given.yaml).text(), given.yaml)


def print_telegram(given: SimpleNamespace, progress: Progress) -> None:
    """Runs `lab telegram`."""
    from ..simulation import scenarios
    from ..telegrams import telegrams
    try:
        print(scenarios.encoded(given.text))
    except telegrams.Wrong as wrong:
        raise Failed(f"telegram: {wrong}", REFUSED) from wrong


def write_case(given: SimpleNamespace, progress: Progress) -> int:
    """Runs `lab case`."""
    from ..cases import case_files, journal_case
    if given.out is not None and not case_files.is_case_file(given.out.name):
        raise Failed(f"{given.out}: the name has to end in .case.yaml", WRONG_WORDS)
    out = out_of(given, given.image)
    journal = read(given.image, replay=True, progress=progress)
    write(out, journal_case.made(journal, given.event), given.image)
    return note(journal)


WITHOUT_PYTHON = ("-c", os.devnull, "--noconftest", *(f"-pno:{name}" for name in (
    "python", "unittest", "nose", "doctest", "logging", "threadexception", "unraisableexception")))
"""Options of pytest by which it runs no code of the folder, and doesn't watch what only such code could do, which takes a quarter of its time."""
UNCAPTURED = "--capture=no"
"""The option of pytest by which it captures nothing: a case prints nothing, and it takes another quarter."""
PLUGIN = ("-p", "no:gaknifur", "-p", "gaknifur.cases.pytest_plugin")
"""Options of pytest that load the plugin once, also if it is installed and pytest would find it by itself."""
WRITING = ("--log-file", "--basetemp", "--debug", "--pastebin")
"""Options of pytest that write files or send data."""


def run_pytest(folder: Path, words: list[str], plugins: list[object]) -> int:
    """Runs pytest; returns its status."""
    import pytest
    try:
        return pytest.main(words, plugins)
    except ImportError as error:  # a plugin that the folder's settings name
        raise Failed(f"{folder}: pytest can't start: {error}", REFUSED) from error


def results_of(folder: Path) -> Path:
    """Where pytest keeps which tests of a folder failed, for `--lf`: in the user's cache, not in the folder itself."""
    cache = os.environ.get("XDG_CACHE_HOME") or os.path.expanduser("~/.cache")
    return Path(cache).absolute() / "gaknifur" / hashlib.sha256(os.fsencode(folder.resolve())).hexdigest()[:16]


def check_options(others: list[str]) -> None:
    """Refuses options for pytest that look like a misspelt option of `lab test`, whose value would be taken for the folder."""
    options = [name for one in lab.commands["test"].params for name in one.opts]
    for word in others:
        name = word.partition("=")[0]
        near = difflib.get_close_matches(name, options, 1, cutoff=0.8) if name.startswith("--") else []
        if near:
            raise Failed(f"test: unknown option {name}; did you mean {near[0]}?", WRONG_WORDS)


def check_folder(folder: Path) -> None:
    """Refuses a path that is neither a folder nor a file with tests."""
    if not folder.exists():
        raise Failed(f"{folder}: no such folder", DEVICE)
    if not folder.is_dir() and not folder.is_file():
        raise Failed(f"{folder}: is neither a folder nor a regular file", DEVICE)
    if folder.is_file() and not folder.name.endswith((".case.yaml", ".py")):
        raise Failed(f"{folder}: is not a test case: its name has to end in .case.yaml", REFUSED)


def run_tests(given: SimpleNamespace, progress: Progress) -> None:
    """Runs `lab test`."""
    try:
        import pytest

        from ..cases.junit import results_in_xml
    except ImportError as error:
        raise Failed("pytest is missing; tools/python installs it by Debian's packages", DEVICE) from error
    check_options(given.others)
    check_folder(given.folder)
    for word in given.others:
        if word.partition("=")[0] in WRITING:
            raise Failed(f"pytest's {word} isn't supported here, since it overwrites files", WRONG_WORDS)
    out = files.Out(given.junitxml, given.force) if given.junitxml else None
    files.check_all([out] if out else [], [given.folder])
    root = given.folder if given.folder.is_dir() else given.folder.parent
    selected = [f"--{name}={one}" for name in ("section", "feature") for one in getattr(given, name)]
    how = [f"--jobs={given.jobs}"] + ([f"--keep={given.keep}"] if given.keep else [])
    how += [f"--against={given.against}", f"--answer-within={given.answer_within}"] if given.against else []
    how += [] if given.python or given.against else [UNCAPTURED]
    for name in ("etcs", "etcs_lab"):  # pytest captures standard error, which says that they are unproved
        program.find(name)
    with results_in_xml(out) as (words, plugins):
        status = run_pytest(given.folder, [
            "-q", "--no-header", *PLUGIN, "-o", f"cache_dir={results_of(root)}", "-W",
            "ignore::pytest.PytestCacheWarning", f"--rootdir={root}", *([] if given.python else WITHOUT_PYTHON), *words,
            str(given.folder), *how, *selected, *given.others], plugins)
    if status == pytest.ExitCode.NO_TESTS_COLLECTED:
        why = "no test matches these options" if selected or given.others else "it contains no test case (NAME.case.yaml)"
        raise Failed(f"{given.folder}: {why}, so none was run", REFUSED)
    if status == pytest.ExitCode.USAGE_ERROR:
        raise Failed("pytest refuses these options, as the lines above say; no test was run", WRONG_WORDS)
    if status == pytest.ExitCode.TESTS_FAILED:
        raise Failed(f"{given.folder}: a test failed", FOUND)
    if status != pytest.ExitCode.OK:
        raise Failed(f"{given.folder}: not all tests could be run, as the lines above say", REFUSED)


def show_coverage(given: SimpleNamespace, progress: Progress) -> None:
    """Runs `lab coverage`."""
    from ..cases import coverage
    found = coverage.matrix(given.folder)
    sys.stdout.write(coverage.text(found))
    sys.stdout.flush()
    if found.faults:
        raise Failed(f"{given.folder}: coverage differs from what is declared, as the lines above say", FOUND)
