"""The commands of `./lab`, with their arguments, options and help.

What a command does is in another module, which is loaded when the command runs: `lab --help` loads none of them.
"""
from collections.abc import Sequence
from importlib import import_module
from operator import attrgetter
from pathlib import Path
from types import SimpleNamespace
from typing import Any

import click

from ..program import PROCESSORS, version

COMPLETE = "_LAB_COMPLETE"
"""The environment variable by which a shell asks for completions."""
PATH = click.Path(path_type=Path)


class Natural(click.ParamType):
    """A whole number within limits, which the help doesn't show."""

    name = "integer"

    def __init__(self, least: int, most: int) -> None:
        self.least, self.most = least, most

    def convert(self, value: Any, parameter: click.Parameter | None, context: click.Context | None) -> int:
        """The number of a text."""
        number: int = click.INT.convert(value, parameter, context)
        if not self.least <= number <= self.most:
            self.fail(f"has to be {self.least} to {self.most:,}", parameter, context)
        return number


class Begun(click.ParamType):
    """A life, and the time of day at its moment 0."""

    name = "LIFE=TIME"

    def convert(self, value: Any, parameter: click.Parameter | None, context: click.Context | None) -> Any:
        """The life and the time of a text."""
        from ..journal import utc
        try:
            return utc.parsed(value)
        except ValueError:
            self.fail(f"has to be a life and a time with its zone, as {utc.EXAMPLE}", parameter, context)


NATURAL = Natural(0, 999_999_999)
SECTIONS = {"Laboratory": ("build", "test", "case", "coverage", "lint", "drive", "campaign", "compare", "search", "against", "serve"),
            "Investigation": ("why", "check", "report", "table", "database", "seal", "verify"),
            "Telegrams": ("telegram",)}
"""The commands in the order of the help."""


def loaded(source: str) -> Any:
    """The object that `module:name` names, in a module of the package."""
    module, _, names = source.partition(":")
    return attrgetter(names)(import_module(f"..{module}", __package__))


class Argument(click.Argument):
    """An argument with a help text."""

    def __init__(self, name: str, metavar: str, help: str | None = None, type: Any = PATH, **more: Any) -> None:
        super().__init__([name], metavar=metavar, type=type, **more)
        self.help = help

    def get_help_record(self, context: click.Context) -> tuple[str, str] | None:
        """Its row in the help."""
        return (self.make_metavar(), self.help) if self.help else None


class Command(click.Command):
    """A command with an example. `does` names the function that carries it out: the module, a colon, and the function."""

    def __init__(self, name: str, does: str, short: str, more: str, example: str, *params: click.Parameter, **named: Any) -> None:
        asks = help_option("--help") if named else HELP  # (where options go to pytest, -h may be a part of one, such as -kthis)
        super().__init__(name, params=[*params, asks], short_help=short, help=f"{short}. {more}", add_help_option=False, **named)
        self.does, self.example = does, example
        self.allow_extra_args = True

    def invoke(self, context: click.Context) -> int:
        """Does what the arguments ask for; returns the exit status."""
        if context.args:
            context.fail(f"unexpected argument {context.args[0]}")
        return loaded(self.does)(SimpleNamespace(**context.params), context.obj) or 0

    def format_options(self, context: click.Context, formatter: click.HelpFormatter) -> None:
        """The arguments, the options and the example."""
        for title, kind in (("Arguments", click.Argument), ("Options", click.Option)):
            rows = [row for one in self.params if isinstance(one, kind) and (row := one.get_help_record(context))]
            if rows:
                with formatter.section(title):
                    formatter.write_dl(rows)
        with formatter.section("Example"):
            formatter.write(f"  $ lab {self.example}\n")


class Lab(click.Group):
    """All commands, listed by section."""

    def __init__(self, commands: Sequence[Command], **named: Any) -> None:
        super().__init__("lab", commands, add_help_option=False, no_args_is_help=False, subcommand_metavar="COMMAND [ARGUMENT]...", **named)

    def resolve_command(self, context: click.Context, words: list[str]) -> tuple[str | None, click.Command | None, list[str]]:
        """The command of this name; if there is none, an error offers the nearest one."""
        if words[0] not in self.commands:
            from difflib import get_close_matches
            near = get_close_matches(words[0], self.commands, 1)
            hint = f"did you mean {near[0]}?" if near else "lab --help lists the commands"
            context.fail(f"unknown command {words[0]}; {hint}")
        return super().resolve_command(context, words)

    def format_commands(self, context: click.Context, formatter: click.HelpFormatter) -> None:
        """A list of commands for each section."""
        widest = max(map(len, self.commands))
        for title, names in SECTIONS.items():
            with formatter.section(title):
                formatter.write_dl([(name.ljust(widest), self.commands[name].short_help or "") for name in names])


class Checks(click.Option):
    """The option whose help lists the checks of `lab lint`."""

    def get_help_record(self, context: click.Context) -> tuple[str, str] | None:
        """Its row in the help."""
        from ..track import track_checks
        self.help = f"skip this check: {', '.join(map(str, track_checks.ITEMS))}"
        return super().get_help_record(context)


class Setting(click.Option):
    """An option whose default is in another module; `source` is `module:name`."""

    def __init__(self, name: str, help: str, metavar: str, type: Any, source: str) -> None:
        super().__init__([name], help=help, metavar=metavar, type=type, show_default=True)
        self.source = source

    def get_default(self, context: click.Context, call: bool = True) -> Any:
        """The default."""
        return loaded(self.source)


class Jobs(click.Option):
    """The number of processes. `--workers` was its name, and is left out of the help."""

    def __init__(self) -> None:
        super().__init__(["--jobs", "--workers", "jobs"], help="processes on this machine (default: the number of processors)", metavar="N",
                         type=Natural(1, 256), default=PROCESSORS)

    def get_help_record(self, context: click.Context) -> tuple[str, str]:
        """Its row in the help."""
        return "--jobs N", self.help or ""


def option(names: str, help: str, metavar: str | None = None, type: Any = None, **more: Any) -> click.Option:
    """An option: with a metavar it has a value, without one it is a flag."""
    return click.Option(names.split(), help=help, metavar=metavar, type=type, is_flag=metavar is None, **more)


def show_help(context: click.Context, parameter: click.Parameter, is_asked: bool) -> None:
    """Prints the help, and ends."""
    if is_asked and not context.resilient_parsing:
        print(context.get_help())
        context.exit()


def show_version(context: click.Context, parameter: click.Parameter, is_asked: bool) -> None:
    """Prints the version, and ends."""
    if is_asked and not context.resilient_parsing:
        print(f"lab {version()}\nnot proved: the package is tested")
        context.exit()


def folder_and_others(context: click.Context, parameter: click.Parameter, words: tuple[str, ...]) -> None:
    """The folder of `lab test` is the first argument that isn't an option; the others go to pytest."""
    named = [word for word in words if not word.startswith("-")]
    if not named and not context.resilient_parsing:
        raise click.MissingParameter(ctx=context, param=parameter)
    at = words.index(named[0]) if named else len(words)
    context.params |= {"folder": Path(named[0]) if named else None, "others": [*words[:at], *words[at + 1:]]}


def folder_and_table(context: click.Context, parameter: click.Parameter, paths: tuple[Path, ...]) -> None:
    """The folder and the table of `lab campaign`; the folder is optional."""
    if not paths and not context.resilient_parsing:
        raise click.MissingParameter(ctx=context, param=parameter)
    if len(paths) > 2:
        context.fail(f"unexpected argument {paths[2]}")
    context.params |= {"folder": paths[0] if len(paths) == 2 else None, "out": paths[-1] if paths else None}


def help_option(*names: str) -> click.Option:
    """The option that prints the help."""
    return click.Option(names, is_flag=True, is_eager=True, expose_value=False, callback=show_help, help="show this help")


HELP = help_option("-h", "--help")
VERSION = click.Option(["--version"], is_flag=True, is_eager=True, expose_value=False, callback=show_version, help="print version and commit")
IMAGE = Argument("image", "IMAGE", "a journal image")
ALL = option("--all other_blocks", "include readable blocks outside the journal; column `source` marks them")
ANONYMOUS = option("--anonymous", "leave out the driver's identity, the running number, and name, SHA-256 and identity of the image")
SLOTS = option("--slots", "read it as an image of N slots, whatever its first sector says", "N", Natural(2, 1_048_576))
FORCE = option("--force", "overwrite an existing file, but never a journal image")
JSON = option("--json", "print JSON")
JSON_LINES = option("--json", "print one JSON object per line")
UTC = option("--utc", "time of day at moment 0 of a life, such as 1=2026-03-01T10:00:00Z; once for each life", "LIFE=TIME", Begun(), multiple=True)
JOBS = Jobs()
WITHIN = Setting("--answer-within", "time limit for each answer of the other unit", "SECONDS", float, "units.other_unit:WITHIN_S")
JOURNAL = [
    Command("table", "cli.journal_commands:write_table", "Print one row per journal record as CSV, or write a workbook",
            "Column names end in their units. Unknown values are empty.", "table image table.xlsx",
            IMAGE, Argument("out", "[OUT.csv|OUT.xlsx]", "output file; .xlsx makes a workbook (default: CSV on standard output)", required=False),
            ALL, UTC, option("--damaged", "print instead the records of damaged or misplaced blocks, each with its slot and byte; nothing else "
                                "confirms them"), ANONYMOUS, FORCE),
    Command("database", "cli.journal_commands:write_database", "Add images to an SQLite database",
            "The database is created if it does not exist. An image that it already contains (by SHA-256) stays as it is.",
            "database image journals.db",
            Argument("images", "IMAGE...", "journal images", nargs=-1, required=True), Argument("out", "OUT.db", "the database"), ALL, UTC),
    Command("report", "cli.journal_commands:write_report", "Write a report with charts as one HTML file",
            "The page has no script and loads nothing from the network.", "report image report.html",
            IMAGE, Argument("out", "OUT.html", "the page to make"),
            option("--from first", "start at this event (120), place (300m) or moment (20.5s)", "WHERE"),
            option("--to last", "end at this event, place or moment", "WHERE"), option("--life", "report only this power cycle (life)", "N", int),
            SLOTS, FORCE, UTC, option("--newest-first", "list the lives from the last to the first"), ANONYMOUS),
    Command("check", "cli.journal_commands:check_image", "Examine and replay an image, and list what is implausible",
            "Prints what `etcs_lab check` prints, and then implausible values, such as a movement that the recorded speeds don't explain. Status 4: "
            "something is lost, damaged, contradictory, different or implausible, as all commands about the image report it.", "check image",
            IMAGE, SLOTS, JSON, *(Setting(f"--{name.replace('_', '-')}", help, unit, int, f"journal.plausibility:Thresholds.{name}") for name, unit, help in (
                ("path_cm", "CM", "tolerated error of a movement in cm"), ("path_percent", "N", "plus this percentage"),
                ("safe_m_per_h", "M/H", "how much the speed given to the unit may be above the true one, in m/h"),
                ("acceleration_cm_per_s2", "CM/S2", "greatest plausible change of speed in cm/s²"),
                ("jump_m_per_h", "M/H", "plus this step of speed in m/h"),
                ("maximum_percent", "N", "how much a speed may be above the train's maximum, as a percentage"),
                ("place_cm", "CM", "tolerated error of a balise group's place in cm"),
                ("place_percent", "N", "plus this percentage of the distance")))),
    Command("why", "cli.journal_commands:explain", "Explain each brake command, and say whether the train braked",
            "The causes and trips are those of `etcs_lab why`; docs/reference/lab.md defines the figures. Status 4: it took longer or farther than "
            "the train data promise, or `lab check` finds something.", "why image 120",
            IMAGE, Argument("event", "[EVENT]", "the number of one event (default: each brake command)", NATURAL, required=False), SLOTS, JSON_LINES)]
EVIDENCE = [
    Command("seal", "cli.evidence_commands:seal_image", "Seal an image with table, database and report in a folder of evidence",
            "Reads the image once and never writes to it. FOLDER has to be new. Status 4: the folder is made, and something in the image is lost, "
            "damaged, contradictory or implausible, or the replay differs.", 'seal image evidence --by "J. Smith"',
            IMAGE, Argument("folder", "FOLDER", "the folder to make"), option("--by", "who seals it (default: the user of this machine)", "TEXT"),
            option("--medium", "the medium that the image was read from", "TEXT"),
            option("--ssh-key", "sign with this OpenSSH key (ssh-keygen -Y sign)", "FILE", PATH)),
    Command("verify", "cli.evidence_commands:verify_seal", "Verify a folder of evidence, and list what was altered",
            "Prints what ssh-keygen and sha512sum print, makes table, database and report again, and compares. Status 4: a file was altered or is "
            "missing, no named signer signed it, or the verdict of the image has a sentence.", "verify evidence",
            Argument("folder", "FOLDER", "a folder that `lab seal` made"),
            option("--signers", "allowed OpenSSH signers (see ssh-keygen(1)); one of them must have signed", "FILE", PATH))]
TESTING = [
    Command("build", "cli.case_commands:write_scenario", "Compile a YAML scenario to the JSON that `etcs run` reads",
            "Errors name the file, line and column.", "build drive.yaml drive.json",
            Argument("yaml", "FILE.yaml", "a scenario"), Argument("out", "[OUT.json]", "output file (default: standard output)", required=False), FORCE),
    Command("case", "cli.case_commands:write_case", "Make a test case of a journal's lives up to an event",
            "The expected result is the unit's answer at the event. The case is played before it is written: each record of the event's life has to be as in the journal. Status 1: the "
            "life can't be played again, and nothing was written.", "case image --event 8 braked.case.yaml",
            IMAGE, Argument("out", "[OUT.case.yaml]", "output file (default: standard output)", required=False),
            option("--event", "the last event of the case", "N", NATURAL, required=True), FORCE),
    Command("test", "cli.case_commands:run_tests", "Run the test cases of a folder and check their expected results",
            "Other options go to pytest, such as -k, -x and --lf. Status 4: a test failed.", "test suites --section 3.13",
            Argument("words", "FOLDER", "a folder or a file with test cases", nargs=-1, type=click.UNPROCESSED, callback=folder_and_others, expose_value=False),
            option("--section", "only results about this section of SUBSET-026 or its subsections", "SECTION", multiple=True),
            option("--feature", "only cases of this feature", "FEATURE", multiple=True),
            option("--junitxml --junit-xml junitxml", "write the results as JUnit XML", "OUT.xml", PATH),
            option("--python", "also run the folder's Python files for pytest (conftest.py, settings, test modules); they run with all your permissions"),
            JOBS,
            FORCE, option("--keep", "keep the image and report of each failed case in this new folder", "FOLDER"),
            option("--against", "also run another unit: a command that speaks the protocol of docs/howto/oracle.md. Its answers are checked and compared",
                   "COMMAND"), WITHIN, context_settings={"ignore_unknown_options": True}),
    Command("coverage", "cli.case_commands:show_coverage", "List the sections and transitions that the cases of a folder cover",
            "Status 4: a section or transition of the product has neither a case nor a reason why not.", "coverage suites",
            Argument("folder", "FOLDER", "a folder or a file with test cases")),
    Command("lint", "track.lint:lint", "List faults and weak points of scenarios and test cases",
            "Names the place of each fault of a scenario in JSON, and runs the checks of docs/explain/safety.md. A case that is meant to show an item lists it "
            "under `shows`. Status 3: something was not judged, since the unit's library is missing. Status 4: something was found.", "lint suites --without 33",
            Argument("paths", "FILE...", "a scenario in JSON or YAML, test cases, or a folder", nargs=-1, required=True), JSON_LINES,
            Checks(["--without"], metavar="ITEM", multiple=True)),
    Command("search", "cli.search_commands:search", "Search random scenarios for one that breaks a property",
            "A scenario that is found is shrunk. Status 4: one was found, or a property was never judged.", "search properties.yaml --examples 1000",
            Argument("yaml", "FILE.yaml", "the file with the properties"),
            Setting("--examples", "number of scenarios to try", "N", int, "cli.search_commands:EXAMPLES"),
            option("--seed", "the same seed gives the same scenarios (default: a random one, which is printed)", "N", int),
            option("--only", "only properties whose note contains this text", "NOTE", multiple=True),
            option("--keep", "write what is found into this new folder: a test case, its image and its report", "FOLDER", PATH),
            option("--against", "check the answers of another unit: a command that speaks the protocol of docs/howto/oracle.md", "COMMAND"),
            option("--records", "check these records of any unit instead of searching: lines as `etcs_lab events` prints them", "EVENTS.jsonl", PATH),
            WITHIN, JOBS)]
SIMULATION = [
    Command("drive", "cli.drive_commands:play_drive", "Run a simulated train in a closed loop with the onboard unit",
            "The unit is the library that `tools/library PREFIX` makes; GAKNIFUR_ETCS_UNIT names its .so.", "drive drive.yaml --picture drive.svg",
            Argument("yaml", "FILE.yaml", "a scenario with a drive"), option("--csv", "write one row per time step", "OUT.csv", PATH),
            option("--picture", "draw speed and limit over the place (.svg or .png)", "OUT", PATH),
            option("--image", "keep the journal here; an image that `lab drive` made gets one more life: IMAGE.identity says \"unit: lab drive\"", "IMAGE", PATH),
            option("--scenario", "write the inputs of the unit as a scenario for `etcs run`", "OUT.json", PATH), FORCE),
    Command("campaign", "cli.campaign_commands:play_campaign", "Run many scenarios, case files or random lives into one table",
            "Each is a row of an SQLite table. Rows that exist aren't run again, so an interrupted campaign continues. Status 4: a row isn't sound.",
            "campaign suites campaign.db --random 1000",
            Argument("paths", "[FOLDER] OUT.db", "run the case files and scenarios below FOLDER", nargs=-1, callback=folder_and_table, expose_value=False),
            option("--random", "also run this many random lives", "N", NATURAL, default=0),
            option("--seed", "seed of the random lives", "N", NATURAL, default=1, show_default=True),
            option("--slots", "slots of each new image (default: 64; of a random life as many as it needs)", "N", NATURAL),
            JOBS, option("--scheduler", "use this Dask scheduler instead of local processes", "tcp://HOST:PORT"),
            option("--csv", "write the whole table at the end", "OUT.csv", PATH),
            FORCE),
    Command("compare", "cli.campaign_commands:compare_campaigns", "List the rows that differ between two campaigns",
            "Seconds and workers aren't compared. Status 4: rows differ.", "compare monday.db friday.db",
            Argument("first", "ONE.db", "a table of `lab campaign`"), Argument("second", "OTHER.db", "the table to compare it with"))]
UNITS = [
    Command("serve", "cli.unit_commands:serve", "Run the onboard unit as a server on standard input and output",
            "It speaks the protocol of docs/howto/oracle.md. The unit is the library that `tools/library PREFIX` makes; GAKNIFUR_ETCS_UNIT names its .so.", "serve"),
    Command("against", "cli.unit_commands:against", "Replay a journal against another unit and compare the answers",
            "Status 4: an answer differs, or the unit broke the protocol.", 'against image "./my_unit --oracle"',
            IMAGE, Argument("command", "COMMAND", "a command with its arguments that speaks the protocol of docs/howto/oracle.md", type=str), JSON_LINES, WITHIN)]
TELEGRAM = Command("telegram", "cli.case_commands:print_telegram", "Print the bytes of a telegram that is given by its variables",
                   "The text is that of a scenario (docs/reference/test-cases.md). `etcs decode` has to find the same variables in the bytes.",
                   'telegram "NID_BG 2; 66: NID_TSR 8"', Argument("text", "TEXT", "the variables of the telegram", type=str))
EPILOG = """\
\b
Exit status:
  0  done, and nothing was found
  1  refused: the input isn't valid, or the output can't be written
  2  wrong arguments
  3  a file, the device or a program that is needed failed
  4  done, and something was found (docs/reference/refusals.md lists what)
  5  an internal error of lab

`lab COMMAND --help` describes a command; docs/reference/lab.md lists the page for each. Everything readable of a damaged image is
printed, and standard error says what is wrong. Take a digest of an image before anything reads it, and work on a copy.

\b
Completion: eval "$(_LAB_COMPLETE=bash_source lab)", also with zsh_source;
_LAB_COMPLETE=fish_source lab | source"""
lab = Lab([*JOURNAL, *EVIDENCE, *TESTING, *SIMULATION, *UNITS, TELEGRAM], params=[VERSION, HELP], epilog=EPILOG,
          help="Test an onboard unit, and investigate its journals.")
