"""Find the files of test cases below a folder, and the files that they name."""
import contextlib
import os
from pathlib import Path

from ..program import DEVICE, Failed

SUFFIXES = (".yaml", ".yml", ".json")


def files_of(path: Path) -> list[Path]:
    """A file, and all files that it and these name as `include` or `scenario`, each once. A file that isn't YAML names none."""
    from ..yaml_files import documents  # (YAML takes a while to load, and a folder of scenarios has none)
    found = [path.resolve()]
    for one in found:
        try:
            found_documents = documents(one) if one.suffix in (".yaml", ".yml") else []
        except Failed:
            continue
        for name in (name for document in found_documents for name in document.below(("include", "scenario"))):
            try:
                other = name.file().resolve()
            except Failed:
                continue
            if other not in found:
                found.append(other)
    return found


def is_case_file(name: str) -> bool:
    """Whether a file has test cases, by its name."""
    return name == "case.yaml" or name.endswith(".case.yaml")


def names_below(folder: Path) -> list[str]:
    """The names, relative to a folder, of the files that may have a case or a scenario, in order. A folder that can't be read has none."""
    found, within = list[str](), [""]
    for at in within:
        with contextlib.suppress(OSError), os.scandir(folder / at) as entries:
            for entry in entries:
                if entry.is_dir(follow_symlinks=False):
                    within.append(f"{at}{entry.name}/")
                elif entry.name.endswith(SUFFIXES) and entry.name not in SUFFIXES and entry.is_file():
                    found.append(f"{at}{entry.name}")
    return sorted(found, key=lambda name: name.split("/"))


def below(folder: Path) -> tuple[list[str], list[str]]:
    """The names of the case files below a folder, and of the JSON scenarios that none of them names."""
    if not folder.is_dir():
        raise Failed(f"{folder}: no such folder", DEVICE)
    names = names_below(folder)
    case_files = [name for name in names if is_case_file(name.rpartition("/")[2])]
    named = {other for name in case_files for other in files_of(folder / name)}
    scenarios = [name for name in names if name.endswith(".json")]
    return case_files, [name for name in scenarios if (folder / name).resolve() not in named] if named else scenarios
