"""Write YAML on one line."""
import json
import re

from ..yaml_files import Value


def quoted(text: str) -> str:
    """A text in YAML."""
    return json.dumps(text, ensure_ascii=False)


def flow(at: Value, words: dict[str, str] | None = None) -> str:
    """A value of YAML on one line; `{name}` in its texts is replaced by a word."""
    if at.is_list():
        return f"[{', '.join(flow(one, words) for one in at.elements())}]"
    if at.is_mapping():
        return f"{{{', '.join(f'{name}: {flow(value, words)}' for name, value in at.entries().items())}}}"
    text = filled(at, words or {})
    return text if re.fullmatch(r"[\w.-]+", text) else quoted(text)


def filled(at: Value, words: dict[str, str]) -> str:
    """A text with `{name}` replaced by words."""
    text = at.text()
    for name in re.findall(r"\{(\w+)\}", text):
        if name not in words:
            raise at.fault(f"unknown \"{name}\"; known: {', '.join(sorted(words)) or 'none'}")
        text = text.replace(f"{{{name}}}", words[name])
    return text
