"""The commands about evidence: `seal` and `verify`."""
import sys
from types import SimpleNamespace

from ..escaping import shown
from ..journal.reading import Progress
from ..program import FOUND
from .journal_commands import say_verdict


def seal_image(given: SimpleNamespace, progress: Progress) -> int:
    """Runs `lab seal`."""
    from ..evidence import seal
    found, judged = seal.seal(given.image, given.folder, given.by, given.medium, given.ssh_key, progress)
    sys.stdout.write(f"sealed {found['image']['name']}, {found['image']['bytes']} bytes, by {found['by']}\nsha256 {found['image']['sha256']}\n")
    sys.stdout.flush()
    return say_verdict(given.image, judged)


def verify_seal(given: SimpleNamespace, progress: Progress) -> int:
    """Runs `lab verify`."""
    from ..evidence import seal
    found = seal.verify(given.folder, given.signers, progress)
    sys.stdout.writelines(f"{shown(line)}\n" for line in found.lines)
    sys.stdout.flush()
    return max(say_verdict(given.folder / seal.IMAGE, found.image), FOUND if found.is_refused else 0)
