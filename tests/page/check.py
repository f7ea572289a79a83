#!/usr/bin/python3 -IB
"""The page of tools/page in headless Chromium, along with the programs `etcs` and `etcs_lab` and the library for C.

    tests/page/check.py PAGE [NAME..]    run all checks of a page, or those of these names

MORE=10 tries ten times as many altered and forged images. The last line has the number of comparisons.
"""
import sys
import tempfile
import traceback
from pathlib import Path

HERE = Path(__file__).resolve().parent
sys.path[:0] = [str(HERE), str(HERE.parents[1] / "python")]
import altered  # noqa: E402
import apart  # noqa: E402
import asking  # noqa: E402
import braked  # noqa: E402
import briefs  # noqa: E402
import charts  # noqa: E402
import desks  # noqa: E402
import entered  # noqa: E402
import first  # noqa: E402
import forged  # noqa: E402
import guarded  # noqa: E402
import handing  # noqa: E402
import manners  # noqa: E402
import tracks  # noqa: E402
from browsing import Browser  # noqa: E402

CHECKS = {name: check for part in (desks, tracks, apart, asking, altered, briefs, braked, first, entered, forged, charts, manners, guarded, handing)
          for name, check in part.CHECKS.items()}


def main() -> int:
    """Runs the checks, also after one that failed."""
    page, names, counted, failed = Path(sys.argv[1]).resolve(), sys.argv[2:] or list(CHECKS), 0, 0
    with Browser() as browser, tempfile.TemporaryDirectory(prefix="gaknifur-") as room:
        for name in names:
            check, least = CHECKS[name]
            folder = Path(room) / name
            folder.mkdir()
            try:
                browser.open(page)
                browser.complaints()
                count = check(browser, page, folder)
                assert count >= least, f"compared {count}, and {least} at least were to be"
                print(f"page: {name}: {count} compared", flush=True)
                counted += count
            except Exception:  # pylint: disable=broad-except
                failed += 1
                traceback.print_exc()
                print(f"page: {name} FAILED", flush=True)
    print(f"page: {len(names)} checks, {counted} compared, {failed} failures")
    return 1 if failed else 0


if __name__ == "__main__":
    sys.exit(main())
