"""Find actions of the driver that can't have been accepted, by what the records show.

The kernel accepts an action only in some modes, and most actions only at standstill (`crates/driver`, "which actions are
accepted"; this project's profile). A record shows mode and speed before the action, and its effect. An action can't have been
accepted

- if it isn't accepted in this mode, or while moving;
- if an accepted action of this kind always shows in its own record, and nothing shows.

For other actions the records don't show it: what was entered, chosen or confirmed appears nowhere. Then `refused` is missing, and
also if there is no record before the action. This module isn't needed any more once `etcs_lab` says which actions were accepted.
"""
from typing import Any

import numpy as np
import pandas as pd

STANDING = {
    "enter_identity": {"SB"}, "enter_running_number": {"SB"}, "enter_train_data": {"SB"}, "choose_level": {"SB"},
    "confirm": {"SB"}, "start": {"SB", "PT"}, "choose_shunting": {"SB", "FS", "OS", "SR", "UN", "PT"},
    "leave_shunting": {"SH"}, "close_desk": {"FS", "OS", "SR", "SH", "UN", "PT"},
}
"""The modes in which an action is accepted, only at standstill."""
MOVING = {"override": {"FS", "OS", "SR", "PT"}}
"""The modes in which an action is accepted that doesn't need a standstill."""
TRIP_MODES = {"TR", "SB"}
"""The modes in which a trip is acknowledged, at standstill."""
SHOWN = {"on_sight": "shows_on_sight", "shunting": "shows_shunting", "level_0": "shows_level_0"}
CHANGE_MODE = ("start", "choose_shunting", "leave_shunting", "close_desk")
"""Actions that change the mode in the same event if they are accepted."""


def is_refused(action: str, subject: str | None, was: dict[str, Any], now: dict[str, Any]) -> bool | None:
    """Whether an action can't have been accepted, by the records before and after it; None if they don't show it."""
    moves = was["speed_m_per_h"] is not pd.NA and was["speed_m_per_h"] != 0
    if action in STANDING and (was["mode"] not in STANDING[action] or moves):
        return True
    if action in MOVING and was["mode"] not in MOVING[action]:
        return True
    if action == "acknowledge":
        if subject == "trip":
            return bool(was["mode"] not in TRIP_MODES or moves or now["shows_trip"] or not was["shows_trip"])
        return bool(not was[SHOWN[str(subject)]])
    if action in CHANGE_MODE:
        return bool(was["mode"] == now["mode"])
    if action == "override":
        return None if was["shows_overridden"] else bool(not now["shows_overridden"])
    return None


NEEDED = ("mode", "speed_m_per_h", "shows_trip", "shows_on_sight", "shows_shunting", "shows_level_0",
          "shows_overridden")


def refused(table: pd.DataFrame) -> Any:
    """Whether each row is an action that can't have been accepted; missing if the records don't show it."""
    answers: list[bool | None] = [None] * len(table)
    stretch = table["stretch"].to_numpy()
    for row in np.flatnonzero(table["kind"].to_numpy(object) == "driver"):
        if row == 0 or stretch[row - 1] != stretch[row]:
            continue
        was, now = ({name: table[name].iat[at] for name in NEEDED} for at in (row - 1, row))
        answers[row] = is_refused(table["action"].iat[row], table["acknowledged"].iat[row], was, now)
    return pd.array(answers, dtype="boolean")
