"""Dates of epochs by the operator's plan, which binds nobody, and numbers of epochs from lengths of time."""
import datetime
import math
import re
import time
from typing import Any, Optional

from .rules import Ledger

SECONDS = {"m": 60, "h": 3_600, "d": 86_400, "w": 604_800}


def seconds_of(text: str) -> int:
    """Returns the seconds of a length of time such as 90d; raises `ValueError` if it is malformed."""
    found = re.fullmatch("([1-9][0-9]{0,6})([mhdw])", text)
    if not found:
        said = f"{text[:40]!r} is not a length of time: give a number and the unit m, h, d or w, such as 90d"
        raise ValueError(said)
    return int(found[1]) * SECONDS[found[2]]


def date_of(ledger: Ledger, epoch: int) -> Optional[str]:
    """Returns when an epoch is planned to begin, in UTC; None without a plan, or if that is after the year 9999, as it
    may be for the last epoch, until which anybody may register a blob."""
    minute = ledger.planned(epoch)
    if minute is None:
        return None
    try:
        date = datetime.datetime(1970, 1, 1) + datetime.timedelta(minutes=minute)
    except OverflowError:
        return None
    return date.strftime("%Y-%m-%dT%H:%MZ")


def calendar_of(ledger: Ledger) -> Optional[dict[str, Any]]:
    """Returns the plan and the planned begin of the next epoch as values for JSON; None without a plan."""
    epoch, since, length = ledger.calendar
    told = {"epoch": epoch, "since": since * 60, "seconds": length * 60, "next": date_of(ledger, ledger.epoch + 1)}
    return told if length else None


def epochs_for(status: dict[str, Any], text: str) -> int:
    """Returns for how many epochs a blob must be kept to be kept for at least this time, by the plan in a gateway's
    status. Raises `ValueError` without a plan."""
    seconds, plan = seconds_of(text), status.get("calendar")
    if not plan:
        raise ValueError(f"the network has no calendar by which {text} could be counted: say a number of epochs")
    epoch = int(status["epoch"])
    passed = time.time() - plan["since"]
    passed = max(passed, (epoch - plan["epoch"]) * plan["seconds"])  # this clock may be behind, and the ledger is not
    until: int = plan["epoch"] + math.ceil((passed + seconds) / plan["seconds"])
    return max(1, until - epoch - int(status["moving"]))
