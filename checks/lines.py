"""A plugin of pytest: each check is told by a line 'ok NAME' or 'FAILED NAME: why' in the file that --lines names, as it ends,
and each case by a line 'ran TEST', its test without parameters. A check that has not ended after CHECK_SECONDS fails.

checks/run loads it, and prints the lines among those of its other checks."""
from __future__ import annotations

import faulthandler
import os
import re
import signal
import sys
from collections.abc import Iterator
from typing import Any, TextIO

import pytest

LIMIT = float(os.environ.get("CHECK_SECONDS", 900))

# A call in the background has these ignored (nohup, &), and what tests start would inherit that.
for _number in (signal.SIGHUP, signal.SIGINT, signal.SIGQUIT):
    if signal.getsignal(_number) is signal.SIG_IGN:
        signal.signal(_number, signal.default_int_handler if _number == signal.SIGINT else signal.SIG_DFL)


def pytest_addoption(parser: Any) -> None:
    parser.addoption("--lines", help="the file in which each check gets its line")


def pytest_configure(config: Any) -> None:
    is_worker = hasattr(config, "workerinput")  # of xdist, whose reports come to the process that began it
    if config.getoption("--lines") and not is_worker:
        config.pluginmanager.register(Lines(open(config.getoption("--lines"), "w", encoding="utf-8")))


def name_of(node: str) -> str:
    """The name of a check: that of its row in a table, or of its function without `test_`."""
    node = re.sub("@[a-z_0-9]*$", "", node)  # the group that xdist runs in one process
    row = re.search(r"\[(.*)\]$", node)
    return row[1] if row else re.sub("^test_", "", node.rpartition("::")[2])


def test_of(node: str) -> str:
    """The test of a case: its file without folders, and its name without parameters and the group of xdist."""
    return re.sub(r"@[a-z_0-9]*$", "", node.partition("[")[0]).rpartition("/")[2]


def too_late(*_: Any) -> None:
    pytest.fail(f"it had not ended after {LIMIT:.0f} s")


@pytest.hookimpl(hookwrapper=True)
def pytest_runtest_protocol() -> Iterator[None]:
    """Fails a test that is late; one that does not come back from C ends its process, which xdist and checks/run tell."""
    signal.signal(signal.SIGALRM, too_late)
    signal.setitimer(signal.ITIMER_REAL, LIMIT)
    faulthandler.dump_traceback_later(1.1 * LIMIT + 1, exit=True, file=sys.__stderr__)
    yield
    faulthandler.cancel_dump_traceback_later()
    signal.setitimer(signal.ITIMER_REAL, 0)


def reason_of(report: Any) -> str:
    """What was wrong, in a line: what pytest marks as the error, and the case that hypothesis has found."""
    text = report.longreprtext
    lines = [line[1:].strip() for line in text.splitlines() if line.startswith("E ")] or text.splitlines()[-3:]
    lines += [line.strip() for title, told in report.sections if "ypothesis" in title for line in told.splitlines()]
    return " / ".join(line for line in lines if line)[:3000]


class Lines:
    def __init__(self, out: TextIO) -> None:
        self.out = out

    def tell(self, text: str) -> None:
        print(text, file=self.out, flush=True)

    def pytest_runtest_logreport(self, report: Any) -> None:
        name = name_of(report.nodeid)
        if report.when == "setup":
            self.tell(f"ran {test_of(report.nodeid)}")
        if report.failed:
            self.tell(f"FAILED {name}: {reason_of(report)}")
        elif report.skipped:
            why = report.longrepr
            self.tell(f"skipped {name}: {why[2] if isinstance(why, tuple) else why}")
        elif report.when == "call":
            self.tell(f"ok {name}")

    def pytest_collection_finish(self, session: Any) -> None:
        for item in session.items if session.config.option.collectonly else ():
            self.tell(f"ran {test_of(item.nodeid)}")

    def pytest_collectreport(self, report: Any) -> None:
        if report.failed:
            self.tell(f"FAILED {report.nodeid}: {reason_of(report)}")
