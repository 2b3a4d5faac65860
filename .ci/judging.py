"""Judges a report by the program's word `check`, and by the model's checker if it is there;
the reports of a bridge by the model alone."""
import os
import re
import subprocess
from pathlib import Path

PROGRAM = os.environ.get("PROGRAM", str(Path(__file__).resolve().parent.parent / "crates/host_run/out/host_run"))
SECONDS = 60


def first_wrong(script, report):
    """The number of the first line of the report that is no run's, and 0 where the report is legal."""
    parts = script + (b"" if script.endswith(b"\n") else b"\n") + b"---\n" + report
    run = subprocess.run([PROGRAM, "check"], input=parts, capture_output=True, timeout=SECONDS)
    answer = (run.returncode, run.stdout, run.stderr)
    if answer == (0, b"legal\n", b""):
        return 0
    illegal = re.fullmatch(rb"illegal:([1-9]\d*)\n", run.stdout)
    if run.returncode != 7 or run.stderr or not illegal:
        raise ValueError(f"check: {answer}")
    return int(illegal[1])


def fault_of(script, report, model=None):
    """What is wrong with a report, by the program and by the model; nothing where both hold it for legal."""
    line = first_wrong(script, report)
    by_model = model and model.check(model.read_script(script), report)
    if model and line != (by_model[0] if by_model else 0):
        return f"illegal:{line} by the program, and by the model {by_model}"
    return f"line {line} of the report is no run's" if line else None


def sent_by_bridge(reports):
    """What the bridge, the last application, sends on side 2, and how each send was answered."""
    side = reports.partition(b"\nside 2\n")[2]
    bridge = max(map(int, re.findall(rb"(?m)^\d+ a(\d+) end ->", side)), default=0)
    return re.findall(rb"(?m)^\d+ a%d (send .*) -> (\w+)" % bridge, side)


def fault_of_bridge(plan, reports, model=None):
    """What is wrong with the reports of a plan, by the model; nothing without a model."""
    fault = model and model.bridge_check(model.read_plan(plan), reports)
    return f"not bridged, line {fault[0]}: {fault[1]}" if fault else None
