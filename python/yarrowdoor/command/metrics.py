"""What a check has found, as Prometheus reads it: its text format of exposition, version 0.0.4."""
from __future__ import annotations

import math
from dataclasses import dataclass, field
from typing import Dict, Iterator, List, Sequence, Tuple

from .steps import Outcome, Step

__all__ = ["CONTENT_TYPE", "Metric", "Probed", "metrics_of", "no_probes", "render"]

CONTENT_TYPE = "text/plain; version=0.0.4; charset=utf-8"

Labels = Dict[str, str]


@dataclass
class Metric:
    """A metric and its samples, each with labels of its own."""

    name: str
    help: str
    kind: str = "gauge"
    samples: List[Tuple[Labels, float]] = field(default_factory=list)

    def add(self, value: float, **labels: str) -> None:
        """A further sample."""
        self.samples.append((labels, value))


@dataclass(frozen=True)
class Probed:
    """The last check of a probe."""

    uri: str
    status: int
    """the exit status that `yarrowdoor check` has for it"""
    steps: Sequence[Step]
    seconds: float
    """how long it took"""
    ended: float
    """when it ended, in seconds since 1970"""
    count: int
    """how many checks there were, with this one"""


def metrics_of(probed: Probed) -> List[Metric]:
    """All metrics of a check."""
    uri = {"uri": probed.uri}
    up = Metric("turn_up", "Whether nothing failed in the last check, and all could be tried.")
    status = Metric("turn_status", "Of the last check: 0 all is well, 1 something fails, "
                    "2 it cannot be tried.")
    spent = Metric("turn_probe_duration_seconds", "How long the last check took.")
    ended = Metric("turn_probe_timestamp_seconds", "When it ended, in seconds since 1970.")
    count = no_probes()
    values = (probed.status == 0, probed.status, probed.seconds, probed.ended, probed.count)
    for metric, value in zip((up, status, spent, ended, count), values):
        metric.samples = [(uri, float(value))]
    found = [up, status, *_of_steps(probed.steps, uri), spent, ended, count]
    return [it for it in found if it.samples]


def no_probes() -> Metric:
    """How many checks were made: none yet."""
    return Metric("turn_probes_total", "How many checks were made.", "counter", [({}, 0)])


def _of_steps(steps: Sequence[Step], uri: Labels) -> List[Metric]:
    step_is = Metric("turn_step", "Whether a step of the last check has this outcome.")
    seconds = Metric("turn_step_seconds", "How long a step of the last check took.")
    codes = Metric("turn_step_code", "The STUN error code with which a step was refused.")
    trips = Metric("turn_round_trip_seconds", "How soon packets came back.")
    lost = Metric("turn_loss_ratio", "Which part of the packets did not come back.")
    crossing = Metric("turn_crossing_loss_ratio",
                      "Which part was lost at each crossing between here and the server.")
    days = Metric("turn_certificate_days", "For how many days the certificate is still good.")
    for it in steps:
        for outcome in Outcome:
            step_is.add(float(it.outcome is outcome), **uri, step=it.name, outcome=outcome.value)
        seconds.add(it.seconds, **uri, step=it.name)
        facts = {name: fact for name, fact in it.facts.items() if isinstance(fact, (int, float))}
        for name, metric in (("code", codes), ("days", days)):
            if name in facts:
                metric.add(facts[name], **uri, step=it.name)
        for name in ("least", "median", "most"):
            if name in facts:
                trips.add(facts[name], **uri, step=it.name, stat=name)
        if "received" in facts and facts.get("sent"):
            lost.add(1 - facts["received"] / facts["sent"], **uri, step=it.name)
            crossing.add(facts.get("lost_of_crossing", math.nan) / 100, **uri, step=it.name)
    return [step_is, seconds, codes, trips, lost, crossing, days]


def render(metrics: Sequence[Metric]) -> str:
    """The text of metrics."""
    return "".join(f"{line}\n" for it in metrics for line in _lines(it))


def _lines(metric: Metric) -> Iterator[str]:
    yield f"# HELP {metric.name} {_escaped(metric.help)}"
    yield f"# TYPE {metric.name} {metric.kind}"
    for labels, value in metric.samples:
        shown = ",".join(f'{name}="{_quoted(text)}"' for name, text in labels.items())
        yield f"{metric.name}{f'{{{shown}}}' if shown else ''} {_number(value)}"


def _escaped(text: str) -> str:
    return text.replace("\\", r"\\").replace("\n", r"\n")


def _quoted(text: str) -> str:
    return _escaped(text).replace('"', r"\"")


def _number(value: float) -> str:
    if math.isnan(value):
        return "NaN"
    if math.isinf(value):
        return "+Inf" if value > 0 else "-Inf"
    return str(int(value)) if value == int(value) else repr(float(value))
