"""The state of a running exchange in the text format of Prometheus, version 0.0.4."""

from __future__ import annotations

from collections import Counter
from collections.abc import Iterable, Iterator, Mapping
from itertools import accumulate
from typing import Callable, Union

from nemzhuul import __version__
from nemzhuul.live.counts import Histogram
from nemzhuul.live.snapshots import IDLE, PHASES, STATES, Snapshot
from nemzhuul.traces.events import CHANNELS, FRAMES_PER_SECOND, PLACES, Slot

CONTENT_TYPE = "text/plain; version=0.0.4; charset=utf-8"
PREFIX = "nemzhuul_"

Number = Union[int, float]
Labels = Mapping[str, object]


def metrics_text(state: Snapshot, rest: Callable[[], None] = lambda: None) -> str:
    """The whole text. After each part, `rest` is called."""
    lines: list[str] = []
    for part in (_calls, _channels, _lines, _links, _clock):
        lines += part(state)
        rest()
    return "".join(f"{line}\n" for line in lines)


def family(name: str, kind: str, meaning: str, samples: Iterable[tuple[Labels, Number]]) -> Iterator[str]:
    """The lines of a counter or a gauge. The name of a counter ends in `_total`."""
    yield f"# HELP {PREFIX}{name} {meaning}"
    yield f"# TYPE {PREFIX}{name} {kind}"
    for labels, value in samples:
        yield sample(name, labels, value)


def one(name: str, kind: str, meaning: str, value: Number) -> Iterator[str]:
    return family(name, kind, meaning, [({}, value)])


def sample(name: str, labels: Labels, value: Number) -> str:
    marks = ",".join(f'{label}="{escaped(text)}"' for label, text in labels.items())
    return f"{PREFIX}{name}{'{' + marks + '}' if marks else ''} {value}"


def escaped(text: object) -> str:
    """A value of a label."""
    return str(text).replace("\\", r"\\").replace('"', r"\"").replace("\n", r"\n")


def histogram(name: str, meaning: str, times: Histogram) -> Iterator[str]:
    yield f"# HELP {PREFIX}{name} {meaning}"
    yield f"# TYPE {PREFIX}{name} histogram"
    bounds = [f"{bound:g}" for bound in times.bounds] + ["+Inf"]
    for bound, count in zip(bounds, accumulate(times.counts)):
        yield sample(f"{name}_bucket", {"le": bound}, count)
    yield sample(f"{name}_sum", {}, times.frames / FRAMES_PER_SECOND)
    yield sample(f"{name}_count", {}, sum(times.counts))


def _calls(state: Snapshot) -> Iterator[str]:
    totals, phases = state.totals, Counter(state.phases.values())
    yield from one("calls_offered_total", "counter", "Calls for which a SETUP came.", totals.offered)
    yield from one("calls_answered_total", "counter", "Calls that were answered.", totals.answered)
    refused = [({"cause": cause}, count) for cause, count in sorted(totals.refused.items())]
    yield from family("calls_refused_total", "counter", "Calls whose SETUP was refused, by cause (ITU-T Q.850).", refused)
    endings = sorted(totals.ended.items(), key=str)
    ended = [({"cause": "" if cause is None else cause, "answered": str(is_answered).lower()}, count)
             for (cause, is_answered), count in endings]  # fmt: skip
    yield from family("calls_ended_total", "counter", "Accepted calls that have ended, by cause of the clearing.", ended)
    talked = totals.talked / FRAMES_PER_SECOND
    yield from one("conversation_seconds_total", "counter", "Time from answer to clearing of the calls that have ended.", talked)
    in_progress = [({"phase": phase}, phases[phase]) for phase in PHASES]
    yield from family("calls", "gauge", "Calls in progress, by phase.", in_progress)
    yield from histogram("call_setup_seconds", "Time from SETUP to CONNECT of the calls that were answered.", totals.set_up)
    yield from one("followed", "gauge", "1 while calls are followed; afterwards their numbers stay.", int(not state.refusal))


def _channels(state: Snapshot) -> Iterator[str]:
    paths, channels = state.paths(), []
    for line in range(state.sizes.external):
        states = Counter(state.state(Slot(line, channel)) for channel in CHANNELS)
        channels += [({"line": line, "state": name}, states[name]) for name in STATES]
    yield from family("channels", "gauge", f"Bearer channels of a line, by state; {IDLE} ones too.", channels)
    rooms = {target.room: 0 for target in state.numbers.values() if target.room is not None}
    rooms.update({room: len(members) for room, members in state.rooms().items()})
    yield from family("room_members", "gauge", "Members of a conference room.", [({"room": room}, count) for room, count in sorted(rooms.items())])
    yield from one("ports", "gauge", "Ports of the conference bridges.", state.sizes.bridges * PLACES)
    yield from one("live_paths", "gauge", "One-way paths through the fabric.", sum(paths.values()))
    yield from one("connections_total", "counter", "Connections and seats, for each of which two paths were laid.", state.totals.connected)
    yield from one("moved_paths_total", "counter", "Live paths that were moved to make room for others.", state.totals.moved)


def _lines(state: Snapshot) -> Iterator[str]:
    lines = [(line, {"line": line.number}) for line in state.lines if line.place is not None]
    attached = [(labels, int(line.is_attached)) for line, labels in lines]
    yield from family("endpoint_attached", "gauge", "Whether an endpoint is attached to the socket of a line.", attached)
    messages = [(labels, line.messages) for line, labels in lines]
    yield from family("line_messages_total", "counter", "Messages that were taken from the endpoint of a line.", messages)
    frames = [(labels, line.frames) for line, labels in lines]
    yield from family("line_frames_total", "counter", "Frames with octets that were taken from the endpoint of a line.", frames)
    late = [(labels, line.late) for line, labels in lines]
    yield from family("line_late_frames_total", "counter", "Frames whose octets came late from the endpoint of a line.", late)


def _links(state: Snapshot) -> Iterator[str]:
    up = [({"line": link.number}, int(link.is_up)) for link in state.links]
    yield from family("link_up", "gauge", "Whether the data link of a line is up.", up)
    links = [(link, {"line": link.number}) for link in state.links if link.place is not None]
    attached = [(labels, int(link.is_attached)) for link, labels in links]
    yield from family("link_endpoint_attached", "gauge", "Whether an endpoint is attached to a data link.", attached)
    frames = [(labels, link.frames) for link, labels in links]
    yield from family("link_frames_total", "counter", "Frames that were taken from a data link.", frames)
    cut = [(labels, link.cut) for link, labels in links]
    yield from family("link_cut_frames_total", "counter", "Frames of a data link that were too long, and were cut.", cut)
    lost = [(labels, link.lost) for link, labels in links]
    yield from family("link_lost_frames_total", "counter", "Frames to a data link that its endpoint did not take.", lost)


def _clock(state: Snapshot) -> Iterator[str]:
    pace = state.pace
    yield from one("frames_total", "counter", "Frames of the exchange, 8000 in a second.", state.frame)
    yield from one("periods_total", "counter", "Periods of frames.", pace.periods)
    yield from one("period_seconds", "gauge", "The length of a period.", pace.period)
    yield from one("period_lateness_max_seconds", "gauge", "How late a period has begun, at most.", pace.latest)
    seconds = [({"process": "tool"}, pace.tool), ({"process": "exchange"}, pace.exchange)]
    yield from family("processor_seconds_total", "counter", "Processor time of tools/attach and of the exchange.", seconds)
    given_up = [({"file": name}, int(is_given_up)) for name, is_given_up in state.given_up.items()]
    yield from family("file_given_up", "gauge", "Whether a file of the exchange is given up.", given_up)
    yield from family("build_info", "gauge", "The version of the tools.", [({"version": __version__}, 1)])
