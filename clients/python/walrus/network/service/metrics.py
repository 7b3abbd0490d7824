"""Metrics of a gateway or a node in Prometheus' text format, made by Debian's python3-prometheus-client.

This module is loaded once metrics are asked for: commands and other services do without that package."""
import collections
import re
from typing import Any, Iterable, Mapping, Union

from aiohttp import web
from prometheus_client import CollectorRegistry, ProcessCollector, generate_latest
from prometheus_client.core import CounterMetricFamily, GaugeMetricFamily, HistogramMetricFamily, Metric
from prometheus_client.registry import Collector

from .connections import Counted, Server
from .histograms import HEADERS, Times

Value = Union[float, Mapping[str, float]]  # a number, or numbers by labels such as `way="in"`
CONNECTIONS = 32  # the most connections of clients that ask a node for metrics
PROCESS = ProcessCollector(registry=CollectorRegistry(auto_describe=False))  # of this process: memory, descriptors
MEANT = {
    "bad_encodings": "Blobs that were found to be badly encoded, by the outcome of announcing them",
    "blobs": "Blobs that are registered, certified, or declared invalid",
    "blobs_read": "Blobs that were read from the network",
    "cache_bytes": "Bytes that the cache takes",
    "cache_hits": "Reads that found a blob in the cache, or on its way there",
    "certificate_days": "Days until the certificate that was loaded expires",
    "challenges": "Challenges, by finding",
    "epoch": "The epoch",
    "http_bytes": "Bytes of files, in and out",
    "http_requests": "Requests, by method and status",
    "http_seconds": "Seconds from a request to the end of its reply, by method and path",
    "ledger_away_seconds": "Seconds since the ledger was heard, 0 while it is heard",
    "ledger_place": "The last entry of the ledger that was heard",
    "ledger_stale": "Whether the ledger was not heard for too long",
    "node_answers": "Whether a node answers",
    "request_seconds": "Seconds for which a request waited for its reply, by kind",
    "request_bytes": "Bytes of requests and of replies",
    "shards": "Shards of the committee",
    "storing": "Shards that take what is stored: their nodes answer, and have room on the disk",
}


class Told(Collector):
    """A collector of given metrics, for one answer."""

    def __init__(self, families: Iterable[Metric]):
        self.families = families

    def collect(self) -> Iterable[Metric]:
        return self.families


def labels_of(text: str) -> dict[str, str]:
    """Returns the labels in a text such as `method="GET",status="200"`."""
    return dict(re.findall(r'(\w+)="([^"]*)"', text))


def family(name: str, kind: str, value: Value) -> Metric:
    """Returns a counter or a gauge with one number, or with several by their labels."""
    values = value if isinstance(value, Mapping) else {"": value}
    labels = [*labels_of(next(iter(values), ""))]
    made: Union[CounterMetricFamily, GaugeMetricFamily] = (
        CounterMetricFamily(f"walrus_{name}", meaning(name), labels=labels)
        if kind == "counter"
        else GaugeMetricFamily(f"walrus_{name}", meaning(name), labels=labels)
    )
    for text, number in values.items():
        made.add_metric([*labels_of(text).values()], number)
    return made


def histogram(name: str, times: Times) -> Metric:
    """Returns a histogram of durations, by their labels."""
    labels = [*labels_of(next(iter(times.counts), ""))]
    made = HistogramMetricFamily(f"walrus_{name}", meaning(name), labels=labels)
    for text in times.counts:
        made.add_metric([*labels_of(text).values()], times.buckets(text), times.sums[text])
    return made


def meaning(name: str) -> str:
    return MEANT.get(name, name.replace("_", " "))


def told(counters: Mapping[str, Value], gauges: Mapping[str, Value], times: Mapping[str, Times]) -> bytes:
    """Returns the text of all metrics, with those of this process (memory, descriptors)."""
    families = [family(name, "counter", it) for name, it in counters.items()]
    families += [family(name, "gauge", it) for name, it in gauges.items()]
    families += [histogram(name, it) for name, it in times.items() if it.counts]
    return generate_latest(Told([*families, *PROCESS.collect()]))  # type: ignore[arg-type]


class Numbers(Server):
    """The server of metrics. It has few connections, so that its clients take no descriptors that a node needs."""

    def __init__(self) -> None:
        super().__init__()
        self.each = collections.Counter[str]()

    def connect(self, server: web.Server) -> Counted:
        made = Counted(server, CONNECTIONS, self.each, access_log=None)
        made.proxies = set()
        return made


async def serve(place: str, tell: Any) -> Server:
    """Answers GET /metrics with what `tell` returns, at HOST:PORT, or on loopback if `place` is just PORT."""
    host, _, port = place.rpartition(":")

    async def answer(request: web.Request) -> web.Response:
        request.protocol.first.cancel()  # type: ignore[attr-defined]
        return web.Response(body=await tell(), headers=HEADERS)

    app = web.Application()
    app.router.add_get("/metrics", answer)
    made = Numbers()
    await made.serve(app, host.strip("[]") or "127.0.0.1", int(port), CONNECTIONS)
    return made
