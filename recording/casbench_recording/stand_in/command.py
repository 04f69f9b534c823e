"""The command line of the stand-in, and its servers.

If OPENSEARCH_USER and OPENSEARCH_PASSWORD are set, or OPENSEARCH_HEADER, requests need these credentials.
"""

import argparse
import asyncio
import contextlib
import random
from typing import List, Optional, Sequence

from casbench_recording.console import usage_name

from .cluster import Cluster, ClusterSetting
from .disturbances import NodeDisturber, Plan
from .faults import FAULTS, Faults
from .second_nodes import CutOffCoordinator, LaggingCoordinator
from .server import Server, ServerSetting

DISTURBANCES = {
    "kill": "killed and restarted",
    "pause": "paused and resumed",
    "cut": "cut off from the other nodes, but not from its clients",
}
"""The kinds of disturbances of a node."""


def argument_parser() -> argparse.ArgumentParser:
    """Returns the argument parser."""
    faults = "; ".join(f"{name}: {meaning}" for name, meaning in FAULTS.items())
    parser = argparse.ArgumentParser(
        prog=usage_name("stand_in"),
        description="A stand-in for an OpenSearch cluster.",
        epilog=f"Faults: {faults}.",
    )
    add = parser.add_argument
    add(
        "--port",
        type=int,
        default=9201,
        help="the port of the first node on 127.0.0.1; more nodes use the next ones; 0: free ports (9201)",
    )
    add("--nodes", type=int, default=1, help="number of nodes (1)")
    add("--shards", type=int, default=1, help="number of shards of an index, unless its settings say it (1)")
    add(
        "--replicas",
        type=int,
        default=0,
        help="number of replicas of an index, unless its settings say it (0)",
    )
    add(
        "--lag",
        type=float,
        default=0.02,
        help="average delay in seconds of one in ten messages between nodes (0.02)",
    )
    for kind, meaning in DISTURBANCES.items():
        add(
            f"--{kind}-every",
            type=float,
            metavar="S",
            help=f"interval in seconds at which a node is {meaning}",
        )
    add("--lasting", type=float, metavar="S", help="seconds that each disturbance lasts (half its interval)")
    add("--spare", type=int, default=0, metavar="N", help="never disturb the first N nodes (0)")
    add(
        "--detection",
        type=float,
        default=30.0,
        metavar="S",
        help="seconds after which a node that doesn't answer is removed from the cluster (30)",
    )
    add(
        "--overload",
        type=float,
        nargs="?",
        const=10.0,
        default=0.0,
        metavar="PERCENT",
        help="percentage of requests that are rejected (0; 10 if no number is given)",
    )
    add("--fault", choices=FAULTS, default="none", help="the fault to inject (none)")
    add("--every", type=int, default=20, help="inject the fault into every Nth eligible request (20)")
    add("--late", type=float, default=2.0, help="delay in seconds for --fault late (2)")
    add("--delay", type=float, default=0.0, help="maximum delay in seconds before and after each request (0)")
    add(
        "--lagging-node",
        type=int,
        metavar="PORT",
        help="the port of a second node, whose gets return the version before the last",
    )
    add(
        "--cut-off-node",
        type=int,
        metavar="PORT",
        help="the port of a second node, which is cut off after the first --every changes",
    )
    add(
        "--product",
        help="the value of the header X-Elastic-Product in each answer, which some clients ask for (none)",
    )
    add("--certificate", help="serve HTTPS with this certificate and key (PEM)")
    return parser


def parse_arguments(arguments: Optional[Sequence[str]]) -> argparse.Namespace:
    """Parses the arguments; those of the process if there are none."""
    parser = argument_parser()
    setting = parser.parse_args(arguments)
    if setting.every < 1:
        parser.error("--every is at least 1")
    if setting.nodes < 1 or setting.shards < 1 or setting.replicas < 0:
        parser.error("--nodes and --shards are at least 1, and --replicas at least 0")
    is_disturbed = any(getattr(setting, f"{kind}_every") for kind in DISTURBANCES)
    if is_disturbed and not 0 <= setting.spare < setting.nodes:
        parser.error("--spare leaves no node to disturb")
    if setting.nodes > 1 and (setting.lagging_node is not None or setting.cut_off_node is not None):
        parser.error("--lagging-node and --cut-off-node need a single node")
    return setting


def servers_of(setting: argparse.Namespace, cluster: Cluster) -> List[Server]:
    """Returns the servers: those of the nodes, then those of second nodes beside a single one."""
    how = ServerSetting(setting.delay, setting.late, setting.product, setting.certificate)
    ports = [setting.port + at if setting.port else 0 for at in range(setting.nodes)]
    servers = [Server(cluster, number, how, port) for number, port in enumerate(ports)]
    for port, second in (
        (setting.lagging_node, LaggingCoordinator),
        (setting.cut_off_node, CutOffCoordinator),
    ):
        servers += [Server(cluster, 0, how, port, second(cluster.nodes[0]))] if port is not None else []
    return servers


async def serve(setting: argparse.Namespace) -> None:
    """Serves, and disturbs the cluster, until it is stopped."""
    counts = setting.nodes, setting.shards, setting.replicas
    wanted = ClusterSetting(*counts, setting.lag, setting.detection, setting.overload)
    cluster = Cluster(wanted, Faults(setting.fault, setting.every))
    servers = servers_of(setting, cluster)
    for it in servers:
        await it.listen()
    for it in servers:
        it.report()
    every = {kind: getattr(setting, f"{kind}_every") for kind in DISTURBANCES}
    plan = Plan({kind: it for kind, it in every.items() if it}, setting.lasting, setting.spare)
    await NodeDisturber(cluster, servers, plan, random.Random()).run()
    await asyncio.get_running_loop().create_future()


def main(arguments: Optional[Sequence[str]] = None) -> int:
    """Serves until it is stopped."""
    setting = parse_arguments(arguments)
    with contextlib.suppress(KeyboardInterrupt):
        asyncio.run(serve(setting))
    return 0
