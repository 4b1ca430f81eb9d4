"""peers.py CALL TOOL GGSN WORK PREFIX: the seven parts, with the programs CALL and TOOL (kawsarpa), the folder GGSN in which osmo-ggsn is
unpacked, files in WORK, and namespaces whose names begin with PREFIX."""

import sys
import time
from pathlib import Path

import checksums
import clients
import datagrams
import decoded
import echo
import ggsn
import headend
import icmp
import network
import refusals
import reported
import routers
import sequence
import trips
import yard
from judge import Count, judge
from library import Library
from tunnel import Tunnel

STARTED = time.monotonic()


def say(words: str) -> None:
    print(f"peers: {time.monotonic() - STARTED:5.1f} s: {words}", flush=True)


def main(call: str, tool: str, ggsn_folder: Path, work: Path, prefix: str) -> int:
    library, count = Library(call), Count()
    say(f"tshark decodes {decoded.run(library, work, count)}")
    # damage is looked for in good packets: where one differs already, a change may mend it
    say("self-test not run: packets differ already" if count.differences else decoded.self_test(library, work))
    chain = network.Network(prefix)
    say(f"{len(network.NODES)} namespaces, {len(network.WAYPOINTS)} of them End nodes")
    sent, words = trips.run(library, chain, count)
    judge(sent, work, count)
    say(words)
    sent, words = headend.run(library, chain, count)
    judge(sent, work, count)
    say(words)
    say(refusals.run(library, chain, count))
    say(sequence.run(library, work, count))
    say(yard.run(work, count))
    before = count.differences
    say(echo.run(library, work, count))
    say("self-test not run: packets differ already" if count.differences > before else echo.self_test(library, work))
    say(echo.refusals(library, count))
    tunnel = Tunnel(library, chain)
    for words in clients.run(tunnel, tool, count):
        say(words)
    say(ggsn.run(tunnel, ggsn_folder, tool, work, count))
    say(checksums.run(library, work, count))
    sent, words = datagrams.run(library, tunnel, count)
    judge(sent, work, count)
    say(words)
    say(datagrams.offload(library, chain, tool, work, count))
    before = count.differences
    say(icmp.run(library, work, count))
    say("self-test not run: packets differ already" if count.differences > before else icmp.self_test(library, work))
    say(icmp.none_due(library, count))
    for words in reported.run(library, chain, count):
        say(words)
    say(routers.run(library, chain, count))
    print(f"peers: {count.packets} packets decoded, {count.fields} fields compared, {count.waypoints} waypoints, "
          f"{count.refusals} refusals, {count.readings} readings, {count.echoes} Echo Responses, {count.checksums} UDP checksums and "
          f"{count.messages} ICMPv6 messages compared, {count.differences} differences")
    return 1 if count.differences else 0


if __name__ == "__main__":
    try:
        sys.exit(main(sys.argv[1], sys.argv[2], Path(sys.argv[3]), Path(sys.argv[4]), sys.argv[5]))
    except (OSError, RuntimeError) as failure:
        sys.exit(f"peers: {failure}")
