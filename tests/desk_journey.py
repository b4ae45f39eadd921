#!/usr/bin/env python3
"""Logs of the bus, runs in time, sheets and VCDs of tools/desk beside the proved layer and beside other programs:
- candump's logs are read as they were written, also through can-utils and python-can where these are on the machine, and wrong ones are refused by line;
- a log becomes a script, and the run of it has the frames of the log in the same ticks; two nodes beside each other give and take the same frames and readings;
- the lanes of random runs say what marks, confirms and stored numbers say; the sheet is the proved one's; a VCD, read back, says what the run says.
Needs target/bin/drive, target/staticlib/libexports.a and gcc."""
import collections
import os
import random
import sys
import tempfile

sys.dont_write_bytecode = True
HERE = os.path.dirname(os.path.realpath(__file__))
sys.path[:0] = [os.path.join(HERE, "..", "tools"), os.path.join(HERE, "desk")]
import archive
import journey_bus
import journey_logs
from desk.layer import DRIVE
from journey_boards import example_boards, random_network, van
from journey_check import fail, same
from journey_lanes import check_lanes, random_script
from journey_sheet import check_errors, check_sheet
from journey_vcd import check_crowded, check_names, check_vcd

NETWORKS = 40
# What must have been met, at least.
LANES = {"deadline sent": 500, "deadline received": 500, "request sent": 500, "confirm sent": 500, "no_confirm sent": 300, "indication received": 500,
         "error received": 300, "open until confirm": 500, "open until no_confirm": 300, "open until deadline": 500, "open until start": 100,
         "delays until passed": 200, "delays until start": 20, "watched until deadline": 500, "watched until indication": 500, "watched until start": 100}
BUS = {"log indicated": 300, "log other_length": 50, "log own": 100, "log others": 100, "log unknown": 100, "log remote": 100,
       "log error": 100, "log fd": 100, "log xl": 100, "log drains": 200, "carried": 3000, "readings through": 3000,
       "readings dropped": 500, "networks": NETWORKS}
SHEETS = {"drains": 200, "overflows": 100, "errors": 100, "values below 0": 10, "rows with nothing": 10}
VCDS = {"vcd request": 200, "vcd confirm": 50, "vcd no_confirm": 20, "vcd indication": 100, "vcd error": 50, "vcd deadline": 200, "vcd open": 100,
        "vcd delay": 10, "vcd watched": 10, "vcd marks": 500, "vcd values": 1000, "vcd values of multiplexed messages": 40}


def by_others(folder, search, python):
    """The words for what other programs have read and written; can-utils are looked for in `search`, python-can in a Python."""
    counts = {"can-utils": journey_logs.check_can_utils(folder, search), "python-can": journey_logs.check_python_can(folder, python)}
    return ", ".join(f"{name} left out: not on this machine" if count is None else f"{count} by {name}" for name, count in counts.items())


def logs(folder):
    """The words for what was tried."""
    nothing = by_others(folder, "", os.path.join(folder, "python3"))
    same("without can-utils and python-can", nothing, "can-utils left out: not on this machine, python-can left out: not on this machine")
    tried, wrong = journey_logs.check_own(folder), journey_logs.check_wrong(folder)
    return f"{tried} frames of logs ({by_others(folder, None, journey_logs.DEBIAN)}), {wrong} wrong ones"


def bus(library, met):
    for drain_ms in (None, 100, 1000) * 2:
        for board in journey_bus.boards_with_others():
            journey_bus.check_log(board, 400, drain_ms, met)
    journey_bus.check_earlier()
    check_errors(van().boards()[0])
    journey_bus.check_wrong_uses()
    journey_bus.check_days()
    journey_bus.check_crowded_log()
    journey_bus.check_two_nodes(library, van(), 1000, met)


def check_run(board, script, met):
    journey_bus.check_run_log(board, script)
    check_vcd(board, script, met)


def check_met(met, least):
    few = {name: met[name] for name, count in least.items() if met[name] < count}
    if few:
        fail(f"too few were met: {few}")


def main():
    if not os.path.exists(DRIVE):
        fail("target/bin/drive is missing: run 'tools/build drive' first")
    random.seed(1)
    met, calls = collections.Counter(), 0
    with tempfile.TemporaryDirectory() as folder:
        library = archive.load(folder)
        told = logs(folder)
        random.seed(2)  # the same runs, whatever was left out
        bus(library, met)
        for board in van().boards() + example_boards():
            calls += check_lanes(library, board, 2000, met)
            check_sheet(library, board, 20, met)
        for board in van().boards():
            check_run(board, random_script(library, board, 800), met)
        check_crowded()
        check_names()
        for _ in range(NETWORKS - 1):
            network = random_network()
            journey_bus.check_two_nodes(library, network, 200, met)
            for board in network.boards():
                calls += check_lanes(library, board, 300, met)
                check_sheet(library, board, 10, met)
                check_run(board, random_script(library, board, 60), met)
    for least in (LANES, BUS, SHEETS, VCDS):
        check_met(met, least)
    print(f"desk_journey.py: {told}; {calls} calls in lanes, {met['carried']} frames between two nodes, {met['drains']} drains as the layer has them")


main()
