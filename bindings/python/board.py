"""board.py OBJECT: a board in Python, whose device has a fuse that blows during a boot."""

import sys

from pmu import Callback, Command, Controller, Drop, Outcome, Reply, Start, Step
from pmu_eemi import Ack, Call, Capability, Master, Node


class Board:
    """The device: a node whose fuse is blown takes no command."""

    def __init__(self) -> None:
        self.blown: set[int] = set()

    def carry_out(self, command: Command) -> bool:
        return command.line or command.number not in self.blown


def show(what: str, step: Step) -> None:
    """Prints what a step tells, each event by its kind."""
    print(f"{step.number} {what}")
    for event in step.events:
        if isinstance(event, Outcome):
            print(f"    node {event.command.number} to {event.command.value}{'' if event.taken else ': no power'}")
        elif isinstance(event, Start):
            print(f"    processor {event.processor} starts at {event.address:#x}")
        elif isinstance(event, Reply):
            print(f"    master {event.master} gets status {event.status}, words {event.words}")
        elif isinstance(event, Callback):
            print(f"    master {event.master} gets callback {event.number}, words {event.words}")
        elif isinstance(event, Drop):
            print(f"    a message of master {event.master} is dropped")


board = Board()
with open(sys.argv[1], "rb") as file, Controller(file.read(), board) as core:
    show("load", core.load)
    show("APU finishes its initialization", core.ipi(Master.APU, Call.INIT_FINALIZE))
    show("APU starts RPU_0", core.ipi(Master.APU, Call.REQUEST_WAKEUP, Node.RPU_0, 0x10000 + 1, 0, Ack.BLOCKING))
    request = Call.REQUEST_NODE, Node.OCM_BANK_0, Capability.ACCESS, 0, Ack.NON_BLOCKING
    show("RPU_0 requests OCM_BANK_0", core.ipi(Master.RPU_0, *request))
    board.blown.add(Node.UART_0)
    request = Call.REQUEST_NODE, Node.UART_0, Capability.ACCESS, 0, Ack.BLOCKING
    show("APU requests UART_0, whose fuse is blown", core.ipi(Master.APU, *request))
    board.blown.clear()
    show("a tick, once the fuse is replaced", core.tick(1))
    print("settled:", core.is_settled(), "and UART_0 is told to APU as", core.node_status(Master.APU, Node.UART_0))
    show("a message of RPU_1, which is off", core.ipi(Master.RPU_1, Call.GET_NODE_STATUS, Node.UART_0))
