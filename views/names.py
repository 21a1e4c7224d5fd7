"""The names of numbers: nodes, calls, callbacks, status words, capabilities, reset lines and the rest.

One table, which all views use. A name is written as UG1200 has it, without its prefix: NODE_UART_0 is UART_0. Where a
name is read, the prefixes of UG1200, of Linux (include/dt-bindings/power/xlnx-zynqmp-power.h,
include/dt-bindings/reset/xlnx-zynqmp-resets.h) and of TF-A (plat/xilinx/zynqmp/pm_service) may stand before it.

`./pmu names` writes them all (`views/name_list.py`).
"""

from typing import NamedTuple, Optional

import topology


class Node(NamedTuple):
    """A published node."""

    number: int
    name: str
    kind: str  # power, processor, slave, or absent: published, but not on the chip
    parent: Optional[int] = None  # the power node directly above


class Clock(NamedTuple):
    """A clock of this core."""

    number: int
    node: int  # the slave that it feeds; of a root the PLL that it comes from
    parents: tuple[int, ...]  # the clocks that can feed it, by their index; a root has none


class Call(NamedTuple):
    """A call or a callback."""

    number: int
    name: str
    arguments: Optional[tuple[str, ...]]  # what each word means, a key of WORDS or a plain word; None if it isn't served


MODES = {0: "off", 1: "active", 2: "asleep", 3: "suspending"}

# The published names of the nodes. What each is, and which of them the chip has, its topology says.
_NODES = {
    1: "APU", 2: "APU_0", 3: "APU_1", 4: "APU_2", 5: "APU_3", 6: "RPU", 7: "RPU_0", 8: "RPU_1", 9: "PLD", 10: "FPD",
    11: "OCM_BANK_0", 12: "OCM_BANK_1", 13: "OCM_BANK_2", 14: "OCM_BANK_3", 15: "TCM_0_A", 16: "TCM_0_B", 17: "TCM_1_A",
    18: "TCM_1_B", 19: "L2", 20: "GPU_PP_0", 21: "GPU_PP_1", 22: "USB_0", 23: "USB_1", 24: "TTC_0", 25: "TTC_1",
    26: "TTC_2", 27: "TTC_3", 28: "SATA", 29: "ETH_0", 30: "ETH_1", 31: "ETH_2", 32: "ETH_3", 33: "UART_0",
    34: "UART_1", 35: "SPI_0", 36: "SPI_1", 37: "I2C_0", 38: "I2C_1", 39: "SD_0", 40: "SD_1", 41: "DP", 42: "GDMA",
    43: "ADMA", 44: "NAND", 45: "QSPI", 46: "GPIO", 47: "CAN_0", 48: "CAN_1", 49: "EXTERN", 50: "APLL", 51: "VPLL",
    52: "DPLL", 53: "RPLL", 54: "IOPLL", 55: "DDR", 56: "IPI_APU", 57: "IPI_RPU_0", 58: "GPU", 59: "PCIE", 60: "PCAP",
    61: "RTC", 62: "LPD", 63: "VCU", 64: "IPI_RPU_1", 65: "IPI_PL_0", 66: "IPI_PL_1", 67: "IPI_PL_2", 68: "IPI_PL_3",
    69: "PL", 70: "GEM_TSU", 71: "SWDT_0", 72: "SWDT_1", 73: "CSU", 74: "PJTAG", 75: "TRACE", 76: "TESTSCAN", 77: "PMU",
}  # fmt: skip


def _node(number: int, name: str) -> Node:
    """A published node, as the chip has it or lacks it."""
    unit = CHIP.nodes.get(number)
    return Node(number, name, unit.kind if unit else "absent", unit.parent if unit else None)


# The chip of the repository's topology, which is the program's own.
CHIP = topology.read(topology.OWN)

NODES = {number: _node(number, name) for number, name in _NODES.items()}

_CLOCKS = [
    (0, 50, ()),
    (1, 51, ()),
    (2, 52, ()),
    (3, 53, ()),
    (4, 54, ()),
    (5, 33, (4, 3)),
    (6, 34, (4, 3)),
    (7, 28, (0, 1, 2)),
    (8, 39, (4, 3)),
    (9, 40, (4, 3)),
    (10, 29, (4, 3)),
    (11, 55, (2, 1)),
    (12, 41, (1, 3)),
    (13, 58, (0, 1)),
    (14, 24, (5, 4)),
    (15, 25, (14, 4)),
]

# The clocks. Each has the name of its node, and no node has two.
CLOCKS = {row[0]: Clock(*row) for row in _CLOCKS}

# The masters and their processors; a master has the number of a node: 6 is the RPU in lock-step.
MASTERS = CHIP.owners

# The IPI mask that a master has in an object as the vendor's tools write it: the bit of its interrupt.
IPI_MASKS = {1: 0x1, 6: 0x100, 7: 0x100, 8: 0x200}

_CALLS = [
    (1, "GET_API_VERSION", ()),
    (2, "SET_CONFIGURATION", ("address",)),
    (3, "GET_NODE_STATUS", ("node",)),
    (4, "GET_OP_CHARACTERISTIC", ("node", "characteristic")),
    (5, "REGISTER_NOTIFIER", ("node", "event", "wake", "enable")),
    (6, "REQUEST_SUSPEND", ("node", "ack", "latency", "state")),
    (7, "SELF_SUSPEND", ("node", "latency", "state", "low", "high")),
    (8, "FORCE_POWERDOWN", ("node", "ack")),
    (9, "ABORT_SUSPEND", ("abort reason", "node")),
    (10, "REQUEST_WAKEUP", ("node", "low", "high", "ack")),
    (11, "SET_WAKEUP_SOURCE", ("node", "node", "enable")),
    (12, "SYSTEM_SHUTDOWN", ("shutdown type", "shutdown subtype")),
    (13, "REQUEST_NODE", ("node", "capabilities", "qos", "ack")),
    (14, "RELEASE_NODE", ("node",)),
    (15, "SET_REQUIREMENT", ("node", "capabilities", "qos", "ack")),
    (16, "SET_MAX_LATENCY", ("node", "latency")),
    (17, "RESET_ASSERT", ("line", "reset action")),
    (18, "RESET_GET_STATUS", ("line",)),
    (19, "MMIO_WRITE", None),
    (20, "MMIO_READ", None),
    (21, "INIT_FINALIZE", ()),
    (22, "FPGA_LOAD", None),
    (23, "FPGA_GET_STATUS", None),
    (24, "GET_CHIPID", None),
    (25, "SECURE_RSA_AES", None),
    (26, "SECURE_SHA", None),
    (27, "SECURE_RSA", None),
    (28, "PINCTRL_REQUEST", None),
    (29, "PINCTRL_RELEASE", None),
    (30, "PINCTRL_GET_FUNCTION", None),
    (31, "PINCTRL_SET_FUNCTION", None),
    (32, "PINCTRL_CONFIG_PARAM_GET", None),
    (33, "PINCTRL_CONFIG_PARAM_SET", None),
    (34, "IOCTL", None),
    (35, "QUERY_DATA", None),
    (36, "CLOCK_ENABLE", ("clock",)),
    (37, "CLOCK_DISABLE", ("clock",)),
    (38, "CLOCK_GETSTATE", ("clock",)),
    (39, "CLOCK_SETDIVIDER", ("clock", "divider")),
    (40, "CLOCK_GETDIVIDER", ("clock",)),
    (41, "CLOCK_SETRATE", None),
    (42, "CLOCK_GETRATE", None),
    (43, "CLOCK_SETPARENT", ("clock", "parent index")),
    (44, "CLOCK_GETPARENT", ("clock",)),
    (45, "SECURE_IMAGE", None),
    (46, "FPGA_READ", None),
    (47, "SECURE_AES", None),
    (48, "PLL_SET_PARAMETER", None),
    (49, "PLL_GET_PARAMETER", None),
    (50, "PLL_SET_MODE", None),
    (51, "PLL_GET_MODE", None),
    (52, "REGISTER_ACCESS", None),
    (53, "EFUSE_ACCESS", None),
    (63, "FEATURE_CHECK", None),
]

CALLS = {row[0]: Call(*row) for row in _CALLS}

CALLBACKS = {
    30: Call(30, "INIT_SUSPEND_CB", ("suspend reason", "latency", "state", "timeout")),
    31: Call(31, "ACKNOWLEDGE_CB", ("node", "status", "operating point")),
    32: Call(32, "NOTIFY_CB", ("node", "event", "operating point")),
}

STATUSES = {
    0: "SUCCESS",
    1: "FAILURE",
    15: "INVALID_PARAMETER",
    19: "NO_FEATURE",
    2000: "INTERNAL",
    2001: "CONFLICT",
    2002: "NO_ACCESS",
    2003: "INVALID_NODE",
    2004: "DOUBLE_REQUEST",
    2005: "ABORT_SUSPEND",
    2006: "TIMEOUT",
    2007: "NODE_USED",
}

CAPABILITIES = {1: "ACCESS", 2: "CONTEXT", 4: "WAKEUP"}

# Words of arguments and records that have names, by what they mean. Nodes and reset lines have tables of their own.
WORDS = {
    "capabilities": CAPABILITIES,
    "ack": {1: "NO", 2: "BLOCKING", 3: "NON_BLOCKING"},
    "characteristic": {1: "POWER", 2: "TEMP", 3: "LATENCY"},
    "event": {1: "STATE_CHANGE", 2: "ZERO_USERS"},
    "abort reason": {100: "WKUP_EVENT", 101: "PU_BUSY", 102: "NO_PWRDN", 103: "UNKNOWN"},
    "suspend reason": {201: "PU_REQ"},
    "shutdown type": {0: "SHUTDOWN", 1: "RESET", 2: "SETSCOPE_ONLY"},
    "shutdown subtype": {0: "SUBSYSTEM", 1: "PS_ONLY", 2: "SYSTEM"},
    "reset action": {0: "RELEASE", 1: "ASSERT", 2: "PULSE"},
    "slave flags": {1: "SHAREABLE"},
    "use flags": {2: "IN_USE"},
    "status": STATUSES,
    "function": {
        0x84000002: "CPU_OFF",
        0x84000003: "CPU_ON",
        0xC4000003: "CPU_ON_64",
        0x84000004: "AFFINITY_INFO",
        0xC4000004: "AFFINITY_INFO_64",
        0x84000008: "SYSTEM_OFF",
        0x84000009: "SYSTEM_RESET",
    },
}

# Kinds of words that are sets of bits; a set may be written `ACCESS|CONTEXT`.
SETS = ("capabilities", "slave flags", "use flags")

# The published reset lines, from 1000 on. The table of the chip has none of them: its line n resets node n.
FIRST_RESET = 1000

_RESETS = """
PCIE_CFG PCIE_BRIDGE PCIE_CTRL DP SWDT_CRF AFI_FM5 AFI_FM4 AFI_FM3 AFI_FM2 AFI_FM1
AFI_FM0 GDMA GPU_PP1 GPU_PP0 GPU GT SATA ACPU3_PWRON ACPU2_PWRON ACPU1_PWRON
ACPU0_PWRON APU_L2 ACPU3 ACPU2 ACPU1 ACPU0 DDR APM_FPD SOFT GEM0
GEM1 GEM2 GEM3 QSPI UART0 UART1 SPI0 SPI1 SDIO0 SDIO1
CAN0 CAN1 I2C0 I2C1 TTC0 TTC1 TTC2 TTC3 SWDT_CRL NAND
ADMA GPIO IOU_CC TIMESTAMP RPU_R50 RPU_R51 RPU_AMBA OCM RPU_PGE USB0_CORERESET
USB1_CORERESET USB0_HIBERRESET USB1_HIBERRESET USB0_APB USB1_APB IPI APM_LPD RTC SYSMON AFI_FM6
LPD_SWDT FPD RPU_DBG1 RPU_DBG0 DBG_LPD DBG_FPD APLL DPLL VPLL IOPLL
RPLL GPO3_PL_0 GPO3_PL_1 GPO3_PL_2 GPO3_PL_3 GPO3_PL_4 GPO3_PL_5 GPO3_PL_6 GPO3_PL_7 GPO3_PL_8
GPO3_PL_9 GPO3_PL_10 GPO3_PL_11 GPO3_PL_12 GPO3_PL_13 GPO3_PL_14 GPO3_PL_15 GPO3_PL_16 GPO3_PL_17 GPO3_PL_18
GPO3_PL_19 GPO3_PL_20 GPO3_PL_21 GPO3_PL_22 GPO3_PL_23 GPO3_PL_24 GPO3_PL_25 GPO3_PL_26 GPO3_PL_27 GPO3_PL_28
GPO3_PL_29 GPO3_PL_30 GPO3_PL_31 RPU_LS PS_ONLY PL PS_PL0 PS_PL1 PS_PL2 PS_PL3
"""

RESETS = {FIRST_RESET + place: name for place, name in enumerate(_RESETS.split())}

# What a name that is read may have before it. Reset lines are written with the first one, since the names of many
# are those of nodes too.
PREFIXES = {
    "node": ("NODE_", "PD_"),
    "reset": ("RESET_", "XILPM_RESET_", "ZYNQMP_RESET_"),
    "call": ("PM_",),
    "capabilities": ("PM_CAP_", "ZYNQMP_PM_CAPABILITY_", "CAP_"),
    "ack": ("REQUEST_ACK_", "ZYNQMP_PM_REQUEST_ACK_", "REQ_ACK_"),
    "event": ("EVENT_",),
    "abort reason": ("ABORT_REASON_",),
    "reset action": ("PM_RESET_ACTION_", "XILPM_RESET_ACTION_", "RESET_ACTION_"),
    "shutdown type": ("PMF_SHUTDOWN_TYPE_", "ZYNQMP_PM_SHUTDOWN_TYPE_"),
    "shutdown subtype": ("PMF_SHUTDOWN_SUBTYPE_", "ZYNQMP_PM_SHUTDOWN_SUBTYPE_"),
    "function": ("PSCI_",),
}

# Other names for the same, as Linux or TF-A have them.
ALIASES = {
    "function": {f"{name}_AARCH{bits}": name + "_64" * (bits == 64) for name in ("CPU_ON", "AFFINITY_INFO") for bits in (32, 64)},
    "node": {
        **{f"OCM_{k}": f"OCM_BANK_{k}" for k in range(4)},
        **{f"R5_{core}_{bank}TCM": f"TCM_{core}_{bank}" for core in range(2) for bank in "AB"},
    },
    "reset": {f"GPIO5_EMIO_{92 + k}": f"PS_PL{k}" for k in range(4)},
    "call": {
        "PM_INIT_FINALIZE": "INIT_FINALIZE",
        "REQ_SUSPEND": "REQUEST_SUSPEND",
        "REQ_WAKEUP": "REQUEST_WAKEUP",
        "REQ_NODE": "REQUEST_NODE",
    },
    "slave flags": {"PM_SLAVE_FLAG_IS_SHAREABLE": "SHAREABLE"},
    "use flags": {"PM_MASTER_USING_SLAVE_MASK": "IN_USE"},
}


def is_line(number: int) -> bool:
    """Whether the chip's own topology has the reset line; it has the number of a node."""
    return number in CHIP.lines


def node_name(number: int) -> str:
    """The name of a node, or its number in words."""
    return NODES[number].name if number in NODES else f"node {number}"


def line_name(number: int) -> str:
    """The name of a reset line: of the table's line n the node n, and of a published one its own."""
    if number in RESETS:
        return PREFIXES["reset"][0] + RESETS[number]
    return NODES[number].name if is_line(number) else f"line {number}"


def is_root(number: int) -> bool:
    """Whether a clock is a root: it runs if its PLL does, and no call changes it."""
    return number in CLOCKS and not CLOCKS[number].parents


def clock_name(number: int) -> str:
    """The name of a clock: that of its node."""
    return NODES[CLOCKS[number].node].name if number in CLOCKS else str(number)


def clock_words(number: int) -> str:
    """A clock in plain words: a root is the name of its PLL."""
    name = clock_name(number)
    return name if is_root(number) else f"the clock of {name}" if number in CLOCKS else f"clock {number}"


def call_name(number: int) -> str:
    """The name of a call, or its number in words."""
    return CALLS[number].name if number in CALLS else f"call {number}"


def arguments_of(calls: dict[int, Call], number: int) -> tuple[str, ...]:
    """What the words of a call or a callback mean; of one that isn't served nothing is known."""
    call = calls.get(number)
    return call.arguments or () if call else ()


def callback_name(number: int) -> str:
    """The name of a callback, or its number in words."""
    return CALLBACKS[number].name if number in CALLBACKS else f"callback {number}"


def status_words(number: int) -> str:
    """A status in plain words: `no access` is 2002."""
    return STATUSES[number].lower().replace("_", " ") if number in STATUSES else f"status {number}"


def set_name(kind: str, word: int) -> str:
    """A set of bits as names, `ACCESS|CONTEXT`; 0 stays a number."""
    table = WORDS[kind]
    rest = word & ~sum(table)
    return "|".join([name for bit, name in table.items() if word & bit] + [hex(rest)] * (rest != 0)) or "0"


def capabilities(word: int) -> str:
    """A set of capabilities as names."""
    return set_name("capabilities", word)


def state_name(number: int, value: int) -> str:
    """The state of a slave, processor or power node by its value: `off`, `retention`, `on`."""
    return CHIP.kept_name(number, value)


def word_name(kind: str, word: int) -> str:
    """A word of an argument by its name, or the number if it has none."""
    if kind in SETS:
        return set_name(kind, word)
    if kind == "node":
        return NODES[word].name if word in NODES else str(word)
    if kind == "line":
        return line_name(word) if word in RESETS or is_line(word) else str(word)
    if kind == "clock":
        return clock_name(word)
    return WORDS.get(kind, {}).get(word, str(word))


def _numbers(kind: str) -> dict[str, int]:
    """Of a kind of name: each name with its number."""
    if kind == "node":
        return {node.name: node.number for node in NODES.values()}
    if kind == "reset":
        return {name: number for number, name in RESETS.items()}
    if kind == "call":
        return {call.name: call.number for call in CALLS.values()}
    if kind == "clock":
        return {clock_name(number): number for number in CLOCKS}
    return {name: number for number, name in WORDS.get(kind, {}).items()}


_BY_NAME = {kind: _numbers(kind) for kind in ("node", "reset", "call", "clock", *WORDS)}


def number_of(kind: str, name: str) -> Optional[int]:
    """The number that a name of a kind has, with or without a prefix; None if there is none."""
    if kind == "line":
        if name.startswith(PREFIXES["reset"]):
            return number_of("reset", name)
        number = number_of("node", name)
        return number if number is not None and is_line(number) else None
    numbers, others = _BY_NAME.get(kind, {}), ALIASES.get("node" if kind == "clock" else kind, {})
    for prefix in ("", *PREFIXES.get("node" if kind == "clock" else kind, ())):
        if name.startswith(prefix):
            rest = name[len(prefix) :]
            rest = others.get(rest, rest)
            if rest in numbers:
                return numbers[rest]
    return None
