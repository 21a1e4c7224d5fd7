"""The constants of the interface, for programs that use pmu.py: what messages and answers are made of. Numbers of calls,
callbacks, statuses, nodes, published reset lines and arguments follow Xilinx UG1200 and UG1137, power calls Arm DEN0022;
clocks have numbers of this project's own.

Written from the table of names of the views, which a test compares with it. Each group is one enumeration.
"""

from enum import IntEnum, IntFlag


class Master(IntEnum):
    """Masters: who sends a message."""

    APU = 1
    RPU = 6
    RPU_0 = 7
    RPU_1 = 8


class Call(IntEnum):
    """Calls that this profile serves; any other number is answered Status.NO_FEATURE."""

    GET_API_VERSION = 1
    SET_CONFIGURATION = 2
    GET_NODE_STATUS = 3
    GET_OP_CHARACTERISTIC = 4
    REGISTER_NOTIFIER = 5
    REQUEST_SUSPEND = 6
    SELF_SUSPEND = 7
    FORCE_POWERDOWN = 8
    ABORT_SUSPEND = 9
    REQUEST_WAKEUP = 10
    SET_WAKEUP_SOURCE = 11
    SYSTEM_SHUTDOWN = 12
    REQUEST_NODE = 13
    RELEASE_NODE = 14
    SET_REQUIREMENT = 15
    SET_MAX_LATENCY = 16
    RESET_ASSERT = 17
    RESET_GET_STATUS = 18
    INIT_FINALIZE = 21
    CLOCK_ENABLE = 36
    CLOCK_DISABLE = 37
    CLOCK_GETSTATE = 38
    CLOCK_SETDIVIDER = 39
    CLOCK_GETDIVIDER = 40
    CLOCK_SETPARENT = 43
    CLOCK_GETPARENT = 44


class Callback(IntEnum):
    """Callbacks: the first word of what the core sends to a master by itself."""

    INIT_SUSPEND = 30
    ACKNOWLEDGE = 31
    NOTIFY = 32


class Status(IntEnum):
    """Statuses: the first word of an answer."""

    SUCCESS = 0
    FAILURE = 1
    INVALID_PARAMETER = 15
    NO_FEATURE = 19
    INTERNAL = 2000
    CONFLICT = 2001
    NO_ACCESS = 2002
    INVALID_NODE = 2003
    DOUBLE_REQUEST = 2004
    ABORT_SUSPEND = 2005
    TIMEOUT = 2006
    NODE_USED = 2007


class Node(IntEnum):
    """Nodes: power nodes, processors and slaves."""

    APU = 1
    APU_0 = 2
    APU_1 = 3
    APU_2 = 4
    APU_3 = 5
    RPU = 6
    RPU_0 = 7
    RPU_1 = 8
    PLD = 9
    FPD = 10
    OCM_BANK_0 = 11
    OCM_BANK_1 = 12
    OCM_BANK_2 = 13
    OCM_BANK_3 = 14
    TCM_0_A = 15
    TCM_0_B = 16
    TCM_1_A = 17
    TCM_1_B = 18
    L2 = 19
    GPU_PP_0 = 20
    GPU_PP_1 = 21
    USB_0 = 22
    USB_1 = 23
    TTC_0 = 24
    TTC_1 = 25
    TTC_2 = 26
    TTC_3 = 27
    SATA = 28
    ETH_0 = 29
    ETH_1 = 30
    ETH_2 = 31
    ETH_3 = 32
    UART_0 = 33
    UART_1 = 34
    SPI_0 = 35
    SPI_1 = 36
    I2C_0 = 37
    I2C_1 = 38
    SD_0 = 39
    SD_1 = 40
    DP = 41
    GDMA = 42
    ADMA = 43
    NAND = 44
    QSPI = 45
    GPIO = 46
    CAN_0 = 47
    CAN_1 = 48
    EXTERN = 49
    APLL = 50
    VPLL = 51
    DPLL = 52
    RPLL = 53
    IOPLL = 54
    DDR = 55
    IPI_APU = 56
    IPI_RPU_0 = 57
    GPU = 58
    PCIE = 59
    PCAP = 60
    RTC = 61
    LPD = 62
    VCU = 63
    IPI_RPU_1 = 64
    IPI_PL_0 = 65
    IPI_PL_1 = 66
    IPI_PL_2 = 67
    IPI_PL_3 = 68
    PL = 69


class Mode(IntEnum):
    """Modes of a processor."""

    OFF = 0
    ACTIVE = 1
    ASLEEP = 2
    SUSPENDING = 3


class Capability(IntFlag):
    """Capabilities: bits of a requirement and of a state."""

    ACCESS = 1
    CONTEXT = 2
    WAKEUP = 4


class Ack(IntEnum):
    """Acknowledge kinds: how a call is answered."""

    NO = 1
    BLOCKING = 2
    NON_BLOCKING = 3


class Characteristic(IntEnum):
    """What GET_OP_CHARACTERISTIC asks for."""

    POWER = 1
    TEMP = 2
    LATENCY = 3


class Event(IntEnum):
    """Events of a node."""

    STATE_CHANGE = 1
    ZERO_USERS = 2


class Abort(IntEnum):
    """Reasons of ABORT_SUSPEND."""

    WKUP_EVENT = 100
    PU_BUSY = 101
    NO_PWRDN = 102
    UNKNOWN = 103


class ShutdownType(IntEnum):
    """Types of SYSTEM_SHUTDOWN."""

    SHUTDOWN = 0
    RESET = 1
    SETSCOPE_ONLY = 2


class ShutdownSubtype(IntEnum):
    """Its subtypes."""

    SUBSYSTEM = 0
    PS_ONLY = 1
    SYSTEM = 2


class ResetAction(IntEnum):
    """Actions of RESET_ASSERT."""

    RELEASE = 0
    ASSERT = 1
    PULSE = 2


class Reset(IntEnum):
    """Published reset lines, which a topology has to have. Without one, line n resets node n."""

    PCIE_CFG = 1000
    PCIE_BRIDGE = 1001
    PCIE_CTRL = 1002
    DP = 1003
    SWDT_CRF = 1004
    AFI_FM5 = 1005
    AFI_FM4 = 1006
    AFI_FM3 = 1007
    AFI_FM2 = 1008
    AFI_FM1 = 1009
    AFI_FM0 = 1010
    GDMA = 1011
    GPU_PP1 = 1012
    GPU_PP0 = 1013
    GPU = 1014
    GT = 1015
    SATA = 1016
    ACPU3_PWRON = 1017
    ACPU2_PWRON = 1018
    ACPU1_PWRON = 1019
    ACPU0_PWRON = 1020
    APU_L2 = 1021
    ACPU3 = 1022
    ACPU2 = 1023
    ACPU1 = 1024
    ACPU0 = 1025
    DDR = 1026
    APM_FPD = 1027
    SOFT = 1028
    GEM0 = 1029
    GEM1 = 1030
    GEM2 = 1031
    GEM3 = 1032
    QSPI = 1033
    UART0 = 1034
    UART1 = 1035
    SPI0 = 1036
    SPI1 = 1037
    SDIO0 = 1038
    SDIO1 = 1039
    CAN0 = 1040
    CAN1 = 1041
    I2C0 = 1042
    I2C1 = 1043
    TTC0 = 1044
    TTC1 = 1045
    TTC2 = 1046
    TTC3 = 1047
    SWDT_CRL = 1048
    NAND = 1049
    ADMA = 1050
    GPIO = 1051
    IOU_CC = 1052
    TIMESTAMP = 1053
    RPU_R50 = 1054
    RPU_R51 = 1055
    RPU_AMBA = 1056
    OCM = 1057
    RPU_PGE = 1058
    USB0_CORERESET = 1059
    USB1_CORERESET = 1060
    USB0_HIBERRESET = 1061
    USB1_HIBERRESET = 1062
    USB0_APB = 1063
    USB1_APB = 1064
    IPI = 1065
    APM_LPD = 1066
    RTC = 1067
    SYSMON = 1068
    AFI_FM6 = 1069
    LPD_SWDT = 1070
    FPD = 1071
    RPU_DBG1 = 1072
    RPU_DBG0 = 1073
    DBG_LPD = 1074
    DBG_FPD = 1075
    APLL = 1076
    DPLL = 1077
    VPLL = 1078
    IOPLL = 1079
    RPLL = 1080
    GPO3_PL_0 = 1081
    GPO3_PL_1 = 1082
    GPO3_PL_2 = 1083
    GPO3_PL_3 = 1084
    GPO3_PL_4 = 1085
    GPO3_PL_5 = 1086
    GPO3_PL_6 = 1087
    GPO3_PL_7 = 1088
    GPO3_PL_8 = 1089
    GPO3_PL_9 = 1090
    GPO3_PL_10 = 1091
    GPO3_PL_11 = 1092
    GPO3_PL_12 = 1093
    GPO3_PL_13 = 1094
    GPO3_PL_14 = 1095
    GPO3_PL_15 = 1096
    GPO3_PL_16 = 1097
    GPO3_PL_17 = 1098
    GPO3_PL_18 = 1099
    GPO3_PL_19 = 1100
    GPO3_PL_20 = 1101
    GPO3_PL_21 = 1102
    GPO3_PL_22 = 1103
    GPO3_PL_23 = 1104
    GPO3_PL_24 = 1105
    GPO3_PL_25 = 1106
    GPO3_PL_26 = 1107
    GPO3_PL_27 = 1108
    GPO3_PL_28 = 1109
    GPO3_PL_29 = 1110
    GPO3_PL_30 = 1111
    GPO3_PL_31 = 1112
    RPU_LS = 1113
    PS_ONLY = 1114
    PL = 1115
    PS_PL0 = 1116
    PS_PL1 = 1117
    PS_PL2 = 1118
    PS_PL3 = 1119


class Clock(IntEnum):
    """Clocks; the first five are roots."""

    APLL = 0
    VPLL = 1
    DPLL = 2
    RPLL = 3
    IOPLL = 4
    UART_0 = 5
    UART_1 = 6
    SATA = 7
    SD_0 = 8
    SD_1 = 9
    ETH_0 = 10
    DDR = 11
    DP = 12
    GPU = 13
    TTC_0 = 14
    TTC_1 = 15


class Psci(IntEnum):
    """Functions of PSCI: the second argument of a power call."""

    CPU_OFF = 0x84000002
    CPU_ON = 0x84000003
    CPU_ON_64 = 0xc4000003
    AFFINITY_INFO = 0x84000004
    AFFINITY_INFO_64 = 0xc4000004
    SYSTEM_OFF = 0x84000008
    SYSTEM_RESET = 0x84000009
