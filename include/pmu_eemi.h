/* The constants of the interface, for programs that use pmu.h: what messages and answers are made of. Numbers of calls,
 * callbacks, statuses, nodes, published reset lines and arguments follow Xilinx UG1200 and UG1137, power calls Arm
 * DEN0022; clocks have numbers of this project's own.
 *
 * Written from the table of names of the views, which a test compares with it. Each group is one enumeration.
 */
#ifndef PMU_EEMI_H
#define PMU_EEMI_H

#include <stdint.h>

/* Masters: who sends a message. */
enum {
    PMU_MASTER_APU   = 1,
    PMU_MASTER_RPU   = 6,
    PMU_MASTER_RPU_0 = 7,
    PMU_MASTER_RPU_1 = 8
};

/* Calls that this profile serves; any other number is answered PMU_STATUS_NO_FEATURE. */
enum {
    PMU_CALL_GET_API_VERSION       = 1,
    PMU_CALL_SET_CONFIGURATION     = 2,
    PMU_CALL_GET_NODE_STATUS       = 3,
    PMU_CALL_GET_OP_CHARACTERISTIC = 4,
    PMU_CALL_REGISTER_NOTIFIER     = 5,
    PMU_CALL_REQUEST_SUSPEND       = 6,
    PMU_CALL_SELF_SUSPEND          = 7,
    PMU_CALL_FORCE_POWERDOWN       = 8,
    PMU_CALL_ABORT_SUSPEND         = 9,
    PMU_CALL_REQUEST_WAKEUP        = 10,
    PMU_CALL_SET_WAKEUP_SOURCE     = 11,
    PMU_CALL_SYSTEM_SHUTDOWN       = 12,
    PMU_CALL_REQUEST_NODE          = 13,
    PMU_CALL_RELEASE_NODE          = 14,
    PMU_CALL_SET_REQUIREMENT       = 15,
    PMU_CALL_SET_MAX_LATENCY       = 16,
    PMU_CALL_RESET_ASSERT          = 17,
    PMU_CALL_RESET_GET_STATUS      = 18,
    PMU_CALL_INIT_FINALIZE         = 21,
    PMU_CALL_CLOCK_ENABLE          = 36,
    PMU_CALL_CLOCK_DISABLE         = 37,
    PMU_CALL_CLOCK_GETSTATE        = 38,
    PMU_CALL_CLOCK_SETDIVIDER      = 39,
    PMU_CALL_CLOCK_GETDIVIDER      = 40,
    PMU_CALL_CLOCK_SETPARENT       = 43,
    PMU_CALL_CLOCK_GETPARENT       = 44
};

/* Callbacks: the first word of what the core sends to a master by itself. */
enum {
    PMU_CALLBACK_INIT_SUSPEND = 30,
    PMU_CALLBACK_ACKNOWLEDGE  = 31,
    PMU_CALLBACK_NOTIFY       = 32
};

/* Statuses: the first word of an answer. */
enum {
    PMU_STATUS_SUCCESS           = 0,
    PMU_STATUS_FAILURE           = 1,
    PMU_STATUS_INVALID_PARAMETER = 15,
    PMU_STATUS_NO_FEATURE        = 19,
    PMU_STATUS_INTERNAL          = 2000,
    PMU_STATUS_CONFLICT          = 2001,
    PMU_STATUS_NO_ACCESS         = 2002,
    PMU_STATUS_INVALID_NODE      = 2003,
    PMU_STATUS_DOUBLE_REQUEST    = 2004,
    PMU_STATUS_ABORT_SUSPEND     = 2005,
    PMU_STATUS_TIMEOUT           = 2006,
    PMU_STATUS_NODE_USED         = 2007
};

/* Nodes: power nodes, processors and slaves. */
enum {
    PMU_NODE_APU        = 1,
    PMU_NODE_APU_0      = 2,
    PMU_NODE_APU_1      = 3,
    PMU_NODE_APU_2      = 4,
    PMU_NODE_APU_3      = 5,
    PMU_NODE_RPU        = 6,
    PMU_NODE_RPU_0      = 7,
    PMU_NODE_RPU_1      = 8,
    PMU_NODE_PLD        = 9,
    PMU_NODE_FPD        = 10,
    PMU_NODE_OCM_BANK_0 = 11,
    PMU_NODE_OCM_BANK_1 = 12,
    PMU_NODE_OCM_BANK_2 = 13,
    PMU_NODE_OCM_BANK_3 = 14,
    PMU_NODE_TCM_0_A    = 15,
    PMU_NODE_TCM_0_B    = 16,
    PMU_NODE_TCM_1_A    = 17,
    PMU_NODE_TCM_1_B    = 18,
    PMU_NODE_L2         = 19,
    PMU_NODE_GPU_PP_0   = 20,
    PMU_NODE_GPU_PP_1   = 21,
    PMU_NODE_USB_0      = 22,
    PMU_NODE_USB_1      = 23,
    PMU_NODE_TTC_0      = 24,
    PMU_NODE_TTC_1      = 25,
    PMU_NODE_TTC_2      = 26,
    PMU_NODE_TTC_3      = 27,
    PMU_NODE_SATA       = 28,
    PMU_NODE_ETH_0      = 29,
    PMU_NODE_ETH_1      = 30,
    PMU_NODE_ETH_2      = 31,
    PMU_NODE_ETH_3      = 32,
    PMU_NODE_UART_0     = 33,
    PMU_NODE_UART_1     = 34,
    PMU_NODE_SPI_0      = 35,
    PMU_NODE_SPI_1      = 36,
    PMU_NODE_I2C_0      = 37,
    PMU_NODE_I2C_1      = 38,
    PMU_NODE_SD_0       = 39,
    PMU_NODE_SD_1       = 40,
    PMU_NODE_DP         = 41,
    PMU_NODE_GDMA       = 42,
    PMU_NODE_ADMA       = 43,
    PMU_NODE_NAND       = 44,
    PMU_NODE_QSPI       = 45,
    PMU_NODE_GPIO       = 46,
    PMU_NODE_CAN_0      = 47,
    PMU_NODE_CAN_1      = 48,
    PMU_NODE_EXTERN     = 49,
    PMU_NODE_APLL       = 50,
    PMU_NODE_VPLL       = 51,
    PMU_NODE_DPLL       = 52,
    PMU_NODE_RPLL       = 53,
    PMU_NODE_IOPLL      = 54,
    PMU_NODE_DDR        = 55,
    PMU_NODE_IPI_APU    = 56,
    PMU_NODE_IPI_RPU_0  = 57,
    PMU_NODE_GPU        = 58,
    PMU_NODE_PCIE       = 59,
    PMU_NODE_PCAP       = 60,
    PMU_NODE_RTC        = 61,
    PMU_NODE_LPD        = 62,
    PMU_NODE_VCU        = 63,
    PMU_NODE_IPI_RPU_1  = 64,
    PMU_NODE_IPI_PL_0   = 65,
    PMU_NODE_IPI_PL_1   = 66,
    PMU_NODE_IPI_PL_2   = 67,
    PMU_NODE_IPI_PL_3   = 68,
    PMU_NODE_PL         = 69
};

/* Modes of a processor. */
enum {
    PMU_MODE_OFF        = 0,
    PMU_MODE_ACTIVE     = 1,
    PMU_MODE_ASLEEP     = 2,
    PMU_MODE_SUSPENDING = 3
};

/* Capabilities: bits of a requirement and of a state. */
enum {
    PMU_CAPABILITY_ACCESS  = 1,
    PMU_CAPABILITY_CONTEXT = 2,
    PMU_CAPABILITY_WAKEUP  = 4
};

/* Acknowledge kinds: how a call is answered. */
enum {
    PMU_ACK_NO           = 1,
    PMU_ACK_BLOCKING     = 2,
    PMU_ACK_NON_BLOCKING = 3
};

/* What GET_OP_CHARACTERISTIC asks for. */
enum {
    PMU_CHARACTERISTIC_POWER   = 1,
    PMU_CHARACTERISTIC_TEMP    = 2,
    PMU_CHARACTERISTIC_LATENCY = 3
};

/* Events of a node. */
enum {
    PMU_EVENT_STATE_CHANGE = 1,
    PMU_EVENT_ZERO_USERS   = 2
};

/* Reasons of ABORT_SUSPEND. */
enum {
    PMU_ABORT_WKUP_EVENT = 100,
    PMU_ABORT_PU_BUSY    = 101,
    PMU_ABORT_NO_PWRDN   = 102,
    PMU_ABORT_UNKNOWN    = 103
};

/* Types of SYSTEM_SHUTDOWN. */
enum {
    PMU_SHUTDOWN_TYPE_SHUTDOWN      = 0,
    PMU_SHUTDOWN_TYPE_RESET         = 1,
    PMU_SHUTDOWN_TYPE_SETSCOPE_ONLY = 2
};

/* Its subtypes. */
enum {
    PMU_SHUTDOWN_SUBTYPE_SUBSYSTEM = 0,
    PMU_SHUTDOWN_SUBTYPE_PS_ONLY   = 1,
    PMU_SHUTDOWN_SUBTYPE_SYSTEM    = 2
};

/* Actions of RESET_ASSERT. */
enum {
    PMU_RESET_ACTION_RELEASE = 0,
    PMU_RESET_ACTION_ASSERT  = 1,
    PMU_RESET_ACTION_PULSE   = 2
};

/* Published reset lines, which a topology has to have. Without one, line n resets node n. */
enum {
    PMU_RESET_PCIE_CFG        = 1000,
    PMU_RESET_PCIE_BRIDGE     = 1001,
    PMU_RESET_PCIE_CTRL       = 1002,
    PMU_RESET_DP              = 1003,
    PMU_RESET_SWDT_CRF        = 1004,
    PMU_RESET_AFI_FM5         = 1005,
    PMU_RESET_AFI_FM4         = 1006,
    PMU_RESET_AFI_FM3         = 1007,
    PMU_RESET_AFI_FM2         = 1008,
    PMU_RESET_AFI_FM1         = 1009,
    PMU_RESET_AFI_FM0         = 1010,
    PMU_RESET_GDMA            = 1011,
    PMU_RESET_GPU_PP1         = 1012,
    PMU_RESET_GPU_PP0         = 1013,
    PMU_RESET_GPU             = 1014,
    PMU_RESET_GT              = 1015,
    PMU_RESET_SATA            = 1016,
    PMU_RESET_ACPU3_PWRON     = 1017,
    PMU_RESET_ACPU2_PWRON     = 1018,
    PMU_RESET_ACPU1_PWRON     = 1019,
    PMU_RESET_ACPU0_PWRON     = 1020,
    PMU_RESET_APU_L2          = 1021,
    PMU_RESET_ACPU3           = 1022,
    PMU_RESET_ACPU2           = 1023,
    PMU_RESET_ACPU1           = 1024,
    PMU_RESET_ACPU0           = 1025,
    PMU_RESET_DDR             = 1026,
    PMU_RESET_APM_FPD         = 1027,
    PMU_RESET_SOFT            = 1028,
    PMU_RESET_GEM0            = 1029,
    PMU_RESET_GEM1            = 1030,
    PMU_RESET_GEM2            = 1031,
    PMU_RESET_GEM3            = 1032,
    PMU_RESET_QSPI            = 1033,
    PMU_RESET_UART0           = 1034,
    PMU_RESET_UART1           = 1035,
    PMU_RESET_SPI0            = 1036,
    PMU_RESET_SPI1            = 1037,
    PMU_RESET_SDIO0           = 1038,
    PMU_RESET_SDIO1           = 1039,
    PMU_RESET_CAN0            = 1040,
    PMU_RESET_CAN1            = 1041,
    PMU_RESET_I2C0            = 1042,
    PMU_RESET_I2C1            = 1043,
    PMU_RESET_TTC0            = 1044,
    PMU_RESET_TTC1            = 1045,
    PMU_RESET_TTC2            = 1046,
    PMU_RESET_TTC3            = 1047,
    PMU_RESET_SWDT_CRL        = 1048,
    PMU_RESET_NAND            = 1049,
    PMU_RESET_ADMA            = 1050,
    PMU_RESET_GPIO            = 1051,
    PMU_RESET_IOU_CC          = 1052,
    PMU_RESET_TIMESTAMP       = 1053,
    PMU_RESET_RPU_R50         = 1054,
    PMU_RESET_RPU_R51         = 1055,
    PMU_RESET_RPU_AMBA        = 1056,
    PMU_RESET_OCM             = 1057,
    PMU_RESET_RPU_PGE         = 1058,
    PMU_RESET_USB0_CORERESET  = 1059,
    PMU_RESET_USB1_CORERESET  = 1060,
    PMU_RESET_USB0_HIBERRESET = 1061,
    PMU_RESET_USB1_HIBERRESET = 1062,
    PMU_RESET_USB0_APB        = 1063,
    PMU_RESET_USB1_APB        = 1064,
    PMU_RESET_IPI             = 1065,
    PMU_RESET_APM_LPD         = 1066,
    PMU_RESET_RTC             = 1067,
    PMU_RESET_SYSMON          = 1068,
    PMU_RESET_AFI_FM6         = 1069,
    PMU_RESET_LPD_SWDT        = 1070,
    PMU_RESET_FPD             = 1071,
    PMU_RESET_RPU_DBG1        = 1072,
    PMU_RESET_RPU_DBG0        = 1073,
    PMU_RESET_DBG_LPD         = 1074,
    PMU_RESET_DBG_FPD         = 1075,
    PMU_RESET_APLL            = 1076,
    PMU_RESET_DPLL            = 1077,
    PMU_RESET_VPLL            = 1078,
    PMU_RESET_IOPLL           = 1079,
    PMU_RESET_RPLL            = 1080,
    PMU_RESET_GPO3_PL_0       = 1081,
    PMU_RESET_GPO3_PL_1       = 1082,
    PMU_RESET_GPO3_PL_2       = 1083,
    PMU_RESET_GPO3_PL_3       = 1084,
    PMU_RESET_GPO3_PL_4       = 1085,
    PMU_RESET_GPO3_PL_5       = 1086,
    PMU_RESET_GPO3_PL_6       = 1087,
    PMU_RESET_GPO3_PL_7       = 1088,
    PMU_RESET_GPO3_PL_8       = 1089,
    PMU_RESET_GPO3_PL_9       = 1090,
    PMU_RESET_GPO3_PL_10      = 1091,
    PMU_RESET_GPO3_PL_11      = 1092,
    PMU_RESET_GPO3_PL_12      = 1093,
    PMU_RESET_GPO3_PL_13      = 1094,
    PMU_RESET_GPO3_PL_14      = 1095,
    PMU_RESET_GPO3_PL_15      = 1096,
    PMU_RESET_GPO3_PL_16      = 1097,
    PMU_RESET_GPO3_PL_17      = 1098,
    PMU_RESET_GPO3_PL_18      = 1099,
    PMU_RESET_GPO3_PL_19      = 1100,
    PMU_RESET_GPO3_PL_20      = 1101,
    PMU_RESET_GPO3_PL_21      = 1102,
    PMU_RESET_GPO3_PL_22      = 1103,
    PMU_RESET_GPO3_PL_23      = 1104,
    PMU_RESET_GPO3_PL_24      = 1105,
    PMU_RESET_GPO3_PL_25      = 1106,
    PMU_RESET_GPO3_PL_26      = 1107,
    PMU_RESET_GPO3_PL_27      = 1108,
    PMU_RESET_GPO3_PL_28      = 1109,
    PMU_RESET_GPO3_PL_29      = 1110,
    PMU_RESET_GPO3_PL_30      = 1111,
    PMU_RESET_GPO3_PL_31      = 1112,
    PMU_RESET_RPU_LS          = 1113,
    PMU_RESET_PS_ONLY         = 1114,
    PMU_RESET_PL              = 1115,
    PMU_RESET_PS_PL0          = 1116,
    PMU_RESET_PS_PL1          = 1117,
    PMU_RESET_PS_PL2          = 1118,
    PMU_RESET_PS_PL3          = 1119
};

/* Clocks; the first five are roots. */
enum {
    PMU_CLOCK_APLL   = 0,
    PMU_CLOCK_VPLL   = 1,
    PMU_CLOCK_DPLL   = 2,
    PMU_CLOCK_RPLL   = 3,
    PMU_CLOCK_IOPLL  = 4,
    PMU_CLOCK_UART_0 = 5,
    PMU_CLOCK_UART_1 = 6,
    PMU_CLOCK_SATA   = 7,
    PMU_CLOCK_SD_0   = 8,
    PMU_CLOCK_SD_1   = 9,
    PMU_CLOCK_ETH_0  = 10,
    PMU_CLOCK_DDR    = 11,
    PMU_CLOCK_DP     = 12,
    PMU_CLOCK_GPU    = 13,
    PMU_CLOCK_TTC_0  = 14,
    PMU_CLOCK_TTC_1  = 15
};

/* Functions of PSCI: the second argument of a power call, the word behind `smc P` in a script. */
#define PMU_PSCI_CPU_OFF          UINT32_C(0x84000002)
#define PMU_PSCI_CPU_ON           UINT32_C(0x84000003)
#define PMU_PSCI_CPU_ON_64        UINT32_C(0xC4000003)
#define PMU_PSCI_AFFINITY_INFO    UINT32_C(0x84000004)
#define PMU_PSCI_AFFINITY_INFO_64 UINT32_C(0xC4000004)
#define PMU_PSCI_SYSTEM_OFF       UINT32_C(0x84000008)
#define PMU_PSCI_SYSTEM_RESET     UINT32_C(0x84000009)

#endif
