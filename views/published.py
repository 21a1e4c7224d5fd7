"""The published numbers of clocks (include/dt-bindings/clock/xlnx-zynqmp-clk.h of Linux 6.1), and which of them are
clocks of this core, that has numbers of its own.
"""

from typing import Optional

NAMES = """
IOPLL RPLL APLL DPLL VPLL IOPLL_TO_FPD RPLL_TO_FPD APLL_TO_LPD DPLL_TO_LPD VPLL_TO_LPD ACPU ACPU_HALF DBF_FPD DBF_LPD
DBG_TRACE DBG_TSTMP DP_VIDEO_REF DP_AUDIO_REF DP_STC_REF GDMA_REF DPDMA_REF DDR_REF SATA_REF PCIE_REF GPU_REF
GPU_PP0_REF GPU_PP1_REF TOPSW_MAIN TOPSW_LSBUS GTGREF0_REF LPD_SWITCH LPD_LSBUS USB0_BUS_REF USB1_BUS_REF
USB3_DUAL_REF USB0 USB1 CPU_R5 CPU_R5_CORE CSU_SPB CSU_PLL PCAP IOU_SWITCH GEM_TSU_REF GEM_TSU GEM0_TX GEM1_TX GEM2_TX
GEM3_TX GEM0_RX GEM1_RX GEM2_RX GEM3_RX QSPI_REF SDIO0_REF SDIO1_REF UART0_REF UART1_REF SPI0_REF SPI1_REF NAND_REF
I2C0_REF I2C1_REF CAN0_REF CAN1_REF CAN0 CAN1 DLL_REF ADMA_REF TIMESTAMP_REF AMS_REF PL0_REF PL1_REF PL2_REF PL3_REF
WDT IOPLL_INT IOPLL_PRE_SRC IOPLL_HALF IOPLL_INT_MUX IOPLL_POST_SRC RPLL_INT RPLL_PRE_SRC RPLL_HALF RPLL_INT_MUX
RPLL_POST_SRC APLL_INT APLL_PRE_SRC APLL_HALF APLL_INT_MUX APLL_POST_SRC DPLL_INT DPLL_PRE_SRC DPLL_HALF DPLL_INT_MUX
DPLL_POST_SRC VPLL_INT VPLL_PRE_SRC VPLL_HALF VPLL_INT_MUX VPLL_POST_SRC CAN0_MIO CAN1_MIO ACPU_FULL GEM0_REF GEM1_REF
GEM2_REF GEM3_REF GEM0_REF_UNG GEM1_REF_UNG GEM2_REF_UNG GEM3_REF_UNG LPD_WDT
""".split()

NUMBERS = {name: number for number, name in enumerate(NAMES)}

# The published clocks that feed what a clock of this core feeds, by the core's numbers.
_SAME = "APLL VPLL DPLL RPLL IOPLL UART0_REF UART1_REF SATA_REF SDIO0_REF SDIO1_REF GEM0_REF DDR_REF DP_VIDEO_REF GPU_REF".split()
OURS = {NUMBERS[name]: number for number, name in enumerate(_SAME)}


def name_of(number: int) -> str:
    """The published name of a published number."""
    return NAMES[number] if number < len(NAMES) else str(number)


def ours_of(name: str) -> Optional[int]:
    """The published number of a clock that the kernel calls `uart0_ref`, if this core has that clock."""
    number = NUMBERS.get(name.upper())
    return number if number in OURS else None
