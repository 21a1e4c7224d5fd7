"""What a reset line resets on the chip: all of it.

A line of a topology resets one unit at most. Of the published lines (UG1200) some reset more on the chip: those are here,
each with the bit that it is in the registers, and where that is published. So a master that may reset RPU_LS alone can stop
both processors of the RPU, which the reach of the program doesn't have.

What a bit resets is by the register reference (UG1087) and by UG1085, "Reset System", from memory; where it isn't certain, it
is all that it may be, so that too much is judged rather than too little. GT is each unit that may have a lane. APU_L2, RPU_AMBA
and RPU_PGE are all of their processors and memories. IPI is the interrupts of all agents. A line of which nothing is known here,
and that resets no node, isn't judged by any rule, which has a status of its own.
"""

from typing import TYPE_CHECKING, NamedTuple

import names

if TYPE_CHECKING:
    from chip import Chip

APU, RPU, PLD, FPD, LPD = 1, 6, 9, 10, 62

OCM_BANKS, PIXEL_PROCESSORS = (11, 12, 13, 14), (20, 21)
# What may have lanes of the transceivers: the USB and Ethernet controllers, SATA, DP and PCIE.
WITH_LANES = (22, 23, 29, 30, 31, 32, 28, 41, 59)
# The interrupts between processors, of each agent.
INTERRUPTS = (56, 57, 64, 65, 66, 67, 68)

# The register reference, from memory: no published source that a distribution has names the register or its field.
REFERENCE = "UG1087, from memory"


class Effect(NamedTuple):
    """What a published reset line resets."""

    bit: str  # a register and its field, or where it is published
    units: tuple[int, ...]  # nodes; of a power node all that is below
    register_in: str = REFERENCE  # where the register is published: REFERENCE, or a macro of TF-A's zynqmp_def.h
    field_in: str = REFERENCE  # where the field is


EFFECTS = {
    "GPU": Effect("CRF_APB.RST_FPD_TOP gpu_reset", PIXEL_PROCESSORS),
    "GT": Effect("CRF_APB.RST_FPD_TOP gt_reset", WITH_LANES),
    "APU_L2": Effect("CRF_APB.RST_FPD_APU apu_l2_reset", (APU,), "CRF_APB_RST_FPD_APU"),
    "SOFT": Effect("CRL_APB.RESET_CTRL soft_reset", (LPD, FPD, PLD), "CRL_APB_RESET_CTRL", "CRL_APB_RESET_CTRL_SOFT_RESET"),
    "RPU_AMBA": Effect("CRL_APB.RST_LPD_TOP rpu_amba_reset", (RPU,), "CRL_APB_RST_LPD_TOP", "CRL_APB_RPU_AMBA_RESET"),
    "OCM": Effect("CRL_APB.RST_LPD_TOP ocm_reset", OCM_BANKS, "CRL_APB_RST_LPD_TOP"),
    "RPU_PGE": Effect("CRL_APB.RST_LPD_TOP rpu_pge_reset", (RPU,), "CRL_APB_RST_LPD_TOP"),
    "IPI": Effect("CRL_APB.RST_LPD_TOP ipi_reset", INTERRUPTS, "CRL_APB_RST_LPD_TOP"),
    "FPD": Effect("CRL_APB.RST_LPD_TOP fpd_reset", (FPD,), "CRL_APB_RST_LPD_TOP"),
    "RPU_LS": Effect("PMU_GLOBAL.GLOBAL_RESET rpu_ls_rst", (RPU,)),
    "PS_ONLY": Effect("PMU_GLOBAL.GLOBAL_RESET ps_only_rst", (LPD, FPD)),
    "PL": Effect("UG1200, the reset of the PL", (PLD,)),
}


def effect_of(line: int) -> Effect:
    """What a line resets beside what its topology says."""
    return EFFECTS.get(names.RESETS.get(line, ""), Effect("", ()))


def all_targets(chip: "Chip", line: int) -> tuple[int, ...]:
    """The processors and slaves that a reset line of a chip resets: what the topology says, and what is published, in the order
    of the chip."""
    reset = {chip.lines[line]}
    for unit in effect_of(line).units:
        reset.update(chip.below(unit) if chip.is_kind(unit, "power") else [unit])
    return tuple(number for number in chip.nodes if number in reset and not chip.is_kind(number, "power"))


def more_words(chip: "Chip", line: int) -> str:
    """What a published line resets beside what the topology says, in words; or nothing."""
    if not set(chip.resets[line]) - {chip.lines[line]}:
        return ""
    units = [unit for unit in effect_of(line).units if unit in chip.nodes and unit != chip.lines[line]]
    return ", ".join(("all of " if chip.is_kind(unit, "power") else "") + names.node_name(unit) for unit in units)
