/* The inter-processor interrupt of the chip in front of the core: registers and message buffers at their addresses.
 *
 * Firmware of the chip sends a message to the platform management unit by writing its words into a buffer and then a bit
 * into a register, and reads the answer from another buffer. Compiled for the host it does the same by the two functions
 * below, in place of its own reads and writes of the bus. An agent is known by its master: APU 1; RPU_0 7, in lock-step 6;
 * RPU_1 8. The mask of that master in the configuration object is the agent's bit. */
#ifndef IPI_H
#define IPI_H

#include "pmu.h"

/* The registers of an agent, from its base on.
 *
 * TRIG: the management unit's bit sends the message in the buffer; another agent's bit interrupts that agent.
 * OBS: whom the agent interrupted and who hasn't taken it yet, by ISR. The management unit's bit is never there: it takes a
 * message when it is sent.
 * ISR: who interrupted; writing a 1 takes a bit away.
 * IMR: which bits are masked; writing a 1 to IER unmasks a bit, to IDR masks it. */
enum { IPI_TRIG = 0x00, IPI_OBS = 0x04, IPI_ISR = 0x10, IPI_IMR = 0x14, IPI_IER = 0x18, IPI_IDR = 0x1C };

/* The bases of the registers, and the bits, by which the agents name one another. */
#define IPI_APU_BASE 0xFF300000u
#define IPI_RPU_0_BASE 0xFF310000u
#define IPI_RPU_1_BASE 0xFF320000u
enum { IPI_APU_BIT = 0x1, IPI_RPU_0_BIT = 0x100, IPI_RPU_1_BIT = 0x200, IPI_PMU_BIT = 0x10000 };

/* The message buffers: a group of 0x200 bytes for each sender, in it 0x40 bytes for each receiver, of which the first half
 * is the request and the second half the response to it.
 *
 * A request is the call and five arguments (words that a call doesn't take are passed over), a response the status and three
 * words. The response is cleared when a message is taken: it reads 0 after a message that is dropped, or that is answered
 * later or by a callback. A late reply is written to the response, and nothing else tells of it. A callback is in the request
 * from the management unit, which sets its bit in the ISR of the agent; the next one comes once that bit is taken away. */
#define IPI_BUFFERS 0xFF990000u
enum {
    IPI_GROUP = 0x200,
    IPI_TARGET = 0x40,
    IPI_RESPONSE = 0x20,
    IPI_RPU_0_INDEX = 0, /* the place of an agent, as a sender and as a receiver */
    IPI_RPU_1_INDEX = 1,
    IPI_APU_INDEX = 2,
    IPI_PMU_INDEX = 7
};

/* Puts these registers and buffers in front of a controller. Its load is carried out, as each step is from then on. */
void ipi_open(struct pmu *pmu);

/* The bus. A word that is no register and in no buffer reads as 0, and a write to it changes nothing. */
uint32_t ipi_read32(uint32_t address);
void ipi_write32(uint32_t address, uint32_t value);

/* Ends a step that was begun by a call of pmu.h, as pmu_wfi: its commands, its answer, its callbacks. */
void ipi_finish(uint32_t answer);

/* Whether an interrupt is pending at an agent, by the base of its registers: a bit that is set and not masked. */
bool ipi_is_pending(uint32_t base);

/* The device of whoever links this: it takes a command, or fails it. */
bool ipi_device(const struct pmu_command *command);

#endif
