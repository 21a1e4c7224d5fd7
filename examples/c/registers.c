/* registers: the registers and buffers of ipi.c over a core that answers as it is told here. Prints each check that fails,
 * and at the end how many held. It needs no library. */
#include "ipi.h"
#include <stdio.h>
#include <string.h>

static const char *told = "";      /* what the next step tells */
static uint32_t master, words[6];  /* the message that the core got last */
static unsigned held, failed;

uint32_t pmu_ipi(struct pmu *pmu, uint32_t from, uint32_t api, uint32_t a1, uint32_t a2, uint32_t a3, uint32_t a4, uint32_t a5)
{
    const uint32_t given[6] = {api, a1, a2, a3, a4, a5};
    (void)pmu;
    master = from;
    memcpy(words, given, sizeof words);
    return PMU_DONE;
}

uint32_t pmu_next(struct pmu *pmu, struct pmu_command *command)
{
    (void)pmu;
    (void)command;
    return PMU_NO_COMMAND;
}

uint32_t pmu_done(struct pmu *pmu, bool taken)
{
    (void)pmu;
    (void)taken;
    return PMU_DONE;
}

uint32_t pmu_text(struct pmu *pmu, uint32_t step, uint8_t *text, size_t size, size_t *written)
{
    (void)pmu;
    (void)step;
    *written = strlen(told) < size ? strlen(told) : size;
    memcpy(text, told, *written);
    return PMU_DONE;
}

bool ipi_device(const struct pmu_command *command)
{
    (void)command;
    return true;
}

static void check(const char *what, uint32_t is, uint32_t wanted)
{
    if (is == wanted) {
        held++;
        return;
    }
    printf("%s: %u, and not %u\n", what, (unsigned)is, (unsigned)wanted);
    failed++;
}

/* A word of the buffer from one agent to another. */
static uint32_t word(uint32_t from, uint32_t to, uint32_t offset)
{
    return IPI_BUFFERS + from * IPI_GROUP + to * IPI_TARGET + offset;
}

/* Sends a message of the application processors, after which the core tells this. */
static void send(uint32_t api, const char *then)
{
    told = then;
    ipi_write32(word(IPI_APU_INDEX, IPI_PMU_INDEX, 0), api);
    ipi_write32(IPI_APU_BASE + IPI_TRIG, IPI_PMU_BIT);
}

static uint32_t answered(uint32_t k)
{
    return ipi_read32(word(IPI_APU_INDEX, IPI_PMU_INDEX, IPI_RESPONSE + 4 * k));
}

/* What an earlier message left in the response isn't the answer to one that has none. */
static void responses(void)
{
    send(13, "1 reply 1 2004 7 8 9\n");
    check("the sender", master, 1);
    check("the call", words[0], 13);
    check("a status", answered(0), 2004);
    check("the last word", answered(3), 9);
    send(6, "");
    for (uint32_t k = 0; k < 4; k++)
        check("a word of no answer", answered(k), 0);
    ipi_write32(word(IPI_APU_INDEX, IPI_PMU_INDEX, IPI_RESPONSE + 4 * 7), 5);
    send(6, "3 call 7 30 201 0 0 100\n");
    check("the last word of the response", answered(7), 0);
    send(3, "4 reply 1 0 2 0 2\n");
    check("a status after no answer", answered(0), 0);
    check("its word", answered(1), 2);
}

/* OBS has the bit of an agent from the interrupt until that agent has taken it. */
static void observation(void)
{
    check("nobody waits", ipi_read32(IPI_APU_BASE + IPI_OBS), 0);
    ipi_write32(IPI_APU_BASE + IPI_TRIG, IPI_RPU_0_BIT | IPI_RPU_1_BIT);
    check("both wait", ipi_read32(IPI_APU_BASE + IPI_OBS), IPI_RPU_0_BIT | IPI_RPU_1_BIT);
    check("it is the other's", ipi_read32(IPI_RPU_0_BASE + IPI_OBS), 0);
    check("who interrupted", ipi_read32(IPI_RPU_0_BASE + IPI_ISR) & IPI_APU_BIT, IPI_APU_BIT);
    ipi_write32(IPI_RPU_0_BASE + IPI_TRIG, IPI_RPU_1_BIT);
    check("another waits for the same", ipi_read32(IPI_RPU_0_BASE + IPI_OBS), IPI_RPU_1_BIT);
    ipi_write32(IPI_RPU_0_BASE + IPI_ISR, IPI_APU_BIT);
    check("one took it", ipi_read32(IPI_APU_BASE + IPI_OBS), IPI_RPU_1_BIT);
    ipi_write32(IPI_RPU_1_BASE + IPI_ISR, IPI_APU_BIT);
    check("both took it", ipi_read32(IPI_APU_BASE + IPI_OBS), 0);
    check("the other's still waits", ipi_read32(IPI_RPU_0_BASE + IPI_OBS), IPI_RPU_1_BIT);
    send(21, "5 reply 1 0 0 0 0\n");
    check("the management unit takes at once", ipi_read32(IPI_APU_BASE + IPI_OBS), 0);
}

int main(void)
{
    told = "";
    ipi_open(NULL);
    responses();
    observation();
    printf("%u held, %u failed\n", held, failed);
    return failed != 0 || held == 0;
}
