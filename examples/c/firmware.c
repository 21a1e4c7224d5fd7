/* firmware OBJECT: firmware of the chip, compiled for the host, that knows the platform management unit by registers and
 * message buffers alone. Its messages are those of the boot firmware of the application processors and of a real-time
 * processor; the functions are written as these have them. */
#include "files.h"
#include "ipi.h"

/* Numbers of UG1200. */
enum {
    GET_API_VERSION = 1,
    REGISTER_NOTIFIER = 5,
    REQUEST_SUSPEND = 6,
    SELF_SUSPEND = 7,
    REQUEST_WAKEUP = 10,
    REQUEST_NODE = 13,
    INIT_FINALIZE = 21,
    RPU_0 = 7,
    OCM_BANK_0 = 11,
    UART_0 = 33,
    ACCESS = 1,
    BLOCKING = 2,
    NON_BLOCKING = 3,
    STATE_CHANGE = 1
};

/* A processor that sends: the base of its registers, and its place among the buffers. */
struct sender {
    const char *name;
    uint32_t base, index;
};
static const struct sender apu = {"APU", IPI_APU_BASE, IPI_APU_INDEX};
static const struct sender rpu = {"RPU_0", IPI_RPU_0_BASE, IPI_RPU_0_INDEX};

bool ipi_device(const struct pmu_command *command)
{
    (void)command;
    return true;
}

/* Writes a message, triggers, waits until it is taken, and reads the response. */
static void send(const struct sender *from, const char *what, uint32_t api, uint32_t a1, uint32_t a2, uint32_t a3, uint32_t a4,
                 uint32_t a5)
{
    const uint32_t words[6] = {api, a1, a2, a3, a4, a5};
    uint32_t buffer = IPI_BUFFERS + from->index * IPI_GROUP + IPI_PMU_INDEX * IPI_TARGET;
    for (uint32_t k = 0; k < 6; k++)
        ipi_write32(buffer + 4 * k, words[k]);
    ipi_write32(from->base + IPI_TRIG, IPI_PMU_BIT);
    while ((ipi_read32(from->base + IPI_OBS) & IPI_PMU_BIT) != 0) {
    }
    printf("%s sends %s: status %u, word %u\n", from->name, what, (unsigned)ipi_read32(buffer + IPI_RESPONSE),
           (unsigned)ipi_read32(buffer + IPI_RESPONSE + 4));
}

/* The handler of the interrupt: takes each callback. */
static void handle(const struct sender *at)
{
    uint32_t buffer = IPI_BUFFERS + IPI_PMU_INDEX * IPI_GROUP + at->index * IPI_TARGET;
    while (ipi_is_pending(at->base)) {
        uint32_t words[5];
        for (uint32_t k = 0; k < 5; k++)
            words[k] = ipi_read32(buffer + 4 * k);
        ipi_write32(at->base + IPI_ISR, IPI_PMU_BIT);
        printf("%s gets callback %u: %u %u %u %u\n", at->name, (unsigned)words[0], (unsigned)words[1], (unsigned)words[2],
               (unsigned)words[3], (unsigned)words[4]);
    }
}

int main(int count, char **words)
{
    if (count != 2) {
        fprintf(stderr, "usage: firmware OBJECT\n");
        return 1;
    }
    struct pmu *pmu = open_file(words[1]);
    ipi_open(pmu);
    ipi_write32(IPI_APU_BASE + IPI_IER, IPI_PMU_BIT);
    ipi_write32(IPI_RPU_0_BASE + IPI_IER, IPI_PMU_BIT);

    send(&apu, "GET_API_VERSION", GET_API_VERSION, 0, 0, 0, 0, 0);
    send(&apu, "REQUEST_NODE UART_0", REQUEST_NODE, UART_0, ACCESS, 0, BLOCKING, 0);
    send(&apu, "REQUEST_NODE UART_0", REQUEST_NODE, UART_0, ACCESS, 0, BLOCKING, 0);
    send(&apu, "INIT_FINALIZE", INIT_FINALIZE, 0, 0, 0, 0, 0);
    send(&apu, "REGISTER_NOTIFIER OCM_BANK_0", REGISTER_NOTIFIER, OCM_BANK_0, STATE_CHANGE, 0, 1, 0);

    send(&rpu, "GET_API_VERSION", GET_API_VERSION, 0, 0, 0, 0, 0);
    send(&apu, "REQUEST_WAKEUP RPU_0", REQUEST_WAKEUP, RPU_0, 0 + 1, 0, BLOCKING, 0);
    send(&rpu, "REQUEST_NODE OCM_BANK_0", REQUEST_NODE, OCM_BANK_0, ACCESS, 0, NON_BLOCKING, 0);
    handle(&rpu);
    handle(&apu);

    send(&apu, "REQUEST_SUSPEND RPU_0", REQUEST_SUSPEND, RPU_0, BLOCKING, 0, 0, 0);
    handle(&rpu);
    send(&rpu, "SELF_SUSPEND RPU_0", SELF_SUSPEND, RPU_0, 0, 0, 0, 0);
    ipi_finish(pmu_wfi(pmu, RPU_0));
    printf("APU reads its response: status %u\n",
           (unsigned)ipi_read32(IPI_BUFFERS + IPI_APU_INDEX * IPI_GROUP + IPI_PMU_INDEX * IPI_TARGET + IPI_RESPONSE));

    pmu_close(pmu);
    return 0;
}
