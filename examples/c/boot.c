/* boot OBJECT: the messages of a boot, from the first one of the boot firmware to a kernel that has started its second
 * processor and the firmware of the real-time processors, and has let one processor sleep.
 *
 * The device of this example takes each command and prints it. After each step come the lines that the step tells, as
 * `pmu replay` writes them. */
#include "files.h"

/* Numbers of UG1200. */
enum {
    GET_API_VERSION = 1,
    SELF_SUSPEND = 7,
    REQUEST_WAKEUP = 10,
    REQUEST_NODE = 13,
    INIT_FINALIZE = 21,
    APU = 1, /* the master of the application processors */
    APU_0 = 2,
    APU_1 = 3,
    RPU_0 = 7, /* a real-time processor, and its master */
    OCM_BANK_0 = 11,
    UART_0 = 33,
    SD_0 = 39,
    ACCESS = 1,
    BLOCKING = 2
};

static struct pmu *pmu;
static uint32_t step;

/* The device: here the power of the chip would be switched. It answers whether it took the command. */
static bool device(const struct pmu_command *command)
{
    printf("  device: %s %u to %u\n", command->line ? "line" : "node", (unsigned)command->number,
           (unsigned)command->value);
    return true;
}

/* Ends a step: its commands one by one, and then what it tells. */
static void finish(uint32_t answer, const char *what)
{
    struct pmu_command command;
    uint8_t text[4096];
    size_t written = 0;
    must(answer, what);
    printf("%s\n", what);
    while (pmu_next(pmu, &command) == PMU_DONE)
        must(pmu_done(pmu, device(&command)), "pmu_done");
    must(pmu_text(pmu, step, text, sizeof text, &written), "pmu_text");
    fwrite(text, 1, written, stdout);
    step++;
}

int main(int count, char **words)
{
    if (count != 2) {
        fprintf(stderr, "usage: boot OBJECT\n");
        return 1;
    }
    pmu = open_file(words[1]);
    finish(PMU_DONE, "load: the device follows the book");

    /* The boot firmware of the application processors asks which interface this is. */
    finish(pmu_ipi(pmu, APU, GET_API_VERSION, 0, 0, 0, 0, 0), "GET_API_VERSION");

    /* The kernel requests what its drivers use, and starts its second processor: bit 0 says that the address counts. */
    finish(pmu_ipi(pmu, APU, REQUEST_NODE, UART_0, ACCESS, 0, BLOCKING, 0), "REQUEST_NODE UART_0");
    finish(pmu_ipi(pmu, APU, REQUEST_NODE, SD_0, ACCESS, 0, BLOCKING, 0), "REQUEST_NODE SD_0");
    finish(pmu_ipi(pmu, APU, REQUEST_WAKEUP, APU_1, 0x80000 + 1, 0, BLOCKING, 0), "REQUEST_WAKEUP APU_1");

    /* It starts the firmware of a real-time processor, which requests a memory for itself. */
    finish(pmu_ipi(pmu, APU, REQUEST_WAKEUP, RPU_0, 0 + 1, 0, BLOCKING, 0), "REQUEST_WAKEUP RPU_0");
    finish(pmu_ipi(pmu, RPU_0, REQUEST_NODE, OCM_BANK_0, ACCESS, 0, BLOCKING, 0), "REQUEST_NODE OCM_BANK_0");

    /* All drivers are there: what nobody requested goes down. */
    finish(pmu_ipi(pmu, APU, INIT_FINALIZE, 0, 0, 0, 0, 0), "INIT_FINALIZE");

    /* The second processor has nothing to do: it suspends and waits for an interrupt, which then comes. */
    finish(pmu_ipi(pmu, APU, SELF_SUSPEND, APU_1, 0, 0, 0x80000, 0), "SELF_SUSPEND APU_1");
    finish(pmu_wfi(pmu, APU_1), "APU_1 waits for an interrupt");
    finish(pmu_gic(pmu, APU_1), "an interrupt at APU_1");

    pmu_close(pmu);
    return 0;
}
