/* apart OBJECT: two masters beside one another.
 *
 * After each step it prints what GET_NODE_STATUS would tell each master of a memory bank that both may use, and of a
 * serial port of the one alone, read from the book without a message. At the end it prints of some messages whether the
 * other master can make a difference to their answers. */
#include "files.h"

/* Numbers of UG1200. */
enum {
    REQUEST_NODE = 13,
    RELEASE_NODE = 14,
    SET_WAKEUP_SOURCE = 11,
    INIT_FINALIZE = 21,
    APU = 1,
    APU_0 = 2,
    RPU_0 = 7, /* a real-time processor, and its master */
    OCM_BANK_0 = 11,
    UART_0 = 33,
    ACCESS = 1,
    BLOCKING = 2
};

static struct pmu *pmu;

static void print_status(const char *name, uint32_t node)
{
    static const char *const users[] = {"nobody", "only this one", "only others", "both"};
    static const struct {
        const char *name;
        uint32_t number;
    } masters[] = {{"APU", APU}, {"RPU_0", RPU_0}};
    for (size_t k = 0; k < 2; k++) {
        struct pmu_status status;
        must(pmu_node_status(pmu, masters[k].number, node, &status), "pmu_node_status");
        printf("  %s to %s: state %u, requires %u, used by %s\n", name, masters[k].name, (unsigned)status.state,
               (unsigned)status.requirement, users[status.usage % 4]);
    }
}

/* Ends a step; each of its commands is taken. */
static void finish(uint32_t answer, const char *what)
{
    struct pmu_command command;
    must(answer, what);
    while (pmu_next(pmu, &command) == PMU_DONE)
        must(pmu_done(pmu, true), "pmu_done");
    printf("%s\n", what);
    print_status("OCM_BANK_0", OCM_BANK_0);
    print_status("UART_0", UART_0);
}

/* Whether RPU_0 can make a difference to the answer of a message of APU. */
static void ask(const char *what, uint32_t api, uint32_t a1, uint32_t a2, uint32_t a3, uint32_t a4)
{
    bool beyond = false;
    must(pmu_is_beyond(pmu, RPU_0, APU, api, a1, a2, a3, a4, 0, &beyond), "pmu_is_beyond");
    printf("%s of APU: %s\n", what, beyond ? "answered the same whatever RPU_0 sends" : "what RPU_0 sends may count");
}

int main(int count, char **words)
{
    struct pmu_status status;
    if (count != 2) {
        fprintf(stderr, "usage: apart OBJECT\n");
        return 1;
    }
    pmu = open_file(words[1]);
    finish(PMU_DONE, "load");
    finish(pmu_ipi(pmu, APU, INIT_FINALIZE, 0, 0, 0, 0, 0), "INIT_FINALIZE of APU");
    finish(pmu_boot(pmu, RPU_0, 0), "RPU_0 starts");
    finish(pmu_ipi(pmu, RPU_0, REQUEST_NODE, OCM_BANK_0, ACCESS, 0, BLOCKING, 0), "REQUEST_NODE OCM_BANK_0 of RPU_0");
    finish(pmu_ipi(pmu, APU, REQUEST_NODE, OCM_BANK_0, ACCESS, 0, BLOCKING, 0), "REQUEST_NODE OCM_BANK_0 of APU");
    finish(pmu_ipi(pmu, APU, REQUEST_NODE, UART_0, ACCESS, 0, BLOCKING, 0), "REQUEST_NODE UART_0 of APU");
    finish(pmu_ipi(pmu, RPU_0, RELEASE_NODE, OCM_BANK_0, 0, 0, 0, 0), "RELEASE_NODE OCM_BANK_0 of RPU_0");

    must(pmu_node_status(pmu, APU, RPU_0, &status), "pmu_node_status");
    printf("RPU_0, the processor: mode %u\n", (unsigned)status.state);
    printf("a node that isn't there: answer %u\n", (unsigned)pmu_node_status(pmu, APU, 99, &status));
    printf("a master that isn't there: answer %u\n", (unsigned)pmu_node_status(pmu, 8, UART_0, &status));

    ask("REQUEST_NODE UART_0", REQUEST_NODE, UART_0, ACCESS, 0, BLOCKING);
    ask("REQUEST_NODE OCM_BANK_0", REQUEST_NODE, OCM_BANK_0, ACCESS, 0, BLOCKING);
    ask("SET_WAKEUP_SOURCE APU_0 UART_0", SET_WAKEUP_SOURCE, APU_0, UART_0, 1, 0);
    ask("SET_WAKEUP_SOURCE APU_0 OCM_BANK_0", SET_WAKEUP_SOURCE, APU_0, OCM_BANK_0, 1, 0);

    pmu_close(pmu);
    return 0;
}
