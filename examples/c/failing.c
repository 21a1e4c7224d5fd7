/* failing OBJECT: a device that fails a command and then works again.
 *
 * The device of this example keeps the value of each node and line, and refuses the commands of one node for a while.
 * A message whose command failed is answered by INTERNAL (2000). The command is tried again in each step that follows
 * until the device takes it; nobody is told then. */
#include "files.h"

/* Numbers of UG1200. */
enum { GET_NODE_STATUS = 3, REQUEST_NODE = 13, INIT_FINALIZE = 21, APU = 1, UART_0 = 33, ACCESS = 1, BLOCKING = 2 };

/* What the device has: a value for each number of a node, and for each number of a reset line. */
enum { NUMBERS = 2048 };
static uint32_t values[2][NUMBERS];
static uint32_t refused = NUMBERS; /* the node whose commands the device refuses */
static struct pmu *pmu;
static uint32_t step;

static bool device(const struct pmu_command *command)
{
    bool ok = command->line != 0 || command->number != refused;
    if (ok && command->number < NUMBERS)
        values[command->line != 0][command->number] = command->value;
    return ok;
}

static void finish(uint32_t answer, const char *what)
{
    struct pmu_command command;
    uint8_t text[4096];
    size_t written = 0;
    uint32_t value = 0;
    bool settled = false;
    must(answer, what);
    while (pmu_next(pmu, &command) == PMU_DONE)
        must(pmu_done(pmu, device(&command)), "pmu_done");
    must(pmu_text(pmu, step, text, sizeof text, &written), "pmu_text");
    must(pmu_value(pmu, UART_0, &value), "pmu_value");
    must(pmu_is_settled(pmu, &settled), "pmu_is_settled");
    printf("%s\n", what);
    fwrite(text, 1, written, stdout);
    printf("  UART_0 is to stand at %u and stands at %u; %s\n", (unsigned)value, (unsigned)values[0][UART_0],
           settled ? "all is settled" : "a command is to be tried again");
    step++;
}

int main(int count, char **words)
{
    if (count != 2) {
        fprintf(stderr, "usage: failing OBJECT\n");
        return 1;
    }
    pmu = open_file(words[1]);
    finish(PMU_DONE, "load");
    finish(pmu_ipi(pmu, APU, INIT_FINALIZE, 0, 0, 0, 0, 0), "INIT_FINALIZE");

    refused = UART_0;
    finish(pmu_ipi(pmu, APU, REQUEST_NODE, UART_0, ACCESS, 0, BLOCKING, 0), "REQUEST_NODE UART_0, which the device refuses");
    finish(pmu_ipi(pmu, APU, GET_NODE_STATUS, UART_0, 0, 0, 0, 0), "GET_NODE_STATUS UART_0, and it is refused again");

    refused = NUMBERS;
    finish(pmu_tick(pmu, 1), "a tick; the device works again");
    finish(pmu_tick(pmu, 1), "a tick");

    /* A call in the middle of a step is refused, and changes nothing. */
    must(pmu_ipi(pmu, APU, 14, UART_0, 0, 0, 0, 0), "RELEASE_NODE");
    printf("a tick in the middle of a step: answer %u\n", (unsigned)pmu_tick(pmu, 1));
    finish(PMU_DONE, "RELEASE_NODE UART_0");

    pmu_close(pmu);
    return 0;
}
