/* measure OBJECT: how long a message takes through the library, and whether memory grows.
 *
 * A million messages in turn request UART_0 and release it; each moves the slave, so each has a command. */
#define _POSIX_C_SOURCE 200809L
#include "files.h"
#include <time.h>

enum { REQUEST_NODE = 13, RELEASE_NODE = 14, INIT_FINALIZE = 21, APU = 1, UART_0 = 33, ACCESS = 1, BLOCKING = 2 };
enum { MESSAGES = 1000000 };

static double seconds(void)
{
    struct timespec now;
    clock_gettime(CLOCK_MONOTONIC, &now);
    return (double)now.tv_sec + (double)now.tv_nsec / 1e9;
}

/* The memory of this program in use, in pages: the second number of that file. */
static unsigned long pages(void)
{
    unsigned long all = 0, used = 0;
    FILE *file = fopen("/proc/self/statm", "r");
    if (file != NULL) {
        if (fscanf(file, "%lu %lu", &all, &used) != 2)
            used = 0;
        fclose(file);
    }
    return used;
}

/* The commands of a step, which are all taken, and the bytes that the step tells. */
static size_t finish(struct pmu *pmu, uint32_t answer)
{
    struct pmu_command command;
    uint8_t text[4096];
    size_t written = 0;
    must(answer, "an event");
    while (pmu_next(pmu, &command) == PMU_DONE)
        must(pmu_done(pmu, true), "pmu_done");
    must(pmu_text(pmu, 1, text, sizeof text, &written), "pmu_text");
    return written;
}

int main(int count, char **words)
{
    if (count != 2) {
        fprintf(stderr, "usage: measure OBJECT\n");
        return 1;
    }
    struct pmu *pmu = open_file(words[1]);
    finish(pmu, PMU_DONE);
    finish(pmu, pmu_ipi(pmu, APU, INIT_FINALIZE, 0, 0, 0, 0, 0));

    unsigned long before = pages();
    double begun = seconds();
    size_t told = 0;
    for (unsigned k = 0; k < MESSAGES; k += 2) {
        told += finish(pmu, pmu_ipi(pmu, APU, REQUEST_NODE, UART_0, ACCESS, 0, BLOCKING, 0));
        told += finish(pmu, pmu_ipi(pmu, APU, RELEASE_NODE, UART_0, 0, 0, 0, 0));
    }
    double ended = seconds();
    printf("%u messages, %.0f ns each, %zu bytes told, %lu pages before and %lu after\n", (unsigned)MESSAGES,
           (ended - begun) / MESSAGES * 1e9, told, before, pages());
    pmu_close(pmu);
    return 0;
}
