/* Stands for the library in the test of what is installed: a core with one command, that answers each message. */
#include "pmu.h"
#include <stdio.h>
#include <stdlib.h>
#include <string.h>

static bool waits;

uint32_t pmu_version(void)
{
    return PMU_VERSION;
}

uint32_t pmu_open(const uint8_t *object, size_t object_size, struct pmu **handle)
{
    (void)object;
    if (object_size == 0)
        return PMU_BAD_OBJECT;
    *handle = malloc(sizeof **handle);
    waits = *handle != NULL;
    return waits ? PMU_DONE : PMU_NO_MEMORY;
}

void pmu_end(struct pmu pmu)
{
    (void)pmu;
}

uint32_t pmu_ipi(struct pmu *pmu, uint32_t master, uint32_t api, uint32_t a1, uint32_t a2, uint32_t a3, uint32_t a4, uint32_t a5)
{
    (void)pmu;
    (void)master;
    (void)(api + a1 + a2 + a3 + a4 + a5);
    return waits ? PMU_COMMAND_LEFT : PMU_DONE;
}

uint32_t pmu_next(struct pmu *pmu, struct pmu_command *command)
{
    (void)pmu;
    memset(command, 0, sizeof *command);
    return waits ? PMU_DONE : PMU_NO_COMMAND;
}

uint32_t pmu_done(struct pmu *pmu, bool ok)
{
    (void)pmu;
    (void)ok;
    waits = false;
    return PMU_DONE;
}

uint32_t pmu_text(struct pmu *pmu, uint32_t number, uint8_t *text, size_t size, size_t *written)
{
    (void)pmu;
    *written = (size_t)snprintf((char *)text, size, "%u reply 1 0 65537 0 0\n", (unsigned)number);
    return PMU_DONE;
}
