/* A program over the installed library, in C and in C++: it opens a controller, carries out its commands, sends a message
 * and writes what that tells. */
#include <pmu.h>
#include <pmu_eemi.h>
#include <stdio.h>

#if PMU_VERSION != PMU_VERSION_MAJOR * 10000 + PMU_VERSION_MINOR * 100 + PMU_VERSION_PATCH
#error "the version isn't made of its numbers"
#endif

int main(void)
{
    const uint8_t object[4] = {0, 0, 0, 0};
    uint8_t text[100];
    size_t written = 0;
    struct pmu *pmu = NULL;
    struct pmu_command command;
    if (pmu_version() != PMU_VERSION || pmu_open(object, sizeof object, &pmu) != PMU_DONE)
        return 1;
    while (pmu_next(pmu, &command) == PMU_DONE)
        pmu_done(pmu, true);
    if (pmu_ipi(pmu, PMU_MASTER_APU, PMU_CALL_GET_API_VERSION, 0, 0, 0, 0, 0) != PMU_DONE)
        return 2;
    if (pmu_text(pmu, 1, text, sizeof text, &written) != PMU_DONE)
        return 3;
    printf("%d.%d.%d %.*s", PMU_VERSION_MAJOR, PMU_VERSION_MINOR, PMU_VERSION_PATCH, (int)written, (const char *)text);
    if (pmu_open(object, 0, &pmu) != PMU_BAD_OBJECT || pmu_strerror(PMU_BAD_OBJECT)[0] != 't')
        return 4;
    pmu_close(pmu);
    return 0;
}
