/* What the examples share: a file read whole, and an answer that must be PMU_DONE. */
#ifndef FILES_H
#define FILES_H

#include "pmu.h"
#include <stdio.h>
#include <stdlib.h>

/* Ends the example if a call answered anything but PMU_DONE. */
static inline void must(uint32_t answer, const char *what)
{
    if (answer != PMU_DONE) {
        fprintf(stderr, "%s: answer %u\n", what, (unsigned)answer);
        exit(1);
    }
}

/* The bytes of a file, at most 65536, in memory that the caller frees. */
static inline uint8_t *read_file(const char *name, size_t *size)
{
    enum { MOST = 65536 };
    FILE *file = fopen(name, "rb");
    uint8_t *bytes = malloc(MOST);
    if (file == NULL || bytes == NULL) {
        fprintf(stderr, "%s can't be read\n", name);
        exit(1);
    }
    *size = fread(bytes, 1, MOST, file);
    fclose(file);
    return bytes;
}

/* A controller for the configuration object of a file. */
static inline struct pmu *open_file(const char *name)
{
    size_t size = 0;
    uint8_t *object = read_file(name, &size);
    struct pmu *pmu = NULL;
    must(pmu_open(object, size, &pmu), "pmu_open");
    free(object); /* nothing of it is kept */
    return pmu;
}

#endif
