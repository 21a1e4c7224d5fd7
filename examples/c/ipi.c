/* The registers and message buffers of the inter-processor interrupt, with the platform management unit behind them. */
#include "ipi.h"
#include <stdio.h>
#include <stdlib.h>
#include <string.h>

enum { WORDS = 6, WAITING = 64, SIZE = 8 * IPI_GROUP, MASKED = 0x0F0F0301 };

/* Who can send: its node as a master, its registers, its place among the buffers, and its bit. In lock-step the two
 * real-time processors are one master, 6, which has the registers and the place of the first. */
static struct agent {
    uint32_t master, base, index, bit;
    uint32_t status;                   /* ISR: from whom an interrupt came */
    uint32_t mask;                     /* IMR: whose interrupts are masked */
    uint32_t calls[WAITING][WORDS];    /* callbacks that wait until the agent has taken the one before */
    unsigned first, count;
} agents[] = {
    {1, IPI_APU_BASE, IPI_APU_INDEX, IPI_APU_BIT, 0, MASKED, {{0}}, 0, 0},
    {7, IPI_RPU_0_BASE, IPI_RPU_0_INDEX, IPI_RPU_0_BIT, 0, MASKED, {{0}}, 0, 0},
    {8, IPI_RPU_1_BASE, IPI_RPU_1_INDEX, IPI_RPU_1_BIT, 0, MASKED, {{0}}, 0, 0},
};
enum { AGENTS = sizeof agents / sizeof agents[0] };

static uint32_t buffers[SIZE / 4];
static struct pmu *core;

/* The words of a message from one agent to another, or of the response to it. */
static uint32_t *message(uint32_t from, uint32_t to)
{
    return &buffers[(from * IPI_GROUP + to * IPI_TARGET) / 4];
}

static uint32_t *response(uint32_t from, uint32_t to)
{
    return message(from, to) + IPI_RESPONSE / 4;
}

static struct agent *agent_of(uint32_t master)
{
    for (unsigned k = 0; k < AGENTS; k++)
        if (agents[k].master == master || (agents[k].master == 7 && master == 6))
            return &agents[k];
    return NULL;
}

/* Puts the next callback into the buffer from the management unit to the agent, once that has taken the one before. */
static void deliver(struct agent *agent)
{
    if (agent->count == 0 || (agent->status & IPI_PMU_BIT) != 0)
        return;
    memcpy(message(IPI_PMU_INDEX, agent->index), agent->calls[agent->first], sizeof agent->calls[0]);
    agent->first = (agent->first + 1) % WAITING;
    agent->count--;
    agent->status |= IPI_PMU_BIT;
}

static void call_back(uint32_t master, const uint32_t words[WORDS])
{
    struct agent *agent = agent_of(master);
    if (agent == NULL || agent->count == WAITING) {
        fprintf(stderr, "ipi: a callback to master %u is lost\n", (unsigned)master);
        return;
    }
    memcpy(agent->calls[(agent->first + agent->count) % WAITING], words, sizeof agent->calls[0]);
    agent->count++;
    deliver(agent);
}

static void respond(uint32_t master, const uint32_t words[4])
{
    struct agent *agent = agent_of(master);
    if (agent != NULL)
        memcpy(response(agent->index, IPI_PMU_INDEX), words, 4 * sizeof words[0]);
}

/* What a step tells, line by line: `N reply MASTER STATUS W1 W2 W3`, also a late one, and `N call MASTER ID A1 A2 A3 A4`. */
static void tell(const char *line)
{
    unsigned long n, m, w[5];
    if (sscanf(line, "%lu reply %lu %lu %lu %lu %lu", &n, &m, &w[0], &w[1], &w[2], &w[3]) == 6) {
        uint32_t words[4] = {(uint32_t)w[0], (uint32_t)w[1], (uint32_t)w[2], (uint32_t)w[3]};
        respond((uint32_t)m, words);
    } else if (sscanf(line, "%lu call %lu %lu %lu %lu %lu %lu", &n, &m, &w[0], &w[1], &w[2], &w[3], &w[4]) == 7) {
        uint32_t words[WORDS] = {(uint32_t)w[0], (uint32_t)w[1], (uint32_t)w[2], (uint32_t)w[3], (uint32_t)w[4], 0};
        call_back((uint32_t)m, words);
    }
}

void ipi_finish(uint32_t answer)
{
    static char text[65536];
    struct pmu_command command;
    size_t written = 0;
    if (answer == PMU_DONE) {
        while ((answer = pmu_next(core, &command)) == PMU_DONE)
            if ((answer = pmu_done(core, ipi_device(&command))) != PMU_DONE)
                break;
        if (answer == PMU_NO_COMMAND)
            answer = pmu_text(core, 0, (uint8_t *)text, sizeof text - 1, &written);
    }
    if (answer != PMU_DONE) {
        fprintf(stderr, "ipi: answer %u\n", (unsigned)answer);
        exit(1);
    }
    text[written] = '\0';
    for (char *line = strtok(text, "\n"); line != NULL; line = strtok(NULL, "\n"))
        tell(line);
}

/* The management unit takes the message of an agent, and the agent's bit is gone before the agent looks again. It clears
 * the response, so that what an earlier message left there isn't read as the answer to one that has none. */
static void serve(const struct agent *agent)
{
    const uint32_t *words = message(agent->index, IPI_PMU_INDEX);
    memset(response(agent->index, IPI_PMU_INDEX), 0, IPI_TARGET - IPI_RESPONSE);
    ipi_finish(pmu_ipi(core, agent->master, words[0], words[1], words[2], words[3], words[4], words[5]));
}

void ipi_open(struct pmu *pmu)
{
    core = pmu;
    ipi_finish(PMU_DONE);
}

bool ipi_is_pending(uint32_t base)
{
    for (unsigned k = 0; k < AGENTS; k++)
        if (agents[k].base == base)
            return (agents[k].status & ~agents[k].mask) != 0;
    return false;
}

/* OBS: the agents that this one has interrupted and that haven't taken it yet, so that it doesn't write another message
 * over one that waits. The management unit's bit is never there: it takes a message when it is sent. */
static uint32_t observed(const struct agent *from)
{
    uint32_t bits = 0;
    for (unsigned k = 0; k < AGENTS; k++)
        if ((agents[k].status & from->bit) != 0)
            bits |= agents[k].bit;
    return bits;
}

static uint32_t read_register(const struct agent *agent, uint32_t offset)
{
    switch (offset) {
    case IPI_OBS:
        return observed(agent);
    case IPI_ISR:
        return agent->status;
    case IPI_IMR:
        return agent->mask;
    default:
        return 0;
    }
}

uint32_t ipi_read32(uint32_t address)
{
    if (address - IPI_BUFFERS < SIZE)
        return buffers[(address - IPI_BUFFERS) / 4];
    for (unsigned k = 0; k < AGENTS; k++)
        if (address - agents[k].base <= IPI_IDR)
            return read_register(&agents[k], address - agents[k].base);
    return 0;
}

static void write_register(struct agent *agent, uint32_t offset, uint32_t value)
{
    switch (offset) {
    case IPI_TRIG:
        if ((value & IPI_PMU_BIT) != 0)
            serve(agent);
        for (unsigned k = 0; k < AGENTS; k++) /* one agent may interrupt another */
            if ((value & agents[k].bit) != 0)
                agents[k].status |= agent->bit;
        break;
    case IPI_ISR: /* what is written as 1 is taken */
        agent->status &= ~value;
        deliver(agent);
        break;
    case IPI_IER:
        agent->mask &= ~value;
        break;
    case IPI_IDR:
        agent->mask |= value & MASKED;
        break;
    default:
        break;
    }
}

void ipi_write32(uint32_t address, uint32_t value)
{
    if (address - IPI_BUFFERS < SIZE) {
        buffers[(address - IPI_BUFFERS) / 4] = value;
        return;
    }
    for (unsigned k = 0; k < AGENTS; k++)
        if (address - agents[k].base <= IPI_IDR)
            write_register(&agents[k], address - agents[k].base, value);
}
