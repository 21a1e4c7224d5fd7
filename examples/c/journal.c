/* journal OBJECT: a controller that is there again after its program has ended in the middle of a step.
 *
 * What a controller does follows from its object, its events and the answers of its device, in their order, and from
 * nothing else. So a journal of the events and answers is enough: a new controller that gets them is in the place of the
 * old one, and goes on with the command that waited. That command is given to the device once more: it may have been
 * taken, and to set a unit to a value twice is to set it once.
 *
 * An entry is written after the core has taken an event, and before the first command of its step; and after the device
 * has answered a command, and before the core hears of it. It is a line; one without its end counts for nothing. */
#include "files.h"
#include <string.h>

/* Numbers of UG1200. */
enum { REQUEST_WAKEUP = 10, REQUEST_NODE = 13, INIT_FINALIZE = 21, ACCESS = 1, BLOCKING = 2 };
enum { APU = 1, APU_1 = 3, RPU_0 = 7, UART_0 = 33 };

enum kind { IPI, BOOT, WFI, GIC, IRQ, TICK, ANSWER };

/* An entry of the journal: an event with its numbers (of a boot the processor, and the low and high word of the address),
 * or an answer of the device: 1 if it took the command. */
struct entry {
    enum kind kind;
    uint32_t words[7];
};

/* A board: its controller, the journal of that, and its device, which keeps the value of each node and refuses the
 * commands of one. */
enum { NODES = 128, NO_NODE = NODES };
struct board {
    struct pmu *pmu;
    FILE *journal;
    uint32_t values[NODES];
    uint32_t refused;
};

static bool carry_out(struct board *board, const struct pmu_command *command)
{
    bool taken = command->line == 0 && command->number < NODES && command->number != board->refused;
    if (taken)
        board->values[command->number] = command->value;
    printf("  device: node %u to %u: %s\n", (unsigned)command->number, (unsigned)command->value, taken ? "taken" : "refused");
    return taken;
}

static void write_entry(FILE *journal, const struct entry *entry)
{
    const uint32_t *w = entry->words;
    fprintf(journal, "%d %u %u %u %u %u %u %u\n", (int)entry->kind, (unsigned)w[0], (unsigned)w[1], (unsigned)w[2],
            (unsigned)w[3], (unsigned)w[4], (unsigned)w[5], (unsigned)w[6]);
    if (fflush(journal) != 0) /* to survive a loss of power it has to be on the disk then: fsync */
        exit(1);
}

/* The next whole entry. If there is none the file is at the end of the last one, so that a broken one is written over. */
static bool read_entry(FILE *journal, struct entry *entry)
{
    char line[128];
    unsigned w[7];
    int kind = 0;
    long begin = ftell(journal);
    bool whole = fgets(line, sizeof line, journal) != NULL && strchr(line, '\n') != NULL &&
                 sscanf(line, "%d %u %u %u %u %u %u %u", &kind, &w[0], &w[1], &w[2], &w[3], &w[4], &w[5], &w[6]) == 8;
    if (!whole) {
        fseek(journal, begin, SEEK_SET);
        return false;
    }
    entry->kind = (enum kind)kind;
    for (size_t k = 0; k < 7; k++)
        entry->words[k] = w[k];
    return true;
}

/* Gives an entry to a controller. */
static uint32_t give(struct pmu *pmu, const struct entry *entry)
{
    const uint32_t *w = entry->words;
    switch (entry->kind) {
    case IPI:
        return pmu_ipi(pmu, w[0], w[1], w[2], w[3], w[4], w[5], w[6]);
    case BOOT:
        return pmu_boot(pmu, w[0], (uint64_t)w[2] << 32 | w[1]);
    case WFI:
        return pmu_wfi(pmu, w[0]);
    case GIC:
        return pmu_gic(pmu, w[0]);
    case IRQ:
        return pmu_irq(pmu, w[0]);
    case TICK:
        return pmu_tick(pmu, w[0]);
    default:
        return pmu_done(pmu, w[0] != 0);
    }
}

/* Ends a step: its commands, and the answers to them written down. With `ends` the program ends once the device has taken
 * the first of them. */
static void follow(struct board *board, bool ends)
{
    struct pmu_command command;
    while (pmu_next(board->pmu, &command) == PMU_DONE) {
        struct entry answer = {ANSWER, {carry_out(board, &command)}};
        if (ends)
            return;
        write_entry(board->journal, &answer);
        must(give(board->pmu, &answer), "pmu_done");
    }
}

/* A board whose controller has had nothing but its load. */
static void start(struct board *board, const char *object)
{
    memset(board, 0, sizeof *board);
    board->refused = NO_NODE;
    board->journal = tmpfile();
    if (board->journal == NULL)
        exit(1);
    board->pmu = open_file(object);
    follow(board, false);
}

/* A controller that has had all that the journal has. */
static struct pmu *rebuild(const char *object, FILE *journal)
{
    struct pmu *pmu = open_file(object);
    struct entry entry;
    unsigned count = 0;
    for (rewind(journal); read_entry(journal, &entry); count++)
        must(give(pmu, &entry), "an entry of the journal");
    printf("rebuilt by %u entries\n", count);
    return pmu;
}

/* Whether two controllers tell the same of each node, and of the last step. */
static bool are_alike(struct pmu *one, struct pmu *other)
{
    static uint8_t text[2][4096];
    size_t written[2] = {0, 0};
    bool settled[2] = {false, true};
    for (uint32_t node = 0; node < NODES; node++) {
        uint32_t value[2] = {0, 0}, mode[2] = {0, 0};
        if (pmu_value(one, node, &value[0]) != pmu_value(other, node, &value[1]) || value[0] != value[1] ||
            pmu_mode(one, node, &mode[0]) != pmu_mode(other, node, &mode[1]) || mode[0] != mode[1])
            return false;
    }
    must(pmu_text(one, 0, text[0], sizeof text[0], &written[0]), "pmu_text");
    must(pmu_text(other, 0, text[1], sizeof text[1], &written[1]), "pmu_text");
    must(pmu_is_settled(one, &settled[0]), "pmu_is_settled");
    must(pmu_is_settled(other, &settled[1]), "pmu_is_settled");
    return settled[0] == settled[1] && written[0] == written[1] && memcmp(text[0], text[1], written[0]) == 0;
}

/* The events of this example. The device refuses the commands of UART_0 from the second one on, until the tick. */
static const struct entry events[] = {
    {IPI, {APU, INIT_FINALIZE, 0, 0, 0, 0, 0}},
    {IPI, {APU, REQUEST_NODE, UART_0, ACCESS, 0, BLOCKING, 0}},
    {BOOT, {APU_1, 0x80000, 0}},
    {TICK, {1}},
    {IPI, {APU, REQUEST_WAKEUP, RPU_0, 0x10000 + 1, 0, BLOCKING, 0}},
    {WFI, {APU_1}},
};
enum { EVENTS = sizeof events / sizeof events[0], BROKEN = 1, MENDED = 3, BROKEN_OFF = 4 };

/* Carries out the events from one to another. With `ends` the program ends in the middle of the last one. */
static void carry_on(struct board *board, size_t first, size_t last, bool ends)
{
    for (size_t k = first; k <= last; k++) {
        board->refused = k >= BROKEN && k < MENDED ? UART_0 : NO_NODE;
        printf("event %u\n", (unsigned)k + 1);
        must(give(board->pmu, &events[k]), "an event");
        write_entry(board->journal, &events[k]);
        follow(board, ends && k == last);
    }
}

int main(int count, char **words)
{
    struct board broken, whole;
    if (count != 2) {
        fprintf(stderr, "usage: journal OBJECT\n");
        return 1;
    }
    printf("a program that ends in event %u, once the device has taken a command\n", (unsigned)BROKEN_OFF + 1);
    start(&broken, words[1]);
    carry_on(&broken, 0, BROKEN_OFF, true);
    fputs("6 1", broken.journal); /* and an entry was cut off */
    pmu_close(broken.pmu);
    broken.pmu = rebuild(words[1], broken.journal);
    follow(&broken, false);
    carry_on(&broken, BROKEN_OFF + 1, EVENTS - 1, false);

    printf("one that goes on\n");
    start(&whole, words[1]);
    carry_on(&whole, 0, EVENTS - 1, false);
    printf("they tell %s, and their devices have %s\n", are_alike(broken.pmu, whole.pmu) ? "the same" : "something else",
           memcmp(broken.values, whole.values, sizeof whole.values) == 0 ? "the same" : "something else");

    pmu_close(broken.pmu);
    broken.pmu = rebuild(words[1], broken.journal);
    printf("rebuilt once more it tells %s\n", are_alike(broken.pmu, whole.pmu) ? "the same" : "something else");
    pmu_close(broken.pmu);
    pmu_close(whole.pmu);
    fclose(broken.journal);
    fclose(whole.journal);
    return 0;
}
