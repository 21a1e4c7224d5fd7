/* misuse OBJECT: what goes wrong, and what the library then answers: calls out of order, numbers of nothing, too little
 * room, bytes that are no object, and memory that is refused. Prints each check that fails, and at the end how many held.
 *
 * It has the three memory functions itself, so libpmu_memory.a isn't linked: they count, and refuse what they are told
 * to. What isn't tried here is what nobody may do: a handle that was closed, or is used by two threads at once. */
#include "files.h"
#include <string.h>

/* Numbers of UG1200. */
enum { GET_NODE_STATUS = 3, REQUEST_NODE = 13, INIT_FINALIZE = 21, ACCESS = 1, BLOCKING = 2 };
enum { APU = 1, APU_1 = 3, RPU_0 = 7, UART_0 = 33 };
enum { NOTHING = 99, UNWRITTEN = 0xA5, ROOM = 8192 };

static unsigned held, failed;

static void check(const char *what, unsigned long is, unsigned long wanted)
{
    if (is == wanted) {
        held++;
        return;
    }
    printf("%s: %lu, and not %lu\n", what, is, wanted);
    failed++;
}

/* ---- Memory ---- */

struct tried {
    bool ok;
    uint8_t *block;
};

/* How often memory was asked for; the time at which it is refused, from 1; how many blocks are there. */
static unsigned long asked, refused_at, blocks;

static struct tried try_block(void *block)
{
    static uint8_t none;
    struct tried tried = {block != NULL, block != NULL ? block : &none};
    return tried;
}

struct tried rattle_alloc(size_t size, size_t align)
{
    void *block = ++asked == refused_at ? NULL : malloc(size != 0 ? size : align);
    blocks += block != NULL;
    return try_block(block);
}

struct tried rattle_realloc(uint8_t *block, size_t kept, size_t size, size_t align)
{
    (void)kept;
    return try_block(++asked == refused_at ? NULL : realloc(block, size != 0 ? size : align));
}

void rattle_dealloc(uint8_t *block)
{
    blocks--;
    free(block);
}

/* Ends a controller, by these functions. */
static void close_handle(struct pmu *pmu)
{
    pmu_end(*pmu);
    rattle_dealloc((uint8_t *)pmu);
}

/* ---- What is tried ---- */

static const uint8_t *object;
static size_t object_size;

/* A controller whose load is carried out. */
static struct pmu *loaded(void)
{
    struct pmu_command command;
    struct pmu *pmu = NULL;
    must(pmu_open(object, object_size, &pmu), "pmu_open");
    while (pmu_next(pmu, &command) == PMU_DONE)
        must(pmu_done(pmu, true), "pmu_done");
    return pmu;
}

/* The library is that of the header; each answer has its text, and each text is of one answer. */
static void version_and_texts(void)
{
    static const uint32_t answers[] = {PMU_DONE,     PMU_BAD_OBJECT, PMU_BAD_LINE,     PMU_READ_FAULT, PMU_NO_ROOM, PMU_NO_MEMORY,
                                       PMU_TOO_LARGE, PMU_COMMAND_LEFT, PMU_NO_COMMAND, PMU_NO_NODE,    PMU_CLOSED};
    enum { ANSWERS = sizeof answers / sizeof answers[0] };
    const char *unknown = pmu_strerror(1);
    unsigned named = 0;
    for (uint32_t answer = 0; answer < 300; answer++)
        named += strcmp(pmu_strerror(answer), unknown) != 0;
    check("answers with a text", named, ANSWERS);
    for (unsigned k = 0; k < ANSWERS; k++)
        for (unsigned j = 0; j < k; j++)
            check("two answers have one text", strcmp(pmu_strerror(answers[k]), pmu_strerror(answers[j])) == 0, 0);
    check("a text", strcmp(pmu_strerror(PMU_NO_ROOM), "the text doesn't fit the buffer"), 0);
    check("the version", pmu_version(), PMU_VERSION);
    check("an unknown answer", strcmp(pmu_strerror(UINT32_MAX), "an unknown answer"), 0);
}

/* While a command waits each event is refused, and so is the text; where none waits there is nothing to answer. */
static void calls_out_of_order(void)
{
    struct pmu *pmu = loaded();
    struct pmu_command first, again = {NOTHING, NOTHING, NOTHING};
    uint8_t text[4] = {UNWRITTEN, 0, 0, 0};
    size_t written = NOTHING;
    bool settled = true;
    check("an answer to nothing", pmu_done(pmu, true), PMU_NO_COMMAND);
    check("a command of nothing", pmu_next(pmu, &again), PMU_NO_COMMAND);
    check("it isn't written", again.number, NOTHING);
    must(pmu_ipi(pmu, APU, INIT_FINALIZE, 0, 0, 0, 0, 0), "INIT_FINALIZE");
    must(pmu_next(pmu, &first), "pmu_next");
    check("a message in a step", pmu_ipi(pmu, APU, GET_NODE_STATUS, UART_0, 0, 0, 0, 0), PMU_COMMAND_LEFT);
    check("a boot in a step", pmu_boot(pmu, RPU_0, 0), PMU_COMMAND_LEFT);
    check("a wait in a step", pmu_wfi(pmu, APU_1), PMU_COMMAND_LEFT);
    check("an interrupt of a processor in a step", pmu_gic(pmu, APU_1), PMU_COMMAND_LEFT);
    check("an interrupt of a slave in a step", pmu_irq(pmu, UART_0), PMU_COMMAND_LEFT);
    check("a tick in a step", pmu_tick(pmu, 1), PMU_COMMAND_LEFT);
    check("the text in a step", pmu_text(pmu, 1, text, sizeof text, &written), PMU_COMMAND_LEFT);
    check("nothing of it is told", written, 0);
    check("nothing of it is written", text[0], UNWRITTEN);
    must(pmu_next(pmu, &again), "pmu_next");
    check("the command still waits", memcmp(&first, &again, sizeof first), 0);
    must(pmu_is_settled(pmu, &settled), "pmu_is_settled");
    check("nothing is settled in a step", settled, false);
    close_handle(pmu); /* with a command that waits */
}

/* Numbers that nothing has. An event of one changes nothing, and a read of one writes nothing. */
static void numbers_of_nothing(void)
{
    struct pmu *pmu = loaded();
    struct pmu_command command;
    struct pmu_status status = {NOTHING, NOTHING, NOTHING};
    uint32_t value = NOTHING;
    bool beyond = false;
    uint8_t text[64];
    size_t written = NOTHING;
    for (uint32_t number = NOTHING; number != 0; number = number == NOTHING ? UINT32_MAX : 0) {
        check("a message of nobody", pmu_ipi(pmu, number, number, number, number, number, number, number), PMU_DONE);
        check("has no command", pmu_next(pmu, &command), PMU_NO_COMMAND);
        must(pmu_text(pmu, number, text, sizeof text, &written), "pmu_text");
        check("and is dropped", written > 6 && strncmp((char *)text + strcspn((char *)text, " "), " drop ", 6) == 0, true);
        check("a call that isn't there", pmu_ipi(pmu, APU, number, 0, 0, 0, 0, 0), PMU_DONE);
        check("a boot of nothing", pmu_boot(pmu, number, UINT64_MAX), PMU_DONE);
        check("a wait of nothing", pmu_wfi(pmu, number), PMU_DONE);
        check("an interrupt at nothing", pmu_gic(pmu, number), PMU_DONE);
        check("an interrupt of nothing", pmu_irq(pmu, number), PMU_DONE);
        check("time without end", pmu_tick(pmu, number), PMU_DONE);
        check("has no command", pmu_next(pmu, &command), PMU_NO_COMMAND);
        must(pmu_text(pmu, 1, text, sizeof text, &written), "pmu_text");
        check("and tells nothing", written, 0);
        check("the value of nothing", pmu_value(pmu, number, &value), PMU_NO_NODE);
        check("the mode of nothing", pmu_mode(pmu, number, &value), PMU_NO_NODE);
        check("the mode of a slave", pmu_mode(pmu, UART_0, &value), PMU_NO_NODE);
        check("isn't written", value, NOTHING);
        check("the status to nobody", pmu_node_status(pmu, number, UART_0, &status), PMU_NO_NODE);
        check("the status of nothing", pmu_node_status(pmu, APU, number, &status), PMU_NO_NODE);
        check("isn't written", status.state + status.requirement + status.usage, 3 * NOTHING);
        must(pmu_is_beyond(pmu, number, number, number, number, number, number, number, number, &beyond), "pmu_is_beyond");
        check("all is beyond nobody", beyond, true);
    }
    close_handle(pmu);
}

/* Runs a script over the object. */
static uint32_t run(const char *script, uint8_t *text, size_t size, size_t *written)
{
    return pmu_replay(object, object_size, (const uint8_t *)script, strlen(script), text, size, written);
}

/* A text with too little room: as much as fits, and no byte more. */
static void too_little_room(void)
{
    static const char script[] = "ipi 1 21\nipi 1 13 33 1 0 2\n";
    static uint8_t whole[ROOM], text[ROOM];
    size_t length = 0, written = 0;
    must(run(script, whole, ROOM, &length), "pmu_replay");
    for (size_t size = 0; size < length; size += 7) {
        memset(text, UNWRITTEN, sizeof text);
        check("a run without room", run(script, text, size, &written), PMU_NO_ROOM);
        check("is written in part", written == size && memcmp(text, whole, size) == 0 && text[size] == UNWRITTEN, true);
    }
    struct pmu *pmu = loaded();
    must(pmu_text(pmu, 0, whole, ROOM, &length), "pmu_text");
    for (size_t size = 0; size < length; size++) {
        memset(text, UNWRITTEN, sizeof text);
        check("lines without room", pmu_text(pmu, 0, text, size, &written), PMU_NO_ROOM);
        check("are written in part", written == size && memcmp(text, whole, size) == 0 && text[size] == UNWRITTEN, true);
    }
    check("lines with room for them alone", pmu_text(pmu, 0, text, length, &written), PMU_DONE);
    check("are written", written == length && memcmp(text, whole, length) == 0 && text[length] == UNWRITTEN, true);
    close_handle(pmu);
}

/* Bytes that are no object, and scripts that are none. */
static void bad_bytes(void)
{
    static uint8_t text[ROOM], broken[65536];
    size_t written = 0, large = 67108864 + 1;
    struct pmu *pmu = NULL;
    for (size_t size = 0; size < object_size; size++)
        check("a part of an object", pmu_open(object, size, &pmu), PMU_BAD_OBJECT);
    check("has no handle", pmu == NULL, true);
    for (size_t k = 0; k < object_size; k++) {
        memcpy(broken, object, object_size);
        broken[k] ^= 0x81;
        uint32_t answer = pmu_open(broken, object_size, &pmu);
        check("an object with another byte", answer == PMU_DONE || answer == PMU_BAD_OBJECT, true);
        if (answer == PMU_DONE)
            close_handle(pmu);
    }
    check("a run over no object", pmu_replay(object, 3, object, 0, text, ROOM, &written), PMU_BAD_OBJECT);
    check("tells its fault", written > 13 && memcmp(text, "fault object ", 13) == 0, true);
    check("an object for a script", pmu_replay(object, object_size, object, object_size, text, ROOM, &written), PMU_BAD_LINE);
    uint8_t *script = malloc(large);
    if (script == NULL)
        exit(1);
    memset(script, '#', large);
    for (size_t k = 255; k < large; k += 256)
        script[k] = '\n';
    check("a script without end", pmu_replay(object, object_size, script, large, text, ROOM, &written), PMU_TOO_LARGE);
    check("the largest script", pmu_replay(object, object_size, script, large - 1, text, ROOM, &written), PMU_DONE);
    free(script);
}

/* ---- Memory that is refused ---- */

/* What a call answers, and if memory was wanted once more: only one block in a run is refused. */
#define TWICE(call) (answer = (call), answer == PMU_NO_MEMORY ? (wanting++, answer = (call)) : answer)

/* A run of a controller, and all that it tells, in `told`; how often a call wanted memory, or 99 if one answered so twice. */
static unsigned told_with(char *told)
{
    struct pmu *pmu = NULL;
    struct pmu_command command;
    struct pmu_status status;
    uint32_t answer, value = 0, wanting = 0;
    uint8_t text[1024];
    size_t written = 0;
    bool settled = false, beyond = false;
    TWICE(pmu_open(object, object_size, &pmu));
    for (uint32_t step = 0; step < 3 && answer == PMU_DONE; step++) {
        while (TWICE(pmu_next(pmu, &command)) == PMU_DONE) {
            TWICE(pmu_done(pmu, command.number != UART_0));
            told += sprintf(told, "%u to %u\n", (unsigned)command.number, (unsigned)command.value);
        }
        TWICE(pmu_text(pmu, step, text, sizeof text, &written));
        TWICE(pmu_value(pmu, UART_0, &value));
        TWICE(pmu_mode(pmu, RPU_0, &value));
        TWICE(pmu_node_status(pmu, APU, UART_0, &status));
        TWICE(pmu_is_beyond(pmu, RPU_0, APU, REQUEST_NODE, UART_0, 0, 0, 0, 0, &beyond));
        TWICE(pmu_is_settled(pmu, &settled));
        told += sprintf(told, "%.*s%u %u %u %d %d\n", (int)written, (char *)text, (unsigned)value, (unsigned)status.state,
                        (unsigned)status.usage, beyond, settled);
        TWICE(step == 0 ? pmu_boot(pmu, RPU_0, 0) : pmu_ipi(pmu, RPU_0, REQUEST_NODE, UART_0, ACCESS, 0, BLOCKING, 0));
    }
    if (pmu != NULL)
        close_handle(pmu);
    return answer == PMU_DONE ? wanting : NOTHING;
}

/* Each block that a controller asks for is refused, one in each run: the call says so, and done again it tells the same. */
static void memory_of_a_handle(void)
{
    static char whole[ROOM], told[ROOM];
    asked = 0, refused_at = 0;
    check("memory that is there", told_with(whole), 0);
    unsigned long needed = asked;
    check("some is asked for", needed > 20, true);
    for (unsigned long k = 1; k <= needed; k++) {
        asked = 0, refused_at = k;
        check("memory that is refused once", told_with(told), 1);
        check("changes nothing", strcmp(told, whole), 0);
        check("each block is given back", blocks, 0);
    }
    refused_at = 0;
}

/* Each block of a whole run is refused: the run says so, or has done with less. */
static void memory_of_a_run(void)
{
    static const char script[] = "ipi 1 21\nboot 7 0\n";
    static uint8_t whole[ROOM], text[ROOM];
    size_t length = 0, written = 0;
    asked = 0;
    must(run(script, whole, ROOM, &length), "pmu_replay");
    unsigned long needed = asked;
    for (unsigned long k = 1; k <= needed; k++) {
        asked = 0, refused_at = k;
        uint32_t answer = run(script, text, ROOM, &written);
        bool fault = written == 0 || (written == 13 && memcmp(text, "fault memory\n", 13) == 0);
        bool done = written == length && memcmp(text, whole, length) == 0;
        check("a run without memory", answer == PMU_NO_MEMORY ? fault : answer == PMU_DONE && done, true);
        check("each block is given back", blocks, 0);
    }
    refused_at = 0;
}

int main(int count, char **words)
{
    if (count != 2) {
        fprintf(stderr, "usage: misuse OBJECT\n");
        return 1;
    }
    object = read_file(words[1], &object_size);
    version_and_texts();
    calls_out_of_order();
    numbers_of_nothing();
    too_little_room();
    bad_bytes();
    memory_of_a_handle();
    memory_of_a_run();
    check("each block was given back", blocks, 0);
    free((void *)object);
    printf(failed == 0 && held > 2000 ? "all held\n" : "%u held, %u failed\n", held, failed);
    return failed != 0;
}
