/* The proved core of pmu as a library: a whole run in one call, and a power management controller behind a handle.
 *
 * Link libpmu.a and the three memory functions (see "Memory" below). docs/EMBEDDING.md says how, and has examples.
 *
 * A call answers at once and calls nothing of yours. What the controller asks of your device comes out as commands:
 * a step is an event, its commands one by one, each with your answer, and then what it tells.
 *
 *     pmu_ipi(pmu, 1, 13, 33, 1, 0, 2, 0);
 *     while (pmu_next(pmu, &command) == PMU_DONE)
 *         pmu_done(pmu, my_device(&command));
 *     pmu_text(pmu, 1, text, sizeof text, &written);
 *
 * What is proved of each call, for every call that meets the types below: it is safe, it ends, and it does what is
 * said here of the controller behind the handle and of the buffers; a call with one handle changes no other.
 * What is yours to keep: a handle comes from pmu_open and wasn't closed; one call at a time, by one thread; what a
 * handle points to is never copied; a size is that of the memory before it; pointers aren't null; the memory
 * functions.
 *
 * Memory: pmu_open takes the memory of a controller. Each other call with a handle takes a block of a few bytes and
 * gives it back (pmu_text a copy of the text too, pmu_is_beyond a list for each master), and answers PMU_NO_MEMORY
 * if it gets none. Blocks are taken by rattle_alloc, rattle_realloc and rattle_dealloc: libpmu_memory.a, which is built
 * beside the library, makes them of malloc, realloc and free, and without a C library they are yours to write: one
 * allocator; a block is aligned to each power of two up to 16 that divides its size. pmu_close frees the block that
 * pmu_open took.
 */
#ifndef PMU_H
#define PMU_H

#include <stdbool.h>
#include <stddef.h>
#include <stdint.h>

/* The version of this interface. While the first number is 0 another second one may change what is here; from 1 on a
 * program that is built for one version runs with each later one of the same first number. */
#define PMU_VERSION_MAJOR 0
#define PMU_VERSION_MINOR 1
#define PMU_VERSION_PATCH 0
#define PMU_VERSION (PMU_VERSION_MAJOR * 10000 + PMU_VERSION_MINOR * 100 + PMU_VERSION_PATCH)

#ifdef __cplusplus
extern "C" {
#endif

/* What a call answers. Those up to 15 are the exits of the program. Unless stated otherwise, any answer but PMU_DONE
 * means that nothing was done. */
enum {
    PMU_DONE = 0,          /* all was done */
    PMU_BAD_OBJECT = 2,    /* the bytes are no configuration object */
    PMU_BAD_LINE = 3,      /* a line of the script has no meaning; what stands before it was run */
    PMU_READ_FAULT = 4,    /* (no call of this library has a cause for it) */
    PMU_NO_ROOM = 5,       /* the text doesn't fit the buffer; as much as fits was written */
    PMU_NO_MEMORY = 6,     /* memory is wanted */
    PMU_TOO_LARGE = 7,     /* the script has more than 67108864 bytes; the lines up to there were run */
    PMU_COMMAND_LEFT = 16, /* a command of the last step waits for its answer */
    PMU_NO_COMMAND = 17,   /* no command waits for its answer */
    PMU_NO_NODE = 18,      /* the chip has no such node, or the object no such master */
    PMU_CLOSED = 19        /* the handle holds no controller */
};

/* The text of an answer, as `the text doesn't fit the buffer`; of a number that no call answers `an unknown answer`.
 * It is there as long as the program runs, and isn't freed. */
static inline const char *pmu_strerror(uint32_t answer)
{
    switch (answer) {
    case PMU_DONE:
        return "all was done";
    case PMU_BAD_OBJECT:
        return "the bytes are no configuration object";
    case PMU_BAD_LINE:
        return "a line of the script has no meaning";
    case PMU_READ_FAULT:
        return "the input can't be read";
    case PMU_NO_ROOM:
        return "the text doesn't fit the buffer";
    case PMU_NO_MEMORY:
        return "memory is wanted";
    case PMU_TOO_LARGE:
        return "the script is too large";
    case PMU_COMMAND_LEFT:
        return "a command of the last step waits for its answer";
    case PMU_NO_COMMAND:
        return "no command waits for its answer";
    case PMU_NO_NODE:
        return "the chip has no such node, or the object no such master";
    case PMU_CLOSED:
        return "the handle holds no controller";
    default:
        return "an unknown answer";
    }
}

/* The version of the library that was linked or loaded, as PMU_VERSION says that of the header. */
uint32_t pmu_version(void);

/* ---- A whole run ------------------------------------------------------------------------------------------------ */

/* Runs a script over a configuration object, the topology of the chip and a new device in memory, as `pmu replay
 * OBJ SCRIPT` does, but with no modules and no timed tasks. The text of the run goes to `text`, of which `size`
 * bytes may be written, and *written is how many were.
 * PMU_DONE: exactly the text of the run was written (proved). PMU_BAD_OBJECT, PMU_BAD_LINE, PMU_TOO_LARGE: the text
 * ends with the fault line, which is cut off at `size` if it doesn't fit. PMU_NO_ROOM: the text breaks off at `size`.
 * PMU_NO_MEMORY: it is empty or the line `fault memory`. The buffers are yours, and nothing of them is kept. */
uint32_t pmu_replay(const uint8_t *object, size_t object_size, const uint8_t *script, size_t script_size,
                    uint8_t *text, size_t size, size_t *written);

/* ---- A controller ----------------------------------------------------------------------------------------------- */

/* What a handle points to. Never read, write or copy it. */
struct pmu {
    void *owned;
};

/* Loads a controller for a configuration object, over the topology of the chip, and hands its handle out in
 * *handle. Step 0 has begun: its commands bring a device of which each unit stands at 0 to the book at load.
 * Nothing of the object's bytes is kept. PMU_DONE, PMU_BAD_OBJECT, PMU_NO_MEMORY; *handle is written with PMU_DONE
 * alone. */
uint32_t pmu_open(const uint8_t *object, size_t object_size, struct pmu **handle);

/* Ends a controller: pmu_close(pmu). pmu_end gives back what the handle owns; the block that it points to was taken
 * by rattle_alloc too, so with libpmu_memory.a it is freed by `free`. */
void pmu_end(struct pmu pmu);
#ifndef PMU_NO_LIBC
#include <stdlib.h>
static inline void pmu_close(struct pmu *pmu)
{
    pmu_end(*pmu);
    free(pmu);
}
#endif

/* Events. Each begins a step. PMU_DONE; PMU_COMMAND_LEFT while a command of the step before waits; PMU_NO_MEMORY. */
uint32_t pmu_ipi(struct pmu *pmu, uint32_t master, uint32_t api, uint32_t a1, uint32_t a2, uint32_t a3,
                 uint32_t a4, uint32_t a5);                          /* a message of a master (UG1200) */
uint32_t pmu_boot(struct pmu *pmu, uint32_t proc, uint64_t address); /* a boot loader starts a processor */
uint32_t pmu_wfi(struct pmu *pmu, uint32_t proc);                    /* a processor waits for an interrupt */
uint32_t pmu_gic(struct pmu *pmu, uint32_t proc);                    /* an interrupt at a processor itself */
uint32_t pmu_irq(struct pmu *pmu, uint32_t slave);                   /* a slave raises its interrupt */
uint32_t pmu_tick(struct pmu *pmu, uint32_t count);                  /* units of time pass */

/* A command to the device: a unit goes to a value. */
struct pmu_command {
    uint32_t line;   /* 0: a node, of a slave its state, of a power node or a processor 1 or 0; 1: a reset line */
    uint32_t number; /* of the node or the line */
    uint32_t value;
};

/* The command that waits for its answer: the next one of the step, and the same one again until pmu_done.
 * PMU_DONE: *command is it. PMU_NO_COMMAND: the step is over. PMU_NO_MEMORY. Else *command stays as it was. */
uint32_t pmu_next(struct pmu *pmu, struct pmu_command *command);

/* The device took the command that waits (ok), or failed it: then it is given again in a later step, until the
 * device takes it. PMU_DONE; PMU_NO_COMMAND where none waits; PMU_NO_MEMORY. */
uint32_t pmu_done(struct pmu *pmu, bool ok);

/* Whether the step is over, and the device took the book's value for each unit. PMU_DONE, PMU_NO_MEMORY. */
uint32_t pmu_is_settled(struct pmu *pmu, bool *settled);

/* ---- What is told ----------------------------------------------------------------------------------------------- */

/* The lines of the last step, as `pmu replay` writes them (docs/FORMATS.md, "The output"), each after this number,
 * go to `text`, of which `size` bytes may be written, and *written is how many were.
 * PMU_DONE: exactly those lines. PMU_NO_ROOM: it breaks off at `size`. PMU_COMMAND_LEFT: the step isn't over,
 * *written is 0. PMU_NO_MEMORY: *written is 0. */
uint32_t pmu_text(struct pmu *pmu, uint32_t number, uint8_t *text, size_t size, size_t *written);

/* The value of a node in the book: of a slave its state, of a power node 1 if it is up, of a processor 1 if it runs
 * or suspends, and else 0. PMU_DONE, PMU_NO_NODE, PMU_NO_MEMORY. */
uint32_t pmu_value(struct pmu *pmu, uint32_t node, uint32_t *value);

/* The mode of a processor: 0 off, 1 active, 2 asleep, 3 suspending. PMU_DONE, PMU_NO_NODE, PMU_NO_MEMORY. */
uint32_t pmu_mode(struct pmu *pmu, uint32_t proc, uint32_t *mode);

/* The three words that PM_GET_NODE_STATUS (UG1200) tells a master of a node. */
struct pmu_status {
    uint32_t state;       /* of a slave its state, of a power node 1 if it is up, of a processor its mode */
    uint32_t requirement; /* the capabilities that the master requires of a slave now: 1 access, 2 context, 4 wake-up */
    uint32_t usage;       /* who uses a slave: 0 nobody, 1 the master alone, 2 other masters alone, 3 both */
};

/* The status of a node as the master is told it, without a message: no step begins, and the master may be in any
 * mode. Of a node that is no slave `requirement` and `usage` are 0. PMU_DONE: *status has exactly the words that
 * this call tells the master from the book as it is (proved). PMU_NO_NODE: the chip has no such node, or the object
 * no such master. PMU_NO_MEMORY. But for PMU_DONE *status stays as it was. */
uint32_t pmu_node_status(struct pmu *pmu, uint32_t master, uint32_t node, struct pmu_status *status);

/* Whether a message of the master `sender` is beyond the reach of the master `of`: `sender` is beyond it, and so is
 * each node that the message names, or the reset line whose value it asks for. The reach of a master is what `pmu
 * reach` prints: by what the object permits, all that its messages can change, by themselves or by way of masters
 * that they wake or stop. A message that is beyond it is answered the same whatever messages `of` sends, before the
 * device's failures are told (proved of two runs, one of them without the messages of `of`). All is beyond the
 * reach of a number that is no configured master, and such a number as `sender` counts as beyond. So with `sender`
 * 0 the answer is of the nodes alone: whether each that the message names is beyond the reach of `of`, whoever
 * sends it. A message that names no node is beyond then, and so is a number that no node of the chip has.
 * PMU_DONE: *beyond is the answer. PMU_NO_MEMORY: it stays as it was. */
uint32_t pmu_is_beyond(struct pmu *pmu, uint32_t of, uint32_t sender, uint32_t api, uint32_t a1, uint32_t a2,
                       uint32_t a3, uint32_t a4, uint32_t a5, bool *beyond);

#ifdef __cplusplus
}
#endif

#endif
