#include "answer.h"

#include "say.h"
#include "store.h"

static const char *name_of(uint8_t answer)
{
    static const char *const names[] = {"done",    "malformed", "no store",    "foreign",    "image length", "busy",     "worn",
                                        "no room", "no object", "short reply", "host range", "stale",        "host full"};
    if (answer < sizeof names / sizeof names[0])
        return names[answer];
    if (answer == GROMMETIDE_PENDING)
        return "pending";
    return answer == GROMMETIDE_WRONG_RECORD ? "wrong record" : "unknown";
}

/* Answers that this program's own calls never get are its faults; a mount makes a new record. */
static const char *advice_on(uint8_t answer)
{
    switch (answer) {
    case GROMMETIDE_MALFORMED:
        return "an id is 0 to 255, a value has at most 240 bytes";
    case GROMMETIDE_NO_STORE:
        return "nothing is mounted; state says why";
    case GROMMETIDE_WORN:
        return "the creation time can't rise any more; read-only: commit or abort what is pending, then copy the objects";
    case GROMMETIDE_NO_ROOM:
        return "commit or abort what is pending, or delete objects and commit; deletes need less room";
    case GROMMETIDE_HOST_FULL:
        return "this host may have half a block pending: commit or abort first";
    case GROMMETIDE_PENDING:
        return "a host has changes pending: commit or abort them first";
    case GROMMETIDE_NO_OBJECT:
        return "no settled object has this id";
    case GROMMETIDE_HOST_RANGE:
        return "hosts are 0 to 3";
    default:
        return "this firmware should not get this answer; mount begins anew and drops what is pending";
    }
}

void say_answer(uint8_t answer)
{
    say_number(answer);
    say(" ");
    say(name_of(answer));
}

void say_result(uint8_t answer, uint32_t steps)
{
    say_answer(answer);
    if (answer != GROMMETIDE_DONE) {
        say(": ");
        say(advice_on(answer));
    } else if (steps > 0) {
        say(", ");
        say_count(steps, "step");
    }
    say_line("");
}

static void say_fault(void)
{
    static const char *const fields[] = {"-", "length", "kind", "host", "id", "finish", "time", "state", "rest", "crc"};
    struct store_fault fault;
    if (store_fault(&fault) != GROMMETIDE_FOREIGN || fault.field >= sizeof fields / sizeof fields[0])
        return;
    say(": block ");
    say_number(fault.block);
    say(" broke at its ");
    say(fields[fault.field]);
    say(", byte ");
    say_number(fault.place);
}

/* Why a mount is refused, by another look at the flash. */
static void say_reason(uint8_t answer)
{
    if (answer == GROMMETIDE_FOREIGN)
        say_fault();
    else if (answer == GROMMETIDE_WORN)
        say(": a transfer is needed, and the creation time can't rise any more");
    else if (answer == GROMMETIDE_NO_STORE)
        say(": no block is valid, and the chip is not blank");
    say_line("");
    say_line("Nothing was changed. Read the flash out first: dump. Only format yes helps, and it loses all objects.");
}

void say_mounted(uint8_t answer, uint32_t steps)
{
    say("mount: ");
    if (answer == GROMMETIDE_DONE) {
        say_result(answer, steps);
        if (store_is_worn())
            say_line("The creation time is the last one. The store is read-only: get, list and log work.");
        return;
    }
    say_answer(answer);
    if (answer == GROMMETIDE_NO_STORE && store_is_blank())
        say_line(": the chip is blank");
    else
        say_reason(answer);
}
