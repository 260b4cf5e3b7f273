#include "command.h"

#include "answer.h"
#include "say.h"
#include "start.h"
#include "store.h"
#include "words.h"

enum { PUT = 1, DELETE = 2, COMMIT = 3, ABORT = 4, CONVERT = 8 };

/* What the last mount or format ended with. */
static uint8_t mounted;

static void format(void)
{
    mounted = store_format();
    say("format: ");
    say_result(mounted, store_steps());
}

void command_begin(void)
{
    if (store_format_was_cut()) {
        say_line("Power was lost in a format. Formatting again.");
        format();
        return;
    }
    mounted = store_mount();
    say_mounted(mounted, store_steps());
    if (mounted == GROMMETIDE_NO_STORE && store_is_blank())
        format();
}

/* A host's request: the id and the value are in the body. */
static void ask(uint32_t host, uint8_t kind, uint8_t *message, uint32_t body)
{
    uint8_t answer = GROMMETIDE_WORN;
    const uint32_t len = 4 + body;
    message[0] = (uint8_t)len;
    message[1] = (uint8_t)(len >> 8);
    message[2] = kind;
    message[3] = 1;
    if ((kind != PUT && kind != DELETE) || !store_is_worn())
        answer = store_request((uint8_t)host, message, len);
    say_result(answer, answer == GROMMETIDE_DONE ? store_steps() : 0);
}

static int change(const char *rest, uint8_t kind)
{
    static uint8_t message[6 + VALUE_BYTES];
    uint32_t host, id = 0, len = 0;
    const int whole = kind != PUT && kind != DELETE;
    if (!read_number(&rest, 255, &host) || (!whole && !read_number(&rest, 65535, &id)))
        return 0;
    if ((kind == PUT && !read_value(&rest, message + 6, &len)) || !read_end(&rest))
        return 0;
    message[4] = (uint8_t)id;
    message[5] = (uint8_t)(id >> 8);
    ask(host, kind, message, whole ? 0 : 2 + len);
    return 1;
}

static int put(const char *rest)
{
    return change(rest, PUT);
}

static int delete(const char *rest)
{
    return change(rest, DELETE);
}

static int commit(const char *rest)
{
    return change(rest, COMMIT);
}

static int abort_changes(const char *rest)
{
    return change(rest, ABORT);
}

static int convert(const char *rest)
{
    return change(rest, CONVERT);
}

static int get(const char *rest)
{
    const uint8_t *value;
    uint32_t id, len;
    if (!read_number(&rest, 65535, &id) || !read_end(&rest))
        return 0;
    const uint8_t answer = store_read((uint16_t)id, &value, &len);
    if (answer != GROMMETIDE_DONE) {
        say_result(answer, 0);
        return 1;
    }
    say_answer(answer);
    say(": ");
    say_value(value, len);
    say_line("");
    return 1;
}

static int list(const char *rest)
{
    struct store_log log = {0};
    if (!read_end(&rest))
        return 0;
    const uint8_t answer = store_log(&log);
    for (uint16_t id = 0; log.objects > 0; id++) {
        const uint8_t *value;
        uint32_t len;
        if (store_read(id, &value, &len) != GROMMETIDE_DONE)
            continue;
        log.objects--;
        say_number(id);
        say(" = ");
        say_value(value, len);
        say_line("");
    }
    say_result(answer, 0);
    return 1;
}

static int log_page(const char *rest)
{
    struct store_log log;
    if (!read_end(&rest))
        return 0;
    const uint8_t answer = store_log(&log);
    if (answer != GROMMETIDE_DONE) {
        say_result(answer, 0);
        return 1;
    }
    say_answer(answer);
    say(": time ");
    say_number(log.time);
    say(", ");
    say_count(log.objects, "object");
    say(", ");
    say_number(log.used);
    say(" of ");
    say_number(log.block);
    say_line(" bytes used");
    return 1;
}

static int state(const char *rest)
{
    if (!read_end(&rest))
        return 0;
    say_mounted(mounted, 0);
    return 1;
}

static int mount(const char *rest)
{
    if (!read_end(&rest))
        return 0;
    command_begin();
    return 1;
}

static int format_if_meant(const char *rest)
{
    if (!read_word(&rest, "yes") || !read_end(&rest))
        return 0;
    format();
    return 1;
}

static int dump(const char *rest)
{
    uint32_t from, count;
    if (!read_number(&rest, STORE_BYTES - 1, &from) || !read_number(&rest, STORE_BYTES - from, &count) || !read_end(&rest))
        return 0;
    for (uint32_t i = 0; i < count; i++) {
        say_hex(store_image()[from + i], 2);
        say(i % 32 == 31 || i + 1 == count ? "\r\n" : "");
    }
    say_result(GROMMETIDE_DONE, 0);
    return 1;
}

static int stack(const char *rest)
{
    if (!read_end(&rest))
        return 0;
    say_answer(GROMMETIDE_DONE);
    say(": ");
    say_number(stack_used());
    say(" of ");
    say_count(stack_bytes(), "byte");
    say_line(" used at most");
    return 1;
}

static int help(const char *rest);

static const struct command {
    const char *name, *takes, *does;
    int (*run)(const char *rest);
} commands[] = {
    {"put", "HOST ID VALUE", "pending until the host commits; VALUE is \"text\", hex digits or - for none", put},
    {"delete", "HOST ID", "likewise", delete},
    {"commit", "HOST", "the host's pending changes become settled, all or none", commit},
    {"abort", "HOST", "the host's pending changes are dropped", abort_changes},
    {"convert", "HOST", "the store goes over to edition 2, whose frames have checksums; no way back except format", convert},
    {"get", "ID", "a settled value", get},
    {"list", "", "all settled values", list},
    {"log", "", "creation time, number of objects, bytes used", log_page},
    {"state", "", "what the last mount or format answered, and why", state},
    {"dump", "FROM COUNT", "bytes of the store's flash in hex, also where no store is mounted", dump},
    {"mount", "", "begin anew, as after power-up", mount},
    {"format", "yes", "make an empty store; all objects are lost", format_if_meant},
    {"stack", "", "how deep the stack has ever been", stack},
    {"help", "", "this list; hosts are 0 to 3, ids 0 to 255", help},
};

enum { COMMANDS = sizeof commands / sizeof commands[0] };

static void say_usage(const struct command *command)
{
    say(command->name);
    say(*command->takes != '\0' ? " " : "");
    say(command->takes);
}

static int help(const char *rest)
{
    if (!read_end(&rest))
        return 0;
    for (unsigned i = 0; i < COMMANDS; i++) {
        say_usage(&commands[i]);
        say(": ");
        say_line(commands[i].does);
    }
    return 1;
}

void command_run(const char *line)
{
    while (*line == ' ')
        line++;
    if (*line == '\0')
        return;
    for (unsigned i = 0; i < COMMANDS; i++) {
        const char *rest = line;
        if (!read_word(&rest, commands[i].name))
            continue;
        if (!commands[i].run(rest)) {
            say("? it goes like this: ");
            say_usage(&commands[i]);
            say_line("");
        }
        return;
    }
    say_line("? no such command; help lists them");
}
