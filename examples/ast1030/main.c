/* A settings store on the SPI NOR chip of an AST1030, for four hosts, by commands over the serial line. */
#include "command.h"
#include "line.h"
#include "nor.h"
#include "say.h"
#include "start.h"
#include "store.h"
#include "uart.h"

int main(void)
{
    static char line[LINE_BYTES];
    uart_begin();
    const uint32_t id = nor_begin();
    say("Grommetide on an AST1030: ");
    say_count(STORE_BLOCKS, "block");
    say(" of ");
    say_count(NOR_SECTOR, "byte");
    say(" on chip ");
    say_hex(id, 6);
    say_line("");
    if (id == 0 || id == 0xFFFFFF) {
        say_line("flash: no chip answers. Stopped.");
        stop();
    }
    command_begin();
    say_line("help lists the commands.");
    for (;;) {
        if (line_read(line))
            command_run(line);
        else
            say_line("? the line is too long");
    }
}
