/* WebAssembly: what the module needs from outside is where its output goes. */
#include "program.h"

__attribute__((import_module("test"), import_name("write"))) void test_write(const uint8_t *bytes, uint32_t len);
__attribute__((import_module("test"), import_name("say"))) void test_say(const char *text);
__attribute__((import_module("test"), import_name("exit"))) _Noreturn void test_exit(int code);

void platform_write(const uint8_t *bytes, uint32_t len)
{
    test_write(bytes, len);
}

void platform_say(const char *text)
{
    test_say(text);
}

void platform_exit(int code)
{
    test_exit(code);
}
