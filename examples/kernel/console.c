/* console.c: the two serial ports, which QEMU has set up, and how the machine is switched off. */
#include "machine.h"
#include <stdarg.h>
static void put_byte(uint16_t port, char byte) {
    while ((in8(port + 5) & 0x20) == 0) relax();
    out8(port, (uint8_t)byte);
}

static void put_number(uint16_t port, uint64_t number) {
    if (number >= 10) put_number(port, number / 10);
    put_byte(port, (char)('0' + number % 10));
}

void put_out(uint16_t port, const char *format, ...) {
    va_list words;
    va_start(words, format);
    for (; *format != 0; format++) {
        if (*format != '%') put_byte(port, *format);
        else if (*++format == 'u') put_number(port, va_arg(words, uint64_t));
        else
            for (const char *text = va_arg(words, const char *); *text != 0; text++) put_byte(port, *text);
    }
    va_end(words);
}

/* Ends QEMU by its device isa-debug-exit, with status 2 * status + 1. */
_Noreturn void power_off(uint8_t status) {
    for (;; relax()) out8(0xf4, status);
}

_Noreturn void stop(const char *what, uint64_t number) {
    static atomic_flag is_told = ATOMIC_FLAG_INIT;
    while (atomic_flag_test_and_set(&is_told)) relax(); /* the first processor tells, and switches off */
    put_out(NOTES, "processor %u stopped: %s: %u\n", (uint64_t)this_processor(), what, number);
    power_off(1);
}

/* switch.S calls this with what a fault pushed: its number, maybe an error, and where it was. */
_Noreturn void fault(const uint64_t *pushed) {
    put_out(NOTES, "the fault pushed %u, %u, %u\n", pushed[1], pushed[2], pushed[3]);
    stop("fault", pushed[0]);
}
