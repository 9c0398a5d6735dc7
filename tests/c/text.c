#include "text.h"
#include "sys.h"

enum { DIGITS = 27 };

static void put(const char *text, size_t size)
{
    while (size > 0) {
        long written = write(STANDARD_OUTPUT, text, size);
        if (written <= 0)
            return;
        text += written;
        size -= (size_t)written;
    }
}

void put_text(const char *text)
{
    size_t size = 0;
    while (text[size] != 0)
        size++;
    put(text, size);
}

void put_wide_number(uint64_t number, size_t width)
{
    char digits[DIGITS];
    size_t at = DIGITS, left = 3;
    do {
        if (left == 0) {
            digits[--at] = ',';
            left = 3;
        }
        digits[--at] = (char)('0' + number % 10);
        number /= 10;
        left--;
    } while (number > 0);
    for (size_t size = DIGITS - at; size < width; size++)
        put(" ", 1);
    put(digits + at, DIGITS - at);
}

void put_number(uint64_t number)
{
    put_wide_number(number, 0);
}

void put_bytes(const uint8_t *bytes, size_t size)
{
    static const char digits[] = "0123456789abcdef";
    for (size_t i = 0; i < size; i++) {
        char text[3] = {digits[bytes[i] / 16], digits[bytes[i] % 16], i % 32 == 31 ? '\n' : ' '};
        put(text, 3);
    }
    put_text("\n");
}
