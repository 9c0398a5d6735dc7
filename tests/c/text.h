/* Text on standard output. */
#ifndef TEXT_H
#define TEXT_H

#include <stddef.h>
#include <stdint.h>

void put_text(const char *text);
/* In decimal, a comma before every three digits. */
void put_number(uint64_t number);
/* The same, with spaces in front up to this width. */
void put_wide_number(uint64_t number, size_t width);
/* Two hexadecimal digits for each byte, 32 bytes to a line. */
void put_bytes(const uint8_t *bytes, size_t size);

#endif
