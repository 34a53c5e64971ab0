/* Numbers of 128 bits as digits. */
#include "internal.h"

const char *tb_u128_text(tb_u128 number, char *text) {
    tb_uint128 value = tb_u128_value(number);
    char *at = text + TB_DIGITS - 1;
    *at = 0;
    do *--at = (char)('0' + (int)(value % 10));
    while (value /= 10);
    return memmove(text, at, (size_t)(text + TB_DIGITS - at));
}

bool tb_u128_read(const char *text, unsigned bits, tb_u128 *number) {
    const tb_uint128 most = ~(tb_uint128)0 >> (128 - bits);
    tb_uint128 value = 0;
    if (!*text) return false;
    for (; *text; text++) {
        unsigned digit = (unsigned)(*text - '0');
        if (digit > 9 || value > (most - digit) / 10) return false;
        value = value * 10 + digit;
    }
    *number = tb_u128_from(value);
    return true;
}
