/*
 * Numbers as a person writes them, and texts put together from them. The caller sees to it that decimals are 1 to 17, and that a divisor is not 0
 * and ten times it is within 64 bits: neither is checked here.
 */
#ifndef FIGURES_H
#define FIGURES_H

#include <inttypes.h>
#include <stdarg.h>
#include <stdbool.h>
#include <stdio.h>
#include <string.h>

/* Decimals of a ratio, of a rotation in rad, of a force in kN, of a height in m and of k: the powers of ten of their scales. */
enum { RATIO_DECIMALS = 5, ROTATION_DECIMALS = 6, FORCE_DECIMALS = 1, HEIGHT_DECIMALS = 3, KNOWLEDGE_DECIMALS = 2 };

/* Decimals of a quotient: at least and at most. */
enum { QUOTIENT_DECIMALS = 4, QUOTIENT_DECIMALS_MOST = 17 };

/* A text that grows; what does not fit is left out. */
struct text {
    char bytes[1000];
    size_t length;
};

static void add(struct text *text, const char *format, ...)
{
    size_t room = sizeof text->bytes - text->length;
    va_list values;
    va_start(values, format);
    int length = vsnprintf(text->bytes + text->length, room, format, values);
    va_end(values);
    text->length += length < 0 ? 0 : (size_t)length < room ? (size_t)length : room - 1;
}

static uint64_t power_of_ten(int exponent)
{
    uint64_t power = 1;
    while (exponent-- > 0) {
        power *= 10;
    }
    return power;
}

/* A number of a scale with all its decimals. */
static void add_decimals(struct text *text, uint64_t number, int decimals)
{
    uint64_t scale = power_of_ten(decimals);
    add(text, "%" PRIu64 ".%0*" PRIu64, number / scale, decimals, number % scale);
}

/* The same less the zeros at its end; one decimal stays. */
static void add_figure(struct text *text, uint64_t number, int decimals)
{
    add_decimals(text, number, decimals);
    while (text->bytes[text->length - 1] == '0' && text->bytes[text->length - 2] != '.') {
        text->bytes[--text->length] = '\0';
    }
}

/* One more in the last of some decimals, with what it carries; 1 where it carries into the whole. */
static uint64_t count_up(char *digits, int decimals)
{
    for (int i = decimals - 1; i >= 0; i--) {
        if (digits[i] != '9') {
            digits[i]++;
            return 0;
        }
        digits[i] = '0';
    }
    return 1;
}

/* A quotient rounded to so many decimals. */
static void add_quotient(struct text *text, uint64_t number, uint64_t divisor, int decimals)
{
    char digits[QUOTIENT_DECIMALS_MOST + 1] = {0};
    uint64_t whole = number / divisor, rest = number % divisor;
    for (int i = 0; i < decimals; i++) {
        digits[i] = (char)('0' + 10 * rest / divisor);
        rest = 10 * rest % divisor;
    }
    if (2 * rest >= divisor) {
        whole += count_up(digits, decimals);
    }
    add(text, "%" PRIu64 ".%s", whole, digits);
}

/*
 * How many decimals to give two quotients: QUOTIENT_DECIMALS, or as many more as it takes until the two are written differently. Quotients
 * of divisors whose product is below 10^17 are, with QUOTIENT_DECIMALS_MOST, unless they are equal.
 */
static int decimals_apart(uint64_t number1, uint64_t divisor1, uint64_t number2, uint64_t divisor2)
{
    for (int decimals = QUOTIENT_DECIMALS; decimals <= QUOTIENT_DECIMALS_MOST; decimals++) {
        struct text one = {{0}, 0}, two = {{0}, 0};
        add_quotient(&one, number1, divisor1, decimals);
        add_quotient(&two, number2, divisor2, decimals);
        if (strcmp(one.bytes, two.bytes) != 0) {
            return decimals;
        }
    }
    return QUOTIENT_DECIMALS;
}

/* Prints a text as a line, less the blanks at its end. */
static void print_line(const struct text *text)
{
    int length = (int)text->length;
    while (length > 0 && text->bytes[length - 1] == ' ') {
        length--;
    }
    printf("%.*s\n", length, text->bytes);
}

/* Prints a text in lines of at most so many columns, broken at blanks. Every character of the text is a byte. */
static void print_wrapped(const struct text *text, int columns)
{
    int column = 0;
    for (const char *word = text->bytes; *word != '\0';) {
        int length = (int)strcspn(word, " ");
        bool fits = column + 1 + length <= columns;
        printf("%s%.*s", column == 0 ? "" : fits ? " " : "\n", length, word);
        column = column == 0 || !fits ? length : column + 1 + length;
        word += length + (word[length] == ' ');
    }
    putchar('\n');
}

#endif
