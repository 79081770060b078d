/* A C library of what small programs need: libguest.so. */
#include "ldso.h"
#include "stdio.h"
#include "stdlib.h"
#include "string.h"
#include <stdarg.h>

void *memmove(void *to, const void *from, size_t count)
{
    unsigned char *target = to;
    const unsigned char *source = from;
    if (target <= source) {
        for (size_t i = 0; i < count; i++)
            target[i] = source[i];
    } else {
        while (count--)
            target[count] = source[count];
    }
    return to;
}

void *memcpy(void *to, const void *from, size_t count)
{
    unsigned char *target = to;
    const unsigned char *source = from;
    for (size_t i = 0; i < count; i++)
        target[i] = source[i];
    return to;
}

void *memset(void *to, int byte, size_t count)
{
    unsigned char *target = to;
    for (size_t i = 0; i < count; i++)
        target[i] = (unsigned char)byte;
    return to;
}

int memcmp(const void *left, const void *right, size_t count)
{
    const unsigned char *a = left, *b = right;
    for (size_t i = 0; i < count; i++)
        if (a[i] != b[i])
            return a[i] - b[i];
    return 0;
}

size_t strlen(const char *text)
{
    size_t count = 0;
    while (text[count])
        count++;
    return count;
}

int strncmp(const char *left, const char *right, size_t count)
{
    for (size_t i = 0; i < count; i++) {
        unsigned char a = (unsigned char)left[i], b = (unsigned char)right[i];
        if (a != b || !a)
            return a - b;
    }
    return 0;
}

int strcmp(const char *left, const char *right)
{
    return strncmp(left, right, (size_t)-1);
}

char *strcpy(char *to, const char *from)
{
    size_t i = 0;
    do
        to[i] = from[i];
    while (from[i++]);
    return to;
}

char *strchr(const char *text, int byte)
{
    for (;; text++) {
        if (*text == (char)byte)
            return (char *)text;
        if (!*text)
            return 0;
    }
}

/* Places are 16 bytes apart; harts take theirs by one atomic addition. */
static unsigned char heap[64 * 1024] __attribute__((aligned(16)));
static size_t taken;

void *malloc(size_t size)
{
    if (size > sizeof heap)
        return 0;
    size_t room = size ? (size + 15) & ~(size_t)15 : 16;
    size_t place = __atomic_load_n(&taken, __ATOMIC_RELAXED);
    do {
        if (room > sizeof heap - place)
            return 0;
    } while (!__atomic_compare_exchange_n(&taken, &place, place + room, 0, __ATOMIC_RELAXED, __ATOMIC_RELAXED));
    return heap + place;
}

void *calloc(size_t count, size_t size)
{
    if (size && count > sizeof heap / size)
        return 0;
    return malloc(count * size);
}

void free(void *place) { (void)place; }

void exit(int code) { ldso_exit(code); }

/* A text on its way out. What one call prints is one write where it has at most 256 bytes, so that harts which print
 * at once don't mix their words. */
struct text {
    char bytes[256];
    unsigned long count;
    int all;
};

static void send(struct text *text)
{
    if (text->count)
        ldso_write(1, text->bytes, text->count);
    text->count = 0;
}

static void put(struct text *text, char byte)
{
    if (text->count == sizeof text->bytes)
        send(text);
    text->bytes[text->count++] = byte;
    text->all++;
}

static void put_number(struct text *text, unsigned long value, unsigned base, int is_negative, int width, char fill)
{
    char digits[24];
    int count = 0;
    do {
        digits[count++] = "0123456789abcdef"[value % base];
        value /= base;
    } while (value);
    int length = count + is_negative;
    if (is_negative && fill == '0')
        put(text, '-');
    for (; length < width; length++)
        put(text, fill);
    if (is_negative && fill != '0')
        put(text, '-');
    while (count)
        put(text, digits[--count]);
}

static void put_text(struct text *text, const char *from, int width)
{
    int length = 0;
    if (!from)
        from = "(null)";
    while (from[length])
        length++;
    for (; length < width; length++)
        put(text, ' ');
    while (*from)
        put(text, *from++);
}

int printf(const char *format, ...)
{
    struct text text;
    text.count = 0;
    text.all = 0;
    va_list values;
    va_start(values, format);
    for (const char *at = format; *at; at++) {
        if (*at != '%') {
            put(&text, *at);
            continue;
        }
        at++;
        char fill = *at == '0' ? '0' : ' ';
        int width = 0;
        for (; *at >= '0' && *at <= '9'; at++)
            width = 10 * width + (*at - '0');
        int is_long = 0;
        for (; *at == 'l' || *at == 'z'; at++)
            is_long = 1;
        switch (*at) {
        case 'd':
        case 'i': {
            long value = is_long ? va_arg(values, long) : va_arg(values, int);
            unsigned long size = value < 0 ? -(unsigned long)value : (unsigned long)value;
            put_number(&text, size, 10, value < 0, width, fill);
            break;
        }
        case 'u':
        case 'x': {
            unsigned long value = is_long ? va_arg(values, unsigned long) : va_arg(values, unsigned);
            put_number(&text, value, *at == 'x' ? 16 : 10, 0, width, fill);
            break;
        }
        case 'p':
            put_text(&text, "0x", 0);
            put_number(&text, (unsigned long)va_arg(values, void *), 16, 0, 0, ' ');
            break;
        case 'c': put(&text, (char)va_arg(values, int)); break;
        case 's': put_text(&text, va_arg(values, const char *), width); break;
        case '\0': at--; break;
        default: put(&text, *at);
        }
    }
    va_end(values);
    send(&text);
    return text.all;
}

int puts(const char *line) { return printf("%s\n", line); }

int putchar(int byte)
{
    char one = (char)byte;
    return ldso_write(1, &one, 1) == 1 ? (unsigned char)byte : -1;
}
