/* What SQLite asks of a C library. Words are copied as words, since the monitor follows no address of code by its bytes. */
typedef unsigned long size;
typedef unsigned char byte;

void *memcpy(void *to, const void *from, size n) {
    byte *a = to;
    const byte *b = from;
    if ((((size)a | (size)b) & 3) == 0)
        for (; n >= 4; n -= 4, a += 4, b += 4)
            *(size *)a = *(const size *)b;
    while (n--)
        *a++ = *b++;
    return to;
}

void *memmove(void *to, const void *from, size n) {
    byte *a = to;
    const byte *b = from;
    if (a <= b)
        return memcpy(to, from, n);
    if ((((size)a | (size)b | n) & 3) == 0)
        while (n -= 4, n + 4)
            *(size *)(a + n) = *(const size *)(b + n);
    else
        while (n--)
            a[n] = b[n];
    return to;
}

void *memset(void *to, int value, size n) {
    for (byte *a = to; n--;)
        *a++ = value;
    return to;
}

int memcmp(const void *first, const void *second, size n) {
    const byte *a = first, *b = second;
    for (; n--; a++, b++)
        if (*a != *b)
            return *a - *b;
    return 0;
}

size strlen(const char *text) {
    size n = 0;
    while (text[n])
        n++;
    return n;
}

int strncmp(const char *a, const char *b, size n) {
    for (; n--; a++, b++) {
        if (*a != *b)
            return (byte)*a - (byte)*b;
        if (!*a)
            return 0;
    }
    return 0;
}

int strcmp(const char *a, const char *b) { return strncmp(a, b, -1); }

char *strncpy(char *to, const char *from, size n) {
    size i = 0;
    for (; i < n && from[i]; i++)
        to[i] = from[i];
    for (; i < n; i++)
        to[i] = 0;
    return to;
}

char *strrchr(const char *text, int value) {
    char *last = 0;
    for (;; text++) {
        if (*text == (char)value)
            last = (char *)text;
        if (!*text)
            return last;
    }
}

size strcspn(const char *text, const char *stops) {
    size n = 0;
    for (; text[n]; n++)
        for (const char *stop = stops; *stop; stop++)
            if (*stop == text[n])
                return n;
    return n;
}

/* SQLite has its heap from main.c. */
void *malloc(size n) { return 0; }
void *realloc(void *old, size n) { return 0; }
void free(void *old) {}
void *localtime(const void *time) { return 0; }
