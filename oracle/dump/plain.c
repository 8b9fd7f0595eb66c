/* The dump of door.log as a plain C program: two passes through an area of 640 bytes, the lines of a piece written at once.
   It is what the proved program is measured beside, and is written without it. It takes a file of whole records, read 640 bytes at a time. */
#include <fcntl.h>
#include <stdint.h>
#include <stdio.h>
#include <string.h>
#include <unistd.h>

#define AREA 640
#define LONGEST (1 << 30)

static uint64_t head(const unsigned char *r)
{
    uint64_t n = 0;
    for (int i = 0; i < 8; i++)
        n = n << 8 | r[i];
    return n;
}

static char *decimal(char *p, uint64_t n)
{
    char digits[20];
    int k = 0;
    do
        digits[k++] = '0' + n % 10;
    while (n /= 10);
    while (k)
        *p++ = digits[--k];
    return p;
}

static int refuse(int number)
{
    fprintf(stderr, "%d\n", number);
    return 0;
}

static int write_all(const char *p, size_t n)
{
    while (n) {
        ssize_t k = write(1, p, n);
        if (k <= 0)
            return 0;
        p += k;
        n -= k;
    }
    return 1;
}

static int well_formed(unsigned kind, unsigned body)
{
    switch (kind) {
    case 0: return body % 64 == 0;
    case 1: return body % 8 == 0;
    case 2: return body % 16 == 0;
    default: return body == 1 || body == 2;
    }
}

int main(void)
{
    static unsigned char area[AREA];
    static char lines[7000];
    static char pins[256];
    uint64_t last = 0, length = 0;
    int found = 0;
    ssize_t n;

    int fd = open("door.log", O_RDONLY);
    if (fd < 0)
        return refuse(23);
    while ((n = read(fd, area, AREA)) > 0) {
        length += n;
        if (length > LONGEST)
            break;
        for (unsigned char *r = area; r + 10 <= area + n; r += 10) {
            uint64_t h = head(r), cycle = h & (UINT64_MAX >> 2);
            unsigned kind = h >> 62, body = r[8] << 8 | r[9];
            if (!found)
                found = !well_formed(kind, body) ? 13 : cycle < last ? 14 : cycle >> 48 ? 15 : 0;
            last = cycle;
            if (kind == 0)
                pins[r[8]] = 1;
        }
    }
    close(fd);
    if (n < 0)
        return refuse(23);
    if (length > LONGEST || length % 10)
        return refuse(13);
    if (found)
        return refuse(found);

    fd = open("door.log", O_RDONLY);
    if (fd < 0)
        return refuse(23);
    char *p = stpcpy(lines, "$timescale 1 ps $end\n");
    for (int pin = 0; pin < 256; pin++)
        if (pins[pin])
            p += sprintf(p, "$var wire 1 p%d p%d $end\n", pin, pin);
    p = stpcpy(p, "$enddefinitions $end\n");
    write_all(lines, p - lines);
    last = UINT64_MAX;
    while ((n = read(fd, area, AREA)) > 0) {
        p = lines;
        for (unsigned char *r = area; r + 10 <= area + n; r += 10) {
            uint64_t h = head(r);
            if (h >> 62)
                continue;
            if (h != last) {
                *p++ = '#';
                p = decimal(p, 62500 * h);
                *p++ = '\n';
                last = h;
            }
            *p++ = r[9] & 128 ? '0' + (r[9] >> 6 & 1) : 'z';
            *p++ = 'p';
            p = decimal(p, r[8]);
            *p++ = '\n';
        }
        write_all(lines, p - lines);
    }
    if (n < 0)
        return refuse(23);
    close(fd);
    return 0;
}
