/* The capture reader again, in C and unproved, to measure the proved one against: read(2) and write(2) in blocks, the same tables, halving, and the
   same text, byte for byte. docs/SPEED.md says how it is built and run. */
#include <stdint.h>
#include <string.h>
#include <unistd.h>

struct row { uint32_t dgn; uint8_t first, width, plain, two_state; };
static const struct row rows[] = {
#include "rows.h"
};
enum { ROWS = sizeof rows / sizeof *rows, LONGEST = 1785, LINE = 80, BLOCK = 65536, MOST = 1000000 };

struct place { uint8_t sender, expected; uint16_t length, idle; uint32_t dgn; };
static struct place places[8];
static uint8_t storage[8 * LONGEST];
static char in[BLOCK], out[2 * BLOCK], carry[LINE];
static size_t held, used;
static uint32_t frames, refused, messages;

static void flush(void)
{
    size_t done = 0;
    while (done < used) {
        ssize_t n = write(1, out + done, used - done);
        if (n <= 0) _exit(1);
        done += (size_t)n;
    }
    used = 0;
}

#define WORD(s) (memcpy(out + used, s, sizeof s - 1), used += sizeof s - 1)
static const char hex[] = "0123456789ABCDEF";

static void decimal(uint32_t n)
{
    char digits[10];
    int at = 10;
    do digits[--at] = (char)('0' + n % 10); while (n /= 10);
    memcpy(out + used, digits + at, (size_t)(10 - at));
    used += (size_t)(10 - at);
}

static void hexadecimal(uint32_t n, int count)
{
    for (int i = count; i-- > 0; n >>= 4) out[used + (size_t)i] = hex[n & 15];
    used += (size_t)count;
}

static void head(uint32_t source, uint32_t dgn)
{
    WORD("frame="); decimal(frames);
    WORD(" sa="); hexadecimal(source, 2);
    WORD(" dgn="); hexadecimal(dgn, 5);
}

static void refuse(uint32_t why)
{
    refused++;
    WORD("frame="); decimal(frames);
    WORD(" refusal="); decimal(why);
    WORD("\n");
}

static int digit(char c)
{
    if (c >= '0' && c <= '9') return c - '0';
    if (c >= 'A' && c <= 'F') return c - 'A' + 10;
    return -1;
}

static int taken_apart(const char *s, size_t n, uint32_t *gap, uint32_t *id, uint8_t *data)
{
    if (n < 39 || n > 43) return 0;
    size_t width = n - 38;
    if (memcmp(s, "gap=", 4) || memcmp(s + width + 4, " id=", 4) || memcmp(s + width + 16, " data=", 6)) return 0;
    uint32_t g = 0, i = 0;
    for (size_t k = 0; k < width; k++) {
        if (s[4 + k] < '0' || s[4 + k] > '9') return 0;
        g = g * 10 + (uint32_t)(s[4 + k] - '0');
    }
    if (g > 65535 || (width > 1 && s[4] == '0')) return 0;
    for (size_t k = 0; k < 8; k++) {
        int d = digit(s[width + 8 + k]);
        if (d < 0) return 0;
        i = i << 4 | (uint32_t)d;
    }
    for (size_t k = 0; k < 8; k++) {
        int high = digit(s[width + 22 + 2 * k]), low = digit(s[width + 23 + 2 * k]);
        if (high < 0 || low < 0) return 0;
        data[k] = (uint8_t)(high << 4 | low);
    }
    *gap = g;
    *id = i;
    return 1;
}

static uint32_t lower(uint32_t key)
{
    uint32_t low = 0, high = ROWS;
    while (low < high) {
        uint32_t middle = low + (high - low) / 2;
        if (rows[middle].dgn < key) low = middle + 1; else high = middle;
    }
    return low;
}

static void fields(uint32_t source, uint32_t dgn, const uint8_t *data)
{
    uint32_t key = (dgn >> 8 & 255) < 240 ? dgn & ~255u : dgn;
    uint64_t number = 0;
    for (int k = 8; k-- > 0;) number = number << 8 | data[k];
    for (uint32_t k = lower(key); k < ROWS && rows[k].dgn == key; k++) {
        const struct row *r = &rows[k];
        uint64_t greatest = (1ull << r->width) - 1, code = number >> r->first & greatest;
        head(source, dgn);
        WORD(" bit="); decimal(r->first);
        WORD(" width="); decimal(r->width);
        if (r->plain || r->width < 2) WORD(" class=number");
        else if (code == greatest) WORD(" class=no-data");
        else if (r->two_state && code == 2) WORD(" class=out-of-range");
        else if (r->width != 8 && r->width != 16 && r->width != 32) WORD(" class=number");
        else if (code == greatest - 1) WORD(" class=out-of-range");
        else if (code == greatest - 2) WORD(" class=reserved");
        else WORD(" class=number");
        WORD(" raw="); decimal((uint32_t)code);
        WORD("\n");
    }
}

static void announce(uint32_t source, const uint8_t *data)
{
    uint32_t length = data[1] | (uint32_t)data[2] << 8, dgn = data[5] | (uint32_t)data[6] << 8 | (uint32_t)data[7] << 16;
    if (data[0] != 32) return;
    if (length < 9 || length > LONGEST || data[3] != (length + 6) / 7 || dgn > 0x1FFFF) { refuse(7); return; }
    struct place *to = 0;
    for (int k = 0; k < 8 && !to; k++) if (places[k].length && places[k].sender == source) to = &places[k];
    for (int k = 0; k < 8 && !to; k++) if (!places[k].length) to = &places[k];
    if (!to) { refuse(8); return; }
    *to = (struct place){ .sender = (uint8_t)source, .expected = 1, .length = (uint16_t)length, .dgn = dgn };
}

static void packet(uint32_t source, const uint8_t *data)
{
    int k = 0;
    while (k < 8 && !(places[k].length && places[k].sender == source)) k++;
    if (k == 8) { refuse(9); return; }
    struct place *p = &places[k];
    if (data[0] != p->expected) { *p = (struct place){ 0 }; refuse(10); return; }
    uint8_t *bytes = storage + k * LONGEST;
    uint32_t from = 7u * (p->expected - 1u), left = p->length - from;
    memcpy(bytes + from, data + 1, left < 7 ? left : 7);
    if (left > 7) { p->expected++; p->idle = 0; return; }
    messages++;
    head(source, p->dgn);
    WORD(" length="); decimal(p->length);
    WORD(" bytes=");
    for (uint32_t i = 0; i < p->length; i++) hexadecimal(bytes[i], 2);
    WORD("\n");
    *p = (struct place){ 0 };
}

static void take(const char *s, size_t n)
{
    uint32_t gap, id;
    uint8_t data[8];
    frames++;
    if (!taken_apart(s, n, &gap, &id, data)) { refuse(19); return; }
    for (int k = 0; k < 8; k++) if (places[k].length) {
        if (places[k].idle + gap > 750) places[k] = (struct place){ 0 }; else places[k].idle = (uint16_t)(places[k].idle + gap);
    }
    uint32_t source = id & 255, dgn = id >> 8 & 0x1FFFF, upper = dgn >> 8;
    if (id >= 1u << 29) refuse(3);
    else if (id >> 25 & 1) refuse(5);
    else if (source == 255 || (source == 254 && upper != 0xEA && upper != 0xEE)) refuse(6);
    else if (dgn == 0xECFF) announce(source, data);
    else if (dgn == 0xEBFF) packet(source, data);
    else fields(source, dgn, data);
    if (used > BLOCK) flush();
}

int main(void)
{
    ssize_t got;
    WORD("format=1\n");
    while (frames < MOST && (got = read(0, in, BLOCK)) > 0) {
        char *at = in, *end = in + got, *stop;
        while (frames < MOST && (stop = memchr(at, '\n', (size_t)(end - at)))) {
            size_t part = (size_t)(stop - at);
            if (!held) take(at, part);
            else {
                if (held + part <= LINE) memcpy(carry + held, at, part);
                take(carry, held + part);
            }
            held = 0;
            at = stop + 1;
        }
        if (held + (size_t)(end - at) <= LINE) memcpy(carry + held, at, (size_t)(end - at));
        held += (size_t)(end - at);
        if (held > LINE) held = LINE + 1;
    }
    if (held && frames < MOST) take(carry, held);
    WORD("frames="); decimal(frames);
    WORD(" refused="); decimal(refused);
    WORD(" messages="); decimal(messages);
    WORD("\n");
    flush();
    return 0;
}
