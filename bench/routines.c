/* The three C routines as a C program, to measure the unit against: judge, fold (names in capitals) and unescape, edition one.
 * Plain: an octet at a time, one table, no heap.
 * With -DTUNED the same answers by memchr and memcpy, eight octets at a time: lines without folds are judged where they stand, a lone CR or LF is looked for
 * only once something is wrong, names are chosen by length and first letter, and folding takes one pass where the form surely fits.
 * -DJUDGE=.., -DFOLD=.. and -DUNESCAPE=.. name the three. */
#include <stddef.h>
#include <stdint.h>
#include <string.h>
#ifndef JUDGE
#define JUDGE judge
#define FOLD fold
#define UNESCAPE unescape
#endif
#define MAX 16384u
#define REF(no, p) (((uint64_t)(no) << 32) | (uint32_t)(p))
enum { WORD = 1, ALPHA = 2, DIGIT = 4, BARE = 8, CTL = 16, SCHEME = 32, VIS = 64, PLAIN = 128 };

/* classes of each octet, the same shape as document 01's table */
#define C1(c) ( \
  ((((c)|32) >= 'a' && ((c)|32) <= 'z') ? ALPHA|WORD|SCHEME : 0) | \
  (((c) >= '0' && (c) <= '9') ? DIGIT|WORD|SCHEME : 0) | \
  ((c) == '-' ? WORD|SCHEME : 0) | (((c) == '+' || (c) == '.') ? SCHEME : 0) | \
  (((c) != '"' && (c) != ';' && (c) != ':' && (c) != ',' && (c) != '\r') ? BARE : 0) | \
  ((((c) < 32 && (c) != 9) || (c) == 127) ? CTL : 0) | \
  (((c) > 32 && (c) < 127) ? VIS : 0) | \
  (((c) != '\\' && (c) != ',' && (c) != ';') ? PLAIN : 0))
#define C4(c) C1(c), C1(c+1), C1(c+2), C1(c+3)
#define C16(c) C4(c), C4(c+4), C4(c+8), C4(c+12)
#define C64(c) C16(c), C16(c+16), C16(c+32), C16(c+48)
static const uint8_t cls[256] = { C64(0), C64(64), C64(128), C64(192) };

typedef struct { const char *name; uint8_t len, kind, one; } prop;
static const prop props[] = { {"",0,0,0},
 {"BEGIN",5,0,0},{"END",3,0,0},{"SOURCE",6,3,0},{"KIND",4,1,1},{"XML",3,0,0},{"FN",2,1,0},{"N",1,4,1},
 {"NICKNAME",8,2,0},{"PHOTO",5,3,0},{"BDAY",4,0,1},{"ANNIVERSARY",11,0,1},{"GENDER",6,7,1},{"ADR",3,5,0},
 {"TEL",3,1,0},{"EMAIL",5,1,0},{"IMPP",4,3,0},{"LANG",4,0,0},{"TZ",2,1,0},{"GEO",3,3,0},{"TITLE",5,1,0},
 {"ROLE",4,1,0},{"LOGO",4,3,0},{"ORG",3,6,0},{"MEMBER",6,3,0},{"RELATED",7,3,0},{"CATEGORIES",10,2,0},
 {"NOTE",4,1,0},{"PRODID",6,1,1},{"REV",3,0,1},{"SOUND",5,3,0},{"UID",3,3,1},{"CLIENTPIDMAP",12,8,0},
 {"URL",3,3,0},{"VERSION",7,0,0},{"KEY",3,3,0},{"FBURL",5,3,0},{"CALADRURI",9,3,0},{"CALURI",6,3,0} };
enum { P_BEGIN = 1, P_END = 2, P_KIND = 4, P_XML = 5, P_FN = 6, P_BDAY = 10, P_ANNIVERSARY = 11, P_TZ = 18,
       P_MEMBER = 24, P_REV = 29, P_VERSION = 34, NPROPS = 39 };

#ifdef TUNED
#define ONES 0x0101010101010101u
#define TOPS 0x8080808080808080u
static inline uint64_t load(const uint8_t *p) { uint64_t w; memcpy(&w, p, 8); return w; }
/* not 0 exactly if an octet of w is c; the lowest octet marked is such a one */
static inline uint64_t has(uint64_t w, uint8_t c) { w ^= ONES * c; return (w - ONES) & ~w & TOPS; }
/* 0 only if every octet is in lo..7E, lo up to 7F */
static inline uint64_t outside(uint64_t w, uint8_t lo) { return (w | ((w - ONES * lo) & ~w) | (w + ONES)) & TOPS; }
static inline size_t lowest(uint64_t m)                  /* how many octets stand before the first marked */
{
#if __BYTE_ORDER__ == __ORDER_BIG_ENDIAN__
    (void)m; return 0;
#else
    return (size_t)__builtin_ctzll(m) >> 3;
#endif
}
#endif

static inline uint8_t upper(uint8_t c) { return c >= 'a' && c <= 'z' ? c - 32 : c; }
static int same(const uint8_t *p, size_t n, const char *s, size_t m)   /* s in upper case */
{
    if (n != m) return 0;
    for (size_t i = 0; i < n; i++) if (upper(p[i]) != (uint8_t)s[i]) return 0;
    return 1;
}
static int lookup(const uint8_t *p, size_t n)
{
#ifdef TUNED
#define L(c) [c - 'A']
    static const uint8_t pick[13][26][2] = {
      [1] = { L('N')={7} }, [2] = { L('F')={6}, L('T')={18} },
      [3] = { L('A')={13}, L('E')={2}, L('G')={19}, L('K')={35}, L('O')={23}, L('R')={29}, L('T')={14}, L('U')={33,31}, L('X')={5} },
      [4] = { L('B')={10}, L('I')={16}, L('K')={4}, L('L')={17,22}, L('N')={27}, L('R')={21} },
      [5] = { L('B')={1}, L('E')={15}, L('F')={36}, L('P')={9}, L('S')={30}, L('T')={20} },
      [6] = { L('C')={38}, L('G')={12}, L('M')={24}, L('P')={28}, L('S')={3} }, [7] = { L('R')={25}, L('V')={34} }, [8] = { L('N')={8} },
      [9] = { L('C')={37} }, [10] = { L('C')={26} }, [11] = { L('A')={11} }, [12] = { L('C')={32} } };
#undef L
    if (n > 12 || !(cls[p[0]] & ALPHA)) return 0;
    const uint8_t *k = pick[n][(p[0] & 0xdf) - 'A'];
    if (k[0] && same(p + 1, n - 1, props[k[0]].name + 1, n - 1)) return k[0];
    if (k[1] && same(p + 1, n - 1, props[k[1]].name + 1, n - 1)) return k[1];
    return 0;
#else
    for (int i = 1; i < NPROPS; i++)
        if (props[i].len == n && (p[0] & 0xdf) == (uint8_t)props[i].name[0] && same(p, n, props[i].name, n)) return i;
    return 0;
#endif
}
/* length of the RFC 3629 character at p, 0 if bad */
static inline size_t u8len(const uint8_t *p, const uint8_t *e)
{
    uint8_t a = p[0];
    if (a < 0x80) return 1;
    if (a < 0xc2 || a > 0xf4) return 0;
    if (a < 0xe0) return (e - p >= 2 && (p[1] & 0xc0) == 0x80) ? 2 : 0;
    if (a < 0xf0) {
        if (e - p < 3 || (p[1] & 0xc0) != 0x80 || (p[2] & 0xc0) != 0x80) return 0;
        if ((a == 0xe0 && p[1] < 0xa0) || (a == 0xed && p[1] > 0x9f)) return 0;
        return 3;
    }
    if (e - p < 4 || (p[1] & 0xc0) != 0x80 || (p[2] & 0xc0) != 0x80 || (p[3] & 0xc0) != 0x80) return 0;
    if ((a == 0xf0 && p[1] < 0x90) || (a == 0xf4 && p[1] > 0x8f)) return 0;
    return 4;
}
/* the first control or first octet of a bad character; e if there is none */
static const uint8_t *octets(const uint8_t *p, const uint8_t *e)
{
    while (p < e) {
#ifdef TUNED
        if (*p >= 0x20 && *p < 0x7f) {
            while (e - p >= 8) {
                uint64_t m = outside(load(p), 0x20);
                if (m) { p += lowest(m); break; }
                p += 8;
            }
            if (p == e) break;
        }
#endif
        if (*p < 0x80) { if (cls[*p] & CTL) break; p++; continue; }
        size_t l = u8len(p, e);
        if (!l) break;
        p += l;
    }
    return p;
}
static inline int esc_ok(uint8_t c) { return c == '\\' || c == ',' || c == ';' || c == 'n' || c == 'N'; }

/* The kinds.  A cursor walks the value; 1 if it fits, else 0 with the cursor on the first octet after which nothing helps,
 * or at the end e if the value only ends too early. */
typedef struct { const uint8_t *p, *e; } cur;

/* text; bare commas allowed or not; semis < 0: bare semicolons are free, else exactly so many */
static inline int text(cur *c, int commas, int semis)
{
    const uint8_t *p = c->p, *e = c->e;
    int s = 0, ok = 0;
    while (p < e) {
#ifdef TUNED
        uint64_t m = 0;
        while (e - p >= 8) {
            uint64_t w = load(p);
            m = has(w, '\\');
            if (!commas) m |= has(w, ',');
            if (semis >= 0) m |= has(w, ';');
            if (m) { p += lowest(m); break; }
            p += 8;
        }
        if (p == e) break;
#endif
        if (cls[*p] & PLAIN) { p++; continue; }
        if (*p == '\\') {
            if (++p == e || !esc_ok(*p)) goto dead;
        } else if (*p == ',') {
            if (!commas) goto dead;
        } else if (semis >= 0 && s++ == semis) goto dead;
        p++;
    }
    ok = semis < 0 || s == semis;
dead:
    c->p = p;
    return ok;
}
static int uri(cur *c)
{
    const uint8_t *p = c->p, *e = c->e;
    int ok = 0;
    if (p == e || !(cls[*p] & ALPHA)) goto dead;
    for (p++; p < e && (cls[*p] & SCHEME); p++) {}
    if (p == e || *p != ':') goto dead;
    p++;
#ifdef TUNED
    while (e - p >= 8 && !outside(load(p), 0x21)) p += 8;
#endif
    while (p < e && (cls[*p] & VIS)) p++;
    ok = p == e;
dead:
    c->p = p;
    return ok;
}
/* two digits that make a number in lo..hi */
static int two(cur *c, unsigned lo, unsigned hi, unsigned *v)
{
    if (c->p == c->e) return 0;
    unsigned t = *c->p - (unsigned)'0';
    if (t > 9 || t * 10 > hi || t * 10 + 9 < lo) return 0;
    if (++c->p == c->e) return 0;
    unsigned u = *c->p - (unsigned)'0';
    if (u > 9 || t * 10 + u < lo || t * 10 + u > hi) return 0;
    c->p++;
    *v = t * 10 + u;
    return 1;
}
static inline int next(const cur *c, uint8_t o) { return c->p < c->e && *c->p == o; }
static inline int digit_next(const cur *c) { return c->p < c->e && (cls[*c->p] & DIGIT); }
static int offset(cur *c)                                        /* sign hour [minute], to the end */
{
    unsigned v;
    if (!next(c, '+') && !next(c, '-')) return 0;
    c->p++;
    if (!two(c, 0, 23, &v)) return 0;
    return c->p == c->e || (two(c, 0, 59, &v) && c->p == c->e);
}
static int zone(cur *c)                                          /* [zone], to the end */
{
    if (c->p == c->e) return 1;
    if (*c->p == 'Z') { c->p++; return c->p == c->e; }
    return offset(c);
}
static int time_of_day(cur *c, int whole)                        /* hour [minute [second]] [zone]; whole: nothing left out */
{
    unsigned v;
    if (!two(c, 0, 23, &v)) return 0;
    if (whole || digit_next(c)) {
        if (!two(c, 0, 59, &v)) return 0;
        if ((whole || digit_next(c)) && !two(c, 0, 60, &v)) return 0;
    }
    return zone(c);
}
/* month day, the day within its month; y < 0: no year */
static int day_of(cur *c, int y, unsigned m)
{
    static const uint8_t days[13] = { 0, 31, 29, 31, 30, 31, 30, 31, 31, 30, 31, 30, 31 };
    unsigned v, last = days[m];
    if (m == 2 && y >= 0 && (y % 4 != 0 || (y % 100 == 0 && y % 400 != 0))) last = 28;
    return two(c, 1, last, &v);
}
static int year(cur *c, int *y)
{
    *y = 0;
    for (int i = 0; i < 4; i++, c->p++) {
        if (!digit_next(c)) return 0;
        *y = *y * 10 + (*c->p - '0');
    }
    return 1;
}
static int date_and_or_time(cur *c)
{
    unsigned m, v;
    int y;
    if (next(c, 'T')) {
        c->p++;
        if (!next(c, '-')) return time_of_day(c, 0);
        c->p++;
        if (!next(c, '-')) {
            if (!two(c, 0, 59, &v)) return 0;
            if (c->p == c->e) return 1;
        } else c->p++;
        return two(c, 0, 60, &v) && c->p == c->e;
    }
    if (next(c, '-')) {
        c->p++;
        if (!next(c, '-')) return 0;
        c->p++;
        if (next(c, '-')) { c->p++; if (!two(c, 1, 31, &v)) return 0; }
        else {
            if (!two(c, 1, 12, &m)) return 0;
            if (c->p == c->e) return 1;
            if (!day_of(c, -1, m)) return 0;
        }
    } else {
        if (!year(c, &y)) return 0;
        if (c->p == c->e) return 1;
        if (*c->p == '-') { c->p++; return two(c, 1, 12, &m) && c->p == c->e; }
        if (!two(c, 1, 12, &m) || !day_of(c, y, m)) return 0;
    }
    if (c->p == c->e) return 1;                                   /* a whole day: a time may follow */
    if (*c->p != 'T') return 0;
    c->p++;
    return time_of_day(c, 0);
}
static int timestamp(cur *c)
{
    unsigned m;
    int y;
    if (!year(c, &y) || !two(c, 1, 12, &m) || !day_of(c, y, m) || !next(c, 'T')) return 0;
    c->p++;
    return time_of_day(c, 1);
}
static int fixed(cur *c, const char *s)                          /* the value s (capitals), in any case */
{
    while (*s && c->p < c->e && upper(*c->p) == (uint8_t)*s) { s++; c->p++; }
    return !*s && c->p == c->e;
}
static int fits(int kind, cur *c)
{
    switch (kind) {
    case 1: case 6: return text(c, 0, -1);
    case 2: return text(c, 1, -1);
    case 3: return uri(c);
    case 4: return text(c, 1, 4);
    case 5: return text(c, 1, 6);
    case 7:
        if (c->p < c->e && *c->p != ';') {
            uint8_t o = *c->p & 0xdf;
            if (o != 'M' && o != 'F' && o != 'O' && o != 'N' && o != 'U') return 0;
            c->p++;
        }
        if (c->p == c->e) return 1;
        if (*c->p != ';') return 0;
        c->p++;
        return text(c, 0, -1);
    case 8: {
        const uint8_t *q = c->p;
        while (c->p < c->e && (cls[*c->p] & DIGIT)) c->p++;
        if (c->p == q || c->p == c->e || *c->p != ';') return 0;
        c->p++;
        return uri(c);
    }
    case 9: return date_and_or_time(c);
    case 10: return timestamp(c);
    case 11: return offset(c);
    }
    return 1;
}

#define FAULT(no) REF(no, at)
/* where octet k of the logical line that starts at `at` stands in the input (k its length: the CR that ends it) */
static size_t place(const uint8_t *in, size_t n, size_t at, size_t k)
{
    for (;;) {
        if (in[at] == '\r' && at + 2 < n && (in[at+2] == ' ' || in[at+2] == '\t')) at += 3;
        else if (k == 0) return at;
        else { k--; at++; }
    }
}
#define PLACE(q) place(in, n, at, (size_t)((q) - b))

typedef struct { const uint8_t *p; size_t n; } part;             /* p == 0: none */
/* 1 to 4 over the whole input; 0 if there is none */
static uint64_t whole(const uint8_t *in, size_t n)
{
    if (n > MAX) return REF(1, MAX);
    if (n == 0) return REF(2, 0);
#ifdef TUNED
    for (const uint8_t *p = in, *e = in + n;;) {
        const uint8_t *q = memchr(p, '\r', (size_t)(e - p)), *l = memchr(p, '\n', (size_t)((q ? q : e) - p));
        if (l) return REF(3, l - in);
        if (!q) break;
        if (q + 1 == e || q[1] != '\n') return REF(3, q - in);
        p = q + 2;
    }
#else
    for (size_t i = 0; i < n; i++) {
        if (in[i] == '\r') { if (i + 1 == n || in[i+1] != '\n') return REF(3, i); i++; }
        else if (in[i] == '\n') return REF(3, i);
    }
#endif
    if (n < 2 || in[n-2] != '\r' || in[n-1] != '\n') return REF(4, n);
    return 0;
}
/* Reads the lines of an input that ends in CR LF, unfolding into copy (room MAX); *clen octets written.  keep: the copy is wanted,
 * with names in capitals if keep is 2.  Answers the count of cards or a refusal; with a lone CR or LF in the input, some refusal. */
static inline __attribute__((always_inline)) uint64_t lines(const uint8_t *in, size_t n, uint8_t *copy, size_t *clen, const int keep)
{
    size_t i = 0, w = 0;
    uint64_t cards = 0, seen = 0;
    int state = 0, fn = 0, member = 0, group = 0;
    part first[NPROPS];                                          /* ALTID of the first line of a *1 property; where seen */
    while (i < n) {
        const size_t at = i;
        const uint8_t *b = copy + w, *e;
        uint8_t *d = copy + w;
#ifdef TUNED
        const uint8_t *p = octets(in + i, in + n);               /* a line without folds ends where its good characters end */
        if (*p == '\r' && p[1] == '\n' && (p + 2 == in + n || (p[2] != ' ' && p[2] != '\t'))) {
            size_t l = (size_t)(p - (in + i));
            if (keep) { memcpy(d, in + i, l + 2); w += l + 2; } else b = in + i;
            e = b + l; i += l + 2;
        } else
#endif
        {
            for (;;) {                                           /* one logical line */
#ifdef TUNED
                size_t l = (size_t)((const uint8_t *)memchr(in + i, '\r', n - i) - (in + i));
                if (in[i + l + 1] != '\n') return REF(3, i + l);
                memcpy(d, in + i, l); d += l; i += l;
#else
                while (in[i] != '\r') *d++ = in[i++];
#endif
                i += 2;
                if (i == n || (in[i] != ' ' && in[i] != '\t')) break;
                i++;
            }
            e = d;
            d[0] = '\r'; d[1] = '\n';
            w = (size_t)(d - copy) + 2;
            const uint8_t *q = octets(b, e);
            if (q != e) return REF(5, PLACE(q));
        }

        /* [group "."] name *(";" parameter) ":" value ; *e is CR, no WORD, not BARE */
#ifndef TUNED
        const uint8_t *p;
#endif
        const uint8_t *name = p = b;
        part value = { 0, 0 };
        part calscale = { 0, 0 };
        part altid = { 0, 0 };
        int has_group = 0, params = 0;
        while (cls[*p] & WORD) p++;
        if (*p == '.' && p > name) { has_group = 1; name = ++p; while (cls[*p] & WORD) p++; }
        const size_t nlen = (size_t)(p - name);
        if (nlen == 0) return FAULT(40);
        if (keep == 2) for (uint8_t *q = copy + (b - copy); q < p; q++) *q = upper(*q);
        if (p == e) return FAULT(43);
        if (*p != ':' && *p != ';') return FAULT(40);
        while (*p == ';') {
            const uint8_t *pn = ++p;
            while (cls[*p] & WORD) p++;
            const size_t pl = (size_t)(p - pn);
            if (pl == 0 || *p != '=') return FAULT(41);
            if (keep == 2) for (uint8_t *q = copy + (pn - copy); q < p; q++) *q = upper(*q);
            params++;
            part *to = 0, none;                                  /* who wants this parameter's first value */
            if (pl == 5) {
                if (!value.p && same(pn, 5, "VALUE", 5)) to = &value;
                else if (!altid.p && same(pn, 5, "ALTID", 5)) to = &altid;
            }
            else if (pl == 8 && !calscale.p && same(pn, 8, "CALSCALE", 8)) to = &calscale;
            if (!to) to = &none;
            do {
                const uint8_t *v = ++p; size_t vl;
                if (*p == '"') {
                    v = ++p;
#ifdef TUNED
                    p = memchr(p, '"', (size_t)(e - p));
                    if (!p) return FAULT(42);
#else
                    while (p < e && *p != '"') p++;
                    if (p == e) return FAULT(42);
#endif
                    vl = (size_t)(p - v); p++;
                    if (p == e) return FAULT(43);
                    if (*p != ',' && *p != ';' && *p != ':') return FAULT(42);
                } else {
                    while (cls[*p] & BARE) p++;
                    vl = (size_t)(p - v);
                    if (p == e) return FAULT(43);
                    if (*p == '"') return FAULT(42);
                }
                to->p = v; to->n = vl; to = &none;
            } while (*p == ',');
        }
        p++;                                                     /* over the colon: nothing else is left */

        const int no = lookup(name, nlen), frame = no == P_BEGIN || no == P_VERSION || no == P_END;
        if (state == 0 ? no != P_BEGIN : state == 1 ? no != P_VERSION : (no == P_BEGIN || no == P_VERSION))
            return REF(9, at);
        cur c = { p, e };
        if (frame) {
            if (has_group || params) return REF(8, at);
            if (!fixed(&c, no == P_VERSION ? "4.0" : "VCARD")) return REF(7, PLACE(c.p));
        } else {
            int kind = props[no].kind;
            if (no == P_REV) kind = 10;
            else if (no == P_BDAY || no == P_ANNIVERSARY)
                kind = value.p && same(value.p, value.n, "TEXT", 4) ? 1 : calscale.p && !same(calscale.p, calscale.n, "GREGORIAN", 9) ? 0 : 9;
            else if (no == P_TZ && value.p && same(value.p, value.n, "UTC-OFFSET", 10)) kind = 11;
            else
            if (value.p && no && no != P_XML && (kind == 0 || kind == 1 || kind == 3))
                kind = same(value.p, value.n, "TEXT", 4) ? 1 : same(value.p, value.n, "URI", 3) ? 3 : 0;
            if (!fits(kind, &c)) return REF(7, PLACE(c.p));
        }
        if (props[no].one) {
            if (seen >> no & 1) {
                if (!altid.p || !first[no].p || altid.n != first[no].n || memcmp(altid.p, first[no].p, altid.n) != 0)
                return REF(10, at);
            } else {
                seen |= (uint64_t)1 << no;
                first[no] = altid;
            }
        }
        if (no == P_BEGIN) { state = 1; seen = 0; fn = member = group = 0; }
        else if (no == P_VERSION) state = 2;
        else if (no == P_FN) fn = 1;
        else if (no == P_MEMBER) member = 1;
        else if (no == P_KIND) group |= same(p, (size_t)(e - p), "GROUP", 5);
        else if (no == P_END) {
            if (!fn) return REF(11, at);
            if (member && !group) return REF(12, at);
            cards++; state = 0;
        }
    }
    if (state) return REF(9, n);
    *clen = w;
    return cards;
}
static inline __attribute__((always_inline)) uint64_t reader(const uint8_t *in, size_t n, uint8_t *copy, size_t *clen, const int keep)
{
#ifdef TUNED
    /* 1 to 4 come first, but an input with a lone CR or LF is refused by its lines too: so look only then */
    if (n > MAX || n < 2 || in[n-2] != '\r' || in[n-1] != '\n') return whole(in, n);
    uint64_t a = lines(in, n, copy, clen, keep);
    if (a >> 32) { uint64_t f = whole(in, n); if (f) return f; }
    return a;
#else
    uint64_t f = whole(in, n);
    return f ? f : lines(in, n, copy, clen, keep);
#endif
}
uint64_t JUDGE(const uint8_t *in, size_t n)
{
    uint8_t copy[MAX + 2];
    size_t w = 0;
    return reader(in, n, copy, &w, 0);
}
/* folds the copy; with out == 0 only counts */
static size_t folded(const uint8_t *p, size_t n, uint8_t *out)
{
    const uint8_t *end = p + n;
    size_t w = 0;
    while (p < end) {
        const uint8_t *e = memchr(p, '\r', (size_t)(end - p));
        size_t room = 75;
        while ((size_t)(e - p) > room) {
            const uint8_t *c = p + room;
            while ((*c & 0xc0) == 0x80) c--;
            if (out) { memcpy(out + w, p, (size_t)(c - p)); memcpy(out + w + (c - p), "\r\n ", 3); }
            w += (size_t)(c - p) + 3;
            p = c; room = 74;
        }
        if (out) { memcpy(out + w, p, (size_t)(e - p) + 2); }
        w += (size_t)(e - p) + 2;
        p = e + 2;
    }
    return w;
}
uint64_t FOLD(const uint8_t *in, size_t n, uint8_t *out, size_t room)
{
    uint8_t copy[MAX + 2];
    size_t w = 0;
    uint64_t a = reader(in, n, copy, &w, 2);
    if (a >> 32) return a;
#ifdef TUNED
    size_t most = w + w / 71 * 3;                                /* each cut follows 71 octets or more */
    if (most <= MAX && most <= room) return folded(copy, w, out);
#endif
    size_t need = folded(copy, w, 0);
    if (need > MAX) return REF(16, MAX);
    if (need > room) return REF(15, need);
    folded(copy, w, out);
    return need;
}
uint64_t UNESCAPE(const uint8_t *in, size_t n, uint8_t *out, size_t room)
{
    if (n > MAX) return REF(1, MAX);
    if (n == 0) return 0;
    const uint8_t *p = octets(in, in + n), *e = in + n;
    size_t need = n;
    if (p != e) return REF(31, p - in);
    for (p = in; p < e; p++) {
#ifdef TUNED
        uint64_t m = 0;
        while (e - p >= 8) {
            uint64_t x = load(p);
            m = has(x, '\\') | has(x, ',');
            if (m) { p += lowest(m); break; }
            p += 8;
        }
        if (p == e) break;
#endif
        if (*p == ',') return REF(30, p - in);
        if (*p == '\\') { if (p + 1 == e || !esc_ok(p[1])) return REF(30, p - in); p++; need--; }
    }
    if (need > room) return REF(15, need);
#ifdef TUNED
    for (p = in; p < e;) {
        const uint8_t *q = memchr(p, '\\', (size_t)(e - p));
        size_t l = (size_t)((q ? q : e) - p);
        memcpy(out, p, l);
        out += l;
        if (!q) break;
        *out++ = (q[1] == 'n' || q[1] == 'N') ? '\n' : q[1];
        p = q + 2;
    }
#else
    for (p = in; p < e; p++) {
        if (*p == '\\') { p++; *out++ = (*p == 'n' || *p == 'N') ? '\n' : *p; }
        else *out++ = *p;
    }
#endif
    return need;
}
