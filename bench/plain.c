/* Reading with copy and records, escaping, and labels in plain C, written for comparison: straightforward loops, no table but the list of properties. */
#include "plain.h"
#include <string.h>
#include <strings.h>

#define LIMIT 16384

struct row {
    const char *name;
    int kind;
    int once;
};

static const struct row rows[] = {
    {"", 0, 0},        {"BEGIN", 0, 0},   {"END", 0, 0},         {"SOURCE", 3, 0},       {"KIND", 1, 1},     {"XML", 0, 0},
    {"FN", 1, 0},      {"N", 4, 1},       {"NICKNAME", 2, 0},    {"PHOTO", 3, 0},        {"BDAY", 9, 1},     {"ANNIVERSARY", 9, 1},
    {"GENDER", 7, 1},  {"ADR", 5, 0},     {"TEL", 1, 0},         {"EMAIL", 1, 0},        {"IMPP", 3, 0},     {"LANG", 0, 0},
    {"TZ", 1, 0},      {"GEO", 3, 0},     {"TITLE", 1, 0},       {"ROLE", 1, 0},         {"LOGO", 3, 0},     {"ORG", 6, 0},
    {"MEMBER", 3, 0},  {"RELATED", 3, 0}, {"CATEGORIES", 2, 0},  {"NOTE", 1, 0},         {"PRODID", 1, 1},   {"REV", 10, 1},
    {"SOUND", 3, 0},   {"UID", 3, 1},     {"CLIENTPIDMAP", 8, 0}, {"URL", 3, 0},         {"VERSION", 0, 0},  {"KEY", 3, 0},
    {"FBURL", 3, 0},   {"CALADRURI", 3, 0}, {"CALURI", 3, 0},
};

static int is_letter(uint8_t b) { return (b >= 'A' && b <= 'Z') || (b >= 'a' && b <= 'z'); }
static int is_digit(uint8_t b) { return b >= '0' && b <= '9'; }
static int is_named(uint8_t b) { return is_letter(b) || is_digit(b) || b == '-'; }

/* Length of the RFC 3629 character at s, 0 for none. */
static size_t char_length(const uint8_t *s, size_t left) {
    uint8_t b = s[0];
    if (b < 0x80) return 1;
    if (b < 0xC2) return 0;
    if (b < 0xE0) return left >= 2 && (s[1] & 0xC0) == 0x80 ? 2 : 0;
    if (b < 0xF0) {
        if (left < 3 || (s[1] & 0xC0) != 0x80 || (s[2] & 0xC0) != 0x80) return 0;
        if (b == 0xE0 && s[1] < 0xA0) return 0;
        if (b == 0xED && s[1] > 0x9F) return 0;
        return 3;
    }
    if (b < 0xF5) {
        if (left < 4 || (s[1] & 0xC0) != 0x80 || (s[2] & 0xC0) != 0x80 || (s[3] & 0xC0) != 0x80) return 0;
        if (b == 0xF0 && s[1] < 0x90) return 0;
        if (b == 0xF4 && s[1] > 0x8F) return 0;
        return 4;
    }
    return 0;
}

/* First octet that is not allowed or starts no character. */
static size_t first_bad(const uint8_t *s, size_t n, int lf) {
    size_t i = 0;
    while (i < n) {
        uint8_t b = s[i];
        if ((b < 0x20 && b != 9 && !(lf && b == 10)) || b == 0x7F) return i;
        size_t k = char_length(s + i, n - i);
        if (k == 0) return i;
        i += k;
    }
    return n;
}

struct line {
    size_t group, name_start, name_end, params, value;
    size_t over, over_len; /* first value of the first VALUE parameter */
    size_t scale, scale_len; /* first value of the first CALSCALE parameter */
    size_t altid, altid_len; /* first value of the first ALTID parameter */
    int has_over, has_scale, has_altid;
};

/* The line rule: 0, or the number of the first fault. */
static int parse(const uint8_t *s, size_t n, struct line *l) {
    size_t i = 0;
    while (i < n && is_named(s[i])) i++;
    if (i == 0) return 40;
    l->group = 0;
    l->name_start = 0;
    if (i < n && s[i] == '.') {
        l->group = i;
        i++;
        l->name_start = i;
        while (i < n && is_named(s[i])) i++;
        if (i == l->name_start) return 40;
    }
    l->name_end = i;
    l->params = 0;
    l->has_over = l->has_scale = l->has_altid = 0;
    while (i < n && s[i] == ';') {
        size_t p = ++i;
        while (i < n && is_named(s[i])) i++;
        if (i == p || i >= n || s[i] != '=') return 41;
        int is_value = i - p == 5 && strncasecmp((const char *)s + p, "VALUE", 5) == 0;
        int is_scale = i - p == 8 && strncasecmp((const char *)s + p, "CALSCALE", 8) == 0;
        int is_altid = i - p == 5 && strncasecmp((const char *)s + p, "ALTID", 5) == 0;
        int first = 1;
        do {
            i++;
            size_t a = i, e;
            if (i < n && s[i] == '"') {
                a = ++i;
                while (i < n && s[i] != '"') i++;
                if (i >= n) return 42;
                e = i++;
            } else {
                while (i < n && s[i] != '"' && s[i] != ';' && s[i] != ':' && s[i] != ',') i++;
                e = i;
            }
            if (first && is_value && !l->has_over) {
                l->has_over = 1;
                l->over = a;
                l->over_len = e - a;
            }
            if (first && is_scale && !l->has_scale) {
                l->has_scale = 1;
                l->scale = a;
                l->scale_len = e - a;
            }
            if (first && is_altid && !l->has_altid) {
                l->has_altid = 1;
                l->altid = a;
                l->altid_len = e - a;
            }
            first = 0;
        } while (i < n && s[i] == ',');
        if (i >= n) return 43;
        if (s[i] != ';' && s[i] != ':') return 42;
        l->params++;
    }
    if (i >= n) return 43;
    if (s[i] != ':') return 40;
    l->value = i + 1;
    return 0;
}

static size_t find_row(const uint8_t *s, size_t n) {
    for (size_t r = 1; r < sizeof rows / sizeof rows[0]; r++)
        if (strlen(rows[r].name) == n && strncasecmp(rows[r].name, (const char *)s, n) == 0) return r;
    return 0;
}

static int is_uri(const uint8_t *s, size_t n) {
    size_t i = 0;
    if (n == 0 || !is_letter(s[0])) return 0;
    while (i < n && (is_letter(s[i]) || is_digit(s[i]) || s[i] == '+' || s[i] == '-' || s[i] == '.')) i++;
    if (i >= n || s[i] != ':') return 0;
    for (i++; i < n; i++)
        if (s[i] < 0x21 || s[i] > 0x7E) return 0;
    return 1;
}

/* Escapes are good, bare commas as allowed; counts the bare semicolons. */
static int is_text(const uint8_t *s, size_t n, int commas, size_t *semis) {
    *semis = 0;
    for (size_t i = 0; i < n; i++) {
        if (s[i] == '\\') {
            i++;
            if (i >= n || (s[i] != '\\' && s[i] != ',' && s[i] != ';' && s[i] != 'n' && s[i] != 'N')) return 0;
        } else if (s[i] == ',') {
            if (!commas) return 0;
        } else if (s[i] == ';') {
            ++*semis;
        }
    }
    return 1;
}

/* The number that the two digits at i make, -1 where none stand there. */
static int two(const uint8_t *s, size_t n, size_t i) {
    if (i + 2 > n || !is_digit(s[i]) || !is_digit(s[i + 1])) return -1;
    return (s[i] - '0') * 10 + (s[i + 1] - '0');
}

static int in(int x, int low, int high) { return x >= low && x <= high; }

/* Whether the month has the day; year -1 for none. */
static int is_day(int year, int month, int day) {
    static const int days[] = {31, 29, 31, 30, 31, 30, 31, 31, 30, 31, 30, 31};
    if (!in(month, 1, 12) || !in(day, 1, days[month - 1])) return 0;
    if (month != 2 || day < 29 || year < 0) return 1;
    return year % 4 == 0 && (year % 100 != 0 || year % 400 == 0);
}

static int is_offset(const uint8_t *s, size_t n) {
    if ((n != 3 && n != 5) || (s[0] != '+' && s[0] != '-')) return 0;
    return in(two(s, n, 1), 0, 23) && (n == 3 || in(two(s, n, 3), 0, 59));
}

static int is_zone(const uint8_t *s, size_t n) { return n == 0 || (n == 1 && s[0] == 'Z') || is_offset(s, n); }

/* Hour, minute or none, second or none, zone or none; all of them where full. */
static int is_clock(const uint8_t *s, size_t n, int full) {
    size_t i = 2;
    if (!in(two(s, n, 0), 0, 23)) return 0;
    if (i < n && is_digit(s[i])) {
        if (!in(two(s, n, i), 0, 59)) return 0;
        i = 4;
        if (i < n && is_digit(s[i])) {
            if (!in(two(s, n, i), 0, 60)) return 0;
            i = 6;
        }
    }
    return (!full || i == 6) && is_zone(s + i, n - i);
}

static int is_stamp(const uint8_t *s, size_t n) {
    int c = two(s, n, 0), y = two(s, n, 2);
    return c >= 0 && y >= 0 && is_day(c * 100 + y, two(s, n, 4), two(s, n, 6)) && n > 8 && s[8] == 'T' && is_clock(s + 9, n - 9, 1);
}

static int is_date(const uint8_t *s, size_t n) {
    size_t day; /* how long a date down to the day is */
    if (n > 0 && s[0] == 'T') {
        if (n > 2 && s[1] == '-' && s[2] == '-') return n == 5 && in(two(s, n, 3), 0, 60);
        if (n > 1 && s[1] == '-') return in(two(s, n, 2), 0, 59) && (n == 4 || (n == 6 && in(two(s, n, 4), 0, 60)));
        return is_clock(s + 1, n - 1, 0);
    }
    if (n > 2 && s[0] == '-' && s[1] == '-' && s[2] == '-') {
        if (!in(two(s, n, 3), 1, 31)) return 0;
        day = 5;
    } else if (n > 1 && s[0] == '-' && s[1] == '-') {
        if (n == 4) return in(two(s, n, 2), 1, 12);
        if (!is_day(-1, two(s, n, 2), two(s, n, 4))) return 0;
        day = 6;
    } else {
        int c = two(s, n, 0), y = two(s, n, 2);
        if (c < 0 || y < 0) return 0;
        if (n == 4) return 1;
        if (s[4] == '-') return n == 7 && in(two(s, n, 5), 1, 12);
        if (!is_day(c * 100 + y, two(s, n, 4), two(s, n, 6))) return 0;
        day = 8;
    }
    return n == day || (s[day] == 'T' && is_clock(s + day + 1, n - day - 1, 0));
}

static int fits(const uint8_t *s, size_t n, int kind) {
    size_t semis, i = 0;
    switch (kind) {
    case 1: case 6: return is_text(s, n, 0, &semis);
    case 2: return is_text(s, n, 1, &semis);
    case 3: return is_uri(s, n);
    case 4: return is_text(s, n, 1, &semis) && semis == 4;
    case 5: return is_text(s, n, 1, &semis) && semis == 6;
    case 7:
        if (n > 0 && s[0] != ';') {
            uint8_t c = s[0] & 0xDF;
            if (c != 'M' && c != 'F' && c != 'O' && c != 'N' && c != 'U') return 0;
            i = 1;
        }
        return i == n || (s[i] == ';' && is_text(s + i + 1, n - i - 1, 0, &semis));
    case 8:
        while (i < n && is_digit(s[i])) i++;
        return i > 0 && i < n && s[i] == ';' && is_uri(s + i + 1, n - i - 1);
    case 9: return is_date(s, n);
    case 10: return is_stamp(s, n);
    case 11: return is_offset(s, n);
    default: return 1;
    }
}

/* First octet at which a text breaks, with so many bare semicolons at most; its length where none does. */
static size_t text_break(const uint8_t *s, size_t n, int commas, size_t semis) {
    for (size_t i = 0; i < n; i++) {
        if (s[i] == '\\') {
            i++;
            if (i < n && s[i] != '\\' && s[i] != ',' && s[i] != ';' && s[i] != 'n' && s[i] != 'N') return i;
        } else if (s[i] == ',' && !commas) {
            return i;
        } else if (s[i] == ';' && semis-- == 0) {
            return i;
        }
    }
    return n;
}

static size_t uri_break(const uint8_t *s, size_t n) {
    size_t i = 0;
    if (n > 0 && !is_letter(s[0])) return 0;
    while (i < n && (is_letter(s[i]) || is_digit(s[i]) || s[i] == '+' || s[i] == '-' || s[i] == '.')) i++;
    if (i < n && s[i] != ':') return i;
    while (i < n && s[i] >= 0x21 && s[i] <= 0x7E) i++;
    return i;
}

static size_t word_break(const uint8_t *s, size_t n, const char *word) {
    size_t i = 0;
    while (i < n && word[i] && (s[i] == (uint8_t)word[i] || (is_letter(s[i]) && (s[i] & 0xDF) == (uint8_t)word[i]))) i++;
    return i;
}

/* Whether some date, stamp or offset starts with these octets: the ends of a few values are tried. */
static int goes_on(const uint8_t *s, size_t n, int kind) {
    static const char *values[] = {"00001101T000000", "00001130T000000", "00001101", "00001130", "0000", "--01", "+0000"};
    uint8_t whole[64];
    if (n > 40) return 0;
    memcpy(whole, s, n);
    for (size_t v = 0; v < sizeof values / sizeof values[0]; v++)
        for (const char *end = values[v];; end++) {
            memcpy(whole + n, end, strlen(end));
            if (fits(whole, n + strlen(end), kind)) return 1;
            if (!*end) break;
        }
    return 0;
}

/* First octet of an unfit value from which no octets that follow make it fit; its length where it only ends too early. */
static size_t value_break(const uint8_t *s, size_t n, size_t row, int kind) {
    size_t i = 0;
    if (row == 1 || row == 2) return word_break(s, n, "VCARD");
    if (row == 34) return word_break(s, n, "4.0");
    switch (kind) {
    case 1: case 6: return text_break(s, n, 0, n);
    case 2: return text_break(s, n, 1, n);
    case 3: return uri_break(s, n);
    case 4: return text_break(s, n, 1, 4);
    case 5: return text_break(s, n, 1, 6);
    case 7:
        if (n > 0 && s[0] != ';') {
            uint8_t c = s[0] & 0xDF;
            if (c != 'M' && c != 'F' && c != 'O' && c != 'N' && c != 'U') return 0;
            i = 1;
        }
        if (i < n && s[i] != ';') return i;
        return i + 1 + text_break(s + i + 1, n - i - 1, 0, n);
    case 8:
        while (i < n && is_digit(s[i])) i++;
        if (i == n || i == 0 || s[i] != ';') return i;
        return i + 1 + uri_break(s + i + 1, n - i - 1);
    default:
        while (i < n && goes_on(s, i + 1, kind)) i++;
        return i;
    }
}

static int says(const uint8_t *s, size_t at, size_t n, const char *text) { return n == strlen(text) && strncasecmp((const char *)s + at, text, n) == 0; }

static int kind_of(const uint8_t *s, const struct line *l, size_t row) {
    int kind = rows[row].kind;
    if (kind == 9) {
        if (l->has_over && says(s, l->over, l->over_len, "text")) return 1;
        return l->has_scale && !says(s, l->scale, l->scale_len, "gregorian") ? 0 : 9;
    }
    if (row == 18 && l->has_over && says(s, l->over, l->over_len, "utc-offset")) return 11;
    if (!l->has_over || row < 3 || row == 5 || row == 34 || (kind != 0 && kind != 1 && kind != 3)) return kind;
    if (says(s, l->over, l->over_len, "text")) return 1;
    if (says(s, l->over, l->over_len, "uri")) return 3;
    return 0;
}

struct card {
    int phase, fn, member, group;
    uint64_t seen, tagged; /* the rows of which a line was seen, and of which the first line had an ALTID */
    size_t cards, lines;
    size_t used, from[40], len[40]; /* where these ALTIDs stand among those kept */
};

/* Whether a line of a row that a card has once starts a second instance; the first line's ALTID is kept. */
static int is_second(const uint8_t *s, const struct line *l, size_t row, struct card *c, uint8_t *kept) {
    uint64_t bit = 1ull << row;
    if (c->seen & bit)
        return !(l->has_altid && (c->tagged & bit) && c->len[row] == l->altid_len && memcmp(kept + c->from[row], s + l->altid, l->altid_len) == 0);
    c->seen |= bit;
    if (l->has_altid) {
        c->tagged |= bit;
        c->from[row] = c->used;
        c->len[row] = l->altid_len;
        memcpy(kept + c->used, s + l->altid, l->altid_len);
        c->used += l->altid_len;
    }
    return 0;
}

/* 0, or the refusal of one logical line; of 5 and 7 the octet of the line too. */
static int judge_line(const uint8_t *s, size_t n, struct card *c, uint8_t *kept, size_t *octet) {
    struct line l;
    *octet = first_bad(s, n, 0);
    if (*octet < n) return 5;
    int fault = parse(s, n, &l);
    if (fault) return fault;
    size_t row = find_row(s + l.name_start, l.name_end - l.name_start);
    if (c->phase == 0 ? row != 1 : c->phase == 1 ? row != 34 : row == 1 || row == 34) return 9;
    const uint8_t *v = s + l.value;
    size_t m = n - l.value;
    int frame = row == 1 || row == 2 || row == 34;
    if (frame && (l.group || l.params)) return 8;
    int kind = frame ? 0 : kind_of(s, &l, row);
    if (row == 34 ? !(m == 3 && memcmp(v, "4.0", 3) == 0) : frame ? !(m == 5 && strncasecmp((const char *)v, "VCARD", 5) == 0) : !fits(v, m, kind)) {
        *octet = l.value + value_break(v, m, row, kind);
        return 7;
    }
    if (rows[row].once && is_second(s, &l, row, c, kept)) return 10;
    if (row == 2) {
        if (!c->fn) return 11;
        if (c->member && !c->group) return 12;
        c->cards++;
        c->phase = c->fn = c->member = c->group = 0;
        c->seen = c->tagged = 0;
        c->used = 0;
    } else {
        c->phase = row == 1 ? 1 : 2;
        if (row == 6) c->fn = 1;
        if (row == 24) c->member = 1;
        if (row == 4 && m == 5 && strncasecmp((const char *)v, "group", 5) == 0) c->group = 1;
    }
    c->lines++;
    return 0;
}

/* The end of the logical line at `at`; copies it without folds to buf and answers its length there. */
static size_t line_end(const uint8_t *in, size_t len, size_t at, uint8_t *buf, size_t *n) {
    size_t i = at, w = 0;
    while (i < len) {
        if (in[i] == 13) {
            if (i + 2 < len && (in[i + 2] == ' ' || in[i + 2] == 9)) {
                i += 3;
                continue;
            }
            break;
        }
        buf[w++] = in[i++];
    }
    *n = w;
    return i;
}

/* Where the octet of the logical line at `at` stands, or the CR that ends it. */
static size_t place_of(const uint8_t *in, size_t len, size_t at, size_t octet) {
    for (size_t i = at;; i++) {
        while (in[i] == 13 && i + 2 < len && (in[i + 2] == ' ' || in[i + 2] == 9)) i += 3;
        if (in[i] == 13 || octet-- == 0) return i;
    }
}

static uint64_t judge_all(const uint8_t *in, size_t len, struct card *c) {
    uint8_t buf[LIMIT], kept[LIMIT];
    if (len > LIMIT) return REFUSE(1, LIMIT);
    if (len == 0) return REFUSE(2, 0);
    for (size_t i = 0; i < len; i++) {
        if (in[i] == 13) {
            if (i + 1 >= len || in[i + 1] != 10) return REFUSE(3, i);
            i++;
        } else if (in[i] == 10) {
            return REFUSE(3, i);
        }
    }
    if (len < 2 || in[len - 2] != 13 || in[len - 1] != 10) return REFUSE(4, len);
    memset(c, 0, sizeof *c);
    for (size_t at = 0; at < len;) {
        size_t n, octet, end = line_end(in, len, at, buf, &n);
        int r = judge_line(buf, n, c, kept, &octet);
        if (r) return REFUSE(r, r == 5 || r == 7 ? place_of(in, len, at, octet) : at);
        at = end + 2;
    }
    if (c->phase) return REFUSE(9, len);
    return 0;
}

uint64_t plain_read(const uint8_t *in, size_t len, uint8_t *copy, size_t copy_room, uint32_t *rec, size_t rec_room) {
    struct card c;
    uint8_t buf[LIMIT];
    uint64_t r = judge_all(in, len, &c);
    if (r) return r;
    size_t need = 0;
    for (size_t at = 0; at < len;) {
        size_t n, end = line_end(in, len, at, buf, &n);
        need += n + 2;
        at = end + 2;
    }
    if (copy_room < need) return REFUSE(13, need);
    if (rec_room < 8 * c.lines) return REFUSE(14, 8 * c.lines);
    size_t w = 0;
    for (size_t at = 0; at < len;) {
        size_t n, end = line_end(in, len, at, copy + w, &n);
        struct line l;
        parse(copy + w, n, &l);
        size_t row = find_row(copy + w + l.name_start, l.name_end - l.name_start);
        uint32_t one[8] = {row, w, n, l.group, l.name_end - l.name_start, l.params, w + l.value, kind_of(copy + w, &l, row)};
        memcpy(rec, one, sizeof one);
        rec += 8;
        copy[w + n] = 13;
        copy[w + n + 1] = 10;
        w += n + 2;
        at = end + 2;
    }
    return c.cards;
}

uint64_t plain_escape(const uint8_t *in, size_t len, uint8_t *out, size_t room) {
    if (len > LIMIT) return REFUSE(1, LIMIT);
    size_t bad = first_bad(in, len, 1);
    if (bad < len) return REFUSE(31, bad);
    size_t need = len;
    for (size_t i = 0; i < len; i++)
        if (in[i] == '\\' || in[i] == ',' || in[i] == ';' || in[i] == 10) need++;
    if (need > LIMIT) return REFUSE(16, LIMIT);
    if (room < need) return REFUSE(15, need);
    size_t w = 0;
    for (size_t i = 0; i < len; i++) {
        uint8_t b = in[i];
        if (b == '\\' || b == ',' || b == ';') {
            out[w++] = '\\';
            out[w++] = b;
        } else if (b == 10) {
            out[w++] = '\\';
            out[w++] = 'n';
        } else {
            out[w++] = b;
        }
    }
    return w;
}

uint64_t plain_encode(const uint8_t *in, size_t len, uint8_t *out, size_t room) {
    if (len > LIMIT) return REFUSE(1, LIMIT);
    size_t bad = first_bad(in, len, 1);
    if (bad < len) return REFUSE(31, bad);
    size_t need = len;
    for (size_t i = 0; i < len; i++)
        if (in[i] == '^' || in[i] == '"' || in[i] == 10) need++;
    if (need > LIMIT) return REFUSE(16, LIMIT);
    if (room < need) return REFUSE(15, need);
    size_t w = 0;
    for (size_t i = 0; i < len; i++) {
        uint8_t b = in[i];
        if (b == '^' || b == '"' || b == 10) {
            out[w++] = '^';
            out[w++] = b == 10 ? 'n' : b == '"' ? '\'' : '^';
        } else {
            out[w++] = b;
        }
    }
    return w;
}

/* The octet that the pair at s stands for, 0 where there is none. */
static uint8_t paired(const uint8_t *s, size_t left) {
    if (s[0] != '^' || left < 2) return 0;
    return s[1] == 'n' ? 10 : s[1] == '\'' ? '"' : s[1] == '^' ? '^' : 0;
}

uint64_t plain_decode(const uint8_t *in, size_t len, uint8_t *out, size_t room) {
    if (len > LIMIT) return REFUSE(1, LIMIT);
    size_t bad = first_bad(in, len, 0);
    for (size_t i = 0; i < bad; i++)
        if (in[i] == '"') bad = i;
    if (bad < len) return REFUSE(31, bad);
    size_t need = 0;
    for (size_t i = 0; i < len; i += paired(in + i, len - i) ? 2 : 1) need++;
    if (room < need) return REFUSE(15, need);
    size_t w = 0;
    for (size_t i = 0; i < len; i++) {
        uint8_t b = paired(in + i, len - i);
        if (b) i++;
        out[w++] = b ? b : in[i];
    }
    return w;
}
