#include <stdint.h>
#include <stddef.h>
#include <string.h>
/* JSON by recursive descent into an arena of nodes linked by pointers, with numbers in fixed point; then a walk that sums and measures depth. */
#define MAX_DEPTH 24

enum kind { NUL, FALSE, TRUE, NUMBER, STRING, ARRAY, OBJECT };

typedef struct node {
    uint8_t kind;
    uint8_t depth;
    uint16_t length;
    int32_t number;
    const char *text;
    struct node *child, *next;
} node;

typedef struct {
    const char *p, *end;
    node *nodes;
    uint32_t used, room;
    const char *error;
} parser;

static void skip(parser *s)
{
    while (s->p < s->end && (*s->p == ' ' || *s->p == '\t' || *s->p == '\n' || *s->p == '\r')) s->p++;
}

static node *new_node(parser *s, enum kind kind, int depth)
{
    node *it;
    if (s->used == s->room) {
        s->error = s->p;
        return NULL;
    }
    it = &s->nodes[s->used++];
    memset(it, 0, sizeof *it);
    it->kind = kind;
    it->depth = depth;
    return it;
}

static int literal(parser *s, const char *word, size_t n)
{
    if ((size_t)(s->end - s->p) < n || memcmp(s->p, word, n)) return 0;
    s->p += n;
    return 1;
}

static int string(parser *s, const char **text, uint16_t *length)
{
    const char *begin;
    if (s->p >= s->end || *s->p != '"') return 0;
    begin = ++s->p;
    while (s->p < s->end && *s->p != '"') {
        if (*s->p == '\\' && s->p + 1 < s->end) s->p++;
        s->p++;
    }
    if (s->p >= s->end) return 0;
    *text = begin;
    *length = (uint16_t)(s->p - begin);
    s->p++;
    return 1;
}

static int number(parser *s, int32_t *value)
{
    int64_t v = 0;
    int negative = 0, digits = 0, places = 0;
    if (s->p < s->end && *s->p == '-') {
        negative = 1;
        s->p++;
    }
    for (; s->p < s->end && *s->p >= '0' && *s->p <= '9'; s->p++, digits++) v = v * 10 + (*s->p - '0');
    if (!digits) return 0;
    if (s->p < s->end && *s->p == '.')
        for (s->p++; s->p < s->end && *s->p >= '0' && *s->p <= '9'; s->p++)
            if (places < 3) {
                v = v * 10 + (*s->p - '0');
                places++;
            }
    while (places++ < 3) v *= 10;
    *value = (int32_t)(negative ? -v : v);
    return 1;
}

static node *value(parser *s, int depth)
{
    node *it, **tail;
    char close;
    skip(s);
    if (s->p >= s->end || depth > MAX_DEPTH) goto bad;
    switch (*s->p) {
    case 'n':
        if (!literal(s, "null", 4)) goto bad;
        return new_node(s, NUL, depth);
    case 't':
        if (!literal(s, "true", 4)) goto bad;
        return new_node(s, TRUE, depth);
    case 'f':
        if (!literal(s, "false", 5)) goto bad;
        return new_node(s, FALSE, depth);
    case '"':
        it = new_node(s, STRING, depth);
        if (!it || !string(s, &it->text, &it->length)) goto bad;
        return it;
    case '[':
    case '{':
        it = new_node(s, *s->p == '[' ? ARRAY : OBJECT, depth);
        if (!it) return NULL;
        close = *s->p++ == '[' ? ']' : '}';
        tail = &it->child;
        skip(s);
        if (s->p < s->end && *s->p == close) {
            s->p++;
            return it;
        }
        for (;;) {
            const char *key = NULL;
            uint16_t length = 0;
            node *member;
            if (close == '}') {
                skip(s);
                if (!string(s, &key, &length)) goto bad;
                skip(s);
                if (s->p >= s->end || *s->p++ != ':') goto bad;
            }
            member = value(s, depth + 1);
            if (!member) return NULL;
            *tail = member;
            tail = &member->next;
            it->length++;
            skip(s);
            if (s->p >= s->end) goto bad;
            if (*s->p == ',') {
                s->p++;
                continue;
            }
            if (*s->p++ == close) return it;
            goto bad;
        }
    default:
        it = new_node(s, NUMBER, depth);
        if (!it || !number(s, &it->number)) goto bad;
        return it;
    }
bad:
    if (!s->error) s->error = s->p;
    return NULL;
}

static void walk(const node *it, int32_t *totals)
{
    for (; it; it = it->next) {
        totals[it->kind]++;
        if (it->kind == NUMBER) totals[7] += it->number;
        if (it->kind == STRING) totals[8] += it->length;
        if (it->depth > totals[9]) totals[9] = it->depth;
        if (it->child) walk(it->child, totals);
    }
}

void KERNEL(const char *text, uint32_t n, node *nodes, uint32_t room, int32_t *totals)
{
    parser s = {text, text + n, nodes, 0, room, NULL};
    node *root;
    for (int i = 0; i < 12; i++) totals[i] = 0;
    root = value(&s, 0);
    totals[10] = (int32_t)s.used;
    totals[11] = s.error ? (int32_t)(s.error - text) : -1;
    if (root) walk(root, totals);
}
