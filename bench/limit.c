/* What the streams of bench/limit cost where nothing is done but what their answers need, by plain means.
 *
 *   limit IN OUT                works the stream IN, and writes what `racf script IN OUT` does
 *   limit keep JOURNAL IN OUT   the same, and keeps each command as the program does: its record is behind JOURNAL's last one, closed, and
 *                               synced, then opened, and synced, before its reply is written at once
 *   limit decide TIMES IN OUT   writes the return code and the profile of each AUTH of IN, and then decides on all of them so many times;
 *                               prints how many were let through, and the nanoseconds of the processor for each
 *
 * A profile stands in a hash table by its name. A generic one stands in a trie too, whose edges are qualifiers: the search for the profile
 * that decides goes from the root along the qualifiers of the name, at each node to the most specific edge first, and comes back where an
 * edge leads to none. Nothing is durable but with `keep`, and nothing can be undone. It works the lines that bench/limit makes, and ends at any
 * other. */
#define _GNU_SOURCE
#include <fcntl.h>
#include <stdint.h>
#include <stdio.h>
#include <stdlib.h>
#include <string.h>
#include <time.h>
#include <unistd.h>

typedef struct { const char *at; size_t size; } Word;

_Noreturn static void fail(const char *why, Word w) {
    fprintf(stderr, "limit: %s: %.*s\n", why, (int)w.size, w.at);
    exit(2);
}
static Word text(const char *at) { return (Word){at, strlen(at)}; }
static int same(Word a, Word b) { return a.size == b.size && !memcmp(a.at, b.at, a.size); }
static int is(Word w, const char *at) { return same(w, text(at)); }
/* Memory that is never given back. */
static void *new(size_t bytes) {
    void *at = calloc(1, bytes);
    if (!at) fail("no memory", text(""));
    return at;
}
static Word kept(Word w) { return (Word){memcpy(new(w.size + 1), w.at, w.size), w.size}; }
/* A list with room for one more behind so many; it has room for four, and doubles where it is full. */
static void *more(void *list, size_t count, size_t bytes) {
    if (count && (count < 4 || count & (count - 1))) return list;
    list = realloc(list, (count ? 2 * count : 4) * bytes);
    if (!list) fail("no memory", text(""));
    return list;
}

/* ---- hash tables: of things that begin with a key, found by an owner and a word */
typedef struct { const void *owner; Word word; } Key;
typedef struct { uint64_t hash; Key *thing; } Slot;
typedef struct { Slot *slots; size_t room, count; } Table;

static uint64_t hash(const void *owner, Word w) {
    uint64_t h = (uintptr_t)owner;
    for (size_t i = 0; i < w.size; i++) h = (h ^ (unsigned char)w.at[i]) * 0x100000001B3;
    return h ^ h >> 32;
}
/* The slot of the thing, or the free one where it would stand. */
static Slot *slot(const Table *t, uint64_t h, const void *owner, Word w) {
    Slot *s = &t->slots[h & (t->room - 1)];
    while (s->thing && !(s->hash == h && s->thing->owner == owner && same(s->thing->word, w)))
        if (++s == t->slots + t->room) s = t->slots;
    return s;
}
static void *find(const Table *t, const void *owner, Word w) {
    return t->count ? slot(t, hash(owner, w), owner, w)->thing : 0;
}
static void grow(Table *t) {
    Table old = *t;
    t->room = old.room ? 2 * old.room : 64;
    t->slots = new(t->room * sizeof *t->slots);
    for (Slot *s = old.slots; s < old.slots + old.room; s++)
        if (s->thing) *slot(t, s->hash, s->thing->owner, s->thing->word) = *s;
    free(old.slots);
}
/* Where the pointer to a thing stands, or is to be put. */
static Key **place(Table *t, const void *owner, Word w) {
    if (2 * t->count >= t->room) grow(t);
    uint64_t h = hash(owner, w);
    Slot *s = slot(t, h, owner, w);
    t->count += !s->thing;
    s->hash = h;
    return &s->thing;
}

/* ---- users, groups and profiles */
typedef struct User { Key key; struct User *group; int restricted; } User; /* a group has no group */
typedef struct { Key key; const User *user; } Acee;
typedef struct { const User *who; int level; } Access;
typedef struct { Key key; Access *list; size_t count; int uacc, warning; } Profile; /* of a class; its name stands behind it */
typedef struct Node {
    Key key;           /* the node before it, and the bytes of the qualifier between them before the first generic one */
    Word qualifier;
    Profile *profile;  /* whose name ends here */
    struct Node *any;  /* behind ** */
    struct Node *next; /* the next less specific one of the same key */
    uint64_t fronts;   /* a bit for each length of such bytes of the generic qualifiers behind it */
} Node;
typedef struct { Key key; int active; Node root; } Class;

static Table classes, names, acees, profiles;
static Table literals, generics; /* nodes; a generic one stands for all of its key, the most specific */
static User *everyone;

static void *known(const Table *t, Word w) {
    void *thing = find(t, 0, w);
    if (!thing) fail("it isn't there", w);
    return thing;
}
static Word identifier(Word w) {
    if (!w.size || w.size > 8) fail("no identifier", w);
    return w;
}
/* A new thing, which has the name and bytes of zero. */
static void *enter(Table *t, Word name, size_t bytes) {
    Key *thing = new(bytes), **at = place(t, 0, identifier(name));
    if (*at) fail("it is there", name);
    thing->word = kept(name);
    return *at = thing;
}
static void give(Profile *p, const User *who, int level) {
    size_t i = 0;
    while (i < p->count && p->list[i].who != who) i++;
    if (i == p->count) p->list = more(p->list, p->count++, sizeof *p->list);
    p->list[i] = (Access){who, level};
}

/* ---- names */
enum { LONGEST_NAME = 246, LONGEST_FRONT = 63 };
static Word qualifiers[LONGEST_NAME];
static size_t qualifier_count;

/* The bytes of a qualifier before its first generic one. */
static size_t front_of(Word q) {
    size_t n = 0;
    while (n < q.size && q.at[n] != '*' && q.at[n] != '%') n++;
    return n;
}
/* Splits a name into its qualifiers, and tells whether it is generic. */
static int split(Word name) {
    int generic = 0;
    if (name.size > LONGEST_NAME) fail("a name too long", name);
    qualifier_count = 0;
    for (const char *at = name.at, *end = at + name.size; at <= end; at++) {
        Word q = {at, 0};
        while (at < end && *at != '.') at++;
        q.size = at - q.at;
        if (!q.size) fail("an empty qualifier", name);
        if (front_of(q) < q.size) {
            generic = 1;
            if (memchr(q.at, '*', q.size - 1) && !is(q, "**")) fail("a byte behind an asterisk", name);
        }
        qualifiers[qualifier_count++] = q;
    }
    return generic;
}
/* What names and qualifiers are compared by: the lesser text is that of the more specific one. */
static char *ranks(Word name, char *to) {
    enum { PERCENT = 0xF0, QUALIFIER_ENDS, STAR, NAME_ENDS, DOUBLE_STAR };
    char *ranked = to;
    for (const char *at = name.at, *end = at + name.size; at <= end; at++) {
        if (at == end || *at == '.') *to++ = (char)QUALIFIER_ENDS;
        else if (*at == '%') *to++ = (char)PERCENT;
        else if (*at != '*') *to++ = *at;
        else if (at + 1 == end || at[1] != '*') *to++ = (char)STAR;
        else *to++ = (char)DOUBLE_STAR, at += 2;
    }
    *to++ = (char)NAME_ENDS, *to = 0;
    return ranked;
}
static int more_specific(Word a, Word b) {
    char of_a[LONGEST_NAME + 3], of_b[LONGEST_NAME + 3];
    return strcmp(ranks(a, of_a), ranks(b, of_b)) < 0;
}
/* Whether a generic qualifier other than ** covers one of a name. */
static int covers(Word pattern, Word q) {
    int open = pattern.at[pattern.size - 1] == '*';
    size_t n = pattern.size - open;
    if (q.size < n || (q.size > n && !open)) return 0;
    for (size_t i = 0; i < n; i++) if (pattern.at[i] != q.at[i] && pattern.at[i] != '%') return 0;
    return 1;
}

/* ---- the trie */
static Node *new_node(Node *before, Word front, Word qualifier) {
    Node *n = new(sizeof *n);
    n->key = (Key){before, front}, n->qualifier = qualifier;
    return n;
}
/* The node behind another by a qualifier; made where there is none. */
static Node *behind(Node *node, Word q) {
    Word front = {q.at, front_of(q)};
    if (is(q, "**")) return node->any ? node->any : (node->any = new_node(node, front, q));
    Key **at = place(front.size == q.size ? &literals : &generics, node, front);
    Node *first = (Node *)*at, **link = &first;
    while (*link && more_specific((*link)->qualifier, q)) link = &(*link)->next;
    Node *found = *link && same((*link)->qualifier, q) ? *link : new_node(node, front, q);
    if (found != *link) found->next = *link, *link = found;
    *at = &first->key;
    if (front.size == q.size) return found;
    if (front.size > LONGEST_FRONT) fail("too many bytes before a generic one", q);
    node->fronts |= 1ull << front.size;
    return found;
}
/* The most specific profile behind a node that covers the rest of the name, its qualifiers from i on. */
static Profile *best(const Node *node, size_t i) {
    Profile *p;
    if (i < qualifier_count) {
        Word q = qualifiers[i];
        const Node *n = find(&literals, node, q);
        if (n && (p = best(n, i + 1))) return p;
        for (uint64_t left = node->fronts; left;) {
            size_t front = 63 - __builtin_clzll(left);
            left ^= 1ull << front;
            if (front > q.size) continue;
            for (n = find(&generics, node, (Word){q.at, front}); n; n = n->next)
                if (covers(n->qualifier, q) && (p = best(n, i + 1))) return p;
        }
    }
    int open = node->qualifier.size && node->qualifier.at[node->qualifier.size - 1] == '*' && !is(node->qualifier, "**");
    if (node->profile && (open || i == qualifier_count)) return node->profile;
    Profile *most = 0;
    for (; node->any && i <= qualifier_count; i++)
        if ((p = best(node->any, i)) && (!most || more_specific(p->key.word, most->key.word))) most = p;
    return most;
}

/* ---- the decision */
typedef enum { NOCLASS, CLASSOFF, NOPROFILE, BY_USER, BY_GROUP, BY_STAR, BY_UACC, BY_WARNING, INSUFFICIENT } Rule;
typedef struct { const User *user; const Class *class; Word name; int asked; } Question;
typedef struct { const Profile *profile; Rule rule; int level; } Answer;

static Answer judged(const Profile *p, const User *user, int asked) {
    int mine = -1, ours = -1, all = -1;
    for (const Access *a = p->list, *end = a + p->count; a < end; a++) {
        if (a->who == user) mine = a->level;
        else if (a->who == user->group) ours = a->level;
        else if (a->who == everyone) all = a->level;
    }
    int anyone = mine < 0 && ours < 0 && !user->restricted;
    if (mine >= asked) return (Answer){p, BY_USER, mine};
    if (mine < 0 && ours >= asked) return (Answer){p, BY_GROUP, ours};
    if (anyone && all >= asked) return (Answer){p, BY_STAR, all};
    if (anyone && p->uacc >= asked) return (Answer){p, BY_UACC, p->uacc};
    int standing = mine >= 0 ? mine : ours >= 0 ? ours : !anyone ? 0 : all > p->uacc ? all : p->uacc;
    return (Answer){p, p->warning ? BY_WARNING : INSUFFICIENT, standing};
}
static Answer decide(const Question *q) {
    if (!q->class) return (Answer){0, NOCLASS, 0};
    if (!q->class->active) return (Answer){0, CLASSOFF, 0};
    const Profile *p = find(&profiles, q->class, q->name);
    if (!p) split(q->name), p = best(&q->class->root, 0);
    return p ? judged(p, q->user, q->asked) : (Answer){0, NOPROFILE, 0};
}

/* ---- what is printed */
enum { BUFFER = 1 << 16, LONGEST_LINE = 4096, LONGEST_ANSWER = 1024, LEVELS = 6 };
#define WORD(text) {text, sizeof text - 1}
static const Word level_names[LEVELS] = {WORD("NONE"), WORD("EXECUTE"), WORD("READ"), WORD("UPDATE"), WORD("CONTROL"), WORD("ALTER")};
static const Word rule_words[] = {WORD("4 NOCLASS"), WORD("4 CLASSOFF"), WORD("4 NOPROFILE"), WORD("0 USER"), WORD("0 GROUP"),
                                  WORD("0 STAR"), WORD("0 UACC"), WORD("0 WARNING"), WORD("8 INSUFFICIENT")};
static char printed[BUFFER + LONGEST_ANSWER];
static size_t printed_size;
static FILE *output;
static size_t accepted;

static void flush(void) {
    if (fwrite(printed, 1, printed_size, output) != printed_size || fflush(output)) fail("the output can't be written", text(""));
    printed_size = 0;
}
static void print(Word w, char behind) {
    memcpy(printed + printed_size, w.at, w.size);
    printed_size += w.size;
    printed[printed_size++] = behind;
}
static void print_count(void) {
    char digits[24], *at = digits + sizeof digits;
    size_t n = accepted;
    do *--at = '0' + n % 10; while (n /= 10);
    print((Word){at, digits + sizeof digits - at}, ' ');
}
/* ---- the journal */
enum { CLOSED = 0, OPEN = 1 };
static int journal = -1;
static off_t journal_size;
static char *line_at, *here;

static void put(const char *bytes, size_t size, off_t at) {
    if (pwrite(journal, bytes, size, at) != (ssize_t)size || fsync(journal)) fail("the journal can't be written", text(""));
}
/* The command's line behind its length, and a closed gate, which is opened once they are kept. */
static void keep(void) {
    char record[sizeof(uint32_t) + LONGEST_LINE + 1];
    uint32_t size = (char *)rawmemchr(here, '\n') - line_at;
    if (size > LONGEST_LINE) fail("a line too long", text(""));
    memcpy(record, &size, sizeof size);
    memcpy(record + sizeof size, line_at, size);
    record[sizeof size + size] = CLOSED;
    put(record, sizeof size + size + 1, journal_size);
    journal_size += sizeof size + size;
    put(&(char){OPEN}, 1, journal_size++);
}
static void accept(void) {
    accepted++;
    if (journal >= 0) keep();
    print_count();
    print(text("ACCEPTED"), '\n');
    if (journal >= 0) flush();
}
static void answer(const Question *q, Word class) {
    Answer a = decide(q);
    print_count();
    print(rule_words[a.rule], a.profile ? ' ' : '\n');
    if (!a.profile) return;
    if (a.rule == BY_GROUP) print(q->user->group->key.word, ' ');
    print(a.profile->key.word, ' ');
    print(level_names[a.level], '\n');
    if (a.rule < BY_WARNING) return;
    print(text(a.rule == BY_WARNING ? "AUDIT WARNING" : "AUDIT FAILURE"), ' ');
    print(q->user->key.word, ' ');
    print(class, ' ');
    print(q->name, ' ');
    print(level_names[q->asked], '\n');
}

/* ---- the lines */
static char folded[256]; /* 0 where a word ends */
static Question *questions; /* where they are kept in place of answered */
static size_t question_count;
static int keeping;

static int next_is(char c) {
    while (*here == ' ' || *here == '\t') here++;
    return *here == c && here++;
}
static Word word(void) {
    next_is(0);
    char *from = here;
    for (char c; (c = folded[(unsigned char)*here]); here++) *here = c;
    return (Word){from, here - from};
}
static Word value(void) {
    Word w = next_is('(') ? word() : text("");
    if (!next_is(')')) fail("no value", w);
    return w;
}
static int level_of(Word w) {
    for (int level = 0; level < LEVELS; level++) if (same(w, level_names[level])) return level;
    fail("no level", w);
}

static void auth(void) {
    const Acee *acee = known(&acees, identifier(word()));
    Word class = identifier(word()), name = word();
    Question q = {acee->user, find(&classes, 0, class), name, level_of(word())};
    if (split(name)) fail("a generic name", name);
    if (!keeping) {
        answer(&q, class);
        return;
    }
    q.name = kept(name);
    questions = more(questions, question_count, sizeof q);
    questions[question_count++] = q;
}
static void rdefine(void) {
    Class *class = known(&classes, word());
    Word name = word();
    Profile *p = new(sizeof *p + name.size);
    p->key = (Key){class, {memcpy(p + 1, name.at, name.size), name.size}};
    for (Word w; (w = word()).size;) {
        if (is(w, "UACC")) p->uacc = level_of(value());
        else if (is(w, "WARNING")) p->warning = 1;
        else fail("no operand", w);
    }
    Key **at = place(&profiles, class, name);
    if (*at) fail("the profile is there", name);
    *at = &p->key;
    if (split(p->key.word)) {
        Node *node = &class->root;
        for (size_t i = 0; i < qualifier_count; i++) node = behind(node, qualifiers[i]);
        node->profile = p;
    }
    accept();
}
static void permit(void) {
    enum { MOST = 16 };
    const User *who[MOST];
    Word name = word();
    Class *class = 0;
    int level = 0, count = 0;
    for (Word w; (w = word()).size;) {
        if (is(w, "CLASS")) class = known(&classes, value());
        else if (is(w, "ACCESS")) level = level_of(value());
        else if (is(w, "ID") && next_is('(')) while (count < MOST && !next_is(')')) who[count++] = known(&names, identifier(word()));
        else fail("no operand", w);
    }
    Profile *p = find(&profiles, class, name);
    if (!p) fail("no profile", name);
    for (int i = 0; i < count; i++) give(p, who[i], level);
    accept();
}
static void add_user(void) {
    User *u = enter(&names, word(), sizeof *u);
    for (Word w; (w = word()).size;) {
        if (is(w, "DFLTGRP")) u->group = known(&names, value());
        else if (is(w, "RESTRICTED")) u->restricted = 1;
        else fail("no operand", w);
    }
    accept();
}
static void verify(void) {
    Acee *acee = enter(&acees, word(), sizeof *acee);
    acee->user = known(&names, word());
    print_count();
    print(text("0 VERIFIED"), '\n');
}
static void line(void) {
    if (here[0] == '/' && here[1] == '*') {
        here = (char *)rawmemchr(here, '\n') + 1;
        return;
    }
    line_at = here;
    Word verb = word();
    if (!verb.size) {}
    else if (is(verb, "AUTH")) auth();
    else if (is(verb, "PERMIT")) permit();
    else if (is(verb, "RDEFINE")) rdefine();
    else if (is(verb, "VERIFY")) verify();
    else if (is(verb, "ADDUSER")) add_user();
    else if (is(verb, "ADDGROUP")) enter(&names, word(), sizeof(User)), accept();
    else if (is(verb, "SETROPTS") && is(word(), "CLASSACT")) ((Class *)known(&classes, value()))->active = 1, accept();
    else fail("a line that it doesn't know", verb);
    if (!next_is('\n')) fail("a word too many", word());
    if (keeping) printed_size = 0;
    else if (printed_size > BUFFER) flush();
}

static void work(const char *path) {
    static char read[LONGEST_LINE + BUFFER];
    FILE *input = fopen(path, "r");
    size_t left = 0;
    if (!input) fail("the input can't be read", text(path));
    for (size_t n; (n = fread(read + left, 1, BUFFER, input));) {
        char *end = read + left + n, *last = memrchr(read, '\n', end - read);
        for (here = read; last && here <= last;) line();
        if (!last || (left = end - here) > LONGEST_LINE) fail("a line too long", text(path));
        memmove(read, here, left);
    }
    if (left || ferror(input)) fail("the input can't be read to its end", text(path));
}
static void decide_all(long times) {
    size_t allowed = 0;
    for (size_t i = 0; i < question_count; i++) {
        Answer a = decide(&questions[i]);
        print((Word){rule_words[a.rule].at, 1}, ' ');
        print(a.profile ? a.profile->key.word : text("-"), '\n');
        if (printed_size > BUFFER) flush();
    }
    clock_t begun = clock();
    for (long t = 0; t < times; t++)
        for (size_t i = 0; i < question_count; i++) allowed += *rule_words[decide(&questions[i]).rule].at == '0';
    printf("%zu %.3f\n", allowed, (clock() - begun) * (1e9 / CLOCKS_PER_SEC) / (times * question_count));
}

int main(int count, char **words) {
    int durable = count == 5 && !strcmp(words[1], "keep");
    keeping = count == 5 && !strcmp(words[1], "decide");
    if (count != 3 && !keeping && !durable) fail("it is given IN OUT, keep JOURNAL IN OUT, or decide TIMES IN OUT", text(""));
    if (durable && (journal = open(words[2], O_RDWR | O_CREAT | O_TRUNC, 0600)) < 0) fail("the journal can't be opened", text(words[2]));
    for (int c = 'A'; c <= 'Z'; c++) folded[c] = folded[c - 'A' + 'a'] = c;
    for (const char *c = "0123456789#$@-_/:.%*"; *c; c++) folded[(unsigned char)*c] = *c;
    enter(&classes, text("FACILITY"), sizeof(Class));
    enter(&classes, text("TERMINAL"), sizeof(Class));
    everyone = enter(&names, text("*"), sizeof *everyone);
    output = fopen(words[count - 1], "w");
    if (!output) fail("the output can't be written", text(words[count - 1]));
    work(words[count - 2]);
    if (keeping) decide_all(atol(words[2]));
    flush();
    return 0;
}
