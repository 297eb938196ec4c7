/* check_demangle ROWS, check_symfilt ROWS : runs a program on a file of rows, and names the rows where it answers otherwise. It is
   linked with the program in the place of port.c, so that arguments, streams and the environment are memory: no row starts a process. */
#define PORT_IN_MEMORY
#include "port.c"
#include "rows.h"

typedef struct {
    char *at;
    size_t length, room;
} sink;

static bytes input;
static size_t input_at;
static sink streams[3]; /* what was written, by its stream */

uint64_t port_rattle_env(uint8_t *name, uint8_t *to, uint64_t capacity)
{
    (void)name;
    return copied(0, to, capacity);
}

uint64_t port_rattle_env_at(uint64_t place, uint8_t *to, uint64_t capacity)
{
    (void)place;
    return copied(0, to, capacity);
}

uint64_t port_write(uint32_t stream, uint8_t *from, uint64_t count)
{
    sink *to = &streams[stream % 3];
    if (to->length + count + 1 > to->room) {
        to->room = 2 * (to->length + count + 1);
        to->at = realloc(to->at, to->room);
        if (!to->at)
            exit(2);
    }
    memcpy(to->at + to->length, from, count);
    to->length += count;
    to->at[to->length] = 0;
    return count;
}

uint64_t port_read(uint32_t stream, uint8_t *to, uint64_t count)
{
    size_t left = input.length - input_at;
    (void)stream;
    if (count < left)
        left = count;
    if (left)
        memcpy(to, input.at + input_at, left);
    input_at += left;
    return left;
}

uint64_t port_lseek(uint32_t stream, uint64_t by, uint32_t from)
{
    (void)stream;
    (void)by;
    (void)from;
    errno = ESPIPE;
    return (uint64_t)-1;
}

uint32_t port_close(uint32_t stream)
{
    (void)stream;
    return 0;
}

uint32_t port_open(uint8_t *path, uint32_t flags)
{
    (void)path;
    (void)flags;
    errno = ENOENT;
    return (uint32_t)-1;
}

uint32_t port_statx(uint32_t folder, uint8_t *path, uint32_t flags, uint32_t mask, uint8_t *to)
{
    (void)folder;
    (void)path;
    (void)flags;
    (void)mask;
    (void)to;
    errno = ENOENT;
    return (uint32_t)-1;
}

uint32_t port_isatty(uint32_t stream)
{
    (void)stream;
    return 0;
}

uint64_t port___sysv_signal(uint32_t number, uint64_t handler)
{
    (void)number;
    (void)handler;
    return 0;
}

static char *program;
static size_t runs;
static int is_symfilt;

enum { MOST_WORDS = 64 };
static char *given[MOST_WORDS];
static int given_count;

static void give(bytes word)
{
    char *copy = room(word.length + 1);
    memcpy(copy, word.at, word.length);
    copy[word.length] = 0;
    if (given_count < MOST_WORDS)
        given[given_count++] = copy;
}

/* The words of a field, which blanks set apart; "-" is none. */
static void give_words(bytes field)
{
    const char *at = field.at, *end = field.at + field.length;
    if (is(field, "-"))
        return;
    for (;;) {
        const char *blank = memchr(at, ' ', (size_t)(end - at));
        bytes word;
        word.at = at;
        word.length = (size_t)((blank ? blank : end) - at);
        give(word);
        if (!blank)
            return;
        at = blank + 1;
    }
}

/* Runs the program over the words that were given, and a text: its status. */
static uint32_t run(bytes text)
{
    uint32_t status;
    int k;
    char *whole[MOST_WORDS + 2];
    whole[0] = program;
    memcpy(whole + 1, given, (size_t)given_count * sizeof *given);
    words = whole;
    word_count = given_count + 1;
    input = text;
    input_at = 0;
    streams[1].length = streams[2].length = 0;
    status = port_main();
    for (k = 0; k < given_count; k++)
        free(given[k]);
    given_count = 0;
    runs++;
    return status;
}

static bytes wrote(int stream)
{
    bytes text;
    text.at = streams[stream].length ? streams[stream].at : "";
    text.length = streams[stream].length;
    return text;
}

static bytes joined(const char *one, bytes two, const char *three, bytes four, const char *five)
{
    char *text = room(strlen(one) + two.length + strlen(three) + four.length + strlen(five) + 1), *to = text;
    bytes whole;
    memcpy(to, one, strlen(one));
    to += strlen(one);
    memcpy(to, two.at, two.length);
    to += two.length;
    memcpy(to, three, strlen(three));
    to += strlen(three);
    memcpy(to, four.at, four.length);
    to += four.length;
    memcpy(to, five, strlen(five) + 1);
    whole.at = text;
    whole.length = (size_t)(to - text) + strlen(five);
    return whole;
}

/* Options as a row of words that NULL ends. */
typedef const char *const *options;

static void give_all(options these, const char *limit)
{
    if (limit)
        give(text_of(limit));
    for (; *these; these++)
        give(text_of(*these));
}

static int is_reason(bytes text)
{
    return begins(text, "malformed at ") || begins(text, "bad reference at ") || begins(text, "bad value at ") || is(text, "too long") ||
           is(text, "not a symbol");
}

static int is_word_byte(char c)
{
    return (c >= '0' && c <= '9') || (c >= 'A' && c <= 'Z') || (c >= 'a' && c <= 'z') || c == '_' || c == '.' || c == '$' || (c & 0x80);
}

static int is_filtered_alone(bytes word)
{
    size_t k;
    for (k = 0; k < word.length; k++)
        if (!is_word_byte(word.at[k]))
            return 0;
    return word.length && word.at[word.length - 1] != '.';
}

/* What a word is answered on the command line, and in a text. */
static void check_argument(options these, const char *limit, bytes word, bytes wanted)
{
    bytes none = text_of(""), line, error;
    uint32_t status;
    give_all(these, limit);
    give(text_of("--"));
    give(word);
    status = run(none);
    line = joined("", is_reason(wanted) ? word : wanted, "\n", none, "");
    error = is_reason(wanted) ? joined("symfilt: ", word, ": ", wanted, "\n") : joined("", none, "", none, "");
    if (status != (uint32_t)is_reason(wanted) || !same(wrote(1), line) || !same(wrote(2), error))
        wrong("%.60s: status %u, %.200s%.200s", word.at, (unsigned)status, wrote(1).at, wrote(2).at);
    free((char *)line.at);
    free((char *)error.at);
}

static void check_word(options these, const char *limit, bytes word, bytes wanted)
{
    if (!is_filtered_alone(word))
        return;
    give_all(these, limit);
    if (run(word) || !same(wrote(1), is_reason(wanted) ? word : wanted))
        wrong("%.60s: filtered to %.200s", word.at, wrote(1).at);
}

static void check_answer(options these, const char *limit, bytes word, bytes wanted)
{
    check_argument(these, limit, word, wanted);
    check_word(these, limit, word, wanted);
}

static const char *limited(char *to, uint32_t limit)
{
    sprintf(to, "--limit=%lu", (unsigned long)limit);
    return to;
}

/* The options for DETAIL, after others. */
static options detail_of(bytes field, const char *one, const char *other)
{
    static const char *some[5];
    size_t count = 0;
    if (one)
        some[count++] = one;
    if (other)
        some[count++] = other;
    if (begins(field, "brief"))
        some[count++] = "--brief";
    if (is(field, "no-params") || is(field, "brief-no-params"))
        some[count++] = "--no-params";
    some[count] = 0;
    return some;
}

static enum answer check_symbol(bytes sort, bytes *fields, size_t count, const char *one, const char *other)
{
    char limit[32];
    if (is(sort, "text") && count == 4) {
        options these = detail_of(fields[0], one, other);
        uint32_t cost = number_of(fields[1]);
        bytes text = unescaped(fields[3]);
        check_answer(these, limited(limit, cost), fields[2], text);
        check_answer(these, limited(limit, cost - 1), fields[2], text_of("too long"));
        check_answer(these, limited(limit, 0), fields[2], text_of("too long"));
        free((char *)text.at);
    } else if (is(sort, "refused") && count == 2) {
        check_answer(detail_of(text_of("full"), one, other), 0, fields[0], fields[1]);
        check_answer(detail_of(text_of("brief"), one, other), limited(limit, 0), fields[0], fields[1]);
        if (!one && !is(fields[1], "too long"))
            check_argument(detail_of(text_of("full"), "--press", 0), 0, fields[0], fields[1]);
    } else {
        return UNKNOWN;
    }
    return CHECKED;
}

static void check_long(bytes *fields, bytes word, bytes length)
{
    char limit[32];
    options these = detail_of(fields[0], 0, 0);
    uint32_t cost = number_of(fields[1]);
    give_all(these, limited(limit, cost));
    give(text_of("--"));
    give(word);
    if (run(text_of("")) || wrote(1).length != number_of(length) + 1)
        wrong("%.60s: a text of %lu bytes", word.at, (unsigned long)wrote(1).length);
    check_answer(these, limited(limit, cost - 1), word, text_of("too long"));
}

/* Whether bytes are UTF-8 without zeros, as the words of a command line are here. */
static int is_utf8(bytes word)
{
    size_t k, more;
    for (k = 0; k < word.length; k++) {
        unsigned char c = (unsigned char)word.at[k];
        more = c < 0x80 ? 0 : c >= 0xc2 && c < 0xe0 ? 1 : c >= 0xe0 && c < 0xf0 ? 2 : c >= 0xf0 && c < 0xf5 ? 3 : 9;
        if (!c || more == 9 || more >= word.length - k)
            return 0;
        for (; more; more--)
            if ((word.at[++k] & 0xc0) != 0x80)
                return 0;
    }
    return 1;
}

static void check_changes(bytes *fields, size_t count)
{
    bytes word = fields[1];
    char *changed = room(word.length + 1), answer[40];
    options none = detail_of(text_of("full"), 0, 0);
    size_t place, k;
    char with = is(fields[0], "put !") ? '!' : is(fields[0], "put 0") ? '0' : (char)0xff;
    for (place = 0; place < word.length; place++) {
        bytes it, wanted, text = {0, 0};
        int named;
        memcpy(changed, word.at, word.length + 1);
        it.at = changed;
        it.length = word.length;
        if (is(fields[0], "cut"))
            changed[it.length = place] = 0;
        else
            changed[place] = with;
        sprintf(answer, "malformed at %lu", (unsigned long)place);
        wanted = text_of(answer);
        for (k = 2; k < count; k++)
            if (fields[k].length && number_of(fields[k]) == place)
                wanted = text = unescaped(text_of(strchr(fields[k].at, ' ') + 1));
        named = begins(it, "_Z") || begins(it, "__Z") || begins(it, "_R") || begins(it, "__R");
        if (is_utf8(it))
            check_argument(none, 0, it, named ? wanted : text_of("not a symbol"));
        check_word(none, 0, it, named ? wanted : text_of("not a symbol"));
        free((char *)text.at);
    }
    free(changed);
}

/* Whether what was written is what a field has; "*" is anything but nothing. */
static int is_written(int stream, bytes field)
{
    bytes text;
    int matches;
    if (is(field, "*"))
        return wrote(stream).length != 0;
    text = unescaped(field);
    matches = same(wrote(stream), text);
    free((char *)text.at);
    return matches;
}

static void check_run(bytes status, bytes arguments, bytes text, bytes out, bytes errors)
{
    bytes data = unescaped(text);
    uint32_t ended;
    give_words(arguments);
    ended = run(data);
    if (ended != number_of(status) || !is_written(1, out) || !is_written(2, errors))
        wrong("%s: status %u, %.300s%.300s", arguments.at, (unsigned)ended, wrote(1).at, wrote(2).at);
    free((char *)data.at);
}

static enum answer check_of_symfilt(bytes *fields, size_t count)
{
    bytes sort = fields[0], word;
    options none = detail_of(text_of("full"), 0, 0);
    if (begins(sort, "wide ")) {
        return check_symbol(text_of(sort.at + 5), fields + 1, count - 1, "--wide", 0);
    } else if (begins(sort, "legacy ")) {
        check_symbol(text_of(sort.at + 7), fields + 1, count - 1, "--legacy", 0);
        return check_symbol(text_of(sort.at + 7), fields + 1, count - 1, "--legacy", "--wide");
    } else if (is(sort, "text") || is(sort, "refused")) {
        return check_symbol(sort, fields + 1, count - 1, 0, 0);
    } else if (is(sort, "long") && count == 5) {
        check_long(fields + 1, fields[3], fields[4]);
    } else if (is(sort, "repeated") && count == 8) {
        word = repeated(fields + 3);
        if (word.length <= 65536)
            check_long(fields + 1, word, fields[7]);
        free((char *)word.at);
    } else if (is(sort, "nameless") && count == 2) {
        check_answer(none, 0, fields[1], text_of("not a symbol"));
    } else if (is(sort, "press") && count == 3) {
        none = detail_of(text_of("full"), "--press", 0);
        check_argument(none, "--limit=0", fields[1], fields[2]);
        check_argument(none, "--limit=0", fields[2], fields[2]);
    } else if ((is(sort, "cut") || begins(sort, "put ")) && count >= 2) {
        check_changes(fields, count);
    } else if (is(sort, "filter") && count == 4) {
        check_run(text_of("0"), fields[1], fields[2], fields[3], text_of(""));
    } else if (is(sort, "command") && count == 5) {
        check_run(fields[1], fields[2], text_of(""), fields[3], fields[4]);
    } else {
        return is(sort, "demangle") || is(sort, "tree") || is(sort, "way") || is(sort, "oversize") ? NOT_HERE : UNKNOWN;
    }
    return CHECKED;
}

static enum answer check_row(bytes *fields, size_t count)
{
    bytes arguments;
    if (is_symfilt)
        return check_of_symfilt(fields, count);
    if (!is(fields[0], "demangle") || count != 6)
        return NOT_HERE;
    arguments = unescaped(fields[2]);
    check_run(fields[1], arguments, fields[3], fields[4], fields[5]);
    free((char *)arguments.at);
    return CHECKED;
}

int main(int count, char **arguments)
{
    int status;
    if (count != 2) {
        fprintf(stderr, "usage: %s ROWS\n", arguments[0]);
        return 2;
    }
    program = arguments[0];
    give(text_of("--version"));
    run(text_of(""));
    is_symfilt = begins(wrote(1), "symfilt") || begins(wrote(2), "symfilt");
    status = read_rows(arguments[1], is_symfilt ? "symfilt" : "demangle");
    return status;
}
