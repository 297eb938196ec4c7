/* check_library ROWS : gives the symbols of a file of rows to the library's calls, and names the rows where one answers otherwise. */
#include "rows.h"
#include "symdemangle.h"

static const uint32_t LIMIT = SYMDEMANGLE_DEFAULT_LIMIT;

/* What a symbol is answered: a status with a place, or a text. */
typedef struct {
    uint32_t status, offset;
    bytes text;
} wanted;

static int reads_reason(bytes field, wanted *to)
{
    static const struct {
        const char *words;
        uint32_t status;
    } reasons[] = {{"malformed at ", 1}, {"bad reference at ", 2}, {"bad value at ", 3}, {"too long", 4}, {"not a symbol", 11}};
    size_t k;
    memset(to, 0, sizeof *to);
    for (k = 0; k < sizeof reasons / sizeof *reasons; k++)
        if (begins(field, reasons[k].words)) {
            to->status = reasons[k].status;
            if (to->status < SYMDEMANGLE_TOO_LONG)
                to->offset = (uint32_t)strtoul(field.at + strlen(reasons[k].words), 0, 10);
            return 1;
        }
    return 0;
}

static wanted reason(bytes field)
{
    wanted it;
    if (!reads_reason(field, &it))
        wrong("no such reason: %s", field.at);
    return it;
}

static wanted status_of(uint32_t status)
{
    wanted it;
    memset(&it, 0, sizeof it);
    it.status = status;
    return it;
}

static wanted text_wanted(bytes text)
{
    wanted it = status_of(SYMDEMANGLE_OK);
    it.text = text;
    return it;
}

/* One call for a text, or for a pressed spelling, with room for so many bytes; what follows them has to stay. */
static symdemangle_result asked(int presses, bytes word, uint32_t limit, uint32_t flags, char *buffer, size_t capacity)
{
    symdemangle_result result = {7, 7, 77};
    uint32_t status;
    buffer[capacity] = '#';
    status = presses ? symdemangle_press(word.at, word.length, flags, buffer, capacity, &result)
                     : symdemangle_text(word.at, word.length, limit, flags, buffer, capacity, &result);
    if (status != result.status)
        wrong("the status %u isn't the result's, %u", (unsigned)status, (unsigned)result.status);
    if (buffer[capacity] != '#')
        wrong("a byte after the buffer was written");
    return result;
}

static void check_answer(int presses, bytes word, uint32_t limit, uint32_t flags, wanted it)
{
    size_t capacity = it.status ? 64 : it.text.length;
    char *buffer = room(capacity + 1);
    symdemangle_result result = asked(presses, word, limit, flags, buffer, capacity);
    if (result.status != it.status || result.offset != it.offset)
        wrong("%.60s: status %u at %u, not %u at %u (flags %u, limit %u)", word.at, (unsigned)result.status, (unsigned)result.offset,
              (unsigned)it.status, (unsigned)it.offset, (unsigned)flags, (unsigned)limit);
    else if (!it.status && (result.length != it.text.length || (it.text.at && memcmp(buffer, it.text.at, result.length))))
        wrong("%.60s: %.*s, not %s", word.at, (int)result.length, buffer, it.text.at ? it.text.at : "so many bytes");
    if (!it.status && capacity) {
        result = asked(presses, word, limit, flags, buffer, capacity - 1);
        if (result.status != SYMDEMANGLE_BUFFER || result.length != it.text.length)
            wrong("%.60s: status %u with a byte too little, not 6", word.at, (unsigned)result.status);
    }
    free(buffer);
}

/* The call for many: the word twice, with room for one text. */
static void check_many(bytes word, uint32_t limit, uint32_t flags, wanted it)
{
    size_t ends[2], capacity = it.status ? 64 : it.text.length;
    char *names = room(2 * word.length + 1), *buffer = room(capacity + 1);
    symdemangle_result results[2];
    uint32_t status, second = it.status || !it.text.length ? it.status : SYMDEMANGLE_BUFFER;
    memcpy(names, word.at, word.length);
    memcpy(names + word.length, word.at, word.length);
    ends[0] = word.length;
    ends[1] = 2 * word.length;
    status = symdemangle_texts(names, ends[1], ends, 2, limit, flags, buffer, capacity, results);
    if (status || results[0].status != it.status || results[1].status != second)
        wrong("%.60s: the call for many answers %u, %u, %u", word.at, (unsigned)status, (unsigned)results[0].status, (unsigned)results[1].status);
    else if (!it.status && it.text.at && memcmp(buffer, it.text.at, it.text.length))
        wrong("%.60s: the call for many wrote %.*s", word.at, (int)it.text.length, buffer);
    free(names);
    free(buffer);
}

static int is_word_byte(char c)
{
    return (c >= '0' && c <= '9') || (c >= 'A' && c <= 'Z') || (c >= 'a' && c <= 'z') || c == '_' || c == '.' || c == '$' || (c & 0x80);
}

/* The call that filters, where the word is one by itself: refused ones stay. */
static void check_filter(bytes word, uint32_t limit, uint32_t flags, wanted it)
{
    bytes text = it.status ? word : it.text;
    char *buffer;
    symdemangle_tally tally = {0, 0, 0};
    symdemangle_result result;
    size_t k;
    for (k = 0; k < word.length; k++)
        if (!is_word_byte(word.at[k]))
            return;
    if (!word.length || word.length > 65536 || word.at[word.length - 1] == '.' || !text.at)
        return;
    buffer = room(text.length);
    symdemangle_filter(word.at, word.length, limit, flags & ~(uint32_t)SYMDEMANGLE_UNDERSCORE, buffer, text.length, &tally, &result);
    if (result.status || result.length != text.length || memcmp(buffer, text.at, text.length))
        wrong("%.60s: filtered with status %u to %.*s", word.at, (unsigned)result.status, result.status ? 0 : (int)result.length, buffer);
    if (tally.words != 1 || tally.replaced != !it.status || tally.refused != (it.status != 0))
        wrong("%.60s: the filter counts otherwise", word.at);
    free(buffer);
}

static void check_count(bytes word, uint32_t flags, wanted it)
{
    symdemangle_counts counts = {0, 0, 0};
    symdemangle_result result;
    uint32_t read = it.status == SYMDEMANGLE_TOO_LONG ? 0 : it.status;
    symdemangle_count(word.at, word.length, flags, &counts, &result);
    if (result.status != read || (read && result.offset != it.offset))
        wrong("%.60s: counting answers %u at %u", word.at, (unsigned)result.status, (unsigned)result.offset);
    if (counts.rows > 4 * word.length + 4 || counts.nodes > 4 * word.length + 8 || counts.steps > 32 * word.length + 48)
        wrong("%.60s: its counts pass their bounds", word.at);
}

/* All calls that show a text, at a limit. */
static void check_calls(bytes word, uint32_t limit, uint32_t flags, wanted it)
{
    bytes under;
    char *with;
    check_answer(0, word, limit, flags, it);
    check_many(word, limit, flags, it);
    check_filter(word, limit, flags, it);
    check_count(word, flags, it);
    if (flags & SYMDEMANGLE_UNDERSCORE)
        return;
    with = room(word.length + 2);
    with[0] = '_';
    memcpy(with + 1, word.at, word.length);
    with[word.length + 1] = 0;
    under.at = with;
    under.length = word.length + 1;
    it.offset += it.status != 0 && it.status < SYMDEMANGLE_TOO_LONG;
    check_answer(0, under, limit, flags | SYMDEMANGLE_UNDERSCORE, it);
    free(with);
}

static int detail_of(bytes field, uint32_t *flags)
{
    *flags = is(field, "brief") ? 1 : is(field, "no-params") ? 2 : is(field, "brief-no-params") ? 3 : 0;
    return *flags || is(field, "full");
}

/* The flag that a word with a second underscore before its symbol needs. */
static uint32_t underscore(bytes word)
{
    return begins(word, "__") ? SYMDEMANGLE_UNDERSCORE : 0;
}

/* DETAIL COST, and a symbol with its text. */
static void check_text(bytes *fields, bytes word, wanted it, uint32_t more)
{
    uint32_t flags, cost = number_of(fields[1]);
    if (!detail_of(fields[0], &flags))
        wrong("no such detail: %s", fields[0].at);
    more |= underscore(word);
    check_calls(word, cost, flags | more, it);
    check_answer(0, word, cost - 1, flags | more, status_of(SYMDEMANGLE_TOO_LONG));
    check_answer(0, word, 0, flags | more, status_of(SYMDEMANGLE_TOO_LONG));
}

static void check_refused(bytes word, wanted it, uint32_t more)
{
    more |= underscore(word);
    check_calls(word, LIMIT, more, it);
    check_answer(0, word, 0, SYMDEMANGLE_BRIEF | more, it);
    if (it.status != SYMDEMANGLE_TOO_LONG)
        check_answer(0, word, UINT32_MAX, more, it);
}

static wanted so_long(bytes length)
{
    wanted it = status_of(SYMDEMANGLE_OK);
    it.text.length = number_of(length);
    return it;
}

/* A symbol cut off at each place, or with another byte at each. The places that are named have an answer of their own. */
static void check_changes(bytes *fields, size_t count)
{
    bytes word = fields[1];
    char *changed = room(word.length + 1);
    size_t place, k;
    char with = is(fields[0], "put !") ? '!' : is(fields[0], "put 0") ? '0' : (char)0xff;
    for (place = 0; place < word.length; place++) {
        bytes it, text = {0, 0};
        wanted answer = status_of(SYMDEMANGLE_MALFORMED);
        answer.offset = (uint32_t)place;
        memcpy(changed, word.at, word.length + 1);
        it.at = changed;
        it.length = word.length;
        if (is(fields[0], "cut"))
            changed[it.length = place] = 0;
        else
            changed[place] = with;
        for (k = 2; k < count; k++)
            if (number_of(fields[k]) == place && fields[k].length) {
                bytes given = text_of(strchr(fields[k].at, ' ') + 1);
                if (!reads_reason(given, &answer)) {
                    text = unescaped(given);
                    answer = text_wanted(text);
                }
            }
        if (!begins(it, "_Z") && !begins(it, "_R"))
            answer = status_of(SYMDEMANGLE_NO_SYMBOL);
        check_answer(0, it, LIMIT, 0, answer);
        free((char *)text.at);
    }
    free(changed);
}

/* A word, perhaps with an underscore before its symbol, and its pressed spelling, which stays when it is pressed again. */
static void check_press(bytes word, bytes pressed, uint32_t flags)
{
    check_answer(1, word, 0, flags | SYMDEMANGLE_UNDERSCORE, text_wanted(pressed));
    check_answer(1, pressed, 0, flags | SYMDEMANGLE_UNDERSCORE, text_wanted(pressed));
}

/* A name that is a C++ type where types are asked for, and else no symbol. */
static void check_type(bytes word, uint32_t limit, wanted it)
{
    check_answer(0, word, limit, SYMDEMANGLE_TYPES, it);
    check_many(word, limit, SYMDEMANGLE_TYPES, it);
    if (!it.status)
        check_answer(0, word, limit - 1, SYMDEMANGLE_TYPES, status_of(SYMDEMANGLE_TOO_LONG));
    check_answer(0, word, limit, 0, status_of(SYMDEMANGLE_NO_SYMBOL));
}

static enum answer check_symbol(bytes sort, bytes *fields, size_t count, uint32_t more)
{
    bytes text;
    if (is(sort, "text") && count == 4) {
        text = unescaped(fields[3]);
        check_text(fields, fields[2], text_wanted(text), more);
        free((char *)text.at);
    } else if (is(sort, "refused") && count == 2) {
        wanted it = reason(fields[1]);
        check_refused(fields[0], it, more);
        if (!more && it.status != SYMDEMANGLE_TOO_LONG)
            check_answer(1, fields[0], 0, 0, it);
    } else {
        return UNKNOWN;
    }
    return CHECKED;
}

static enum answer check_row(bytes *fields, size_t count)
{
    bytes sort = fields[0], word;
    wanted it;
    if (begins(sort, "wide ")) {
        return check_symbol(text_of(sort.at + 5), fields + 1, count - 1, SYMDEMANGLE_WIDE);
    } else if (begins(sort, "legacy ")) {
        check_symbol(text_of(sort.at + 7), fields + 1, count - 1, SYMDEMANGLE_LEGACY);
        return check_symbol(text_of(sort.at + 7), fields + 1, count - 1, SYMDEMANGLE_LEGACY | SYMDEMANGLE_WIDE);
    } else if (is(sort, "text") || is(sort, "refused")) {
        return check_symbol(sort, fields + 1, count - 1, 0);
    } else if (is(sort, "long") && count == 5) {
        check_text(fields + 1, fields[3], so_long(fields[4]), 0);
    } else if (is(sort, "repeated") && count == 8) {
        word = repeated(fields + 3);
        check_text(fields + 1, word, so_long(fields[7]), 0);
        free((char *)word.at);
    } else if (is(sort, "oversize") && count == 5) {
        word = repeated(fields + 1);
        check_answer(0, word, LIMIT, 0, status_of(SYMDEMANGLE_SIZE));
        check_answer(1, word, 0, 0, status_of(SYMDEMANGLE_SIZE));
        free((char *)word.at);
    } else if (is(sort, "nameless") && count == 2) {
        check_answer(0, fields[1], LIMIT, SYMDEMANGLE_UNDERSCORE, status_of(SYMDEMANGLE_NO_SYMBOL));
    } else if (is(sort, "type") && count == 4) {
        bytes text = unescaped(fields[3]);
        check_type(fields[2], number_of(fields[1]), text_wanted(text));
        free((char *)text.at);
    } else if (is(sort, "type refused") && count == 3) {
        check_type(fields[1], LIMIT, reason(fields[2]));
    } else if (is(sort, "press") && count == 3) {
        check_press(fields[1], fields[2], 0);
    } else if (is(sort, "wide press") && count == 3) {
        if (is(fields[2], "no spelling yet"))
            check_answer(1, fields[1], 0, SYMDEMANGLE_WIDE, status_of(SYMDEMANGLE_NO_SPELLING));
        else if (reads_reason(fields[2], &it))
            check_answer(1, fields[1], 0, SYMDEMANGLE_WIDE, it);
        else
            check_press(fields[1], fields[2], SYMDEMANGLE_WIDE);
    } else if (is(sort, "tree") && count == 3) { /* no call shows nodes: only whether it is read */
        if (reads_reason(fields[2], &it))
            check_count(fields[1], 0, it);
        else
            check_count(fields[1], 0, status_of(SYMDEMANGLE_OK));
    } else if ((is(sort, "cut") || begins(sort, "put ")) && count >= 2) {
        check_changes(fields, count);
    } else {
        return is(sort, "filter") || is(sort, "command") || is(sort, "demangle") || is(sort, "way") ? NOT_HERE : UNKNOWN;
    }
    return CHECKED;
}

int main(int count, char **words)
{
    if (count != 2) {
        fprintf(stderr, "usage: %s ROWS\n", words[0]);
        return 2;
    }
    if (symdemangle_version() != SYMDEMANGLE_VERSION) {
        fprintf(stderr, "the library has another version than its header\n");
        return 1;
    }
    return read_rows(words[1], "symdemangle");
}
