/* Changes that afl-fuzz makes beside its own: of a JSON text by its values and members, and with CHANGES=lines of a trace by its lines and words. Nearly
   all that a fuzzer does to bytes alone ends a JSON text, or a line; these mostly leave one.

       cc -O2 -shared -fPIC -o changes.so changes.c
       AFL_CUSTOM_MUTATOR_LIBRARY=changes.so afl-fuzz ..
*/
#include <stdint.h>
#include <stdio.h>
#include <stdlib.h>
#include <string.h>

#define COUNT(all) (sizeof(all) / sizeof *(all))
enum { TRIES = 40, SMALL = 41 };

typedef struct {
    const uint8_t *at;
    size_t size;
} Text;

/* from the place at to before the place end; nothing where both are 0 */
typedef struct {
    size_t at, end;
} Span;

/* the state of the draws, and the text that is made */
typedef struct {
    uint64_t draws;
    uint8_t *made;
    size_t size, room, most;
    int of_lines;
} Changer;

/* the first SMALL are drawn more often: with great numbers of rounds a run takes long, and tells no more */
static const char *const NUMBERS[] = {
    "0",     "1",     "2",      "3",      "4",      "5",      "6",          "7",          "8",          "9",          "10",
    "11",    "16",    "17",     "24",     "25",     "48",     "49",         "63",         "64",         "65",         "99",
    "100",   "127",   "128",    "245",    "254",    "255",    "256",        "599",        "600",        "601",        "900",
    "1089",  "1345",  "1472",   "2550",   "2551",   "4096",   "12000",      "11999",      "65535",      "65536",      "86399",
    "86400", "86401", "100000", "863999", "864000", "864001", "2147483647", "2147483648", "4294967295", "4294967296", "18446744073709551615",
    "18446744073709551616", "-1", "-0", "-2147483649", "1.0", "1e2",
};
static const char *const MEMBERS[] = {
    "\"inputs\":[{\"round\":1,\"cabinet\":1,\"veh\":4,\"on\":true},{\"round\":2,\"cabinet\":1,\"ped\":4},{\"round\":2,\"cabinet\":1,\"preempt\":1,\"on\":true}]",
    "\"master\":{\"clock\":251990,\"poll_every\":1,\"clock_every\":2,\"pattern_every\":2,\"retries\":1,\"schedule\":[{\"second\":0,\"section\":1,\"pattern\":1}]}",
    "\"loads\":[{\"round\":1,\"cabinet\":1,\"cells\":[[\"phase\",2,8,43],[\"unit\",2,0]]}]",
    "\"priority\":[{\"round\":2,\"cabinet\":1,\"number\":1,\"class\":1,\"level\":1,\"phase\":2,\"arrival\":10,\"departure\":100},{\"round\":3,\"cabinet\":1,\"cancel\":1}]",
    "\"frames\":[{\"round\":1,\"cabinet\":1,\"stream\":\"poll\",\"hex\":\"302b02010004067075626c6963a31e02010102010002010030133011060c2b0601040181fd5901010200020101\"}]",
    "\"faults\":[{\"round\":1,\"cabinet\":1,\"stream\":\"load\",\"way\":\"down\",\"index\":0,\"kind\":\"late\",\"by\":1,\"octet\":1}]",
    "\"cells\":[[\"preempt\",1,13,\"0206\"],[\"preempt\",1,12,\"0105\"],[\"preempt\",1,15,\"0408\"],[\"preempt\",1,10,5],[\"phase\",4,21,1281],[\"unit\",1,3],[\"unit\",7,2]]",
    "\"cells\":[[\"pattern\",2,2,60],[\"pattern\",2,4,2],[\"pattern\",2,5,1],[\"split\",2,1,3,10],[\"split\",2,2,3,20],[\"split\",2,2,5,1]]",
    "\"community\":\"public\"", "\"pattern\":1", "\"clock\":863999", "\"section\":2", "\"gain\":12000", "\"lose\":12000", "\"base\":\"max8\"",
    "\"version\":2", "\"ticks\":600", "\"rounds\":30",
};
static const char *const LINES[] = {
    "R 1\n", "R 2\n", "Z 1\n", "J 1 4*60\n", "J 1 0*1 4*10\n", "J 1 1*1 4*10\n", "A 1 1 -\n", "L 1 1 accepted 1\n", "L 1 1 refused 10 2\n",
    "M 1 fail\n", "M 1 good\n", "M 1 pattern 1\n", "M 1 load 1 done\n", "M 1 load 1 refused 5 2\n",
    "F 1 60 RGRRRGRRRRRRRRRR DDDDDDDDDDDDDDDD F 0 0 0\n",
};

/* one of the numbers from 0 to n - 1 */
static size_t draw(Changer *it, size_t n) {
    it->draws ^= it->draws << 13;
    it->draws ^= it->draws >> 7;
    it->draws ^= it->draws << 17;
    return n == 0 ? 0 : (size_t)((it->draws >> 11) % n);
}

static int is_space(uint8_t byte) { return byte == ' ' || byte == '\n' || byte == '\t' || byte == '\r'; }

static int is_of_number(uint8_t byte) { return (byte >= '0' && byte <= '9') || byte == '-'; }

static size_t behind_space(Text text, size_t at) {
    while (at < text.size && is_space(text.at[at]))
        at++;
    return at;
}

/* the end of the text in quotes that begins there, or the same place */
static size_t quote_end(Text text, size_t at) {
    for (size_t k = at + 1; k < text.size; k++) {
        if (text.at[k] == '\\')
            k++;
        else if (text.at[k] == '"')
            return k + 1;
    }
    return at;
}

/* the end of the array or object that begins there, or the same place */
static size_t nest_end(Text text, size_t at) {
    size_t depth = 0;
    for (size_t k = at; k < text.size; k++) {
        uint8_t byte = text.at[k];
        if (byte == '"') {
            size_t end = quote_end(text, k);
            if (end == k)
                return at;
            k = end - 1;
        } else if (byte == '{' || byte == '[') {
            depth++;
        } else if ((byte == '}' || byte == ']') && --depth == 0) {
            return k + 1;
        }
    }
    return at;
}

/* the end of the value that begins there, or the same place where none does */
static size_t value_end(Text text, size_t at) {
    if (at >= text.size)
        return at;
    uint8_t byte = text.at[at];
    if (byte == '"')
        return quote_end(text, at);
    if (byte == '{' || byte == '[')
        return nest_end(text, at);
    size_t k = at;
    if (is_of_number(byte))
        while (k < text.size && (is_of_number(text.at[k]) || strchr(".e+", text.at[k]) != NULL) && text.at[k] != 0)
            k++;
    else
        while (k < text.size && text.at[k] >= 'a' && text.at[k] <= 'z')
            k++;
    return k;
}

/* a value of the text: one that stands behind a bracket, a comma or a colon */
static Span a_value(Changer *it, Text text, int numbers_alone) {
    for (int tries = 0; tries < TRIES && text.size > 2; tries++) {
        size_t at = draw(it, text.size);
        while (at < text.size && text.at[at] != '[' && text.at[at] != ',' && text.at[at] != ':')
            at++;
        at = behind_space(text, at + 1);
        if (at >= text.size || (numbers_alone && !is_of_number(text.at[at])))
            continue;
        size_t end = value_end(text, at);
        if (end > at)
            return (Span){at, end};
    }
    return (Span){0, 0};
}

/* a member of an object of the text: its name, the colon and its value */
static Span a_member(Changer *it, Text text) {
    for (int tries = 0; tries < TRIES && text.size > 4; tries++) {
        size_t at = draw(it, text.size);
        while (at < text.size && text.at[at] != '"')
            at++;
        size_t colon = at < text.size ? behind_space(text, quote_end(text, at)) : at;
        if (colon <= at || colon >= text.size || text.at[colon] != ':')
            continue;
        size_t value = behind_space(text, colon + 1), end = value_end(text, value);
        if (end > value)
            return (Span){at, end};
    }
    return (Span){0, 0};
}

/* a piece of the text between two of these bytes, which holds a place that is drawn; with the one behind it, where that is asked */
static Span a_piece(Changer *it, Text text, const char *borders, int with_border) {
    if (text.size == 0)
        return (Span){0, 0};
    size_t at = draw(it, text.size), end = at, count = strlen(borders);
    while (at > 0 && memchr(borders, text.at[at - 1], count) == NULL)
        at--;
    while (end < text.size && memchr(borders, text.at[end], count) == NULL)
        end++;
    return (Span){at, end + (with_border && end < text.size)};
}

static Span a_line(Changer *it, Text text) { return a_piece(it, text, "\n", 1); }

static Span a_word(Changer *it, Text text) { return a_piece(it, text, " \n*", 0); }

static Text made_text(const Changer *it) { return (Text){it->made, it->size}; }

static Text part_of(Text text, Span span) { return (Text){text.at + span.at, span.end - span.at}; }

static Text text_of(const char *word) { return (Text){(const uint8_t *)word, strlen(word)}; }

static const Text NOTHING = {(const uint8_t *)"", 0};

/* puts a text in place of a span, with a byte behind it where that isn't 0; nothing is done where the whole would be empty or too long */
static void put(Changer *it, Span span, Text text, char behind) {
    size_t more = text.size + (behind != 0), left = it->size - (span.end - span.at);
    uint8_t *copy = malloc(more + 1);
    if (copy != NULL && left + more > 0 && left + more <= it->most) {
        memcpy(copy, text.at, text.size);
        copy[text.size] = (uint8_t)behind;
        memmove(it->made + span.at + more, it->made + span.end, it->size - span.end);
        memcpy(it->made + span.at, copy, more);
        it->size = left + more;
    }
    free(copy);
}

static void put_other_number(Changer *it, Span span) {
    char word[40], old[24] = {0};
    size_t way = draw(it, 4);
    if (way == 0) {
        put(it, span, text_of(NUMBERS[draw(it, draw(it, 4) > 0 ? SMALL : COUNT(NUMBERS))]), 0);
        return;
    }
    if (span.end - span.at > 18)
        return;
    memcpy(old, it->made + span.at, span.end - span.at);
    long long number = atoll(old), less = number > 0 ? number - 1 : number + 10;
    snprintf(word, sizeof word, "%lld", way == 1 ? (long long)draw(it, draw(it, 2) > 0 ? 20 : 300) : way == 2 ? number + 1 : less);
    put(it, span, text_of(word), 0);
}

static void put_value_out(Changer *it, Span span) {
    size_t end = behind_space(made_text(it), span.end);
    if (it->made[span.at - 1] != ':' && end < it->size && it->made[end] == ',')
        put(it, (Span){span.at, end + 1}, NOTHING, 0);
}

static void put_value_twice(Changer *it, Span span) {
    if (it->made[span.at - 1] != ':' && span.end - span.at <= 3000)
        put(it, (Span){span.at, span.at}, part_of(made_text(it), span), ',');
}

static void put_member_out(Changer *it, Span span) {
    if (span.end < it->size && it->made[span.end] == ',')
        span.end++;
    else if (span.at > 0 && it->made[span.at - 1] == ',')
        span.at--;
    put(it, span, NOTHING, 0);
}

/* puts a member into an object: one of those above, or of another text */
static void put_member_in(Changer *it, Text other) {
    size_t at = draw(it, 3) == 0 ? 0 : draw(it, it->size);
    while (at < it->size && it->made[at] != '{')
        at++;
    if (at++ >= it->size)
        return;
    Span span = draw(it, 2) > 0 ? (Span){0, 0} : a_member(it, other);
    Text member = span.end > 0 ? part_of(other, span) : text_of(MEMBERS[draw(it, COUNT(MEMBERS))]);
    size_t next = behind_space(made_text(it), at);
    put(it, (Span){at, at}, member, next < it->size && it->made[next] == '}' ? 0 : ',');
}

static void change_json(Changer *it, Text other) {
    size_t way = draw(it, 8);
    if (way >= 6) {
        put_member_in(it, other);
        return;
    }
    Span span = way == 5 ? a_member(it, made_text(it)) : a_value(it, made_text(it), way < 2);
    Span from = way == 2 ? a_value(it, other, 0) : (Span){0, 0};
    if (span.end == 0)
        return;
    if (way < 2)
        put_other_number(it, span);
    else if (way == 2 && from.end > 0)
        put(it, span, part_of(other, from), 0);
    else if (way == 3)
        put_value_out(it, span);
    else if (way == 4)
        put_value_twice(it, span);
    else if (way == 5)
        put_member_out(it, span);
}

/* brings a line behind the next one */
static void put_line_later(Changer *it, Span line) {
    size_t end = line.end;
    while (end < it->size && it->made[end] != '\n')
        end++;
    end += end < it->size;
    size_t before = it->size;
    put(it, (Span){end, end}, part_of(made_text(it), line), 0);
    if (it->size > before)
        put(it, line, NOTHING, 0);
}

static void change_words(Changer *it, Text other) {
    Span word = a_word(it, made_text(it));
    if (draw(it, 2) == 0)
        put(it, word, part_of(other, a_word(it, other)), 0);
    else if (word.end > word.at && is_of_number(it->made[word.at]))
        put_other_number(it, word);
}

static void change_lines(Changer *it, Text other) {
    Span line = a_line(it, made_text(it)), place = draw(it, 2) > 0 ? line : (Span){line.at, line.at};
    switch (draw(it, 8)) {
    case 0:
        put(it, line, NOTHING, 0);
        break;
    case 1:
        put(it, (Span){line.at, line.at}, part_of(made_text(it), line), 0);
        break;
    case 2:
        put(it, place, part_of(other, a_line(it, other)), 0);
        break;
    case 3:
        put(it, place, text_of(LINES[draw(it, COUNT(LINES))]), 0);
        break;
    case 4:
        put_line_later(it, line);
        break;
    case 5:
        change_json(it, other);
        break;
    default:
        change_words(it, other);
    }
}

/* What afl-fuzz calls. */

void *afl_custom_init(void *fuzzer, unsigned seed) {
    (void)fuzzer;
    Changer *it = calloc(1, sizeof *it);
    const char *of = getenv("CHANGES");
    if (it != NULL) {
        it->draws = seed * 2654435761u + 88172645463325252u;
        it->of_lines = of != NULL && strcmp(of, "lines") == 0;
    }
    return it;
}

void afl_custom_deinit(Changer *it) {
    free(it->made);
    free(it);
}

size_t afl_custom_fuzz(Changer *it, uint8_t *text, size_t size, uint8_t **made, uint8_t *other, size_t other_size, size_t most) {
    *made = text;
    if (it->room < most) {
        uint8_t *room = realloc(it->made, most + 1);
        if (room == NULL)
            return size;
        it->made = room;
        it->room = most;
    }
    it->most = most;
    it->size = size < most ? size : most;
    memcpy(it->made, text, it->size);
    for (size_t times = 1 + draw(it, (size_t)1 << draw(it, 4)); times > 0; times--)
        (it->of_lines ? change_lines : change_json)(it, (Text){other, other_size});
    *made = it->made;
    return it->size;
}
