/* Reads lines of a file and answers each by a call of the library. A line is a command and its fields, with `/` between them:
 *   V, T, C   a value, a type, a context: bytes in hexadecimal
 *   n         a name, 0 to 65535            p   a path: names with blanks between them
 *   b         a byte, 0 to 255              s   a string, up to the end of the line
 *   table     texts with `,` between them   parts   the parts of a name with `|` between them
 *   S         a table of simple types: bytes in hexadecimal, or the fixed relation (`fixed`), or pairs `24<26` with blanks between them that stand
 *             in it besides
 * All commands stand in the table `commands` below. A line that cannot be read is said to be so, and the next one is read. An empty line is
 * passed over, and a line from `#` on is printed as it is. */
#include "feel.h"
#include <stdio.h>
#include <stdlib.h>
#include <string.h>

#define MOST 16400 /* more than a record may have, so that a longer one is refused and not cut */
#define NAMES 64   /* more than a path may have, likewise */

struct record {
    uint8_t bytes[MOST];
    size_t len;
};

/* The fields of a line, and what a call needs besides. The longest answer is the text of a type. */
static struct record r[3];
static uint16_t path[NAMES], names[2];
static size_t path_len;
static uint8_t byte, scratch[4 * MOST], out[1 << 21];

static const char *const refusals[] = {
    "", "value: no bytes, or more than 16,384", "value: ends inside, unknown command, or an operand outside its list",
    "value: names not strictly ascending", "value: level over 31", "value: bytes left over", "type: no bytes, or more than 16,384",
    "type: ends inside, or unknown command", "type: names not strictly ascending", "type: level over 32", "type: bytes left over",
    "path: more than 31 names", "a context is wanted, and the value is none", "least type asked of a value that is not data alone",
    "scratch too short", "the value cannot be retrieved with the type", "a value on the way of the path is no context",
    "the result would have more than 16,384 bytes or a level over 31", "output too short for the answer",
    "texts: table or parts malformed, or with bytes left over", "texts: a name's number is not in the table",
    [26] = "table: not a hundred bytes 0 or 1", [27] = "table: no order of the simple types from Null up to Any",
    [28] = "table: two types lack a least common supertype"};

/* What a call takes; OUT: with an output, WORK: with scratch and an output. */
enum shape {
    ONE, ONE_OUT, ONE_WORK, TWO, TWO_OUT, TWO_WORK, BYTE, BYTE_OUT,
    NAME, NAME_OUT, NAMES_OUT, NAME_VALUE_OUT, PATH, PATH_VALUE_OUT, THREE, THREE_WORK
};

/* What the answer is. */
enum answer { LEVEL, YES, COUNT, PART, BYTES, TEXT, COMMAND };

union call {
    uint64_t (*one)(const uint8_t *, size_t);
    uint64_t (*one_out)(const uint8_t *, size_t, uint8_t *, size_t);
    uint64_t (*one_work)(const uint8_t *, size_t, uint8_t *, size_t, uint8_t *, size_t);
    uint64_t (*two)(const uint8_t *, size_t, const uint8_t *, size_t);
    uint64_t (*two_out)(const uint8_t *, size_t, const uint8_t *, size_t, uint8_t *, size_t);
    uint64_t (*two_work)(const uint8_t *, size_t, const uint8_t *, size_t, uint8_t *, size_t, uint8_t *, size_t);
    uint64_t (*three)(const uint8_t *, size_t, const uint8_t *, size_t, const uint8_t *, size_t);
    uint64_t (*three_work)(const uint8_t *, size_t, const uint8_t *, size_t, const uint8_t *, size_t, uint8_t *, size_t, uint8_t *, size_t);
    uint64_t (*byte)(uint8_t);
    uint64_t (*byte_out)(uint8_t, uint8_t *, size_t);
    uint64_t (*name)(const uint8_t *, size_t, uint16_t);
    uint64_t (*name_out)(const uint8_t *, size_t, uint16_t, uint8_t *, size_t);
    uint64_t (*names_out)(const uint8_t *, size_t, uint16_t, uint16_t, uint8_t *, size_t);
    uint64_t (*name_value_out)(const uint8_t *, size_t, uint16_t, const uint8_t *, size_t, uint8_t *, size_t);
    uint64_t (*path)(const uint8_t *, size_t, const uint16_t *, size_t);
    uint64_t (*path_value_out)(const uint8_t *, size_t, const uint16_t *, size_t, const uint8_t *, size_t, uint8_t *, size_t);
};

static const struct command {
    const char *name, *fields;
    enum answer answer;
    enum shape shape;
    union call call;
} commands[] = {
    {"value", "V", LEVEL, ONE, {.one = feel_check_value}},
    {"type", "T", LEVEL, ONE, {.one = feel_check_type}},
    /* types */
    {"conforms", "T/T", YES, TWO, {.two = feel_type_is_conformant}},
    {"instance-of", "T/T", YES, TWO, {.two = feel_type_instance_of}},
    {"supertype", "T/T", BYTES, TWO_WORK, {.two_work = feel_type_common_supertype}},
    {"subtype", "T/T", BYTES, TWO_WORK, {.two_work = feel_type_common_subtype}},
    {"reduced", "T", BYTES, ONE_OUT, {.one_out = feel_type_reduced}},
    {"is-simple-type", "T", YES, ONE, {.one = feel_type_is_simple_built_in_type}},
    {"is-null-type", "T", YES, ONE, {.one = feel_type_is_null}},
    /* values */
    {"holds", "V/T", YES, TWO, {.two = feel_value_is_conformant}},
    {"least", "V", BYTES, ONE_WORK, {.one_work = feel_value_least_type}},
    {"type-of", "V", BYTES, ONE_WORK, {.one_work = feel_value_type_of}},
    {"retrieve", "T/V", BYTES, TWO_OUT, {.two_out = feel_type_get_value_checked}},
    {"conformant", "T/V", BYTES, TWO_OUT, {.two_out = feel_type_get_conformant_value}},
    {"coerce", "V/T", BYTES, TWO_OUT, {.two_out = feel_value_coerced}},
    {"is-invalid-coercion", "V", YES, ONE, {.one = feel_value_is_invalid_coercion}},
    {"is-valid-range", "V", YES, ONE, {.one = feel_value_is_valid_range}},
    {"is-null", "V", YES, ONE, {.one = feel_value_is_null}},
    {"is-true", "V", YES, ONE, {.one = feel_value_is_true}},
    {"is-false", "V", YES, ONE, {.one = feel_value_is_false}},
    {"is-number", "V", YES, ONE, {.one = feel_value_is_number}},
    {"is-string", "V", YES, ONE, {.one = feel_value_is_string}},
    {"is-list", "V", YES, ONE, {.one = feel_value_is_list}},
    {"is-range", "V", YES, ONE, {.one = feel_value_is_range}},
    /* intervals and built-in functions */
    {"opened", "b", YES, BYTE, {.byte = feel_interval_opened}},
    {"closed", "b", YES, BYTE, {.byte = feel_interval_closed}},
    {"undefined", "b", YES, BYTE, {.byte = feel_interval_undefined}},
    {"built-in", "b", BYTES, BYTE_OUT, {.byte_out = feel_bif_feel_type}},
    /* contexts */
    {"get", "C/n", PART, NAME, {.name = feel_context_get_entry}},
    {"search", "C/p", PART, PATH, {.path = feel_context_search_deep}},
    {"first", "C", PART, ONE, {.one = feel_context_get_first}},
    {"contains", "C/n", YES, NAME, {.name = feel_context_contains_entry}},
    {"contains-deep", "C/p", YES, PATH, {.path = feel_context_contains_deep}},
    {"is-context", "C/n", YES, NAME, {.name = feel_context_is_context}},
    {"is-empty", "C", YES, ONE, {.one = feel_context_is_empty}},
    {"len", "C", COUNT, ONE, {.one = feel_context_len}},
    {"create", "C/p/V", BYTES, PATH_VALUE_OUT, {.path_value_out = feel_context_create_entries}},
    {"apply", "C/p/V", BYTES, PATH_VALUE_OUT, {.path_value_out = feel_context_apply_entries}},
    {"zip", "C/C", BYTES, TWO_OUT, {.two_out = feel_context_zip}},
    {"overwrite", "C/C", BYTES, TWO_OUT, {.two_out = feel_context_overwrite}},
    {"move", "C/n/n", BYTES, NAMES_OUT, {.names_out = feel_context_move_entry}},
    {"set", "C/n/V", BYTES, NAME_VALUE_OUT, {.name_value_out = feel_context_set_entry}},
    {"remove", "C/n", BYTES, NAME_OUT, {.name_out = feel_context_remove_entry}},
    {"set-null", "C/n", BYTES, NAME_OUT, {.name_out = feel_context_set_null}},
    /* texts */
    {"display", "T/table", TEXT, TWO_OUT, {.two_out = feel_names_display}},
    {"from-str", "s", COMMAND, ONE, {.one = feel_names_from_str}},
    {"is-type-name", "s", YES, ONE, {.one = feel_names_is_built_in_type_name}},
    {"name", "parts", TEXT, ONE_OUT, {.one_out = feel_names_name_new}},
    {"trim", "s", TEXT, ONE_OUT, {.one_out = feel_names_trim}},
    /* the strict reading */
    {"strict-conforms", "T/T", YES, TWO, {.two = feel_strict_type_is_conformant}},
    {"strict-supertype", "T/T", BYTES, TWO_WORK, {.two_work = feel_strict_type_common_supertype}},
    {"strict-subtype", "T/T", BYTES, TWO_WORK, {.two_work = feel_strict_type_common_subtype}},
    {"strict-holds", "V/T", YES, TWO, {.two = feel_strict_value_is_conformant}},
    {"strict-least", "V", BYTES, ONE_WORK, {.one_work = feel_strict_value_least_type}},
    /* over a table of simple types */
    {"table", "S", YES, ONE, {.one = feel_table_check}},
    {"table-conforms", "S/T/T", YES, THREE, {.three = feel_table_type_is_conformant}},
    {"table-supertype", "S/T/T", BYTES, THREE_WORK, {.three_work = feel_table_type_common_supertype}},
    {"table-subtype", "S/T/T", BYTES, THREE_WORK, {.three_work = feel_table_type_common_subtype}},
    {"table-holds", "S/V/T", YES, THREE, {.three = feel_table_value_is_conformant}},
    {"table-least", "S/V", BYTES, TWO_WORK, {.two_work = feel_table_value_least_type}},
};

static int digit(char c)
{
    if (c >= '0' && c <= '9') return c - '0';
    if (c >= 'A' && c <= 'F') return c - 'A' + 10;
    if (c >= 'a' && c <= 'f') return c - 'a' + 10;
    return -1;
}

/* The following read one field, which ends with a 0, and say why not, or NULL. */

static const char *read_record(const char *text, struct record *to)
{
    for (to->len = 0; *text;) {
        if (*text == ' ') {
            text++;
            continue;
        }
        int high = digit(text[0]);
        int low = high < 0 ? -1 : digit(text[1]);
        if (low < 0) return "a byte has two hexadecimal digits";
        if (to->len == MOST) return "more bytes than this program takes";
        to->bytes[to->len++] = (uint8_t)(high * 16 + low);
        text += 2;
    }
    return NULL;
}

/* The fixed relation, Null to all, all to Any and each to itself, and the pairs besides. Without `fixed` or a pair, the bytes themselves. */
static const char *read_table(const char *text, struct record *to)
{
    while (*text == ' ') text++;
    int fixed = strncmp(text, "fixed", 5) == 0;
    if (!fixed && !strchr(text, '<')) return read_record(text, to);
    to->len = 100;
    memset(to->bytes, 0, to->len);
    for (size_t i = 0; i < 10; i++)
        to->bytes[10 * i] = to->bytes[90 + i] = to->bytes[11 * i] = 1;
    for (text += fixed ? 5 : 0; *text;) {
        unsigned below, above;
        int len = 0;
        if (*text == ' ') {
            text++;
            continue;
        }
        if (sscanf(text, "%2x<%2x%n", &below, &above, &len) != 2 || below < 0x20 || below > 0x29 || above < 0x20 || above > 0x29)
            return "a pair of simple types is two commands with `<` between them";
        to->bytes[10 * (below - 0x20) + above - 0x20] = 1;
        text += len;
    }
    return NULL;
}

static const char *read_numbers(const char *text, unsigned long largest, uint16_t *to, size_t most, size_t *count)
{
    for (*count = 0;; (*count)++) {
        while (*text == ' ') text++;
        if (!*text) return NULL;
        char *end = NULL;
        unsigned long number = digit(*text) < 0 || digit(*text) > 9 ? largest + 1 : strtoul(text, &end, 10);
        if (number > largest) return "no number, or too large a one";
        if (*count == most) return "more numbers than there may be";
        to[*count] = (uint16_t)number;
        text = end;
    }
}

static const char *read_number(const char *text, unsigned long largest, uint16_t *to)
{
    size_t count;
    const char *fault = read_numbers(text, largest, to, 1, &count);
    return fault ? fault : count == 1 ? NULL : "a number is missing";
}

static const char *read_string(const char *text, struct record *to)
{
    to->len = strlen(text);
    if (to->len > MOST) return "a longer string than this program takes";
    memcpy(to->bytes, text, to->len);
    return NULL;
}

/* Texts, each behind its length, and their count before them all: 16 bits in a table, 8 for the parts of a name. */
static const char *read_texts(const char *text, char separator, size_t width, struct record *to)
{
    size_t count = 0;
    to->len = width;
    while (*text) {
        const char *end = strchr(text, separator);
        size_t len = end ? (size_t)(end - text) : strlen(text);
        const char *next = text + len + (end != NULL);
        if (separator == ',') {
            while (len && *text == ' ') text++, len--;
            while (len && text[len - 1] == ' ') len--;
        }
        if (len > 255 || count == 255 || to->len + 1 + len > MOST) return "too long a text, or too many";
        to->bytes[to->len++] = (uint8_t)len;
        memcpy(to->bytes + to->len, text, len);
        to->len += len;
        count++;
        text = next;
    }
    to->bytes[0] = (uint8_t)count;
    if (width == 2) to->bytes[1] = 0;
    return NULL;
}

/* Cuts off the next field and moves on behind it. A string and parts go up to the end of the line. */
static char *next_field(char **line, char kind)
{
    char *field = *line, *end = kind == 's' || kind == 'p' ? NULL : strchr(field, '/');
    *line = end ? end + 1 : NULL;
    if (end) *end = 0;
    return field;
}

/* Reads the fields of a command. Says what is wrong, or NULL. */
static const char *read_fields(const char *fields, char *line)
{
    size_t records = 0, numbers = 0;
    while (*fields) {
        size_t len = strcspn(fields, "/");
        char kind = *fields == 'p' && len == 1 ? 'P' : *fields; /* `p` is a path, `parts` begins so too */
        const char *fault;
        uint16_t number = 0;
        if (!line) return "a field is missing";
        char *field = next_field(&line, kind);
        switch (kind) {
        case 'n': fault = read_number(field, 65535, &names[numbers++]); break;
        case 'b': fault = read_number(field, 255, &number); byte = (uint8_t)number; break;
        case 'P': fault = read_numbers(field, 65535, path, NAMES, &path_len); break;
        case 's': fault = read_string(field, &r[records++]); break;
        case 'S': fault = read_table(field, &r[records++]); break;
        case 't': fault = read_texts(field, ',', 2, &r[records++]); break;
        case 'p': fault = read_texts(field, '|', 1, &r[records++]); break;
        default: fault = read_record(field, &r[records++]);
        }
        if (fault) return fault;
        fields += len + (fields[len] == '/');
    }
    return line ? "a field too many" : NULL;
}

static uint64_t ask(const struct command *c)
{
    const uint8_t *a = r[0].bytes, *b = r[1].bytes;
    size_t a_len = r[0].len, b_len = r[1].len;
    switch (c->shape) {
    case ONE: return c->call.one(a, a_len);
    case ONE_OUT: return c->call.one_out(a, a_len, out, sizeof out);
    case ONE_WORK: return c->call.one_work(a, a_len, scratch, sizeof scratch, out, sizeof out);
    case TWO: return c->call.two(a, a_len, b, b_len);
    case TWO_OUT: return c->call.two_out(a, a_len, b, b_len, out, sizeof out);
    case TWO_WORK: return c->call.two_work(a, a_len, b, b_len, scratch, sizeof scratch, out, sizeof out);
    case BYTE: return c->call.byte(byte);
    case BYTE_OUT: return c->call.byte_out(byte, out, sizeof out);
    case NAME: return c->call.name(a, a_len, names[0]);
    case NAME_OUT: return c->call.name_out(a, a_len, names[0], out, sizeof out);
    case NAMES_OUT: return c->call.names_out(a, a_len, names[0], names[1], out, sizeof out);
    case NAME_VALUE_OUT: return c->call.name_value_out(a, a_len, names[0], b, b_len, out, sizeof out);
    case PATH: return c->call.path(a, a_len, path, path_len);
    case THREE: return c->call.three(a, a_len, b, b_len, r[2].bytes, r[2].len);
    case THREE_WORK: return c->call.three_work(a, a_len, b, b_len, r[2].bytes, r[2].len, scratch, sizeof scratch, out, sizeof out);
    case PATH_VALUE_OUT: break;
    }
    return c->call.path_value_out(a, a_len, path, path_len, b, b_len, out, sizeof out);
}

static void print_bytes(const uint8_t *bytes, size_t len)
{
    for (size_t i = 0; i < len; i++)
        printf(i ? " %02X" : "%02X", bytes[i]);
    printf("\n");
}

static void print_answer(const struct command *c, uint64_t answer)
{
    unsigned low = (unsigned)answer;
    if (answer >> 32 == 1) {
        printf("refused %u, %s\n", low, low < sizeof refusals / sizeof *refusals && refusals[low] ? refusals[low] : "?");
    } else if (answer >> 32 == 2) {
        printf(c->answer == COMMAND ? "unknown\n" : "none\n");
    } else {
        switch (c->answer) {
        case LEVEL: printf("accepted, %zu bytes, level %u\n", r[0].len, low); break;
        case YES: printf(low ? "yes\n" : "no\n"); break;
        case COUNT: printf("%u\n", low); break;
        case COMMAND: printf("%02X\n", low); break;
        case TEXT: printf("\"%.*s\"\n", (int)low, (const char *)out); break;
        case BYTES: print_bytes(out, low); break;
        case PART: /* place * 65536 + length, in the caller's own bytes */
            printf("at %u: ", low / 65536);
            print_bytes(r[0].bytes + low / 65536, low % 65536);
        }
    }
}

static void answer_line(unsigned number, char *line)
{
    size_t len = strcspn(line, " ");
    printf("%4u %-16.*s ", number, (int)len, line);
    for (size_t i = 0; i < sizeof commands / sizeof *commands; i++) {
        const struct command *c = &commands[i];
        if (strlen(c->name) != len || strncmp(c->name, line, len) != 0) continue;
        const char *fault = read_fields(c->fields, line + len + (line[len] == ' '));
        if (fault)
            printf("cannot be read: %s; wanted: %s %s\n", fault, c->name, c->fields);
        else
            print_answer(c, ask(c));
        return;
    }
    printf("is no command\n");
}

int main(int argc, char **argv)
{
    static char line[120000];
    if (argc != 2) {
        fprintf(stderr, "usage: check FILE\n");
        return 2;
    }
    FILE *file = fopen(argv[1], "r");
    if (!file) {
        perror(argv[1]);
        return 2;
    }
    for (unsigned number = 1; fgets(line, sizeof line, file); number++) {
        size_t len = strcspn(line, "\n");
        if (len == sizeof line - 1) {
            printf("%4u is too long a line\n", number);
            for (int c = 0; c != '\n' && c != EOF;) c = getc(file);
            continue;
        }
        line[len] = 0;
        if (line[0] == '#')
            printf("%s\n", line);
        else if (line[0])
            answer_line(number, line);
    }
    fclose(file);
    return 0;
}
