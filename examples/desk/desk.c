/* The drawing desk's tool: part files from text drawings, and back.
 *
 *   desk write DRAWING PART      writes the part file that DRAWING describes
 *   desk read PART [DRAWING]     writes PART's drawing, by default to the
 *                                standard output
 *
 * docs/FORMAT.md has the drawing's grammar and an example. The tool reads words
 * and numbers; whether they make a part is asked of fenalukki_write alone.
 * Status 1 for a mistake in DRAWING or PART, which is printed and after which
 * nothing is written; 2 for a file that cannot be read or written, for one name
 * given twice, and for usage. */
#include "fenalukki.h"

#include <ctype.h>
#include <stdarg.h>
#include <stdio.h>
#include <stdlib.h>
#include <string.h>

enum { DONE = 0, MISTAKE = 1, TROUBLE = 2 };

/* What a line begins with: a node, by its kind, the iso-value or the version. */
struct form {
    const char *word;
    int numbers; /* that follow the word */
    const char *takes;
};

enum { ISO_FORM = 0, VERSION_FORM = FENALUKKI_KIND_CUT + 1, FORMS };

static const struct form forms[FORMS] = {
    [ISO_FORM] = {"iso", 1, "one number"},
    [FENALUKKI_KIND_POINT] = {"point", 5, "five numbers, R X Y Z W"},
    [FENALUKKI_KIND_SUM] = {"sum", 0, "no number"},
    [FENALUKKI_KIND_GREATER] = {"greater", 0, "no number"},
    [FENALUKKI_KIND_LESSER] = {"lesser", 0, "no number"},
    [FENALUKKI_KIND_CUT] = {"cut", 0, "no number"},
    [VERSION_FORM] = {"version", 1, "one number"}
};

/* Longer words are cut off: they are no word of a drawing, and no number. */
enum { WORD_SIZE = 40 };

struct drawing {
    const char *name;
    FILE *file;
    char word[WORD_SIZE];
    unsigned long line; /* the one that is read, from 1 on */
    unsigned long node_line; /* the last node's */
    int has_iso, has_version;
    uint32_t iso, version;
    int32_t numbers[FENALUKKI_NUMBERS_MAX + FENALUKKI_NUMBERS_PER_NODE]; /* a node too many */
    size_t count; /* of numbers */
    uint8_t part[FENALUKKI_WRITE_BYTES_MAX];
};

static int trouble(const char *what, const char *name)
{
    fprintf(stderr, "desk: cannot %s %s\n", what, name);
    return TROUBLE;
}

/* Prints what is wrong in the line that is read, and returns 0. */
static int mistake(const struct drawing *drawing, const char *format, ...)
{
    va_list words;

    fprintf(stderr, "%s:%lu: ", drawing->name, drawing->line);
    va_start(words, format);
    vfprintf(stderr, format, words);
    va_end(words);
    fputc('\n', stderr);
    return 0;
}

/* Words and numbers of a line. */

static int is_blank(int c)
{
    return c == ' ' || c == '\t' || c == '\r';
}

static int ends_word(int c)
{
    return c == EOF || c == '\n' || c == '#' || is_blank(c);
}

/* Returns the first character of the next word, or the line's end. */
static int skip_blanks(FILE *file)
{
    int c = getc(file), in_comment = c == '#';

    while (is_blank(c) || (in_comment && c != '\n' && c != EOF)) {
        c = getc(file);
        in_comment = in_comment || c == '#';
    }
    return c;
}

/* Returns 0 at the line's end, which stays to be read. */
static int read_word(struct drawing *drawing)
{
    size_t length = 0;
    int c = skip_blanks(drawing->file);

    while (!ends_word(c)) {
        if (length < WORD_SIZE - 1)
            drawing->word[length++] = (char)(c < 128 && isgraph(c) ? c : '?');
        c = getc(drawing->file);
    }
    ungetc(c, drawing->file);
    drawing->word[length] = '\0';
    return length > 0;
}

/* A sign or none, and one to ten digits. */
static int to_number(const char *word, int32_t *number)
{
    const char *digits = word + (*word == '-' || *word == '+');
    size_t count = strspn(digits, "0123456789");
    long long value = strtoll(word, NULL, 10);

    *number = (int32_t)value;
    return count >= 1 && count <= 10 && digits[count] == '\0' && *number == value;
}

static int read_numbers(struct drawing *drawing, const struct form *form, int32_t *numbers)
{
    int found = 0;

    while (read_word(drawing)) {
        if (found == form->numbers)
            return mistake(drawing, "\"%s\" is too much: %s takes %s", drawing->word, form->word,
                           form->takes);
        if (!to_number(drawing->word, &numbers[found++]))
            return mistake(drawing, "\"%s\" is not a whole number that fits 32 bits", drawing->word);
    }
    if (found < form->numbers)
        return mistake(drawing, "a number is missing: %s takes %s", form->word, form->takes);
    return 1;
}

/* The part that is drawn. */

static uint32_t write_part(struct drawing *drawing, const int32_t *numbers, size_t count)
{
    return fenalukki_write(numbers, count, drawing->iso, drawing->version, drawing->part,
                           sizeof drawing->part, 0);
}

/* In the header's words, but for a count of numbers, of which a drawing has none. */
static int refused(const struct drawing *drawing, uint32_t number)
{
    const char *text = fenalukki_refusal_text(number);

    if (number == FENALUKKI_REFUSED_NUMBERS)
        text = "a drawing has 1 to 511 nodes";
    return mistake(drawing, "refused %d, %s", fenalukki_refusal(number), text);
}

/* What the iso-value and the version are tried with: always accepted. */
static const int32_t point[FENALUKKI_NUMBERS_PER_NODE] = {FENALUKKI_KIND_POINT, 1, 0, 0, 0, 0};

/* Tried at once. */
static int put_iso(struct drawing *drawing, int32_t iso)
{
    uint32_t number;

    if (drawing->has_iso)
        return mistake(drawing, "iso comes a second time");
    drawing->has_iso = 1;
    drawing->iso = (uint32_t)iso; /* a negative one becomes too large */
    number = write_part(drawing, point, FENALUKKI_NUMBERS_PER_NODE);
    return !fenalukki_refusal(number) || refused(drawing, number);
}

/* Tried at once; that the iso-value is missing is no mistake yet. */
static int put_version(struct drawing *drawing, int32_t version)
{
    uint32_t number;

    if (drawing->has_version)
        return mistake(drawing, "version comes a second time");
    if (drawing->count > 0)
        return mistake(drawing, "version comes after a node");
    drawing->has_version = 1;
    drawing->version = (uint32_t)version; /* a negative one becomes too large */
    number = write_part(drawing, point, FENALUKKI_NUMBERS_PER_NODE);
    return number != FENALUKKI_REFUSED_VERSION || refused(drawing, number);
}

/* Tried with the nodes before it; that more are held than one is no mistake yet. */
static int put_node(struct drawing *drawing, const int32_t *node)
{
    uint32_t number;

    if (!drawing->has_iso)
        return mistake(drawing, "iso is missing before the first node");
    memcpy(drawing->numbers + drawing->count, node, FENALUKKI_NUMBERS_PER_NODE * sizeof *node);
    drawing->count += FENALUKKI_NUMBERS_PER_NODE;
    drawing->node_line = drawing->line;
    number = write_part(drawing, drawing->numbers, drawing->count);
    return !fenalukki_refusal(number) || number == FENALUKKI_REFUSED_NOT_ONE_HELD
           || refused(drawing, number);
}

/* Returns FORMS if no form has the word. */
static int find_form(const char *word)
{
    int kind = 0;

    while (kind < FORMS && strcmp(word, forms[kind].word) != 0)
        kind++;
    return kind;
}

/* Reads a line that has a word, up to its end. Returns 0 for a mistake. */
static int read_line(struct drawing *drawing)
{
    int kind = find_form(drawing->word);
    int32_t node[FENALUKKI_NUMBERS_PER_NODE] = {0};

    if (kind == FORMS)
        return mistake(drawing, "unknown word \"%s\"", drawing->word);
    node[FENALUKKI_NODE_KIND] = kind;
    if (!read_numbers(drawing, &forms[kind], node + 1))
        return 0;
    if (kind == VERSION_FORM)
        return put_version(drawing, node[1]);
    return kind == ISO_FORM ? put_iso(drawing, node[1]) : put_node(drawing, node);
}

/* Reads the whole text. Returns 0 for a mistake. */
static int read_lines(struct drawing *drawing)
{
    int c = getc(drawing->file);

    while (c != EOF) {
        ungetc(c, drawing->file);
        drawing->line++;
        if (read_word(drawing) && !read_line(drawing))
            return 0;
        getc(drawing->file); /* the line's end */
        c = getc(drawing->file);
    }
    return 1;
}

/* Writes all nodes. Returns the part's length, or 0 for a mistake, which is the
 * last node's or, where there is none, the last line's. */
static size_t end_drawing(struct drawing *drawing)
{
    uint32_t number = write_part(drawing, drawing->numbers, drawing->count);

    if (drawing->line == 0)
        drawing->line = 1; /* of an empty drawing */
    if (drawing->count > 0)
        drawing->line = drawing->node_line;
    if (!drawing->has_iso)
        return (size_t)mistake(drawing, "iso is missing");
    if (fenalukki_refusal(number))
        return (size_t)refused(drawing, number);
    return fenalukki_end(number);
}

/* Files. */

static int write_file(const char *name, const uint8_t *bytes, size_t length)
{
    FILE *file = fopen(name, "wb");
    size_t written;

    if (file == NULL)
        return 0;
    written = fwrite(bytes, 1, length, file);
    return fclose(file) == 0 && written == length;
}

static int write_command(const char *name, const char *part_name)
{
    static struct drawing drawing;
    int was_read, failed;
    size_t length;

    drawing.name = name;
    drawing.version = FENALUKKI_FILE_VERSION_DEGREE_4; /* unless the drawing has another */
    drawing.file = fopen(name, "rb");
    if (drawing.file == NULL)
        return trouble("read", name);
    was_read = read_lines(&drawing);
    failed = ferror(drawing.file);
    fclose(drawing.file);
    if (failed)
        return trouble("read", name);
    length = was_read ? end_drawing(&drawing) : 0;
    if (length == 0)
        return MISTAKE;
    return write_file(part_name, drawing.part, length) ? DONE : trouble("write", part_name);
}

static int read_file(const char *name, uint8_t *bytes, size_t room, size_t *length)
{
    FILE *file = fopen(name, "rb");
    int failed;

    if (file == NULL)
        return 0;
    *length = fread(bytes, 1, room, file);
    failed = ferror(file);
    fclose(file);
    return !failed;
}

static void print_node(FILE *file, const int32_t *node)
{
    const struct form *form = &forms[node[FENALUKKI_NODE_KIND]];
    int i;

    fputs(form->word, file);
    for (i = 0; i < form->numbers; i++)
        fprintf(file, " %ld", (long)node[i + 1]);
    fputc('\n', file);
}

/* Of an accepted file, what a read of it returned and gave. */
static void print_drawing(FILE *file, uint64_t number, const int32_t *numbers, size_t length)
{
    int nodes = fenalukki_nodes(number), i;
    size_t leading = length - (size_t)nodes * FENALUKKI_RECORD_BYTES - FENALUKKI_TRAILER_BYTES;

    if (leading > 0)
        fprintf(file, "# without the %lu bytes before the first record\n", (unsigned long)leading);
    fprintf(file, "iso %d\n", fenalukki_iso(number));
    if (fenalukki_file_version(number) != FENALUKKI_FILE_VERSION_DEGREE_4)
        fprintf(file, "version %d\n", fenalukki_file_version(number));
    for (i = 0; i < nodes; i++)
        print_node(file, numbers + i * FENALUKKI_NUMBERS_PER_NODE);
}

/* Without a name, to the standard output. */
static int read_command(const char *part_name, const char *name)
{
    static uint8_t part[FENALUKKI_FILE_BYTES_MAX + 1]; /* a longer one is refused as well */
    static int32_t numbers[FENALUKKI_NUMBERS_MAX];
    size_t length;
    uint64_t number;
    FILE *file;
    int failed;

    if (!read_file(part_name, part, sizeof part, &length))
        return trouble("read", part_name);
    number = fenalukki_read(part, length, numbers);
    if (fenalukki_refusal(number)) {
        fprintf(stderr, "%s: refused %d, %s\n", part_name, fenalukki_refusal(number),
                fenalukki_refusal_text(number));
        return MISTAKE;
    }
    file = name == NULL ? stdout : fopen(name, "wb");
    if (file == NULL)
        return trouble("write", name);
    print_drawing(file, number, numbers, length);
    failed = ferror(file);
    return fclose(file) == 0 && !failed ? DONE : trouble("write", name ? name : "standard output");
}

int main(int argc, char **argv)
{
    if (argc == 4 && strcmp(argv[2], argv[3]) == 0)
        return trouble("write over", argv[2]);
    if (argc == 4 && strcmp(argv[1], "write") == 0)
        return write_command(argv[2], argv[3]);
    if ((argc == 3 || argc == 4) && strcmp(argv[1], "read") == 0)
        return read_command(argv[2], argv[3]); /* argv[argc] is null */
    fprintf(stderr, "usage: desk write DRAWING PART\n"
                    "       desk read PART [DRAWING]\n");
    return TROUBLE;
}
