/* Runs the table of cases.txt: each case with its options gives its status, its message and the lines named of what is
 * printed. Prints how many there were; tells every one that fails, with its line.
 *
 * Lines of the table, all of a test before its `case`:
 *     let X WORDS       $X at the start of a case's line is WORDS from here on; X is one capital
 *     test NAME         begins a test
 *     options OPTIONS   of the program, parted by blanks; without it none
 *     status N          0 where it is left out
 *     says MESSAGE      the whole message, without the program's name; wanted where the status is not 0
 *     prints LINE       a line that must be printed, from its first character that is no blank to its last
 *     |LINE             a line of the case; \t \r \\ and \xHH stand for a byte, \c at the end for no line feed
 *     *N FROM|LINE      the line N times, @ in it being FROM, FROM + 1 and so on
 * An empty line and one that begins with # say nothing. */
#include "../run.h"
#include "../text.h"

#include <stdlib.h>
#include <string.h>

enum { LETTERS = 26, MOST_PRINTS = 24, FIRST_LINES = 4096 };

/* The test that is being read, and where it began. */
struct test {
    const char *name;
    unsigned line;
    struct options options;
    int status;
    const char *says;
    const char *prints[MOST_PRINTS];
    size_t count;
    struct text text;
};

struct table {
    const char *let[LETTERS];
    struct test test;
    unsigned tests;
    unsigned failed;
};

static void stop(const char *why, const char *what)
{
    fprintf(stderr, "table: %s: %s\n", why, what);
    exit(1);
}

/* What a file has, with a nought behind it. */
static char *whole_file(FILE *file)
{
    struct text text = {NULL, 0, 0, 0};
    char chunk[FIRST_LINES];
    size_t length;

    rewind(file);
    while ((length = fread(chunk, 1, sizeof chunk, file)) > 0)
        put_bytes(&text, chunk, length);
    put_bytes(&text, "", 1);
    if (text.failed || ferror(file))
        stop("cannot be read", "a file");
    return text.bytes;
}

static void fail(struct table *table, const char *what, const char *got)
{
    fprintf(stderr, "cases.txt:%u: %s: %s: %s\n", table->test.line, table->test.name, what, got);
    table->failed++;
}

/* Whether a line that is printed is the one wanted, blanks at its ends aside. */
static int has_line(const char *printed, const char *wanted)
{
    size_t length = strlen(wanted);

    while (*printed != '\0') {
        const char *start = printed + strspn(printed, " ");
        const char *end = start + strcspn(start, "\r\n");
        if ((size_t)(end - start) == length && memcmp(start, wanted, length) == 0)
            return 1;
        printed = *end == '\0' ? end : end + 1;
    }
    return 0;
}

/* Whether a message is the one wanted, behind the program's name and with a line feed. */
static int is_message(const char *told, const char *wanted)
{
    static const char program[] = "canyonsieve-sheet: ";
    size_t length = sizeof program - 1;

    return strncmp(told, program, length) == 0 && strncmp(told + length, wanted, strlen(wanted)) == 0 &&
           strcmp(told + length + strlen(wanted), "\n") == 0;
}

static void judge(struct table *table, int status, const char *printed, const char *told)
{
    const struct test *test = &table->test;

    if (status != test->status)
        fail(table, "another status, and it says", told);
    else if (test->says != NULL ? !is_message(told, test->says) : told[0] != '\0')
        fail(table, "it says", told);
    else if (status != 0 && printed[0] != '\0')
        fail(table, "it prints", printed);
    for (size_t i = 0; i < test->count; i++) {
        if (!has_line(printed, test->prints[i]))
            fail(table, "it does not print", test->prints[i]);
    }
}

/* Runs the test that was read, if there is one. */
static void run_test(struct table *table)
{
    struct test *test = &table->test;
    FILE *out = tmpfile();
    FILE *err = tmpfile();

    if (out == NULL || err == NULL)
        stop("cannot be made", "a file");
    if (test->name != NULL) {
        int status =
            sheet_run(NULL, (const unsigned char *)test->text.bytes, test->text.length, test->options, out, err);
        char *printed = whole_file(out);
        char *told = whole_file(err);
        table->tests++;
        judge(table, status, printed, told);
        free(printed);
        free(told);
    }
    fclose(out);
    fclose(err);
    free_text(&test->text);
    memset(test, 0, sizeof *test);
}

static void take_options(struct test *test, const char *words)
{
    test->options.from_text = strstr(words, "--from-text") != NULL;
    if (strstr(words, "--text") != NULL)
        test->options.output = TEXT;
    else if (strstr(words, "--csv") != NULL)
        test->options.output = CSV;
    else if (strstr(words, "--blank") != NULL)
        test->options.output = BLANK;
}

static unsigned digit(char byte)
{
    return byte <= '9' ? (unsigned)(byte - '0') : (unsigned)(byte - 'A') + 10;
}

/* A line of a case, its escapes as bytes. */
static void put_case(struct text *text, const char *line, unsigned counter)
{
    for (; *line != '\0'; line++) {
        char byte = *line;
        if (byte == '@') {
            put_digits(text, counter, 1);
            continue;
        }
        if (byte == '\\' && *++line == 'c')
            return;
        if (byte == '\\' && *line == 'x') {
            byte = (char)(16 * digit(line[1]) + digit(line[2]));
            line += 2;
        } else if (byte == '\\') {
            byte = *line == 't' ? '\t' : *line == 'r' ? '\r' : *line;
        }
        put_bytes(text, &byte, 1);
    }
    put(text, "\n");
}

/* A line of a case, with the words that its first letter stands for. */
static void take_case(struct table *table, const char *line, unsigned counter)
{
    struct text text = {NULL, 0, 0, 0};

    if (line[0] == '$' && table->let[line[1] - 'A'] != NULL) {
        put(&text, table->let[line[1] - 'A']);
        line += 2;
    }
    put(&text, line);
    put_bytes(&text, "", 1);
    put_case(&table->test.text, text.bytes, counter);
    free_text(&text);
}

static void take_repeated(struct table *table, const char *line)
{
    char *end = NULL;
    unsigned long times = strtoul(line + 1, &end, 10);
    unsigned long from = strtoul(end, &end, 10);

    if (*end != '|')
        stop("no line of a table", line);
    for (unsigned long i = 0; i < times; i++)
        take_case(table, end + 1, (unsigned)(from + i));
}

/* What stands behind a keyword and a blank, or NULL. */
static const char *behind(const char *line, const char *keyword)
{
    size_t length = strlen(keyword);

    return strncmp(line, keyword, length) == 0 && line[length] == ' ' ? line + length + 1 : NULL;
}

static void take_keyword(struct table *table, const char *line)
{
    struct test *test = &table->test;
    const char *words;

    if ((words = behind(line, "let")) != NULL)
        table->let[words[0] - 'A'] = words + 2;
    else if ((words = behind(line, "options")) != NULL)
        take_options(test, words);
    else if ((words = behind(line, "status")) != NULL)
        test->status = (int)strtol(words, NULL, 10);
    else if ((words = behind(line, "says")) != NULL)
        test->says = words;
    else if ((words = behind(line, "prints")) != NULL && test->count < MOST_PRINTS)
        test->prints[test->count++] = words;
    else
        stop("no line of a table", line);
}

static void take_line(struct table *table, const char *line, unsigned number)
{
    const char *name = behind(line, "test");

    if (name != NULL) {
        run_test(table);
        table->test.name = name;
        table->test.line = number;
    } else if (line[0] == '|') {
        take_case(table, line + 1, 0);
    } else if (line[0] == '*') {
        take_repeated(table, line);
    } else if (line[0] != '\0' && line[0] != '#') {
        take_keyword(table, line);
    }
}

int main(int count, char **arguments)
{
    struct table table;
    FILE *file = count == 2 ? fopen(arguments[1], "rb") : NULL;
    unsigned number = 1;
    char *text;

    if (file == NULL)
        stop("usage", "table CASES");
    memset(&table, 0, sizeof table);
    text = whole_file(file);
    for (char *line = text; *line != '\0'; number++) {
        char *end = line + strcspn(line, "\n");
        char *next = *end == '\0' ? end : end + 1;
        *end = '\0';
        take_line(&table, line, number);
        line = next;
    }
    run_test(&table);
    free(text);
    fclose(file);
    printf("%u cases, %u of them wrong\n", table.tests, table.failed);
    return table.failed == 0 && table.tests > 0 ? 0 : 1;
}
