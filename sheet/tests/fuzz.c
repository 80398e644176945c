/* Any bytes are survived. The exercises and the example texts are changed at random, always in the same way, and
 * printed with every option in a program that looks after its memory; what must hold of every input is looked at each
 * time.
 *
 * fuzz INPUTS FILES: a file whose name ends in .case is in words, any other a hexadecimal text. Prints how many inputs
 * there were and what became of them. With FUZZER defined it is a harness of libFuzzer instead, whose first byte says
 * the options. */
#include "../run.h"
#include "../text.h"

#include <canyonsieve.h>

#include <stdint.h>
#include <stdlib.h>
#include <string.h>

/* The two files that a run writes to, used again for each. */
struct files {
    FILE *out;
    FILE *err;
};

static void claim(int holds, const char *what)
{
    if (holds)
        return;
    fprintf(stderr, "fuzz: it does not hold that %s\n", what);
    abort();
}

/* What was written to a file since it was rewound, put behind a text. */
static void take_written(FILE *file, struct text *written)
{
    long length = ftell(file);
    char chunk[4096];

    rewind(file);
    while (length > 0) {
        size_t wanted = length < (long)sizeof chunk ? (size_t)length : sizeof chunk;
        claim(fread(chunk, 1, wanted, file) == wanted, "a file can be read again");
        put_bytes(written, chunk, wanted);
        length -= (long)wanted;
    }
    claim(!written->failed, "there is memory");
    rewind(file);
}

static struct files new_files(void)
{
    struct files files = {tmpfile(), tmpfile()};

    claim(files.out != NULL && files.err != NULL, "files can be made");
    return files;
}

/* One message: the program's name, and a line feed at its end and nowhere else. */
static void claim_message(const struct text *told)
{
    static const char program[] = "canyonsieve-sheet: ";

    claim(told->length > sizeof program && memcmp(told->bytes, program, sizeof program - 1) == 0,
          "a message begins with the program");
    claim(memchr(told->bytes, '\n', told->length) == told->bytes + told->length - 1, "a message is one line");
}

/* Runs bytes with options, from a place of memory that has no byte more. What is printed is put behind a text. */
static int run(struct files files, struct span bytes, struct options options, struct text *printed)
{
    unsigned char *copy = malloc(bytes.length == 0 ? 1 : bytes.length);
    struct text told = {NULL, 0, 0, 0};
    int status;

    claim(copy != NULL, "there is memory");
    if (bytes.length > 0)
        memcpy(copy, bytes.start, bytes.length);
    status = sheet_run(NULL, copy, bytes.length, options, files.out, files.err);
    free(copy);
    take_written(files.out, printed);
    take_written(files.err, &told);
    claim(status >= 0 && status <= 2, "the status is 0, 1 or 2");
    claim(status == 0 || printed->length == 0, "nothing is printed that is not worked");
    claim(status != 0 || told.length == 0, "nothing is told of what is worked");
    if (status != 0)
        claim_message(&told);
    free_text(&told);
    return status;
}

/* The words and their text are the same case: they end alike. */
static void claim_same(struct files files, struct span text, int status)
{
    struct text printed = {NULL, 0, 0, 0};
    struct options options = {SHEET, 1};

    claim(run(files, text, options, &printed) == status, "the words and their text are the same case");
    free_text(&printed);
}

/* All outputs of an input; gives the status of its sheet. */
static int run_all(struct files files, struct span bytes, int from_text)
{
    static const enum output outputs[] = {BLANK, CSV, TEXT};
    struct text printed = {NULL, 0, 0, 0};
    struct options options = {SHEET, from_text};
    int status = run(files, bytes, options, &printed);

    free_text(&printed);
    for (size_t i = 0; i < sizeof outputs / sizeof outputs[0]; i++) {
        int other;
        options.output = outputs[i];
        other = run(files, bytes, options, &printed);
        claim(other == status || (options.output == TEXT && other < status), "all outputs have one status");
        if (options.output == TEXT && other == WORKED && !from_text) {
            struct span text = {(const unsigned char *)printed.bytes, printed.length};
            claim_same(files, text, status);
        }
        free_text(&printed);
    }
    return status;
}

#ifdef FUZZER

int LLVMFuzzerTestOneInput(const uint8_t *data, size_t size);

int LLVMFuzzerTestOneInput(const uint8_t *data, size_t size)
{
    static struct files files;
    struct span bytes = {data + 1, size - 1};

    if (size == 0)
        return 0;
    if (files.out == NULL)
        files = new_files();
    (void)run_all(files, bytes, data[0] & 1);
    return 0;
}

#else

/* MORE_WORDS: so often another seed is tried in the place of a text, since there are more texts than cases in words. */
enum { MOST_SEEDS = 256, MOST_CHANGES = 4, LONGEST = 5000, MORE_WORDS = 6 };

struct seed {
    struct text text;
    int from_text;
};

struct fuzzer {
    struct seed seeds[MOST_SEEDS];
    size_t count;
    uint64_t state;
};

/* The next number of a fixed row (xorshift), below a limit. */
static size_t below(struct fuzzer *fuzzer, size_t limit)
{
    fuzzer->state ^= fuzzer->state << 13;
    fuzzer->state ^= fuzzer->state >> 7;
    fuzzer->state ^= fuzzer->state << 17;
    return limit == 0 ? 0 : (size_t)((fuzzer->state >> 11) % limit);
}

/* Other bytes in the place of some. */
static void replace(struct text *text, size_t start, size_t length, struct span other)
{
    struct text changed = {NULL, 0, 0, 0};

    put_bytes(&changed, text->bytes, start);
    put_span(&changed, other);
    put_bytes(&changed, text->bytes + start + length, text->length - start - length);
    claim(!changed.failed, "there is memory");
    free_text(text);
    *text = changed;
}

static struct span words(const char *bytes)
{
    struct span span = {(const unsigned char *)bytes, strlen(bytes)};

    return span;
}

static void flip_bit(struct fuzzer *fuzzer, struct text *text)
{
    if (text->length > 0)
        text->bytes[below(fuzzer, text->length)] ^= (char)(1 << below(fuzzer, 8));
}

static void insert_byte(struct fuzzer *fuzzer, struct text *text)
{
    unsigned char byte = (unsigned char)below(fuzzer, 256);
    struct span span = {&byte, 1};

    replace(text, below(fuzzer, text->length + 1), 0, span);
}

static void delete_bytes(struct fuzzer *fuzzer, struct text *text)
{
    size_t start = below(fuzzer, text->length + 1);
    size_t left = text->length - start;

    replace(text, start, below(fuzzer, left < 9 ? left + 1 : 9), words(""));
}

static void cut_short(struct fuzzer *fuzzer, struct text *text)
{
    text->length = below(fuzzer, text->length + 1);
}

static int is_blank(char byte)
{
    return byte == ' ' || byte == '\t' || byte == '\n' || byte == '\r';
}

/* The word or the line around a place: to the next blank or line feed on both sides. */
static struct span around(const struct text *text, size_t place, int is_line)
{
    struct span span = {(const unsigned char *)text->bytes, 0};
    size_t start = place;
    size_t end = place;

    while (start > 0 && (is_line ? text->bytes[start - 1] != '\n' : !is_blank(text->bytes[start - 1])))
        start--;
    while (end < text->length && (is_line ? text->bytes[end] != '\n' : !is_blank(text->bytes[end])))
        end++;
    if (end > start) {
        span.start += start;
        span.length = end - start;
    }
    return span;
}

/* A word or a line of one of the seeds in the place of one of this text. */
static void take_over(struct fuzzer *fuzzer, struct text *text, int is_line)
{
    const struct text *other = &fuzzer->seeds[below(fuzzer, fuzzer->count)].text;
    struct span taken = around(other, below(fuzzer, other->length), is_line);
    struct span place = around(text, below(fuzzer, text->length), is_line);
    size_t start = place.length == 0 ? 0 : (size_t)((const char *)place.start - text->bytes);

    replace(text, start, place.length, taken);
}

static void take_word(struct fuzzer *fuzzer, struct text *text)
{
    take_over(fuzzer, text, 0);
}

static void take_line(struct fuzzer *fuzzer, struct text *text)
{
    take_over(fuzzer, text, 1);
}

/* A line once more, some times. */
static void repeat_line(struct fuzzer *fuzzer, struct text *text)
{
    struct span line = around(text, below(fuzzer, text->length), 1);
    struct text lines = {NULL, 0, 0, 0};
    size_t start = line.length == 0 ? 0 : (size_t)((const char *)line.start - text->bytes);
    size_t times = 1 + below(fuzzer, below(fuzzer, 8) == 0 ? 60 : 3);
    struct span span;

    for (size_t i = 0; i < times; i++) {
        put_span(&lines, line);
        put(&lines, "\n");
    }
    claim(!lines.failed, "there is memory");
    span.start = (const unsigned char *)lines.bytes;
    span.length = lines.length;
    replace(text, start, 0, span);
    free_text(&lines);
}

/* Digits from a place on that are another number: a limit, the number behind it, or a huge one. */
static void change_number(struct fuzzer *fuzzer, struct text *text)
{
    static const char *const numbers[] = {
        "0",
        "1",
        "255",
        "256",
        "600",
        "601",
        "1000",
        "1001",
        "2015",
        "2016",
        "2100",
        "10080",
        "10081",
        "16425",
        "16426",
        "65535",
        "65536",
        "10000000",
        "10000000.01",
        "42949672.95",
        "4294967296",
        "18446744073709551615",
        "18446744073709551616",
        "307445734561825860h16",
        "99999999999999999999999999999999",
        "0.5",
        "37h30",
        "168h00",
        "9,999,999",
        "0.00000000000000000000000000000000000001",
    };
    size_t start = below(fuzzer, text->length);
    size_t length = 0;

    while (start < text->length && (text->bytes[start] < '0' || text->bytes[start] > '9'))
        start++;
    while (start + length < text->length && text->bytes[start + length] >= '0' && text->bytes[start + length] <= '9')
        length++;
    replace(text, start, length, words(numbers[below(fuzzer, sizeof numbers / sizeof numbers[0])]));
}

/* Words that mean something to the reader. */
static void insert_words(struct fuzzer *fuzzer, struct text *text)
{
    static const char *const pieces[] = {
        "\"",
        "\"\"",
        "#",
        "\r\n",
        "\r",
        "\n",
        "\t",
        "\xEF\xBB\xBF",
        "£",
        "%",
        "h",
        ":",
        ".",
        ",",
        "=1+1",
        "\x01",
        "\xC0\xAF",
        "\xED\xA0\x80",
        "\xF4\x90",
        "\xCC\x80",
        " of ",
        " none ",
        "-1",
        " 3 2",
        "member",
        "post a",
        " 1995 ",
        " lump 0.5",
        "supplement 1",
        "\xE2\x88\x92",
    };

    replace(text, below(fuzzer, text->length + 1), 0, words(pieces[below(fuzzer, sizeof pieces / sizeof pieces[0])]));
}

/* A byte many times over. */
static void insert_many(struct fuzzer *fuzzer, struct text *text)
{
    static const char bytes[] = "a\"0 9\n#\xC3";
    struct text many = {NULL, 0, 0, 0};
    struct span span;

    if (below(fuzzer, 8) != 0)
        return;
    put_repeated(&many, bytes[below(fuzzer, sizeof bytes - 1)], 1 + below(fuzzer, LONGEST));
    claim(!many.failed, "there is memory");
    span.start = (const unsigned char *)many.bytes;
    span.length = many.length;
    replace(text, below(fuzzer, text->length + 1), 0, span);
    free_text(&many);
}

/* A seed with some changes, run in its own way and now and then in the other. */
static int run_changed(struct fuzzer *fuzzer, struct files files)
{
    static void (*const changes[])(struct fuzzer *, struct text *) = {
        flip_bit,  insert_byte, delete_bytes,  cut_short,     take_word,     take_line,    repeat_line,
        take_word, take_line,   change_number, change_number, change_number, insert_words, insert_many,
    };
    const struct seed *seed = &fuzzer->seeds[below(fuzzer, fuzzer->count)];
    struct text text = {NULL, 0, 0, 0};
    size_t count = 1 + below(fuzzer, 1 + below(fuzzer, MOST_CHANGES));
    struct span bytes;
    int status;

    for (size_t i = 0; i < MORE_WORDS && seed->from_text; i++)
        seed = &fuzzer->seeds[below(fuzzer, fuzzer->count)];
    put_bytes(&text, seed->text.bytes, seed->text.length);
    claim(!text.failed, "there is memory");
    for (size_t i = 0; i < count; i++)
        changes[below(fuzzer, sizeof changes / sizeof changes[0])](fuzzer, &text);
    bytes.start = (const unsigned char *)text.bytes;
    bytes.length = text.length;
    status = run_all(files, bytes, below(fuzzer, 16) == 0 ? !seed->from_text : seed->from_text);
    free_text(&text);
    return status;
}

static void read_seed(struct fuzzer *fuzzer, const char *name)
{
    struct seed *seed = &fuzzer->seeds[fuzzer->count++];
    FILE *file = fopen(name, "rb");
    char chunk[4096];
    size_t length;

    claim(file != NULL, name);
    while ((length = fread(chunk, 1, sizeof chunk, file)) > 0)
        put_bytes(&seed->text, chunk, length);
    seed->from_text = strlen(name) < 5 || strcmp(name + strlen(name) - 5, ".case") != 0;
    fclose(file);
}

int main(int count, char **arguments)
{
    static struct fuzzer fuzzer;
    struct files files = new_files();
    unsigned long inputs = count > 2 ? strtoul(arguments[1], NULL, 10) : 0;
    unsigned long became[3] = {0, 0, 0};

    claim(inputs > 0 && count - 2 <= MOST_SEEDS, "it is called: fuzz INPUTS FILES, at most 256 of them");
    for (int i = 2; i < count; i++)
        read_seed(&fuzzer, arguments[i]);
    fuzzer.state = UINT64_C(88172645463325252);
    for (unsigned long i = 0; i < inputs; i++)
        became[run_changed(&fuzzer, files)]++;
    for (size_t i = 0; i < fuzzer.count; i++)
        free_text(&fuzzer.seeds[i].text);
    fclose(files.out);
    fclose(files.err);
    printf("%lu inputs: %lu worked, %lu refused, %lu unreadable\n", inputs, became[0], became[1], became[2]);
    return 0;
}

#endif
