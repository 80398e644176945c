/* canyonsieve-sheet: the worksheet of a pension case, from the case as people write it. */
#include "run.h"
#include "text.h"

#include <canyonsieve.h>

#include <errno.h>
#include <stdlib.h>
#include <string.h>

enum { CHUNK = 16384 };

#define USAGE "usage: canyonsieve-sheet [--text | --csv | --blank] [--from-text] [--] [FILE]"

/* What the arguments ask for: the options, and the file, NULL for standard input. */
struct request {
    struct options options;
    const char *file;
    int asks_help;
    int asks_version;
};

static int wrong_use(void)
{
    return tell(stderr, NULL, USAGE, UNREADABLE);
}

/* Takes an option; whether it is one and may stand with those before it. */
static int take_option(struct request *request, const char *option)
{
    static const struct {
        const char *option;
        enum output output;
    } outputs[] = {{"--text", TEXT}, {"--csv", CSV}, {"--blank", BLANK}};

    for (size_t i = 0; i < sizeof outputs / sizeof outputs[0]; i++) {
        if (strcmp(option, outputs[i].option) == 0) {
            int is_first = request->options.output == SHEET;
            request->options.output = outputs[i].output;
            return is_first;
        }
    }
    if (strcmp(option, "--from-text") != 0)
        return 0;
    request->options.from_text = 1;
    return 1;
}

/* Reads the arguments; whether they are right. */
static int read_arguments(struct request *request, int count, char **arguments)
{
    int i = 1;

    if (count == 2 && strcmp(arguments[1], "--help") == 0)
        return request->asks_help = 1;
    if (count == 2 && strcmp(arguments[1], "--version") == 0)
        return request->asks_version = 1;
    while (i < count && arguments[i][0] == '-' && arguments[i][1] != '\0' && strcmp(arguments[i], "--") != 0) {
        if (!take_option(request, arguments[i++]))
            return 0;
    }
    if (i < count && strcmp(arguments[i], "--") == 0)
        i++;
    if (i < count && strcmp(arguments[i], "-") != 0)
        request->file = arguments[i];
    return count - i <= 1;
}

/* Reads a file to its end; whether that went well. */
static int read_all(FILE *file, struct text *bytes)
{
    char chunk[CHUNK];
    size_t length;

    while ((length = fread(chunk, 1, sizeof chunk, file)) > 0)
        put_bytes(bytes, chunk, length);
    return !ferror(file);
}

/* Tells that a file could not be opened or read, with the system's words. */
static int tell_system(const char *name, const char *what, int error)
{
    struct text message = {NULL, 0, 0, 0};
    int status;

    put(&message, what);
    if (error != 0) {
        put(&message, ": ");
        put(&message, strerror(error));
    }
    put_bytes(&message, "", 1);
    status = tell(stderr, name, message.failed ? what : message.bytes, UNREADABLE);
    free_text(&message);
    return status;
}

/* Reads the file and works it. */
static int run_file(const struct request *request, FILE *file)
{
    struct text bytes = {NULL, 0, 0, 0};
    int status;

    errno = 0;
    if (!read_all(file, &bytes))
        status = tell_system(request->file == NULL ? "standard input" : request->file, "cannot be read", errno);
    else if (bytes.failed)
        status = tell(stderr, request->file, "out of memory", UNREADABLE);
    else
        status = sheet_run(request->file, (const unsigned char *)bytes.bytes, bytes.length, request->options, stdout,
                           stderr);
    free_text(&bytes);
    return status;
}

/* Closes standard output, where the last bytes may still fail. */
static int close_output(int status)
{
    if (fclose(stdout) != 0 && status == WORKED)
        return tell(stderr, NULL, "the output could not be written", UNREADABLE);
    return status;
}

int main(int count, char **arguments)
{
    static const char help[] =
        USAGE "\n"
              "       canyonsieve-sheet --help | --version\n"
              "Works a pension case in words, from FILE or standard input, and prints its worksheet.\n"
              "  --blank      the sheet with its worked figures left out, to be filled in\n"
              "  --csv        a table for a spreadsheet\n"
              "  --text       the hexadecimal text of the case\n"
              "  --from-text  the case is a hexadecimal text, and not in words\n"
              "The page canyonsieve-sheet(1) has the words.\n";
    struct request request = {{SHEET, 0}, NULL, 0, 0};
    FILE *file = stdin;
    int status;

    if (!read_arguments(&request, count, arguments))
        return wrong_use();
    if (request.asks_help || request.asks_version) {
        if (request.asks_help)
            fputs(help, stdout);
        else
            printf("canyonsieve-sheet, for version %d of canyonsieve.h\n", CANYONSIEVE_VERSION);
        return close_output(WORKED);
    }
    errno = 0;
    if (request.file != NULL)
        file = fopen(request.file, "rb");
    if (file == NULL)
        return tell_system(request.file, "cannot be opened", errno);
    status = run_file(&request, file);
    if (file != stdin)
        (void)fclose(file);
    return close_output(status);
}
