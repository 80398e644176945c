/* Where there is no memory it is told, and nothing is printed. Each request for memory of a run fails once, the first
 * in the first run, the second in the second and so on, until a run has all that it asks for. The linker puts the
 * functions below in the place of the library's: -Wl,--wrap=realloc,--wrap=calloc.
 *
 * memory FILES: cases in words, or texts where a name does not end in .case. Prints how many runs there were. */
#include "../run.h"

#include <stdlib.h>
#include <string.h>

enum { MOST_BYTES = 65536 };

void *__real_realloc(void *memory, size_t size);
void *__real_calloc(size_t count, size_t size);
void *__wrap_realloc(void *memory, size_t size);
void *__wrap_calloc(size_t count, size_t size);

/* How many requests are still granted before one fails. */
static unsigned long granted;

static int fails(void)
{
    return granted-- == 0;
}

void *__wrap_realloc(void *memory, size_t size)
{
    return fails() ? NULL : __real_realloc(memory, size);
}

void *__wrap_calloc(size_t count, size_t size)
{
    return fails() ? NULL : __real_calloc(count, size);
}

static void claim(int holds, const char *what)
{
    if (holds)
        return;
    fprintf(stderr, "memory: it does not hold that %s\n", what);
    exit(1);
}

/* A run in which a request fails: it is not worked, nothing is printed, and one line is told, that there is no memory
 * or, of a case that is refused, the refusal without the person's own words. Gives whether there was such a request. */
static int run(const unsigned char *bytes, size_t length, struct options options, unsigned long before)
{
    static const char wanted[] = "canyonsieve-sheet: out of memory\n";
    char told[sizeof wanted] = "";
    FILE *out = tmpfile();
    FILE *err = tmpfile();
    int status;
    int failed;

    claim(out != NULL && err != NULL, "files can be made");
    granted = before;
    status = sheet_run(NULL, bytes, length, options, out, err);
    failed = granted > before;
    rewind(err);
    told[fread(told, 1, sizeof wanted - 1, err)] = '\0';
    claim(!failed || (status != WORKED && ftell(out) == 0), "nothing is printed without memory");
    claim(!failed || status == REFUSED || strcmp(told, wanted) == 0, "a lack of memory is told");
    fclose(out);
    fclose(err);
    return failed;
}

/* All outputs of a file, each with every request failing once. */
static unsigned long run_file(const char *name)
{
    static unsigned char bytes[MOST_BYTES];
    static const enum output outputs[] = {SHEET, BLANK, CSV, TEXT};
    FILE *file = fopen(name, "rb");
    unsigned long runs = 0;
    size_t length;

    claim(file != NULL, name);
    length = fread(bytes, 1, sizeof bytes, file);
    fclose(file);
    for (size_t i = 0; i < sizeof outputs / sizeof outputs[0]; i++) {
        struct options options = {outputs[i], strstr(name, ".case") == NULL};
        for (unsigned long before = 0; run(bytes, length, options, before); before++)
            runs++;
    }
    return runs;
}

int main(int count, char **arguments)
{
    unsigned long runs = 0;

    for (int i = 1; i < count; i++)
        runs += run_file(arguments[i]);
    claim(runs > 0, "it is called: memory FILES");
    printf("%lu runs without memory\n", runs);
    return 0;
}
