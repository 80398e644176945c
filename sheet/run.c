/* A case from its bytes to what is printed of it. */
#include "run.h"

#include "refusals.h"
#include "sheet.h"
#include "words.h"

#include <stdlib.h>

/* What a run has taken of memory: the records, the text that the engine works, what is printed and what is told. */
struct run {
    const char *name;
    struct options options;
    FILE *err;
    struct span bytes;
    struct records records;
    struct text text;
    struct text out;
    struct text message;
};

int tell(FILE *err, const char *name, const char *message, enum status status)
{
    fputs("canyonsieve-sheet: ", err);
    if (name != NULL) {
        fputs(name, err);
        fputs(": ", err);
    }
    fputs(message, err);
    fputs("\n", err);
    return (int)status;
}

/* Tells a message that was put together. */
static int tell_text(const struct run *run, struct text *message, enum status status)
{
    put_bytes(message, "", 1);
    if (message->failed)
        return tell(run->err, run->name, "out of memory", UNREADABLE);
    return tell(run->err, run->name, message->bytes, status);
}

/* Reads words into records, and the text of the frames from those. */
static int take_words(struct run *run)
{
    struct scanner scanner;
    int status = WORKED;

    start_scanner(&scanner, run->bytes);
    read_words(&run->records, &scanner);
    if (scanner.troubled)
        status = tell_text(run, &scanner.message, UNREADABLE);
    else if (!run->records.failed && put_large_factor(&run->message, &run->records))
        status = tell_text(run, &run->message, REFUSED);
    free_text(&scanner.message);
    for (size_t i = 0; i < run->records.count && status == WORKED; i++)
        put_frame(&run->text, &run->records.list[i]);
    return status;
}

/* The text as it came, and its records as far as it has frames. */
static int take_text(struct run *run)
{
    put_bytes(&run->text, run->bytes.start, run->bytes.length);
    read_frames(&run->records, run->bytes);
    return WORKED;
}

static struct span text_of(const struct run *run)
{
    static const unsigned char empty[1] = {0};
    struct span span = {empty, 0};

    if (run->text.length > 0) {
        span.start = (const unsigned char *)run->text.bytes;
        span.length = run->text.length;
    }
    return span;
}

static int has_memory(const struct run *run)
{
    return !(run->records.failed || run->records.names.failed || run->text.failed || run->out.failed);
}

/* Whether the text says every number of the records. */
static int says_all(const struct run *run)
{
    for (size_t i = 0; i < run->records.count; i++) {
        if (!fits(&run->records.list[i]))
            return 0;
    }
    return 1;
}

/* What is printed of a case that is worked. */
static int print_case(struct run *run, const struct canyonsieve_sheet *steps)
{
    struct worked_case *work = calloc(1, sizeof *work);
    int agrees;

    if (work == NULL)
        return tell(run->err, run->name, "out of memory", UNREADABLE);
    agrees = work_case(work, &run->records, steps);
    if (agrees && run->options.output == CSV)
        put_csv(&run->out, work);
    else if (agrees)
        put_sheet(&run->out, work, run->options.output == BLANK);
    free(work);
    if (!agrees)
        return tell(run->err, run->name, "the answers of the library do not agree with each other", UNREADABLE);
    return WORKED;
}

/* The engine's answer: what is printed of it, or why it was refused. */
static int work_text(struct run *run)
{
    struct span text = text_of(run);
    struct canyonsieve_sheet steps = canyonsieve_steps(text.start, text.length);
    struct refused refused = {steps.refusal, steps.line, text, !run->options.from_text};

    if (steps.refusal == CANYONSIEVE_ACCEPTED)
        return print_case(run, &steps);
    put_refusal(&run->message, &run->records, refused);
    return tell_text(run, &run->message, REFUSED);
}

/* From the bytes to what is to be printed. A text is printed as it is, unless it lacks a number that is too large
 * for it: the engine refuses that one. */
static int from_bytes(struct run *run)
{
    int status = run->options.from_text ? take_text(run) : take_words(run);

    if (status == WORKED && !has_memory(run))
        return tell(run->err, run->name, "out of memory", UNREADABLE);
    if (status == WORKED && run->options.output == TEXT && (run->options.from_text || says_all(run))) {
        put_bytes(&run->out, run->text.bytes, run->text.length);
        return WORKED;
    }
    return status == WORKED ? work_text(run) : status;
}

/* Writes all at once. */
static int write_out(const struct run *run, FILE *out)
{
    if (!has_memory(run))
        return tell(run->err, run->name, "out of memory", UNREADABLE);
    if (run->out.length > 0 && fwrite(run->out.bytes, 1, run->out.length, out) != run->out.length)
        return tell(run->err, NULL, "the output could not be written", UNREADABLE);
    if (fflush(out) != 0)
        return tell(run->err, NULL, "the output could not be written", UNREADABLE);
    return WORKED;
}

int sheet_run(const char *name, const unsigned char *bytes, size_t length, struct options options, FILE *out, FILE *err)
{
    struct run run = {name,
                      options,
                      err,
                      {bytes, length},
                      {NULL, 0, 0, 0, {NULL, 0, 0, 0}},
                      {NULL, 0, 0, 0},
                      {NULL, 0, 0, 0},
                      {NULL, 0, 0, 0}};
    int status = from_bytes(&run);

    if (status == WORKED)
        status = write_out(&run, out);
    free_records(&run.records);
    free_text(&run.text);
    free_text(&run.out);
    free_text(&run.message);
    return status;
}
