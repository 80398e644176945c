/* Why a case was refused: the place, the cause, the number. */
#include "refusals.h"

#include "causes.h"

#include <canyonsieve.h>

/* A cause of a refusal at a line: puts the words, and says whether it found any. */
typedef int cause_of_line(struct text *message, const struct records *records, size_t place);

static void put_line(struct text *message, uint64_t line)
{
    put(message, "line ");
    put_digits(message, line, 1);
    put(message, ": ");
}

/* The words for a refusal at a record; whether there are any. */
static int put_cause(struct text *message, const struct records *records, size_t place, uint64_t refusal)
{
    static cause_of_line *const causes[] = {
        [CANYONSIEVE_ORDER] = order_cause,
        [CANYONSIEVE_DATES] = member_cause,
        [CANYONSIEVE_YEAR] = year_cause,
        [CANYONSIEVE_POST] = post_cause,
        [CANYONSIEVE_SECOND_WHOLE_TIME] = whole_time_cause,
        [CANYONSIEVE_FINAL_PAY] = limit_cause,
        [CANYONSIEVE_FACTOR] = factor_cause,
        [CANYONSIEVE_DEBIT] = debit_cause,
        [CANYONSIEVE_TEN_PAYS] = limit_cause,
    };

    if (refusal >= sizeof causes / sizeof causes[0] || causes[refusal] == NULL)
        return 0;
    return causes[refusal](message, records, place);
}

/* The words for a refusal of the whole case; whether there are any. */
static int put_whole_cause(struct text *message, const struct records *records, struct refused refused)
{
    switch (refused.refusal) {
    case CANYONSIEVE_TEXT_LENGTH:
        if (refused.from_words)
            put(message, "the text would be longer than 32,768 bytes");
        return refused.from_words;
    case CANYONSIEVE_ORDER:
        put(message, "no member line");
        return 1;
    case CANYONSIEVE_NO_FINAL_PAY:
        return no_pays_cause(message, records);
    case CANYONSIEVE_NO_FACTOR:
        return no_factor_cause(message, records);
    case CANYONSIEVE_DEBIT_ABOVE:
        return debit_above_cause(message, records, refused.text);
    default:
        return 0;
    }
}

void put_refusal(struct text *message, const struct records *records, struct refused refused)
{
    int found = 0;

    if (refused.line == 0) {
        found = put_whole_cause(message, records, refused);
    } else if (refused.line <= records->count) {
        put_line(message, records->list[refused.line - 1].line);
        found = put_cause(message, records, (size_t)refused.line - 1, refused.refusal);
    } else {
        put_line(message, refused.line);
    }
    if (!found)
        put(message, canyonsieve_refusal_words(refused.refusal));
    put(message, " (refusal ");
    put_digits(message, refused.refusal, 1);
    put(message, ")");
}

int put_large_factor(struct text *message, const struct records *records)
{
    const struct field *fields = NULL;

    (void)fields_of(DEBIT, &fields);
    for (size_t i = 0; i < records->count; i++) {
        const struct record *record = &records->list[i];
        if (record->kind != DEBIT || record->number[POT_FACTOR] <= largest_of(fields[POT_FACTOR].width))
            continue;
        put_line(message, record->line);
        put(message, "a debit factor of ");
        put_own(message, record, POT_FACTOR);
        put(message, " is more than ");
        put_number(message, HUNDREDTHS, largest_of(fields[POT_FACTOR].width));
        put(message, ", the largest that a frame can say");
        return 1;
    }
    return 0;
}
