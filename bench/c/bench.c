/* A bench in C: runs a description cycle by cycle and compares its registers with those of a real board.
 *
 *     bench DESCRIPTION CASES
 *
 * DESCRIPTION is a DDL-P text. CASES has a line for each cycle: inputs before the bar, what the board showed
 * after the cycle behind it. Bits are written as declared, the most significant first.
 *
 *     # a remark
 *     set M[3]=00001111            a word put into the store before the next cycle
 *     GO=1 N=101 | A=0000 M[3]=00001111
 *     | A=01--                     inputs left out are zero; - stands for a bit that is not compared
 *
 * Ends with status 0 where all cycles agree, 1 at the first difference, stop or refusal, 2 for a file at fault.
 *
 *     gcc -I include -o target/bench-c bench/c/bench.c target/staticlib/libddlp.a
 */
#include "ddlp.h"

#include <ctype.h>
#include <stdio.h>
#include <stdlib.h>
#include <string.h>

enum { AGREES = 0, DIFFERS = 1, FILE_AT_FAULT = 2, LINE = 4096 };

static const char *const refusals[] = {
    [DDLP_TEXT_TOO_LONG] = "the text is too long",
    [DDLP_CHARACTER_OR_LINE] = "a character is not allowed, or a line is too long",
    [DDLP_GRAMMAR] = "no legal text goes on with this word",
    [DDLP_NAME] = "a name is unknown here, of the wrong kind, declared twice, or too long",
    [DDLP_CONSTANT] = "a constant is wrong",
    [DDLP_SUBSCRIPT] = "subscripts are wrong",
    [DDLP_LENGTH] = "lengths do not fit",
    [DDLP_STORE_KIND] = "a facility does not take this store",
    [DDLP_SEQUENCING] = "the sequencing register or a state's value is wrong",
    [DDLP_CEILING] = "a ceiling is passed",
    [DDLP_BUFFER_TOO_SHORT] = "a buffer is too short",
    [DDLP_IMAGE] = "the image does not pass",
    [DDLP_UNSOUND] = "store or record is unsound",
    [DDLP_STIMULUS] = "the stimulus is wrong",
};

static const char *const stops[] = {
    [DDLP_STOP_SUBSCRIPT] = "a computed subscript lies outside its bounds",
    [DDLP_STOP_TWO_NEXT_STATES] = "two plain next states, or two calls",
    [DDLP_STOP_NO_STATE_BEARS] = "the sequencing register got a value that no state bears",
    [DDLP_STOP_NOTHING_TO_RETURN] = "RETURN with no return held",
    [DDLP_STOP_TOO_MANY_CALLS] = "a call with 16 returns held",
    [DDLP_STOP_NO_STATE_BELOW] = "no state stands below",
    [DDLP_STOP_LAST_CYCLE] = "the cycle number is at its end",
};

/* A facility as the lookups tell of it. */
struct facility {
    struct ddlp_facility_answer declared;
    struct ddlp_name_answer name;
    size_t before; /* the bytes of the input terminals before it, in a stimulus */
};

/* A run and all that it is lent. */
struct board {
    uint8_t image[DDLP_LARGEST_IMAGE];
    size_t image_length;
    struct facility facilities[DDLP_MOST_FACILITIES];
    unsigned facility_count;
    uint8_t store[DDLP_LARGEST_STORE];
    uint8_t record[DDLP_RECORD_SIZE];
    uint8_t scratch[DDLP_SCRATCH_STORES * DDLP_LARGEST_STORE];
    uint8_t stimulus[DDLP_LARGEST_STORE];
    size_t stimulus_length;
};

/* A word in the store, or of an input terminal in the stimulus. */
struct word {
    uint8_t *bytes;
    size_t bits;
};

static struct board board;

/* ---- Words. */

static size_t span(uint32_t first, uint32_t last)
{
    return (first < last ? last - first : first - last) + 1;
}

static size_t word_bits(const struct ddlp_facility_answer *f)
{
    return f->dimensions == 0 ? 1 : span(f->bits_first, f->bits_last);
}

static size_t word_bytes(const struct ddlp_facility_answer *f)
{
    return (word_bits(f) + 7) / 8;
}

/* The weight of a bit counts from the word's last one. */
static int get_bit(struct word word, size_t weight)
{
    size_t bytes = (word.bits + 7) / 8;
    return word.bytes[bytes - 1 - weight / 8] >> (weight % 8) & 1;
}

static void put_bit(struct word word, size_t weight, int bit)
{
    uint8_t *byte = &word.bytes[(word.bits + 7) / 8 - 1 - weight / 8];
    *byte = (uint8_t)((*byte & ~(1 << (weight % 8))) | bit << (weight % 8));
}

/* ---- Facilities by name. */

/* Every lookup checks the whole image, so each is made once. */
static void look_up(void)
{
    size_t before = 0;
    for (unsigned number = 0; number < DDLP_MOST_FACILITIES; number++) {
        struct facility *f = &board.facilities[number];
        f->declared = ddlp_facility(board.image, board.image_length, number);
        if (f->declared.refusal != DDLP_ACCEPTED)
            break;
        f->name = ddlp_facility_name(board.image, board.image_length, number);
        f->before = before;
        if (f->declared.kind == DDLP_INPUT_TERMINAL)
            before += word_bytes(&f->declared);
        board.facility_count++;
    }
    board.stimulus_length = before;
}

static int is_named(const struct facility *f, const char *name, size_t length)
{
    if (f->name.length != length)
        return 0;
    for (size_t i = 0; i < length; i++)
        if (toupper((unsigned char)name[i]) != board.image[f->name.offset + i])
            return 0;
    return 1;
}

static const struct facility *find(const char *name, size_t length)
{
    for (unsigned number = 0; number < board.facility_count; number++)
        if (is_named(&board.facilities[number], name, length))
            return &board.facilities[number];
    return NULL;
}

/* How far a subscript is from the first bound; -1 outside the bounds. */
static long position(const struct ddlp_facility_answer *f, long subscript)
{
    long first = f->words_first, last = f->words_last;
    if (first <= last)
        return subscript < first || subscript > last ? -1 : subscript - first;
    return subscript > first || subscript < last ? -1 : first - subscript;
}

/* The word that NAME or NAME[n] means, in the store or as an input. 1 if there is one. */
static int find_word(const char *name, int as_input, struct word *word)
{
    size_t length = strcspn(name, "[=");
    const struct facility *f = find(name, length);
    long at = 0;
    if (f == NULL || !f->declared.stored || (as_input && f->declared.kind != DDLP_INPUT_TERMINAL))
        return 0;
    if ((f->declared.dimensions == 2) != (name[length] == '['))
        return 0;
    if (f->declared.dimensions == 2) {
        char *end;
        at = position(&f->declared, strtol(name + length + 1, &end, 10));
        if (at < 0 || strncmp(end, "]=", 2) != 0)
            return 0;
    }
    word->bits = word_bits(&f->declared);
    word->bytes = as_input ? board.stimulus + f->before
                           : board.store + f->declared.place + (size_t)at * word_bytes(&f->declared);
    return 1;
}

/* ---- Lines of the cases. */

struct line {
    unsigned number; /* in the file */
    unsigned cycle;
};

static int at_fault(struct line line, const char *what, const char *item)
{
    fprintf(stderr, "bench: line %u: %s: %s\n", line.number, item, what);
    return FILE_AT_FAULT;
}

/* Splits NAME=bits; the bits are as many as the word has, of the characters allowed. */
static int take(struct line line, const char *item, int as_input, const char *allowed, struct word *word,
                const char **bits)
{
    *bits = strchr(item, '=');
    if (*bits == NULL)
        return at_fault(line, "is not NAME=bits", item);
    ++*bits;
    if (!find_word(item, as_input, word))
        return at_fault(line, as_input ? "no such input terminal" : "no such word", item);
    if (strlen(*bits) != word->bits || strspn(*bits, allowed) != word->bits)
        return at_fault(line, "not as many bits as it has", item);
    return AGREES;
}

static int put(struct line line, const char *item, int as_input)
{
    struct word word;
    const char *bits;
    int status = take(line, item, as_input, "01", &word, &bits);
    for (size_t i = 0; status == AGREES && i < word.bits; i++)
        put_bit(word, word.bits - 1 - i, bits[i] == '1');
    return status;
}

static int compare(struct line line, const char *item)
{
    struct word word;
    const char *bits;
    int status = take(line, item, 0, "01-", &word, &bits);
    for (size_t i = 0; status == AGREES && i < word.bits; i++)
        if (bits[i] != '-' && (bits[i] == '1') != get_bit(word, word.bits - 1 - i))
            status = DIFFERS;
    if (status != DIFFERS)
        return status;
    printf("line %u, cycle %u: %.*s is ", line.number, line.cycle, (int)strcspn(item, "="), item);
    for (size_t i = word.bits; i > 0; i--)
        putchar('0' + get_bit(word, i - 1));
    printf(" and not %s\n", bits);
    return DIFFERS;
}

static int carry_out(struct line line, unsigned *conflicts)
{
    struct ddlp_cycle_answer answer =
        ddlp_cycle(board.image, board.image_length, board.store, sizeof board.store, board.record,
                   sizeof board.record, board.stimulus, board.stimulus_length, board.scratch, sizeof board.scratch);
    *conflicts += answer.conflicts;
    if (answer.refusal != DDLP_ACCEPTED)
        printf("line %u, cycle %u: refused %u: %s\n", line.number, line.cycle, answer.refusal, refusals[answer.refusal]);
    else if (answer.stop != DDLP_COMPLETED)
        printf("line %u, cycle %u: stop %u: %s\n", line.number, line.cycle, answer.stop, stops[answer.stop]);
    else
        return AGREES;
    return DIFFERS;
}

static int set_words(struct line line, char *items)
{
    int status = AGREES;
    for (char *item = strtok(items, " \t"); item != NULL && status == AGREES; item = strtok(NULL, " \t"))
        status = put(line, item, 0);
    return status;
}

static int one_cycle(struct line line, char *text, unsigned *conflicts)
{
    char *item = strtok(text, " \t");
    int status = AGREES;
    memset(board.stimulus, 0, board.stimulus_length);
    for (; item != NULL && strcmp(item, "|") != 0 && status == AGREES; item = strtok(NULL, " \t"))
        status = put(line, item, 1);
    if (status == AGREES)
        status = carry_out(line, conflicts);
    while (status == AGREES && item != NULL && (item = strtok(NULL, " \t")) != NULL)
        status = compare(line, item);
    return status;
}

/* ---- Files. */

static int run_cases(FILE *cases)
{
    char text[LINE];
    struct line line = {0, 0};
    unsigned conflicts = 0;
    int status = AGREES;
    while (status == AGREES && fgets(text, sizeof text, cases) != NULL) {
        line.number++;
        if (strchr(text, '\n') == NULL && !feof(cases))
            return at_fault(line, "is too long", "line");
        text[strcspn(text, "\r\n")] = '\0';
        char *start = text + strspn(text, " \t");
        if (*start == '\0' || *start == '#')
            continue;
        if (strncmp(start, "set ", 4) == 0) {
            status = set_words(line, start + 4);
            continue;
        }
        line.cycle++;
        status = one_cycle(line, start, &conflicts);
    }
    if (status == AGREES)
        printf("%u cycles agree, %u conflicts\n", line.cycle, conflicts);
    return status;
}

static int read_description(const char *path)
{
    static uint8_t text[DDLP_LARGEST_TEXT + 1];
    FILE *file = fopen(path, "rb");
    if (file == NULL) {
        perror(path);
        return FILE_AT_FAULT;
    }
    size_t length = fread(text, 1, sizeof text, file);
    fclose(file);
    struct ddlp_read_answer answer = ddlp_read(text, length, board.image, sizeof board.image);
    if (answer.refusal != DDLP_ACCEPTED) {
        printf("%s: refused %u at byte %u: %s\n", path, answer.refusal, answer.place, refusals[answer.refusal]);
        return FILE_AT_FAULT;
    }
    board.image_length = answer.length;
    return AGREES;
}

int main(int count, char **arguments)
{
    if (count != 3) {
        fprintf(stderr, "usage: bench DESCRIPTION CASES\n");
        return FILE_AT_FAULT;
    }
    int status = read_description(arguments[1]);
    if (status != AGREES)
        return status;
    look_up();
    ddlp_open(board.image, board.image_length, board.store, sizeof board.store, board.record, sizeof board.record);
    FILE *cases = fopen(arguments[2], "r");
    if (cases == NULL) {
        perror(arguments[2]);
        return FILE_AT_FAULT;
    }
    status = run_cases(cases);
    fclose(cases);
    return status;
}
