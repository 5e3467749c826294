/* A bench in C that loads the shared library: counts some cycles and shows the counter.
 *
 *     load LIBRARY
 *
 * Ends with status 0 where the counter is right, 1 where it is not, 2 where the library is not the header's.
 *
 *     tools/shared
 *     gcc -I include -o target/load bench/c/load.c
 *     target/load target/shared/libddlp.so
 */
#include "ddlp.h"

#include <dlfcn.h>
#include <stdio.h>
#include <stdlib.h>
#include <string.h>

enum { RIGHT = 0, WRONG = 1, ANOTHER_LIBRARY = 2, CYCLES = 9 };

static const uint8_t text[] = "REGISTER A[4]. OPERATION O = [A <- (A (+) 4D1) TAIL 4]. CONTROL P: O, ->P/.";

/* The calls, with the types that the header gives them. */
static struct {
    __typeof__(ddlp_read) *read;
    __typeof__(ddlp_open) *open;
    __typeof__(ddlp_run) *run;
    __typeof__(ddlp_facility) *facility;
} module;

static const struct {
    const char *name;
    uint32_t number;
} sizes[] = {
    {"ddlp_version", DDLP_VERSION},
    {"ddlp_largest_text", DDLP_LARGEST_TEXT},
    {"ddlp_largest_image", DDLP_LARGEST_IMAGE},
    {"ddlp_largest_store", DDLP_LARGEST_STORE},
    {"ddlp_record_size", DDLP_RECORD_SIZE},
    {"ddlp_scratch_stores", DDLP_SCRATCH_STORES},
    {"ddlp_most_facilities", DDLP_MOST_FACILITIES},
    {"ddlp_most_states", DDLP_MOST_STATES},
    {"ddlp_most_returns", DDLP_MOST_RETURNS},
    {"ddlp_stack_most", DDLP_STACK_MOST},
    {"ddlp_stack_read", DDLP_STACK_READ},
    {"ddlp_stack_text", DDLP_STACK_TEXT},
    {"ddlp_stack_small", DDLP_STACK_SMALL},
    {"ddlp_small_records", DDLP_SMALL_RECORDS},
};

/* The function's address is copied: ISO C converts no pointer to an object into one to a function. */
static void find(void *library, const char *name, void *function)
{
    void *found = dlsym(library, name);
    if (found == NULL) {
        fprintf(stderr, "load: %s\n", dlerror());
        exit(ANOTHER_LIBRARY);
    }
    memcpy(function, &found, sizeof found);
}

static void find_calls(void *library)
{
    find(library, "ddlp_read", &module.read);
    find(library, "ddlp_open", &module.open);
    find(library, "ddlp_run", &module.run);
    find(library, "ddlp_facility", &module.facility);
}

static void compare_sizes(void *library)
{
    for (size_t i = 0; i < sizeof sizes / sizeof sizes[0]; i++) {
        uint32_t (*size)(void);
        find(library, sizes[i].name, &size);
        if (size() == sizes[i].number)
            continue;
        fprintf(stderr, "load: %s is %u and not %u\n", sizes[i].name, size(), sizes[i].number);
        exit(ANOTHER_LIBRARY);
    }
}

/* The description has no inputs, and no trace is asked for. */
static int count(void)
{
    static uint8_t image[DDLP_LARGEST_IMAGE], store[DDLP_LARGEST_STORE], record[DDLP_RECORD_SIZE];
    static uint8_t scratch[DDLP_SCRATCH_STORES * DDLP_LARGEST_STORE];
    struct ddlp_read_answer read = module.read(text, sizeof text - 1, image, sizeof image);
    module.open(image, read.length, store, sizeof store, record, sizeof record);
    struct ddlp_run_answer run =
        module.run(image, read.length, store, sizeof store, record, sizeof record, DDLP_NOTHING, 0, CYCLES, scratch,
                   sizeof scratch, DDLP_NOTHING, 0);
    uint8_t counter = store[module.facility(image, read.length, 0).place];
    printf("%u cycles, A is %u\n", (unsigned)run.cycles, counter);
    return run.cycles == CYCLES && counter == CYCLES ? RIGHT : WRONG;
}

int main(int argument_count, char **arguments)
{
    if (argument_count != 2) {
        fprintf(stderr, "usage: load LIBRARY\n");
        return ANOTHER_LIBRARY;
    }
    void *library = dlopen(arguments[1], RTLD_NOW);
    if (library == NULL) {
        fprintf(stderr, "load: %s\n", dlerror());
        return ANOTHER_LIBRARY;
    }
    find_calls(library);
    compare_sizes(library);
    int status = count();
    dlclose(library);
    return status;
}
