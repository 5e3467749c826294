/* The numbers of ddlp.h as functions of the shared library (tools/shared), for languages that read no header. */
#include "ddlp.h"

uint32_t ddlp_version(void) { return DDLP_VERSION; }
uint32_t ddlp_largest_text(void) { return DDLP_LARGEST_TEXT; }
uint32_t ddlp_largest_image(void) { return DDLP_LARGEST_IMAGE; }
uint32_t ddlp_largest_store(void) { return DDLP_LARGEST_STORE; }
uint32_t ddlp_record_size(void) { return DDLP_RECORD_SIZE; }
uint32_t ddlp_scratch_stores(void) { return DDLP_SCRATCH_STORES; }
uint32_t ddlp_most_facilities(void) { return DDLP_MOST_FACILITIES; }
uint32_t ddlp_most_states(void) { return DDLP_MOST_STATES; }
uint32_t ddlp_most_returns(void) { return DDLP_MOST_RETURNS; }
uint32_t ddlp_stack_most(void) { return DDLP_STACK_MOST; }
uint32_t ddlp_stack_read(void) { return DDLP_STACK_READ; }
uint32_t ddlp_stack_text(void) { return DDLP_STACK_TEXT; }
uint32_t ddlp_stack_small(void) { return DDLP_STACK_SMALL; }
uint32_t ddlp_small_records(void) { return DDLP_SMALL_RECORDS; }
