/* interpreter.h - cycles of an image as a C programmer would write them: no check, no proof.
 *
 * It trusts the image, the store, the record and the stimulus, so it is no simulator to rely on. It is what
 * the proved module's speed is held against. Store and record are those of docs/STORE.md and RECORD.md.
 */
#ifndef INTERPRETER_H
#define INTERPRETER_H

#include <stddef.h>
#include <stdint.h>

struct interpreter;

/* Takes memory for an image that reading wrote; NULL where there is none. */
struct interpreter *interpreter_new(const uint8_t *image);
void interpreter_free(struct interpreter *self);

/* One cycle: 0, or the stop that left store and record as they were. Adds to the conflict count. */
uint32_t interpreter_cycle(struct interpreter *self, uint8_t *store, uint8_t *record, const uint8_t *stimulus,
                           uint64_t *conflicts);

#endif
