"""A bench in Python: loads the shared library and runs the worked example of document 01.

    tools/shared
    python3 bench/python/swap.py target/shared/libddlp.so
"""

import sys
from ctypes import CDLL, Structure, c_size_t, c_uint32, create_string_buffer

VERSION = 1
ACCEPTED = 0

TEXT = b"""REGISTER A[4], B[4].
TERMINAL GO = INPUT(1,GO).
OPERATION SWAP = [A <- B, B <- A],
  LOAD = [A = 4D9, B <- (A (+) 4D3) TAIL 4].
CONTROL P: IF GO THEN SWAP ENDIF/ Q: LOAD, ->P/ .
"""
STIMULI = [b"\1", b"\0", b"\1"]


def answer(fields):
    """An answer of numbers of 32 bits, in the header's order."""
    return type("Answer", (Structure,), {"_fields_": [(field, c_uint32) for field in fields.split()]})


ANSWERS = {
    "ddlp_read": answer("refusal place length"),
    "ddlp_open": c_uint32,
    "ddlp_cycle": answer("refusal stop conflicts"),
    "ddlp_facility_name": answer("refusal offset length"),
    "ddlp_state_name": answer("refusal offset length"),
    "ddlp_facility": answer("refusal kind dimensions words_first words_last bits_first bits_last stored place"),
}


def load(path):
    module = CDLL(path)
    if module.ddlp_version() != VERSION:
        sys.exit(f"{path} has version {module.ddlp_version()}")
    for call, kind in ANSWERS.items():
        getattr(module, call).restype = kind
    return module


def lent(*parts):
    """Each part as a pointer and a length; b"" is a pointer too, and None would be NULL, which no call takes."""
    return [argument for part in parts for argument in (part, c_size_t(len(part)))]


def read(module):
    image = create_string_buffer(module.ddlp_largest_image())
    read = module.ddlp_read(*lent(TEXT, image))
    if read.refusal != ACCEPTED:
        sys.exit(f"refused {read.refusal} at byte {read.place}")
    return image.raw[: read.length]


def name(image, answer):
    return image[answer.offset : answer.offset + answer.length].decode()


def facilities(module, image):
    """Names and declarations; the first number beyond them is refused."""
    for number in range(module.ddlp_most_facilities()):
        facility = module.ddlp_facility(*lent(image), c_uint32(number))
        if facility.refusal != ACCEPTED:
            return
        yield name(image, module.ddlp_facility_name(*lent(image), c_uint32(number))), facility


def bits(facility, store):
    length = abs(facility.bits_first - facility.bits_last) + 1
    word = store[facility.place : facility.place + (length + 7) // 8]
    return format(int.from_bytes(word, "big"), f"0{length}b")


def main():
    module = load(sys.argv[1])
    image = read(module)
    declared = list(facilities(module, image))
    store = create_string_buffer(module.ddlp_largest_store())
    record = create_string_buffer(module.ddlp_record_size())
    scratch = create_string_buffer(module.ddlp_scratch_stores() * len(store))
    module.ddlp_open(*lent(image, store, record))
    for cycle, stimulus in enumerate(STIMULI, 1):
        state = int.from_bytes(record[4:8], "little")
        label = name(image, module.ddlp_state_name(*lent(image), c_uint32(state)))
        done = module.ddlp_cycle(*lent(image, store, record, stimulus, scratch))
        if (done.refusal, done.stop) != (0, 0):
            sys.exit(f"cycle {cycle}: refused {done.refusal}, stop {done.stop}")
        print(cycle, label, *(f"{register}={bits(facility, store)}" for register, facility in declared))
    print("end", len(STIMULI))


main()
