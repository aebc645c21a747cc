// The steps of a script, one on a line. host/script/LANGUAGE.txt, which ./session-log --help shows, describes them.
#ifndef SCRIPT_STEPS_H
#define SCRIPT_STEPS_H

#include <stdint.h>

#include "bytes.h"
#include "line.h"

// What a step comes to: a field of this tag that holds these bytes, at most 65,535 of them; bytes that are no
// field; credit limits, which no session has and which are held as one uint64_t each; or a preview, which no
// session has either and which holds nothing.
enum step_kind { STEP_FIELD, STEP_RAW, STEP_LIMITS, STEP_PREVIEW };
struct step {
    enum step_kind kind;
    uint8_t tag;
    struct bytes held;
};

// The step of a line that has words.
struct step step_of(const struct line *line);

#endif
