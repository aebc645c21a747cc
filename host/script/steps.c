#include "steps.h"

#include "announcement.h"
#include "application.h"
#include "values.h"

#define FIELD_MOST 65535

// As wide as 64 bits hold, so that the refusal of a limit can be seen.
static const struct value limit_value = {"limit", "AMOUNT in eurocents", 20};

static void hold_codes(struct bytes *held, const struct line *line)
{
    for (size_t i = 1; i < line->count; i++) {
        uint8_t code[CODE_DIGITS];
        put_digits(code, line, &line->words[i], &code_value);
        bytes_add(held, code, sizeof code);
    }
}

static void hold_message(struct bytes *held, const struct line *line)
{
    add_clock(held, line, "receive DATE TIME BYTES ..");
    add_raw(held, line, 3);
}

static void hold_clock(struct bytes *held, const struct line *line)
{
    static const char form[] = "close DATE TIME";
    add_clock(held, line, form);
    expect_end(line, 3, form);
}

static void hold_nothing(struct bytes *held, const struct line *line)
{
    (void)held;
    if (line->count > 1)
        refuse(line, "word '%s' is one too many: %s stands alone", shown(&line->words[1]).text,
            shown(&line->words[0]).text);
}

// A step whose tag is fixed: its name, its tag and what its field holds.
struct named_step {
    const char *name;
    uint8_t tag;
    void (*hold)(struct bytes *held, const struct line *line);
};

static const struct named_step steps[] = {
    {"admit", 0xa0, hold_codes},
    {"announce", 0xa1, add_announcement},
    {"apply", 0xa2, add_application},
    {"receive", 0xa2, hold_message},
    {"close", 0xa3, hold_clock},
    {"revoke", 0xa4, hold_nothing},
    {"allot", 0xa5, hold_nothing},
};

// The bytes of a line `raw BYTES ..` as they are.
static struct step raw_step(const struct line *line)
{
    struct step step = {.kind = STEP_RAW};
    expect_words(line, 2, "raw BYTES ..");
    add_raw(&step.held, line, 1);
    return step;
}

// The limits of a line `limits AMOUNT ..`.
static struct step limits_step(const struct line *line)
{
    struct step step = {.kind = STEP_LIMITS};
    for (size_t i = 1; i < line->count; i++) {
        uint64_t limit = number_of(line, &line->words[i], &limit_value);
        bytes_add(&step.held, &limit, sizeof limit);
    }
    return step;
}

// The preview of a line `preview`.
static struct step preview_step(const struct line *line)
{
    struct step step = {.kind = STEP_PREVIEW};
    hold_nothing(&step.held, line);
    return step;
}

// The field of a line `field TAG BYTES ..`.
static struct step any_field(const struct line *line)
{
    expect_words(line, 2, "field TAG BYTES ..");
    struct step step = {.tag = tag_of(line, &line->words[1])};
    add_raw(&step.held, line, 2);
    return step;
}

static _Noreturn void refuse_step(const struct line *line)
{
    struct bytes names = {0};
    for (size_t k = 0; k < sizeof steps / sizeof *steps; k++)
        bytes_add_name(&names, steps[k].name);
    bytes_add_name(&names, "preview");
    bytes_add_name(&names, "limits");
    bytes_add_name(&names, "field");
    bytes_add_name(&names, "raw");
    refuse(line, "step '%s' is not known; steps are %.*s", shown(&line->words[0]).text, (int)names.length,
        (const char *)names.at);
}

static struct step step_by_name(const struct line *line)
{
    for (size_t k = 0; k < sizeof steps / sizeof *steps; k++) {
        if (word_is(&line->words[0], steps[k].name)) {
            struct step step = {.tag = steps[k].tag};
            steps[k].hold(&step.held, line);
            return step;
        }
    }
    refuse_step(line);
}

struct step step_of(const struct line *line)
{
    if (word_is(&line->words[0], "raw"))
        return raw_step(line);
    if (word_is(&line->words[0], "limits"))
        return limits_step(line);
    if (word_is(&line->words[0], "preview"))
        return preview_step(line);
    struct step step = word_is(&line->words[0], "field") ? any_field(line) : step_by_name(line);
    if (step.held.length > FIELD_MOST)
        refuse(line, "the field would hold %zu bytes: expected at most %d", step.held.length, FIELD_MOST);
    return step;
}
