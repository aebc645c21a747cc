// Turns a script of steps into the binary session that the session log reads. host/script/LANGUAGE.txt describes
// the steps.
//
// compose [SCRIPT] reads the script, or standard input, and writes the session to standard output. A
// script that it cannot take gives an error with its name and the number of the line, status 2 and no session.
// compose --help says how to call it.
#include <errno.h>
#include <stdio.h>
#include <string.h>

#include "bytes.h"
#include "program.h"
#include "script.h"
#include "steps.h"

const char program[] = "compose";

// Adds the field of a line's step to the session, or its raw bytes. A preview changes nothing and has no line in the
// log, so that it is left out.
static void add_step(const struct line *line, void *into)
{
    struct bytes *session = into;
    struct step step = step_of(line);
    if (step.kind == STEP_LIMITS)
        refuse(line, "limits stand in no session, and nobody is capped in its log: expected another step, or "
            "./rehearse for the script");
    if (step.kind == STEP_PREVIEW)
        return;
    if (step.kind == STEP_FIELD) {
        bytes_add_one(session, step.tag);
        bytes_add_one(session, (uint8_t)(step.held.length >> 8));
        bytes_add_one(session, (uint8_t)(step.held.length & 0xff));
    }
    bytes_add(session, step.held.at, step.held.length);
    bytes_free(&step.held);
}

// A script of this name is given as ./--help.
static bool asks_help(int argc, char **argv)
{
    return argc == 2 && (strcmp(argv[1], "--help") == 0 || strcmp(argv[1], "-h") == 0);
}

static void add_help(struct bytes *output)
{
    static const char help[] =
        "compose [SCRIPT]   turn a script of steps, or standard input, into a session in binary form\n"
        "\n"
        "./session-log --help shows the steps.\n";
    bytes_add(output, help, strlen(help));
}

static void add_session(struct bytes *output, const char *name)
{
    struct script script = script_read(name);
    script_lines(&script, add_step, output);
    bytes_free(&script.bytes);
}

int main(int argc, char **argv)
{
    struct bytes output = {0};
    if (argc > 2)
        script_fail(argv[2], "compose takes one script");
    if (asks_help(argc, argv))
        add_help(&output);
    else
        add_session(&output, argc == 2 ? argv[1] : NULL);
    size_t written = output.length == 0 ? 0 : fwrite(output.at, 1, output.length, stdout);
    if (written != output.length || fflush(stdout) != 0)
        script_fail("standard output", strerror(errno));
    bytes_free(&output);
    return 0;
}
