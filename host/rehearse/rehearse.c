// Goes through a script step by step and shows what each call gives: the reply and its errors, the awards,
// the refusal in words, and where the tender then stands. host/script/LANGUAGE.txt describes the steps.
//
// rehearse [SCRIPT] reads the script, or standard input. A script that it cannot take, or with a step that
// makes no call, gives an error with its name and the number of the line, status 2 and nothing else.
#include <errno.h>
#include <stdio.h>
#include <stdlib.h>
#include <string.h>

#include "bytes.h"
#include "calls.h"
#include "program.h"
#include "script.h"

const char program[] = "rehearse";

// A longer line is shown up to here.
#define SHOWN 96

// A step, and its line as it is shown.
struct scene {
    size_t number;
    struct bytes shown;
    struct step step;
};

struct scenes {
    struct scene *at;
    size_t count;
    size_t room;
};

// The words of the line with one blank between them, and their quotes.
static struct bytes shown_line(const struct line *line)
{
    struct bytes shown = {0};
    for (size_t k = 0; k < line->count; k++) {
        const char *quote = line->words[k].quoted ? "\"" : "";
        bytes_add(&shown, " ", k > 0);
        bytes_add(&shown, quote, strlen(quote));
        bytes_add(&shown, line->words[k].text, line->words[k].length);
        bytes_add(&shown, quote, strlen(quote));
    }
    return shown;
}

// The whole script is read before the first call, so that a mistake in it is seen before anything is shown.
static void add_scene(const struct line *line, void *into)
{
    struct scenes *scenes = into;
    struct step step = step_of(line);
    expect_call(line, &step);
    scenes->at = grown(scenes->at, scenes->count, &scenes->room, sizeof *scenes->at);
    scenes->at[scenes->count++] = (struct scene){line->number, shown_line(line), step};
}

static void show_line(const struct scene *scene)
{
    printf("line %zu: ", scene->number);
    for (size_t i = 0; i < scene->shown.length && i < SHOWN; i++) {
        uint8_t c = scene->shown.at[i];
        putchar(c >= ' ' && c <= '~' ? c : '?');
    }
    puts(scene->shown.length > SHOWN ? " .." : "");
}

static void play(struct scenes *scenes)
{
    struct rehearsal rehearsal = {0};
    for (size_t k = 0; k < scenes->count; k++) {
        if (k > 0)
            putchar('\n');
        show_line(&scenes->at[k]);
        make_call(&rehearsal, &scenes->at[k].step);
        bytes_free(&scenes->at[k].shown);
        bytes_free(&scenes->at[k].step.held);
    }
    free(rehearsal.codes);
    bytes_free(&rehearsal.limits);
    free(scenes->at);
}

int main(int argc, char **argv)
{
    struct scenes scenes = {0};
    if (argc > 2)
        script_fail(argv[2], "rehearse takes one script");
    struct script script = script_read(argc == 2 ? argv[1] : NULL);
    script_lines(&script, add_scene, &scenes);
    play(&scenes);
    bytes_free(&script.bytes);
    if (fflush(stdout) != 0 || ferror(stdout))
        script_fail("standard output", strerror(errno));
    return 0;
}
