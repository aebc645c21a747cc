#include "script.h"

#include <errno.h>
#include <stdio.h>
#include <stdlib.h>
#include <string.h>

#include "program.h"

#define CHUNK 65536
#define UTF8_MARK "\xef\xbb\xbf"

void script_fail(const char *name, const char *wrong)
{
    fprintf(stderr, "%s: %s: %s\n", program, name, wrong);
    exit(2);
}

static void read_file(struct script *script, FILE *file)
{
    static uint8_t chunk[CHUNK];
    size_t n = fread(chunk, 1, CHUNK, file);
    while (n > 0) {
        bytes_add(&script->bytes, chunk, n);
        n = fread(chunk, 1, CHUNK, file);
    }
    if (ferror(file))
        script_fail(script->name, strerror(errno));
}

struct script script_read(const char *name)
{
    struct script script = {.name = name == NULL ? "standard input" : name};
    FILE *file = name == NULL ? stdin : fopen(name, "rb");
    if (file == NULL)
        script_fail(name, strerror(errno));
    read_file(&script, file);
    if (file != stdin)
        fclose(file);
    return script;
}

static bool starts_with(const struct bytes *bytes, const char *mark)
{
    return bytes->length >= strlen(mark) && memcmp(bytes->at, mark, strlen(mark)) == 0;
}

// Where the text of the script starts.
static size_t text_start(const struct script *script)
{
    if (starts_with(&script->bytes, "\xff\xfe") || starts_with(&script->bytes, "\xfe\xff"))
        script_fail(script->name, "the script is in UTF-16: save it as UTF-8");
    return starts_with(&script->bytes, UTF8_MARK) ? strlen(UTF8_MARK) : 0;
}

void script_lines(const struct script *script, take_line *take, void *into)
{
    struct line line = {.script = script->name};
    if (script->bytes.length == 0) // No memory was taken then that text could point to.
        return;
    size_t start = text_start(script);
    const char *text = (const char *)script->bytes.at + start;
    size_t left = script->bytes.length - start;
    while (left > 0) {
        const char *end = memchr(text, '\n', left);
        size_t length = end == NULL ? left : (size_t)(end - text);
        line.number++;
        line_split(&line, text, length);
        if (line.count > 0)
            take(&line, into);
        size_t taken = end == NULL ? length : length + 1;
        text += taken;
        left -= taken;
    }
    line_free(&line);
}
