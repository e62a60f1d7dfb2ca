/* Bundles two modules, from source texts and from a document, and prints the answers and those of errors:
 *
 *     cc example.c libgutsirava_c.a liblibc_c.a -o example && ./example */
#include "gutsirava.h"

#include <stdio.h>
#include <stdlib.h>
#include <string.h>

typedef uint32_t call(const uint8_t *, size_t, uint8_t *, size_t, size_t *);

/* Prints what a call answers to a text: it is made again where there was no room. */
static void tell(call *function, const char *text) {
    const uint8_t *input = (const uint8_t *)text;
    uint8_t *output = NULL;
    size_t room = 0, length = 0;
    uint32_t status = GUTSIRAVA_NO_ROOM;
    while (status == GUTSIRAVA_NO_ROOM) {
        output = realloc(output, room + 1);
        if (output == NULL) abort();
        status = function(input, strlen(text), output, room, &length);
        room = length;
    }
    printf("%u %.*s", (unsigned)status, (int)length, (const char *)output);
    free(output);
}

/* The tree of a source text, in JSON. */
static char *form_of(const char *source) {
    char *form = NULL;
    size_t room = 0, length = 0;
    uint32_t status = GUTSIRAVA_NO_ROOM;
    while (status == GUTSIRAVA_NO_ROOM) {
        form = realloc(form, room + 1);
        if (form == NULL) abort();
        status = gutsirava_form((const uint8_t *)source, strlen(source), false, (uint8_t *)form, room, &length);
        room = length;
    }
    form[length] = 0;
    return form;
}

/* Bundles trees, which another program may have changed. */
static void tell_trees(void) {
    char *main_form = form_of("import { x } from './a'; use(x);");
    char *a_form = form_of("export const x = 1;");
    char *b_form = form_of("export const y = 1;");
    size_t room = strlen(main_form) + strlen(a_form) + strlen(b_form) + 100;
    char *document = malloc(room);
    const char *with = "{\"files\": {\"main.js\": %s, \"a.js\": %s}, \"entries\": [[\"out\", \"main.js\"]]}";
    if (document == NULL) abort();
    snprintf(document, room, with, main_form, a_form);
    tell(gutsirava_bundle, document);
    snprintf(document, room, with, main_form, b_form);
    tell(gutsirava_bundle, document);
    tell(gutsirava_bundle, "{\"files\": {}, \"entries\": [[\"out\", \"main.js\"]]}");
    tell(gutsirava_bundle, "{}");
    free(document);
    free(main_form);
    free(a_form);
    free(b_form);
}

int main(void) {
    tell(gutsirava_bundle_sources, "{\"files\": {\"main.js\": \"import { x } from './a'; use(x);\","
                                   " \"a.js\": \"export const x = 1;\"}, \"entries\": [[\"out\", \"main.js\"]]}");
    tell(gutsirava_bundle_sources, "{\"files\": {\"main.js\": \"import './lost';\"}, \"entries\": [[\"out\", \"main.js\"]]}");
    tell_trees();
    return 0;
}
