/* The linker, and the reader and the printer of JavaScript, over memory.
 *
 * Each function writes its answer to the front of `output`, puts into `written` how many bytes the answer has, and gives
 * the answer's status. Where `output` has no room for so many the status is GUTSIRAVA_NO_ROOM, and `output` stays as it
 * was: make more room and call again. An answer is UTF-8 text, with no zero behind it.
 *
 * A function keeps nothing of what it is handed, and nothing between calls; threads may call at once. The memory that it
 * takes is malloc's, and it is freed on return. `input` and `output` may not overlap.
 *
 * Link libgutsirava_c.a, and behind it liblibc_c.a of Rattle's kit. */
#ifndef GUTSIRAVA_H
#define GUTSIRAVA_H

#include <stdbool.h>
#include <stddef.h>
#include <stdint.h>

#ifdef __cplusplus
extern "C" {
#endif

enum {
    GUTSIRAVA_OK = 0,
    /* There is an error, which the answer tells. */
    GUTSIRAVA_REFUSED = 1,
    /* `error: document` and a line feed: the input has not the form that it has to have. */
    GUTSIRAVA_NO_DOCUMENT = 2,
    GUTSIRAVA_NO_ROOM = 3
};

/* Bundles what a document asks for (docs/DOCUMENT.md). The answer is the text of the bundles, as the program bundle_json
 * writes it; or, with GUTSIRAVA_REFUSED, two lines:
 *
 *     error 10: MissingExport
 *     {"file":"main.js","name":"x"}
 *
 * the number of the error and its name, as docs/DOCUMENT.md lists them (22 is OutOfMemory), and an object with the file and
 * the name or the specifier that is meant, null for what the error does not have. */
uint32_t gutsirava_bundle(const uint8_t *input, size_t input_length, uint8_t *output, size_t output_length,
                          size_t *written);

/* Bundles source texts, with all that they need among them: packages, CommonJS modules and JSON too (docs/RUST.md, "Source
 * texts"). The input is
 *
 *     {"files": {"main.js": "import './a';", "a.js": ".."}, "entries": [["out", "main.js"]], "config": {..}}
 *
 * and the answer {"bundles": [{"code": "..", "name": "out"}], "messages": [..]}. With GUTSIRAVA_REFUSED a message is an
 * error, and there is no bundle. */
uint32_t gutsirava_bundle_sources(const uint8_t *input, size_t input_length, uint8_t *output, size_t output_length,
                                  size_t *written);

/* Reads the text of an ECMAScript module, or of a CommonJS module. The answer is the JSON form of its tree, which a
 * document takes under `files`; or, with GUTSIRAVA_REFUSED, `error LINE:COLUMN: what is wrong` and a line feed. */
uint32_t gutsirava_form(const uint8_t *source, size_t source_length, bool is_common_js, uint8_t *output,
                        size_t output_length, size_t *written);

/* Prints the module of a JSON form, as bundles have it under `module`. The answer is its text. */
uint32_t gutsirava_text(const uint8_t *form, size_t form_length, uint8_t *output, size_t output_length,
                        size_t *written);

#ifdef __cplusplus
}
#endif

#endif
