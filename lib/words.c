/*
 * The version of the library and the words of its refusals, for callers of the installed library. bin/install
 * compiles this with VERSION from the file of that name and with the table words.inc, made of docs/REFUSALS.md.
 */
#include "rulefile.h"

static const char *const words[] = {
    "accepted",
#include "words.inc"
};

/* The version where a build finds it that does not call the library: build.rs of the Rust crate reads it. */
__attribute__((used)) static const char mark[] = "librulefile.a, version " VERSION ";";

const char *rulefile_version(void)
{
    return VERSION;
}

const char *rulefile_word(uint32_t number)
{
    return number < sizeof words / sizeof words[0] ? words[number] : "unknown";
}
