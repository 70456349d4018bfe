/* The version of the library and the texts of its refusals: constants of the header, and nothing that decides. */
#include "hpf_remap.h"

#define ROW(name, number, text) {number, text},

static const struct {
    uint8_t number;
    char text[79];
} texts[] = {HPF_REFUSALS(ROW)};

uint32_t hpf_version(void)
{
    return HPF_VERSION;
}

const char *hpf_text(uint64_t number)
{
    for (size_t at = 0; at < sizeof texts / sizeof *texts; at++)
        if (texts[at].number == number)
            return texts[at].text;
    return 0;
}
