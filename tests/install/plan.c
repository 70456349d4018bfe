/* Plans a file with the installed library, and prints the letters of its plan; or what refuses it. */
#include <hpf_remap.h>
#include <stdio.h>

static unsigned word(const uint8_t *bytes)
{
    return bytes[0] + 256u * bytes[1];
}

static int plan_file(const char *name)
{
    static uint8_t routine[HPF_LARGEST_ROUTINE + 1], plan[HPF_LARGEST_PLAN];
    FILE *file = fopen(name, "rb");
    if (!file)
        return perror(name), 2;
    size_t length = fread(routine, 1, sizeof routine, file);
    fclose(file);
    hpf_outcome answer = hpf_plan(routine, length, plan, sizeof plan);
    if (answer.number != HPF_DONE)
        return printf("%s\n", hpf_text(answer.number)), answer.number == HPF_AMBIGUOUS ? 1 : 2;
    unsigned vertices = word(plan + 4), labels = word(plan + 6);
    const uint8_t *label = plan + 8 + 4 * vertices;
    size_t size = (answer.first - 8 - 4 * vertices) / labels;
    for (; labels > 0; labels--, label += size)
        printf("%c%s", label[1], label[1] == HPF_LETTER_N && label[2] != HPF_NONE ? "?" : "");
    puts("");
    return 0;
}

int main(int count, char **words)
{
    if (count == 2)
        return plan_file(words[1]);
    /* Every refusal's text. */
    for (uint64_t number = 0; number < 256; number++)
        if (hpf_text(number))
            printf("%d %s\n", (int)number, hpf_text(number));
    printf("%d %d %s\n", (int)hpf_version(), HPF_VERSION, HPF_VERSION_TEXT);
    return hpf_version() != HPF_VERSION;
}
