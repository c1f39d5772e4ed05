/* Raises the first 1000 of 1024 words by one: the kernel of ../raise_words, checked once, and run on this program's words. */
#include "rvvbox.h"
#include <stdio.h>

static uint8_t image[4096], words[4096];

int main(void) {
    FILE *elf = fopen("../raise_words/raise_words.elf", "rb"), *in = fopen("../raise_words/a.bin", "rb");
    size_t size = elf ? fread(image, 1, sizeof image, elf) : 0;
    if (!in || fread(words, 1, sizeof words, in) != sizeof words) return 1;
    fclose(in);
    if (elf) fclose(elf);
    struct rvvbox_kernel *kernel = NULL;
    struct rvvbox_refusal why;
    struct rvvbox_argument arguments[RVVBOX_PLACES] = {rvvbox_buffer(words, sizeof words), rvvbox_scalar(1000)};
    uint64_t steps = 0;
    if (!rvvbox_accept(image, size, 128, &kernel, &why)) rvvbox_run(kernel, arguments, 0, 10000, &steps, &why);
    fprintf(stderr, "%s: %llu steps\n", rvvbox_status_name(why.status), (unsigned long long)steps);
    rvvbox_free(kernel);
    return why.status != RVVBOX_DONE || fwrite(words, 1, sizeof words, stdout) != sizeof words;
}
