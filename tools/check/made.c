/* Makes the inputs of a fuzzer that are named, one after another, and tells which is made: the fuzzer's table without the fuzzer. */
#include <stdint.h>
#include <stdio.h>
#include <stdlib.h>

int LLVMFuzzerTestOneInput(const uint8_t *data, size_t size);

/* What is compiled for the fuzzer hands it its counters; nobody looks at them here. */
void __sanitizer_cov_8bit_counters_init(uint8_t *start, uint8_t *stop)
{
    (void)start, (void)stop;
}

void __sanitizer_cov_pcs_init(const uintptr_t *start, const uintptr_t *stop)
{
    (void)start, (void)stop;
}

/* Makes an input, from memory that ends where it does. */
static int make(const char *name)
{
    static uint8_t data[1 << 16];
    FILE *file = fopen(name, "rb");
    if (file == NULL)
        return 3;
    size_t size = fread(data, 1, sizeof data, file);
    fclose(file);
    fprintf(stderr, "%s\n", name);
    uint8_t *input = malloc(size + 1);
    if (input == NULL)
        return 3;
    for (size_t at = 0; at < size; at++)
        input[at + 1] = data[at];
    int answer = LLVMFuzzerTestOneInput(input + 1, size);
    free(input);
    return answer;
}

int main(int count, char **words)
{
    int answer = 0;
    for (int at = 1; at < count && answer == 0; at++)
        answer = make(words[at]);
    return answer;
}
