/* Prints how many microseconds a call of `canon` on a file takes: rate FILE CALLS */
#include <rdfc.h>

#include <stdio.h>
#include <stdlib.h>
#include <time.h>

int main(int argc, char **argv)
{
    static const char words[] = "canon\0first";
    static uint8_t file[1 << 20], out[1 << 20];
    struct rdfc_answer answer;
    struct timespec begin, end;
    FILE *from = argc == 3 ? fopen(argv[1], "rb") : NULL;
    if (!from)
        return 1;
    size_t len = fread(file, 1, sizeof file, from);
    fclose(from);
    long calls = atol(argv[2]);
    clock_gettime(CLOCK_MONOTONIC, &begin);
    for (long i = 0; i < calls; i++)
        if (rdfc_run(1, 2, (const uint8_t *)words, sizeof words, file, len, (const uint8_t *)"", 0, out, sizeof out, &answer))
            return 1;
    clock_gettime(CLOCK_MONOTONIC, &end);
    printf("%.2f\n", ((end.tv_sec - begin.tv_sec) * 1e9 + (end.tv_nsec - begin.tv_nsec)) / 1e3 / calls);
    return 0;
}
