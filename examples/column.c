#include "fenalukki.h"

#include <stdio.h>

int main(int argc, char **argv)
{
    static uint8_t part[FENALUKKI_FILE_BYTES_MAX + 1], bits[FENALUKKI_COLUMN_BYTES];
    FILE *file = fopen(argc > 1 ? argv[1] : "examples/parts/k.part", "rb");
    size_t length = file ? fread(part, 1, sizeof part, file) : 0;
    uint32_t answer = fenalukki_column(part, length, -1024, 0, 0, 1024, 0, 0, bits, sizeof bits);
    int i;

    if (file)
        fclose(file);
    if (fenalukki_refusal(answer)) {
        fprintf(stderr, "column: %s\n", fenalukki_refusal_text(answer));
        printf("refused %d\n", fenalukki_refusal(answer));
        return 1;
    }
    for (i = 0; i < FENALUKKI_COLUMN_BYTES; i++) /* eight ticks a sign: # if any is solid */
        putchar(bits[i] ? '#' : '.');
    printf("\nprobes %lu\n", (unsigned long)fenalukki_probes(answer));
    return 0;
}
