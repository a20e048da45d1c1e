/* Runs the inline functions of fenalukki.h for the test c_interface. Each line
 * of standard input is a letter and a number in hexadecimal:
 *   n  a call's number: prints what each reader makes of it, and its text
 *   m  a tick: the tick reached of marks that are 3 from it on
 *   b  a tick: its bit, and how many bits are 1, where it alone is 1
 *   h  a tick: the budget for a hit there
 *   r  a double's bits: those of the float that it is rounded to, and how the
 *      viewer's call refuses that float, 0 if it does not */
#include "fenalukki.h"

#include <stdio.h>
#include <string.h>

int second_unit(uint64_t number);

/* File K: one point at the origin. */
static const uint8_t k[24] = {1, 0, 0, 2, 0, 0, 0, 0, 0, 0, 4, 0,
                              1, 0, 1, 0, 24, 0, 0, 0, 0x54, 0x52, 0x45, 0x45};

static void print_number(uint64_t number)
{
    printf("%d %lu %d %d %d %d %.10g %d %d %d %lu %d %s\n", fenalukki_refusal(number),
           (unsigned long)fenalukki_probes(number), fenalukki_is_spent(number),
           fenalukki_k(number), fenalukki_tick(number), fenalukki_mark(number),
           (double)fenalukki_place(number), fenalukki_nodes(number), fenalukki_iso(number),
           fenalukki_file_version(number), (unsigned long)fenalukki_end(number),
           second_unit(number), fenalukki_refusal_text(number));
}

static void print_reached(int tick)
{
    uint8_t marks[FENALUKKI_MARKS_BYTES];

    memset(marks, FENALUKKI_INSIDE, (size_t)tick);
    memset(marks + tick, FENALUKKI_NOT_LOOKED_AT, sizeof marks - (size_t)tick);
    printf("%d\n", fenalukki_tick_reached(marks));
}

static void print_bit(int tick)
{
    uint8_t bits[FENALUKKI_COLUMN_BYTES] = {0};
    int ones = 0, i;

    bits[tick / 8] = (uint8_t)(1 << tick % 8);
    for (i = 0; i < FENALUKKI_TICKS; i++)
        ones += fenalukki_bit(bits, i);
    printf("%d %d\n", fenalukki_bit(bits, tick), ones);
}

static void print_rounded(uint64_t bits)
{
    double mm;
    float rounded;
    uint32_t word;
    uint64_t number;

    memcpy(&mm, &bits, sizeof mm);
    rounded = fenalukki_round_to_step(mm);
    memcpy(&word, &rounded, sizeof word);
    number = fenalukki_viewer_first_hit(k, sizeof k, rounded, 1, 0, 0, 2, 0, FENALUKKI_ENOUGH);
    printf("%08lx %d\n", (unsigned long)word, fenalukki_refusal(number));
}

int main(void)
{
    char letter;
    unsigned long number;

    while (scanf(" %c %lx", &letter, &number) == 2) {
        switch (letter) {
        case 'n':
            print_number(number);
            break;
        case 'm':
            print_reached((int)number);
            break;
        case 'b':
            print_bit((int)number);
            break;
        case 'h':
            printf("%lu\n", (unsigned long)fenalukki_hit_budget((int)number));
            break;
        default:
            print_rounded(number);
        }
    }
    return 0;
}
