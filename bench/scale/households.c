/* Prints a table of made-up households for examples/impot2023: households COUNT. Couples and singles by turns, of which the verifications let most pass. */
#include <stdio.h>
#include <stdlib.h>
typedef unsigned long long word;
static word state = 1;
static word drawn(word below) {
    state = state * 6364136223846793005ULL + 1442695040888963407ULL;
    return (state >> 33) % below;
}
int main(int n, char **words) {
    long count = n == 2 ? atol(words[1]) : 0;
    static char buffer[1 << 20];
    setvbuf(stdout, buffer, _IOFBF, sizeof buffer);
    puts("name,0AM,0BT,0CF,1AJ,1BJ,1AS,1BS,7UD,7UF");
    for (long k = 0; k < count; k++) {
        word couple = k & 1;
        printf("h%ld,%llu,0,%llu,%llu,%llu,%llu,%llu,%llu,%llu\n", k, couple, drawn(4), drawn(60000), couple * drawn(50000), drawn(8) ? 0 : drawn(30000),
               couple && !drawn(8) ? drawn(30000) : 0, drawn(5) ? 0 : drawn(500), drawn(5) ? 0 : drawn(900));
    }
    return 0;
}
