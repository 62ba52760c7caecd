/* Copies, compares and writes a long text as often as it is told, by hand, to measure the program against.

   Its words are a file, in which the text stands between the first two double quotes, and how many rounds to make. A round
   copies the text into an array, compares the array with the text, and writes the array out, byte by byte as a loop does it. */
#include <stdio.h>
#include <stdlib.h>
#include <string.h>

enum { MOST = 1 << 20 };

static char file[MOST + 1];
static char copy[MOST + 1];

int main(int argc, char **argv) {
    if (argc != 3) return 2;
    FILE *from = fopen(argv[1], "rb");
    if (!from) return 1;
    size_t size = fread(file, 1, MOST, from);
    fclose(from);
    file[size] = 0;
    char *text = strchr(file, '"');
    if (!text) return 1;
    text++;
    char *end = strchr(text, '"');
    if (!end) return 1;
    *end = 0;
    long rounds = atol(argv[2]);
    /* what is compared is looked at in each round, and never known before */
    char *volatile constant = text;
    char *volatile array = copy;
    int same = 1;
    for (long i = 0; i < rounds && same; i++) {
        size_t n = 0;
        while ((array[n] = constant[n])) n++;
        n = 0;
        while (array[n] && array[n] == constant[n]) n++;
        same = array[n] == constant[n];
        n = 0;
        while (array[n]) n++;
        if (fwrite(array, 1, n, stdout) != n) return 1;
    }
    return fflush(stdout) != 0;
}
