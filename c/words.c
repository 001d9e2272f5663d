/* Prints what each number says, as docs/NUMBERS.md has it: a number and its words a line. Sees first that the parts of the version make its text. */
#include "kartsodi.h"

#include <stdio.h>
#include <string.h>

int main(void)
{
    char version[64];
    size_t number;
    snprintf(version, sizeof version, "%d.%d.%d", KARTSODI_VERSION_MAJOR, KARTSODI_VERSION_MINOR, KARTSODI_VERSION_PATCH);
    if (strcmp(version, KARTSODI_VERSION) != 0) {
        fprintf(stderr, "words: the version's parts are %s, its text is %s\n", version, KARTSODI_VERSION);
        return 1;
    }
    for (number = KARTSODI_OK; number <= KARTSODI_NONE_BESIDE; number++) {
        printf("%zu %s\n", number, kartsodi_words(number));
    }
    if (strcmp(kartsodi_words(number), kartsodi_words(SIZE_MAX)) != 0) {
        fprintf(stderr, "words: the numbers past %d differ in what they say\n", KARTSODI_NONE_BESIDE);
        return 1;
    }
    return 0;
}
