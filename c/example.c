/* Says of each script that is named whether it is lawful, and if not, what mends it. */
#include <stdio.h>
#include <stdlib.h>

#include "vq.h"

/* The bytes of a file, NULL where it can't be read. */
static uint8_t *read_file(const char *name, size_t *length)
{
    FILE *file = fopen(name, "rb");
    if (file == NULL)
        return NULL;
    size_t room = 1 << 16;
    uint8_t *text = malloc(room);
    *length = 0;
    while (text != NULL) {
        *length += fread(text + *length, 1, room - *length, file);
        if (*length < room)
            break;
        room *= 2;
        uint8_t *larger = realloc(text, room);
        if (larger == NULL)
            free(text);
        text = larger;
    }
    fclose(file);
    return text;
}

int main(int argc, char **argv)
{
    int status = 0;
    for (int i = 1; i < argc; i++) {
        size_t length, needed;
        uint8_t *text = read_file(argv[i], &length);
        if (text == NULL) {
            perror(argv[i]);
            return 3;
        }
        uint8_t words[256];
        struct vq_verdict verdict = vq_explain(text, length, words, sizeof words, &needed);
        free(text);
        if (needed > sizeof words) /* the rest is cut off */
            needed = sizeof words;
        printf("%s: %.*s", argv[i], (int)needed, (const char *)words);
        if (verdict.code != VQ_LAWFUL)
            status = 2;
    }
    return status;
}
