/* Refuses requests for memory of a program that it is loaded before: the one with the number REFUSE, counted from 1, and
   with REFUSE_LATER all later ones too. The first refusal is told on standard error. */
#include <stdlib.h>
#include <unistd.h>

void *__libc_malloc(size_t);
void *__libc_realloc(void *, size_t);

static unsigned long made;

static int is_refused(void) {
    static unsigned long number;
    static int later;
    if (made == 0) {
        const char *text = getenv("REFUSE");
        number = text == NULL ? 0 : strtoul(text, NULL, 10);
        later = getenv("REFUSE_LATER") != NULL;
    }
    made++;
    if (made == number && write(2, "refused\n", 8) != 8)
        _exit(99);
    return made == number || (later && number != 0 && made > number);
}

void *malloc(size_t size) {
    return is_refused() ? NULL : __libc_malloc(size);
}

void *realloc(void *block, size_t size) {
    return is_refused() ? NULL : __libc_realloc(block, size);
}
