/* Examples of the rules of memory.yaml. Each mark speaks of its own line. */
#include <stdio.h>
#include <stdlib.h>
#include <string.h>

struct name {
    char text[64];
    struct name *next;
};

void copies(char *line, char *target, const char *source, va_list list) {
    gets(line);  /* found: c-gets */
    fgets(line, 80, stdin);  /* not found: c-gets */
    strcpy(target, source);  /* found: c-copy-without-size */
    strcpy(target, "none");  /* not found: c-copy-without-size */
    strcat(target, source);  /* found: c-append-without-size */
    strlcat(target, source, 80);  /* not found: c-append-without-size */
    sprintf(target, "name %s", source);  /* found: c-format-without-size */
    sprintf(target, "%-20s", source);  /* found: c-format-without-size */
    sprintf(target, "%d", 12);  /* not found: c-format-without-size */
    snprintf(target, 80, "name %s", source);  /* not found: c-format-without-size */
    vsprintf(target, source, list);  /* found: c-list-format-without-size */
    vsnprintf(target, 80, source, list);  /* not found: c-list-format-without-size */
    scanf("%s", target);  /* found: c-scan-without-size */
    sscanf(line, "%d %s", &count, target);  /* found: c-scan-without-size */
    fscanf(stdin, "%63s", target);  /* not found: c-scan-without-size */
    strncpy(target, source, strlen(source));  /* found: c-size-of-the-source */
    strncpy(target, source, sizeof buffer);  /* not found: c-size-of-the-source */
    strncat(target, source, sizeof(target));  /* found: c-append-size-of-the-whole */
    strncat(target, source, sizeof(target) - strlen(target) - 1);  /* not found: c-append-size-of-the-whole */
}

void sizes(struct name *first, size_t count, char *text) {
    first = malloc(sizeof(first));  /* found: c-size-of-the-pointer */
    first = malloc(sizeof *first);  /* not found: c-size-of-the-pointer */
    memset(first, sizeof *first, 0);  /* found: c-memset-nothing */
    memset(first, 0, sizeof *first);  /* not found: c-memset-nothing */
    names = malloc(count * sizeof(struct name));  /* found: c-product-as-size */
    names = malloc(16 * sizeof(struct name));  /* not found: c-product-as-size */
    names = calloc(count, sizeof(struct name));  /* not found: c-product-as-size */
    copy = malloc(strlen(text));  /* found: c-no-room-for-the-end */
    copy = malloc(strlen(text) + 1);  /* not found: c-no-room-for-the-end */
    names = realloc(names, 80);  /* found: c-realloc-loses-memory */
    more = realloc(names, 80);  /* not found: c-realloc-loses-memory */
    place = alloca(count);  /* found: c-alloca */
    place = malloc(count);  /* not found: c-alloca */
}

void frees(struct name *first, struct name *second, struct name *third, char *key) {
    free(first);  /* found: c-free-twice */
    puts("once more");
    free(first);
    free(second);  /* not found: c-free-twice */
    second = NULL;
    free(second);
    free(third);  /* found: c-use-after-free */
    puts(third->text);
    free(&list);  /* found: c-free-of-an-address */
    free(list);  /* not found: c-free-of-an-address, c-use-after-free */
    puts("freed");
    memset(key, 0, 32);  /* found: c-secret-cleared-in-vain */
    free(key);
    explicit_bzero(other, 32);  /* not found: c-secret-cleared-in-vain */
    free(other);
}

char *local_array(int count) {
    char text[80];
    snprintf(text, sizeof text, "%d", count);
    return text;  /* found: c-local-array-returned */
}

char *kept_array(char *text) {
    return text;  /* not found: c-local-array-returned */
}

int *local_address(void) {
    int count = 0;
    count++;
    return &count;  /* found: c-local-address-returned */
}

int *kept_address(struct name *first) {
    return &first->count;  /* not found: c-local-address-returned */
}

void ends(int count) {
    int numbers[16];
    numbers[16] = 0;  /* found: c-index-behind-the-end */
    numbers[15] = 0;  /* not found: c-index-behind-the-end */
    for (int k = 0; k <= 16; k++) {  /* found: c-loop-behind-the-end */
        numbers[k] = count;
    }
    for (int k = 0; k < 16; k++) {  /* not found: c-loop-behind-the-end */
        numbers[k] = count;
    }
}

void unchecked(struct name *first) {
    first = malloc(sizeof *first);  /* found: c-memory-unchecked */
    first->next = NULL;
    first = malloc(sizeof *first);  /* not found: c-memory-unchecked */
    if (first == NULL) {
        puts(first->text);  /* found: c-null-is-followed */
        return;
    }
    puts(first->text);  /* not found: c-null-is-followed */
}
