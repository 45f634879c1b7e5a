/* Examples of the rules of c.yaml. */
#include <stdio.h>
#include <stdlib.h>
#include <string.h>

void commands(int argc, char **argv) {
    char line[200];
    char *name = getenv("NAME");
    system(name);  /* found: c-outside-text-to-shell */
    name = "date";
    system(name);  /* not found: c-outside-text-to-shell */
    snprintf(line, sizeof line, "ls %s", argv[1]);
    system(line);  /* found: c-outside-text-to-shell */
    snprintf(line, sizeof line, "kill %d", atoi(argv[1]));
    if (argc > 2)
        popen(argv[2], "r");  /* found: c-outside-text-to-shell */
}

void numbers(char **argv) {
    char line[200];
    snprintf(line, sizeof line, "kill %d", atoi(argv[1]));
    system(line);  /* not found: c-outside-text-to-shell */
    int count = atoi(argv[1]);
    char *first = malloc(count * 8);  /* found: c-outside-number-as-size */
    char *second = malloc(clamp(count) * 8);  /* not found: c-outside-number-as-size */
    char *third = calloc(3, strtoul(argv[2], NULL, 10));  /* found: c-outside-number-as-size */
    count = 3;
    char *fourth = malloc(count);  /* not found: c-outside-number-as-size */
}

void formats(char **argv) {
    char *text = getenv("TITLE");
    char target[20];
    printf(text);  /* found: c-outside-text-as-format */
    printf("%s", text);  /* not found: c-outside-text-as-format */
    fprintf(stderr, argv[1], 1);  /* found: c-outside-text-as-format */
    strcpy(target, text);  /* found: c-outside-text-copied-unbounded */
    strncpy(target, text, sizeof target);  /* not found: c-outside-text-copied-unbounded */
    while (text == NULL) {
        strcat(target, argv[2]);  /* found: c-outside-text-copied-unbounded */
        text = "none";
    }
    strcpy(target, "none");  /* not found: c-outside-text-copied-unbounded */
}

void files(void) {
    char *home = getenv("HOME");
    FILE *file = fopen(home, "r");  /* found: c-outside-text-to-file */
    file = fopen(checked_path(home), "r");  /* not found: c-outside-text-to-file */
    home = "/etc/shop";
    file = fopen(home, "r");  /* not found: c-outside-text-to-file */
}
