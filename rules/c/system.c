/* Examples of the rules of system.yaml. */
#include <stdio.h>
#include <stdlib.h>
#include <unistd.h>

void commands(char *name, char **list) {
    system(name);  /* found: c-command-dynamic */
    popen(name, "r");  /* found: c-command-dynamic */
    system("date");  /* not found: c-command-dynamic */
    system(NULL);  /* not found: c-command-dynamic */
    execlp("ls", "ls", name, NULL);  /* found: c-command-by-search-path */
    execvp("/bin/ls", list);  /* not found: c-command-by-search-path */
    execl("/bin/sh", "sh", "-c", name, NULL);  /* found: c-shell-with-arguments */
    execl("/bin/sh", "sh", "-c", "date", NULL);  /* not found: c-shell-with-arguments */
    dlopen(name, RTLD_NOW);  /* found: c-library-by-name */
    dlopen("libm.so.6", RTLD_NOW);  /* not found: c-library-by-name */
}

void formats(char *text, char *target) {
    printf(text);  /* found: c-format-dynamic */
    fprintf(stderr, text);  /* found: c-format-dynamic */
    snprintf(target, 80, text);  /* found: c-format-dynamic */
    syslog(LOG_INFO, text);  /* found: c-format-dynamic */
    printf("%s", text);  /* not found: c-format-dynamic */
    printf(_("%s"), text);  /* not found: c-format-dynamic */
    fprintf(stderr, "none\n");  /* not found: c-format-dynamic */
}

void files(char *path, struct stat *status) {
    name = tmpnam(NULL);  /* found: c-temporary-name */
    number = mkstemp(path);  /* not found: c-temporary-name */
    if (access(path, W_OK) == 0) {  /* found: c-checked-then-opened */
        file = fopen(path, "w");
    }
    if (fstat(number, status) == 0) {  /* not found: c-checked-then-opened */
        puts("there");
    }
    chmod(path, 0666);  /* found: c-file-for-everybody */
    open(path, O_CREAT | O_WRONLY, 0777);  /* found: c-file-for-everybody */
    chmod(path, 0640);  /* not found: c-file-for-everybody */
    umask(0);  /* found: c-umask-nothing */
    umask(077);  /* not found: c-umask-nothing */
}

int privileges(int user) {
    setuid(user);  /* found: c-privileges-kept */
    if (setuid(user) != 0) {  /* not found: c-privileges-kept */
        return 1;
    }
    chroot("/srv/old");  /* found: c-root-folder-left */
    chroot("/srv/shop");  /* not found: c-root-folder-left */
    chdir("/");
    return 0;
}

int inputs(char *line, int count) {
    scanf("%d", &count);  /* found: c-input-unchecked */
    fread(line, 1, 80, stdin);  /* found: c-input-unchecked */
    if (fgets(line, 80, stdin) == NULL) {  /* not found: c-input-unchecked */
        return 1;
    }
    count = atoi(line);  /* found: c-number-unchecked */
    count = strtol(line, NULL, 10);  /* not found: c-number-unchecked */
    return count;
}

int characters(void) {
    char c;  /* found: c-end-in-a-character */
    while ((c = getchar()) != EOF) {
        putchar(c);
    }
    return 0;
}

int all_characters(void) {
    int c;  /* not found: c-end-in-a-character */
    while ((c = getchar()) != EOF) {
        putchar(c);
    }
    return 0;
}

int conditions(int count, int other, char *text) {
    if (count = 3) {  /* found: c-set-in-a-condition */
        return 1;
    }
    if (count == 3) {  /* not found: c-set-in-a-condition, c-compared-with-itself */
        return 2;
    }
    if (text == "none") {  /* found: c-text-compared-by-address */
        return 3;
    }
    if (strcmp(text, "none") == 0) {  /* not found: c-text-compared-by-address */
        return 4;
    }
    if (count == count) {  /* found: c-compared-with-itself */
        return 5;
    }
    if (count > 5) ;  /* found: c-empty-condition */
    if (count > 6) other = 2;  /* not found: c-empty-condition */
    return other;
}
