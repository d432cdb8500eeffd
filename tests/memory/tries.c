/* A program to which memory is refused: it prints `a` and `b`, each with memory of its own that grows twice. Its word
   says what it does where memory is refused: right, so ends with status 1; wrong, so prints another text too; silent,
   so leaves lines out and ends with status 0; rash, so uses what it hasn't got. `none` asks for no memory. */

#include <stdio.h>
#include <stdlib.h>
#include <string.h>

static const char *does;

static char *line_of(char letter) {
    char *line = malloc(1), *longer = line ? realloc(line, 3) : NULL;
    if (!longer && !strcmp(does, "rash"))
        *(volatile char *)longer = letter;
    if (!longer)
        return NULL;
    longer[0] = letter, longer[1] = '\n', longer[2] = 0;
    return longer;
}

int main(int count, char **words) {
    does = count > 1 ? words[1] : "none";
    for (char letter = 'a'; letter <= 'b'; letter++) {
        char *line = strcmp(does, "none") ? line_of(letter) : NULL;
        if (line)
            printf("%s", line);
        else if (!strcmp(does, "none"))
            printf("%c\n", letter);
        else if (!strcmp(does, "wrong"))
            return printf("c\n"), 1;
        else if (!strcmp(does, "right"))
            return 1;
    }
    return 0;
}
