// A cell that stands still and answers at once: the other end of `cellctl control`, to see how many rounds a second it takes.
#include <stdio.h>
#include <string.h>

static const char STILL[] = "reading,feed,,\nreading,table,low/belt,\nreading,robot,table1/in/in,\nreading,press1,middle,\n"
                            "reading,press2,middle,\nreading,deposit,,\n";

int main(void) {
    char line[256];
    printf("drive,1,,\n");
    for (long round = 1;; round++) {
        printf("%sround,%ld,,\n", STILL, round);
        fflush(stdout);
        for (;;) {
            if (fgets(line, sizeof line, stdin) == NULL) return 0;
            if (strncmp(line, "done,", 5) == 0) break;
            printf(strncmp(line, "quit,", 5) == 0 ? "end,quit,,\n" : "ok,,,\n");
            fflush(stdout);
            if (strncmp(line, "quit,", 5) == 0) return 0;
        }
    }
}
