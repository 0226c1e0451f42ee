/* shade.py in C: cc -O2 -o shade shade.c */
#include <stdio.h>

int main(void)
{
    char line[1024], *at;
    int number, used, worth;
    while (fgets(line, sizeof line, stdin) != NULL) {
        if (sscanf(line, "round %d kwh %*d ticket %*u worths%n", &number, &used) < 1) continue;
        printf("bids %d", number);
        for (at = line + used; sscanf(at, "%d%n", &worth, &used) == 1; at += used) printf(" %d", worth * 85 / 100);
        printf("\n");
        fflush(stdout); /* an answer that stays in a buffer is late */
    }
}
