// The bytes that a program of this folder stores into its mapped file while it plays:
//   COUNTED=1 valgrind --tool=lackey --trace-mem=yes PROGRAM N STAY FILE 2>&1 >/dev/null | count
// The program says where the file is mapped before it plays, and when it has played; each store in between is a line " S ADDRESS,SIZE", or
// " M ADDRESS,SIZE" where the same instruction read it first.
#include <stdio.h>
#include <string.h>

int main(void)
{
    char text[8192];
    unsigned long from = 0, end = 0, at, size, sum = 0;
    while (fgets(text, sizeof text, stdin)) {
        if (sscanf(text, "mapped %lx-%lx", &from, &end) == 2)
            continue;
        if (!strcmp(text, "played\n"))
            break;
        if ((!strncmp(text, " S ", 3) || !strncmp(text, " M ", 3)) && sscanf(text + 3, "%lx,%lu", &at, &size) == 2 && from <= at && at < end)
            sum += size;
    }
    printf("%lu\n", sum);
    // the rest is not wanted, but its writer wants a reader
    while (fgets(text, sizeof text, stdin))
        ;
}
