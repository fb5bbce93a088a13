/* Makes a header of a list of planets: a name and the mean distance from the sun, in that of the earth, on each line. */
#include <stdio.h>

int main(int argc, char **argv)
{
    char name[64];
    double distance;
    FILE *in, *out;

    if (argc != 3 || !(in = fopen(argv[1], "r")) || !(out = fopen(argv[2], "w"))) {
        fprintf(stderr, "usage: make-table LIST HEADER\n");
        return 1;
    }
    while (fscanf(in, "%63s %lf", name, &distance) == 2)
        fprintf(out, "{\"%s\", %.4f},\n", name, distance);
    fclose(in);
    return fclose(out) != 0;
}
