// Lists a folder with all its folders, has the size and the moment of each file, and prints how many there were and the nanoseconds.
// Each file is looked up in its open folder; with a second word, by its whole path, as a program does that has names alone.
#include <dirent.h>
#include <fcntl.h>
#include <stdio.h>
#include <string.h>
#include <sys/stat.h>
#include <time.h>
#include <unistd.h>

static unsigned long files, sum;

static int look(int at, const char *path, const char *name, int by_path, struct stat *is) {
    return by_path ? lstat(path, is) : fstatat(at, name, is, AT_SYMLINK_NOFOLLOW);
}

static void list(int at, const char *path, int by_path) {
    DIR *folder = fdopendir(at);
    struct dirent *entry;
    struct stat is;
    char inner[4096];
    size_t length = strlen(path);
    if (!folder || length + 258 > sizeof inner) return;
    memcpy(inner, path, length);
    inner[length] = '/';
    while ((entry = readdir(folder))) {
        if (!strcmp(entry->d_name, ".") || !strcmp(entry->d_name, "..")) continue;
        strcpy(inner + length + 1, entry->d_name);
        if (entry->d_type == DT_DIR) {
            list(openat(at, entry->d_name, O_RDONLY | O_DIRECTORY), inner, by_path);
        } else if (!look(at, inner, entry->d_name, by_path, &is)) {
            files++;
            sum += is.st_size + is.st_mtim.tv_nsec;
        }
    }
    closedir(folder);
}

int main(int n, char **words) {
    struct timespec start, end;
    if (n < 2) return 2;
    clock_gettime(CLOCK_MONOTONIC, &start);
    list(open(words[1], O_RDONLY | O_DIRECTORY), words[1], n > 2);
    clock_gettime(CLOCK_MONOTONIC, &end);
    printf("%s %lu %lu %lld\n", n > 2 ? "by-path" : "listed", files, sum, (end.tv_sec - start.tv_sec) * 1000000000LL + end.tv_nsec - start.tv_nsec);
    return 0;
}
