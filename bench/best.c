// Asks MeCab for the best cost of each key, with one dictionary open for all: best FOLDER KEYS [ROUNDS [PATHS]].
//
// FOLDER is a MeCab dictionary whose surfaces are readings (make-mecab), and KEYS a file with a key a line. All keys are
// parsed ROUNDS times (5), one round after the other, with the first PATHS paths each (1, the best alone). A line for each key
// has the key, its best cost, and the least, the median and the 95th percentile of its times in microseconds, with tabs between
// them; a last line `all` has the sums. What it is at stands on standard error. Status 3: the dictionary does not open.
//
//     cc -O2 -o best best.c -lmecab

#include <mecab.h>
#include <stdio.h>
#include <stdlib.h>
#include <string.h>
#include <time.h>

enum { WRONG = 1, MISSING = 3, USUAL_ROUNDS = 5, MOST_LINE = 4096 };

struct key {
    char *text;
    long cost;
    double *times;
};

struct keys {
    struct key *items;
    size_t count;
};

static void stop(const char *why, const char *about, int status) {
    fprintf(stderr, "best: %s %s\n", why, about);
    exit(status);
}

static void *room(size_t bytes) {
    void *it = calloc(1, bytes);
    if (it == NULL) stop("no memory", "", WRONG);
    return it;
}

static void add(struct keys *keys, const char *text, int rounds) {
    keys->items = realloc(keys->items, (keys->count + 1) * sizeof *keys->items);
    if (keys->items == NULL) stop("no memory", "", WRONG);
    struct key *key = &keys->items[keys->count++];
    key->text = room(strlen(text) + 1);
    strcpy(key->text, text);
    key->times = room(rounds * sizeof *key->times);
}

static struct keys read_keys(const char *path, int rounds) {
    FILE *file = fopen(path, "r");
    if (file == NULL) stop("no file", path, WRONG);
    struct keys keys = {NULL, 0};
    char line[MOST_LINE];
    while (fgets(line, sizeof line, file) != NULL) {
        line[strcspn(line, "\n")] = 0;
        if (line[0] != 0) add(&keys, line, rounds);
    }
    fclose(file);
    return keys;
}

static double now(void) {
    struct timespec time;
    clock_gettime(CLOCK_MONOTONIC, &time);
    return time.tv_sec * 1e6 + time.tv_nsec / 1e3;
}

static void parse(mecab_t *tagger, mecab_lattice_t *lattice, struct key *key, int round, int paths) {
    double begin = now();
    mecab_lattice_set_sentence(lattice, key->text);
    if (!mecab_parse_lattice(tagger, lattice)) stop(mecab_lattice_strerror(lattice), key->text, WRONG);
    key->cost = mecab_lattice_get_eos_node(lattice)->cost;
    for (int path = 0; paths > 1 && path < paths; path++)
        if (!mecab_lattice_next(lattice)) break;
    key->times[round] = now() - begin;
}

static int by_size(const void *left, const void *right) {
    double a = *(const double *)left, b = *(const double *)right;
    return (a > b) - (a < b);
}

static void print(const char *name, long cost, double least, double median, double late) {
    printf("%s\t%ld\t%.1f\t%.1f\t%.1f\n", name, cost, least, median, late);
}

static void print_keys(struct keys *keys, int rounds) {
    long cost = 0;
    double least = 0, median = 0, late = 0;
    for (size_t place = 0; place < keys->count; place++) {
        struct key *key = &keys->items[place];
        qsort(key->times, rounds, sizeof *key->times, by_size);
        double middle = key->times[(rounds - 1) / 2], end = key->times[(rounds * 95 + 99) / 100 - 1];
        print(key->text, key->cost, key->times[0], middle, end);
        cost += key->cost, least += key->times[0], median += middle, late += end;
    }
    print("all", cost, least, median, late);
}

static int number(char **words, int count, int place, int usual) {
    int it = count > place ? atoi(words[place]) : usual;
    if (it < 1) stop("no number from 1:", words[place], WRONG);
    return it;
}

int main(int count, char **words) {
    if (count < 3 || count > 5) stop("usage:", "best FOLDER KEYS [ROUNDS [PATHS]]", WRONG);
    int rounds = number(words, count, 3, USUAL_ROUNDS), paths = number(words, count, 4, 1);
    struct keys keys = read_keys(words[2], rounds);
    char *arguments[] = {"best", "-r", "/dev/null", "-d", words[1]};
    mecab_model_t *model = mecab_model_new(5, arguments);
    if (model == NULL) stop("this dictionary does not open:", words[1], MISSING);
    mecab_t *tagger = mecab_model_new_tagger(model);
    mecab_lattice_t *lattice = mecab_model_new_lattice(model);
    if (paths > 1) mecab_lattice_set_request_type(lattice, MECAB_NBEST);
    for (int round = 0; round < rounds; round++) {
        fprintf(stderr, "best: round %d of %d, %zu keys\n", round + 1, rounds, keys.count);
        for (size_t place = 0; place < keys.count; place++) parse(tagger, lattice, &keys.items[place], round, paths);
    }
    print_keys(&keys, rounds);
    return 0;
}
