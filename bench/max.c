/* The job of examples/max.wat as a plain program: `max GRAPH` prints what `pregel run max.wat GRAPH` prints but for the end line.
   Vertices are numbered from 0 on without a gap. The last line on standard error has the seconds of reading and of running. */
#include <fcntl.h>
#include <stdint.h>
#include <stdio.h>
#include <stdlib.h>
#include <sys/mman.h>
#include <sys/stat.h>
#include <time.h>

typedef struct {
    uint32_t target;
    int64_t value;
} Letter;

static double now(void) {
    struct timespec t;
    clock_gettime(CLOCK_MONOTONIC, &t);
    return t.tv_sec + t.tv_nsec / 1e9;
}

static void *room(size_t count, size_t size) {
    void *p = calloc(count ? count : 1, size);
    if (!p) {
        fputs("max: out of memory\n", stderr);
        exit(3);
    }
    return p;
}

static const char *number(const char *p, int64_t *n) {
    int negative = 0;
    while (*p == ' ') p++;
    if (*p == '-') negative = 1, p++;
    uint64_t value = 0;
    while (*p >= '0' && *p <= '9') value = value * 10 + (uint64_t)(*p++ - '0');
    *n = (int64_t)(negative ? 0 - value : value);
    return p;
}

static uint32_t vertices, edges;
static int64_t *value;
static uint32_t *first_edge, *edge_target;

/* Reads the lines `v ID VALUE` and `e FROM TO VALUE`: vertices, then edges by source, in the order of the lines. */
static void read_graph(const char *path) {
    struct stat st;
    int file = open(path, O_RDONLY);
    if (file < 0 || fstat(file, &st) < 0) {
        perror(path);
        exit(4);
    }
    const char *text = mmap(0, st.st_size + 1, PROT_READ, MAP_PRIVATE, file, 0), *end = text + st.st_size;
    for (const char *p = text; p < end; p++) {
        if (*p == 'v') vertices++;
        if (*p == 'e') edges++;
        while (p < end && *p != '\n') p++;
    }
    value = room(vertices, sizeof *value);
    first_edge = room(vertices + 2, sizeof *first_edge);
    edge_target = room(edges, sizeof *edge_target);
    uint32_t *pairs = room(2 * (size_t)edges, sizeof *pairs);
    size_t pair = 0;
    for (const char *p = text; p < end; p++) {
        int64_t a, b;
        if (*p == 'v') {
            p = number(p + 1, &a);
            p = number(p, &b);
            value[a] = b;
        } else if (*p == 'e') {
            p = number(p + 1, &a);
            p = number(p, &b);
            pairs[2 * pair] = (uint32_t)a;
            pairs[2 * pair++ + 1] = (uint32_t)b;
            first_edge[a + 2]++;
        }
        while (p < end && *p != '\n') p++;
    }
    for (uint32_t v = 0; v < vertices; v++) first_edge[v + 2] += first_edge[v + 1];
    for (size_t i = 0; i < pair; i++) edge_target[first_edge[pairs[2 * i] + 1]++] = pairs[2 * i + 1];
    free(pairs);
}

int main(int count, char **words) {
    if (count != 2) {
        fputs("usage: max GRAPH\n", stderr);
        return 2;
    }
    double start = now();
    read_graph(words[1]);
    double read = now();
    /* the letters of a superstep, in the order of their sources, and the messages by target */
    size_t sent = 0, most = 0;
    Letter *letters = 0;
    int64_t *messages = 0;
    uint32_t *first_message = room(vertices + 2, sizeof *first_message);
    for (int superstep = 0;; superstep++) {
        size_t count = 0;
        for (uint32_t v = 0; v < vertices; v++) {
            int64_t best = value[v];
            int changed = superstep == 0;
            for (uint32_t i = first_message[v]; i < first_message[v + 1]; i++)
                if (messages[i] > best) best = messages[i], changed = 1;
            if (!changed) continue;
            value[v] = best;
            for (uint32_t i = first_edge[v]; i < first_edge[v + 1]; i++) {
                if (count == most) {
                    most = most ? 2 * most : edges;
                    letters = realloc(letters, most * sizeof *letters);
                    if (!letters) return 3;
                }
                letters[count++] = (Letter){edge_target[i], best};
            }
        }
        sent += count;
        if (!count) break;
        messages = realloc(messages, count * sizeof *messages);
        if (!messages) return 3;
        for (uint32_t v = 0; v < vertices + 2; v++) first_message[v] = 0;
        for (size_t i = 0; i < count; i++) first_message[letters[i].target + 2]++;
        for (uint32_t v = 0; v < vertices; v++) first_message[v + 2] += first_message[v + 1];
        for (size_t i = 0; i < count; i++) messages[first_message[letters[i].target + 1]++] = letters[i].value;
    }
    double ran = now();
    for (uint32_t v = 0; v < vertices; v++) printf("v %u %lld\n", v, (long long)value[v]);
    fprintf(stderr, "read %.3f run %.3f messages %zu\n", read - start, ran - read, sent);
    return 0;
}
