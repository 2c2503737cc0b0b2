/*
 * A service that greets over a Unix socket, by a pool of threads that share one library, and that gets more locales
 * while it runs: it builds a library of the new one, joins it with the first, which is not compiled again, and frees the
 * first when its last reader is done.
 *
 * server serve SOCKET FILE   reads the locale sources of FILE, and answers until it is told to stop
 * server ask SOCKET WORDS..  sends the words as one line, and prints the answer: `greet LOCALE NAME`,
 *                            `add LOCALE FILE`, `names`, `stop`
 */
#define _POSIX_C_SOURCE 200809L
#include "locale_objects.h"
#include <pthread.h>
#include <signal.h>
#include <stdio.h>
#include <stdlib.h>
#include <string.h>
#include <sys/socket.h>
#include <sys/un.h>
#include <unistd.h>

/* The threads, the longest line, and the most bytes that are read of a file. */
enum { THREADS = 4, LINE = 512, MOST = 1 << 20 };

/* A library, and how many requests read it. */
typedef struct shelf {
    lobj_library *library;
    int readers;
} shelf;

static pthread_mutex_t lock = PTHREAD_MUTEX_INITIALIZER, adding = PTHREAD_MUTEX_INITIALIZER;
static shelf *current = NULL;
static int listening;

static void end_shelf(shelf *s) {
    lobj_library_free(s->library);
    free(s);
}

static shelf *take(void) {
    pthread_mutex_lock(&lock);
    shelf *s = current;
    s->readers++;
    pthread_mutex_unlock(&lock);
    return s;
}

/* The last who reads a library that is no longer the current one frees it. */
static void give_back(shelf *s) {
    pthread_mutex_lock(&lock);
    const bool is_last = --s->readers == 0 && s != current;
    pthread_mutex_unlock(&lock);
    if (is_last) end_shelf(s);
}

static void replace(shelf *next) {
    pthread_mutex_lock(&lock);
    shelf *before = current;
    current = next;
    const bool is_unread = before != NULL && before->readers == 0;
    pthread_mutex_unlock(&lock);
    if (is_unread) end_shelf(before);
}

/* The text of a file, to be freed; null where there is none. */
static char *text_of(const char *path, size_t *length) {
    FILE *file = fopen(path, "rb");
    char *text = file != NULL ? malloc(MOST) : NULL;
    if (text != NULL) *length = fread(text, 1, MOST, file);
    if (file != NULL) fclose(file);
    return text;
}

/* The library of a text: of a bundle, or of the source of the locale with a name, where there is one. */
static lobj_answer library_of(const char *text, size_t length, const char *name, lobj_library **out, lobj_fault *fault,
                              char *message, size_t size) {
    lobj_builder *builder = NULL;
    if (name == NULL) return lobj_read(text, length, out, fault, message, size);
    lobj_answer answer = lobj_builder_new(&builder);
    if (answer.code != LOBJ_OK) return answer;
    answer = lobj_add(&builder, LOBJ_SOURCE, name, strlen(name), "UTF-8", 5, text, length);
    if (answer.code == LOBJ_OK) answer = lobj_build(builder, out, fault, message, size);
    lobj_builder_free(builder);
    return answer;
}

/* The library of a file on a shelf; on a fault none, and a line that says why. */
static shelf *read_shelf(const char *path, const char *name, char *line, size_t size) {
    char message[LINE / 2] = "";
    lobj_fault fault = { 0, 0, 0, 0, 0, 0 };
    size_t length = 0;
    shelf *made = calloc(1, sizeof *made);
    char *text = text_of(path, &length);
    lobj_answer answer = { LOBJ_NO_MEMORY, 0 };
    if (made != NULL && text != NULL) answer = library_of(text, length, name, &made->library, &fault, message, sizeof message);
    free(text);
    if (answer.code == LOBJ_OK) return made;
    free(made);
    if (text == NULL) snprintf(line, size, "cannot read %s\n", path);
    else if (answer.code == LOBJ_BAD_TEXT) snprintf(line, size, "%u:%u: %s\n", (unsigned)fault.line, (unsigned)fault.column, message);
    else snprintf(line, size, "%s\n", lobj_strerror(answer.code));
    return NULL;
}

static void greet(char *reply, size_t size, const lobj_library *library, const char *locale_name, const char *name) {
    static const lobj_tm time = { 2026, 7, 15, 9, 5, 0, 3, 195, false, 0 };
    static const lobj_amount amount = { 123456, 2 };
    char date[128], price[128];
    lobj_locale locale;
    lobj_posix_locale(library, &locale);
    lobj_answer answer = lobj_newlocale(library, LOBJ_ALL_MASK, locale_name, strlen(locale_name), locale, &locale);
    if (answer.code == LOBJ_OK) answer = lobj_strftime(date, sizeof date, library, locale, "%A %d %B", 8, &time, NULL, 0);
    if (answer.code == LOBJ_OK) answer = lobj_strfmon(price, sizeof price, library, locale, "%n", 2, &amount, 1);
    if (answer.code == LOBJ_OK) snprintf(reply, size, "%s: %s, %s\n", name, date, price);
    else snprintf(reply, size, "%s: %s\n", locale_name, lobj_strerror(answer.code));
}

static void list_names(char *reply, size_t size, const lobj_library *library) {
    char name[64];
    size_t n = 0;
    for (uint32_t i = 1; n < size && lobj_library_name(name, sizeof name, library, i).code == LOBJ_OK; i++) {
        n += (size_t)snprintf(reply + n, size - n, "%s%s", i == 1 ? "" : " ", name);
    }
    if (n + 1 < size) strcpy(reply + n, "\n");
}

static void add(char *reply, size_t size, const char *name, const char *path) {
    shelf *more = read_shelf(path, name, reply, size), *next = calloc(1, sizeof *next);
    pthread_mutex_lock(&adding);
    shelf *before = take();
    if (more != NULL && next != NULL) {
        const lobj_answer answer = lobj_join(before->library, more->library, &next->library);
        snprintf(reply, size, "%s\n", answer.code == LOBJ_OK ? "added" : lobj_strerror(answer.code));
    }
    const bool is_joined = next != NULL && next->library != NULL;
    if (is_joined) replace(next);
    give_back(before);
    pthread_mutex_unlock(&adding);
    if (more != NULL) end_shelf(more);
    if (!is_joined) free(next);
}

static void answer_line(char *reply, size_t size, char *line) {
    char word[16] = "", first[128] = "", second[128] = "";
    const int count = sscanf(line, "%15s %127s %127[^\n]", word, first, second);
    if (count == 3 && strcmp(word, "add") == 0) {
        add(reply, size, first, second);
    } else if (count == 1 && strcmp(word, "stop") == 0) {
        snprintf(reply, size, "stopped\n");
        shutdown(listening, SHUT_RDWR);
    } else {
        shelf *s = take();
        if (count == 3 && strcmp(word, "greet") == 0) greet(reply, size, s->library, first, second);
        else if (count == 1 && strcmp(word, "names") == 0) list_names(reply, size, s->library);
        else snprintf(reply, size, "what?\n");
        give_back(s);
    }
}

static void *serve(void *nothing) {
    for (int peer; (peer = accept(listening, NULL, NULL)) >= 0; close(peer)) {
        char line[LINE] = "", reply[LINE] = "";
        if (read(peer, line, sizeof line - 1) <= 0) continue;
        answer_line(reply, sizeof reply, line);
        if (write(peer, reply, strlen(reply)) < 0) perror("server: write");
    }
    return nothing;
}

static int ask(int peer, char **words) {
    char line[LINE] = "", reply[LINE];
    size_t n = 0;
    for (int i = 0; words[i] != NULL && n < sizeof line; i++) {
        n += (size_t)snprintf(line + n, sizeof line - n, "%s%s", i == 0 ? "" : " ", words[i]);
    }
    if (write(peer, line, strlen(line)) < 0) return 1;
    const ssize_t got = read(peer, reply, sizeof reply);
    return got <= 0 || fwrite(reply, 1, (size_t)got, stdout) != (size_t)got;
}

int main(int count, char **words) {
    struct sockaddr_un address = { .sun_family = AF_UNIX };
    pthread_t threads[THREADS];
    char line[LINE];
    const bool serves = count == 4 && strcmp(words[1], "serve") == 0;
    if (!serves && !(count > 3 && strcmp(words[1], "ask") == 0)) {
        fprintf(stderr, "usage: server serve SOCKET FILE, or server ask SOCKET WORDS..\n");
        return 2;
    }
    signal(SIGPIPE, SIG_IGN);
    snprintf(address.sun_path, sizeof address.sun_path, "%s", words[2]);
    listening = socket(AF_UNIX, SOCK_STREAM, 0);
    if (!serves) {
        if (connect(listening, (struct sockaddr *)&address, sizeof address) == 0) return ask(listening, words + 3);
        perror("server: connect");
        return 1;
    }
    current = read_shelf(words[3], NULL, line, sizeof line);
    if (current == NULL) {
        fprintf(stderr, "server: %s", line);
        return 1;
    }
    /* the socket has its name once the service listens, so that nobody who sees it is refused */
    snprintf(address.sun_path, sizeof address.sun_path, "%s.new", words[2]);
    if (bind(listening, (struct sockaddr *)&address, sizeof address) != 0 || listen(listening, 64) != 0 ||
        rename(address.sun_path, words[2]) != 0) {
        perror("server: listen");
        return 1;
    }
    for (int i = 0; i < THREADS; i++) {
        if (pthread_create(&threads[i], NULL, serve, NULL) != 0) return 1;
    }
    for (int i = 0; i < THREADS; i++) pthread_join(threads[i], NULL);
    end_shelf(current);
    unlink(words[2]);
    return 0;
}
