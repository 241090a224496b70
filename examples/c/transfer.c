/* transfer: serves a zone to one connection, or fetches one, over TCP on 127.0.0.1 (RFC 5936).
 *
 *   transfer serve FILE ORIGIN PORT   answers one query for the file's zone, whose relative names are under the origin
 *   transfer fetch NAME PORT          asks for the zone of this name, and prints it */
#include <arpa/inet.h>
#include <fcntl.h>
#include <stdio.h>
#include <stdlib.h>
#include <string.h>
#include <unistd.h>
#include <zonewire.h>

typedef struct {
    uint8_t *at;
    size_t length, room;
} octets;

static void check(int is_well, const char *what) {
    if (!is_well) {
        perror(what);
        exit(1);
    }
}

static void make_room(octets *it, size_t room) {
    it->room = room;
    check((it->at = realloc(it->at, room)) != NULL, "realloc");
}

/* Returns whether a call has to be made again, since its output needed more room. Ends the program after a fault. */
static int needs_room(zonewire_answer answer, octets *out) {
    if (answer.fault != ZONEWIRE_OK) {
        uint8_t text[64];
        answer = zonewire_fault_text(answer.fault, answer.number, text, sizeof text);
        fprintf(stderr, "transfer: %.*s\n", (int)answer.count, (const char *)text);
        exit(1);
    }
    out->length = answer.count;
    if (answer.count <= out->room)
        return 0;
    make_room(out, answer.count);
    return 1;
}

/* Appends the octets that come next. Returns 0 at the end. */
static int read_more(int from, octets *to) {
    if (to->room - to->length < 65537)
        make_room(to, 2 * to->room + 65537);
    ssize_t count = read(from, to->at + to->length, to->room - to->length);
    check(count >= 0, "read");
    to->length += count;
    return count > 0;
}

static void write_all(int to, const uint8_t *at, size_t length) {
    for (ssize_t count; length > 0; at += count, length -= count)
        check((count = write(to, at, length)) > 0, "write");
}

static void serve(int to, const octets *zone, const char *origin, octets *query, octets *stream) {
    size_t length = 0; /* of the query, which comes after these two octets */
    do
        check(read_more(to, query), "query");
    while (query->length < 2 || query->length < 2 + (length = query->at[0] << 8 | query->at[1]));
    while (needs_room(zonewire_send(zone->at, zone->length, (const uint8_t *)origin, strlen(origin), ZONEWIRE_IN,
        query->at + 2, length, 65535, ZONEWIRE_TREE, stream->at, stream->room), stream)) {}
    write_all(to, stream->at, stream->length);
}

static void fetch(int from, const char *name, octets *query, octets *stream, octets *text) {
    while (needs_room(zonewire_query(4660, (const uint8_t *)name, strlen(name), ZONEWIRE_IN, query->at, query->room), query)) {}
    write_all(from, (uint8_t[]){query->length >> 8, query->length & 255}, 2);
    write_all(from, query->at, query->length);
    zonewire_answer answer;
    do
        answer = zonewire_receive(query->at, query->length, stream->at, stream->length, ZONEWIRE_SIMPLE, text->at, text->room);
    while (answer.fault == ZONEWIRE_RECEIVE_UNFINISHED ? read_more(from, stream) : needs_room(answer, text));
    needs_room(answer, text); /* for a stream that ends early */
    write_all(STDOUT_FILENO, text->at, text->length);
}

int main(int count, char **words) {
    int serves = count == 5 && strcmp(words[1], "serve") == 0, tcp = socket(AF_INET, SOCK_STREAM, 0), yes = 1;
    struct sockaddr_in at = {.sin_family = AF_INET, .sin_port = htons(count < 4 ? 0 : atoi(words[count - 1]))};
    octets some[3] = {{NULL, 0, 0}, {NULL, 0, 0}, {NULL, 0, 0}};
    at.sin_addr.s_addr = htonl(INADDR_LOOPBACK);
    if (serves) {
        for (int file = open(words[2], O_RDONLY); read_more(file, &some[0]);) {}
        setsockopt(tcp, SOL_SOCKET, SO_REUSEADDR, &yes, sizeof yes);
        check(bind(tcp, (struct sockaddr *)&at, sizeof at) == 0 && listen(tcp, 1) == 0, "listen");
        serve(accept(tcp, NULL, NULL), &some[0], words[3], &some[1], &some[2]);
    } else {
        check(count == 4 && connect(tcp, (struct sockaddr *)&at, sizeof at) == 0, "connect");
        fetch(tcp, words[2], &some[0], &some[1], &some[2]);
    }
    return free(some[0].at), free(some[1].at), free(some[2].at), 0;
}
