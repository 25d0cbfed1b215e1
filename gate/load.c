/* Asks a server on this machine as fast as it answers, and checks what comes back. No part of the gate: gate/loads.py
   compiles and runs it.

   load PROTOCOL PORT CLIENTS WRITES BATCH WINDOW DOMAINS KEYS KIND

   PROTOCOL is frames, those of docs/FORMATS.md, or resp, which Redis speaks: there a domain is a key and its document the
   value, a get is GET, a set is SET, and a fetch-all is MGET of all domains. Each client has a connection and a thread of
   its own. It sends WRITES writes of BATCH requests each, of which at most WINDOW are unanswered at any time, and reads the
   replies. KIND is g for gets, s for sets, m for nine gets and a set, f for fetch-alls, c for a set and a fetch-all in
   turn, p for a set of each domain in turn, and v for a get of each. Other domains are chosen at random among DOMAINS. A
   document has KEYS authorities; it is a canonical text, and its first key says which domain it is of and which change it
   came by. So each set changes the bundle, and all documents are equally long.

   A reply has to be the one of its request: a get's has the domain's document, and a fetch-all's has DOMAINS documents. The
   lengths of all documents are checked; and the bytes of one in 64, but of all by v. Any refusal fails, but one that gives
   up (41 or 42), which is counted. The answer is one line: replies a second, bytes a second, how many requests were given
   up, and the microseconds of the slowest write until its last reply. */
#include <arpa/inet.h>
#include <netinet/tcp.h>
#include <pthread.h>
#include <stdio.h>
#include <stdlib.h>
#include <string.h>
#include <sys/socket.h>
#include <time.h>

enum { MOST_KEYS = 12, ROOM = 1 << 20, DOCUMENT = 64 + 200 * MOST_KEYS, HEAD = 128, NAME = 64, SHOWN = 60 };
enum { MOVED = 41, HELD = 42, GIVEN_UP = 'g', WRONG = '?' };
/* What stands first in the first key's x: the domain's number and the change's, in letters of base64url. */
enum { DOMAIN_LETTERS = 4, CHANGE_LETTERS = 6, MARK = DOMAIN_LETTERS + CHANGE_LETTERS };

static int is_resp, port, batch, window, domains, keys;
static long writes;
static char kind;

/* The document of the first domain before any change, how long it is and where its mark begins; and the request for all. */
static char document[DOCUMENT], *all_request;
static int document_size, mark_at;
static size_t all_size;

typedef struct {
    long number, sent, replies, given_up, bytes, items;
    unsigned chance, seen;
    unsigned long change;
    double worst;
    int failed;
} Client;

/* A reply, or one document of a fetch-all's reply. */
typedef struct {
    /* s stored, f found, a all, i one document of all. */
    int code;
    /* Of all its bytes; 0 if they have not all come. */
    size_t size;
    const char *text;
    long length, items;
} Part;

static double now(void) {
    struct timespec at;
    clock_gettime(CLOCK_MONOTONIC, &at);
    return at.tv_sec + at.tv_nsec * 1e-9;
}

/* A number in letters of base64url, the lowest six bits last. */
static void put_number(char *out, unsigned long number, int letters) {
    static const char alphabet[] = "ABCDEFGHIJKLMNOPQRSTUVWXYZabcdefghijklmnopqrstuvwxyz0123456789-_";
    for (; letters > 0; number >>= 6)
        out[--letters] = alphabet[number & 63];
}

/* Keys of the curve P-256 that differ in the last byte of x. */
static void make_document(void) {
    static const char zeros[] = "AAAAAAAAAAAAAAAAAAAAAAAAAAAAAAAAAAAAAAAAAA", last[] = "AEIMQUYcgkos";
    int size = sprintf(document, "{\"keys\":[");
    for (int key = 0; key < keys; key++)
        size += sprintf(document + size,
                        "%s{\"crv\":\"P-256\",\"kty\":\"EC\",\"use\":\"x509-svid\",\"x\":\"%s%c\",\"x5c\":[\"MAA=\"],"
                        "\"y\":\"%sA\"}",
                        key ? "," : "", zeros, last[key], zeros);
    document_size = size + sprintf(document + size, "],\"spiffe_sequence\":1}");
    mark_at = strstr(document, zeros) - document;
}

static int put_document(char *out, unsigned domain, unsigned long change) {
    memcpy(out, document, document_size);
    put_number(out + mark_at, domain, DOMAIN_LETTERS);
    put_number(out + mark_at + DOMAIN_LETTERS, change, CHANGE_LETTERS);
    return document_size;
}

static int put_name(char *out, unsigned domain) {
    return sprintf(out, "td-%u.example.org", domain);
}

static size_t put_frame(char *out, char letter, unsigned domain, unsigned long change) {
    char *payload = out + 4;
    int size = 1;
    payload[0] = letter;
    if (letter != 'F')
        size += 1 + (payload[1] = put_name(payload + 2, domain));
    if (letter == 'S')
        size += put_document(payload + size, domain, change);
    unsigned length = htonl(size);
    memcpy(out, &length, 4);
    return 4 + size;
}

static size_t put_command(char *out, char letter, unsigned domain, unsigned long change) {
    char name[NAME];
    int length = put_name(name, domain), size;
    if (letter == 'G')
        return sprintf(out, "*2\r\n$3\r\nGET\r\n$%d\r\n%s\r\n", length, name);
    size = sprintf(out, "*3\r\n$3\r\nSET\r\n$%d\r\n%s\r\n$%d\r\n", length, name, document_size);
    size += put_document(out + size, domain, change);
    return size + sprintf(out + size, "\r\n");
}

static void make_all_request(void) {
    char name[NAME];
    all_request = malloc(HEAD + (size_t)domains * NAME);
    if (!is_resp) {
        all_size = put_frame(all_request, 'F', 0, 0);
        return;
    }
    all_size = sprintf(all_request, "*%d\r\n$4\r\nMGET\r\n", domains + 1);
    for (int domain = 0; domain < domains; domain++) {
        int length = put_name(name, domain);
        all_size += sprintf(all_request + all_size, "$%d\r\n%s\r\n", length, name);
    }
}

/* The letter of a client's request, by its number. */
static char letter_of(long number) {
    switch (kind) {
    case 'f': return 'F';
    case 'g':
    case 'v': return 'G';
    case 'm': return number % 10 == 9 ? 'S' : 'G';
    case 'c': return number % 2 ? 'F' : 'S';
    default: return 'S';
    }
}

/* The domain of a client's request. */
static unsigned next_domain(unsigned *chance, long number) {
    *chance = *chance * 1664525u + 1013904223u;
    return (kind == 'p' || kind == 'v' ? (unsigned)number : *chance >> 8) % domains;
}

static size_t put_request(char *out, Client *client, long number) {
    unsigned domain = next_domain(&client->chance, number);
    unsigned long change = kind == 'p' ? 0 : client->change++;
    char letter = letter_of(number);
    if (letter == 'F') {
        memcpy(out, all_request, all_size);
        return all_size;
    }
    return (is_resp ? put_command : put_frame)(out, letter, domain, change);
}

static unsigned number_at(const char *bytes) {
    unsigned number;
    memcpy(&number, bytes, 4);
    return ntohl(number);
}

static Part frame_at(const char *bytes, size_t have) {
    if (have < 4 || have - 4 < number_at(bytes))
        return (Part){0};
    const char *payload = bytes + 4;
    long length = number_at(bytes), head = 1;
    Part part = {.code = payload[0], .size = 4 + length};
    if (part.code == MOVED || part.code == HELD)
        part.code = GIVEN_UP;
    if (part.code == 'i')
        head = 2 + (unsigned char)payload[1];
    if (part.code == 'a' && length == 9)
        part.items = number_at(payload + 5);
    part.text = payload + head;
    part.length = length - head;
    return part;
}

/* A text that Redis sends is a value of a list if it is one of those that the list's head has announced. */
static Part reply_at(const char *bytes, size_t have, int is_listed) {
    const char *end = memchr(bytes, '\n', have);
    if (!end)
        return (Part){0};
    size_t line = end + 1 - bytes;
    long number = strtol(bytes + 1, 0, 10);
    if (bytes[0] == '$' && number >= 0) {
        if (have - line < (size_t)number + 2)
            return (Part){0};
        return (Part){.code = is_listed ? 'i' : 'f', .size = line + number + 2, .text = bytes + line, .length = number};
    }
    if (bytes[0] == '*')
        return (Part){.code = 'a', .size = line, .items = number};
    int code = line == 5 && !memcmp(bytes, "+OK", 3) ? 's' : WRONG;
    return (Part){.code = code, .size = line, .text = bytes, .length = line};
}

/* Whether a text is a document: the one of this domain, unless it is -1. */
static int is_document(const Part *part, long domain, int is_looked_at) {
    char mark[DOMAIN_LETTERS];
    int rest = mark_at + MARK;
    if (part->length != document_size)
        return 0;
    put_number(mark, domain, DOMAIN_LETTERS);
    if (domain >= 0 && memcmp(part->text + mark_at, mark, DOMAIN_LETTERS))
        return 0;
    return !is_looked_at ||
           (!memcmp(part->text, document, mark_at) && !memcmp(part->text + rest, document + rest, document_size - rest));
}

/* Whether it answers the request that is the next to be answered. */
static int is_right(Client *client, const Part *part) {
    int is_looked_at = kind == 'v' || (client->replies + client->items) % 64 == 0;
    if (client->items > 0)
        return part->code == 'i' && is_document(part, -1, is_looked_at);
    if (client->replies == client->sent * batch)
        return 0;
    unsigned domain = next_domain(&client->seen, client->replies);
    switch (letter_of(client->replies)) {
    case 'G': return part->code == GIVEN_UP || (part->code == 'f' && is_document(part, domain, is_looked_at));
    case 'F': return part->code == GIVEN_UP || (part->code == 'a' && part->items == domains);
    default: return part->code == GIVEN_UP || part->code == 's';
    }
}

/* Takes whole parts off the front, and answers how many bytes they have. */
static size_t take_parts(Client *client, const char *bytes, size_t have) {
    size_t taken = 0;
    while (!client->failed) {
        const char *at = bytes + taken;
        Part part = is_resp ? reply_at(at, have - taken, client->items > 0) : frame_at(at, have - taken);
        if (!part.size)
            break;
        client->failed = !is_right(client, &part);
        if (client->failed)
            fprintf(stderr, "load: wrong after %ld replies: %d and a text of %ld: %.*s\n", client->replies, part.code,
                    part.length, (int)(part.length < SHOWN ? part.length : SHOWN), part.text);
        taken += part.size;
        client->replies += part.code != 'i';
        client->items += part.code == 'i' ? -1 : part.items;
        client->given_up += part.code == GIVEN_UP;
    }
    return taken;
}

static int connected(void) {
    int stream = socket(AF_INET, SOCK_STREAM, 0), one = 1;
    struct sockaddr_in at = {.sin_family = AF_INET, .sin_port = htons(port), .sin_addr.s_addr = htonl(INADDR_LOOPBACK)};
    if (connect(stream, (void *)&at, sizeof at))
        return -1;
    setsockopt(stream, IPPROTO_TCP, TCP_NODELAY, &one, sizeof one);
    return stream;
}

static int send_write(Client *client, int stream, char *out) {
    size_t size = 0;
    for (int place = 0; place < batch; place++)
        size += put_request(out + size, client, client->sent * batch + place);
    client->sent++;
    for (size_t gone = 0; gone < size;) {
        ssize_t count = send(stream, out + gone, size - gone, MSG_NOSIGNAL);
        if (count <= 0)
            return 0;
        gone += count;
    }
    return 1;
}

static void *run(void *of) {
    Client *client = of;
    size_t request = HEAD + DOCUMENT + (kind == 'f' || kind == 'c' ? all_size : 0), have = 0;
    char *out = malloc(batch * request), *in = malloc(ROOM);
    double *since = calloc(window, sizeof *since);
    long done = 0;
    int stream = connected();
    client->failed = stream < 0;
    client->chance = client->seen = 12345 + client->number * 77777;
    client->change = (unsigned long)(now() * 1e6) + ((unsigned long)client->number << 30);
    while (!client->failed && (client->replies < writes * batch || client->items > 0)) {
        while (!client->failed && client->sent < writes && client->sent * batch - client->replies < (long)window * batch) {
            since[client->sent % window] = now();
            client->failed = !send_write(client, stream, out);
        }
        ssize_t count = client->failed ? 0 : recv(stream, in + have, ROOM - have, 0);
        if (count <= 0) {
            client->failed = 1;
            break;
        }
        client->bytes += count;
        size_t taken = take_parts(client, in, have += count);
        memmove(in, in + taken, have -= taken);
        for (; done < client->replies / batch; done++) {
            double took = now() - since[done % window];
            client->worst = took > client->worst ? took : client->worst;
        }
    }
    client->failed |= have > 0;
    return 0;
}

/* Starts the clients, waits for them and tells what they were given. */
static int ask(int clients) {
    pthread_t *threads = calloc(clients, sizeof *threads);
    Client *all = calloc(clients, sizeof *all), sum = {0};
    double began = now();
    for (long number = 0; number < clients; number++) {
        all[number].number = number;
        pthread_create(&threads[number], 0, run, &all[number]);
    }
    for (int number = 0; number < clients; number++) {
        pthread_join(threads[number], 0);
        sum.replies += all[number].replies, sum.bytes += all[number].bytes, sum.given_up += all[number].given_up;
        sum.worst = all[number].worst > sum.worst ? all[number].worst : sum.worst;
        sum.failed |= all[number].failed;
    }
    double took = now() - began;
    printf("%.0f replies/s, %.0f bytes/s, %ld given up, worst %.0f us%s\n", sum.replies / took, sum.bytes / took,
           sum.given_up, sum.worst * 1e6, sum.failed ? ", FAILED" : "");
    return sum.failed;
}

int main(int count, char **words) {
    if (count != 10 || (strcmp(words[1], "frames") && strcmp(words[1], "resp"))) {
        fprintf(stderr, "usage: load frames|resp PORT CLIENTS WRITES BATCH WINDOW DOMAINS KEYS KIND\n");
        return 2;
    }
    int clients = atoi(words[3]);
    is_resp = words[1][0] == 'r', port = atoi(words[2]), writes = atol(words[4]), batch = atoi(words[5]);
    window = atoi(words[6]), domains = atoi(words[7]), keys = atoi(words[8]), kind = words[9][0];
    if (clients < 1 || batch < 1 || window < 1 || domains < 1 || keys < 1 || keys > MOST_KEYS) {
        fprintf(stderr, "load: a number is out of range\n");
        return 2;
    }
    make_document();
    make_all_request();
    return ask(clients);
}
