/* What crates/layer_bench does in a round by a word, done by libevent's calls: add, drain, exchange, move, reference, events, common.
   A second word is the number of rounds. */
#include <event2/buffer.h>
#include <event2/event.h>
#include <stdio.h>
#include <stdlib.h>
#include <string.h>

static unsigned char piece[64], referred[1000];
static unsigned long done;

static void released(const void *data, size_t len, void *arg) { (void)data; (void)len; (void)arg; done++; }
static void called(evutil_socket_t fd, short what, void *arg) { (void)fd; (void)what; (void)arg; done++; }

static void pieces(const char *word, long rounds)
{
    struct evbuffer *one = evbuffer_new(), *two = evbuffer_new();
    for (long i = 0; i < rounds; i++) {
        if (!strcmp(word, "reference")) {
            evbuffer_add_reference(one, referred, sizeof referred, released, NULL);
            evbuffer_drain(one, sizeof referred);
            continue;
        }
        evbuffer_add(one, piece, sizeof piece);
        if (!strcmp(word, "drain"))
            evbuffer_drain(one, sizeof piece);
        else if (!strcmp(word, "exchange")) {
            evbuffer_add_buffer(two, one);
            evbuffer_drain(two, sizeof piece);
        } else if (!strcmp(word, "move")) {
            evbuffer_remove_buffer(one, two, sizeof piece / 2);
            evbuffer_drain(one, sizeof piece);
            evbuffer_drain(two, sizeof piece);
        }
    }
    if (strcmp(word, "reference"))
        done = evbuffer_get_length(one) + evbuffer_get_length(two);
}

/* A delay of no time, so that a turn of the loop finds both due without a wait. */
static void events(int is_common, long rounds)
{
    struct event_base *base = event_base_new();
    struct timeval none = {0, 0}, far;
    const struct timeval *delay = is_common ? event_base_init_common_timeout(base, &none) : &none;
    for (int i = 0; i < 1000; i++) {
        far.tv_sec = 10000 + i / 100;
        far.tv_usec = i % 100;
        evtimer_add(evtimer_new(base, called, NULL), &far);
    }
    struct event *each[3];
    for (int i = 0; i < 3; i++)
        each[i] = evtimer_new(base, called, NULL);
    for (long i = 0; i < rounds; i++) {
        for (int k = 0; k < 3; k++)
            evtimer_add(each[k], delay);
        event_del(each[1]);
        event_base_loop(base, EVLOOP_NONBLOCK);
    }
}

int main(int count, char **words)
{
    long rounds = count > 2 ? atol(words[2]) : 65536;
    if (count < 2)
        return 2;
    if (!strcmp(words[1], "events") || !strcmp(words[1], "common"))
        events(!strcmp(words[1], "common"), rounds);
    else if (strcmp(words[1], "nothing"))
        pieces(words[1], rounds);
    printf("%s %lu\n", words[1], done);
    return 0;
}
