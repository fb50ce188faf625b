/* plain_relay.c: a relay of one link that does no more than it must, as evrelay
 * with --links 1 does it: reads and writes of at most 16,384 bytes, and a wait
 * where neither goes on.  With the words --out-write to-crlf it finds each LF by
 * memchr and copies what stands before it whole.  filters.py takes it in place
 * of evrelay (--kinds none,to-crlf), so that one sees what the filter and the
 * system cost where nothing is proved and nobody is kind to other links.
 *
 *   cc -O2 plain_relay.c -o plain_relay
 *   plain_relay --listen 127.0.0.1:PORT --to 127.0.0.1:PORT --links 1 [--out-write to-crlf] */
#include <arpa/inet.h>
#include <errno.h>
#include <fcntl.h>
#include <netinet/tcp.h>
#include <poll.h>
#include <stdbool.h>
#include <stdlib.h>
#include <string.h>
#include <sys/socket.h>
#include <unistd.h>

enum { PIECE = 16384, HELD = 16384, ROOM = HELD + 2 * PIECE };

static char piece[PIECE], made[ROOM];
static size_t from, to;
static char last;

static struct sockaddr_in address(const char *word)
{
	const char *colon = strchr(word, ':');
	struct sockaddr_in it = { .sin_family = AF_INET, .sin_addr.s_addr = htonl(INADDR_LOOPBACK) };

	it.sin_port = htons(colon ? atoi(colon + 1) : 0);
	return it;
}

/* Whether a call on a socket did something; a connection that broke ends the program. */
static bool went(ssize_t answer)
{
	if (answer < 0 && errno != EAGAIN)
		exit(1);
	return answer >= 0;
}

static void put(const char *bytes, size_t count)
{
	memcpy(made + to, bytes, count);
	to += count;
}

static void put_crlf(const char *bytes, size_t count)
{
	const char *end = bytes + count;

	while (bytes < end) {
		const char *lf = memchr(bytes, '\n', end - bytes), *stop = lf ? lf : end;

		put(bytes, stop - bytes);
		if (stop > bytes)
			last = stop[-1];
		if (lf) {
			put(last == '\r' ? "\n" : "\r\n", last == '\r' ? 1 : 2);
			last = '\n';
		}
		bytes = lf ? lf + 1 : end;
	}
}

/* One way, until the end of what is read was handed on. */
static void relay(int near, int far, bool crlf)
{
	bool ended = false;

	while (!ended || from < to) {
		bool reads = !ended && to - from <= HELD, moved = false;

		if (reads) {
			ssize_t got = read(near, piece, PIECE);

			memmove(made, made + from, to - from);
			to -= from;
			from = 0;
			if (got > 0)
				(crlf ? put_crlf : put)(piece, got);
			ended = got == 0;
			moved = went(got);
		}
		if (from < to) {
			size_t count = to - from < PIECE ? to - from : PIECE;
			ssize_t took = send(far, made + from, count, MSG_NOSIGNAL);

			if (went(took)) {
				from += took;
				moved = true;
			}
		}
		if (!moved) {
			struct pollfd ends[] = { { near, reads ? POLLIN : 0, 0 }, { far, from < to ? POLLOUT : 0, 0 } };

			poll(ends, 2, -1);
		}
	}
	shutdown(far, SHUT_WR);
}

int main(int count, char **words)
{
	struct sockaddr_in listen_at = address(""), to_at = address("");
	int on = 1, listener = socket(AF_INET, SOCK_STREAM, 0), near, far = socket(AF_INET, SOCK_STREAM, 0);
	bool crlf = false;

	for (int i = 1; i + 1 < count; i += 2) {
		if (!strcmp(words[i], "--listen"))
			listen_at = address(words[i + 1]);
		else if (!strcmp(words[i], "--to"))
			to_at = address(words[i + 1]);
		else if (!strcmp(words[i], "--out-write"))
			crlf = !strcmp(words[i + 1], "to-crlf");
	}
	setsockopt(listener, SOL_SOCKET, SO_REUSEADDR, &on, sizeof on);
	if (bind(listener, (struct sockaddr *)&listen_at, sizeof listen_at) || listen(listener, 1))
		return 1;
	near = accept(listener, NULL, NULL);
	if (near < 0 || connect(far, (struct sockaddr *)&to_at, sizeof to_at))
		return 1;
	setsockopt(far, IPPROTO_TCP, TCP_NODELAY, &on, sizeof on);
	fcntl(near, F_SETFL, O_NONBLOCK);
	fcntl(far, F_SETFL, O_NONBLOCK);
	relay(near, far, crlf);
	return 0;
}
