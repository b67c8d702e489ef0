// SPDX-License-Identifier: GPL-2.0 OR MIT
/*
 * The session of libdnlab: writes its lines, and reads its replies.
 *
 * Each input line is a line of the transcript, and each output line is a line of
 * the report. `deliver` and `drop` in the report are the events; the reply
 * `packet P` has the number by which the report names a packet.
 *
 * Each line costs a call, and calls are the cost of a packet, so there are few
 * lines: the replies also have the time of the next event (`#> next on`), and the
 * line of a packet or a command advances time by itself.
 */
#include <stdlib.h>
#include <string.h>
#include <sys/mman.h>
#include <dnlab.h>
#include "link_internal.h"

enum { ROOM = 1 << 20, MAX_EVENTS = 1 << 17, MAX_PACKETS = 1 << 24 };

static dnlab_session session;
static dnlab_answer answer;
static FILE *transcript, *report;
/* The time of the session, or a later one if the session still has to catch up. */
static uint64_t now, next_due = DN_NEVER;
static int is_open, is_over, is_ending, is_refused, is_behind, next_command;
static struct {
	unsigned long long injected, delivered, dropped, calls, refused;
	int is_spent;			/* the experiment's steps ran out */
	unsigned long long spent_at;
	char counters[256];		/* the last line of the report */
} counts;

static char *room;
static size_t room_bytes;
static const char *line_in;
static size_t line_bytes;

static void **in_flight;		/* by number */
static void *injected;			/* until its number is known */
static uint64_t early_drop = DN_NEVER;	/* the number of a drop that precedes it */
static struct dn_event *events;
static int event_count;

static void take_line(void)
{
	dnlab_take(&session, (const uint8_t *)line_in, line_bytes, (uint8_t *)room,
		   room_bytes - 64, &answer);
}

static void open_session(void)
{
	dnlab_open(&session, &answer);
}

static void close_session(void)
{
	dnlab_close(&session, &answer);
}

static uint64_t number_of(const char **at)
{
	uint64_t number = 0;

	while (**at >= '0' && **at <= '9')
		number = number * 10 + (uint64_t)(*(*at)++ - '0');
	return number;
}

static void add_event(uint64_t time, void *payload, int is_drop)
{
	if (event_count == MAX_EVENTS) {
		dn_warn("dnlab: more than %d events at once\n", MAX_EVENTS);
		abort();
	}
	events[event_count].time = time;
	events[event_count].payload = payload;
	events[event_count++].is_drop = is_drop;
	if (is_drop)
		counts.dropped++;
	else
		counts.delivered++;
}

/* Reads a line of the report: `TIME deliver P plain`, `TIME drop P plain CAUSE`. */
static void read_record(const char *line, size_t bytes)
{
	const char *at = line;
	uint64_t time, number;
	int is_drop;

	if (report)
		fwrite(line, 1, bytes + 1, report);
	if (!memcmp(line, "counters ", 9)) {
		snprintf(counts.counters, sizeof(counts.counters), "%.*s", (int)bytes, line);
		return;
	}
	time = number_of(&at);
	if (at == line)
		return;
	is_drop = !memcmp(at, " drop ", 6);
	if (!is_drop && memcmp(at, " deliver ", 9))
		return;
	at += is_drop ? 6 : 9;
	number = number_of(&at);
	if (memcmp(at, " plain", 6))
		return;
	if (number < MAX_PACKETS && in_flight[number]) {
		add_event(time, in_flight[number], is_drop);
		in_flight[number] = NULL;
	} else {
		early_drop = number;
	}
}

static void take_number(uint64_t number)
{
	if (number == early_drop)
		add_event(now, injected, 1);
	else if (number < MAX_PACKETS)
		in_flight[number] = injected;
	injected = NULL;
}

static void spend(uint64_t time)
{
	now = time;
	if (is_over || is_ending)
		return;
	is_over = counts.is_spent = 1;
	counts.spent_at = time;
	dn_warn("dnlab: the steps of the experiment ran out %llu ns after time 0\n",
		(unsigned long long)time);
}

/* Reads a reply, `#< ..`, from its first word on: `now U next M` and the like. */
static void read_answer(const char *text)
{
	const char *value = text + strcspn(text, " "), *next = strstr(text, "next ");

	value += *value == ' ';
	if (next) {
		next += 5;
		next_due = *next == 'n' ? DN_NEVER : number_of(&next);
	}
	if (!memcmp(text, "packet ", 7)) {
		take_number(number_of(&value));
	} else if (!memcmp(text, "now ", 4)) {
		now = number_of(&value);
	} else if (!memcmp(text, "over ", 5)) {
		spend(number_of(&value));
	} else if (!memcmp(text, "fault", 5) || !memcmp(text, "refused", 7)) {
		is_refused = 1;
		dn_warn("dnlab: %.60s: %.*s\n", text, (int)line_bytes, line_in);
	}
	early_drop = DN_NEVER;
}

/* Fetches the output that the last call kept, because the room was too small. */
static int enlarge_room(void)
{
	size_t bytes = line_bytes;

	munmap(room, room_bytes);
	room_bytes = answer.length * 2 + 64;
	room = dn_map(room_bytes);
	if (!room)
		return -1;
	line_bytes = 0;
	dn_on_big_stack(take_line);
	line_bytes = bytes;
	return 0;
}

/* Passes a line to the session. Returns 0, or -1 if the line is refused. */
static int take(const char *line, size_t bytes)
{
	char *at, *feed, *end;

	if (!is_open)
		return -1;
	counts.calls++;
	is_refused = 0;
	line_in = line;
	line_bytes = bytes;
	dn_on_big_stack(take_line);
	while (answer.status == DNLAB_ROOM)
		if (enlarge_room())
			break;
	if (answer.status != DNLAB_DONE || !room) {
		dn_warn("dnlab: out of memory (status %u)\n", answer.status);
		is_open = 0;
		is_over = 1;
		return -1;
	}
	for (at = room, end = room + answer.length; at < end; at = feed + 1) {
		feed = memchr(at, '\n', (size_t)(end - at));
		if (!feed)
			break;
		if (at[0] != '#') {
			read_record(at, (size_t)(feed - at));
		} else if (at[1] == '<') {
			*feed = 0;
			read_answer(at + 3);
		}
	}
	if (transcript && line[0] != '#' && !is_refused) {
		fwrite(line, 1, bytes, transcript);
		fputc('\n', transcript);
	}
	return is_refused ? -1 : 0;
}

static void until(uint64_t time)
{
	char line[60], *at = dn_put_number(dn_put_text(line, "#> until @"), time);

	take(line, (size_t)(at - line));
}

/* Advances the session to `now`. */
static void catch_up(void)
{
	if (is_behind && !is_over)
		until(now);
	is_behind = 0;
}

int dn_command(const char *words)
{
	char line[DN_LINE + 40], *at = line;

	if (is_over || strlen(words) >= DN_LINE)
		return -1;
	*at++ = '@';
	at = dn_put_number(at, now);
	*at++ = ' ';
	at = dn_put_text(at, words);
	is_behind = 0;
	return take(line, (size_t)(at - line));
}

void dn_advance(unsigned long long time)
{
	const struct dn_timed *command;

	if (time >= now)
		catch_up();
	while (!is_over && next_command < dn_conf.command_count) {
		command = &dn_conf.commands[next_command];
		if (command->time > time)
			break;
		if (command->time > now)
			now = command->time;
		next_command++;
		counts.refused += dn_command(command->words) != 0;
	}
	if (is_over || time < now)
		return;
	/* The next line carries the time, or catch_up does. */
	is_behind |= next_due <= time;
	now = time + (next_due <= time);
}

int dn_inject(int host, const unsigned char *packet, unsigned int bytes, void *payload)
{
	char line[120], *at = line;

	if (is_over)
		return -1;
	*at++ = '@';
	at = dn_put_number(at, now);
	*at++ = ' ';
	at = dn_inject_words(at, packet, bytes);
	dn_capture(host, now, packet, bytes);
	injected = payload;
	counts.injected++;
	is_behind = 0;
	take(line, (size_t)(at - line));
	if (!injected)
		return 0;
	injected = NULL;
	return -1;
}

unsigned long long dn_due(void)
{
	uint64_t due;

	catch_up();
	if (is_over)
		return DN_NEVER;
	due = next_due;
	if (next_command < dn_conf.command_count &&
	    dn_conf.commands[next_command].time < due)
		due = dn_conf.commands[next_command].time;
	return due;
}

int dn_events(const struct dn_event **first)
{
	catch_up();
	*first = events;
	return event_count;
}

void dn_clear(void)
{
	event_count = 0;
}

int dn_is_over(void)
{
	return is_over;
}

int dn_format_counts(char *text, int room)
{
	int bytes = snprintf(text, (size_t)room,
			     "injected %llu\ndelivered %llu\ndropped %llu\nrefused %llu\n"
			     "calls %llu\nspent %d\n",
			     counts.injected, counts.delivered, counts.dropped, counts.refused,
			     counts.calls, counts.is_spent);

	if (counts.is_spent)
		bytes += snprintf(text + bytes, (size_t)(room - bytes), "spent_at %llu\n",
				  counts.spent_at);
	if (counts.counters[0])
		bytes += snprintf(text + bytes, (size_t)(room - bytes), "%s\n",
				  counts.counters);
	return bytes;
}

int dn_end(void)
{
	int status = 0;

	if (!is_open)
		return 0;
	/* An experiment whose steps ran out is open until its `end`, too. */
	is_ending = 1;
	is_over = 0;
	dn_command("end");
	dn_on_big_stack(close_session);
	is_open = 0;
	is_over = 1;
	status |= dn_close_file(transcript, dn_conf.transcript);
	status |= dn_close_file(report, dn_conf.report);
	status |= dn_close_captures();
	transcript = report = NULL;
	return status;
}

int dn_host_count(void)
{
	return dn_conf.host_count;
}

const char *dn_host_name(int host)
{
	return dn_conf.hosts[host].name;
}

const unsigned char *dn_host_address(int host)
{
	return dn_conf.hosts[host].address;
}

int dn_host_of(const unsigned char *address)
{
	int i;

	for (i = 0; i < dn_conf.host_count; i++)
		if (!memcmp(dn_conf.hosts[i].address, address, 4))
			return i;
	return -1;
}

static int open_files(void)
{
	if (dn_conf.transcript[0] && !(transcript = dn_create(dn_conf.transcript)))
		return -1;
	if (dn_conf.report[0] && !(report = dn_create(dn_conf.report)))
		return -1;
	return dn_open_captures();
}

int dn_open(const char *path)
{
	char line[120];

	if (dn_read_conf(path) || open_files())
		return -1;
	room_bytes = ROOM;
	room = dn_map(ROOM);
	events = dn_map(MAX_EVENTS * sizeof(*events));
	in_flight = dn_map(MAX_PACKETS * sizeof(*in_flight));
	if (room && events && in_flight)
		dn_on_big_stack(open_session);
	if (!room || !events || !in_flight || answer.status != DNLAB_DONE) {
		dn_warn("dnlab: out of memory\n");
		return -1;
	}
	is_open = 1;
	snprintf(line, sizeof(line), "experiment hosts seed %llu budget 65535 steps %llu",
		 (unsigned long long)dn_conf.seed, (unsigned long long)dn_conf.steps);
	if (take(line, strlen(line)) || take("#> next on", 10))
		return -1;
	return dn_conf.report[0] ? 0 : take("#> show mine", 12);
}
