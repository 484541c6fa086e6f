/* watch_log.c - the lines that the handler "mbufpool_watch" logs. */
#include <inttypes.h>
#include <stdio.h>
#include <string.h>

#include <rte_log.h>

#include "watch.h"

#define LAST_TEXT (CALL_TEXT + PLACE_TEXT + 64) /* bytes of who, where and how */
#define FINDING_TEXT 160

#define LOG(level, s, format, ...) \
	rte_log(RTE_LOG_##level, RTE_LOGTYPE_MEMPOOL, "mbufpool_watch: pool %s: " format "\n", \
		(s)->mp->name, __VA_ARGS__)

/* ---- what is watched ---- */

void
watch_log_begin(const struct watch *s)
{
	LOG(NOTICE, s, "%" PRIu32 " of its %" PRIu32 " mbufs are watched, and one in %" PRIu64
		" that is got is one of them; over %s", s->count, s->mp->size, s->wishes.every, s->wishes.over);
}

void
watch_log_none(const struct watch *s, const char *reason)
{
	LOG(NOTICE, s, "nothing of it is watched: %s", reason);
}

void
watch_log_over(const struct rte_mempool *mp, const char *over, const char *reason)
{
	rte_log(RTE_LOG_ERR, RTE_LOGTYPE_MEMPOOL,
		"mbufpool_watch: pool %s: MBUFPOOL_WATCH_OVER: the handler %s %s\n", mp->name, over, reason);
}

void
watch_log_wish(const char *name, const char *wish, uint64_t least, uint64_t most)
{
	rte_log(RTE_LOG_WARNING, RTE_LOGTYPE_MEMPOOL, "mbufpool_watch: %s=%s is no number of %" PRIu64
		" to %" PRIu64 ", and isn't used\n", name, wish, least, most);
}

void
watch_log_ports(const char *reason)
{
	static int is_told;

	if (!__atomic_exchange_n(&is_told, 1, __ATOMIC_RELAXED))
		rte_log(RTE_LOG_WARNING, RTE_LOGTYPE_MEMPOOL,
			"mbufpool_watch: not all ports are watched: %s\n", reason);
}

void
watch_log_idle(const struct watch *s, uint64_t seen, uint64_t packets)
{
	LOG(NOTICE, s, "no mbuf was given to be watched for %" PRIu64 " s, in which %" PRIu64
		" objects came from the handler, and %" PRIu64 " packets from watched ports: one in %" PRIu64
		" would be", s->wishes.idle, seen, packets, s->wishes.every);
}

void
watch_log_fault(struct watch *s, const char *call, uint32_t cause)
{
	if (!__atomic_exchange_n(&s->is_fault_told, 1, __ATOMIC_RELAXED))
		LOG(ERR, s, "a %s of a watched mbuf was refused: %" PRIu32 ", %s", call, cause,
			mbufpool_strerror(cause));
}

/* ---- who, where and how ---- */

/* Writes "put before by lcore 0 at app+0x8398", say, or what is said where nobody has. */
static const char *
put_text(const char *put, const struct past *past, char *text)
{
	char lcore[CALL_TEXT], place[PLACE_TEXT];

	if (past->put == 0)
		snprintf(text, LAST_TEXT, "never put");
	else
		snprintf(text, LAST_TEXT, "%s %sby %s at %s", put,
			past->how_put == IN_A_LIST ? "in a list " : "", caller_lcore_text(past->put, lcore),
			caller_place_text(past->put, place));
	return text;
}

static const char *
got_text(const struct past *past, char *text)
{
	char lcore[CALL_TEXT], place[PLACE_TEXT], how[CALL_TEXT];

	if (past->got == 0) {
		snprintf(text, LAST_TEXT, "never got");
		return text;
	}
	if (past->how_got == FROM_A_PORT)
		snprintf(how, sizeof(how), "received from port %u", past->port);
	else
		snprintf(how, sizeof(how), past->how_got == ALONE ? "got" : "got with others");
	snprintf(text, LAST_TEXT, "%s by %s at %s", how, caller_lcore_text(past->got, lcore),
		caller_place_text(past->got, place));
	return text;
}

/* (where it was given more often than once, the one who put it before may have been right) */
static const char *
again_text(const struct past *past, char *text)
{
	text[0] = 0;
	if (past->gets > 1)
		snprintf(text, CALL_TEXT, "; or an earlier owner puts it late: it was given %" PRIu32 " times",
			past->gets);
	return text;
}

/* ---- what is found ---- */

void
watch_log_left_out(struct watch *s)
{
	uint64_t n;

	n = take_left_out(&s->limit_refused);
	if (n != 0)
		LOG(ERR, s, "%" PRIu64 " more puts were refused, whose lines are left out", n);
	n = take_left_out(&s->limit_written);
	if (n != 0)
		LOG(ERR, s, "%" PRIu64 " more writes after a free are left out", n);
	n = take_left_out(&s->limit_old);
	if (n != 0)
		LOG(WARNING, s, "%" PRIu64 " more places of mbufs that are out for long are left out", n);
}

void
watch_log_refused(struct watch *s, uint32_t number, const struct past *past, caller by, unsigned int how)
{
	char lcore[CALL_TEXT], place[PLACE_TEXT], put[LAST_TEXT], got[LAST_TEXT], again[CALL_TEXT];

	if (!take_line(&s->limit_refused))
		return;
	watch_log_left_out(s);
	LOG(ERR, s, "mbuf %p (watched %" PRIu32 ") is put %sby %s at %s and isn't out: %s, %s%s",
		(void *)s->all[number].mbuf, number, how == IN_A_LIST ? "in a list " : "",
		caller_lcore_text(by, lcore), caller_place_text(by, place),
		put_text("put before", past, put), got_text(past, got), again_text(past, again));
}

/* The field of the header that has this byte. */
static const char *
field_at(size_t at)
{
#define FIELD(name) { offsetof(struct rte_mbuf, name), sizeof(((struct rte_mbuf *)0)->name), #name }
	static const struct {
		size_t from, bytes;
		const char *name;
	} fields[] = { FIELD(buf_addr), FIELD(data_off), FIELD(refcnt), FIELD(nb_segs), FIELD(port),
		FIELD(ol_flags), FIELD(packet_type), FIELD(pkt_len), FIELD(data_len), FIELD(vlan_tci),
		FIELD(hash), FIELD(vlan_tci_outer), FIELD(buf_len), FIELD(pool), FIELD(next),
		FIELD(tx_offload), FIELD(shinfo), FIELD(priv_size), FIELD(timesync), FIELD(dynfield1) };
	size_t i;

	for (i = 0; i < RTE_DIM(fields); i++)
		if (at - fields[i].from < fields[i].bytes)
			return fields[i].name;
	return "no field";
}

/* Writes "2 bytes of its header from 18 (refcnt) on: 02 00". */
static const char *
finding_text(const struct finding *found, char *text)
{
	int length = snprintf(text, FINDING_TEXT, "%zu byte%s of its %s from %zu", found->bytes,
		found->bytes == 1 ? "" : "s", found->part, found->at);
	size_t i;

	if (strcmp(found->part, "header") == 0)
		length += snprintf(text + length, FINDING_TEXT - length, " (%s)", field_at(found->at));
	length += snprintf(text + length, FINDING_TEXT - length, " on:");
	for (i = 0; i < RTE_MIN(found->bytes, sizeof(found->sample)); i++)
		length += snprintf(text + length, FINDING_TEXT - length, " %02x", found->sample[i]);
	if (found->bytes > sizeof(found->sample))
		snprintf(text + length, FINDING_TEXT - length, " ..");
	return text;
}

void
watch_log_written(struct watch *s, uint32_t number, const struct past *past, const struct finding *found)
{
	char what[FINDING_TEXT], put[LAST_TEXT], got[LAST_TEXT];

	if (!take_line(&s->limit_written))
		return;
	watch_log_left_out(s);
	LOG(ERR, s, "mbuf %p (watched %" PRIu32 ") was written after its free, %s; %s, %s",
		(void *)s->all[number].mbuf, number, finding_text(found, what),
		put_text("freed", past, put), got_text(past, got));
}

void
watch_log_old(struct watch *s, const struct tally *t)
{
	char lcore[CALL_TEXT], place[PLACE_TEXT];

	if (!take_line(&s->limit_old))
		return;
	watch_log_left_out(s);
	LOG(WARNING, s, "%" PRIu32 " of %" PRIu32 " watched mbufs are out for more than %" PRIu64
		" s, got by %s at %s", t->objects, s->count, s->wishes.old, caller_lcore_text(t->by, lcore),
		caller_place_text(t->by, place));
}
