/* Functions for the URIs of RFC 3986 in PostgreSQL, by the library for C. README.md lists them.
 *
 * A value of the type `uri` is stored as a text, so each function of a text takes one too. type.c has the type. */
#include "postgres.h"

#include "access/htup_details.h"
#include "catalog/namespace.h"
#include "catalog/pg_type.h"
#include "fmgr.h"
#include "funcapi.h"
#include "lib/stringinfo.h"
#include "mb/pg_wchar.h"
#include "miscadmin.h"
#include "utils/array.h"
#include "utils/builtins.h"
#include "utils/memutils.h"

#include "arguments.h"
#include "pairs.h"

PG_MODULE_MAGIC;

/* When the module is loaded: its library is that of its header. */
void		_PG_init(void);

void
_PG_init(void)
{
	if (strcmp(uriparse_version(), URIPARSE_VERSION) != 0)
		ereport(ERROR,
				(errcode(ERRCODE_CONFIG_FILE_ERROR),
				 errmsg("module \"uriparse\" is of version %s, and its library of %s", URIPARSE_VERSION, uriparse_version())));
}

/* Texts and results up to this length are held on the stack. */
enum { SHORT = 1024 };

/* The functions of a component: NULL if it is absent, or the text is no reference. */
#define COMPONENT(name) \
	PG_FUNCTION_INFO_V1(uri_##name); \
	Datum uri_##name(PG_FUNCTION_ARGS) \
	{ \
		struct bytes text = argument(fcinfo, 0); \
		struct uriparse_parts parts; \
		if (!is_reference(text, &parts) || !parts.name.present) \
			PG_RETURN_NULL(); \
		PG_RETURN_TEXT_P(cstring_to_text_with_len(text.at + parts.name.begin, parts.name.end - parts.name.begin)); \
	}

COMPONENT(scheme)
COMPONENT(authority)
COMPONENT(username)
COMPONENT(password)
COMPONENT(host)
COMPONENT(path)
COMPONENT(query)
COMPONENT(fragment)

PG_FUNCTION_INFO_V1(uri_port);
Datum
uri_port(PG_FUNCTION_ARGS)
{
	struct uriparse_parts parts;

	if (!is_reference(argument(fcinfo, 0), &parts) || parts.port.begin == parts.port.end)
		PG_RETURN_NULL();
	PG_RETURN_INT32(parts.port_number);
}

/* The kind of the host, which is named as in other languages. */
PG_FUNCTION_INFO_V1(uri_host_kind);
Datum
uri_host_kind(PG_FUNCTION_ARGS)
{
	struct uriparse_parts parts;

	if (!is_reference(argument(fcinfo, 0), &parts))
		PG_RETURN_NULL();
	switch (parts.host_kind)
	{
		case URIPARSE_HOST_NAME:
			PG_RETURN_TEXT_P(cstring_to_text("name"));
		case URIPARSE_HOST_IPV4:
			PG_RETURN_TEXT_P(cstring_to_text("ipv4"));
		case URIPARSE_HOST_IPV6:
			PG_RETURN_TEXT_P(cstring_to_text("ipv6"));
		case URIPARSE_HOST_FUTURE:
			PG_RETURN_TEXT_P(cstring_to_text("ipvfuture"));
	}
	PG_RETURN_NULL();
}

PG_FUNCTION_INFO_V1(uri_valid);
Datum
uri_valid(PG_FUNCTION_ARGS)
{
	struct bytes text = argument(fcinfo, 0);
	size_t		place;

	PG_RETURN_BOOL(uriparse_first_fault(text.at, text.len, &place) == URIPARSE_OK);
}

PG_FUNCTION_INFO_V1(uri_is_uri);
Datum
uri_is_uri(PG_FUNCTION_ARGS)
{
	struct bytes text = argument(fcinfo, 0);

	PG_RETURN_BOOL(uriparse_is_uri(text.at, text.len));
}

PG_FUNCTION_INFO_V1(uri_fault);
Datum
uri_fault(PG_FUNCTION_ARGS)
{
	struct bytes text = argument(fcinfo, 0);
	size_t		place;

	if (uriparse_first_fault(text.at, text.len, &place) == URIPARSE_OK)
		PG_RETURN_NULL();
	PG_RETURN_INT32(place);
}

PG_FUNCTION_INFO_V1(uri_fault_text);
Datum
uri_fault_text(PG_FUNCTION_ARGS)
{
	struct bytes text = argument(fcinfo, 0);
	size_t		place;
	uint32_t	code = uriparse_first_fault(text.at, text.len, &place);

	if (code == URIPARSE_OK)
		PG_RETURN_NULL();
	PG_RETURN_TEXT_P(cstring_to_text(uriparse_error_text(code)));
}

PG_FUNCTION_INFO_V1(uri_hash);
Datum
uri_hash(PG_FUNCTION_ARGS)
{
	struct bytes text = argument(fcinfo, 0);
	uint64_t	hash;

	if (uriparse_hash(text.at, text.len, &hash) != URIPARSE_OK)
		PG_RETURN_NULL();
	PG_RETURN_INT64((int64) hash);
}

/* A call of the library that writes a text, of one text or of two. */
typedef uint32_t writer(const struct bytes *texts, char *out, size_t room, size_t *needed);

static uint32_t
write_normal(const struct bytes *texts, char *out, size_t room, size_t *needed)
{
	return uriparse_normalize(texts[0].at, texts[0].len, out, room, needed);
}

/* The sort keys of a reference as it is, of its normal form, and of the page that it leads to. */
static uint32_t
write_key(const struct bytes *texts, char *out, size_t room, size_t *needed)
{
	return uriparse_key(0, texts[0].at, texts[0].len, out, room, needed);
}

static uint32_t
write_normal_key(const struct bytes *texts, char *out, size_t room, size_t *needed)
{
	return uriparse_key(URIPARSE_KEY_NORMAL, texts[0].at, texts[0].len, out, room, needed);
}

static uint32_t
write_page_key(const struct bytes *texts, char *out, size_t room, size_t *needed)
{
	return uriparse_key(URIPARSE_KEY_PAGE, texts[0].at, texts[0].len, out, room, needed);
}

/* The place key of a URI, and what those within a domain and those below a base begin with. */
static uint32_t
write_place_key(const struct bytes *texts, char *out, size_t room, size_t *needed)
{
	return uriparse_place_key(texts[0].at, texts[0].len, out, room, needed);
}

static uint32_t
write_domain_prefix(const struct bytes *texts, char *out, size_t room, size_t *needed)
{
	return uriparse_domain_prefix(texts[0].at, texts[0].len, out, room, needed);
}

static uint32_t
write_base_prefix(const struct bytes *texts, char *out, size_t room, size_t *needed)
{
	return uriparse_base_prefix(texts[0].at, texts[0].len, out, room, needed);
}

static uint32_t
write_target(const struct bytes *texts, char *out, size_t room, size_t *needed)
{
	return uriparse_resolve(texts[0].at, texts[0].len, texts[1].at, texts[1].len, out, room, needed);
}

static uint32_t
write_relative(const struct bytes *texts, char *out, size_t room, size_t *needed)
{
	return uriparse_relativize(texts[0].at, texts[0].len, texts[1].at, texts[1].len, out, room, needed);
}

static uint32_t
write_escaped(const struct bytes *texts, char *out, size_t room, size_t *needed)
{
	return uriparse_escape(texts[0].at, texts[0].len, out, room, needed);
}

static uint32_t
write_without_default_port(const struct bytes *texts, char *out, size_t room, size_t *needed)
{
	return uriparse_without_default_port(texts[0].at, texts[0].len, out, room, needed);
}

static uint32_t
write_request_target(const struct bytes *texts, char *out, size_t room, size_t *needed)
{
	return uriparse_request_target(texts[0].at, texts[0].len, out, room, needed);
}

static uint32_t
write_masked(const struct bytes *texts, char *out, size_t room, size_t *needed)
{
	return uriparse_mask_password(texts[0].at, texts[0].len, out, room, needed);
}

static uint32_t
write_origin(const struct bytes *texts, char *out, size_t room, size_t *needed)
{
	return uriparse_origin(texts[0].at, texts[0].len, out, room, needed);
}

static uint32_t
write_trimmed(const struct bytes *texts, char *out, size_t room, size_t *needed)
{
	return uriparse_trim_link(texts[0].at, texts[0].len, out, room, needed);
}

/* What the call writes; NULL if it rejects a text. */
static Datum
written_of(FunctionCallInfo fcinfo, writer *write, const struct bytes *texts)
{
	char		room[SHORT];
	size_t		needed;
	uint32_t	code;
	text	   *result;

	code = write(texts, room, sizeof room, &needed);
	if (code != URIPARSE_OK && code != URIPARSE_NO_ROOM)
		PG_RETURN_NULL();
	result = palloc(needed + VARHDRSZ);
	SET_VARSIZE(result, needed + VARHDRSZ);
	if (code == URIPARSE_OK)
		memcpy(VARDATA(result), room, needed);
	else if (write(texts, VARDATA(result), needed, &needed) != URIPARSE_OK)
		PG_RETURN_NULL();
	PG_RETURN_TEXT_P(result);
}

/* The same of the arguments. */
static Datum
written(FunctionCallInfo fcinfo, writer *write)
{
	struct bytes texts[2];

	for (int i = 0; i < PG_NARGS(); i++)
		texts[i] = argument(fcinfo, i);
	return written_of(fcinfo, write, texts);
}

static bool
are_ascii(const char *bytes, size_t len)
{
	for (size_t i = 0; i < len; i++)
		if ((unsigned char) bytes[i] >= 0x80)
			return false;
	return true;
}

/* A text in UTF-8, whose bytes percent-encoding stands for (RFC 3987, section 3.1). SQL_ASCII is no encoding: there the bytes are
 * taken as they are. A character that UTF-8 doesn't have is an error. */
static struct bytes
in_utf8(struct bytes text)
{
	int			encoding = GetDatabaseEncoding();

	if (encoding == PG_UTF8 || encoding == PG_SQL_ASCII || are_ascii(text.at, text.len))
		return text;
	text.at = (const char *) pg_do_encoding_conversion((unsigned char *) text.at, (int) text.len, encoding, PG_UTF8);
	text.len = strlen(text.at);
	return text;
}

PG_FUNCTION_INFO_V1(uri_normalize);
Datum
uri_normalize(PG_FUNCTION_ARGS)
{
	return written(fcinfo, write_normal);
}

PG_FUNCTION_INFO_V1(uri_key);
Datum
uri_key(PG_FUNCTION_ARGS)
{
	return written(fcinfo, write_key);
}

PG_FUNCTION_INFO_V1(uri_normal_key);
Datum
uri_normal_key(PG_FUNCTION_ARGS)
{
	return written(fcinfo, write_normal_key);
}

PG_FUNCTION_INFO_V1(uri_page_key);
Datum
uri_page_key(PG_FUNCTION_ARGS)
{
	return written(fcinfo, write_page_key);
}

PG_FUNCTION_INFO_V1(uri_place_key);
Datum
uri_place_key(PG_FUNCTION_ARGS)
{
	return written(fcinfo, write_place_key);
}

PG_FUNCTION_INFO_V1(uri_domain_prefix);
Datum
uri_domain_prefix(PG_FUNCTION_ARGS)
{
	return written(fcinfo, write_domain_prefix);
}

PG_FUNCTION_INFO_V1(uri_base_prefix);
Datum
uri_base_prefix(PG_FUNCTION_ARGS)
{
	return written(fcinfo, write_base_prefix);
}

PG_FUNCTION_INFO_V1(uri_resolve);
Datum
uri_resolve(PG_FUNCTION_ARGS)
{
	return written(fcinfo, write_target);
}

PG_FUNCTION_INFO_V1(uri_relativize);
Datum
uri_relativize(PG_FUNCTION_ARGS)
{
	return written(fcinfo, write_relative);
}

PG_FUNCTION_INFO_V1(uri_escape);
Datum
uri_escape(PG_FUNCTION_ARGS)
{
	struct bytes text = in_utf8(argument(fcinfo, 0));

	return written_of(fcinfo, write_escaped, &text);
}

PG_FUNCTION_INFO_V1(uri_without_default_port);
Datum
uri_without_default_port(PG_FUNCTION_ARGS)
{
	return written(fcinfo, write_without_default_port);
}

PG_FUNCTION_INFO_V1(uri_request_target);
Datum
uri_request_target(PG_FUNCTION_ARGS)
{
	return written(fcinfo, write_request_target);
}

PG_FUNCTION_INFO_V1(uri_mask_password);
Datum
uri_mask_password(PG_FUNCTION_ARGS)
{
	return written(fcinfo, write_masked);
}

PG_FUNCTION_INFO_V1(uri_origin);
Datum
uri_origin(PG_FUNCTION_ARGS)
{
	return written(fcinfo, write_origin);
}

PG_FUNCTION_INFO_V1(uri_trim_link);
Datum
uri_trim_link(PG_FUNCTION_ARGS)
{
	return written(fcinfo, write_trimmed);
}

/* The place of a name in a list that ends with NULL. A name that isn't there is an error. */
static size_t
place_of(struct bytes name, const char *const *list)
{
	for (size_t i = 0; list[i]; i++)
		if (strlen(list[i]) == name.len && memcmp(list[i], name.at, name.len) == 0)
			return i;
	ereport(ERROR,
			(errcode(ERRCODE_INVALID_PARAMETER_VALUE),
			 errmsg("no component \"%.*s\"", pg_mbcliplen(name.at, (int) name.len, 40), name.at)));
}

/* The text, the place of a component, and its value, or none. */
static uint32_t
write_replaced(const struct bytes *texts, char *out, size_t room, size_t *needed)
{
	struct uriparse_changes changes = {0};
	struct uriparse_value *fields[] = {&changes.scheme, &changes.username, &changes.password, &changes.host,
	&changes.port, &changes.path, &changes.query, &changes.fragment};
	struct uriparse_value *field = fields[texts[1].len];

	field->end = texts[2].len;
	field->action = texts[2].at ? URIPARSE_SET : URIPARSE_REMOVE;
	return uriparse_change(texts[0].at, texts[0].len, &changes, texts[2].at, texts[2].len, out, room, needed);
}

/* The arguments of uri_replace. Returns whether neither the text nor the component is NULL. */
static bool
read_change(FunctionCallInfo fcinfo, struct bytes *texts)
{
	static const char *const names[] = {"scheme", "username", "password", "host", "port", "path", "query", "fragment", NULL};

	if (PG_ARGISNULL(0) || PG_ARGISNULL(1))
		return false;
	texts[0] = argument(fcinfo, 0);
	texts[1] = (struct bytes) {NULL, place_of(argument(fcinfo, 1), names), NULL};
	texts[2] = (struct bytes) {NULL, 0, NULL};
	if (!PG_ARGISNULL(2))
		texts[2] = argument(fcinfo, 2);
	return true;
}

/* A text with a component set to a value, or removed by NULL. */
PG_FUNCTION_INFO_V1(uri_replace);
Datum
uri_replace(PG_FUNCTION_ARGS)
{
	struct bytes texts[3];

	if (!read_change(fcinfo, texts))
		PG_RETURN_NULL();
	return written_of(fcinfo, write_replaced, texts);
}

/* The same of a value of the type. A change that is rejected is an error, as in a cast: NULL would erase the value that an UPDATE
 * changes. */
PG_FUNCTION_INFO_V1(uri_replace_value);
Datum
uri_replace_value(PG_FUNCTION_ARGS)
{
	struct bytes texts[3];
	size_t		needed;
	uint32_t	code;

	if (!read_change(fcinfo, texts))
		PG_RETURN_NULL();
	code = write_replaced(texts, NULL, 0, &needed);
	if (code != URIPARSE_OK && code != URIPARSE_NO_ROOM)
		ereport(ERROR,
				(errcode(ERRCODE_INVALID_TEXT_REPRESENTATION),
				 errmsg("invalid input syntax for type uri: %s", uriparse_error_text(code))));
	return written_of(fcinfo, write_replaced, texts);
}

static uint32_t
write_encoded(const struct bytes *texts, char *out, size_t room, size_t *needed)
{
	static const uint32_t components[] = {URIPARSE_USERNAME, URIPARSE_PASSWORD, URIPARSE_SEGMENT, URIPARSE_QUERY, URIPARSE_FRAGMENT, URIPARSE_PAIR};

	return uriparse_encode(components[texts[0].len], texts[1].at, texts[1].len, out, room, needed);
}

/* The UTF-8 of a text, or bytes, as a component. */
static Datum
encoded(FunctionCallInfo fcinfo, struct bytes data)
{
	static const char *const names[] = {"username", "password", "segment", "query", "fragment", "pair", NULL};
	struct bytes texts[2] = {{NULL, 0, NULL}, data};

	texts[0].len = place_of(argument(fcinfo, 0), names);
	return written_of(fcinfo, write_encoded, texts);
}

PG_FUNCTION_INFO_V1(uri_encode);
Datum
uri_encode(PG_FUNCTION_ARGS)
{
	return encoded(fcinfo, in_utf8(argument(fcinfo, 1)));
}

PG_FUNCTION_INFO_V1(uri_encode_bytes);
Datum
uri_encode_bytes(PG_FUNCTION_ARGS)
{
	return encoded(fcinfo, argument(fcinfo, 1));
}

static uint32_t
write_decoded(const struct bytes *texts, char *out, size_t room, size_t *needed)
{
	return uriparse_decode(texts[0].at, texts[0].len, out, room, needed);
}

/* The bytes that a component stands for. A bytea is laid out as a text. */
PG_FUNCTION_INFO_V1(uri_decode_bytes);
Datum
uri_decode_bytes(PG_FUNCTION_ARGS)
{
	return written(fcinfo, write_decoded);
}

/* Of bytes without a zero byte: the text in the database's encoding that they are in UTF-8, or NULL if there is none. */
static text *
from_utf8(const char *at, size_t len)
{
	int			encoding = GetDatabaseEncoding();
	Oid			conversion;
	unsigned char *out;
	size_t		room;

	if (encoding != PG_SQL_ASCII && !pairs_are_text(at, len))
		return NULL;
	if (encoding == PG_UTF8 || encoding == PG_SQL_ASCII || are_ascii(at, len))
		return cstring_to_text_with_len(at, len);
	conversion = FindDefaultConversionProc(PG_UTF8, encoding);
	if (!OidIsValid(conversion))
		return NULL;
	if (len >= INT_MAX / MAX_CONVERSION_GROWTH)
		ereport(ERROR,
				(errcode(ERRCODE_PROGRAM_LIMIT_EXCEEDED),
				 errmsg("string of %zu bytes is too long for encoding conversion", len)));
	room = len * MAX_CONVERSION_GROWTH + 1;
	out = MemoryContextAllocHuge(CurrentMemoryContext, room);
	if ((size_t) pg_do_encoding_conversion_buf(conversion, PG_UTF8, encoding, (unsigned char *) at, (int) len, out, (int) room, true) < len)
		return NULL;
	return cstring_to_text((char *) out);
}

/* A call that decodes a text. */
typedef uint32_t decoder(const void *text, size_t len, void *out, size_t room, size_t *needed);

/* What the call makes of a text. NULL if it rejects it, or if that is no text of this database. */
static text *
decoded_by(decoder *call, const char *at, size_t len)
{
	char	   *out = palloc(len + 1);

	if (call(at, len, out, len, &len) != URIPARSE_OK || memchr(out, 0, len))
		return NULL;
	return from_utf8(out, len);
}

/* What the text of a component stands for. */
static text *
decoded(const char *at, size_t len)
{
	return decoded_by(uriparse_decode, at, len);
}

PG_FUNCTION_INFO_V1(uri_decode);
Datum
uri_decode(PG_FUNCTION_ARGS)
{
	struct bytes component = argument(fcinfo, 0);
	text	   *result = decoded(component.at, component.len);

	if (!result)
		PG_RETURN_NULL();
	PG_RETURN_TEXT_P(result);
}

PG_FUNCTION_INFO_V1(uri_form_decode);
Datum
uri_form_decode(PG_FUNCTION_ARGS)
{
	struct bytes value = argument(fcinfo, 0);
	text	   *result = decoded_by(uriparse_form_decode, value.at, value.len);

	if (!result)
		PG_RETURN_NULL();
	PG_RETURN_TEXT_P(result);
}

/* The pairs of a query, or the segments of a path, that are left. */
struct pieces {
	char	   *component;
	size_t		len;
	size_t		at;
};

/* At the first call: a copy of the query or the path of a reference, or NULL if there is none. */
static struct pieces *
all_pieces(FunctionCallInfo fcinfo, bool of_path)
{
	struct bytes text = argument(fcinfo, 0);
	struct uriparse_parts parts;
	struct pieces *pieces = NULL;

	if (is_reference(text, &parts) && (of_path || parts.query.present))
	{
		struct uriparse_span span = of_path ? parts.path : parts.query;

		pieces = palloc(sizeof *pieces);
		pieces->at = 0;
		pieces->len = span.end - span.begin;
		pieces->component = palloc(pieces->len + 1);
		memcpy(pieces->component, text.at + span.begin, pieces->len);
	}
	release(fcinfo, 0, text);
	return pieces;
}

/* A row of two texts, which are NULL if they aren't there. */
static Datum
row_of(TupleDesc desc, text **columns)
{
	Datum		values[2] = {PointerGetDatum(columns[0]), PointerGetDatum(columns[1])};
	bool		nulls[2] = {!columns[0], !columns[1]};

	return HeapTupleGetDatum(heap_form_tuple(desc, values, nulls));
}

/* A row for each pair of the query. */
PG_FUNCTION_INFO_V1(uri_pairs);
Datum
uri_pairs(PG_FUNCTION_ARGS)
{
	FuncCallContext *context;
	struct pieces *pairs;
	struct uriparse_pair pair;
	text	   *columns[2] = {NULL, NULL};

	if (SRF_IS_FIRSTCALL())
	{
		MemoryContext before;

		context = SRF_FIRSTCALL_INIT();
		before = MemoryContextSwitchTo(context->multi_call_memory_ctx);
		if (get_call_result_type(fcinfo, NULL, &context->tuple_desc) != TYPEFUNC_COMPOSITE)
			elog(ERROR, "uri_pairs returns rows");
		context->tuple_desc = BlessTupleDesc(context->tuple_desc);
		context->user_fctx = all_pieces(fcinfo, false);
		MemoryContextSwitchTo(before);
	}
	context = SRF_PERCALL_SETUP();
	pairs = context->user_fctx;
	if (!pairs || !uriparse_next_pair(pairs->component, pairs->len, pairs->at, &pair))
		SRF_RETURN_DONE(context);
	pairs->at = pair.next;
	columns[0] = decoded(pairs->component + pair.name.begin, pair.name.end - pair.name.begin);
	if (pair.value.present)
		columns[1] = decoded(pairs->component + pair.value.begin, pair.value.end - pair.value.begin);
	SRF_RETURN_NEXT(context, row_of(context->tuple_desc, columns));
}

/* A row for each segment of the path. */
PG_FUNCTION_INFO_V1(uri_segments);
Datum
uri_segments(PG_FUNCTION_ARGS)
{
	FuncCallContext *context;
	struct pieces *path;
	struct uriparse_span segment;
	text	   *result;

	if (SRF_IS_FIRSTCALL())
	{
		MemoryContext before;

		context = SRF_FIRSTCALL_INIT();
		before = MemoryContextSwitchTo(context->multi_call_memory_ctx);
		context->user_fctx = all_pieces(fcinfo, true);
		MemoryContextSwitchTo(before);
	}
	context = SRF_PERCALL_SETUP();
	path = context->user_fctx;
	if (!path || !uriparse_next_segment(path->component, path->len, path->at, &segment))
		SRF_RETURN_DONE(context);
	path->at = segment.end + 1;
	result = decoded(path->component + segment.begin, segment.end - segment.begin);
	if (!result)
		SRF_RETURN_NEXT_NULL(context);
	SRF_RETURN_NEXT(context, PointerGetDatum(result));
}

/* The query of a reference, or the empty one. Returns whether the text is a reference. */
static bool
query_of(struct bytes text, struct bytes *query, bool *present)
{
	struct uriparse_parts parts;

	if (!is_reference(text, &parts))
		return false;
	*query = (struct bytes) {text.at + parts.query.begin, parts.query.end - parts.query.begin, NULL};
	*present = parts.query.present;
	return true;
}

/* The value of the first pair of a name, as uri_pairs has it; empty without an "=". */
PG_FUNCTION_INFO_V1(uri_param);
Datum
uri_param(PG_FUNCTION_ARGS)
{
	struct bytes name = in_utf8(argument(fcinfo, 1)),
				query;
	struct uriparse_pair pair;
	bool		present;
	text	   *result = NULL;

	if (query_of(argument(fcinfo, 0), &query, &present) && present &&
		uriparse_find_pair(query.at, query.len, name.at, name.len, &pair))
		result = decoded(query.at + pair.value.begin, pair.value.end - pair.value.begin);
	if (!result)
		PG_RETURN_NULL();
	PG_RETURN_TEXT_P(result);
}

/* The values of all pairs of a name, each as uri_param has it. */
PG_FUNCTION_INFO_V1(uri_param_values);
Datum
uri_param_values(PG_FUNCTION_ARGS)
{
	struct bytes name = in_utf8(argument(fcinfo, 1)),
				query;
	struct uriparse_pair pair;
	bool		present;
	ArrayBuildState *values = initArrayResult(TEXTOID, CurrentMemoryContext, false);

	if (!query_of(argument(fcinfo, 0), &query, &present))
		PG_RETURN_NULL();
	for (size_t at = 0; present && uriparse_find_next_pair(query.at, query.len, at, name.at, name.len, &pair); at = pair.next)
	{
		text	   *value = decoded(query.at + pair.value.begin, pair.value.end - pair.value.begin);

		accumArrayResult(values, PointerGetDatum(value), !value, TEXTOID, CurrentMemoryContext);
	}
	PG_RETURN_DATUM(makeArrayResult(values, CurrentMemoryContext));
}

/* The reference with this query, or without one. */
static Datum
with_query(FunctionCallInfo fcinfo, struct bytes text, const char *query, size_t len)
{
	struct bytes texts[3] = {text, {NULL, 6, NULL}, {query, len, NULL}};

	return written_of(fcinfo, write_replaced, texts);
}

/* The reference with a pair that is set, or appended. NULL as the value stands for a pair without "=". */
static Datum
with_pair(FunctionCallInfo fcinfo, bool appends)
{
	struct bytes text,
				name,
				query,
				value = {"", 0, NULL};
	bool		present,
				has_value = !PG_ARGISNULL(2);
	size_t		room;
	uint32_t	code;
	char	   *out;

	if (PG_ARGISNULL(0) || PG_ARGISNULL(1))
		PG_RETURN_NULL();
	text = argument(fcinfo, 0);
	name = in_utf8(argument(fcinfo, 1));
	if (has_value)
		value = in_utf8(argument(fcinfo, 2));
	if (!query_of(text, &query, &present))
		PG_RETURN_NULL();
	room = query.len + 3 * (name.len + value.len) + 2;
	out = MemoryContextAllocHuge(CurrentMemoryContext, room);
	code = appends ? uriparse_append_pair(query.at, query.len, name.at, name.len, value.at, value.len, has_value, out, room, &room)
		: uriparse_set_pair(query.at, query.len, name.at, name.len, value.at, value.len, has_value, out, room, &room);
	if (code != URIPARSE_OK)
		PG_RETURN_NULL();
	return with_query(fcinfo, text, out, room);
}

PG_FUNCTION_INFO_V1(uri_with_param);
Datum
uri_with_param(PG_FUNCTION_ARGS)
{
	return with_pair(fcinfo, false);
}

PG_FUNCTION_INFO_V1(uri_with_appended_param);
Datum
uri_with_appended_param(PG_FUNCTION_ARGS)
{
	return with_pair(fcinfo, true);
}

/* A statement that is cancelled, or whose time is over, ends here. */
static bool
may_go_on(void *data)
{
	CHECK_FOR_INTERRUPTS();
	return true;
}

/* The reference without the pairs of these names, which are written as in a query. */
static Datum
without_pairs(FunctionCallInfo fcinfo, struct bytes text, const char *names, size_t len)
{
	struct bytes query;
	bool		present;
	uint32_t	code;
	char	   *out;

	if (!query_of(text, &query, &present))
		PG_RETURN_NULL();
	out = MemoryContextAllocHuge(CurrentMemoryContext, 2 * query.len + 1);
	code = pairs_drop(&query.at, &query.len, names, len, out, may_go_on, NULL);
	if (code == URIPARSE_BAD_NAMES)
		ereport(ERROR, (errcode(ERRCODE_INVALID_PARAMETER_VALUE), errmsg("%s", uriparse_error_text(code))));
	if (!present)
		PG_RETURN_TEXT_P(text.value);
	return with_query(fcinfo, text, code == URIPARSE_OK ? query.at : NULL, query.len);
}

/* The names of an array that has no NULL, with "&" between each two. */
static StringInfo
joined_names(Datum *names, int count)
{
	StringInfo	joined = makeStringInfo();

	for (int i = 0; i < count; i++)
	{
		text	   *name = DatumGetTextPP(names[i]);

		if (i)
			appendStringInfoChar(joined, '&');
		appendBinaryStringInfo(joined, VARDATA_ANY(name), VARSIZE_ANY_EXHDR(name));
	}
	return joined;
}

/* The reference without the pairs of some names, which are written as in a query; "utm_*" stands for each that begins so. */
PG_FUNCTION_INFO_V1(uri_without_params);
Datum
uri_without_params(PG_FUNCTION_ARGS)
{
	struct bytes text = argument(fcinfo, 0);
	ArrayType  *array = PG_GETARG_ARRAYTYPE_P(1);
	struct uriparse_parts parts;
	Datum	   *names;
	int			count;
	StringInfo	joined;

	if (array_contains_nulls(array) || !is_reference(text, &parts))
		PG_RETURN_NULL();
	deconstruct_array(array, TEXTOID, -1, false, TYPALIGN_INT, &names, NULL, &count);
	if (!count)
		PG_RETURN_TEXT_P(text.value);
	joined = joined_names(names, count);
	return without_pairs(fcinfo, text, joined->data, joined->len);
}

/* The reference without the pairs of a name, which is data: no "*" and no "&" in it means anything. */
PG_FUNCTION_INFO_V1(uri_without_param);
Datum
uri_without_param(PG_FUNCTION_ARGS)
{
	struct bytes name = in_utf8(argument(fcinfo, 1));
	char	   *quoted = MemoryContextAllocHuge(CurrentMemoryContext, 3 * name.len + 1);

	pairs_quote(name.at, name.len, quoted);
	return without_pairs(fcinfo, argument(fcinfo, 0), quoted, 3 * name.len);
}
