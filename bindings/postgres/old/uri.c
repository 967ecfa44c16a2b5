/* The type of the extension `uri` of version 0.3.0 with the order that it had, for the test of a database that moves. */
#include "postgres.h"

#include "fmgr.h"
#include "utils/builtins.h"
#if PG_VERSION_NUM >= 160000
#include "varatt.h"
#endif

#include "uriparse.h"

PG_MODULE_MAGIC;

/* The scheme and the authority in normal form; then the path, the query and the fragment with their escapes in one spelling. */
struct key {
	char	   *parts[2];
	size_t		lens[2];
	uint32_t	kind;
};

static struct key
key_of(text *value)
{
	const char *at = VARDATA_ANY(value);
	size_t		len = VARSIZE_ANY_EXHDR(value),
				begin;
	struct uriparse_parts parts;
	struct key	key;
	char	   *query;

	if (uriparse_parse(at, len, &parts) != URIPARSE_OK)
		elog(ERROR, "value of type uri is no reference");
	begin = parts.path.begin;
	key.kind = parts.host_kind;
	key.parts[0] = palloc(2 * begin + 64);
	if (uriparse_normalize(at, begin, key.parts[0], 2 * begin + 64, &key.lens[0]) != URIPARSE_OK)
		elog(ERROR, "no normal form");
	query = psprintf("?%s%.*s", parts.authority.present && parts.path.begin == parts.path.end ? "/" : "", (int) (len - begin), at + begin);
	key.parts[1] = palloc(strlen(query));
	if (uriparse_normalize(query, strlen(query), key.parts[1], strlen(query), &key.lens[1]) != URIPARSE_OK)
		elog(ERROR, "no normal form");
	return key;
}

static int
compare(FunctionCallInfo fcinfo)
{
	struct key	left = key_of(PG_GETARG_TEXT_PP(0)),
				right = key_of(PG_GETARG_TEXT_PP(1));

	for (int i = 0; i < 2; i++)
	{
		int			order = memcmp(left.parts[i], right.parts[i], Min(left.lens[i], right.lens[i]));

		if (order || left.lens[i] != right.lens[i])
			return order ? order : left.lens[i] < right.lens[i] ? -1 : 1;
	}
	return (left.kind > right.kind) - (left.kind < right.kind);
}

#define COMPARISON(name, type, answer) \
	PG_FUNCTION_INFO_V1(uri_##name); \
	Datum uri_##name(PG_FUNCTION_ARGS) { int order = compare(fcinfo); PG_RETURN_##type(answer); }

COMPARISON(cmp, INT32, order)
COMPARISON(lt, BOOL, order < 0)
COMPARISON(le, BOOL, order <= 0)
COMPARISON(eq, BOOL, order == 0)
COMPARISON(ge, BOOL, order >= 0)
COMPARISON(gt, BOOL, order > 0)

PG_FUNCTION_INFO_V1(uri_in);
Datum
uri_in(PG_FUNCTION_ARGS)
{
	PG_RETURN_TEXT_P(cstring_to_text(PG_GETARG_CSTRING(0)));
}
