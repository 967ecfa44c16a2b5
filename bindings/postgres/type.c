/* The type `uri` in PostgreSQL: a text that is a reference, as it stands, with the order, the equality and the hash of the library
 * for C. */
#include "postgres.h"

#include "common/hashfn.h"
#include "fmgr.h"
#include "libpq/pqformat.h"
#include "utils/builtins.h"

#include "arguments.h"

/* Version 16 has errors that a caller may ask for instead of having them raised, as pg_input_is_valid does. */
#if PG_VERSION_NUM < 160000
#define ereturn(context, none, ...) ereport(ERROR, __VA_ARGS__)
#endif

/* Whether a text is a value of the type. If it isn't, that is an error: saved in `context` if that asks for it, and else raised. */
static bool
is_value(const char *at, size_t len, fmNodePtr context)
{
	size_t		place;
	uint32_t	code = uriparse_first_fault(at, len, &place);

	if (code != URIPARSE_OK)
		ereturn(context, false,
				(errcode(ERRCODE_INVALID_TEXT_REPRESENTATION),
				 errmsg("invalid input syntax for type uri: %s", uriparse_error_text(code)),
				 errdetail("First wrong byte: %zu.", place)));
	return true;
}

PG_FUNCTION_INFO_V1(uri_in);
Datum
uri_in(PG_FUNCTION_ARGS)
{
	char	   *string = PG_GETARG_CSTRING(0);
	size_t		len = strlen(string);

	if (!is_value(string, len, fcinfo->context))
		PG_RETURN_NULL();
	PG_RETURN_TEXT_P(cstring_to_text_with_len(string, len));
}

PG_FUNCTION_INFO_V1(uri_recv);
Datum
uri_recv(PG_FUNCTION_ARGS)
{
	StringInfo	message = (StringInfo) PG_GETARG_POINTER(0);
	int			len;
	char	   *string = pq_getmsgtext(message, message->len - message->cursor, &len);

	is_value(string, len, NULL);
	PG_RETURN_TEXT_P(cstring_to_text_with_len(string, len));
}

/* The text itself, if it is a reference; else an error. */
PG_FUNCTION_INFO_V1(uri_check);
Datum
uri_check(PG_FUNCTION_ARGS)
{
	struct bytes text = argument(fcinfo, 0);

	is_value(text.at, text.len, NULL);
	PG_RETURN_DATUM(PG_GETARG_DATUM(0));
}

/* The text itself, if it is a reference; else NULL. */
PG_FUNCTION_INFO_V1(uri_or_null);
Datum
uri_or_null(PG_FUNCTION_ARGS)
{
	struct uriparse_parts parts;

	if (!is_reference(argument(fcinfo, 0), &parts))
		PG_RETURN_NULL();
	PG_RETURN_DATUM(PG_GETARG_DATUM(0));
}

/* The sign of the order of two values. */
static int
compare_values(const struct bytes *texts)
{
	int32_t		order;

	if (uriparse_compare(texts[0].at, texts[0].len, texts[1].at, texts[1].len, &order) != URIPARSE_OK)
		elog(ERROR, "value of type uri is no reference");
	return order;
}

static int
compare(FunctionCallInfo fcinfo)
{
	struct bytes texts[2] = {argument(fcinfo, 0), argument(fcinfo, 1)};
	int			order = compare_values(texts);

	release(fcinfo, 0, texts[0]);
	release(fcinfo, 1, texts[1]);
	return order;
}

#define COMPARISON(name, type, answer) \
	PG_FUNCTION_INFO_V1(uri_##name); \
	Datum uri_##name(PG_FUNCTION_ARGS) { int order = compare(fcinfo); PG_RETURN_##type(answer); }

COMPARISON(cmp, INT32, order)
COMPARISON(lt, BOOL, order < 0)
COMPARISON(le, BOOL, order <= 0)
COMPARISON(gt, BOOL, order > 0)
COMPARISON(ge, BOOL, order >= 0)

/* For min and max. Of equal values they return the second. */
#define CHOICE(name, is_first) \
	PG_FUNCTION_INFO_V1(uri_##name); \
	Datum uri_##name(PG_FUNCTION_ARGS) \
	{ \
		struct bytes texts[2] = {argument(fcinfo, 0), argument(fcinfo, 1)}; \
		int order = compare_values(texts); \
		PG_RETURN_TEXT_P(texts[(is_first) ? 0 : 1].value); \
	}

CHOICE(smaller, order < 0)
CHOICE(larger, order > 0)

static bool
are_equal(FunctionCallInfo fcinfo)
{
	struct bytes left = argument(fcinfo, 0),
				right = argument(fcinfo, 1);
	bool		is_equal;

	if (uriparse_equal(left.at, left.len, right.at, right.len, &is_equal) != URIPARSE_OK)
		elog(ERROR, "value of type uri is no reference");
	release(fcinfo, 0, left);
	release(fcinfo, 1, right);
	return is_equal;
}

PG_FUNCTION_INFO_V1(uri_eq);
Datum
uri_eq(PG_FUNCTION_ARGS)
{
	PG_RETURN_BOOL(are_equal(fcinfo));
}

PG_FUNCTION_INFO_V1(uri_ne);
Datum
uri_ne(PG_FUNCTION_ARGS)
{
	PG_RETURN_BOOL(!are_equal(fcinfo));
}

static uint64
hash_of(FunctionCallInfo fcinfo)
{
	struct bytes text = argument(fcinfo, 0);
	uint64_t	hash;

	if (uriparse_hash(text.at, text.len, &hash) != URIPARSE_OK)
		elog(ERROR, "value of type uri is no reference");
	release(fcinfo, 0, text);
	return hash;
}

/* For hash indexes and joins: the low half of the hash, and a hash with a seed whose low half that is if the seed is 0. */
PG_FUNCTION_INFO_V1(uri_hash_value);
Datum
uri_hash_value(PG_FUNCTION_ARGS)
{
	PG_RETURN_INT32((int32) hash_of(fcinfo));
}

PG_FUNCTION_INFO_V1(uri_hash_extended);
Datum
uri_hash_extended(PG_FUNCTION_ARGS)
{
	uint64		seed = PG_GETARG_INT64(1),
				hash = hash_of(fcinfo);

	PG_RETURN_INT64((int64) (seed ? hash_combine64(hash, seed) : hash));
}
