/* The arguments of a function as bytes. A file that includes it has included postgres.h and fmgr.h. */
#ifndef ARGUMENTS_H
#define ARGUMENTS_H

#if PG_VERSION_NUM >= 160000
#include "varatt.h"
#endif

#include "uriparse.h"

struct bytes {
	const char *at;
	size_t		len;
	text	   *value;
};

/* An argument's text. It may point into a page: it isn't written. */
static inline struct bytes
argument(FunctionCallInfo fcinfo, int index)
{
	text	   *value = PG_GETARG_TEXT_PP(index);

	return (struct bytes) {VARDATA_ANY(value), VARSIZE_ANY_EXHDR(value), value};
}

/* Frees the copy of an argument that was stored compressed or elsewhere. */
static inline void
release(FunctionCallInfo fcinfo, int index, struct bytes text)
{
	PG_FREE_IF_COPY(text.value, index);
}

static inline bool
is_reference(struct bytes text, struct uriparse_parts *parts)
{
	return uriparse_parse(text.at, text.len, parts) == URIPARSE_OK;
}

#endif
