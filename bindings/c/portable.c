/* What calls.c calls, over the module for WebAssembly, which `wasm2c` has written as C: for systems that the kit doesn't compile for.
 * tools/dist/portable puts it after that C in one file. Each thread has a module of its own, whose memory is allocated at its first call and
 * grows with the texts, so a call may return URIPARSE_OUT_OF_MEMORY; one that returns no code then takes the text for invalid.
 *
 * The module's memory has the bytes of each text, and then a place for what the call writes. Its sizes have 64 bits. If the processor has the
 * highest byte of a number first, the memory stands the other way round, so that a number's bytes are in the processor's order
 * (WABT_BIG_ENDIAN, which tools/dist/portable defines, as MEMORY_AT). */
#define PAGE 65536u
/* The places for what a call writes, and the space between those of texts. */
#define SPARE 1024u
/* A memory that is larger is given up after the call. */
#define LARGE (16u << 20)

#if defined(__STDC_VERSION__) && __STDC_VERSION__ >= 201112L && !defined(__STDC_NO_THREADS__)
#define PER_THREAD _Thread_local
#elif defined(__GNUC__)
#define PER_THREAD __thread
#elif defined(_MSC_VER)
#define PER_THREAD __declspec(thread)
#else
#error "the compiler has no variables for each thread: define PER_THREAD"
#endif

typedef Z_uriparse_instance_t instance;
static PER_THREAD instance module;
static PER_THREAD uint8_t *first_memory;
static PER_THREAD bool has_module;
static PER_THREAD uint64_t next;

/* What the C of wasm2c calls. The module has no table, and code that is proved doesn't trap. */

void wasm_rt_trap(wasm_rt_trap_t code) {
  (void)code;
  abort();
}

bool wasm_rt_is_initialized(void) { return true; }

uint32_t wasm_rt_register_func_type(uint32_t params, uint32_t results, ...) { return params + results; }

void wasm_rt_allocate_memory(wasm_rt_memory_t *memory, uint32_t pages, uint32_t most) {
  memory->data = first_memory;
  memory->pages = pages;
  memory->max_pages = most;
  memory->size = pages * PAGE;
}

uint32_t wasm_rt_grow_memory(wasm_rt_memory_t *memory, uint32_t more) {
  uint32_t before = memory->pages;
  uint8_t *data = realloc(memory->data, (size_t)(before + more) * PAGE);
  if (!data) return UINT32_MAX;
#if WABT_BIG_ENDIAN
  memmove(data + (size_t)more * PAGE, data, memory->size);
  memset(data, 0, (size_t)more * PAGE);
#else
  memset(data + memory->size, 0, (size_t)more * PAGE);
#endif
  memory->data = data;
  memory->pages = before + more;
  memory->size = memory->pages * PAGE;
  return before;
}

void wasm_rt_free_memory(wasm_rt_memory_t *memory) { free(memory->data); }

/* Readies the module for texts and results of so many bytes. */
static bool enter(size_t one, size_t two, size_t three, size_t four) {
  const size_t most = 0xf0000000u;
  if (one > most || two > most - one || three > most - one - two || four > most - one - two - three) return false;
  if (!has_module) {
    first_memory = calloc(FIRST_PAGES, PAGE);
    if (!first_memory) return false;
    Z_uriparse_init_module();
    Z_uriparse_instantiate(&module);
    has_module = true;
  }
  next = (module.w2c___heap_base + 15) & ~(uint64_t)15;
  uint64_t end = next + one + two + three + four + SPARE;
  if (end > 0xffff0000u) return false;
  return end <= module.w2c_memory.size || wasm_rt_grow_memory(&module.w2c_memory, (uint32_t)((end - module.w2c_memory.size) / PAGE + 1)) != UINT32_MAX;
}

static void leave(void) {
  if (module.w2c_memory.size <= LARGE) return;
  Z_uriparse_free(&module);
  has_module = false;
}

/* A place of so many bytes. */
static uint64_t place(size_t size) {
  uint64_t at = next;
  next += (size + 15) & ~(uint64_t)15;
  return at;
}

/* Copies the bytes of a text into the memory, or out of it. */
static void copy(uint8_t *to, const uint8_t *from, size_t size) {
#if WABT_BIG_ENDIAN
  for (size_t i = 0; i < size; i++) to[i] = from[size - 1 - i];
#else
  if (size) memcpy(to, from, size);
#endif
}

/* A place that has these bytes. */
static uint64_t put(const void *bytes, size_t size) {
  uint64_t at = place(size);
  copy(MEMORY_AT(&module.w2c_memory, at, size), bytes, size);
  return at;
}

static void put_number(uint64_t at, uint64_t number) { memcpy(MEMORY_AT(&module.w2c_memory, at, 8), &number, 8); }

/* Takes a number of this size. */
static void take(uint64_t at, void *to, size_t size) { memcpy(to, MEMORY_AT(&module.w2c_memory, at, size), size); }

static size_t take_size(uint64_t at) {
  uint64_t number;
  take(at, &number, 8);
  return (size_t)number;
}

static struct uriparse_span take_span(uint64_t at) {
  struct uriparse_span span = {take_size(at), take_size(at + 8), *MEMORY_AT(&module.w2c_memory, at + 16, 1) != 0};
  return span;
}

/* The result of a call that writes to `out`. */
static uint32_t written(uint32_t code, uint64_t at, uint64_t needed_at, uint8_t *out, size_t *needed) {
  *needed = take_size(needed_at);
  if (code == URIPARSE_OK) copy(out, MEMORY_AT(&module.w2c_memory, at, *needed), *needed);
  leave();
  return code;
}

static uint32_t without_memory(size_t *needed) {
  *needed = 0;
  return URIPARSE_OUT_OF_MEMORY;
}

/* Calls of one text with one result, which is at `*at` then. */
static uint32_t of_text(uint32_t (*call)(instance *, u64, u64, u64), const uint8_t *text, size_t len, uint64_t *at) {
  if (!enter(len, 0, 0, 0)) return URIPARSE_OUT_OF_MEMORY;
  uint64_t text_at = put(text, len);
  *at = place(256);
  return call(&module, text_at, len, *at);
}

uint32_t proved_parse(const uint8_t *text, size_t len, struct uriparse_parts *parts) {
  uint64_t at;
  uint32_t code = of_text(Z_uriparseZ_uriparse_parse, text, len, &at);
  if (code == URIPARSE_OK) {
    struct uriparse_span *spans[] = {&parts->scheme, &parts->authority, &parts->username, &parts->password, &parts->host,
                                     &parts->port,   &parts->path,      &parts->query,    &parts->fragment};
    for (size_t i = 0; i < 9; i++) *spans[i] = take_span(at + 24 * i);
    take(at + 216, &parts->host_kind, 4);
    take(at + 220, &parts->port_number, 4);
  }
  leave();
  return code;
}

uint32_t proved_first_fault(const uint8_t *text, size_t len, size_t *fault) {
  uint64_t at;
  uint32_t code = of_text(Z_uriparseZ_uriparse_first_fault, text, len, &at);
  if (code > URIPARSE_OUT_OF_MEMORY) *fault = take_size(at);
  leave();
  return code;
}

#define OF_TEXT(name, type)                                                        \
  uint32_t proved_##name(const uint8_t *text, size_t len, type *result) {        \
    uint64_t at;                                                                   \
    uint32_t code = of_text(Z_uriparseZ_uriparse_##name, text, len, &at);          \
    if (code == URIPARSE_OK) take(at, result, sizeof *result);                     \
    leave();                                                                       \
    return code;                                                                   \
  }
OF_TEXT(hash, uint64_t)
OF_TEXT(host_flags, uint32_t)
OF_TEXT(disagreement, uint32_t)
OF_TEXT(is_normalized, bool)
OF_TEXT(is_public, bool)
OF_TEXT(is_ambiguous, bool)
OF_TEXT(port_or_default, int32_t)

#define OF_TWO(name, type)                                                                                                       \
  uint32_t proved_##name(const uint8_t *one, size_t one_len, const uint8_t *two, size_t two_len, type *result) {                \
    if (!enter(one_len, two_len, 0, 0)) return URIPARSE_OUT_OF_MEMORY;                                                           \
    uint64_t one_at = put(one, one_len), two_at = put(two, two_len), at = place(16);                                             \
    uint32_t code = Z_uriparseZ_uriparse_##name(&module, one_at, one_len, two_at, two_len, at);                                  \
    if (code == URIPARSE_OK) take(at, result, sizeof *result);                                                                   \
    leave();                                                                                                                     \
    return code;                                                                                                                 \
  }
OF_TWO(equal, bool)
OF_TWO(compare, int32_t)
OF_TWO(is_within, bool)
OF_TWO(host_is_within, bool)
OF_TWO(host_is_within_any, bool)
OF_TWO(same_origin, bool)

bool proved_is_uri(const uint8_t *text, size_t len) {
  if (!enter(len, 0, 0, 0)) return false;
  bool is_uri = (Z_uriparseZ_uriparse_is_uri(&module, put(text, len), len) & 1) != 0;
  leave();
  return is_uri;
}

uint32_t proved_default_port(const uint8_t *scheme, size_t len) {
  if (!enter(len, 0, 0, 0)) return 0;
  uint32_t port = Z_uriparseZ_uriparse_default_port(&module, put(scheme, len), len);
  leave();
  return port;
}

#define WRITES(name)                                                                                                  \
  uint32_t proved_##name(const uint8_t *text, size_t len, uint8_t *out, size_t room, size_t *needed) {              \
    if (!enter(len, room, 0, 0)) return without_memory(needed);                                                       \
    uint64_t text_at = put(text, len), at = place(room), needed_at = place(8);                                        \
    uint32_t code = Z_uriparseZ_uriparse_##name(&module, text_at, len, at, room, needed_at);                          \
    return written(code, at, needed_at, out, needed);                                                                 \
  }
WRITES(normalize)
WRITES(origin)
WRITES(decode)
WRITES(escape)
WRITES(form_decode)
WRITES(host_address)
WRITES(trim_link)
WRITES(without_default_port)
WRITES(mask_password)
WRITES(request_target)
WRITES(place_key)
WRITES(domain_prefix)
WRITES(base_prefix)

uint32_t proved_encode(uint32_t component, const uint8_t *bytes, size_t len, uint8_t *out, size_t room, size_t *needed) {
  if (!enter(len, room, 0, 0)) return without_memory(needed);
  uint64_t bytes_at = put(bytes, len), at = place(room), needed_at = place(8);
  uint32_t code = Z_uriparseZ_uriparse_encode(&module, component, bytes_at, len, at, room, needed_at);
  return written(code, at, needed_at, out, needed);
}

uint32_t proved_key(uint32_t flags, const uint8_t *text, size_t len, uint8_t *out, size_t room, size_t *needed) {
  if (!enter(len, room, 0, 0)) return without_memory(needed);
  uint64_t text_at = put(text, len), at = place(room), needed_at = place(8);
  uint32_t code = Z_uriparseZ_uriparse_key(&module, flags, text_at, len, at, room, needed_at);
  return written(code, at, needed_at, out, needed);
}

#define WRITES_OF_TWO(name)                                                                                                     \
  uint32_t proved_##name(const uint8_t *one, size_t one_len, const uint8_t *two, size_t two_len, uint8_t *out, size_t room,    \
                           size_t *needed) {                                                                                    \
    if (!enter(one_len, two_len, room, 0)) return without_memory(needed);                                                       \
    uint64_t one_at = put(one, one_len), two_at = put(two, two_len), at = place(room), needed_at = place(8);                    \
    uint32_t code = Z_uriparseZ_uriparse_##name(&module, one_at, one_len, two_at, two_len, at, room, needed_at);                \
    return written(code, at, needed_at, out, needed);                                                                           \
  }
WRITES_OF_TWO(resolve)
WRITES_OF_TWO(relativize)
WRITES_OF_TWO(drop_pairs)

uint32_t proved_change(const uint8_t *text, size_t len, const struct uriparse_changes *changes, const uint8_t *values, size_t values_len,
                         uint8_t *out, size_t room, size_t *needed) {
  const struct uriparse_value *wanted[] = {&changes->scheme, &changes->username, &changes->password, &changes->host,
                                           &changes->port,   &changes->path,     &changes->query,    &changes->fragment};
  if (!enter(len, values_len, room, 0)) return without_memory(needed);
  uint64_t text_at = put(text, len), changes_at = place(192), values_at = put(values, values_len), at = place(room), needed_at = place(8);
  for (size_t i = 0; i < 8; i++) {
    put_number(changes_at + 24 * i, wanted[i]->begin);
    put_number(changes_at + 24 * i + 8, wanted[i]->end);
    put_number(changes_at + 24 * i + 16, wanted[i]->action);
  }
  uint32_t code = Z_uriparseZ_uriparse_change(&module, text_at, len, changes_at, values_at, values_len, at, room, needed_at);
  return written(code, at, needed_at, out, needed);
}

bool proved_next_segment(const uint8_t *path, size_t len, size_t begin, struct uriparse_span *segment) {
  if (!enter(len, 0, 0, 0)) return false;
  uint64_t path_at = put(path, len), at = place(24);
  const bool is_there = (Z_uriparseZ_uriparse_next_segment(&module, path_at, len, begin, at) & 1) != 0;
  if (is_there) *segment = take_span(at);
  leave();
  return is_there;
}

static bool take_pair(uint32_t is_there, uint64_t at, struct uriparse_pair *pair) {
  if (is_there & 1) {
    pair->name = take_span(at);
    pair->value = take_span(at + 24);
    pair->next = take_size(at + 48);
  }
  leave();
  return (is_there & 1) != 0;
}

bool proved_next_pair(const uint8_t *query, size_t len, size_t begin, struct uriparse_pair *pair) {
  if (!enter(len, 0, 0, 0)) return false;
  uint64_t query_at = put(query, len), at = place(64);
  return take_pair(Z_uriparseZ_uriparse_next_pair(&module, query_at, len, begin, at), at, pair);
}

bool proved_find_pair(const uint8_t *query, size_t len, const uint8_t *name, size_t name_len, struct uriparse_pair *pair) {
  if (!enter(len, name_len, 0, 0)) return false;
  uint64_t query_at = put(query, len), name_at = put(name, name_len), at = place(64);
  return take_pair(Z_uriparseZ_uriparse_find_pair(&module, query_at, len, name_at, name_len, at), at, pair);
}

bool proved_find_next_pair(const uint8_t *query, size_t len, size_t begin, const uint8_t *name, size_t name_len, struct uriparse_pair *pair) {
  if (!enter(len, name_len, 0, 0)) return false;
  uint64_t query_at = put(query, len), name_at = put(name, name_len), at = place(64);
  return take_pair(Z_uriparseZ_uriparse_find_next_pair(&module, query_at, len, begin, name_at, name_len, at), at, pair);
}

#define WRITES_PAIR(name_)                                                                                                       \
  uint32_t proved_##name_(const uint8_t *query, size_t len, const uint8_t *name, size_t name_len, const uint8_t *value,         \
                            size_t value_len, bool has_value, uint8_t *out, size_t room, size_t *needed) {                       \
    if (!enter(len, name_len, value_len, room)) return without_memory(needed);                                                   \
    uint64_t query_at = put(query, len), name_at = put(name, name_len), value_at = put(value, value_len);                        \
    uint64_t at = place(room), needed_at = place(8);                                                                             \
    uint32_t code = Z_uriparseZ_uriparse_##name_(&module, query_at, len, name_at, name_len, value_at, value_len, has_value, at,   \
                                                 room, needed_at);                                                               \
    return written(code, at, needed_at, out, needed);                                                                            \
  }
WRITES_PAIR(set_pair)
WRITES_PAIR(append_pair)

const char *uriparse_version(void) { return URIPARSE_VERSION; }
