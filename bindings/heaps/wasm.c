/* The memory of the library in WebAssembly, where there is no C library: the requests that the proved library makes, those
 * of the caller for what it passes, and the calls on bytes that a compiler expects.
 *
 * What lies after the module's data is a row of blocks. Each begins with two numbers, the bytes of the block before it and
 * its own, whose lowest bit says that it is in use. The last one has no bytes, and ends the row. No two free blocks stand
 * side by side. They are kept in lists by size, four for each power of two. A block is looked for in the list where some
 * are long enough, then in the first list where all are; then the memory grows, up to the limit. Else the request is
 * refused, and nothing is changed. */
/* In C23, since the kit's clang has no headers. */
typedef __SIZE_TYPE__ size_t;
typedef __UINT64_TYPE__ uint64_t;

#define SIZE_MAX __SIZE_MAX__
#define offsetof __builtin_offsetof
#define PAGE ((size_t)65536)
#define ALIGN ((size_t)16)
#define LISTS 256
#define TRIED 32 /* so many blocks of a list are looked at before the memory grows */

struct block {
    size_t before; /* 0 of the first block */
    size_t bytes;
    struct block *next, *last; /* its neighbours in a list; a block in use has its bytes from here on */
};

#define HEAD offsetof(struct block, next)

/* The library reads both numbers whole. */
struct granted {
    uint64_t is;
    void *at;
};

extern unsigned char __heap_base;
static struct block *lists[LISTS], *end;
static uint64_t filled[LISTS / 64];
static size_t limit = SIZE_MAX, requests, refused;

static size_t bytes_of(const struct block *it) { return it->bytes & ~(size_t)1; }

static bool is_free(const struct block *it) { return (it->bytes & 1) == 0; }

static struct block *further(struct block *it, size_t bytes) { return (struct block *)((size_t)it + bytes); }

static struct block *after(struct block *it) { return further(it, bytes_of(it)); }

/* The block before one that isn't the first. */
static struct block *in_front(struct block *it) { return (struct block *)((size_t)it - it->before); }

/* The block with these bytes. */
static struct block *block_of(void *at) { return (struct block *)((size_t)at - HEAD); }

static unsigned list_of(size_t bytes) {
    unsigned power = 63 - (unsigned)__builtin_clzll(bytes);
    return 4 * power + (unsigned)(bytes >> (power - 2) & 3);
}

/* Makes so many bytes a free block, whose number `before` stands already. */
static void put(struct block *it, size_t bytes) {
    unsigned list = list_of(bytes);
    it->bytes = bytes;
    it->last = nullptr;
    it->next = lists[list];
    if (it->next != nullptr)
        it->next->last = it;
    lists[list] = it;
    filled[list / 64] |= (uint64_t)1 << list % 64;
    after(it)->before = bytes;
}

static void take_out(struct block *it) {
    unsigned list = list_of(it->bytes);
    if (it->next != nullptr)
        it->next->last = it->last;
    if (it->last != nullptr)
        it->last->next = it->next;
    else
        lists[list] = it->next;
    if (lists[list] == nullptr)
        filled[list / 64] &= ~((uint64_t)1 << list % 64);
}

/* A block of a list that has so many bytes, if one of the first `most` has. */
static struct block *found_in(unsigned list, size_t bytes, size_t most) {
    struct block *it = lists[list];
    while (it != nullptr && it->bytes < bytes)
        it = most-- > 1 ? it->next : nullptr;
    return it;
}

/* The first block of the first list, from this one on, that has any. */
static struct block *found_from(unsigned list) {
    unsigned word = list / 64;
    uint64_t lists_with = filled[word] & ~(uint64_t)0 << list % 64;
    while (lists_with == 0 && ++word < LISTS / 64)
        lists_with = filled[word];
    return lists_with == 0 ? nullptr : lists[64 * word + (unsigned)__builtin_ctzll(lists_with)];
}

/* Has the memory end at a page's end where so many bytes are below it, if the limit and the engine allow it. */
static bool reach(size_t bytes) {
    size_t size = __builtin_wasm_memory_size(0) * PAGE, most = limit - limit % PAGE, more;
    if (bytes <= size)
        return true;
    if (bytes > most)
        return false;
    more = (bytes - size + PAGE - 1) / PAGE;
    if (more < size / PAGE / 8 && size + size / PAGE / 8 * PAGE <= most
        && __builtin_wasm_memory_grow(0, size / PAGE / 8) != SIZE_MAX)
        return true;
    return __builtin_wasm_memory_grow(0, more) != SIZE_MAX;
}

/* Puts the end of the row further on, so that a free block of at least so many bytes stands in front of it. */
static struct block *grown(size_t bytes) {
    struct block *it = end;
    size_t free = 0;
    if (it == nullptr)
        it = (struct block *)(((size_t)&__heap_base + ALIGN - 1) & ~(ALIGN - 1));
    else if (it->before > 0 && is_free(in_front(it)))
        free = it->before;
    if (!reach((size_t)it - free + bytes + HEAD))
        return nullptr;
    if (end == nullptr)
        it->before = 0;
    if (free > 0) {
        it = in_front(it);
        take_out(it);
    }
    end = (struct block *)(__builtin_wasm_memory_size(0) * PAGE - HEAD);
    end->bytes = 1;
    put(it, (size_t)end - (size_t)it);
    return it;
}

/* Has a block in use keep so many bytes, and gives the rest back, if that can be a block. */
static void cut(struct block *it, size_t bytes) {
    size_t rest = bytes_of(it) - bytes;
    struct block *other = further(it, bytes);
    if (rest < sizeof(struct block))
        return;
    it->bytes = bytes | 1;
    other->before = bytes;
    if (is_free(further(other, rest))) {
        take_out(further(other, rest));
        rest += further(other, rest)->bytes;
    }
    put(other, rest);
}

/* As many bytes as the block has in which so many lie; 0 where there are none such. */
static size_t whole(size_t bytes) {
    if (bytes > SIZE_MAX / 4)
        return 0;
    bytes = (bytes + HEAD + ALIGN - 1) & ~(ALIGN - 1);
    return bytes < sizeof(struct block) ? sizeof(struct block) : bytes;
}

static void *taken(size_t length) {
    size_t bytes = whole(length);
    unsigned list;
    struct block *it;
    if (bytes == 0)
        return nullptr;
    list = list_of(bytes);
    it = found_in(list, bytes, TRIED);
    if (it == nullptr)
        it = found_from(list + 1);
    if (it == nullptr)
        it = grown(bytes);
    if (it == nullptr)
        it = found_in(list, bytes, SIZE_MAX);
    if (it == nullptr)
        return nullptr;
    take_out(it);
    it->bytes |= 1;
    cut(it, bytes);
    return &it->next;
}

static void given_back(void *at) {
    struct block *it = block_of(at), *other = after(it);
    size_t bytes = bytes_of(it);
    if (is_free(other)) {
        take_out(other);
        bytes += other->bytes;
    }
    if (it->before > 0 && is_free(in_front(it))) {
        it = in_front(it);
        take_out(it);
        bytes += it->bytes;
    }
    put(it, bytes);
}

/* Whether a block in use is made so long where it lies. */
static bool stretched(struct block *it, size_t bytes) {
    struct block *other = after(it);
    size_t have = bytes_of(it);
    if (bytes <= have)
        return true;
    if (other == end || (is_free(other) && after(other) == end && have + other->bytes < bytes))
        other = grown(bytes - have);
    if (other == nullptr || !is_free(other) || have + other->bytes < bytes)
        return false;
    take_out(other);
    it->bytes += other->bytes;
    after(it)->before = bytes_of(it);
    return true;
}

/* Counts a request of the library, and says whether it is the one to refuse. */
static bool refuses(void) { return ++requests == refused; }

static struct granted granted(void *at) {
    struct granted made = {at != nullptr, at == nullptr ? &__heap_base : at};
    return made;
}

struct granted rattle_alloc(size_t bytes, size_t align) {
    return granted(refuses() ? nullptr : taken(bytes == 0 ? align : bytes));
}

struct granted rattle_realloc(void *at, size_t kept, size_t bytes, size_t align) {
    struct block *it = block_of(at);
    size_t wanted = whole(bytes == 0 ? align : bytes);
    void *other;
    if (wanted == 0 || refuses())
        return granted(nullptr);
    if (stretched(it, wanted)) {
        cut(it, wanted);
        return granted(at);
    }
    other = taken(wanted - HEAD);
    if (other != nullptr) {
        __builtin_memcpy(other, at, kept < bytes ? kept : bytes);
        given_back(at);
    }
    return granted(other);
}

void rattle_dealloc(void *at) { given_back(at); }

/* For the caller: memory for what it passes, null where it is refused; how many bytes the memory may have in all; and, for
 * tests, how many requests the library made since the last call, of which one is to be refused: the first is 1, 0 is none. */
void *heap_take(size_t bytes) { return taken(bytes); }

void heap_give_back(void *at) { given_back(at); }

void heap_limit(size_t bytes) { limit = bytes; }

size_t heap_refuse(size_t request) {
    size_t made = requests;
    requests = 0;
    refused = request;
    return made;
}

/* The calls on bytes. Short ones are made a word at a time, which costs less than the engine's own. */
#define SHORT 128

typedef uint64_t __attribute__((aligned(1), may_alias)) word;

void *memcpy(void *into, const void *from, size_t length) {
    unsigned char *to = into;
    const unsigned char *bytes = from;
    if (length > SHORT)
        return __builtin_memcpy(into, from, length);
    for (; length >= sizeof(word); length -= sizeof(word), to += sizeof(word), bytes += sizeof(word))
        *(word *)to = *(const word *)bytes;
    while (length-- > 0)
        *to++ = *bytes++;
    return into;
}

void *memmove(void *into, const void *from, size_t length) { return __builtin_memmove(into, from, length); }

void *memset(void *into, int byte, size_t length) {
    unsigned char *to = into;
    word bytes = (unsigned char)byte * 0x0101010101010101u;
    if (length > SHORT)
        return __builtin_memset(into, byte, length);
    for (; length >= sizeof(word); length -= sizeof(word), to += sizeof(word))
        *(word *)to = bytes;
    while (length-- > 0)
        *to++ = (unsigned char)byte;
    return into;
}

int memcmp(const void *a, const void *b, size_t length) {
    const unsigned char *one = a, *other = b;
    for (; length >= sizeof(word) && *(const word *)one == *(const word *)other; length -= sizeof(word))
        one += sizeof(word), other += sizeof(word);
    for (; length > 0; length--, one++, other++)
        if (*one != *other)
            return *one - *other;
    return 0;
}

int bcmp(const void *a, const void *b, size_t length) { return memcmp(a, b, length); }
