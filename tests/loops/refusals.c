/* Requests for memory that are refused.
 *
 * A program in Rattle asks for memory by rattle_alloc and rattle_realloc alone, which the toolchain's library makes of
 * malloc and realloc. The linker is told to put the functions below in their places (--wrap), so that each request is
 * counted here, and refused where its turn has come; what is not refused goes on to the library.
 *
 * Which request is refused is said in one of two ways:
 * - by the environment: LOOPS_REFUSE=N refuses the N-th request of the process, from 1 on;
 * - by the program itself, at any time, by a request of a size that no memory has: (WORD << 46) + N. Such a request is
 *   an order, and is not counted; it is answered by yes, with some memory, or by no, as if that were refused.
 *   1: refuse the N-th request from now on, and no other (yes).
 *   2: refuse each request from now on (yes).
 *   3: refuse none from now on. Yes where one was refused since the order before, else no.
 *
 * With LOOPS_COUNT=FILE in the environment the process writes into that file how many requests it made, when it ends. */

/* No header is wanted, so that the toolchain's own compiler is enough. */
typedef unsigned long size_t;
char *getenv(const char *name);
size_t strtoul(const char *text, char **end, int base);
int creat(const char *path, unsigned mode);
long write(int file, const void *bytes, size_t count);

struct answer {
    size_t is_given;
    void *place;
};

struct answer __real_rattle_alloc(size_t size, size_t least);
struct answer __real_rattle_realloc(void *place, size_t before, size_t size, size_t least);

static size_t made;
static size_t left;
static int refuses_all;
static int has_refused;

__attribute__((constructor)) static void begin(void)
{
    const char *number = getenv("LOOPS_REFUSE");
    if (number)
        left = strtoul(number, 0, 10);
}

__attribute__((destructor)) static void end(void)
{
    char digits[20];
    size_t at = sizeof digits;
    const char *path = getenv("LOOPS_COUNT");
    int file = path ? creat(path, 0644) : -1;
    do
        digits[--at] = '0' + made % 10;
    while (made /= 10);
    if (file >= 0 && write(file, digits + at, sizeof digits - at) < 0)
        return;
}

static struct answer no(void)
{
    struct answer refused = {0, &left};
    return refused;
}

static int is_refused(void)
{
    made++;
    if (refuses_all || (left > 0 && --left == 0)) {
        has_refused = 1;
        return 1;
    }
    return 0;
}

static struct answer obeyed(size_t order)
{
    int had_refused = has_refused;
    size_t word = order >> 46;
    has_refused = 0;
    refuses_all = word == 2;
    left = word == 1 ? order & (((size_t)1 << 46) - 1) : 0;
    return word == 3 && !had_refused ? no() : __real_rattle_alloc(16, 16);
}

struct answer __wrap_rattle_alloc(size_t size, size_t least)
{
    if (size >> 46)
        return obeyed(size);
    return is_refused() ? no() : __real_rattle_alloc(size, least);
}

struct answer __wrap_rattle_realloc(void *place, size_t before, size_t size, size_t least)
{
    return is_refused() ? no() : __real_rattle_realloc(place, before, size, least);
}
