/* Loaded before the C library (LD_PRELOAD) into a program of the kit, this refuses requests for
 * memory.
 *
 * There are two ways to say which ones:
 *   REFUSE=N      the Nth request of the process, counted from 1 at the first one of main;
 *                 REFUSE=N+ that one and every later one
 *   by requests   of sizes that no program asks for otherwise, so that a test can refuse those of
 *                 one call:
 *                 ALONE + n: from here on the nth request is refused
 *                 ONWARDS + n: the nth one and every later one
 *                 ENOUGH: ends that; if a request was refused since, ENOUGH is refused too, which
 *                 tells the test
 * REFUSE_TOLD=FD: at the end of the process it writes there the number of its requests, and how
 * many were refused.
 *
 * A program that rt builds asks for memory only by malloc and realloc. The other functions are here
 * for the requests of the C library itself.
 */
typedef unsigned long size_t;
typedef long ssize_t;

extern void *__libc_malloc(size_t);
extern void *__libc_realloc(void *, size_t);
extern void *__libc_calloc(size_t, size_t);
extern void *__libc_memalign(size_t, size_t);
extern int *__errno_location(void);
extern char *getenv(const char *);
extern ssize_t write(int, const void *, size_t);

enum { ENOMEM = 12 };
#define ALONE ((size_t)0x08000000)  /* 128 MiB, and up to SPAN above */
#define ONWARDS ((size_t)0x0a000000)
#define ENOUGH ((size_t)0x0c000000)
#define SPAN ((size_t)0x01000000)

static int begun, told = -1;
static size_t first, all;          /* of the process */
static size_t asked, refused;      /* requests of the process, and those that were refused */
static size_t wanted, later, marked, hit; /* since a request that says which ones */

static size_t number(const char *text, const char **end) {
    size_t n = 0;
    while (*text >= '0' && *text <= '9') n = 10 * n + (size_t)(*text++ - '0');
    *end = text;
    return n;
}

__attribute__((constructor)) static void begin(void) {
    const char *text = getenv("REFUSE"), *end;
    if (text) { first = number(text, &end); all = *end == '+'; }
    text = getenv("REFUSE_TOLD");
    if (text) told = (int)number(text, &end);
    begun = 1;
}

static char *digits(char *to, size_t n) {
    char back[24]; int k = 0;
    do back[k++] = (char)('0' + n % 10); while (n /= 10);
    while (k) *to++ = back[--k];
    return to;
}

__attribute__((destructor)) static void tell(void) {
    char line[64], *at = line;
    if (told < 0) return;
    at = digits(at, asked); *at++ = ' '; at = digits(at, refused); *at++ = '\n';
    (void)!write(told, line, (size_t)(at - line));
}

static int is_refused(size_t n) {
    if (!begun) return 0;
    if (n >= ALONE && n < ALONE + SPAN) { wanted = n - ALONE; later = 0; marked = hit = 0; return 1; }
    if (n >= ONWARDS && n < ONWARDS + SPAN) { wanted = n - ONWARDS; later = 1; marked = hit = 0; return 1; }
    if (n == ENOUGH) { size_t was = hit; wanted = hit = 0; return was != 0; }
    asked++;
    if (first && (asked == first || (all && asked > first))) { refused++; return 1; }
    if (wanted && (++marked == wanted || (later && marked > wanted))) { hit++; refused++; return 1; }
    return 0;
}

static void *none(void) { *__errno_location() = ENOMEM; return 0; }

void *malloc(size_t n) { return is_refused(n) ? none() : __libc_malloc(n); }
void *realloc(void *p, size_t n) { return is_refused(n) ? none() : __libc_realloc(p, n); }
void *calloc(size_t k, size_t n) { return is_refused(0) ? none() : __libc_calloc(k, n); }
void *memalign(size_t a, size_t n) { return is_refused(0) ? none() : __libc_memalign(a, n); }
void *aligned_alloc(size_t a, size_t n) { return is_refused(0) ? none() : __libc_memalign(a, n); }
void *valloc(size_t n) { return is_refused(0) ? none() : __libc_memalign(4096, n); }
int posix_memalign(void **to, size_t a, size_t n) {
    if (is_refused(0)) return ENOMEM;
    return (*to = __libc_memalign(a, n)) ? 0 : ENOMEM;
}
