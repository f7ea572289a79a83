/* Refuses memory to the unit: lives one life on an image again and again, and refuses in each run one request for
 * memory of the library's, in turn, until a run meets no refusal.
 *
 *     refused IMAGE    reads the life from standard input: `open COLD`, an input (inputs.h), `flush` or `close` on each
 * line
 *
 * A call that is refused memory says so and changes nothing that is reported; it is made once more. All else is as in a
 * run without a refusal: each status, request, byte and output, and what the medium holds in the end. Only `open`, the
 * inputs and the preview of a telegram, which is asked for before it is handed in, ask for memory, and after the life
 * all of it is given back. Where the life meets no refusal the run fails. Built with --wrap for malloc, realloc and
 * free; or, over memory of the maker's own (etcs_memory.h), with OVER_PIECES and --wrap for rattle_alloc,
 * rattle_realloc and rattle_dealloc, by which the proved library asks. */
#ifdef OVER_PIECES
#include "etcs_memory.h"
#include "heap.h"
#endif
#include "inputs.h"
#include "medium.h"

enum { MOST_LINES = 256, MOST_BYTES = 1 << 16 };

/* ---- memory, as the library asks for it */

static unsigned long asked, refused_at; /* requests so far in this run; which one is refused, from 1 on */
static long held;                       /* how many pieces are out */
static int is_refused;                  /* whether the call that runs met the refusal */

static int refuses(void) {
    if (++asked != refused_at)
        return 0;
    is_refused = 1;
    return 1;
}

#ifdef OVER_PIECES

rattle_tried __real_rattle_alloc(uint64_t size, uint64_t align);
rattle_tried __real_rattle_realloc(void *old, uint64_t kept, uint64_t size, uint64_t align);
void __real_rattle_dealloc(void *old);
rattle_tried __wrap_rattle_alloc(uint64_t size, uint64_t align);
rattle_tried __wrap_rattle_realloc(void *old, uint64_t kept, uint64_t size, uint64_t align);
void __wrap_rattle_dealloc(void *old);

rattle_tried __wrap_rattle_alloc(uint64_t size, uint64_t align) {
    const rattle_tried made = refuses() ? rattle_result(NULL) : __real_rattle_alloc(size, align);
    held += made.is_there != 0;
    return made;
}

rattle_tried __wrap_rattle_realloc(void *old, uint64_t kept, uint64_t size, uint64_t align) {
    return refuses() ? rattle_result(NULL) : __real_rattle_realloc(old, kept, size, align);
}

void __wrap_rattle_dealloc(void *old) {
    held--;
    __real_rattle_dealloc(old);
}

/* The bytes of the buffer that are out. */
static uint64_t used(void) {
    etcs_memory_info state = {0, 0, 0, 0, 0};
    is("state", etcs_memory_state(&state), ETCS_UNIT_OK);
    return state.used;
}

static void begin(void) {
    static uint8_t buffer[ETCS_MEMORY_BYTES(264, 300, 9000, 9000)];
    is("use", etcs_memory_use(buffer, sizeof buffer), ETCS_UNIT_OK);
}

#else

void *__real_malloc(size_t size);
void *__real_realloc(void *old, size_t size);
void __real_free(void *old);
void *__wrap_malloc(size_t size);
void *__wrap_realloc(void *old, size_t size);
void __wrap_free(void *old);

void *__wrap_malloc(size_t size) {
    void *const made = refuses() ? NULL : __real_malloc(size);
    held += made != NULL;
    return made;
}

void *__wrap_realloc(void *old, size_t size) {
    void *const made = refuses() ? NULL : __real_realloc(old, size);
    held += old == NULL && made != NULL;
    return made;
}

void __wrap_free(void *old) {
    held -= old != NULL;
    __real_free(old);
}

static uint64_t used(void) {
    return 0;
}

static void begin(void) {
}

#endif

/* ---- a run */

/* What a line is answered: a status, and a digest of the requests with their bytes and of the outputs. */
typedef struct {
    uint64_t status, digest;
} answer;

static char lines[MOST_LINES][1024];
static unsigned many;
static uint8_t image[MOST_BYTES], bytes[MOST_BYTES];
static medium on = {bytes, 0};
static etcs_unit unit;
static unsigned refused_open, refused_inputs, refused_previews;

/* Powers up: it asks for memory only where it begins, before anything is read. */
static uint32_t powers_up(uint32_t cold) {
    etcs_unit_request_info next = {0, 0, 0};
    uint8_t none = 0;
    uint32_t status = etcs_unit_begin(&unit, on.len / ETCS_UNIT_SECTOR, cold);
    const unsigned long begun = asked;
    while (status == ETCS_UNIT_OK && etcs_unit_request(&unit, &next, &none, 0) == ETCS_UNIT_OK &&
           next.kind == ETCS_REQUEST_READ)
        status = etcs_unit_provide(&unit, next.sector, on.bytes + next.sector * ETCS_UNIT_SECTOR, ETCS_UNIT_SECTOR);
    is("requests for memory of a power-up that began", asked - begun, 0);
    return status;
}

static uint32_t tries(const char *line, int opens, uint32_t cold) {
    return opens ? powers_up(cold) : take(&unit, line);
}

/* Asks what a telegram would do. Where it is refused memory nothing is written. */
static void previews(const char *line) {
    char hex[512];
    uint8_t sent[256], other[sizeof(etcs_unit_preview_info)];
    etcs_unit_preview_info preview;
    if (sscanf(line, "telegram %511s", hex) != 1)
        return;
    memset(&preview, 0xAA, sizeof preview);
    memset(other, 0xAA, sizeof other);
    is_refused = 0;
    const uint32_t status = etcs_unit_preview_telegram(&unit, sent, bytes_of(hex, sent, sizeof sent), &preview);
    is("preview", status, is_refused ? ETCS_UNIT_NO_MEMORY : ETCS_UNIT_OK);
    if (is_refused) {
        is("a preview that is refused memory writes nothing", (uint64_t)memcmp(&preview, other, sizeof other), 0);
        refused_previews++;
    }
}

/* Opens, or hands in an input. Where it is refused memory it is made once more. */
static uint32_t asks(const char *line, int opens, uint32_t cold) {
    etcs_unit_state_info before, after;
    memset(&before, 0, sizeof before);
    memset(&after, 0, sizeof after);
    const uint32_t was = etcs_unit_state(&unit, &before);
    previews(line);
    const long had = held;
    is_refused = 0;
    const uint32_t status = tries(line, opens, cold);
    if (!is_refused)
        return status;
    is(line, status, opens ? ETCS_UNIT_OPEN_NO_MEMORY : ETCS_UNIT_NO_MEMORY);
    is("its state", etcs_unit_state(&unit, &after), was);
    is("what that has", (uint64_t)memcmp(&before, &after, sizeof before), 0);
    if (opens) {
        is("what a refused power-up holds", (uint64_t)held, (uint64_t)had);
        refused_open++;
    } else {
        refused_inputs++;
    }
    return tries(line, opens, cold);
}

/* Carries out the list and releases. */
static uint32_t carries_out(uint64_t *to) {
    etcs_unit_request_info request;
    etcs_unit_output outputs[ETCS_UNIT_OUTPUTS];
    uint8_t written[ETCS_UNIT_REQUEST_BYTES];
    uint32_t count = 0;
    while (etcs_unit_request(&unit, &request, written, sizeof written) == ETCS_UNIT_OK) {
        if (request.kind != ETCS_REQUEST_READ) {
            digest(to, &request, sizeof request);
            digest(to, written, (size_t)request.sectors * ETCS_UNIT_SECTOR);
        }
        is("done", do_request(&on, &unit, &request, written), ETCS_UNIT_OK);
    }
    const uint32_t status = etcs_unit_release(&unit, outputs, ETCS_UNIT_OUTPUTS, &count);
    digest(to, outputs, count * sizeof outputs[0]);
    return status;
}

static answer answer_to(const char *line) {
    answer found = {0, DIGEST};
    uint32_t cold;
    const int opens = sscanf(line, "open %" SCNu32, &cold) == 1;
    const int flushes = strcmp(line, "flush") == 0, closes = strcmp(line, "close") == 0;
    if (!flushes && !closes)
        found.status = asks(line, opens, cold);
    const unsigned long before = asked;
    if (flushes)
        found.status = etcs_unit_prepare(&unit);
    if (closes)
        found.status = etcs_unit_close(&unit);
    if (found.status == ETCS_UNIT_OK && (opens || flushes))
        found.status = carries_out(&found.digest);
    is("requests for memory of a call that takes no input", asked - before, 0);
    return found;
}

/* Lives the life, with a request refused. */
static void live(unsigned long at, answer *found) {
    memcpy(bytes, image, on.len);
    memset(&unit, 0, sizeof unit);
    asked = 0;
    refused_at = at;
    for (unsigned i = 0; i < many; i++)
        found[i] = answer_to(lines[i]);
    etcs_unit_close(&unit);
    is("what is held after the life", (uint64_t)held + used(), 0);
}

/* That a run was answered as the undisturbed one, and left the same bytes. */
static void compare(const answer *found, const answer *wanted, const uint8_t *left) {
    for (unsigned i = 0; i < many; i++) {
        is(lines[i], found[i].status, wanted[i].status);
        is("its requests and outputs", found[i].digest, wanted[i].digest);
    }
    is("what the medium holds", (uint64_t)memcmp(bytes, left, on.len), 0);
}

static int read_all(const char *path) {
    FILE *const file = fopen(path, "rb");
    if (!file)
        return 0;
    on.len = fread(image, 1, sizeof image, file);
    fclose(file);
    while (many < MOST_LINES && fgets(lines[many], sizeof lines[0], stdin)) {
        lines[many][strcspn(lines[many], "\n")] = 0;
        many++;
    }
    return on.len > 0 && on.len < sizeof image && many > 0 && many < MOST_LINES;
}

int main(int count, char **words) {
    static answer wanted[MOST_LINES], found[MOST_LINES];
    static uint8_t left[MOST_BYTES];
    if (count != 2 || !read_all(words[1]))
        return 2;
    begin();
    live(0, wanted);
    memcpy(left, bytes, on.len);
    for (unsigned i = 0; i < many; i++)
        is(lines[i], wanted[i].status, ETCS_UNIT_OK);
    const unsigned long all = asked;
    for (unsigned long at = 1; at <= all + 1; at++) {
        const unsigned before = refused_open + refused_inputs + refused_previews;
        live(at, found);
        compare(found, wanted, left);
        is("refusals of a run", refused_open + refused_inputs + refused_previews - before, at <= all);
    }
    printf("refused: %u power-ups, %u inputs, %u previews\n", refused_open, refused_inputs, refused_previews);
    return report("refused", 2 * many) || refused_open == 0 || refused_inputs == 0;
}
