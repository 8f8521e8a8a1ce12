/* nms_shared.h: one thread publishes views of a board, and any number of threads and processes read them without a lock.
 *
 * HOW IT WORKS
 *   The memory holds two places for each symbol. nms_shared_put writes the place that no reader is sent to, and then sends
 *   readers there. A reader copies a place, and copies again if the writer has gone on meanwhile. So it never sees a torn view,
 *   never an older one than it saw before of the symbol, and a writer that stops or dies holds up no reader.
 *   One thread at a time may write; a lock, a start or a join has to order two writers. The memory may be shared between
 *   processes: it holds no pointer. A process that may not be trusted can write what it likes there: nms_plan_view and the other
 *   calls on views refuse what is no view, and plan on the rest.
 *
 * WHAT A READER SEES
 *   nms_shared_version is how many changes were published. Read it first, and then the view. If the writer publishes by
 *   nms_shared_put_change, the view shows the board at each version from its own up to that one. From 9,990,000 changes on that
 *   holds for rows, ranks and plans, but receipts may have started again (nms.h, HOW MANY CHANGES).
 *   Before a symbol is published for the first time, nms_shared_get answers NMS_NO_VIEW. So publish each symbol once at first, by
 *   nms_shared_put, which does not raise the version. A new board needs memory that is opened again: its versions begin at 0.
 *
 * This header is not proved: it is trusted, and tested by threads under a checker of races. It needs the builtins `__atomic_*` of
 * GCC or Clang, in C and in C++.
 */
#ifndef NMS_SHARED_H
#define NMS_SHARED_H

#include "nms.h"
#include <string.h>

#ifdef __cplusplus
extern "C" {
#endif

enum { NMS_VIEW_WORDS = sizeof(nms_view) / sizeof(uint64_t), NMS_SHARED_TRIES = 1000000 };

/* The views of one symbol. Readers are sent to place `turn % 2`; 0 turns: nothing was published. */
typedef struct nms_shared_symbol {
    uint64_t turn, place[2][NMS_VIEW_WORDS];
} nms_shared_symbol;

/* What is published. Its fields are those of the calls below. */
typedef struct nms_shared {
    uint64_t version;
    uint32_t abi, symbols;
    /* Here follow the symbols. */
} nms_shared;

/* How many bytes so many symbols take. */
static inline size_t nms_shared_bytes(uint16_t symbols)
{
    return sizeof(nms_shared) + symbols * sizeof(nms_shared_symbol);
}

/* The views of a symbol that is there. */
static inline nms_shared_symbol *nms_shared_at(const nms_shared *shared, uint32_t sym)
{
    return (nms_shared_symbol *)(shared + 1) + sym;
}

/* Makes memory ready, before any reader has it. It lies at a multiple of 8, and is at least nms_shared_bytes long.
 * Codes: NMS_NULL, NMS_RANGE (too few bytes). */
static inline uint32_t nms_shared_open(void *memory, size_t bytes, uint16_t symbols, nms_shared **shared)
{
    if (!memory || !shared) {
        return NMS_NULL;
    }
    if (bytes < nms_shared_bytes(symbols)) {
        return NMS_RANGE;
    }
    memset(memory, 0, nms_shared_bytes(symbols));
    *shared = (nms_shared *)memory;
    (*shared)->symbols = symbols;
    __atomic_store_n(&(*shared)->abi, (uint32_t)NMS_ABI, __ATOMIC_RELEASE);
    return NMS_OK;
}

/* Finds what another process has made ready in such memory. Codes: NMS_NULL, NMS_RANGE (too few bytes), NMS_WRONG_ABI (another
 * header made it, or none). */
static inline uint32_t nms_shared_find(const void *memory, size_t bytes, const nms_shared **shared)
{
    const nms_shared *found = (const nms_shared *)memory;
    if (!memory || !shared) {
        return NMS_NULL;
    }
    if (bytes < sizeof(nms_shared)) {
        return NMS_RANGE;
    }
    if (__atomic_load_n(&found->abi, __ATOMIC_ACQUIRE) != NMS_ABI) {
        return NMS_WRONG_ABI;
    }
    if (found->symbols > NMS_MOST_SYMS || bytes < nms_shared_bytes((uint16_t)found->symbols)) {
        return NMS_RANGE;
    }
    *shared = found;
    return NMS_OK;
}

/* Publishes a view. Only the writer calls it. Codes: NMS_NULL, NMS_NO_SYM, NMS_RANGE (it is older than the one that is there). */
static inline uint32_t nms_shared_put(nms_shared *shared, const nms_view *view)
{
    if (!shared || !view) {
        return NMS_NULL;
    }
    if (view->sym >= shared->symbols) {
        return NMS_NO_SYM;
    }
    nms_shared_symbol *symbol = nms_shared_at(shared, view->sym);
    uint64_t turn = __atomic_load_n(&symbol->turn, __ATOMIC_RELAXED), words[NMS_VIEW_WORDS];
    /* The first word of a view is its version. */
    if (turn && view->version < __atomic_load_n(&symbol->place[turn % 2][0], __ATOMIC_RELAXED)) {
        return NMS_RANGE;
    }
    memcpy(words, view, sizeof words);
    uint64_t *place = symbol->place[(turn + 1) % 2];
    for (size_t at = 0; at < NMS_VIEW_WORDS; at++) {
        /* Released, so that a reader who meets a word of this turn also meets the turn before it. */
        __atomic_store_n(&place[at], words[at], __ATOMIC_RELEASE);
    }
    __atomic_store_n(&symbol->turn, turn + 1, __ATOMIC_RELEASE);
    return NMS_OK;
}

/* Publishes what the board shows of each symbol that a change concerns: the change's own, or all for a withdrawal; and then the
 * board's version. The writer calls it after each change that the board took. Of the change only `kind` and `sym` are read.
 * `symbols` of nms_shared_open are those of the board. Codes: those of nms_view_of and nms_shared_put. */
static inline uint32_t nms_shared_put_change(nms_shared *shared, const nms_board *board, const nms_change *change)
{
    if (!shared || !board || !change) {
        return NMS_NULL;
    }
    int is_all = change->kind == NMS_WITHDRAW;
    uint32_t from = is_all ? 0 : change->sym, to = is_all ? shared->symbols : from + 1u;
    nms_view view;
    view.version = 0;
    for (uint32_t sym = from; sym < to; sym++) {
        uint32_t code = nms_view_of(board, (uint16_t)sym, &view);
        if (code || (code = nms_shared_put(shared, &view))) {
            return code;
        }
    }
    /* After the views, so that who reads this version first and then a view finds all up to it. */
    __atomic_store_n(&shared->version, view.version, __ATOMIC_RELEASE);
    return NMS_OK;
}

/* How many changes were published. */
static inline uint64_t nms_shared_version(const nms_shared *shared)
{
    return __atomic_load_n(&shared->version, __ATOMIC_ACQUIRE);
}

/* Copies the latest view of a symbol. Any number of threads may call it at once, also while the writer publishes.
 * Codes: NMS_NULL, NMS_NO_SYM, NMS_NO_VIEW (nothing was published of it, or the writer was faster in each of NMS_SHARED_TRIES
 * tries). */
static inline uint32_t nms_shared_get(const nms_shared *shared, uint16_t sym, nms_view *view)
{
    if (!shared || !view) {
        return NMS_NULL;
    }
    if (sym >= shared->symbols) {
        return NMS_NO_SYM;
    }
    const nms_shared_symbol *symbol = nms_shared_at(shared, sym);
    for (int tries = 0; tries < NMS_SHARED_TRIES; tries++) {
        uint64_t turn = __atomic_load_n(&symbol->turn, __ATOMIC_ACQUIRE), words[NMS_VIEW_WORDS];
        if (!turn) {
            return NMS_NO_VIEW;
        }
        for (size_t at = 0; at < NMS_VIEW_WORDS; at++) {
            words[at] = __atomic_load_n(&symbol->place[turn % 2][at], __ATOMIC_ACQUIRE);
        }
        if (__atomic_load_n(&symbol->turn, __ATOMIC_RELAXED) == turn) {
            memcpy(view, words, sizeof words);
            return NMS_OK;
        }
    }
    return NMS_NO_VIEW;
}

#ifdef __cplusplus
}
#endif

#endif
