/* The C and C++ interface of vertex programs: the fourteen functions that a program may call, and macros for what the verifier requires.
 *
 *     #include "pregel.h"
 *
 *     void compute(void)
 *     {
 *         while (next_message())
 *             set_value(get_value() + message_value());
 *         vote_to_halt();
 *     }
 *
 * `pregel-cc FILE.c` compiles, links and verifies such a file. docs/LANGUAGES.md is the guide. */
#ifndef PREGEL_H
#define PREGEL_H

#include <stdbool.h>
#include <stdint.h>

#ifndef __wasm__
#error "a vertex program is compiled for WebAssembly: use pregel-cc, or clang --target=wasm32"
#endif

#ifdef __cplusplus
extern "C" {
#endif

#define PREGEL_IMPORT(name) __attribute__((import_module("pregel"), import_name(#name)))
#define PREGEL_INLINE static inline __attribute__((always_inline, unused))

/* Your program. In superstep 0 the engine calls it once for each vertex; in each later superstep, for each vertex that has not
 * voted to halt or that has messages. A vertex keeps its value from call to call, and whether it has voted to halt. Static
 * variables have their first values again in each call. */
__attribute__((export_name("compute"))) void compute(void);

/* ---- The vertex and the job ---------------------------------------------------------------------------------------------- */

/* Returns the id of this vertex, from 0 to 9,223,372,036,854,775,807. */
PREGEL_IMPORT(vertex_id) int64_t vertex_id(void);

/* Returns the number of this superstep, from 0. */
PREGEL_IMPORT(superstep) int64_t superstep(void);

/* Returns how many vertices the graph has, from 1 to 1,000,000. */
PREGEL_IMPORT(num_vertices) int64_t num_vertices(void);

/* Returns the value of this vertex: what the graph file gives it, until set_value changes it. */
PREGEL_IMPORT(get_value) int64_t get_value(void);

/* Gives this vertex another value. It is what the vertex keeps until the next superstep, and what the job prints at its end. */
PREGEL_IMPORT(set_value) void set_value(int64_t value);

/* Makes this vertex inactive after this call. A message makes it active again. The job ends when every vertex is inactive and no
 * message is under way. The call goes on behind vote_to_halt(), and may still send messages. */
PREGEL_IMPORT(vote_to_halt) void vote_to_halt(void);

/* ---- Messages ------------------------------------------------------------------------------------------------------------ */

/* Takes the next message of this vertex: true, or false where none is left. Messages come by the sender's id, rising, and those of
 * one sender in the order in which it sent them. Each can be taken once in a call.
 * noduplicate keeps the call at the head of its loop, where the verifier requires it (rule P9). */
PREGEL_IMPORT(next_message) bool next_message(void) __attribute__((noduplicate));

/* Returns the value of the message that was taken last, and 0 before the first. */
PREGEL_IMPORT(message_value) int64_t message_value(void);

/* Sends `value` to the vertex `target`, of any part of the graph. It arrives in the next superstep. A message to an id that the
 * graph does not have is dropped and counted. */
PREGEL_IMPORT(send) void send(int64_t target, int64_t value);

/* ---- Edges --------------------------------------------------------------------------------------------------------------- */

/* Takes the next edge that leads from this vertex: true, or false where none is left. Edges come in the order of the graph file.
 * Each can be taken once in a call: either count them, or send along them. */
PREGEL_IMPORT(next_edge) bool next_edge(void) __attribute__((noduplicate));

/* Returns the vertex to which the edge taken last leads, and 0 before the first. */
PREGEL_IMPORT(edge_target) int64_t edge_target(void);

/* Returns the value of the edge taken last, and 0 before the first. */
PREGEL_IMPORT(edge_value) int64_t edge_value(void);

/* A loop over all messages, or over all edges:
 *
 *     EACH_MESSAGE {
 *         if (message_value() < 0)
 *             continue;
 *         ..
 *     }
 *
 * It does what `while (next_message()) ..` does, `break`, `continue` and `return` included, and is accepted more often. The verifier
 * requires the call at the head of its loop and one place from which the loop goes back (rule P9), and compilers move both. An empty
 * asm behind the loop keeps the code that follows from being laid out within it.
 *
 * PREGEL_STEP puts a second one at the end of the body, which keeps parts of the body from becoming loops of their own. PREGEL_PLAIN
 * takes both away, which suits -Oz. pregel-cc tries these ways. */
#define EACH_MESSAGE PREGEL_EACH(next_message())
#define EACH_EDGE PREGEL_EACH(next_edge())
#if defined(PREGEL_PLAIN)
#define PREGEL_EACH(next) while (next)
#elif defined(PREGEL_STEP)
#define PREGEL_EACH(next) PREGEL_ONCE for (; next; __extension__({ __asm__ volatile(""); }))
#else
#define PREGEL_EACH(next) PREGEL_ONCE while (next)
#endif
#define PREGEL_ONCE for (bool pregel_once_ = true; pregel_once_; __extension__({ __asm__ volatile(""); pregel_once_ = false; }))

/* ---- Aggregators --------------------------------------------------------------------------------------------------------- */

/* There are eight aggregators. What the vertices contribute in one superstep is folded, and every vertex reads it in the next. In
 * superstep 0, and where nobody contributed, a reader gets the start.
 *
 *     | Aggregator | Fold                | Start                                       |
 *     | 0 and 1    | sum, wrapping       | 0                                           |
 *     | 2 and 3    | least               | INT64_MAX                                   |
 *     | 4 and 5    | greatest            | INT64_MIN                                   |
 *     | 6 and 7    | or, bit by bit      | 0                                           |
 *
 * The verifier requires the aggregator's number to be a constant in each call (rule P13). The two functions below choose among eight
 * calls; where the number is a constant, one of them is left. nomerge keeps the compiler from merging two calls into one with a
 * computed number. */
#define AGGREGATOR_SUM 0
#define AGGREGATOR_LEAST 2
#define AGGREGATOR_GREATEST 4
#define AGGREGATOR_OR 6

PREGEL_IMPORT(aggregate) void pregel_aggregate_(int32_t aggregator, int64_t value) __attribute__((nomerge));
PREGEL_IMPORT(aggregated) int64_t pregel_aggregated_(int32_t aggregator) __attribute__((nomerge));

/* Contributes `value` to an aggregator, 0 to 7. Another number contributes nothing. */
PREGEL_INLINE void aggregate(int32_t aggregator, int64_t value)
{
    switch (aggregator) {
    case 0: pregel_aggregate_(0, value); break;
    case 1: pregel_aggregate_(1, value); break;
    case 2: pregel_aggregate_(2, value); break;
    case 3: pregel_aggregate_(3, value); break;
    case 4: pregel_aggregate_(4, value); break;
    case 5: pregel_aggregate_(5, value); break;
    case 6: pregel_aggregate_(6, value); break;
    case 7: pregel_aggregate_(7, value); break;
    }
}

/* Returns what an aggregator, 0 to 7, was folded to in the superstep before, and 0 for another number. */
PREGEL_INLINE int64_t aggregated(int32_t aggregator)
{
    switch (aggregator) {
    case 0: return pregel_aggregated_(0);
    case 1: return pregel_aggregated_(1);
    case 2: return pregel_aggregated_(2);
    case 3: return pregel_aggregated_(3);
    case 4: return pregel_aggregated_(4);
    case 5: return pregel_aggregated_(5);
    case 6: return pregel_aggregated_(6);
    case 7: return pregel_aggregated_(7);
    }
    return 0;
}

/* ---- In place of loops that count, of indices and of divisors that are not constant ---------------------------------------- */

/* Writes a loop out that runs a constant number of times (rule P9 refuses loops that count):
 *
 *     UNROLL for (int i = 0; i < 8; i++)
 *         ..
 */
#define UNROLL _Pragma("clang loop unroll(full)")

/* Reads `array[index]` for an index that is not a constant (rule P10 requires constant addresses), and 0 where the index is outside.
 * `array` is a variable of array type, not a pointer. It costs some 6 units for each item of the array. */
#define AT(array, index)                                                                                                           \
    __extension__({                                                                                                                \
        PREGEL_ARRAY(array);                                                                                                       \
        __typeof__((array)[0] + 0) pregel_found_ = 0;                                                                              \
        uint64_t pregel_index_ = (uint64_t)(index);                                                                                \
        UNROLL for (uint64_t pregel_i_ = 0; pregel_i_ < sizeof(array) / sizeof((array)[0]); pregel_i_++) {                         \
            __typeof__(pregel_found_) pregel_item_ = (array)[pregel_i_];                                                           \
            pregel_found_ = pregel_i_ == pregel_index_ ? pregel_item_ : pregel_found_;                                             \
        }                                                                                                                          \
        pregel_found_;                                                                                                             \
    })

/* Writes `array[index] = item` for an index that is not a constant. Where the index is outside, nothing is written. */
#define SET_AT(array, index, item)                                                                                                 \
    __extension__({                                                                                                                \
        PREGEL_ARRAY(array);                                                                                                       \
        __typeof__((array)[0] + 0) pregel_new_ = (item);                                                                           \
        uint64_t pregel_index_ = (uint64_t)(index);                                                                                \
        UNROLL for (uint64_t pregel_i_ = 0; pregel_i_ < sizeof(array) / sizeof((array)[0]); pregel_i_++) {                         \
            __typeof__(pregel_new_) pregel_old_ = (array)[pregel_i_];                                                              \
            (array)[pregel_i_] = pregel_i_ == pregel_index_ ? pregel_new_ : pregel_old_;                                           \
        }                                                                                                                          \
    })

#ifdef __cplusplus
#define PREGEL_ARRAY(array) static_assert(!__is_same(__typeof__(array), __typeof__(&(array)[0])), "AT and SET_AT take an array, not a pointer")
#else
#define PREGEL_ARRAY(array)                                                                                                        \
    _Static_assert(!__builtin_types_compatible_p(__typeof__(array), __typeof__(&(array)[0])), "AT and SET_AT take an array, not a pointer")
#endif

/* Returns n / d, rounded down, for a d that is not a constant (rule P11), and 0 where d is 0. Both are read without signs. A
 * division by a constant is written as usual.
 *
 * It costs some 160 units. A reciprocal of d is taken to 26 bits by a polynomial and two steps of Newton's method, always rounded
 * down: with s the leading zeros of d, 2^(95 - s) / d * (1 - 2^-26) <= y <= 2^(95 - s) / d. Three steps of r -= (r * y >> (95 - s))
 * * d then leave r < 2 * d, and one comparison ends it. */
PREGEL_INLINE uint64_t divide(uint64_t n, uint64_t d)
{
    uint64_t zeros = d ? __builtin_clzll(d) : 0;
    uint64_t x = (d << zeros >> 33) + 1;                                      /* d in [2^30, 2^31], rounded up */
    uint64_t y = 9110536688 - ((1561806289 - (694136128 * x >> 31)) * x >> 28); /* 2^62 / x, to 6 bits */
    y = y * (((UINT64_C(1) << 63) - x * y) >> 31) >> 31;                      /* to 13 bits */
    y = y * (((UINT64_C(1) << 63) - x * y) >> 31) >> 31;                      /* to 26 bits */
    uint64_t q = 0, r = n;
    UNROLL for (int i = 0; i < 3; i++) {
        uint64_t step = ((r >> 32) * y + ((r & 0xffffffff) * y >> 32)) >> (63 - zeros);
        q += step;
        r -= step * d;
    }
    return d ? q + (r >= d) : 0;
}

/* Returns the rest of n / d, and n where d is 0. */
PREGEL_INLINE uint64_t modulo(uint64_t n, uint64_t d)
{
    return n - divide(n, d) * d;
}

#ifdef __cplusplus
}
#endif

#endif
