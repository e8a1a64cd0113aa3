/* fairsplit.h: fair divisions, and the judges of their certificates, for C and for whatever calls C.
 *
 * Each of the first six functions does what the command of its name does, on bytes in memory: its status is the command's, and its text is
 * what the command writes, byte for byte. fair_estate_check has the same form, and no command. The others divide what numbers say. docs/LIBRARY.md says
 * what is proved of that.
 *
 *     uint8_t fair_check(const uint8_t *bytes, size_t count, uint8_t *text, size_t room, size_t *size);
 *
 *   bytes, count   the input, such as a certificate or a case as JSON
 *   text, room     a buffer of yours for the answer, and how many bytes it has room for
 *   size           is set to the size of the answer
 *
 * If the answer fits (*size <= room), it is at the front of text; it has no zero byte behind it. Otherwise text is left as it was: call again
 * with *size bytes. A judge's line has at most FAIR_LINE_ROOM bytes, a certificate at most FAIR_CERTIFICATE_ROOM.
 *
 * What you owe, because nothing checks it:
 *   - no pointer is null, unless its count is 0 (in C and C++ by the macros at the end; other callers give a pointer to anything);
 *   - what the pointers lead to does not overlap;
 *   - the stack of the calling thread has 512 kB left.
 *
 * The functions are thread-safe. They keep nothing between calls, start no thread, and write only to what your pointers lead to: text, size, and the lists and the
 * memory of those functions that have some.
 */
#ifndef FAIRSPLIT_H
#define FAIRSPLIT_H

#include <stddef.h>
#include <stdint.h>

#ifdef __cplusplus
extern "C" {
#endif

/* The version of this header: that of the library is what fair_version answers. */
#define FAIR_VERSION "0.1.0"
#define FAIR_VERSION_NUMBER 100

/* Compilers that know how warn if a status is dropped, or if the pointer to the size, the argument of this number, is null. */
#if defined(__GNUC__)
#define FAIR_CALL(size) __attribute__((warn_unused_result, nonnull(size)))
#else
#define FAIR_CALL(size)
#endif

enum {
    FAIR_LINE_ROOM = 1024,
    FAIR_CERTIFICATE_ROOM = 4000000,
    FAIR_ESTATE_WORK = 16000000, /* memory for the search of an estate: with less, fewer prefixes are remembered, and long certificates have no room */
    FAIR_ESTATE_STEPS = 1000000  /* the greatest limit of such a search */
};

/* The statuses that a function may answer. Every text but that of FAIR_DONE is one line, and says why. */
enum {
    FAIR_DONE = 0,     /* the text is the answer; of a judge it is "yes" */
    FAIR_NO = 1,       /* "no RULE", "void: MEMBER ...", "step limit LIMIT" or "not two" */
    FAIR_REFUSED = 3,  /* "refused: ...": the bytes are no such input */
    FAIR_NO_MEMORY = 9, /* "no memory"; no judge answers it */
    FAIR_GOES_ON = 10  /* of fair_estate: the steps were made, and the search isn't over */
};

/* The version of the library: 10000 for each first number, 100 for each second and 1 for each third, as in FAIR_VERSION_NUMBER. */
uint32_t fair_version(void);

/* Judges a certificate. Only FAIR_DONE shows that it prints a valid case and its best division. */
uint8_t fair_check(const uint8_t *bytes, size_t count, uint8_t *text, size_t room, size_t *size) FAIR_CALL(5);

/* Judges the text of fair_winner. Only FAIR_DONE shows that it prints a fair division. */
uint8_t fair_checkwinner(const uint8_t *bytes, size_t count, uint8_t *text, size_t room, size_t *size) FAIR_CALL(5);

/* Reads a case as JSON, and writes the certificate of its best division. */
uint8_t fair_solve(const uint8_t *bytes, size_t count, uint8_t *text, size_t room, size_t *size) FAIR_CALL(5);

/* Reads a case as JSON, and writes what its best division means for each member. */
uint8_t fair_report(const uint8_t *bytes, size_t count, uint8_t *text, size_t room, size_t *size) FAIR_CALL(5);

/* Reads a case of goods with proposed owners as JSON, and writes the audit of that division. */
uint8_t fair_weigh(const uint8_t *bytes, size_t count, uint8_t *text, size_t room, size_t *size) FAIR_CALL(5);

/* Reads a case of goods of two players as JSON, and writes its division by adjusted winner. */
uint8_t fair_winner(const uint8_t *bytes, size_t count, uint8_t *text, size_t room, size_t *size) FAIR_CALL(5);

/* The same divisions from numbers, without JSON and without an allocator. FAIR_DONE comes with the certificate, the canonical one of the case;
 * if it has no room, the front of text may be written. FAIR_REFUSED comes with "refused: field FIELD", the first field that breaks its rule, and
 * FAIR_NO with "step limit LIMIT". Amounts are whole cents. Each list is a pointer and a count, its rows one after another. */

/* A rent: what each member would pay for each room, member by member. */
uint8_t fair_rent(uint32_t members, uint32_t rent, const uint32_t *values, size_t count, uint8_t *text, size_t room, size_t *size) FAIR_CALL(7);

/* Goods: the members who have bid, by number from 1 and rising, and their points, member by member. */
uint8_t fair_goods(uint32_t goods, uint32_t limit, const uint8_t *who, size_t players, const uint32_t *values, size_t count, uint8_t *text,
                   size_t room, size_t *size) FAIR_CALL(9);

/* The fare of a taxi: a row of legs from the origin and one from each place, the members who ride, by number from 1 and rising, and the places,
 * from 1, where they get off. */
uint8_t fair_fares(uint32_t places, uint32_t flag, const uint32_t *legs, size_t count, const uint8_t *who, size_t riders, const uint8_t *at,
                   size_t stops, uint8_t *text, size_t room, size_t *size) FAIR_CALL(11);

/* What each pays of such a rent or fare in whole cents, which sum to the whole: with FAIR_DONE, *size amounts stand at the front of pays if it has
 * places for all of them (otherwise pays is left as it was), and text is left as it was. FAIR_REFUSED comes with a line in text, as above, and
 * leaves pays as it was. A price may be below 0. */

/* By member. */
uint8_t fair_rent_cents(uint32_t members, uint32_t rent, const uint32_t *values, size_t count, int64_t *pays, size_t places, uint8_t *text,
                        size_t room, size_t *size) FAIR_CALL(9);

/* By rider. */
uint8_t fair_fares_cents(uint32_t places, uint32_t flag, const uint32_t *legs, size_t count, const uint8_t *who, size_t riders, const uint8_t *at,
                         size_t stops, int64_t *pays, size_t payers, uint8_t *text, size_t room, size_t *size) FAIR_CALL(13);

/* The divisions as numbers, divided once: who gets what, and for money the exact amounts and the whole cents beside them. With FAIR_DONE, *size is how
 * many members, goods or riders there are, and text is left as it was. Each list that has places for as many numbers begins with them; a shorter one is
 * left as it was, so give a count of 0 to what you don't want. FAIR_REFUSED and FAIR_NO come with a line in text, and leave the lists as they were. */

/* By member the room, from 1, and what they pay; by room the exact price, numerator / denominator cents in lowest terms. */
uint8_t fair_rent_rooms(uint32_t members, uint32_t rent, const uint32_t *values, size_t count, uint8_t *rooms, size_t room_places, int64_t *numerators,
                        size_t numerator_places, uint64_t *denominators, size_t denominator_places, int64_t *pays, size_t places, uint8_t *text,
                        size_t room, size_t *size) FAIR_CALL(15);

/* By good the player who gets it, from 1: player k is the member who[k - 1]. */
uint8_t fair_goods_owners(uint32_t goods, uint32_t limit, const uint8_t *who, size_t players, const uint32_t *values, size_t count, uint8_t *owners,
                          size_t places, uint8_t *text, size_t room, size_t *size) FAIR_CALL(11);

/* The riders, from 1, in the order in which they get off; by rider the exact fare, and what they pay. */
uint8_t fair_fares_route(uint32_t places, uint32_t flag, const uint32_t *legs, size_t count, const uint8_t *who, size_t riders, const uint8_t *at,
                         size_t stops, uint8_t *route, size_t route_places, int64_t *numerators, size_t numerator_places, uint64_t *denominators,
                         size_t denominator_places, int64_t *pays, size_t payers, uint8_t *text, size_t room, size_t *size) FAIR_CALL(19);

/* Estates: goods of so many members, or so many goods, that fair_goods doesn't answer; 1 to 24 goods and 1 to 12 members, given as for fair_goods. The certificate is
 * of another kind ("fairsplit 2"): fair_estate_check judges it, and fair_check refuses it.
 *
 * A search walks once or twice, each time at most limit steps, 1 to FAIR_ESTATE_STEPS. It goes in slices of so many steps, so that you can show how far it is, or end it. Set *reached to 0 and
 * call; while FAIR_GOES_ON comes back, call again with the same numbers, and with work, *reached and text as they were left. *reached is how many steps were made; the
 * certificate may say fewer, those of the tree that it prints. With steps UINT32_MAX one call does all. The same numbers give the same certificate, however it is
 * sliced. To end a search, don't call again: nothing has to be released. If work, *reached or text were changed in between, the search may find less, but what FAIR_DONE
 * says still holds.
 *
 *   work, bytes    memory of yours, FAIR_ESTATE_WORK bytes, in which the search keeps what it knows; it needs nothing of what stands there before
 *   owners         by good the player who gets it, as in fair_goods_owners: the best division, or the best that was found so far. A list with fewer places than
 *                  goods is left as it was
 *   text, room     a buffer for the certificate, FAIR_CERTIFICATE_ROOM bytes for the longest
 *   size           is set to the size of the certificate or the line, and to 0 with FAIR_GOES_ON
 *
 * With FAIR_DONE the judge has said yes to the certificate, and the owners are those of the best division. FAIR_NO comes with "step limit LIMIT", or with "no room" if the
 * certificate has no room in text or in work; the owners are the best that were found. (A third line, "not shown", would say that the judge refused what the search
 * made.) FAIR_REFUSED comes with "refused: field FIELD", and leaves owners and *reached as they were. */
uint8_t fair_estate(uint32_t goods, uint32_t limit, uint32_t steps, const uint8_t *who, size_t players, const uint32_t *values, size_t count,
                    uint8_t *work, size_t bytes, uint8_t *owners, size_t places, uint32_t *reached, uint8_t *text, size_t room, size_t *size) FAIR_CALL(15);

/* Judges the certificate of an estate. Only FAIR_DONE shows that it prints a valid case and its best division. */
uint8_t fair_estate_check(const uint8_t *bytes, size_t count, uint8_t *text, size_t room, size_t *size) FAIR_CALL(5);

/* A pointer may be NULL if its count is 0, as that of an empty vector may be: these macros give the functions another one in its place. The functions
 * themselves are called without them by (fair_check)(...), or if FAIR_NO_MACROS is defined. */
#if !defined(FAIR_NO_MACROS)
#if defined(__GNUC__)
#define FAIR_INLINE static __inline__
#else
#define FAIR_INLINE static
#endif
FAIR_INLINE const uint8_t *fair_bytes(const uint8_t *at) {
    static const uint8_t nothing = 0;
    return at ? at : &nothing;
}
FAIR_INLINE const uint32_t *fair_words(const uint32_t *at) {
    static const uint32_t nothing = 0;
    return at ? at : &nothing;
}
FAIR_INLINE uint8_t *fair_byte_places(uint8_t *at) {
    static uint8_t nothing;
    return at ? at : &nothing;
}
FAIR_INLINE int64_t *fair_amount_places(int64_t *at) {
    static int64_t nothing;
    return at ? at : &nothing;
}
FAIR_INLINE uint64_t *fair_part_places(uint64_t *at) {
    static uint64_t nothing;
    return at ? at : &nothing;
}
#define fair_check(bytes, count, text, room, size) (fair_check)(fair_bytes(bytes), count, fair_byte_places(text), room, size)
#define fair_checkwinner(bytes, count, text, room, size) (fair_checkwinner)(fair_bytes(bytes), count, fair_byte_places(text), room, size)
#define fair_solve(bytes, count, text, room, size) (fair_solve)(fair_bytes(bytes), count, fair_byte_places(text), room, size)
#define fair_report(bytes, count, text, room, size) (fair_report)(fair_bytes(bytes), count, fair_byte_places(text), room, size)
#define fair_weigh(bytes, count, text, room, size) (fair_weigh)(fair_bytes(bytes), count, fair_byte_places(text), room, size)
#define fair_winner(bytes, count, text, room, size) (fair_winner)(fair_bytes(bytes), count, fair_byte_places(text), room, size)
#define fair_rent(members, rent, values, count, text, room, size) (fair_rent)(members, rent, fair_words(values), count, fair_byte_places(text), \
    room, size)
#define fair_goods(goods, limit, who, players, values, count, text, room, size) (fair_goods)(goods, limit, fair_bytes(who), players, \
    fair_words(values), count, fair_byte_places(text), room, size)
#define fair_fares(places, flag, legs, count, who, riders, at, stops, text, room, size) (fair_fares)(places, flag, fair_words(legs), count, \
    fair_bytes(who), riders, fair_bytes(at), stops, fair_byte_places(text), room, size)
#define fair_rent_cents(members, rent, values, count, pays, places, text, room, size) (fair_rent_cents)(members, rent, fair_words(values), count, \
    fair_amount_places(pays), places, fair_byte_places(text), room, size)
#define fair_fares_cents(places, flag, legs, count, who, riders, at, stops, pays, payers, text, room, size) (fair_fares_cents)(places, flag, \
    fair_words(legs), count, fair_bytes(who), riders, fair_bytes(at), stops, fair_amount_places(pays), payers, fair_byte_places(text), room, size)
#define fair_rent_rooms(members, rent, values, count, rooms, room_places, numerators, numerator_places, denominators, denominator_places, pays, \
    places, text, room, size) (fair_rent_rooms)(members, rent, fair_words(values), count, fair_byte_places(rooms), room_places, \
    fair_amount_places(numerators), numerator_places, fair_part_places(denominators), denominator_places, fair_amount_places(pays), places, \
    fair_byte_places(text), room, size)
#define fair_goods_owners(goods, limit, who, players, values, count, owners, places, text, room, size) (fair_goods_owners)(goods, limit, \
    fair_bytes(who), players, fair_words(values), count, fair_byte_places(owners), places, fair_byte_places(text), room, size)
#define fair_fares_route(places, flag, legs, count, who, riders, at, stops, route, route_places, numerators, numerator_places, denominators, \
    denominator_places, pays, payers, text, room, size) (fair_fares_route)(places, flag, fair_words(legs), count, fair_bytes(who), riders, \
    fair_bytes(at), stops, fair_byte_places(route), route_places, fair_amount_places(numerators), numerator_places, \
    fair_part_places(denominators), denominator_places, fair_amount_places(pays), payers, fair_byte_places(text), room, size)
#define fair_estate(goods, limit, steps, who, players, values, count, work, bytes, owners, places, reached, text, room, size) (fair_estate)(goods, limit, \
    steps, fair_bytes(who), players, fair_words(values), count, fair_byte_places(work), bytes, fair_byte_places(owners), places, reached, \
    fair_byte_places(text), room, size)
#define fair_estate_check(bytes, count, text, room, size) (fair_estate_check)(fair_bytes(bytes), count, fair_byte_places(text), room, size)
#endif

#ifdef __cplusplus
}
#endif

#endif
