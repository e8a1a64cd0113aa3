/* Divides the cases of examples/ in numbers: with lists that fit, that are too short, and that are not there; and an estate in slices and at once. It ends with 0 if
 * all is as it should be. */
#include <fairsplit.h>
#include <stdio.h>
#include <string.h>

static int wrong = 0;
static uint8_t line[FAIR_LINE_ROOM];
static size_t size;

/* Counts what does not hold. */
static void holds(int is_so, const char *what) {
    if (!is_so) {
        printf("library: numbers: %s\n", what);
        wrong++;
    }
}

static void rents(void) {
    const uint32_t values[] = {601, 400, 500, 501};
    uint8_t rooms[3] = {9, 9, 9};
    int64_t over[2] = {9, 9}, pays[2] = {9, 9};
    uint64_t under[2] = {9, 9};
    uint8_t status = fair_rent_rooms(2, 1001, values, 4, rooms, 3, over, 2, under, 2, pays, 2, line, sizeof line, &size);
    holds(status == FAIR_DONE && size == 2, "a rent is divided");
    holds(rooms[0] == 1 && rooms[1] == 2 && rooms[2] == 9, "the rooms are at the front");
    holds(over[0] == 1101 && under[0] == 2 && over[1] == 901 && under[1] == 2, "the prices are exact");
    holds(pays[0] == 551 && pays[1] == 450, "whole cents are paid");
    pays[0] = 9;
    status = fair_rent_rooms(2, 1001, values, 4, rooms, 3, NULL, 0, NULL, 0, pays, 1, NULL, 0, &size);
    holds(status == FAIR_DONE && size == 2 && pays[0] == 9, "a list that is too short is left as it was");
    rooms[0] = 9;
    status = fair_rent_rooms(2, 1002, values, 4, rooms, 3, over, 2, under, 2, pays, 2, line, sizeof line, &size);
    holds(status == FAIR_REFUSED && size == 20 && !memcmp(line, "refused: field bids\n", 20) && rooms[0] == 9, "a refusal leaves the lists as they were");
    status = fair_rent_rooms(0, 900, NULL, 0, NULL, 0, NULL, 0, NULL, 0, NULL, 0, line, sizeof line, &size);
    holds(status == FAIR_REFUSED && !memcmp(line, "refused: field members\n", 23), "nothing is no rent");
}

static void goods(void) {
    const uint8_t who[] = {1, 2, 4};
    const uint32_t values[] = {400, 100, 250, 150, 100, 100, 150, 450, 100, 200, 250, 100, 300, 300, 50};
    const uint8_t due[] = {1, 3, 2, 3, 2};
    uint8_t owners[5] = {9, 9, 9, 9, 9};
    uint8_t status = fair_goods_owners(5, 1000, who, 3, values, 15, owners, 5, NULL, 0, &size);
    holds(status == FAIR_DONE && size == 5 && !memcmp(owners, due, 5), "goods have their owners");
    owners[0] = 9;
    status = fair_goods_owners(5, 10, who, 3, values, 15, owners, 5, line, sizeof line, &size);
    holds(status == FAIR_NO && !memcmp(line, "step limit 10\n", 14) && owners[0] == 9, "a search over its limit leaves the owners as they were");
    status = fair_goods_owners(5, 1000, who, 3, values, 15, NULL, 0, NULL, 0, &size);
    holds(status == FAIR_DONE && size == 5, "nobody has to want the owners");
}

static void fares(void) {
    const uint32_t legs[] = {700, 900, 1200, 0, 350, 650, 350, 0, 450, 650, 450, 0};
    const uint8_t who[] = {1, 2, 3, 4}, at[] = {1, 3, 2, 3};
    const uint8_t due[] = {1, 3, 2, 4};
    uint8_t route[4];
    int64_t over[4], pays[4];
    uint64_t under[4];
    uint8_t status = fair_fares_route(3, 400, legs, 12, who, 4, at, 4, route, 4, over, 4, under, 4, pays, 4, NULL, 0, &size);
    holds(status == FAIR_DONE && size == 4 && !memcmp(route, due, 4), "a fare has its route");
    holds(over[0] == 775 && under[0] == 2 && over[2] == 2725 && under[2] == 6, "the fares are exact");
    holds(pays[0] + pays[1] + pays[2] + pays[3] == 1900, "the ride is paid");
    status = fair_fares_route(3, 400, legs, 11, who, 4, at, 4, route, 4, over, 4, under, 4, pays, 4, line, sizeof line, &size);
    holds(status == FAIR_REFUSED && !memcmp(line, "refused: field legs\n", 20), "a leg too few is refused");
}

static uint8_t work[FAIR_ESTATE_WORK], certificate[FAIR_CERTIFICATE_ROOM], again[FAIR_CERTIFICATE_ROOM];
static const uint32_t points[] = {400, 100, 250, 150, 100, 100, 150, 450, 100, 200, 250, 100, 300, 300, 50};

/* One slice of a search among three of four members. */
static uint8_t slice(uint32_t limit, uint32_t steps, size_t lent, uint8_t *owners, size_t places, uint32_t *reached, uint8_t *text, size_t room) {
    const uint8_t who[] = {1, 2, 4};
    return fair_estate(5, limit, steps, who, 3, points, 15, work, lent, owners, places, reached, text, room, &size);
}

static void estates(void) {
    uint8_t owners[6] = {9, 9, 9, 9, 9, 9}, others[5] = {9, 9, 9, 9, 9};
    uint32_t reached = 0, at_once = 0;
    uint8_t status;
    size_t length;
    while ((status = slice(1000, 1, sizeof work, owners, 6, &reached, certificate, sizeof certificate)) == FAIR_GOES_ON)
        holds(size == 0 && reached > 0 && owners[0] != 9, "a slice counts its steps, and hands out the best so far");
    length = size;
    holds(status == FAIR_DONE && owners[5] == 9, "an estate is divided in slices");
    holds(slice(1000, UINT32_MAX, sizeof work, others, 5, &at_once, again, sizeof again) == FAIR_DONE && at_once == reached && size == length
        && !memcmp(again, certificate, length) && !memcmp(others, owners, 5), "one call gives the same certificate");
    holds(fair_estate_check(certificate, length, line, sizeof line, &size) == FAIR_DONE && !memcmp(line, "yes\n", 4), "the judge says yes");
    holds(fair_check(certificate, length, line, sizeof line, &size) == FAIR_REFUSED && !memcmp(line, "refused: line 1\n", 16), "the other judge refuses it");
    others[0] = 9;
    at_once = 0;
    holds(slice(1000, UINT32_MAX, sizeof work, others, 4, &at_once, again, sizeof again) == FAIR_DONE && others[0] == 9, "owners that are too short stay as they were");
    at_once = 0;
    holds(slice(1000, UINT32_MAX, sizeof work, NULL, 0, &at_once, again, length - 1) == FAIR_NO && !memcmp(again, "no room\n", 8), "a text that is too short has no room");
    at_once = 0;
    holds(slice(1000, UINT32_MAX, 0, NULL, 0, &at_once, again, sizeof again) == FAIR_NO && !memcmp(again, "no room\n", 8), "no work is no room");
    at_once = 7;
    holds(slice(0, 1, sizeof work, others, 5, &at_once, again, sizeof again) == FAIR_REFUSED && !memcmp(again, "refused: field limit\n", 21) && others[0] == 9
        && at_once == 7, "a refusal leaves owners and steps as they were");
}

int main(void) {
    holds(fair_version() == FAIR_VERSION_NUMBER, "the library has the version of the header");
    rents();
    goods();
    fares();
    estates();
    if (!wrong)
        puts("library: rooms, owners, routes and exact amounts are handed out as numbers, and estates are divided in slices");
    return wrong != 0;
}
