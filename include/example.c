/* Divides a flat, prints the certificate, and lets the judge say whether it shows the best division.
 *
 *     cc example.c $(pkg-config --cflags --libs fairsplit) -o example
 */
#include <fairsplit.h>
#include <stdio.h>
#include <string.h>

int main(void) {
    static uint8_t certificate[FAIR_CERTIFICATE_ROOM];
    uint8_t line[FAIR_LINE_ROOM];
    const char *flat = "{\"kind\":\"rent\",\"title\":\"Flat\",\"members\":[\"Ann\",\"Ben\"],\"rooms\":[\"Attic\",\"Back\"],"
                       "\"rent\":900,\"bids\":[[600,300],[500,400]]}";
    size_t size, said;
    uint8_t status = fair_solve((const uint8_t *)flat, strlen(flat), certificate, sizeof certificate, &size);
    fwrite(certificate, 1, size, stdout);
    if (status != FAIR_DONE)
        return status;
    status = fair_check(certificate, size, line, sizeof line, &said);
    fwrite(line, 1, said, stdout);
    return status;
}
