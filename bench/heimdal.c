/* Heimdal's libotp, found when the benchmark starts, so that it builds and runs
 * where the library isn't installed. */
#include "heimdal.h"

#include "../host/symbol.h"

static heimdal_library found;
const heimdal_library *heimdal;

void find_heimdal(void)
{
    void *library = dlopen("libotp.so.0", RTLD_NOW);
    if (library == NULL || !find(library, "otp_find_alg", &found.find_alg) ||
        !find(library, "otp_parse_stddict", &found.parse_stddict) ||
        !find(library, "otp_parse_hex", &found.parse_hex) ||
        !find(library, "otp_print_stddict", &found.print_stddict) ||
        !find(library, "otp_print_hex", &found.print_hex))
        return;
    found.md5 = found.find_alg("md5");
    found.sha1 = found.find_alg("sha"); /* its name for it */
    if (found.md5 != NULL && found.sha1 != NULL)
        heimdal = &found;
}

uint64_t password_of_key(const unsigned char key[8])
{
    uint64_t password = 0;
    for (int i = 0; i < 8; i++)
        password = password << 8 | key[i];
    return password;
}
