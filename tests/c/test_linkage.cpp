/* In C++ too the header's functions are those of the archive, with their names in C: each is called once. */
#include "starshackle.h"

int main()
{
    const uint64_t x[31] = {0};
    const uint8_t empty[4] = {0x50, 0x45, 0, 0};
    uint64_t fields[8], answer[5], stored[6];
    bool right = starshackle_decode(0xA16F6000, fields) == STARSHACKLE_DONE;
    right = right && starshackle_encode(fields, answer) == STARSHACKLE_DONE && answer[4] == 0xA16F6000;
    right = right && starshackle_judge(empty, sizeof empty, answer) == STARSHACKLE_DONE;
    right = right && starshackle_apply(0, 0, 0, empty, sizeof empty, answer) == STARSHACKLE_DONE;
    right = right && starshackle_compare(empty, sizeof empty, empty, sizeof empty, 0, 0, answer) == STARSHACKLE_DONE;
    right = right && starshackle_store(0, 0, x, 0, 0, 0, 0, 0, 0, 0, 0, 0, 0, 0, stored) == STARSHACKLE_LENGTH;
    right = right && starshackle_element(0, 0, x, 0, 0, 0, 0, 0, 0, 0, answer) == STARSHACKLE_LENGTH;
    return right ? 0 : 1;
}
