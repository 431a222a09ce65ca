/* Checksum and verify in plain C. */
#include "plain_common.h"

uint8_t plain_checksum(const tickmallet_device *device, const uint16_t *reading, size_t reading_count, uint16_t *sum)
{
    *sum = 0;
    if (!device_ok(device))
        return 13;
    size_t words = device->words;
    if (!words_ok(reading, reading_count, words + 9))
        return 21;
    uint32_t total = (reading[words + 7] & device->mask1) + (reading[words + 8] & device->mask2);
    if (reading[words + 7] & CP) {
        for (size_t i = 0; i < words; i++)
            total += reading[i];
    } else {
        uint32_t ids = 0;
        for (size_t k = 0; k < 4; k++)
            ids = ids * 16 + reading[words + k] % 16;
        total += ids;
    }
    *sum = (uint16_t)total;
    return 0;
}

uint8_t plain_verify(const tickmallet_device *device, const uint16_t *wanted, size_t wanted_count,
                     const uint16_t *reading, size_t reading_count, uint16_t *address, size_t *count)
{
    *address = 0;
    *count = 0;
    if (!device_ok(device))
        return 13;
    size_t words = device->words, n = 0, first = 0;
    if (!words_ok(wanted, wanted_count, words + 9) || !words_ok(reading, reading_count, words + 9))
        return 21;
    int hidden = !(reading[words + 7] & CP);
    for (size_t i = hidden ? words : 0; i < words + 4; i++)
        if (wanted[i] != reading[i] && n++ == 0)
            first = i;
    for (size_t k = 7; k < 9; k++)
        if (((wanted[words + k] ^ reading[words + k]) & ~spare_bits(device, k)) && n++ == 0)
            first = words + k;
    if (n == 0)
        return hidden ? 41 : 0;
    *address = (uint16_t)(first < words ? first : BASE + (first - words));
    *count = n;
    return 40;
}
