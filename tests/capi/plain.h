/* The same calls in plain C, with the arguments of tickmallet.h, written from the paper. */
#ifndef PLAIN_H
#define PLAIN_H

#include "tickmallet.h"

uint8_t plain_find_device(const uint8_t *table, size_t table_count, uint16_t id,
                          tickmallet_device *device, size_t *name_at, size_t *name_len);
uint8_t plain_read_id(const uint8_t *text, size_t text_count, uint16_t *id);
uint8_t plain_read_sheet(const tickmallet_device *device, const uint8_t *name, size_t name_count, const uint8_t *text, size_t text_count,
                         uint16_t *reading, size_t reading_count);
uint8_t plain_write_sheet(const tickmallet_device *device, const uint16_t *reading, size_t reading_count,
                          uint8_t *out, size_t out_count, size_t *length);
uint8_t plain_write_new_sheet(const tickmallet_device *device, const uint8_t *name, size_t name_count,
                              const uint16_t *reading, size_t reading_count, uint8_t *out, size_t out_count, size_t *length);
uint8_t plain_to_new(const uint8_t *table, size_t table_count, const uint8_t *text, size_t text_count,
                     uint8_t *out, size_t out_count, size_t *length);
uint8_t plain_to_old(const uint8_t *table, size_t table_count, const uint8_t *text, size_t text_count,
                     uint8_t *out, size_t out_count, size_t *length);
uint8_t plain_read_hex(const tickmallet_device *device, const uint8_t *text, size_t text_count,
                       uint16_t *image, size_t image_count, uint32_t *line, uint32_t *column);
uint8_t plain_write_hex(const tickmallet_device *device, const uint16_t *image, size_t image_count,
                        uint8_t *out, size_t out_count, size_t *length);
uint8_t plain_run(const tickmallet_device *device, uint16_t *cells, size_t cells_count, const uint8_t *stream, size_t stream_count,
                  size_t allowance, uint16_t *words, size_t words_count, size_t *steps, size_t *words_read);
uint8_t plain_update(const tickmallet_device *device, const uint16_t *image, size_t image_count,
                     const uint16_t *reading, size_t reading_count, uint8_t *out, size_t out_count, size_t *steps);
uint8_t plain_fresh(const tickmallet_device *device, const uint16_t *image, size_t image_count, uint16_t id_word,
                    uint8_t *out, size_t out_count, size_t *steps);
uint8_t plain_read_back(const tickmallet_device *device, uint8_t *out, size_t out_count, size_t *steps);
uint8_t plain_checksum(const tickmallet_device *device, const uint16_t *reading, size_t reading_count, uint16_t *sum);
uint8_t plain_verify(const tickmallet_device *device, const uint16_t *wanted, size_t wanted_count,
                     const uint16_t *reading, size_t reading_count, uint16_t *address, size_t *count);

#endif
