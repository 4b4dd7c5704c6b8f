/*
 * The link log in plain C (plain_log.c). The calls are those of immuskade.h, under names of their own.
 *
 * With -DPLAIN_LOG the names of immuskade.h mean these functions, and the archive isn't needed: so one driver is compiled for
 * both, and only the functions differ.
 */
#ifndef PLAIN_LOG_H
#define PLAIN_LOG_H

#include <stddef.h>
#include <stdint.h>

int64_t plain_log_append(uint64_t log, uint8_t *room, size_t room_len, const uint8_t *pdu, size_t pdu_len);
int64_t plain_log_close(uint64_t log, uint8_t *room, size_t room_len, uint32_t number);
int64_t plain_log_take_up(uint32_t blocks, const uint8_t *block, size_t len);
int64_t plain_log_read(uint64_t read, uint32_t number, uint32_t blocks, const uint8_t *block, size_t len, uint8_t *room,
                       size_t room_len);
int64_t plain_log_take_back(uint64_t read, uint8_t *room, size_t room_len);

#ifdef PLAIN_LOG
#define dvc_log_append plain_log_append
#define dvc_log_close plain_log_close
#define dvc_log_take_up plain_log_take_up
#define dvc_log_read plain_log_read
#define dvc_log_take_back plain_log_take_back
#endif

#endif
