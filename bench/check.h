/* The careful C program that the benchmark compares with. */
#ifndef CAREFUL_CHECK_H
#define CAREFUL_CHECK_H
#include "../include/channel_check.h"
channel_check_answer careful_check(const uint8_t *text, size_t text_len, uint32_t code, uint64_t *scratch, size_t scratch_len,
                                   uint8_t *trace, size_t trace_len);
trace_check_answer careful_trace_check(const uint8_t *text, size_t text_len, uint32_t code, uint64_t *scratch, size_t scratch_len,
                                       const uint8_t *trace, size_t trace_len);
choice_check_answer careful_choice_check(const uint8_t *text, size_t text_len, uint32_t code, uint64_t *scratch, size_t scratch_len,
                                         uint8_t *trace, size_t trace_len);
monitor_answer careful_monitor_open(const uint8_t *text, size_t text_len, uint32_t code, uint64_t *scratch, size_t scratch_len);
monitor_answer careful_monitor_step(monitor state, uint32_t kind, uint32_t message, const uint8_t *text, size_t text_len,
                                    uint64_t *scratch, size_t scratch_len);
monitor_answer careful_monitor_switch(monitor state, uint32_t code, const uint8_t *text, size_t text_len, uint64_t *scratch,
                                      size_t scratch_len);
monitor_standing_answer careful_monitor_standing(monitor state, const uint8_t *text, size_t text_len, uint64_t *scratch, size_t scratch_len);
sheet_messages_answer careful_sheet_messages(const uint8_t *text, size_t text_len, uint64_t *scratch, size_t scratch_len, uint16_t *output,
                                             size_t output_len);
cure_sheet_answer careful_cure_sheet(const uint8_t *text, size_t text_len, uint64_t *scratch, size_t scratch_len, uint8_t *output,
                                     size_t output_len);
dispatcher careful_dispatcher_empty(void);
dispatcher_answer careful_dispatcher_admit(dispatcher state, const uint8_t *sheets, size_t sheets_len, const uint32_t *lengths,
                                           size_t lengths_len, const uint32_t *codes, size_t codes_len, uint64_t *words, size_t words_len);
dispatcher_answer careful_dispatcher_turn(dispatcher state, const uint8_t *sheets, size_t sheets_len, const uint32_t *lengths,
                                          size_t lengths_len, const uint32_t *codes, size_t codes_len, uint64_t *words, size_t words_len,
                                          uint8_t *trace, size_t trace_len);
dispatcher_answer careful_dispatcher_cancel(dispatcher state, uint32_t number, const uint8_t *sheets, size_t sheets_len, const uint32_t *lengths,
                                            size_t lengths_len, const uint32_t *codes, size_t codes_len, uint64_t *words, size_t words_len);
senders_check_answer careful_senders_check(const uint8_t *table, size_t table_len);
channel_check_answer careful_permitted_check(const uint8_t *text, size_t text_len, uint32_t code, uint64_t *scratch, size_t scratch_len,
                                             uint8_t *trace, size_t trace_len, const uint8_t *table, size_t table_len);
taps_check_answer careful_taps_check(const uint8_t *text, size_t text_len, uint64_t *scratch, size_t scratch_len, const uint16_t *first,
                                     size_t first_len, const uint16_t *second, size_t second_len, uint16_t *output, size_t output_len);
sheet_races_answer careful_sheet_races(const uint8_t *text, size_t text_len, uint32_t code, uint64_t *scratch, size_t scratch_len,
                                       uint16_t *output, size_t output_len);
rounds_check_answer careful_rounds_check(const uint8_t *text, size_t text_len, uint32_t code, uint64_t *scratch, size_t scratch_len,
                                         uint8_t *trace, size_t trace_len);
#endif
