/* The groups of checks, one or more a file. */
#ifndef GROUPS_H
#define GROUPS_H

/* sizes.c */
void group_counts(void);
void group_room_sizes(void);
void group_exact_rooms(void);

/* layout.c */
void group_layout(void);
void group_nodes(void);
void group_rows(void);
void group_no_order(void);

/* closing.c */
void group_closing(void);

/* messages.c */
void group_messages(void);
void group_effects(void);
void group_read_back(void);
void group_read_anywhere(void);
void group_read_none(void);

/* bins.c, bins_added.c */
void group_bins(void);
void group_special_bins(void);
void group_bin_hashes(void);
void group_bin_data(void);
void group_bins_cut(void);
void group_bins_added(void);
void group_empty_added(void);
void group_add_order(void);

/* methods.c */
void group_orders(void);
void group_option_6(void);
void group_read_bins(void);
void group_read_no_method(void);
void group_two_vans(void);

/* acks.c */
void group_ack_runs(void);
void group_ack_words(void);
void group_ack_bins(void);
void group_ack_past(void);

/* nodes.c */
void group_node_chunks(void);
void group_nodes_missing(void);
void group_nodes_missed(void);
void group_nodes_small(void);

/* numbers_reading.c: 1 to 7; numbers_storing.c: 8 to 14 */
void group_numbers_reading(void);
void group_numbers_storing(void);

/* values.c */
void group_roots(void);
void group_sending(void);
void group_download(void);
void group_limits(void);
void group_expected_errors(void);

/* random.c, garbled.c */
void group_random(void);
void group_garbled(void);

#endif
