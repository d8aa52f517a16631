/* Tests of the C interface: each group prints a line, and the last line is 'N passed, M failed'. */
#include <stdio.h>
#include <string.h>

#include "check.h"
#include "groups.h"
#include "ppspp_store.h"

/* Every number has a sentence of its own. */
static void group_texts(void)
{
    for (uint32_t a = 0; a <= 15; a++) {
        CHECK(strlen(ppspp_answer_text(a)) > 3);
        for (uint32_t b = 0; b < a; b++) {
            CHECK(strcmp(ppspp_answer_text(a), ppspp_answer_text(b)) != 0);
        }
    }
    CHECK(strcmp(ppspp_answer_text(0), "done") == 0);
    CHECK(strcmp(ppspp_answer_text(13), "the chunk to be written is not held") == 0);
    CHECK(strcmp(ppspp_answer_text(15), ppspp_answer_text(4294967295u)) == 0);
}

/* Rooms, the state, and the messages by ranges. */
static void run_rooms_and_messages(void)
{
    run_group("a sentence for each number", group_texts);
    run_group("chunks of a length", group_counts);
    run_group("sizes of rooms, macros and functions", group_room_sizes);
    run_group("rooms of exactly those sizes", group_exact_rooms);
    run_group("words of the state", group_layout);
    run_group("hashes and trusted bits of nodes", group_nodes);
    run_group("rows of the channel table", group_rows);
    run_group("closing a channel of ours", group_closing);
    run_group("a state without an order, or too short", group_no_order);
    run_group("each message, as added", group_messages);
    run_group("each message, as read", group_read_back);
    run_group("places before the messages", group_read_anywhere);
    run_group("places without a message", group_read_none);
    run_group("what messages do to a channel", group_effects);
}

/* The two ways of naming chunks. */
static void run_methods(void)
{
    run_group("orders and their addressing", group_orders);
    run_group("option 6 of a HANDSHAKE", group_option_6);
    run_group("what bins do to a channel", group_bins);
    run_group("the empty bin and everything", group_special_bins);
    run_group("hashes by bins", group_bin_hashes);
    run_group("chunks by bins", group_bin_data);
    run_group("bins cut short", group_bins_cut);
    run_group("bins as added", group_bins_added);
    run_group("empty messages as added", group_empty_added);
    run_group("the order of the numbers in adding", group_add_order);
    run_group("bins as read", group_read_bins);
    run_group("reading under no addressing", group_read_no_method);
    run_group("a van under each addressing", group_two_vans);
    run_group("runs that an ACK names", group_ack_runs);
    run_group("runs over words of the map", group_ack_words);
    run_group("subtrees that an ACK names", group_ack_bins);
    run_group("bits past the last chunk", group_ack_past);
}

/* 01's numbers, values and errors, and calls with anything. */
static void run_values(void)
{
    run_group("numbers 1 to 7", group_numbers_reading);
    run_group("numbers 8 to 14", group_numbers_storing);
    run_group("chunks of a node", group_node_chunks);
    run_group("nodes that 9 names", group_nodes_missing);
    run_group("nodes that 10 names", group_nodes_missed);
    run_group("nodes of one chunk and of two", group_nodes_small);
    run_group("roots of built packs", group_roots);
    run_group("each chunk of seven, as sent", group_sending);
    run_group("seven chunks taken in order, least hashes", group_download);
    run_group("01's limits and its example", group_limits);
    run_group("errors that 01 expects", group_expected_errors);
    run_group("random datagrams and calls", group_random);
    run_group("rooms with anything in them", group_garbled);
}

int main(void)
{
    run_rooms_and_messages();
    run_methods();
    run_values();
    return report();
}
