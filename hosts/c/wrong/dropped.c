/* Every answer that may not be dropped, dropped: a compiler has to warn of each line that says so. Never linked, and never run. */
#include "thawribbon.h"

void drop(thawribbon_board *board, thawribbon_answer *answer, const uint8_t *bytes, uint8_t *reply, uint16_t *room);
void drop_routed(const thawribbon_port *ports, thawribbon_leaving *leaving, const uint8_t *bytes, uint8_t *reply);
void drop_asked(thawribbon_board *board, thawribbon_parts parts, thawribbon_heard *heard, const uint8_t *bytes, uint8_t *buffer);
void drop_judged(thawribbon_offload *offload, thawribbon_judged judged, const uint8_t *bytes, const thawribbon_capability *capabilities);
void drop_laid(thawribbon_bytes *space, thawribbon_layout *layout, const thawribbon_structure *structures);
void drop_pair(thawribbon_pair *pair, thawribbon_answer *answer, const uint8_t *bytes, uint8_t *reply);
void drop_pair_asked(thawribbon_pair *pair, thawribbon_parts parts, thawribbon_heard *heard, thawribbon_alternate *record);

void drop(thawribbon_board *board, thawribbon_answer *answer, const uint8_t *bytes, uint8_t *reply, uint16_t *room)
{
    const thawribbon_description description = {0, 0x104, 0x00C, THAWRIBBON_EDITION_1};
    const thawribbon_served served = {12, 0, THAWRIBBON_FRESH};
    thawribbon_board_serve(board, bytes, 16, answer);                                                                    /* dropped */
    thawribbon_serve(description, board->capture, reply, 1, bytes, 1, bytes, 1, reply, 1, bytes, 1, bytes, 1, bytes, 1, reply, 1); /* dropped */
    thawribbon_reset(board->capture);                                                                                    /* dropped */
    thawribbon_walk_compatible(bytes, 16, room, 1);                                                                      /* dropped */
    thawribbon_walk_extended(bytes, 16, room, 1);                                                                        /* dropped */
    thawribbon_walk_trusted(bytes, 16, room, 1);                                                                         /* dropped */
    thawribbon_dvsec(bytes, 16, 0x100);                                                                                  /* dropped */
    thawribbon_dvsec_body(bytes, 16, 0x100);                                                                             /* dropped */
    thawribbon_dual_bdf(bytes, 16, 0x040);                                                                               /* dropped */
    thawribbon_fresh();                                                                                                  /* dropped */
    thawribbon_outcome_of(served, reply);                                                                                /* dropped */
    thawribbon_data(answer);                                                                                             /* dropped */
    thawribbon_text(1);                                                                                                  /* dropped */
    thawribbon_answer_text(answer);                                                                                      /* dropped */
    thawribbon_header_compatible(bytes, 16, 0x040);                                                                      /* dropped */
    thawribbon_header_extended(bytes, 16, 0x100);                                                                        /* dropped */
    thawribbon_header_trusted(bytes, 16, 0x008);                                                                         /* dropped */
    thawribbon_board_reset(board);
}

void drop_routed(const thawribbon_port *ports, thawribbon_leaving *leaving, const uint8_t *bytes, uint8_t *reply)
{
    const thawribbon_routed routed = {12, 0, 1, 0};
    thawribbon_ports_route(ports, 1, bytes, 16, leaving);                                                                /* dropped */
    thawribbon_route(ports, 1, bytes, 16, reply, 20);                                                                    /* dropped */
    thawribbon_verdict_of(routed);                                                                                       /* dropped */
    thawribbon_leaving_text(leaving);                                                                                    /* dropped */
}

void drop_asked(thawribbon_board *board, thawribbon_parts parts, thawribbon_heard *heard, const uint8_t *bytes, uint8_t *buffer)
{
    thawribbon_board_ask(board, parts, heard);                                                                           /* dropped */
    thawribbon_read_parts(THAWRIBBON_TYPE0_READ, 5, 3, 0, 0x004);                                                        /* dropped */
    thawribbon_write_parts(THAWRIBBON_TYPE0_WRITE, 5, 3, 0, 0x004, bytes);                                               /* dropped */
    thawribbon_write_request(parts, buffer, 16);                                                                         /* dropped */
    thawribbon_read_completion(bytes, 12);                                                                               /* dropped */
    thawribbon_hear(parts, bytes, 12, heard);                                                                            /* dropped */
    thawribbon_asked_text(THAWRIBBON_ASKED_DONE, heard);                                                                 /* dropped */
}

void drop_judged(thawribbon_offload *offload, thawribbon_judged judged, const uint8_t *bytes, const thawribbon_capability *capabilities)
{
    thawribbon_offload_read(capabilities, 1, offload);                                                                   /* dropped */
    thawribbon_offload_judge(offload, 0, 0, &judged);                                                                    /* dropped */
    thawribbon_multicast(bytes, 16, 0x100, &offload->ports[0]);                                                          /* dropped */
    thawribbon_judge(offload->ports, 1, 0, 0);                                                                           /* dropped */
    thawribbon_judgement_of(judged);                                                                                     /* dropped */
    thawribbon_leaves_by(judged, 0);                                                                                     /* dropped */
    thawribbon_judged_text(judged);                                                                                      /* dropped */
}

void drop_laid(thawribbon_bytes *space, thawribbon_layout *layout, const thawribbon_structure *structures)
{
    thawribbon_layout_lay(structures, 1, space, layout);                                                                 /* dropped */
    thawribbon_plan_layout(structures, 1, layout->offsets, 1);                                                           /* dropped */
    thawribbon_check_layout(structures, 1, layout->offsets, 1);                                                          /* dropped */
    thawribbon_write_layout(structures, 1, layout->offsets, 1, space->at, sizeof space->at);                             /* dropped */
    thawribbon_structure_of(0x0023, 1, 8);                                                                               /* dropped */
}

void drop_pair(thawribbon_pair *pair, thawribbon_answer *answer, const uint8_t *bytes, uint8_t *reply)
{
    const thawribbon_function function = {0, 0x104, 0x00C};
    const thawribbon_captures kept = {THAWRIBBON_FRESH, THAWRIBBON_FRESH};
    const thawribbon_pair_served served = {12, 0, {THAWRIBBON_FRESH, THAWRIBBON_FRESH}};
    thawribbon_pair_serve(pair, bytes, 16, answer);                                                                      /* dropped */
    thawribbon_serve_pair(1, function, function, kept, reply, 1, bytes, 1, bytes, 1, reply, 1, bytes, 1, bytes, 1, reply, 1, bytes, 1, bytes, 1,
                          reply, 1, bytes, 1, bytes, 1, bytes, 1, reply, 1); /* dropped */
    thawribbon_reset_pair(kept);                                                                                         /* dropped */
    thawribbon_pair_outcome_of(served, reply);                                                                           /* dropped */
    thawribbon_pair_reset(pair);
}

void drop_pair_asked(thawribbon_pair *pair, thawribbon_parts parts, thawribbon_heard *heard, thawribbon_alternate *record)
{
    thawribbon_pair_ask(pair, parts, heard);                                                                             /* dropped */
    thawribbon_pair_dual_bdf(pair, 0x040, record);                                                                       /* dropped */
    thawribbon_named_text(THAWRIBBON_NAMED_ALTERNATE, record);                                                           /* dropped */
}
