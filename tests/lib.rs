//! Tests that are run and not proved: of sessions and of runs of scripts, of libraries and LEF texts, of names, of tokens, of pins, of
//! texts that are read again, kept in pieces or asked for their statements, of the pieces of wires, rectangles that meet, sets of
//! shapes and of boxes, sums of areas by the cells of a grid, and lines that are kept, and of a design whose names were made to collide.
//! They try what no case folder can hold and what no program calls.
#![tactic(auto)]

mod colliding_names;
mod design_wires;
mod device_runs;
mod devices;
mod edit_calls;
mod edits_in_a_heap;
mod endless_devices;
mod entry_names;
mod failing_writers;
mod grid_sums;
mod heaps;
mod kept_lines;
mod lef_events;
mod library_macros;
mod meeting_pairs;
mod part_places;
mod piece_lines;
mod pin_shapes;
mod reread_texts;
mod session_calls;
mod shape_sets;
mod spoilt_texts;
mod statement_boxes;
mod text_in_pieces;
mod text_look_ups;
mod texts;
mod tokens;
mod wire_pieces;
