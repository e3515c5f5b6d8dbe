//! Worked examples of the crates: of records, indexes, partitions, filters, loads, scans, locks, what is undone, transactions,
//! merges, the plain map, structs of C, lines, replies, redis's protocol, streams, stored traces with their audits and command
//! lines; of steps and lines that take several crates; of a long history; and of seats, words and workers on threads, clients of
//! a server, and replicas.
//!
//! They are run by the kit's checked build, and not proved. Their files end in `.rs`, so that the gate doesn't read them.
#![tactic(auto)]

mod answer_digests;
mod audits;
mod block_lines;
mod calls;
mod cleaning;
mod commands;
mod counters;
mod desks;
mod entries;
mod failing;
mod filters;
mod following;
mod given;
mod history;
mod keys;
mod lengths;
mod lines;
mod lists;
mod loads;
mod locks;
mod logs;
mod longer;
mod merged;
mod merges;
mod narrow;
mod numbers;
mod ordering;
mod outboxes;
mod outcome_texts;
mod over_std;
mod own_lines;
mod partitions;
mod plain;
mod put_sessions;
mod puts;
mod readers;
mod recording;
mod records;
mod refused;
mod replica_entries;
mod replica_logs;
mod replica_pieces;
mod replica_records;
mod replica_stores;
mod replica_texts;
mod replicas;
mod replies;
mod requests;
mod resp_pieces;
mod resp_texts;
mod rooms;
mod rows;
mod runs;
mod scans;
mod scene;
mod seats;
mod sockets;
mod steps;
mod streams;
mod structs;
mod traces;
mod transactions;
mod trees;
mod trial_lines;
mod unasked;
mod undo;
mod waits;
mod workers;
mod writers;
