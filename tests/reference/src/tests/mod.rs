//! Tests of the reference against documents 01 and 02.

mod boards;
mod bound;
mod canonical;
mod colour_totals;
mod colours;
mod costs;
mod damage;
mod desk;
mod drawn;
mod flat;
mod frame;
mod impossible_plans;
mod impossible_states;
mod kept;
mod latest;
mod limits;
mod order;
mod put_out;
mod readings;
mod running;
mod steps;
mod stored_ops;
mod touch;
mod worked;
