//! Classes of calls: what a run must have met, worked out from the inputs and the model's answer.
//!
//! Only plain noise is counted by what the generator meant, since any input at all may be noise.

mod access;
mod again;
mod again_names;
mod alone;
mod answers;
mod apart;
mod apart_names;
mod ask;
mod ask_names;
mod between;
mod between_names;
mod causes;
mod chain;
mod circle;
mod departure;
mod doubled;
mod draft;
mod dual_bdf;
mod duo;
mod duo_access;
mod duo_causes;
mod duo_names;
mod dvsec;
mod edition;
mod edition_names;
mod elsewhere;
mod fault;
mod fault_names;
mod first_word;
mod given;
mod group;
mod half;
mod half_names;
mod header;
mod hear;
mod judge;
mod judge_causes;
mod judge_names;
mod judge_ports;
mod judge_window;
mod layout;
mod layout_names;
mod list_causes;
mod marked;
mod marked_names;
mod meaning;
mod multicast;
mod multicast_fields;
mod multicast_names;
mod names;
mod nulls;
mod onward;
mod packet_causes;
mod pair;
mod pair_names;
mod passed;
mod plan;
mod port_list;
mod proposal;
mod route;
mod route_alone;
mod route_names;
mod routed;
mod serve;
mod stages;
mod swapped;
mod swapped_names;
mod table;
mod tally;
mod turn;
mod walk;
mod whole;
mod whole_names;
mod written;

pub use again::{DuoFirstView, FirstView, Times, count_duo_first, count_first, count_times, expect_again};
pub use apart::{
    ApartMet, ApartView, OwnView, count_own as count_apart_own, count_shared as count_apart_shared,
    look_at_both as look_at_apart,
};
pub use ask::{AskView, count as count_ask};
pub use between::{BetweenView, count as count_between};
pub use chain::Pointers;
pub use circle::count as count_circle;
pub use departure::Departure;
pub use draft::{DraftView, Lists, count as count_draft};
pub use dual_bdf::count_dual;
pub use duo::{DuoHistory, DuoView, SideView, count as count_duo, count_reset as count_duo_reset};
pub use dvsec::{Question, count_dvsec};
pub use given::Given;
pub use group::Group;
pub use half::{HalfView, Met, count_own, count_shared, look_at_both};
pub use hear::count as count_hear;
pub use judge::{JudgeView, count as count_judge};
pub use layout::{LayoutView, count_check};
pub use meaning::CircleView;
pub use multicast::count_multicast;
pub use onward::{OnwardView, count as count_onward};
pub use pair::{Boards, PairView, count_left_out, count_pair, count_pair_reset};
pub use passed::{
    CircleAgain, PassedView, count_circle_again, count_other_list, count_passed, expect_circle_again,
    expect_passed_again,
};
pub use plan::{PlanView, count as count_plan};
pub use route::{RouteView, count as count_route};
pub use serve::{History, ServeView, count as count_serve, count_reset};
pub use swapped::{OrdersView, SwapView, count_other_data, count_read_between, count_swap, expect_swapped};
pub use tally::Tally;
pub use walk::count as count_walk;
pub use written::{WriteView, count as count_write};
