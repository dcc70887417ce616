//! What a stream prefers: themes of episodes.

use crate::gen::draw::Gen;
use crate::gen::episodes::{abort_one, alive, chain, close_one, collide, evict, lately, request, reuse, step};
use crate::gen::{damage, edges, queues, splice_bounds, stacks};

pub type Episode = fn(&mut Gen);

/// A stream takes most of its episodes from its theme's favourites.
pub struct Theme {
    pub favourites: &'static [Episode],
    pub at_the_top: bool,
}

const fn theme(favourites: &'static [Episode]) -> Theme {
    Theme { favourites, at_the_top: false }
}

#[rustfmt::skip]
pub const ALL: &[Episode] = &[
    request, request, request, request, chain, chain, collide, collide, abort_one, abort_one,
    close_one, step, step, step, step, step, stacks::stack, queues::fill, reuse, evict, stacks::failing, stacks::covered, stacks::equals,
    edges::late, queues::order, edges::ninth, edges::extreme, edges::wrong_numbers, alive, lately, lately, lately, queues::many_ends,
    damage::extended, damage::config, damage::init, damage::alive_and_abort,
    splice_bounds::splice, splice_bounds::separate, splice_bounds::mux, damage::unknown, damage::refused, damage::largest,
];

#[rustfmt::skip]
pub const THEMES: &[Theme] = &[
    theme(&[request, chain, step, abort_one]),
    theme(&[request, collide, collide, step]),
    theme(&[stacks::stack, stacks::stack, step, alive]),
    theme(&[chain, chain, abort_one, step, evict]),
    theme(&[queues::fill, queues::order, collide, step]),
    theme(&[queues::fill_all, alive]),
    theme(&[queues::fill_all, step, collide, close_one]),
    theme(&[damage::init, damage::config, damage::alive_and_abort, splice_bounds::splice, splice_bounds::splice, damage::unknown]),
    theme(&[edges::ninth, edges::ninth, step, edges::late, chain]),
    theme(&[close_one, request, chain, damage::refused, stacks::stack, step]),
    theme(&[reuse, stacks::covered, stacks::failing, evict, step]),
    theme(&[stacks::covered, stacks::failing, stacks::stack, abort_one, close_one, step]),
    Theme { favourites: &[request, chain, edges::extreme, edges::top, step, stacks::stack, stacks::equals], at_the_top: true },
    theme(&[stacks::equals, stacks::equals, evict, collide, step, abort_one]),
    theme(&[splice_bounds::separate, splice_bounds::separate, splice_bounds::separate, collide, step]),
    theme(&[splice_bounds::mux, splice_bounds::mux, collide, step, close_one]),
    theme(&[lately, lately, queues::many_ends, damage::extended, close_one, stacks::covered, stacks::equals, evict]),
];
