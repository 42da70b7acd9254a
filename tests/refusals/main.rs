//! Every call that can be refused memory, one of which is made with one of its requests refused.

mod cells;
mod lent;
mod lines;
mod objects;
mod options;
mod pages;
mod painting;
mod placing;
mod printing;
mod rooms;
mod rows;
mod sample;
mod settings;
mod store;
mod texts;
mod themes;
mod turn;
mod values;

use crate::turn::make_asked;
use std::process::ExitCode;

fn main(rt: HostRuntime) -> ExitCode {
    make_asked(
        &rt,
        &[
            &store::cells(),
            &store::lines(),
            &store::lists(),
            &store::maps(),
            &values::colors(),
            &values::builders(),
            &values::small_copies(),
            &values::copies(),
            &values::option_copies(),
            &values::clones(),
            &objects::named(),
            &objects::ends(),
            &objects::ranges(),
            &objects::combined(),
            &settings::maps(),
            &settings::copies(),
            &settings::borders(),
            &settings::offsets(),
            &settings::cells(),
            &settings::colors_and_spans(),
            &options::settings(),
            &options::borders(),
            &options::on_compact(),
            &options::on_lines(),
            &cells::settings(),
            &cells::borders(),
            &cells::listings(),
            &themes::calls(),
            &placing::calls(),
            &printing::plain(),
            &printing::tables(),
            &lent::calls(),
            &rooms::calls(),
            &painting::texts(),
            &painting::tables(),
            &texts::calls(),
            &texts::tables(),
            &rows::values(),
            &rows::tables(),
            &pages::calls(),
            &pages::views(),
            &lines::calls(),
        ],
    )
}
