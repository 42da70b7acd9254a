//! Options on tables.

use crate::sample::{Sample, color};
use crate::turn::{Named, Outcome, Turn};
use crate::values::{margin, padding, three};
use std::alloc::Global;
use tabled_color::{BorderColor, Color};
use tabled_config::{ColoredConfig, CompactConfig, CompactMultilineConfig, TableOption};
use tabled_correction::JoinedCorners;
use tabled_formatting::{
    Alignment, AlignmentStrategy, Justification, Margin, MarginColor, Padding, PaddingColor, Shadow,
    TrimStrategy,
};
use tabled_grid::{
    ANSIStr, Borders, Combine, Difference, FixedDimension, OutOfMemory, Row, Rows, Segment,
    SegmentAll, Shape, Union,
};
use tabled_options::{
    BorderCorrection, CellColor, Colorization, ExactColorization, Highlight, JoinedColor, LineText,
};
use tabled_style::{Border, EmptyBorder, HorizontalLine, ReadyStyle, Style};
use tabled_theme::Theme;

/// What makes an option.
type Maker<O> = fn(Global) -> Result<O, OutOfMemory>;

/// Applies an option to a table.
fn apply<O>(sample: &mut Sample, option: O) -> Result<(), OutOfMemory>
where
    O: TableOption<Shape, ColoredConfig, FixedDimension>,
{
    option.change(&mut sample.records, &mut sample.cfg, &mut sample.dims)
}

/// What becomes of an option on a table.
fn change<O>(
    turn: &mut Turn,
    begin: fn(Global) -> Result<Sample, OutOfMemory>,
    make: Maker<O>,
) -> Result<Outcome, OutOfMemory>
where
    O: TableOption<Shape, ColoredConfig, FixedDimension> + Drop,
{
    let alloc = turn.alloc();
    let (mut sample, mut changed) = (begin(alloc)?, begin(alloc)?);
    let copy = sample.config(alloc)?;
    apply(&mut changed, make(alloc)?)?;
    let option = make(alloc)?;
    turn.spend();
    let returned = apply(&mut sample, option);
    Ok(sample.outcome(returned, &copy, &changed.cfg))
}

/// What becomes of an option on a table with something of each kind.
fn with<O>(turn: &mut Turn, make: Maker<O>) -> Result<Outcome, OutOfMemory>
where
    O: TableOption<Shape, ColoredConfig, FixedDimension> + Drop,
{
    change(turn, Sample::new, make)
}

/// The options of settings.
pub(crate) fn settings() -> [Named; 14] {
    [
        (
            "<S as TableOption<R, ColoredConfig, D>>::change (Alignment)",
            |turn| with(turn, |_| Ok(Alignment::bottom())),
        ),
        (
            "<S as TableOption<R, ColoredConfig, D>>::change (AlignmentStrategy)",
            |turn| with(turn, |_| Ok(AlignmentStrategy::PerLine)),
        ),
        (
            "<S as TableOption<R, ColoredConfig, D>>::change (TrimStrategy)",
            |turn| with(turn, |_| Ok(TrimStrategy::Both)),
        ),
        (
            "<S as TableOption<R, ColoredConfig, D>>::change (Justification)",
            |turn| with(
                turn,
                |alloc| color(alloc).map(|color| Justification::colored('#', color)),
            ),
        ),
        (
            "<S as TableOption<R, ColoredConfig, D>>::change (Padding)",
            |turn| with(turn, |_| Ok(Padding::new(2, 0, 1, 0).fill('<', ' ', '^', ' '))),
        ),
        (
            "<S as TableOption<R, ColoredConfig, D>>::change (PaddingColor)",
            |turn| with(turn, padding),
        ),
        (
            "<S as TableOption<R, ColoredConfig, D>>::change (MarginColor)",
            |turn| with(turn, margin),
        ),
        (
            "<S as TableOption<R, ColoredConfig, D>>::change (Margin)",
            |turn| with(turn, |_| Ok(Margin::new(2, 0, 1, 0).fill('<', ' ', '^', ' '))),
        ),
        (
            "<S as TableOption<R, ColoredConfig, D>>::change (Shadow)",
            |turn| with(
                turn,
                |alloc| color(alloc).map(|color| Shadow::new(2).set_color(color)),
            ),
        ),
        (
            "<Color as TableOption<R, ColoredConfig, D>>::change",
            |turn| with(turn, color),
        ),
        (
            "<CellColor as TableOption<R, ColoredConfig, D>>::change",
            |turn| with(turn, |alloc| color(alloc).map(CellColor::new)),
        ),
        (
            "<JoinedColor as TableOption<R, ColoredConfig, D>>::change",
            |turn| with(turn, |alloc| color(alloc).map(JoinedColor::new)),
        ),
        (
            "<Colorization as TableOption<R, ColoredConfig, D>>::change",
            |turn| with(turn, |alloc| three(alloc).map(Colorization::by_row)),
        ),
        (
            "<ExactColorization<O> as TableOption<R, ColoredConfig, D>>::change",
            |turn| with(turn, exact),
        ),
    ]
}

/// Colors for a row and a cell.
fn exact(alloc: Global) -> Result<ExactColorization<Union<Row, (usize, usize)>>, OutOfMemory> {
    let target = Rows::one(1).and((0, 0));
    Ok(Colorization::exact(three(alloc)?, target))
}

/// A color above.
fn top(alloc: Global) -> Result<BorderColor, OutOfMemory> {
    Ok(BorderColor::new().top(color(alloc)?))
}

/// A color all around.
fn all_around(alloc: Global) -> Result<BorderColor, OutOfMemory> {
    BorderColor::filled(alloc, color(alloc)?)
}

/// A text in a color of its own texts.
fn title(alloc: Global) -> Result<LineText<Row>, OutOfMemory> {
    let text = LineText::new(alloc, "TABLE", Rows::one(1))?;
    Ok(text.align(Alignment::center()).color(color(alloc)?))
}

/// An outline with a border and a color.
fn outline(
    alloc: Global,
) -> Result<Highlight<Difference<SegmentAll, (usize, usize)>>, OutOfMemory> {
    let target = Segment::all().not((0usize, 1usize));
    let colors = BorderColor::filled(alloc, color(alloc)?)?;
    Ok(Highlight::outline(target, '#').color(colors))
}

/// A theme with lines of each direction and a color.
fn theme(alloc: Global) -> Result<Theme, OutOfMemory> {
    let lines = [(1, HorizontalLine::filled('#'))];
    let mut theme = Theme::from_style(alloc, Style::modern().horizontals(lines))?;
    theme.set_colors_left(color(alloc)?);
    Ok(theme)
}

/// The options of borders.
pub(crate) fn borders() -> [Named; 13] {
    [
        (
            "<BorderColor as TableOption<R, ColoredConfig, D>>::change",
            |turn| with(turn, top),
        ),
        (
            "<BorderColor as TableOption<R, ColoredConfig, D>>::change (all around)",
            |turn| with(turn, all_around),
        ),
        (
            "<Border<char> as TableOption<R, ColoredConfig, D>>::change",
            |turn| with(turn, |_| Ok(tabled_grid::Border::filled('#'))),
        ),
        (
            "<Borders<char> as TableOption<R, ColoredConfig, D>>::change",
            |turn| with(turn, |_| Ok(Style::modern().get_borders())),
        ),
        (
            "<Border<T, B, L, R> as TableOption<Data, ColoredConfig, Dims>>::change",
            |turn| with(turn, |_| Ok(Border::filled('#'))),
        ),
        (
            "<EmptyBorder as TableOption<Data, ColoredConfig, Dims>>::change",
            |turn| with(turn, |_| Ok(EmptyBorder)),
        ),
        (
            "<Style<T, B, L, R, H, V, HN, VN> as TableOption<Data, ColoredConfig, Dims>>::change",
            |turn| {
                with(turn, |_| {
                    let lines = [
                        (1, HorizontalLine::filled('#')),
                        (300, HorizontalLine::filled('&')),
                    ];
                    Ok(Style::rounded().horizontals(lines))
                })
            },
        ),
        (
            "<ReadyStyle as TableOption<Data, ColoredConfig, Dims>>::change",
            |turn| with(turn, |_| Ok(ReadyStyle::Markdown)),
        ),
        (
            "<Theme as TableOption<Data, ColoredConfig, Dims>>::change",
            |turn| with(turn, theme),
        ),
        (
            "<LineText<Line> as TableOption<R, ColoredConfig, D>>::change",
            |turn| with(turn, title),
        ),
        (
            "<Highlight<O> as TableOption<R, ColoredConfig, D>>::change",
            |turn| with(turn, outline),
        ),
        (
            "<BorderCorrection as TableOption<R, ColoredConfig, D>>::change",
            |turn| change(turn, Sample::spanned, |_| Ok(BorderCorrection::span())),
        ),
        (
            "<JoinedCorners as TableOption<R, ColoredConfig, D>>::change",
            |turn| change(turn, Sample::unjoined, |_| Ok(JoinedCorners::new())),
        ),
    ]
}

/// What becomes of an option on a compact configuration.
fn compact<O>(turn: &mut Turn, option: O) -> Result<Outcome, OutOfMemory>
where
    O: TableOption<Shape, CompactConfig, ()> + Drop,
{
    let mut cfg = CompactConfig::new();
    turn.spend();
    let returned = option.change(&mut Shape { rows: 2, cols: 2 }, &mut cfg, &mut ());
    Ok(Outcome::of(
        returned,
        cfg != CompactConfig::new(),
        cfg == CompactConfig::new(),
    ))
}

/// What becomes of an option on a compact configuration of cells of many lines.
fn lines<O>(turn: &mut Turn, option: O) -> Result<Outcome, OutOfMemory>
where
    O: TableOption<Shape, CompactMultilineConfig, ()> + Drop,
{
    let mut cfg = CompactMultilineConfig::new();
    turn.spend();
    let returned = option.change(&mut Shape { rows: 2, cols: 2 }, &mut cfg, &mut ());
    let new = CompactMultilineConfig::new();
    Ok(Outcome::of(returned, cfg != new, cfg == new))
}

/// Red on a margin.
fn red_margin() -> MarginColor<ANSIStr<'static>> {
    let red = ANSIStr::new("\u{1b}[31m", "\u{1b}[39m");
    MarginColor::new(red, red, red, red)
}

/// Red on a padding.
fn red_padding() -> PaddingColor<ANSIStr<'static>> {
    let red = ANSIStr::new("\u{1b}[31m", "\u{1b}[39m");
    PaddingColor::new(red, red, red, red)
}

/// A class record.
fn record() -> Borders<char> {
    Style::modern().get_borders()
}

/// The options on compact configurations, which take no memory.
pub(crate) fn on_compact() -> [Named; 6] {
    [
        (
            "<S as TableOption<R, CompactConfig, D>>::change (Alignment)",
            |turn| { compact(turn, Alignment::right()) },
        ),
        (
            "<S as TableOption<R, CompactConfig, D>>::change (Borders)",
            |turn| { compact(turn, record()) },
        ),
        (
            "<S as TableOption<R, CompactConfig, D>>::change (PaddingColor)",
            |turn| { compact(turn, red_padding()) },
        ),
        (
            "<S as TableOption<R, CompactConfig, D>>::change (MarginColor)",
            |turn| { compact(turn, red_margin()) },
        ),
        (
            "<S as TableOption<R, CompactConfig, D>>::change (Style)",
            |turn| { compact(turn, Style::modern()) },
        ),
        (
            "<S as TableOption<R, CompactConfig, D>>::change (Theme)",
            |turn| {
                let theme = theme(turn.alloc())?;
                compact(turn, theme)
            },
        ),
    ]
}

/// The same of cells of many lines.
pub(crate) fn on_lines() -> [Named; 7] {
    [
        (
            "<S as TableOption<R, CompactMultilineConfig, D>>::change (Alignment)",
            |turn| { lines(turn, Alignment::bottom()) },
        ),
        (
            "<S as TableOption<R, CompactMultilineConfig, D>>::change (AlignmentStrategy)",
            |turn| { lines(turn, AlignmentStrategy::PerLine) },
        ),
        (
            "<S as TableOption<R, CompactMultilineConfig, D>>::change (Borders)",
            |turn| { lines(turn, record()) },
        ),
        (
            "<S as TableOption<R, CompactMultilineConfig, D>>::change (PaddingColor)",
            |turn| lines(turn, red_padding()),
        ),
        (
            "<S as TableOption<R, CompactMultilineConfig, D>>::change (MarginColor)",
            |turn| lines(turn, red_margin()),
        ),
        (
            "<S as TableOption<R, CompactMultilineConfig, D>>::change (Style)",
            |turn| lines(turn, Style::modern()),
        ),
        (
            "<S as TableOption<R, CompactMultilineConfig, D>>::change (Theme)",
            |turn| {
                let theme = theme(turn.alloc())?;
                lines(turn, theme)
            },
        ),
    ]
}
