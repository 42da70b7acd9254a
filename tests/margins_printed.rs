//! The margin around tables of texts, worked out by hand: its sizes, its characters, what its offsets leave out, and its colors.

use crate::common::printing::is_picture;
use std::alloc::Global;
use std::test::Fail;
use tabled::grid::config::{Indent, OutOfMemory, Sides};
use tabled::settings::object::{Cell, Segment};
use tabled::settings::style::{BorderColor, Offset};
use tabled::settings::{Color, MarginColor, Shadow, Style};
use tabled::{TableError, TextTable};

/// One cell in a frame of five columns and three lines.
fn one(alloc: Global) -> Result<TextTable, TableError> {
    let mut table = TextTable::new(alloc, &[&["a"]])?;
    table.with(Style::ascii())?;
    Ok(table)
}

/// How wide the margin is in these tests, with a character for each side: one column, two, one line, and two.
fn sizes() -> Sides<Indent> {
    Sides::new(
        Indent::new(1, 'l'),
        Indent::new(2, 'r'),
        Indent::new(1, 't'),
        Indent::new(2, 'b'),
    )
}

/// The table with that margin, and with these offsets at the left, at the right, above and below.
fn with_offsets(alloc: Global, offsets: Sides<Offset>) -> Result<TextTable, TableError> {
    let mut table = one(alloc)?;
    let config = table.config_mut().config_mut();
    config.set_margin(sizes());
    config.set_margin_offset(offsets);
    Ok(table)
}

#[test]
fn a_margin_is_filled_on_each_side(rt: HostRuntime) -> Result<(), Fail> {
    let mut table = one(rt.alloc())?;
    table.config_mut().config_mut().set_margin(sizes());
    let picture = "
tttttttt
l+---+rr
l| a |rr
l+---+rr
bbbbbbbb
bbbbbbbb
";
    assert!(rt; is_picture(table.to_text()?.as_str(), picture));
    assert!(rt; is_picture(table.to_ansi()?.as_str(), picture));
    Ok(())
}

/// Whether the table with these offsets has this text.
fn is_drawn(alloc: Global, offsets: Sides<Offset>, picture: &str) -> Result<bool, TableError> {
    let table = with_offsets(alloc, offsets)?;
    let text = table.to_text()?;
    Ok(is_picture(text.as_str(), picture) && table.to_ansi()? == text)
}

#[test]
fn offsets_leave_out_the_first_places(rt: HostRuntime) -> Result<(), Fail> {
    let (left, right) = (Offset::Start(1), Offset::Start(2));
    let (top, bottom) = (Offset::Start(3), Offset::Start(1));
    let picture = "
   ttttt
 +---+  
l| a |  
l+---+rr
 bbbbbbb
 bbbbbbb
";
    assert!(rt; is_drawn(rt.alloc(), Sides::new(left, right, top, bottom), picture)?);
    Ok(())
}

#[test]
fn offsets_leave_out_the_last_places(rt: HostRuntime) -> Result<(), Fail> {
    let (left, right) = (Offset::End(1), Offset::End(2));
    let (top, bottom) = (Offset::End(3), Offset::End(1));
    let picture = "
ttttt   
l+---+rr
l| a |  
 +---+  
bbbbbbb 
bbbbbbb 
";
    assert!(rt; is_drawn(rt.alloc(), Sides::new(left, right, top, bottom), picture)?);
    Ok(())
}

#[test]
fn offsets_of_a_whole_side_leave_it_out(rt: HostRuntime) -> Result<(), Fail> {
    let picture = "
        
 +---+  
 | a |  
 +---+  
        
        
";
    let (whole_start, whole_end) = (Offset::Start(3), Offset::End(3));
    let (strip_start, strip_end) = (Offset::Start(8), Offset::End(8));
    let just = Sides::new(whole_start, whole_end, strip_start, strip_end);
    assert!(rt; is_drawn(rt.alloc(), just, picture)?);
    let (more, most) = (Offset::Start(9), Offset::End(usize::MAX));
    let larger = Sides::new(more, most, Offset::Start(usize::MAX), Offset::End(9));
    assert!(rt; is_drawn(rt.alloc(), larger, picture)?);
    Ok(())
}

#[test]
fn offsets_of_none_leave_nothing_out(rt: HostRuntime) -> Result<(), Fail> {
    let picture = "
tttttttt
l+---+rr
l| a |rr
l+---+rr
bbbbbbbb
bbbbbbbb
";
    for none in [Offset::Start(0), Offset::End(0)] {
        assert!(rt; is_drawn(rt.alloc(), Sides::filled(none), picture)?);
    }
    Ok(())
}

/// Whether the table with a margin of these sizes alone has this text.
fn is_around(alloc: Global, margin: Sides<Indent>, picture: &str) -> Result<bool, TableError> {
    let mut table = one(alloc)?;
    table.config_mut().config_mut().set_margin(margin);
    let text = table.to_text()?;
    Ok(is_picture(text.as_str(), picture) && table.to_ansi()? == text)
}

#[test]
fn a_margin_may_have_one_side(rt: HostRuntime) -> Result<(), Fail> {
    let (none, some) = (Indent::new(0, 'x'), Indent::new(2, '.'));
    let left = "\n..+---+\n..| a |\n..+---+\n";
    assert!(rt; is_around(rt.alloc(), Sides::new(some, none, none, none), left)?);
    let right = "\n+---+..\n| a |..\n+---+..\n";
    assert!(rt; is_around(rt.alloc(), Sides::new(none, some, none, none), right)?);
    let top = "\n.....\n.....\n+---+\n| a |\n+---+\n";
    assert!(rt; is_around(rt.alloc(), Sides::new(none, none, some, none), top)?);
    let bottom = "\n+---+\n| a |\n+---+\n.....\n.....\n";
    assert!(rt; is_around(rt.alloc(), Sides::new(none, none, none, some), bottom)?);
    let nothing = "\n+---+\n| a |\n+---+\n";
    assert!(rt; is_around(rt.alloc(), Sides::filled(none), nothing)?);
    Ok(())
}

#[test]
fn a_margin_may_be_of_characters_of_several_bytes(rt: HostRuntime) -> Result<(), Fail> {
    let (none, line) = (Indent::default(), Indent::new(1, '─'));
    let picture = "\n─────\n+---+\n| a |\n+---+\n";
    assert!(rt; is_around(rt.alloc(), Sides::new(none, none, line, none), picture)?);
    Ok(())
}

#[test]
fn a_character_that_is_not_surely_one_column_wide_leaves_a_margin_blank(
    rt: HostRuntime,
) -> Result<(), Fail> {
    let left = |fill| Sides::new(Indent::new(2, fill), Indent::default(), Indent::default(), Indent::default());
    let blank = "\n  +---+\n  | a |\n  +---+\n";
    // a wide one, an accent, an emoji, a letter that is joined to one before it
    for fill in ['漢', '\u{301}', '🍏', '\u{627}', '\t', '\n'] {
        assert!(rt; is_around(rt.alloc(), left(fill), blank)?);
    }
    let dots = "\n••+---+\n••| a |\n••+---+\n";
    assert!(rt; is_around(rt.alloc(), left('•'), dots)?);
    Ok(())
}

#[test]
fn a_margin_is_as_long_as_lines_without_borders(rt: HostRuntime) -> Result<(), Fail> {
    let mut table = TextTable::new(rt.alloc(), &[&["a", "bb"], &["c\nd", "e"]])?;
    table
        .config_mut()
        .config_mut()
        .set_margin(Sides::filled(Indent::new(1, '.')));
    let picture = "
.........
. a  bb .
. c  e  .
. d     .
.........
";
    assert!(rt; is_picture(table.to_text()?.as_str(), picture));
    table.with(Style::psql())?;
    let picture = "
..........
. a | bb .
.---+----.
. c | e  .
. d |    .
..........
";
    assert!(rt; is_picture(table.to_text()?.as_str(), picture));
    Ok(())
}

#[test]
fn a_margin_around_a_table_without_places_is_nothing(rt: HostRuntime) -> Result<(), Fail> {
    let tables: [&[&[&str]]; 2] = [&[], &[&[], &[]]];
    for rows in tables {
        let mut table = TextTable::new(rt.alloc(), rows)?;
        table.with(Style::ascii())?;
        table.config_mut().config_mut().set_margin(sizes());
        assert_eq!(rt; table.to_text()?.as_str(), "");
        assert_eq!(rt; table.to_ansi()?.as_str(), "");
        let mut text = String::from_str(rt.alloc(), "before:")?;
        table.append_to(&mut text)?;
        table.append_ansi_to(&mut text)?;
        assert_eq!(rt; text.as_str(), "before:");
    }
    Ok(())
}

/// The color that one sign begins and another one ends.
fn signs(alloc: Global, begin: &str, end: &str) -> Result<Color, TableError> {
    Ok(Color::new(alloc, begin, end)?)
}

/// A color for each side of the margin.
fn four_colors(alloc: Global) -> Result<MarginColor<Color>, TableError> {
    Ok(MarginColor::new(
        signs(alloc, "<", ">")?,
        signs(alloc, "[", "]")?,
        signs(alloc, "{", "}")?,
        signs(alloc, "(", ")")?,
    ))
}

#[test]
fn each_side_of_a_margin_has_its_color(rt: HostRuntime) -> Result<(), Fail> {
    let alloc = rt.alloc();
    let (left, right) = (Offset::Start(1), Offset::End(1));
    let (top, bottom) = (Offset::End(2), Offset::Start(3));
    let mut table = with_offsets(alloc, Sides::new(left, right, top, bottom))?;
    table.with(four_colors(alloc)?)?;
    let picture = "
{tttttt}  
 +---+[rr]
<l>| a |[rr]
<l>+---+  
   (bbbbb)
   (bbbbb)
";
    assert!(rt; is_picture(table.to_ansi()?.as_str(), picture));
    let plain = "
tttttt  
 +---+rr
l| a |rr
l+---+  
   bbbbb
   bbbbb
";
    assert!(rt; is_picture(table.to_text()?.as_str(), plain));
    Ok(())
}

#[test]
fn a_margin_and_a_border_of_one_color_are_written_as_one(rt: HostRuntime) -> Result<(), Fail> {
    let alloc = rt.alloc();
    let mut table = one(alloc)?;
    let side = Indent::new(1, '.');
    table.config_mut().config_mut().set_margin(Sides::new(
        side,
        side,
        Indent::default(),
        Indent::default(),
    ));
    table.with(MarginColor::filled(alloc, signs(alloc, "<", ">")?)?)?;
    let frame = BorderColor::new()
        .left(signs(alloc, "<", ">")?)
        .right(signs(alloc, "[", "]")?);
    table.modify(Cell::new(0, 0), frame)?;
    let picture = "
<.>+---+<.>
<.|> a [|]<.>
<.>+---+<.>
";
    assert!(rt; is_picture(table.to_ansi()?.as_str(), picture));
    Ok(())
}

#[test]
fn a_shadow_falls_on_two_sides(rt: HostRuntime) -> Result<(), Fail> {
    let mut table = one(rt.alloc())?;
    table.with(Shadow::new(2).set_fill('#').set_offset(2))?;
    let picture = "
+---+  
| a |  
+---+##
  #####
  #####
";
    assert!(rt; is_picture(table.to_text()?.as_str(), picture));
    table.with(Shadow::new(1).set_top().set_left())?;
    let picture = "
▒▒▒▒▒ 
▒+---+
▒| a |
 +---+
";
    assert!(rt; is_picture(table.to_text()?.as_str(), picture));
    Ok(())
}

#[test]
fn a_shadow_has_a_color(rt: HostRuntime) -> Result<(), Fail> {
    let alloc = rt.alloc();
    let mut table = one(alloc)?;
    table.with(
        Shadow::new(1)
            .set_fill('#')
            .set_color(signs(alloc, "<", ">")?),
    )?;
    table.modify(Segment::all(), signs(alloc, "[", "]")?)?;
    let picture = "
+---+ 
| [a] |<#>
+---+<#>
 <#####>
";
    assert!(rt; is_picture(table.to_ansi()?.as_str(), picture));
    Ok(())
}

#[test]
fn a_table_with_a_margin_is_appended(rt: HostRuntime) -> Result<(), Fail> {
    let mut table = TextTable::new(rt.alloc(), &[&["a"]])?;
    table.with(Shadow::new(1).set_fill('#'))?;
    let mut text = String::from_str(rt.alloc(), "before:")?;
    table.append_to(&mut text)?;
    assert_eq!(rt; text.as_str(), "before: a  \n ###");
    let mut text = String::new(rt.alloc());
    table.write_to(&mut text)?;
    assert_eq!(rt; text.as_str(), " a  \n ###");
    Ok(())
}

#[test]
fn a_margin_that_no_memory_holds_is_refused(rt: HostRuntime) -> Result<(), Fail> {
    let mut table = one(rt.alloc())?;
    let (most, none) = (Indent::new(usize::MAX, '.'), Indent::default());
    for margin in [
        Sides::new(most, none, Indent::new(1, '.'), none),
        Sides::new(none, most, none, Indent::new(1, '.')),
        Sides::new(most, most, Indent::new(1, '.'), none),
        Sides::new(none, none, most, none),
        Sides::new(none, none, none, most),
        Sides::new(most, none, none, none),
        Sides::new(none, most, none, none),
        Sides::new(most, most, none, none),
    ] {
        table.config_mut().config_mut().set_margin(margin);
        let mut text = String::from_str(rt.alloc(), "before:")?;
        assert!(rt; table.append_to(&mut text) == Err(OutOfMemory));
        assert!(rt; table.append_ansi_to(&mut text) == Err(OutOfMemory));
        assert_eq!(rt; text.as_str(), "before:");
    }
    Ok(())
}
