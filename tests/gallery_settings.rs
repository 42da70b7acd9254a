//! The pictures of the gallery for colors, room and spans, as `tests/gallery.rs` has those for borders.

use crate::common::printing::{is_in_color, is_picture};
use std::test::Fail;
use tabled_uses::{options, recipes, values};

#[test]
fn in_color_is_drawn(rt: HostRuntime) -> Result<(), Fail> {
    let text = recipes::in_color(rt.alloc())?;
    let picture = "
╭───────┬─────╮     bbbbbbbbbbbbbbb
│ name  │ age │     b name  b age b
├───────┼─────┤     bbbbbbbbbbbbbbb
│ Alice │ 30  │     b Alice b rr  b
│ Bob   │ 7   │     b Bob   b r   b
╰───────┴─────╯     bbbbbbbbbbbbbbb
";
    let colors = [("[34", 'b'), ("[31", 'r')];
    assert!(rt; is_in_color(rt.alloc(), text.as_str(), picture, &colors)?);
    Ok(())
}

#[test]
fn shadow_is_drawn(rt: HostRuntime) -> Result<(), Fail> {
    let text = recipes::shadow(rt.alloc())?;
    let picture = "
╭───────┬─────╮ 
│ name  │ age │▒
├───────┼─────┤▒
│ Alice │ 30  │▒
│ Bob   │ 7   │▒
╰───────┴─────╯▒
 ▒▒▒▒▒▒▒▒▒▒▒▒▒▒▒
";
    assert!(rt; is_picture(text.as_str(), picture));
    Ok(())
}

#[test]
fn colors_in_turn_are_drawn(rt: HostRuntime) -> Result<(), Fail> {
    let text = options::colors_in_turn(rt.alloc())?;
    let picture = "
┌───────┬─────┐     ┌───────┬─────┐
│ name  │ age │     │bbbbbbb│bbbbb│
├───────┼─────┤     ├───────┼─────┤
│ Alice │ 30  │     │ggggggg│ggggg│
│ Bob   │ 7   │     │bbbbbbb│bbbbb│
└───────┴─────┘     └───────┴─────┘
";
    let colors = [("[44", 'b'), ("[42", 'g')];
    assert!(rt; is_in_color(rt.alloc(), text.as_str(), picture, &colors)?);
    Ok(())
}

#[test]
fn color_of_an_object_is_drawn(rt: HostRuntime) -> Result<(), Fail> {
    let text = options::color_of_an_object(rt.alloc())?;
    let picture = "
┌───────┬─────┐     ┌───────┬─────┐
│ name  │ age │     │ name  │ggggg│
├───────┼─────┤     ├───────┼─────┤
│ Alice │ 30  │     │ Alice │ggggg│
│ Bob   │ 7   │     │ Bob   │ggggg│
└───────┴─────┘     └───────┴─────┘
";
    let colors = [("[42", 'g')];
    assert!(rt; is_in_color(rt.alloc(), text.as_str(), picture, &colors)?);
    Ok(())
}

#[test]
fn outline_in_color_is_drawn(rt: HostRuntime) -> Result<(), Fail> {
    let text = options::outline_in_color(rt.alloc())?;
    let picture = "
+-------+-----+     +-------+-----+
| name  | age |     | name  | age |
+-------+-----+     rrrrrrrrrrrrrrr
| Alice | 30  |     r Alice | 30  r
+-------+-----+     rrrrrrrrrrrrrrr
| Bob   | 7   |     | Bob   | 7   |
+-------+-----+     +-------+-----+
";
    let colors = [("[31", 'r')];
    assert!(rt; is_in_color(rt.alloc(), text.as_str(), picture, &colors)?);
    Ok(())
}

#[test]
fn spaces_in_color_are_drawn(rt: HostRuntime) -> Result<(), Fail> {
    let text = options::spaces_in_color(rt.alloc())?;
    let picture = "
+-------+-----+     +-------+-----+
| name  | age |     |bnamegb|bageb|
+-------+-----+     +-------+-----+
| Alice | 30  |     |bAliceb|b30gb|
+-------+-----+     +-------+-----+
| Bob   | 7   |     |bBobggb|b7ggb|
+-------+-----+     +-------+-----+
";
    let colors = [("[44", 'b'), ("[42", 'g')];
    assert!(rt; is_in_color(rt.alloc(), text.as_str(), picture, &colors)?);
    Ok(())
}

#[test]
fn shadow_in_color_is_drawn(rt: HostRuntime) -> Result<(), Fail> {
    let text = options::shadow_in_color(rt.alloc())?;
    let picture = "
###############      rrrrrrrrrrrrrrr 
#╭───────┬─────╮     r╭───────┬─────╮
#│ name  │ age │     r│ name  │ age │
#├───────┼─────┤     r├───────┼─────┤
#│ Alice │ 30  │     r│ Alice │ 30  │
#│ Bob   │ 7   │     r│ Bob   │ 7   │
 ╰───────┴─────╯      ╰───────┴─────╯
";
    let colors = [("[31", 'r')];
    assert!(rt; is_in_color(rt.alloc(), text.as_str(), picture, &colors)?);
    Ok(())
}

#[test]
fn table_without_padding_is_drawn(rt: HostRuntime) -> Result<(), Fail> {
    let text = options::table_without_padding(rt.alloc())?;
    let picture = "
╭─────┬───╮
│name │age│
├─────┼───┤
│Alice│ 30│
│Bob  │  7│
╰─────┴───╯
";
    assert!(rt; is_picture(text.as_str(), picture));
    Ok(())
}

#[test]
fn margin_in_color_is_drawn(rt: HostRuntime) -> Result<(), Fail> {
    let text = options::margin_in_color(rt.alloc())?;
    let picture = "
.................     rrrrrrrrrrrrrrrrr
.╭───────┬─────╮.     r╭───────┬─────╮r
.│ name  │ age │.     r│ name  │ age │r
.├───────┼─────┤.     r├───────┼─────┤r
.│ Alice │ 30  │.     r│ Alice │ 30  │r
.│ Bob   │ 7   │.     r│ Bob   │ 7   │r
.╰───────┴─────╯.     r╰───────┴─────╯r
.................     rrrrrrrrrrrrrrrrr
";
    let colors = [("[31", 'r')];
    assert!(rt; is_in_color(rt.alloc(), text.as_str(), picture, &colors)?);
    Ok(())
}

#[test]
fn margin_is_drawn(rt: HostRuntime) -> Result<(), Fail> {
    let text = recipes::margin(rt.alloc())?;
    let picture = "
vvvvvvvvvvvvvvvvvvv
<<╭───────┬─────╮>>
<<│ name  │ age │>>
<<├───────┼─────┤>>
<<│ Alice │ 30  │>>
<<│ Bob   │ 7   │>>
<<╰───────┴─────╯>>
^^^^^^^^^^^^^^^^^^^
";
    assert!(rt; is_picture(text.as_str(), picture));
    Ok(())
}

#[test]
fn bold_row_on_its_ground_is_drawn(rt: HostRuntime) -> Result<(), Fail> {
    let text = values::bold_row_on_its_ground(rt.alloc())?;
    let picture = "
╭──────┬─────╮     ╭──────┬─────╮
│ name │ age │     │BBBBBB│BBBBB│
├──────┼─────┤     ├──────┼─────┤
│ Bob  │ 7   │     │gggggg│ggggg│
╰──────┴─────╯     ╰──────┴─────╯
";
    let colors = [("[1", 'B'), ("[42", 'g')];
    assert!(rt; is_in_color(rt.alloc(), text.as_str(), picture, &colors)?);
    Ok(())
}

#[test]
fn first_row_on_a_ground_is_drawn(rt: HostRuntime) -> Result<(), Fail> {
    let text = values::first_row_on_a_ground(rt.alloc())?;
    let picture = "
╭──────┬─────╮     ╭──────┬─────╮
│ name │ age │     │bbbbbb│bbbbb│
├──────┼─────┤     ├──────┼─────┤
│ Bob  │ 7   │     │ Bob  │ 7   │
╰──────┴─────╯     ╰──────┴─────╯
";
    let colors = [("[44", 'b')];
    assert!(rt; is_in_color(rt.alloc(), text.as_str(), picture, &colors)?);
    Ok(())
}
