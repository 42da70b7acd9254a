//! The functions of `tabled_uses`, each with the picture that it draws; `docs/GALLERY.md` is made of them.

use crate::common::printing::is_picture;
use std::test::Fail;
use tabled_uses::{options, own_option, recipes};

#[test]
fn first_table_is_drawn(rt: HostRuntime) -> Result<(), Fail> {
    let text = recipes::first_table(rt.alloc())?;
    let picture = "
╭───────┬─────╮
│ name  │ age │
├───────┼─────┤
│ Alice │ 30  │
│ Bob   │ 7   │
╰───────┴─────╯
";
    assert!(rt; is_picture(text.as_str(), picture));
    Ok(())
}

#[test]
fn numbers_at_the_right_are_drawn(rt: HostRuntime) -> Result<(), Fail> {
    let text = recipes::numbers_at_the_right(rt.alloc())?;
    let picture = "
╭───────┬─────╮
│ name  │ age │
├───────┼─────┤
│ Alice │  30 │
│ Bob   │   7 │
╰───────┴─────╯
";
    assert!(rt; is_picture(text.as_str(), picture));
    Ok(())
}

#[test]
fn line_below_the_header_is_drawn(rt: HostRuntime) -> Result<(), Fail> {
    let text = recipes::line_below_the_header(rt.alloc())?;
    let picture = "
+-------+-----+
| name  | age |
+=======+=====+
| Alice | 30  |
| Bob   | 7   |
+-------+-----+
";
    assert!(rt; is_picture(text.as_str(), picture));
    Ok(())
}

#[test]
fn borders_on_cells_are_drawn(rt: HostRuntime) -> Result<(), Fail> {
    let text = recipes::borders_on_cells(rt.alloc())?;
    let picture = "
+-------+-----+
| name  # age #
+-------+-----+
| Alice # 30  #
+-------+-----+
# Bob   # 7   #
@-------+-----+
";
    assert!(rt; is_picture(text.as_str(), picture));
    Ok(())
}

#[test]
fn title_in_the_top_line_is_drawn(rt: HostRuntime) -> Result<(), Fail> {
    let text = recipes::title_in_the_top_line(rt.alloc())?;
    let picture = "
┌─── staff ───┐
│ name  │ age │
├───────┼─────┤
│ Alice │ 30  │
├───────┼─────┤
│ Bob   │ 7   │
└───────┴─────┘
";
    assert!(rt; is_picture(text.as_str(), picture));
    Ok(())
}

#[test]
fn outline_around_cells_is_drawn(rt: HostRuntime) -> Result<(), Fail> {
    let text = recipes::outline_around_cells(rt.alloc())?;
    let picture = "
┌───────────┐    
│ a   b   c │ d  
│   ┌───┐   │    
│ e │ f │ g │ h  
│   └───┘   │    
│ i   j   k │ l  
└───────────┌───┐
  m   n   o │ p │
            └───┘
";
    assert!(rt; is_picture(text.as_str(), picture));
    Ok(())
}

#[test]
fn style_by_name_is_drawn(rt: HostRuntime) -> Result<(), Fail> {
    let text = options::style_by_name(rt.alloc(), "markdown")?;
    let picture = "
| name  | age |
|-------|-----|
| Alice | 30  |
| Bob   | 7   |
";
    assert!(rt; is_picture(text.as_str(), picture));
    Ok(())
}

#[test]
fn characters_of_a_style_are_drawn(rt: HostRuntime) -> Result<(), Fail> {
    let text = options::characters_of_a_style(rt.alloc())?;
    let picture = "
╭───────┬─────╮
│ name  │ age │
│ Alice │ 30  │
│ Bob   │ 7   │
╰───────┴─────╯
";
    assert!(rt; is_picture(text.as_str(), picture));
    Ok(())
}

#[test]
fn vertical_line_is_drawn(rt: HostRuntime) -> Result<(), Fail> {
    let text = options::vertical_line(rt.alloc())?;
    let picture = "
+-------+-----+
| name  ! age |
+-------+-----+
| Alice ! 30  |
+-------+-----+
| Bob   ! 7   |
+-------+-----+
";
    assert!(rt; is_picture(text.as_str(), picture));
    Ok(())
}

#[test]
fn border_of_the_table_is_drawn(rt: HostRuntime) -> Result<(), Fail> {
    let text = options::border_of_the_table(rt.alloc())?;
    let picture = "
###############
# name  | age #
#-------+-----#
# Alice | 30  #
#-------+-----#
# Bob   | 7   #
###############
";
    assert!(rt; is_picture(text.as_str(), picture));
    Ok(())
}

#[test]
fn table_without_a_border_is_drawn(rt: HostRuntime) -> Result<(), Fail> {
    let text = options::table_without_a_border(rt.alloc())?;
    let picture = "
 name  | age 
-------+-----
 Alice | 30  
-------+-----
 Bob   | 7   
";
    assert!(rt; is_picture(text.as_str(), picture));
    Ok(())
}

#[test]
fn cells_without_a_border_are_drawn(rt: HostRuntime) -> Result<(), Fail> {
    let text = options::cells_without_a_border(rt.alloc())?;
    let picture = "
+-------+-----+
# name  | age |
+-------+-----+
| Alice | 30  |
+-------+-----+
# Bob   | 7   |
+-------+-----+
";
    assert!(rt; is_picture(text.as_str(), picture));
    Ok(())
}

#[test]
fn rows_and_cells_of_ranges_are_drawn(rt: HostRuntime) -> Result<(), Fail> {
    let text = options::rows_and_cells_of_ranges(rt.alloc())?;
    let picture = "
+-------+-----+
> name  > age |
+-------+-----+
| Alice |  30 |
+-------+-----+
> Bob   >   7 |
+-------+-----+
";
    assert!(rt; is_picture(text.as_str(), picture));
    Ok(())
}

#[test]
fn outline_within_the_frame_is_drawn(rt: HostRuntime) -> Result<(), Fail> {
    let text = options::outline_within_the_frame(rt.alloc())?;
    let picture = "
+---+---+---+---+
| a | b | c | d |
+---*********---+
| e * f | g > h |
+---*---+---*---+
| i * j | k > l |
+---*********---+
| m | n | o > p |
+---+---+---+---+
";
    assert!(rt; is_picture(text.as_str(), picture));
    Ok(())
}

#[test]
fn cells_of_one_object_and_not_of_another_are_drawn(rt: HostRuntime) -> Result<(), Fail> {
    let text = options::cells_of_one_object_and_not_of_another(rt.alloc())?;
    let picture = "
+-------+-----+
| name  | age |
+-------+-----+
> Alice | 30  |
+-------+-----+
> Bob   | 7   |
+-------+-----+
";
    assert!(rt; is_picture(text.as_str(), picture));
    Ok(())
}

#[test]
fn outline_of_cells_that_touch_is_drawn(rt: HostRuntime) -> Result<(), Fail> {
    let text = options::outline_of_cells_that_touch(rt.alloc())?;
    let picture = "
┌───────┐      
│ name  │ age  
└───────┼─────┐
  Alice │ 30  │
┌───────┼─────┘
│ Bob   │ 7    
└───────┘      
";
    assert!(rt; is_picture(text.as_str(), picture));
    Ok(())
}

#[test]
fn cells_of_a_list_are_drawn(rt: HostRuntime) -> Result<(), Fail> {
    let text = options::cells_of_a_list(rt.alloc())?;
    let picture = "
+-------+-----+
| name  | age |
*********-----+
* Alice * 30  |
***************
| Bob   * 7   *
+-------*******
";
    assert!(rt; is_picture(text.as_str(), picture));
    Ok(())
}

#[test]
fn title_down_the_side_is_drawn(rt: HostRuntime) -> Result<(), Fail> {
    let text = options::title_down_the_side(rt.alloc())?;
    let picture = "
s-------+-----+
t name  | age |
a-------+-----+
f Alice | 30  |
f-------+-----+
| Bob   | 7   |
+-------+-----+
";
    assert!(rt; is_picture(text.as_str(), picture));
    Ok(())
}

#[test]
fn marks_above_a_row_are_drawn(rt: HostRuntime) -> Result<(), Fail> {
    let text = options::marks_above_a_row(rt.alloc())?;
    let picture = "
| name  | age |
|------:|----:|
| Alice | 30  |
| Bob   | 7   |
";
    assert!(rt; is_picture(text.as_str(), picture));
    Ok(())
}

#[test]
fn theme_is_drawn(rt: HostRuntime) -> Result<(), Fail> {
    let text = options::theme(rt.alloc())?;
    let picture = "
╭───────┬─────╮
│ name  : age │
├───────┼─────┤
│ Alice : 30  │
╞═══════╪═════╡
│ Bob   : 7   │
╰───────┴─────╯
";
    assert!(rt; is_picture(text.as_str(), picture));
    Ok(())
}

#[test]
fn default_character_is_drawn(rt: HostRuntime) -> Result<(), Fail> {
    let text = options::default_character(rt.alloc())?;
    let picture = "
...............
. name  | age .
.-------+-----.
. Alice | 30  .
...............
. Bob   | 7   .
...............
";
    assert!(rt; is_picture(text.as_str(), picture));
    Ok(())
}

#[test]
fn tall_and_wide_cells_are_drawn(rt: HostRuntime) -> Result<(), Fail> {
    let text = options::tall_and_wide_cells(rt.alloc())?;
    let picture = "
+----------+------+
| Ada      | 1815 |
| Lovelace |      |
+----------+------+
| 東京     | 都   |
+----------+------+
";
    assert!(rt; is_picture(text.as_str(), picture));
    Ok(())
}

#[test]
fn own_option_is_drawn(rt: HostRuntime) -> Result<(), Fail> {
    let text = own_option::own_option(rt.alloc())?;
    let picture = "
***************
* name  * age *
***************
* Alice * 30  *
***************
* Bob   * 7   *
***************
";
    assert!(rt; is_picture(text.as_str(), picture));
    Ok(())
}

#[test]
fn lines_one_by_one_are_drawn(rt: HostRuntime) -> Result<(), Fail> {
    let text = options::lines_one_by_one(rt.alloc())?;
    let picture = "
+------------+---------+
|    Ada     | 1815    |
|  Lovelace  | to 1852 |
+------------+---------+
";
    assert!(rt; is_picture(text.as_str(), picture));
    Ok(())
}

#[test]
fn filled_cells_are_drawn(rt: HostRuntime) -> Result<(), Fail> {
    let text = options::filled_cells(rt.alloc())?;
    let picture = "
+-------+-----+
| name. | age |
+-------+-----+
| Alice | .30 |
+-------+-----+
| Bob.. | ..7 |
+-------+-----+
";
    assert!(rt; is_picture(text.as_str(), picture));
    Ok(())
}

#[test]
fn text_at_the_bottom_is_drawn(rt: HostRuntime) -> Result<(), Fail> {
    let text = options::text_at_the_bottom(rt.alloc())?;
    let picture = "
+---+-----+
| 1 |     |
| 2 |     |
| 3 | low |
+---+-----+
";
    assert!(rt; is_picture(text.as_str(), picture));
    Ok(())
}
