//! The examples that documents show are files that are compiled and run.

/// The text between the first two of these marks.
fn block<'a>(text: &'a str, from: &str) -> &'a str {
    let (_, text) = text.split_once(from).unwrap_or_default();
    text.split("```\n").next().unwrap_or_default()
}

#[test]
fn the_repository_s_readme_shows_draw_panel() {
    let shown = block(include_str!("../../../README.md"), "```rust\n");
    assert_eq!(shown, include_str!("../examples/draw_panel.rs"));
}

#[test]
fn the_crate_s_readme_shows_the_recipes() {
    let readme = include_str!("../README.md");
    let kurbo = include_str!("../recipes/src/bez_path.rs");
    let lyon = include_str!("../recipes/src/lyon_path.rs");
    for recipe in [kurbo, lyon] {
        let shown = format!("```rust,ignore\n{recipe}```\n");
        assert!(readme.contains(&shown), "{recipe}");
    }
}
