//! The README has the front page of the documentation.

#[test]
fn the_readme_has_the_front_page() {
    assert!(include_str!("../README.md").contains(include_str!("../src/front.md")), "README.md has another table");
}
