//! Links the archives that `.ci/archive desk` and `.ci/archive price` write. Without the first
//! `BUILT` is false, and without the second `price::BUILT`.

#[path = "../link_archive.rs"]
mod link_archive;

fn main() {
    link_archive::link("desk");
    link_archive::link("price");
}
