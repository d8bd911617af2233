//! Links the archive that `.ci/archive queue` writes. Without it `BUILT` is false.

#[path = "../link_archive.rs"]
mod link_archive;

fn main() {
    link_archive::link("queue");
}
