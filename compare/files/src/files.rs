//! The readers, on every number and place, on damaged good files and on random bytes.

use crate::Settings;
use crate::compared_files::Compared;
use crate::damaged_files;
use crate::damaged_list;
use crate::edges;
use crate::made_files;

pub fn run(settings: &Settings) -> String {
    let mut compared = Compared::default();
    for (format, file) in damaged_list::list() {
        compared.file(format, &file);
    }
    made_files::run(&mut compared);
    edges::run(&mut compared);
    damaged_files::run(settings, &mut compared);
    compared.told()
}
