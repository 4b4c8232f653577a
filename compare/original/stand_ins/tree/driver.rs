// Stands in for driver: the one name that str.rs takes from it. What can't be seen: files and modules.

pub const MAIN_STR: &str = "main";
