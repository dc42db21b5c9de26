//! Empty: no unchanged file uses anything of it.
