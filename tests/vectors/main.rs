//! The named cases of the program `vectors`, stated from documents 01 and 02 and answered by the independent implementation:
//! one line a case, in the program's words.

mod batches;
mod cases;
mod files;
mod leftovers;
mod lines;
mod orders;
#[path = "../compare/reference.rs"]
#[allow(dead_code)]
mod reference;
mod through;
mod updates;
mod writing;

use reference::Order;

fn main() {
    cases::examples();
    writing::limits();
    cases::settings();
    cases::filling();
    cases::opening();
    cases::contents();
    writing::appending();
    cases::ordering();
    cases::every_call(Order::Little);
    orders::big_settings();
    orders::big_filling();
    orders::big_opening();
    orders::big_contents();
    orders::stored_bytes();
    orders::full_numbers();
    writing::big_appending();
    orders::big_ordering();
    cases::every_call(Order::Big);
    orders::other_code();
    leftovers::leftovers();
    batches::batches();
    updates::updates();
    through::through();
}
