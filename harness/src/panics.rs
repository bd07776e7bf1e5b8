//! Panics of the reference are answers (numbers 21 and 25): they are caught
//! without a word, and the place where they arose is kept.

use std::cell::{Cell, RefCell};
use std::panic::{self, AssertUnwindSafe, PanicHookInfo};
use std::sync::Once;

thread_local! {
    static EXPECTED: Cell<bool> = const { Cell::new(false) };
    static SITE: RefCell<String> = const { RefCell::new(String::new()) };
}

static HOOK: Once = Once::new();

/// What `run` gives, or the source line at which it panicked.
pub fn caught<T>(run: impl FnOnce() -> T) -> Result<T, String> {
    HOOK.call_once(install_hook);
    EXPECTED.set(true);
    let result = panic::catch_unwind(AssertUnwindSafe(run));
    EXPECTED.set(false);
    result.map_err(|_| SITE.take())
}

fn install_hook() {
    let loud = panic::take_hook();
    panic::set_hook(Box::new(move |info| {
        if EXPECTED.get() {
            SITE.set(site(info));
        } else {
            loud(info);
        }
    }));
}

fn site(info: &PanicHookInfo) -> String {
    let Some(location) = info.location() else {
        return String::new();
    };
    let file = location.file().rsplit('/').next().unwrap_or_default();
    format!("{file}:{}", location.line())
}
