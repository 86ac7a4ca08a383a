use command::output;
use std::env;
use std::process::ExitCode;

fn main() -> ExitCode {
    output::note_closed(closed::was_output_closed());
    let given: Vec<_> = env::args_os().skip(1).collect();
    ExitCode::from(command::words::run(&given) as u8)
}

/// Whether standard output was closed from the beginning. Before `main` begins, the standard library opens /dev/null in
/// the place of a standard stream that is closed, and what is written there is lost without an error; so this looks
/// before that.
#[cfg(target_os = "linux")]
mod closed {
    use std::sync::atomic::{AtomicBool, Ordering};

    static CLOSED: AtomicBool = AtomicBool::new(false);

    #[used]
    #[link_section = ".init_array"]
    static LOOK: extern "C" fn() = look;

    extern "C" {
        fn fcntl(descriptor: i32, command: i32, ...) -> i32;
    }

    extern "C" fn look() {
        const OUTPUT: i32 = 1;
        const GET_FLAGS: i32 = 1;
        // SAFETY: asking for the flags of a descriptor changes nothing, and fails for one that isn't open.
        if unsafe { fcntl(OUTPUT, GET_FLAGS) } == -1 {
            CLOSED.store(true, Ordering::Relaxed);
        }
    }

    pub fn was_output_closed() -> bool {
        CLOSED.load(Ordering::Relaxed)
    }
}

#[cfg(not(target_os = "linux"))]
mod closed {
    pub fn was_output_closed() -> bool {
        false
    }
}
