//! The deepest stack use of a call: the stack below the caller is painted, and the deepest byte that is no longer paint is looked for after the call.

const PAINT: u8 = 0xA5;
/// How much is painted; more than any call takes.
const PAINTED: usize = 512 * 1024;
/// Left out next to the caller, for the frames of `paint` and `unpainted` themselves.
const MARGIN: usize = 512;

/// An address in the frame of the function that calls this one.
#[inline(always)]
fn here() -> usize {
    let mark = 0u8;
    std::ptr::from_ref(std::hint::black_box(&mark)) as usize
}

#[inline(never)]
fn paint(top: usize) {
    for address in top - PAINTED..top - MARGIN {
        // SAFETY: the thread of `deepest` has a stack twice as large as what is painted, so the address is its own; nothing lives there, as the frames in use, this one among
        // them, end within the margin.
        unsafe { std::ptr::write_volatile(address as *mut u8, PAINT) }
    }
}

/// The lowest address whose byte is not paint.
#[inline(never)]
fn unpainted(top: usize) -> usize {
    let mut address = top - PAINTED;
    // SAFETY: as above; the bytes were written by `paint` or by the call.
    while address < top - MARGIN && unsafe { std::ptr::read_volatile(address as *const u8) } == PAINT {
        address += 1;
    }
    address
}

#[inline(never)]
fn measure(call: &mut dyn FnMut()) -> usize {
    let top = here();
    paint(top);
    call();
    top - unpainted(top)
}

/// The bytes of stack that a call takes, on a thread of its own. The call is made once before, so that what the system does at a first call is not counted.
pub fn deepest(mut call: impl FnMut() + Send) -> usize {
    std::thread::scope(|scope| {
        let builder = std::thread::Builder::new().stack_size(2 * PAINTED);
        let thread = builder.spawn_scoped(scope, || {
            call();
            measure(&mut call)
        });
        thread.expect("a thread").join().expect("no panic")
    })
}
